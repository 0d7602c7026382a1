#!/bin/sh
# Proves the C interface, builds its archive, and runs tests/c/calls.c and tests/c/long_show.c against what is
# stored beside them and the program of README.md against what is printed below it there; compiles the header
# file as C++ too. Exit status 0: as stored; 1: it differs; 2: it wasn't built. `--store` writes what the first
# two print instead. ARCHIVE=FILE takes that archive, and builds and proves none.
cd "$(dirname "$0")/.." || exit 2
. tools/original.sh
archive=target/original/libprophesee_raw_c.a
out=target/c_interface
mkdir -p "$out" && build_archive || exit 2
compile() { ${CC:-cc} -std=c11 -Wall -Wextra -Werror -O1 -Iinclude "$1" "$archive" -o "$2"; }

${CXX:-c++} -std=c++17 -Wall -Wextra -Werror -Iinclude -fsyntax-only tests/c/header.cpp || exit 2
for name in calls long_show; do
    compile tests/c/$name.c "$out/$name" && "$out/$name" >"$out/$name.out" || exit 2
    if [ "$1" = --store ]; then
        cp "$out/$name.out" tests/c/$name.out
    else
        diff tests/c/$name.out "$out/$name.out" || exit 1
    fi
done
[ "$1" = --store ] && exit

# the first block of C in README.md, and the first block behind 'It prints'
awk '/^```c$/ { p = 1; next } p && /^```$/ { exit } p' README.md >"$out/readme.c"
awk '/^It prints$/ { p = 1; next } p && /^```$/ { if (n++) exit; next } n' README.md >"$out/readme.expected"
[ -s "$out/readme.expected" ] && compile "$out/readme.c" "$out/readme" && "$out/readme" >"$out/readme.out" || exit 2
diff "$out/readme.expected" "$out/readme.out" || exit 1
echo "c_interface: ok"

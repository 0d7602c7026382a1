#!/bin/sh
# Counts the instructions of prophesee_read_number, with all that it calls, over `12x` and over `12x` with 1 MiB of digits behind it
# (tools/number_cost.c, valgrind's callgrind). No byte behind the place is read, so the two are the same. Besides, those of
# prophesee_parse_header, which looks at every byte of its lines whatever numbers they have: a geometry without a size, with 1 MiB of
# digits behind the bad letter, and with 1 MiB of zeros before it, which the number reader has to read.
#   tools/number_cost.sh
# ARCHIVE=FILE takes that archive, and builds and proves none. Exit status 0: the first two are the same; 1: not; 2: not built or not counted.
cd "$(dirname "$0")/.." || exit 2
. tools/original.sh
build_archive || exit 2
program=target/number_cost log=target/number_cost.log mib=1048576
${CC:-cc} -std=c11 -Wall -Wextra -Werror -O1 -Iinclude tools/number_cost.c target/original/libprophesee_raw_c.a -o "$program" || exit 2

counted() { # FUNCTION, and the program's words
    function=$1
    shift
    valgrind --tool=callgrind --callgrind-out-file=/dev/null --toggle-collect="$function" "$program" "$@" >"$log" 2>&1 || return 2
    count=$(sed -n 's/^==.*Collected : //p' "$log")
    [ "${count:-0}" -gt 0 ] && echo "$count"
}

short=$(counted prophesee_read_number number 0) && long=$(counted prophesee_read_number number $mib) &&
    header=$(counted prophesee_parse_header behind 0) && behind=$(counted prophesee_parse_header behind $mib) &&
    before=$(counted prophesee_parse_header before $mib) || { cat "$log"; exit 2; }
echo "prophesee_read_number: $short instructions over 12x, $long with 1 MiB of digits behind it"
echo "prophesee_parse_header: $header over a geometry 12ax5, $behind with 1 MiB of digits behind the a, $before with 1 MiB of zeros before it"
[ "$short" = "$long" ]

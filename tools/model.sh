#!/bin/sh
# Holds the model in Python (tools/model) to the vectors, whose answers are the Rust original's where that knows the encoding, and
# to what the rules say of writing and reading together; then the library to the model, through the C interface: a list of cases,
# then random ones.
#   tools/model.sh [CASES [SEED [CASE]]]    CASES: 200,000 if none are named; CASE: this random one alone
# ARCHIVE=FILE takes that archive, and builds and proves none. Exit status 0: no difference; 1: one, with the smallest call found
# that shows it; 2: not built.
cd "$(dirname "$0")/.." || exit 2
. tools/original.sh
mkdir -p target/model && build_archive || exit 2
${CC:-cc} -std=c11 -Wall -Wextra -Werror -O1 -Iinclude tools/model/driver.c target/original/libprophesee_raw_c.a -o target/model/driver || exit 2
python3 -B tools/model/vectors.py && python3 -B tools/model/laws.py || exit 1
exec python3 -B tools/model/compare.py target/model/driver "$@"

#!/bin/sh
# Compares the Rust original with this library on random and damaged recordings, on lists of appends and on single words.
# Recordings with a `%` behind the header's end line, those whose header names EVT2.1, and the words of appends past EVT3's first loop are
# only counted: tools/model.sh compares such.
#   tools/compare.sh CHECKOUT [CASES [SEED [CASE]]]    CHECKOUT: of the original, as tools/original.sh says; CASE: this one alone
# Exit status 0: no difference; 1: one, with the smallest case found that shows it; 2: not built.
[ $# -ge 1 ] || { echo "usage: tools/compare.sh CHECKOUT [CASES [SEED [CASE]]]"; exit 2; }
checkout=$(cd "$1" && pwd) || exit 2
shift
cd "$(dirname "$0")/.." || exit 2
. tools/original.sh
build_with "$checkout" compare || exit 2
exec target/original/compare "$@"

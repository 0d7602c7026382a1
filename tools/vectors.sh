#!/bin/sh
# Makes stdin and stdout of crates/test_vectors and crates/test_vectors_index anew, by the Rust original, those that it doesn't know by the model
# (docs/VECTORS.md).
#   tools/vectors.sh CHECKOUT [PROGRAM]    CHECKOUT as tools/original.sh says; PROGRAM: one of the two alone
[ $# -ge 1 ] || { echo "usage: tools/vectors.sh CHECKOUT [PROGRAM]"; exit 2; }
checkout=$(cd "$1" && pwd) || exit 2
shift
cd "$(dirname "$0")/.." || exit 2
. tools/original.sh
build_original "$checkout" || exit 2
exec python3 tools/vectors.py target/original/from/target/release/oracle "$@"

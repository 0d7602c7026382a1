#!/bin/sh
# Calls every function of the C interface with any arguments at all, for some minutes (tools/rust/random_calls.rs).
#   tools/random_calls.sh MINUTES [SEED [CASE]]    CASE: this one alone
# Exit status 0: no crash and no answer that isn't allowed; 1: one of them; 2: not built.
[ $# -ge 1 ] || { echo "usage: tools/random_calls.sh MINUTES [SEED [CASE]]"; exit 2; }
cd "$(dirname "$0")/.." || exit 2
. tools/original.sh
build_archive || exit 2
rustc --edition 2021 -C opt-level=3 -o target/original/random_calls tools/rust/random_calls.rs \
    -L native=target/original -l static=prophesee_raw_c || exit 2
exec target/original/random_calls "$@"

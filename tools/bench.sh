#!/bin/sh
# Times this library against the Rust original, in one process (tools/rust/bench.rs), and compares what both hand over.
#   tools/bench.sh CHECKOUT [OUT]          every operation on every recording, a line for each; the table for
#                                          docs/PERFORMANCE.md as Markdown to the file OUT, or printed for -
#   tools/bench.sh CHECKOUT --plot         lengths from 1 MiB to 1 GiB, to docs/performance.svg
#   tools/bench.sh CHECKOUT --only open,slice_time [--files evt2,evt3] [--mib 16] [--runs 9] [--spacing 4096]
#                                          these operations alone, on these recordings, on their first 16 MiB, best of
#                                          9 runs, indexes at this spacing: any of the words may be left out
#   tools/bench.sh CHECKOUT --only triggers --files evt2,evt3,evt3dense --processes 5
#                                          the same in so many processes, one after another; then the least, median and
#                                          greatest ratio of each line, as Markdown (tools/bench_ratios.py)
# Operations: read read_exact read_words read_file open slice_index slice_time slice_time_exact append append_exact triggers memory,
# and numbers, which has no recording.
# Recordings: evt2 evt3 evt3dense evt3long (1 GiB) evt21 (sparse) evt21dense; evt3dense and evt3long whole want 10 GiB of memory.
# Of the two of EVT 2.1, which the original doesn't know, ours is timed against a plain loop (tools/rust/bench/plain.rs), but for
# read_words and read_file, which they don't have:
#   tools/bench.sh CHECKOUT --only read,append,triggers --files evt21,evt21dense
# CHECKOUT is of the original, as tools/original.sh says. The archive is built (and proved) first, unless ARCHIVE names one:
#   ARCHIVE=crates/prophesee_raw_c/out/libprophesee_raw_c.a tools/bench.sh CHECKOUT --only append --files evt3
# Recordings are made once, in BENCH_DIR (default /dev/shm/prophesee-bench).
# Exit status 0: measured; 1: what the two hand over differs; 2: it wasn't built.
[ $# -gt 0 ] || { sed -n '2,/^\[/{/^#/p}' "$0"; exit 2; }
checkout=$(cd "$1" && pwd) || exit 2
shift
processes=
left=$#
while [ "$left" -gt 0 ]; do # the other words stay, in their order
    left=$((left - 1))
    if [ "$1" = --processes ]; then
        shift
        processes=${1:-0} left=$((left - 1))
        [ "$processes" -gt 0 ] 2>/dev/null || { echo "bench: --processes needs a number" >&2; exit 2; }
    else
        set -- "$@" "$1"
    fi
    shift
done
here=$(pwd)
case ${ARCHIVE:-} in '' | /*) ;; *) ARCHIVE=$here/$ARCHIVE ;; esac
case ${1:-} in
'' | --only | --files | --mib | --runs | --spacing) ;;
--plot) shift; set -- --plot docs/performance.svg "$@" ;;
--*) echo "bench: unknown: $1" >&2; exit 2 ;;
- | /*) out=$1; shift; set -- --table "$out" "$@" ;;
*) out=$here/$1; shift; set -- --table "$out" "$@" ;;
esac
cd "$(dirname "$0")/.." || exit 2
. tools/original.sh
build_with "$checkout" bench || exit 2
recordings=${BENCH_DIR:-/dev/shm/prophesee-bench}
mkdir -p "$recordings" || exit 2
if [ -z "$processes" ]; then
    target/original/bench "$@" "$recordings" || exit 1
    exit
fi
case ${1:-} in --table | --plot) echo "bench: --processes goes with --only" >&2; exit 2 ;; esac
told=$(mktemp -d) || exit 2
trap 'rm -rf "$told"' EXIT
k=0
while [ "$k" -lt "$processes" ]; do
    k=$((k + 1))
    echo "process $k of $processes"
    target/original/bench "$@" "$recordings" >"$told/$k" || exit 1
    cat "$told/$k"
done
python3 tools/bench_ratios.py "$told"/*

#!/usr/bin/env python3
"""bench_ratios.py FILE ..: what several processes of the benchmark printed, a file each, as a table of ratios (tools/bench.sh --processes).

A row for each operation, a column for each recording; a cell has the least, the median and the greatest ratio.
"""
import re
import statistics
import sys

# the recording, the operation, two times, their ratio, and what the triggers' lines say besides
LINE = re.compile(r'(\S+) +(\S+) +(?:ours|with) .* ratio (\d+\.\d+)(?:  (.*))?$')


def ratios(paths):
    """By operation and recording, in the order of the lines."""
    found = {}
    for path in paths:
        with open(path, encoding='utf-8') as f:
            for recording, operation, ratio, says in (m.groups() for m in map(LINE.match, f.read().splitlines()) if m):
                found.setdefault(says or operation, {}).setdefault(recording, []).append(float(ratio))
    return found


def cell(values):
    return ', '.join(f'{v:.2f}' for v in (min(values), statistics.median(values), max(values))) if values else ''


def main():
    found = ratios(sys.argv[1:])
    if not found:
        sys.exit('bench_ratios: no line with a ratio')
    recordings = list(dict.fromkeys(name for row in found.values() for name in row))
    print(f'| least, median and greatest ratio of {len(sys.argv) - 1} processes | {" | ".join(recordings)} |\n|---|{"---|" * len(recordings)}')
    for operation, row in found.items():
        print(f'| {operation} | {" | ".join(cell(row.get(name)) for name in recordings)} |')


if __name__ == '__main__':
    main()

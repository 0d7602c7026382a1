#!/usr/bin/env python3
"""Makes samples/evt21.raw, a small recording of EVT 2.1, and samples/evt21.txt, its listing as the model gives it (docs/RULES.md, L-1).

An edge of six columns goes across the sensor, one step every 40 microseconds: time words, runs, one of them across a border of 32 columns. Behind it stand
words that the writer doesn't send: a trigger, an empty mask, a type that does nothing, a mask across the sensor's edge, which keeps its first 8 columns,
and a broken last word. `--check`: holds the two files to this instead.
"""
import sys
from pathlib import Path

HERE = Path(__file__).resolve().parent
sys.path.append(str(HERE / 'model'))
import reading
import writer

SAMPLES = HERE.parent / 'samples'
SIZE = 64, 48
BEHIND = [0x8000001800000000,   # coarse time 1,536
          0xA040030100000000,   # a trigger at 1,537, id 3, value 1
          0x10C0000500000000,   # an empty mask: no event, and the time is 1,539
          0xE000000000000000,   # a type that does nothing
          0x1141C02F0000FFFF]   # columns 56 to 71 of row 47 at 1,541
BROKEN = bytes(5)


def edge():
    return [(3 * step + k, 4 * step, 1000 + 40 * step, step % 2) for step in range(12) for k in (0, 1, 2, 4, 7, 9)]


def recording():
    out, _ = writer.append(writer.fresh(21, header=True), SIZE, list(zip(*edge())), 4096)
    return out + b''.join(word.to_bytes(8, 'little') for word in BEHIND) + BROKEN


def listing(data):
    r = reading.read_raw(data, None, None, (65536,))
    return ''.join([f'EVT{r.encoding} {r.width} {r.height} {len(r.events)}\n'] + [f'{t} {x} {y} {p}\n' for x, y, t, p in r.events])


def main():
    data = recording()
    files = {'evt21.raw': data, 'evt21.txt': listing(data).encode()}
    if sys.argv[1:] == ['--check']:
        sys.exit(any((SAMPLES / name).read_bytes() != made for name, made in files.items()) and 'samples/evt21.* differ from what this makes')
    for name, made in files.items():
        (SAMPLES / name).write_bytes(made)


if __name__ == '__main__':
    main()

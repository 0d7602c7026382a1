#!/usr/bin/env python3
"""vectors.py ORACLE [PROGRAM]: makes stdin and stdout of crates/test_vectors and crates/test_vectors_index anew, or those of one.

ORACLE is the program tools/original/src/oracle.rs, built from the Rust original: tools/vectors.sh builds it and runs this.
The cases are made here, in vectors_index.py, vectors21.py, vectors_long.py and vectors_number.py, always the same ones.
An expected answer is the oracle's, except where the table of refusals (docs/RULES.md) has a number that the Rust lacks, and except for
recordings with a `%` behind the header's end line, everything of EVT 2.1, writers of EVT3 past its first loop, writers that resume and numbers, where it
is the model's (tools/model).
A layer of the library is a function that yields cases; LAYERS at the end lists those of crates/test_vectors.
"""
import itertools, random, subprocess, sys
from pathlib import Path

sys.path.append(str(Path(__file__).resolve().parent / 'model'))
import answers as model
import writer as model_writer
from header import header_lines, names_evt21, percent_behind_end
from refusal import Refused

CRATES = Path(__file__).resolve().parent.parent / 'crates'


class Case:
    """What the program reads, what the oracle is asked, and how the expected answer follows from the oracle's answers."""
    def __init__(self, group, words, asked, judge):
        self.group, self.words, self.asked, self.judge = group, words, asked, judge


# ---- decoding: `step STATE HEX` and `word STATE HEX`

SIZE, PERIOD, GRAIN, LOOPS = {2: 4, 3: 2}, {2: 2**34, 3: 2**24}, {2: 64, 3: 4096}, {2: 2**27, 3: 2**28}


def s2(high=0, time=None, loops=0, started=1):
    return (2, started, high, high if time is None else time, loops)


def s3(base=0, time=None, row=0, x=0, p=0, loops=0, started=1):
    return (3, started, base, base if time is None else time, row, x, p, loops)


FRESH2, FRESH3 = s2(started=0), s3(started=0)
FRESH = {2: FRESH2, 3: FRESH3}


def at2(coarse, loops=0, low=0):
    """A started EVT2 decoder, its coarse time `coarse` units of 64 into period `loops`."""
    high = loops * PERIOD[2] + coarse * 64
    return s2(high, high + low, loops)


def at3(coarse, loops=0, low=0, **place):
    base = loops * PERIOD[3] + coarse * 4096
    return s3(base, base + low, loops=loops, **place)


def text(state):
    return f'{state[0]}:' + ','.join(map(str, state[1:]))


def parsed(s):
    return (int(s[0]), *map(int, s[2:].split(',')))


def in_range(state):
    """docs/RULES.md, rule 10, for a decoder."""
    enc, started, coarse, time, *place, loops = state
    if not started:
        return not any(state[2:])
    return (0 <= coarse - loops * PERIOD[enc] < PERIOD[enc] and coarse % GRAIN[enc] == 0
            and coarse <= time < coarse + GRAIN[enc] and loops <= LOOPS[enc] and not (place and place[0] > 2047))


def joined(enc, words):
    return b''.join(w.to_bytes(SIZE[enc], 'little') for w in words)


def ask(state, data):
    return f'step enc={state[0]} state={text(state)} data={data.hex()}'


def decoding_case(group, command, state, data, expect):
    """One step for each whole word (`step`), or one step (`word`): each wants the decoder in range.
    `expect`, where it is given, is how the answer has to begin."""
    size = SIZE[state[0]]
    if command == 'word':
        data_used, count = data[:size], 1
    else:
        data_used, count = data, len(data) // size

    def judge(answers):
        before = [state] + [parsed(a.split()[1]) for a in answers[:count - 1]]
        r = 'refused 10' if not all(map(in_range, before)) else answers[-1]
        assert expect is None or (r + ' ').startswith(expect + ' '), (group, text(state), data.hex(), expect, r)
        return r

    steps = [data_used[:size * (i + 1)] for i in range(count - 1)] + [data_used]
    asked = [ask(state, d) for d in steps] if in_range(state) else []
    return Case(group, f'{command} {text(state)} {data.hex() or "-"}', asked, judge)


def step(group, state, words, expect=None):
    return decoding_case(group, 'step', state, joined(state[0], words), expect)


def step_bytes(group, state, data, expect=None):
    return decoding_case(group, 'step', state, data, expect)


def word(group, state, data, expect=None):
    return decoding_case(group, 'word', state, data, expect)


def bench():
    """The values of crates/laws_bench_values, as far as they concern decoding, at every cut."""
    yield step('bench', FRESH3, [0x8FFF, 0x800A], 'ok 3:1,16818176,16818176,0,0,0,1 0 :')
    yield step('bench', FRESH3, [0x8FFF, 0x800B], 'ok 3:1,45056,45056,0,0,0,0 0 :')
    yield step('bench', FRESH2, [0x8FFFFFFF, 0x80FFFFFF], f'ok {text(at2(0xFFFFFF, 1))} 0 :')
    yield step('bench', FRESH2, [0x8FFFFFFF, 0x81000000], f'ok {text(at2(0x1000000))} 0 :')
    yield step('bench', FRESH2, [0x8FFFFFFF, 0x80FFFFFF, 0x81000000])
    yield step('bench', FRESH2, [0x80000001, 0x19002807], 'ok 2:1,64,100,0 1 : 100,5,7,1')
    three = [0x8001, 0x6001, 0x0007, 0x300A, 0x400B]
    yield step('bench', FRESH3, [0x8001, 0x6001, 0x0007, 0x2805], 'ok 3:1,4096,4097,7,0,0,0 1 : 4097,5,7,1')
    yield step('bench', FRESH3, three, 'ok 3:1,4096,4097,7,22,0,0 3 : 4097,10,7,0 4097,11,7,0 4097,13,7,0')
    yield step('bench', FRESH3, three[:3] + [0x300A, 0x4C01], 'ok 3:1,4096,4097,7,22,0,0 3 : 4097,10,7,0 4097,20,7,0 4097,21,7,0')
    yield step('bench', FRESH3, three[:3] + [0x200A, 0x2014, 0x2016], 'ok 3:1,4096,4097,7,0,0,0 3 : 4097,10,7,0 4097,20,7,0 4097,22,7,0')
    yield step_bytes('bench', FRESH3, joined(3, three)[:9], 'ok 3:1,4096,4097,7,10,0,0 0 :')
    for state, words in (FRESH2, [0x80000001, 0x19002807]), (FRESH3, three), (FRESH3, [0x8001, 0x6001, 0x0007, 0x2805]):
        data = joined(state[0], words)
        for cut in range(len(data)):
            yield step_bytes('cut', state, data[:cut])


def types2():
    """The published layout of EVT 2.0: each type, its fields at 0, at their greatest and in between."""
    started = [at2(0), at2(0x1234567, 0, 5), at2(0xFFFFFFF, 3, 63)]
    fields = [(t, x, y) for t, x, y in itertools.product((0, 21, 63), (0, 640, 2047), (0, 480, 2047)) if (t, x, y).count(0) != 1]
    for kind in range(16):
        if kind < 2:
            low = [t << 22 | x << 11 | y for t, x, y in fields]
        elif kind == 8:
            low = [0, 1, 63, 0x1234566, 0x1234567, 0x1234568, 0x8000000, 0xFFFFFFE, 0xFFFFFFF]
        elif kind == 10:
            low = [t << 22 | c << 8 | v for t in (0, 63) for c in (0, 31) for v in (0, 1)] + [0xFFFFFFF]
        else:
            low = [0, 0x5A5A5A5, 0xFFFFFFF]
        for payload in low:
            yield step('type2', FRESH2, [kind << 28 | payload])
        for i, payload in enumerate(low):
            for state in started if kind in (8, 10) else [started[i % 3], started[(i + 1) % 3]]:
                yield step('type2', state, [kind << 28 | payload])


def types3():
    """The published layout of EVT 3.0, likewise."""
    started = [at3(0), at3(0x123, 0, 0x45, row=7, x=10, p=1), at3(0xFFF, 5, 4095, row=2047, x=2047, p=0)]
    for kind in range(16):
        low = [0, 0xFFF, 0x5A5] if kind in (1, 7, 9, 11, 12, 13, 14, 15) else [0, 1, 0x07F, 0x3FF, 0x7FF, 0x800, 0xA5A, 0xFFF]
        for payload in low:
            yield step('type3', FRESH3, [kind << 12 | payload])
            for state in started:
                yield step('type3', state, [kind << 12 | payload])


def vectors3():
    """Base column near 65,535, where it is held; masks empty, full and of one bit; bits 11..8 of type 5."""
    for x in (0, 2047, 65000, 65514, 65522, 65523, 65524, 65526, 65527, 65528, 65534, 65535):
        for mask in (0x4000, 0x4001, 0x4800, 0x4FFF, 0x5000, 0x5080, 0x50FF, 0x5F00, 0x5FFF):
            yield step('base', at3(1, 0, 1, row=7, x=x, p=x % 2), [mask])
        yield step('base', at3(1, row=7, x=x, p=1), [0x4801, 0x4801, 0x5081, 0x5081])
    for bit in range(12):
        yield step('mask', at3(1, row=7, x=100), [0x4000 | 1 << bit])
        yield step('mask', at3(1, row=7, x=100, p=1), [0x5000 | 1 << bit])
    growth = [0x300A, 0x4000, 0x4FFF, 0x5000, 0x5FFF, 0x4000, 0x5F00, 0x4001, 0x3805, 0x4FFF, 0x5081]
    for n in range(1, len(growth) + 1):
        yield step('mask', at3(1, 2, 9, row=3), growth[:n])


def loops():
    """A loop is counted from the threshold on: at it, one unit below and above, by the coarse time and not the time."""
    for n, low in (0, 0), (0, 4095), (1, 0), (2**28 - 1, 4095):
        for old, new in (4095, 9), (4095, 10), (4095, 11), (4095, 0), (4095, 4095), (4094, 8), (4094, 9), (4094, 10), \
                (4086, 0), (4086, 1), (4086, 2), (4085, 0), (4085, 1), (4084, 0), (4084, 4095), (0, 0), (0, 4095), (1, 0), (10, 4095), (2048, 0), (2048, 2047):
            yield step('loop3', at3(old, n, low, row=7), [0x8000 | new])
    top, edge = 0xFFFFFFF, 0xF000000
    for n, low in (0, 0), (0, 63), (1, 0), (2**27 - 1, 63):
        for old, new in (top, top - edge - 1), (top, top - edge), (top, top - edge + 1), (top, 0), (top, top), (edge + 1, 0), (edge + 1, 1), \
                (edge + 1, 2), (edge, 0), \
                (edge, 1), (edge - 1, 0), (edge - 1, top), (0, 0), (0, top), (1, 0), (edge // 2, 0):
            yield step('loop2', at2(old, n, low), [0x80000000 | new])
    for word_ in 0x8000, 0x8FFF:
        yield step('loop3', FRESH3, [word_, 0x8FFF, 0x8000, 0x8FFF, 0x800A, 0x8FFF, 0x800B, 0x8000, 0x2001])
        yield step('loop2', FRESH2, [word_ << 16, 0x8FFFFFFF, 0x80000000, 0x8FFFFFFF, 0x80FFFFFF, 0x81000000, 0x10000801])


def leaving():
    """A step may leave the range at the bound for loops; the Rust goes on, the table has 10 for the next word."""
    for behind in ([], [0x8FFF], [0x2001], [0xE000], [0x6001, 0x2001]):
        yield step('leave', at3(0xFFF, 2**28), [0x8000] + behind, 'refused 10' if behind else f'ok {text(at3(0, 2**28 + 1))}')
        yield step('leave', at3(0xFFF, 2**28 - 1), [0x8000] + behind, 'ok')
    for behind in ([], [0x8FFFFFFF], [0x00000001], [0xE0000000], [0x80000001, 0x10000801]):
        yield step('leave', at2(0xFFFFFFF, 2**27), [0x80000000] + behind, 'refused 10' if behind else f'ok {text(at2(0, 2**27 + 1))}')
        yield step('leave', at2(0xFFFFFFF, 2**27 - 1), [0x80000000] + behind, 'ok')


def range2():
    p, most = PERIOD[2], LOOPS[2]
    good = [FRESH2, s2(0), s2(64), s2(p - 64), s2(p - 64, p - 1), s2(64, 64), s2(64, 127), s2(p, loops=1), s2(2 * p - 64, loops=1),
            s2(5 * p + 640, 5 * p + 703, 5),
            s2(most * p, loops=most), s2(most * p + p - 64, most * p + p - 1, most), s2((most - 1) * p, loops=most - 1)]
    bad = [s2(1, 0, 0, 0), s2(64, 0, 0, 0), s2(64, 64, 0, 0), s2(0, 1, 0, 0), s2(0, 63, 0, 0), s2(0, 0, 1, 0), s2(p, p, 1, 0), s2(most * p, most * p, most, 0),
           s2(1), s2(2), s2(32), s2(63), s2(65), s2(p - 1), s2(p - 32, loops=0), s2(p), s2(p + 64), s2(2 * p, loops=1), s2(0, loops=1),
           s2(p - 64, loops=1), s2(p, loops=2), s2(p + 1, loops=1),
           s2(64, 63), s2(64, 0), s2(64, 128), s2(0, 64), s2(0, 65), s2(p - 64, p), s2(p, p - 1, 1), s2(p, p + 64, 1), s2(64, 2**63), s2(0, 2**64 - 1),
           s2((most + 1) * p, loops=most + 1), s2((most + 1) * p + 64, loops=most + 1), s2(2 * most * p, loops=2 * most),
           s2((2 * most + 1) * p, loops=2 * most + 1),
           s2(0, loops=most), s2(most * p, loops=most - 1), s2(2**64 - 64, 2**64 - 1, 2**30 - 1), s2(2**63, loops=2**29), s2(0, loops=2**64 - 1),
           s2(0, loops=2**30), s2(2**64 - 1)]
    return good, bad, ([0x80000001], [0x10000801], [0xE0000000], [0xA0000001, 0x00000001])


def range3():
    p, most = PERIOD[3], LOOPS[3]
    good = [FRESH3, s3(0), s3(4096), s3(p - 4096), s3(p - 4096, p - 1), s3(4096, 8191), s3(p, loops=1), s3(2 * p - 4096, loops=1), s3(0, row=2047),
            s3(0, row=1), s3(0, x=65535, p=1), s3(0, p=1),
            s3(5 * p + 40960, 5 * p + 45055, 2047, 65535, 1, 5), s3(most * p, loops=most), s3(most * p + p - 4096, most * p + p - 1, 2047, 9, 1, most),
            s3((most - 1) * p, loops=most - 1),
            s3(2**27 * p, loops=2**27), s3((2**27 + 1) * p, loops=2**27 + 1)]
    zero = dict(base=0, time=0, row=0, x=0, p=0, loops=0, started=0)
    bad = [s3(**{**zero, k: v}) for k, vs in dict(base=(1, 4096), time=(1, 4095), row=(1, 2047, 65535), x=(1, 65535), p=(1,), loops=(1, 2**28)).items()
           for v in vs] + [
        s3(4096, 4096, started=0), s3(p, p, loops=1, started=0), s3(4096, 4097, 7, 10, 1, started=0),
        s3(1), s3(64), s3(2048), s3(4095), s3(4097), s3(p - 1), s3(p - 2048), s3(p), s3(p + 4096), s3(2 * p, loops=1), s3(0, loops=1),
        s3(p - 4096, loops=1), s3(p, loops=2), s3(p + 64, loops=1),
        s3(4096, 4095), s3(4096, 0), s3(4096, 8192), s3(0, 4096), s3(0, 4097), s3(p - 4096, p), s3(p, p - 1, loops=1), s3(p, p + 4096, loops=1),
        s3(4096, 2**63), s3(0, 2**64 - 1),
        s3(0, row=2048), s3(0, row=4095), s3(0, row=65535), s3(4096, 4097, 2048, 10, 1), s3(p, row=2048, loops=1),
        s3((most + 1) * p, loops=most + 1), s3((most + 1) * p + 4096, loops=most + 1), s3(2 * most * p, loops=2 * most), s3(0, loops=most),
        s3(most * p, loops=most - 1), s3(most * p, loops=most + 1),
        s3(2**64 - 4096, 2**64 - 1, loops=2**40 - 1), s3(0, loops=2**64 - 1), s3(0, loops=2**40), s3(2**64 - 1)]
    return good, bad, ([0x8001], [0x2801], [0xE000], [0x0007, 0x2001])


def ranges():
    """Rule 10 for decoders, each condition by itself: the list says which are refused, by the table. 10 comes first, with any bytes."""
    for enc, (good, bad, words) in (2, range2()), (3, range3()):
        for states, expect in (good, 'ok'), (bad, 'refused 10'):
            for i, state in enumerate(states):
                assert in_range(state) == (expect == 'ok'), state
                for w in words[:3] if expect == 'ok' else [words[0], words[1 + i % 3]]:
                    yield step(f'range{enc}', state, w, expect)
                data = joined(enc, words[0])
                yield word(f'range{enc}', state, data[:i % len(data)], expect)


def first_words():
    """Only the first word is read, whatever stands behind it; with fewer bytes than a word nothing happens."""
    lists = {2: [[0x80000001, 0x19002807, 0x8FFFFFFF], [0x19002807, 0x80000001], [0xE0000000, 0x19002807], [0x8FFFFFFF, 0x80000000]],
             3: [[0x8001, 0x6001, 0x2805], [0x4FFF, 0x4FFF], [0x2805, 0x2805], [0x300A, 0x4001], [0x6001, 0x8FFF], [0x0007, 0x2001], [0xF000, 0x2805]]}
    states = {2: [FRESH2, at2(1), at2(0xFFFFFFF, 2, 9)], 3: [FRESH3, at3(1, 0, 1, row=7, x=10, p=1), at3(0xFFF, 2, 9, row=2047, x=65535)]}
    for enc in 2, 3:
        for state in states[enc]:
            for words in lists[enc]:
                data = joined(enc, words)
                for n in range(len(data) + 1) if words == lists[enc][0] else (SIZE[enc] - 1, SIZE[enc], len(data)):
                    yield word(f'word{enc}', state, data[:n])


def lists():
    """Every list of two interesting words, and of three of fewer."""
    words3 = [0x8000, 0x8009, 0x800A, 0x8FFF, 0x6000, 0x6001, 0x6FFF, 0x0007, 0x0FFF, 0x2005, 0x2FFF, 0x300A, 0x3FFE, 0x4000, 0x400B, 0x4FFF, 0x5000,
              0x5F81, 0x5FFF, 0x7005, 0xA101, 0xF00F]
    for pair in itertools.product(words3, repeat=2):
        yield step('pair3', at3(4094, 1, 7, row=5, x=65520, p=1), pair)
    for pair in itertools.product([0x8FFF, 0x800A, 0x6001, 0x0007, 0x2805, 0x3FFE, 0x4801, 0x5F81, 0xE000], repeat=2):
        yield step('pair3', FRESH3, pair)
    for triple in itertools.product([0x8FFF, 0x800A, 0x6001, 0x0007, 0x2805, 0x3FFE, 0x4801], repeat=3):
        yield step('triple3', FRESH3, triple)
    words2 = [0x80000001, 0x8FFFFFFF, 0x80FFFFFF, 0x81000000, 0x00000000, 0x19002807, 0x1FFFFFFF, 0x2FFFFFFF, 0xA0000101, 0xF0000000]
    for pair in itertools.product(words2, repeat=2):
        yield step('pair2', FRESH2, pair)
    for triple in itertools.product([0x8FFFFFFF, 0x80FFFFFF, 0x19002807, 0x0FC00000], repeat=3):
        yield step('triple2', FRESH2, triple)


def drawn():
    """Random words from random states in range, and longer streams from a fresh decoder."""
    r = random.Random(1078)

    def some(enc):
        n = r.choice([0, 0, 1, 2, r.randrange(LOOPS[enc]), LOOPS[enc] - 1])
        coarse = r.choice([0, 1, PERIOD[enc] // GRAIN[enc] - 1, r.randrange(PERIOD[enc] // GRAIN[enc])])
        low = r.choice([0, GRAIN[enc] - 1, r.randrange(GRAIN[enc])])
        if enc == 2:
            return at2(coarse, n, low)
        return at3(coarse, n, low, row=r.choice([0, 2047, r.randrange(2048)]),
                   x=r.choice([r.randrange(2048), r.randrange(65536), 65535 - r.randrange(30)]), p=r.randrange(2))

    def one(enc):
        kind = r.choice([0, 1, 8, 0, 1, r.randrange(16)] if enc == 2 else [0, 2, 3, 4, 5, 6, 8, 4, 5, r.randrange(16)])
        bits = 28 if enc == 2 else 12
        return kind << bits | r.choice([r.randrange(1 << bits), r.randrange(1 << bits), 1 << r.randrange(bits), (1 << bits) - 1 - r.randrange(16)])

    for enc, n, most in (2, 120, 4), (3, 240, 6):
        for _ in range(n):
            yield step(f'random{enc}', some(enc), [one(enc) for _ in range(r.randrange(1, most + 1))])
        for _ in range(6):
            yield step(f'stream{enc}', FRESH[enc], [one(enc) for _ in range(80)])


def decoding():
    for part in bench, types2, types3, vectors3, loops, leaving, ranges, first_words, lists, drawn:
        yield from part()


# ---- headers and reading: `hdr SIZE HEX`, `read SIZE LIMIT ROOM HEX`, `words ENC SIZE LIMIT ROOM HEX`

COLUMNS = 4096      # the entries of the program's columns
ONE = {2: [0x80000001, 0x19002807], 3: [0x8001, 0x6001, 0x0007, 0x2805]}
MORE = {2: [0x80000001, 0x19002807, 0x00001001, 0x1FC01002, 0x80000002, 0x10000803], 3: [0x8001, 0x6001, 0x0007, 0x300A, 0x4A0F, 0x2805, 0x8002, 0x58FF]}
WIDE = 2**64 - 1


def shown(v):
    return '-' if v is None else 'x'.join(map(str, v)) if isinstance(v, tuple) else str(v)


def rooms(room):
    return (room,) * 4 if isinstance(room, int) else room


def call(data, size, limit, room):
    assert max(rooms(room)) <= COLUMNS
    return f'{shown(size)} {shown(limit)} {room if isinstance(room, int) else ",".join(map(str, room))} {data.hex() or "-"}'


def header_end(data):
    """Where the body starts: behind the end line, or else behind the last line that begins with `%`."""
    return header_lines(data)[1]


def numbered(answer):
    return {'err size': 'refused 1', 'err encoding': 'refused 2'}.get(answer, answer)


def by_table(data, answer, room=COLUMNS):
    """What the Rust lacks: 3, which comes before its own refusals, and 5, which comes after them."""
    if any(b > 127 for b in data[:header_end(data)]):
        return 'refused 3'
    return lent(numbered(answer), room)


def lent(answer, room):
    n = int(answer.split()[4]) if answer.startswith('ok') and ' : ' in answer + ' ' else 0
    return f'refused 5 {n}' if n > min(rooms(room)) else answer


def expected(expect, r, *case):
    assert expect is None or (r + ' ').startswith(expect + ' '), (case, expect, r)
    return r


def headed_case(group, line, data, asked, judge, expect):
    """A case of a recording with its header. The Rust takes a `%` behind the end line for one more header line, and EVT 2.1 for EVT2: of such a
    recording it isn't asked, and the answer is the model's. Of all others it is asked."""
    if percent_behind_end(data) or names_evt21(data):
        return Case(group, line, [], lambda _: expected(expect, model.answer(line), line))
    return Case(group, line, asked, lambda answers: expected(expect, judge(answers), line))


def hdr(group, data, size=None, expect=None):
    line = f'hdr {shown(size)} {data.hex() or "-"}'

    def judge(answers):
        r = by_table(data, answers[0])
        assert not r.startswith('ok') or int(r.split()[2]) == header_end(data), (line, r)
        return r

    return headed_case(group, line, data, [f'hdr data={data.hex()} size={shown(size)}'], judge, expect)


def read(group, data, size=None, limit=None, room=COLUMNS, expect=None):
    line = f'read {call(data, size, limit, room)}'
    asked = [f'read data={data.hex()} size={shown(size)} limit={shown(limit)}']
    return headed_case(group, line, data, asked, lambda answers: by_table(data, answers[0], room), expect)


def kept(enc, stepped, size, limit):
    """The rule of docs/RULES.md for sizes and limits, over the events of all words."""
    if size and 0 in size:
        return 'refused 1'
    events = [tuple(map(int, e.split(','))) for e in stepped.split(':')[-1].split()]
    events = [e for e in events if not size or (e[1] < size[0] and e[2] < size[1])][:limit]
    if not size and not events:
        return 'refused 1'
    w, h = size or (max(e[1] for e in events) + 1, max(e[2] for e in events) + 1)
    return ' '.join([f'ok EVT{enc} {w} {h} {len(events)} :'] + [','.join(map(str, e)) for e in events])


def words(group, enc, data, size=None, limit=None, room=COLUMNS, expect=None):
    """The reference is the Rust's `decode_words` where it has this call, and its `read_raw` behind a header of the encoding alone unless
    the words begin with `%`. In every case the rule for reading, over the Rust's events of all words, has to give the same."""
    line = f'words {enc} {call(data, size, limit, room)}'
    asked = [f'step enc={enc} data={data.hex()}']
    if size and limit is None:
        asked.append(f'decode enc={enc} size={shown(size)} data={data.hex()}')
    if data[:1] != b'%':
        asked.append(f'read data={(head(enc) + data).hex()} size={shown(size)} limit={shown(limit)}')

    def judge(answers):
        rule = kept(enc, answers[0], size, limit)
        for a in answers[1:]:
            r = numbered(a)
            assert rule in (r, r.replace('ok ', f'ok EVT{enc} ', 1)), (line, rule, r)
        return expected(expect, lent(rule, room), line)

    return Case(group, line, asked, judge)


def head(enc, size=None, more=b''):
    return f'% format EVT{enc}\n'.encode() + (f'% geometry {size[0]}x{size[1]}\n'.encode() if size else b'') + more


def table():
    """The table's own examples, and the recording that crates/listing is shown with."""
    three = [0x8001, 0x6001, 0x0007, 0x300A, 0x400B]
    for enc in 2, 3:
        one = joined(enc, ONE[enc])
        yield read('table', head(enc) + one, (0, 5), None, 8, 'refused 1')
        yield words('table', enc, one, (0, 5), None, 8, 'refused 1')
        yield read('table', head(enc) + one, None, None, 0, 'refused 5 1')
        yield words('table', enc, one, None, None, 0, 'refused 5 1')
        yield hdr('table', head(enc), (0, 5), 'refused 1')
        yield read('table', head(enc) + one, None, None, 1, f'ok EVT{enc} 6 8 1 :')
    yield hdr('table', b'', None, 'refused 2')
    yield hdr('table', b'\x25\x80', None, 'refused 3')
    yield read('table', b'', None, None, 8, 'refused 2')
    yield read('table', b'\x25\x80', None, None, 8, 'refused 3')
    yield read('table', head(3, (64, 48)) + joined(3, three), None, None, 3, 'ok EVT3 64 48 3 : 4097,10,7,0 4097,11,7,0 4097,13,7,0')
    for cut in range(len(head(3, (64, 48)) + joined(3, three)) + 1):
        yield read('table', (head(3, (64, 48)) + joined(3, three))[:cut])


def order():
    """Every meeting of 3, 2, 1 (zero size) and 1 (no event) or 5: the first in that order is given."""
    for line, mark, geometry, size, body, room in itertools.product((b'% date x\n', b'% evt 3\n'), (b'', b'% \xC3\xA9\n'), (None, (5, 0), (64, 48)),
                                                                    (None, (0, 5), (64, 48)), ([], ONE[3]), (0, 1)):
        data = line + mark + (f'% geometry {shown(geometry)}\n'.encode() if geometry else b'')
        holds = size or geometry
        expect = ('refused 3' if mark else 'refused 2' if b'evt' not in line else 'refused 1' if holds and 0 in holds or not holds and not body
                  else 'refused 5 1' if body and not room else 'ok')
        yield read('order', data + joined(3, body), size, None, room, expect)
        if room:
            yield hdr('order', data + joined(3, body), size, None if expect == 'refused 1' else expect)
    for size, body, room in itertools.product((None, (0, 5), (5, 0), (64, 48)), ([], ONE[2]), (0, 1)):
        expect = 'refused 1' if size and 0 in size or not size and not body else 'refused 5 1' if body and not room else 'ok'
        yield words('order', 2, joined(2, body), size, None, room, expect)


def room_cases():
    """Limits 0, within and past; columns of no entry, one short, exact and longer; columns of different lengths."""
    for enc in 2, 3:
        data = joined(enc, MORE[enc])
        n = {2: 4, 3: 15}[enc]
        for limit in None, 0, 1, 2, n - 1, n, n + 1, WIDE:
            given = n if limit is None else min(n, limit)
            for room in sorted({0, 1, max(given - 1, 0), given, given + 1, COLUMNS}):
                expect = f'refused 5 {given}' if given > room else 'ok' if given else None
                yield read(f'room{enc}', head(enc) + data, None, limit, room, expect)
                yield words(f'room{enc}', enc, data, (2048, 2048), limit, room, expect)
            yield read(f'room{enc}', head(enc, (2048, 2048)) + data, None, limit, given, 'ok')
            yield words(f'room{enc}', enc, data, None, limit, given, 'ok' if given else 'refused 1')
        for lengths in [tuple(n - (j == k) + 3 * (j != k) for j in range(4)) for k in range(4)] + \
                [tuple(n + 3 * (j != k) for j in range(4)) for k in range(4)] + \
                [tuple(COLUMNS * (j != k) for j in range(4)) for k in range(4)] + [(n, n + 1, n + 2, n + 3), (n + 3, n + 2, n + 1, n - 1), (0, 1, 2, 3)]:
            expect = f'refused 5 {n}' if min(lengths) < n else 'ok'
            yield read(f'room{enc}', head(enc) + data, None, None, lengths, expect)
            yield words(f'room{enc}', enc, data, None, None, lengths, expect)
            yield words(f'room{enc}', enc, data, (2048, 2048), 3, lengths)


def vector_limits():
    """A limit inside a vector word, with and without a size that drops some of its events."""
    data = joined(3, [0x8001, 0x0007, 0x300A, 0x4FFF, 0x50FF])
    for limit in range(22):
        yield read('within', head(3) + data, None, limit, min(limit, 20))
        yield words('within', 3, data, (15, 48), limit, 20)
        yield words('within', 3, data, (2048, 8), limit, max(limit - 1, 0), f'refused 5 {min(limit, 20)}' if limit and limit - 1 < 20 else None)


def cuts():
    """A recording of each encoding cut at every byte: broken lines, broken words."""
    for enc in 2, 3:
        data = head(enc, (2048, 48)) + joined(enc, MORE[enc])
        for cut in range(len(data)):
            yield read(f'cut{enc}', data[:cut])
            yield hdr(f'cut{enc}', data[:cut])
        body = joined(enc, MORE[enc])
        for cut in range(len(body)):
            yield words(f'cut{enc}', enc, body[:cut])


def percent():
    """Words that begin with `%`: no header in `words`, a header line in `read` where no end line stands before them."""
    for enc, firsts in (2, [0x80000025, 0x80000A25, 0x80002025]), (3, [0x8025, 0x0A25, 0x8A25, 0x2025]):
        for first in firsts:
            for rest in [], ONE[enc], MORE[enc]:
                data = joined(enc, [first] + rest)
                for size, limit in itertools.product((None, (2048, 2048), (12, 8), (0, 1)), (None, 0, 2)):
                    yield words('percent', enc, data, size, limit)
                yield words('percent', enc, data, None, None, 0)
                yield read('percent', data)
                yield read('percent', head(enc) + data)
                yield hdr('percent', head(enc) + data)


def sizes():
    """Derived sizes, events just inside and outside the sensor, columns past 2047 and the greatest sizes."""
    for enc in 2, 3:
        for x, y in itertools.product((0, 1, 63, 2046, 2047), (0, 1, 47, 2047)):
            w = [0x80000001, 0x10000000 | x << 11 | y] if enc == 2 else [0x8001, y, 0x2800 | x]
            yield words(f'size{enc}', enc, joined(enc, w), None, None, 1, f'ok EVT{enc} {x + 1} {y + 1} 1 :')
            for size in (x, y + 1), (x + 1, y), (x + 1, y + 1), (64, 48):
                yield read(f'size{enc}', head(enc, (3, 3)) + joined(enc, w), size, None, 1)
        data = joined(enc, MORE[enc])
        for size in (1, 1), (6, 8), (10, 8), (11, 8), (65536, 65536), (WIDE, 1), (1, WIDE), (WIDE, WIDE), (2**32, 2**32), (14, 2), (3, 2048):
            for limit in None, 1, 3:
                yield read(f'size{enc}', head(enc, size) + data, None, limit)
                yield words(f'size{enc}', enc, data, size, limit)
    far = [0x8001, 0x0007, 0x3FFF] + [0x4000] * 40 + [0x4801, 0x5081]
    for size in None, (2048, 48), (2527, 48), (2528, 48), (2529, 48), (65536, 8):
        yield words('size3', 3, joined(3, far), size)
        yield read('size3', head(3) + joined(3, far), size, 2)


def headers():
    """Each rule for header lines by itself, behind and before others."""
    formats = ['EVT3', 'evt3', 'EvT3', 'EVT2', 'evt2;x', 'EVT3;height=720;width=1280', 'EVT2.1', 'EVT21', 'EVT', 'EVT1', 'EVT4', ' \t EVT3 \v', '', ' ',
               'x EVT3', '3', '2', 'EVT 3', 'evt3evt2', '"EVT3"']
    for v in formats:
        yield hdr('format', f'% format {v}\n'.encode())
        yield hdr('format', f'% format {v}'.encode(), (7, 9))
        yield hdr('format', f'% evt 2.0\n% format {v}\n'.encode())
    for v in '3', '3.0', '2', '2.0', '2.1', '30', '23', '32', 'EVT3', '', ' ', ' \t3\f', '-3', '+3', '03', 'v3':
        for before in '', '% format EVT2\n', '% format EVT3\n', '% format none\n':
            yield hdr('format', f'{before}% evt {v}\n'.encode())
    for a, b in itertools.product(('EVT2', 'EVT3', 'none', ''), repeat=2):
        yield hdr('format', f'% format {a}\n% format {b}\n'.encode(), None)
        yield hdr('format', f'% evt {a[3:]}\n% evt {b[3:]}\n'.encode(), None)
        yield hdr('format', f'% evt {a[3:]}\n% format {b}\n'.encode(), None)
    lines = ['%format EVT3', '%% format EVT3', '% %format EVT3', '%%%\tformat\tEVT3', '% format\vEVT3', '% format\fEVT3', '% format\rEVT3',
             '% FORMAT EVT3', '% Format EVT3\r', '% formats EVT3', '% forma EVT3', '%format',
             '% format', '% formatEVT3', '%EVT 3', '%\tevt\t3', '% evt3', '% evt  3', '%  evt 3 %', '% format % EVT3', '% for%mat EVT3', 'format EVT3',
             ' % format EVT3', '%', '%%', '% ', '% end', '%\x1cformat EVT3', '% format\x1cEVT3',
             '% format\0EVT3', '%\0evt 3', '% format \x1f EVT3', '% \x0b\x0c\x0d\x09 evt \x0b\x0c\x0d\x09 3']
    for line in lines:
        for end in '', '\n', '\r\n', '\n\n':
            yield hdr('line', (line + end).encode())
        yield hdr('line', f'% evt 2\n{line}\n% end\n'.encode())
    numbers = ['64x48', '64X48', '64x48x', 'x', 'X', '64x', 'x48', '64', '', '64 x 48', ' 64x48 ', '64\tx\t48', '64xx48', '64x48x3', '64XX48',
               '64X48X3', '64X48x3', '6Xx4', '64xX48', '64*48', '+64x+48', '++64x48', '+x48', '64x+', '-64x48',
               '064x0048', '0x48', '64x0', '0x0', '00x1', '6 4x48', '64.0x48', '0x40x48', '64,48', '64 48', '6_4x48', '64x48;', '64x48 %', 'ax48',
               '64xb', '+0x5', '5x+0', '+ 4x5', '0064x+0048', '64x48\r', '1e1x2',
               f'{WIDE}x1', f'{WIDE + 1}x1', f'1x{WIDE}', f'1x{WIDE + 1}', f'+{WIDE}x000{WIDE}', f'{10 * WIDE}x1', f'1x{2**65}',
               '9' * 19 + 'x' + '9' * 20, '99999999999999999999x1', '18446744073709551614x1', '18446744073709551620x1',
               '0' * 40 + '7x8', '1' + '0' * 19 + 'x1', '2' + '0' * 19 + 'x1', '18446744073709551609x18446744073709551619']
    for v in numbers:
        yield hdr('geometry', f'% evt 3\n% geometry {v}\n'.encode())
        yield hdr('geometry', f'% evt 3\n% geometry 7x8\n% geometry {v}\n'.encode())
        yield hdr('geometry', f'% geometry {v}\n% evt 2'.encode(), (9, 5))
    for key in 'Geometry', 'GEOMETRY', 'geometrY', 'geometr', 'geometry:', 'geometryy', '%geometry', '\tgeometry\t', 'width':
        yield hdr('geometry', f'% evt 3\n% {key} 7x8\n'.encode())
    for a, b in itertools.product(('7x8', '0x8', 'ax8', '7*8', '9X5'), repeat=2):
        yield hdr('geometry', f'%evt 3\n%geometry {a}\n%geometry {b}\n'.encode())
    for size in (0, 0), (0, 5), (5, 0), (1, 1), (WIDE, WIDE), (1280, 720):
        for given in None, (0, 8), (7, 8):
            yield hdr('given', head(3, given), size)
            yield hdr('given', head(3, given).replace(b'EVT3', b'EVT5'), size)
    for b in range(128):
        if b != 10:
            yield hdr('byte', b'%evt' + bytes([b]) + b'3\n')
    for b in (127, 128, 129, 160, 192, 255):
        for data in b'%evt 3' + bytes([b]), b'%evt 3\n' + bytes([b]), b'%evt 3\n%' + bytes([b]) + b'\nab', b'%' + bytes([b]) + b'\n', \
                b'%evt 3\n%\n' + bytes([b]), bytes([b]) + b'%evt 3\n':
            yield hdr('byte', data)


def short_headers():
    """Every text of few bytes from a small alphabet behind the start of a header."""
    for start, letters, most in (b'% format EVT3\n%', b'% \n\t3e\x80', 3), (b'%evt ', b'23\n% ', 3), \
            (b'%evt 3\n%geometry 7x8\n%geometry ', b'1xX+ ', 4), (b'%', b'evt 3%', 3):
        for n in range(most + 1):
            for tail in itertools.product(letters, repeat=n):
                yield hdr('short', start + bytes(tail))


def recordings():
    """Random recordings of both encodings, whole and cut, with random sizes, limits and columns."""
    r = random.Random(2047)

    def stream(enc):
        if enc == 2:
            one = lambda: r.choice([0x80000000 | r.randrange(1 << 28), r.randrange(1 << 29), r.randrange(1 << 29), r.randrange(1 << 29), r.randrange(1 << 32)])
            return [0x80000000 | r.randrange(1 << 28)] * r.randrange(2) + [one() for _ in range(r.randrange(1, 20))]
        one = lambda: r.choice([0, 2, 2, 3, 4, 5, 6, 8, r.randrange(16)]) << 12 | r.choice([r.randrange(1 << 12), 1 << r.randrange(12), r.randrange(64)])
        return [0x8000 | r.randrange(1 << 12)] * r.randrange(2) + [one() for _ in range(r.randrange(1, 30))]

    side = lambda: r.choice([r.randrange(1, 64), r.randrange(1, 2049), 2048, 2048])
    size = lambda: r.choice([None, None, (side(), side()), (2048, 2048)])
    limit = lambda: r.choice([None, None, r.randrange(3), r.randrange(30), 10**6])
    room = lambda: r.choice([COLUMNS, COLUMNS, r.randrange(12), r.randrange(40), tuple(r.randrange(60) for _ in range(4))])
    for enc, count in (2, 130), (3, 150):
        for _ in range(count):
            data = r.choice([b'', b'% date 2024-01-01\n']) + head(enc, size(), r.choice([b'', b'% end\n'])) + joined(enc, stream(enc))
            yield read(f'recording{enc}', data[:r.choice([None, None, len(data) - r.randrange(1, 9)])], size(), limit(), room())
            data = joined(enc, stream(enc))
            yield words(f'recording{enc}', enc, data[:r.choice([None, None, len(data) - r.randrange(1, 4)])], size(), limit(), room())


END_LINES = [b'% end', b'%end', b'% END', b'%%  END ', b'%% \teNd\v\f', b'%\x0b end', b'% end \r', b'%%%End']
NEAR_ENDS = [b'% end x', b'% ending', b'% %end', b'%endx', b'% e nd', b'% end%', b'% end %', b'% en', b'% nd', b'% end.', b'%_end', b'%\x1cend', b'% end\0',
             b'% end end', b'% format end', b'% the end', b'%', b'% ', b'end', b' % end', b'']
# Words that begin with `%`, and words that don't; of each the events.
OPENING = {3: [0x8025, 0x6001, 0x0007, 0x2805, 0x8026, 0x300A, 0x400B], 2: [0x80000025, 0x19002807, 0x80000A25, 0x00001001]}
OPENED = {3: 'ok EVT3 14 8 4 : 151553,5,7,1 155648,10,7,0 155648,11,7,0 155648,13,7,0', 2: 'ok EVT2 6 8 2 : 2404,5,7,1 166208,2,1,0'}


def written_head(enc):
    """As the writer's."""
    return head(enc, (64, 48), b'% generator eventcv\n% end\n')


def end_lines():
    """Each form of an end line, and each near miss, with every line end, before each kind of body."""
    for enc in 2, 3:
        name = f'% evt {enc}\n'.encode()
        opening, plain = joined(enc, OPENING[enc]), joined(enc, MORE[enc])
        yield read('end', name + b'% end\n' + opening, None, None, 4, OPENED[enc])
        yield read('end', written_head(enc) + opening, None, None, 4, OPENED[enc].replace('14 8', '64 48').replace('6 8', '64 48'))
        # words from 80 on, `%` alone, header-like lines with all their words before the first type 8 or without effect
        bodies = [opening, plain, b'', b'%', b'%\n', b'\x80\x80' + plain, b'%\x80', b'\xff', b'\n' + plain, b'% geometry 5x7 \n' + plain,
                  f'% format EVT{5 - enc} \n\n'.encode() + opening, b'%   \n% end\n' + plain, b'% end\n' + opening]
        for line, end in itertools.product(END_LINES, (b'\n', b'\r\n')):
            start = len(name + line + end)
            for body in bodies:
                yield hdr('end', name + line + end + body, None, f'ok EVT{enc} {start} -')
            yield read('end', name + line + end + opening, None, None, 4, OPENED[enc])
        for line in END_LINES:
            for tail in b'', b'\r', b' ':
                yield hdr('end', name + line + tail, None, f'ok EVT{enc} {len(name + line + tail)} -')
            yield read('end', name + line, (64, 48), None, 0, f'ok EVT{enc} 64 48 0 :')
            yield read('end', name + line, None, None, 0, 'refused 1')
        for line in NEAR_ENDS:
            for body in opening, plain, b'% geometry 5x7\n' + plain, b'%end\n' + opening, b'%end\n% geometry 5x7\n':
                yield hdr('end', name + line + b'\n' + body)
            yield hdr('end', name + line)
            for body, end in (opening, b'\n'), (plain, b'\r\n'):
                yield read('end', name + line + end + body)
        for body in bodies:
            yield read('end', written_head(enc) + body, None, None, COLUMNS, f'ok EVT{enc} 64 48')
            yield read('end', written_head(enc).replace(b'\n', b'\r\n') + body, None, None, COLUMNS, f'ok EVT{enc} 64 48')
            yield read('end', name + b'%END\n' + body, (2048, 2048), 2)


def end_meetings():
    """Which lines count: those behind the end line are body, and no byte of theirs gets 3, 2 or 1. The first line as the end line; two of them."""
    for enc in 2, 3:
        name, opening, other = f'% evt {enc}\n'.encode(), joined(enc, OPENING[enc]), f'% evt {5 - enc}\n'.encode()
        fronts = [(b'', 'refused 2', None), (b'% geometry 9x8\n', 'refused 2', None), (b'% date \x80\n', 'refused 3', None),
                  (name + b'% \xC3\xA9\n', 'refused 3', None), (name, 'ok', None), (name + b'% geometry 9x8\n', 'ok', (9, 8)),
                  (name + b'% geometry 9x0\n', 'ok', (9, 0)), (b'%end x\n' + name, 'ok', None)]
        behinds = [b'', b'\n', other, b'% format EVT3\n', b'% format EVT2\n', b'% geometry 5x7\n', b'% geometry 0x7\n', b'% \x80\n', b'%\xff', b'\xff',
                   b'% end\n', b'% end\n' + other, opening]
        for (front, answer, size), behind in itertools.product(fronts, behinds):
            start = front + b'% end\n'
            for given in None, (7, 6):
                holds = given or size
                told = answer if answer != 'ok' else 'refused 1' if holds and 0 in holds else f'ok EVT{enc} {len(start)} {shown(holds)}'
                yield hdr('end', start + behind + opening * bool(given), given, told)
            yield read('end', start + behind + opening, None, None, COLUMNS, answer if answer != 'ok' else None)
        for mark in b'% end\x80\n', b'% end \x80\n', b'%\x80end\n', b'% end\xC2\x85\n', b'\xC2\xA0% end\n':
            yield hdr('end', name + mark + opening)
            yield hdr('end', name + mark + b'% end\n' + opening)
            yield read('end', name + mark + opening)
        for size, limit, room in itertools.product((None, (64, 48), (6, 8), (0, 5)), (None, 0, 1, 2), (0, 1, COLUMNS)):
            yield read('end', name + b'% end\n' + opening, size, limit, room)
        data = written_head(enc) + opening
        for cut in range(len(data)):
            yield read('end', data[:cut])
            yield hdr('end', data[:cut])


def end_short():
    """Every text of few parts behind the start of a header line, then a geometry, which an end line before it leaves to the body."""
    for n in range(4):
        for parts in itertools.product((b'end', b'END', b' ', b'%', b'\n', b'x', b'\r'), repeat=n):
            yield hdr('end', b'% evt 3\n%' + b''.join(parts) + b'\n% geometry 5x7\n')


def ends():
    for part in end_lines, end_meetings, end_short:
        yield from part()


def reading():
    for part in table, order, room_cases, vector_limits, cuts, percent, sizes, headers, short_headers, recordings, ends:
        yield from part()


# ---- the writer: `write SINK APPEND ..`

OUTPUT = 4096       # the bytes of the program's output
BOUND, MOST = 2**34, 2**62      # of times; the Rust is asked for those of EVT3's first loop alone
NEW = {2: '2:1,0,-,-,-,-', 3: '3:1,0,-,-,-,-'}
SIZED = (64, 48)


class Append:
    """Columns of one append, and the output lent to it: `room` bytes, or what is needed plus `more`, which may be negative.
    `short` says that a given room is too short; the oracle's bytes have to agree."""
    def __init__(self, events=(), more=0, room=None, short=False, size=SIZED, columns=None):
        self.columns = columns or tuple([e[k] for e in events] for k in (1, 2, 0, 3))
        self.more, self.room, self.size = more, room, size
        self.short = short if room is not None else more < 0

    def text(self, need):
        room = need + self.more if self.room is None else self.room
        assert 0 <= room <= OUTPUT
        return f'{shown(self.size)}:{room}:' + ':'.join(','.join(map(str, c)) for c in self.columns)

    def asked(self):
        return f'{shown(self.size)}:' + '/'.join(f'{t},{x},{y},{min(p, 1)}' for x, y, t, p in zip(*self.columns))


def fields(sink):
    """Encoding, header sent, count, last time, high half, low half, row."""
    return int(sink[0]), *(None if f == '-' else int(f) for f in sink[2:].split(','))


def writer_in_range(sink):
    """docs/RULES.md, rule 10, for a writer."""
    enc, sent, count, last, high, low, row = fields(sink)
    if last is None:
        return (count, low, row) == (0, None, None) and (high is None or high * GRAIN[enc] < BOUND)
    if not (0 <= last < BOUND and count <= MOST and high in (None, last // GRAIN[enc])):
        return False
    return low in (None, last % 4096) and (row is None or row <= 2047) if enc == 3 else (low, row) == (None, None)


def number_of(enc, usable, last, a):
    """The table's number for an append but 11, in its order (4 can't be had), or 0."""
    xs, ys, ts, ps = a.columns
    if not usable:
        return 10
    if len({len(xs), len(ys), len(ts), len(ps)}) > 1:
        return 12
    if any(t < s for s, t in zip(([] if last is None else [last]) + ts, ts if last is not None else ts[1:])):
        return 6
    good = all(x <= 2047 for x in xs + ys) and all(p <= 1 for p in ps) and all(0 <= t < BOUND for t in ts)
    return 0 if good else 7


class Writing(Case):
    """A list of appends to one writer. The Rust is asked for the list without the appends that the table alone refuses, which leave the writer as it was;
    of those with falling times it has to say so too. What an output that is too short would have needed it is asked separately."""
    def __init__(self, group, sink, appends, expect=()):
        self.group, self.sink, self.appends, self.expect = group, sink, appends, expect
        fresh = sink[1] != ':'
        self.start = f'{sink[0]}:{int(sink[1] == "n")},0,-,-,-,-' if fresh else sink
        enc, _, count, last, *_ = fields(self.start)
        usable, kept, self.numbers, extra = writer_in_range(self.start), [], [], []
        begin = f'write enc={enc} header={int(sink[1] == "h")}' + ('' if fresh else f' wstate={sink[2:]}') + ' a='
        for a in appends:
            n = number_of(enc, usable, last, a)
            if n == 0 and a.short:
                n = 11
                extra.append(begin + ';'.join(b.asked() for b in kept + [a]))
            elif n in (0, 6):
                kept.append(a)
            assert enc == 2 or n not in (0, 11) or all(t < PERIOD[3] for t in a.columns[2]), 'the Rust is no reference past the first loop'
            if n == 0 and a.columns[2]:
                last, count = a.columns[2][-1], count + len(a.columns[2])
                usable = count <= MOST
            self.numbers.append(n)
        self.asked = [begin + ';'.join(a.asked() for a in kept)] * bool(kept) + extra

    def judge(self, answers):
        parts = iter(answers[0].split(' | ')[1:]) if any(n in (0, 6) for n in self.numbers) else None
        extra = iter(answers[1:] if parts else answers)
        sink, said, words = self.start, [], []
        for a, n in zip(self.appends, self.numbers):
            need = 0
            if n == 0:
                ok, told, state = next(parts).split()
                need, sink = len(told) // 2, sink[:2] + state[1:-1]
                assert ok == 'ok' and (a.room is None or need <= a.room)
                said.append(f'{told} {sink}')
            elif n == 6:
                err, order, told, state = next(parts).split()
                assert (err, order, told) == ('err', 'order', '-') and state[1:-1] == sink[2:]
                said.append(f'refused 6 {sink}')
            elif n == 11:
                ok, told, _ = next(extra).split(' | ')[-1].split()
                need = len(told) // 2
                assert ok == 'ok' and (a.room is None or a.room < need)
                said.append(f'refused 11 {need} {sink}')
            else:
                said.append(f'refused {n} {sink}')
            words.append(a.text(need if n in (0, 11) else max(-a.more, 0)))
        self.words = ' '.join(['write', self.sink] + words)
        for e, r in zip(self.expect, said):
            assert e is None or (r + ' ').startswith(e + ' '), (self.words, e, r)
        return ' | '.join(['ok'] + said)


def modelled(group, sink, appends, expect=()):
    """A list of appends to a writer for which the Rust is no reference: the model says how many bytes each needs, and gives the answers."""
    held, parts = model.sink_of(sink), []
    for a in appends:
        try:
            out, after = model_writer.append(held, a.size, a.columns, 2**40)
            room = max(len(out) + a.more, 0) if a.room is None else a.room
            held = after if len(out) <= room else held
        except Refused:
            room = 40 if a.room is None else a.room
        assert room <= OUTPUT
        parts.append(f'{shown(a.size)}:{room}:' + ':'.join(','.join(map(str, c)) for c in a.columns))
    line = ' '.join(['write', sink] + parts)

    def judge(_):
        answer = model.answer(line)
        for e, told in zip(expect, answer.split(' | ')[1:]):
            assert e is None or (told + ' ').startswith(e + ' '), (line, e, told)
        return answer

    return Case(group, line, [], judge)


def hexed(enc, words):
    return joined(enc, words).hex()


def one_event(t, x=5, y=7, p=1):
    return [(t, x, y, p)]


def row_of(xs, t=4097, y=7, p=0):
    return [(t, x, y, p) for x in xs]


def writer_bench():
    """The values of crates/laws_bench_values for the writer, and the table's own examples but 4: its shortest case has 268,435,457 events."""
    start = [0x8001, 0x6001, 0x0007]
    for room in dict(more=0), dict(room=OUTPUT):
        yield Writing('wbench', '2n', [Append(one_event(100), **room)], [hexed(2, [0x80000001, 0x19002807])])
        yield Writing('wbench', '3n', [Append(one_event(4097), **room)], [hexed(3, start + [0x2805])])
        yield Writing('wbench', '3n', [Append(row_of([10, 11, 13]), **room)], [hexed(3, start + [0x300A, 0x400B])])
        yield Writing('wbench', '3n', [Append(row_of([10, 20, 21]), **room)], [hexed(3, start + [0x300A, 0x4C01])])
        yield Writing('wbench', '3n', [Append(row_of([10, 20, 22]), **room)], [hexed(3, start + [0x200A, 0x2014, 0x2016])])
    for enc in 2, 3:
        yield Writing('wtable', f'{enc}n', [Append(one_event(5) + one_event(4))], ['refused 6'])
        yield Writing('wtable', f'{enc}n', [Append(one_event(5, x=2048))], ['refused 7'])
        yield Writing('wtable', f'{enc}n', [Append(one_event(4097), room=3, short=True)], ['refused 11 8'])
        yield Writing('wtable', f'{enc}n', [Append(columns=([5, 6], [7], [5, 5], [1, 1]))], ['refused 12'])


def writer_states():
    """Rule 10 for writers, each condition by itself: the list says which are refused, by the table. 10 comes first, also before an empty append."""
    top2, top3 = 2**34 - 1, 2**24 - 1
    good = ['2:1,0,-,-,-,-', '2:0,0,-,-,-,-', '2:1,1,100,1,-,-', '2:1,0,100,1,-,-', '2:0,5,100,1,-,-', '2:1,1,100,-,-,-',
            f'2:1,1,{top2},{top2 // 64},-,-', '2:1,1,0,0,-,-', f'2:1,{MOST},100,1,-,-',
            '3:1,0,-,-,-,-', '3:0,0,-,-,-,-', '3:1,1,4097,1,1,7', '3:1,0,4097,1,1,7', '3:0,9,4097,1,1,7', '3:1,1,4097,-,1,7', '3:1,1,4097,1,-,7',
            '3:1,1,4097,1,1,-', '3:1,1,4097,-,-,-',
            f'3:1,1,{top3},4095,4095,2047', '3:1,1,0,0,0,0', '3:1,1,4096,1,0,2047', f'3:1,{MOST},4097,1,1,7', f'3:1,{MOST - 1},4097,1,1,7']
    bad = ['2:1,1,100,0,-,-', '2:1,1,100,2,-,-', '2:1,1,100,100,-,-', f'2:1,1,100,{2**64 - 1},-,-', '2:1,1,64,0,-,-', '2:1,1,63,1,-,-',
           f'2:1,1,100,{2**28 + 1},-,-',
           '2:1,1,100,1,36,-', '2:1,1,100,1,0,-', '2:1,1,100,-,36,-', '2:1,1,100,1,-,7', '2:1,1,100,1,-,0', '2:1,1,100,-,-,0',
           f'2:1,1,{2**34},{2**28},-,-', f'2:1,1,{2**34},-,-,-', f'2:1,1,{2**63 - 1},-,-,-', '2:1,1,-1,-,-,-', '2:1,1,-1,0,-,-',
           f'2:1,1,{-2**63},-,-,-', '2:1,1,-64,-,-,-',
           f'2:1,0,-,{2**28},-,-', '2:1,0,-,-,0,-', '2:1,0,-,-,-,0', '2:1,1,-,-,-,-', '2:0,1,-,-,-,-', '2:1,3,-,1,-,-', f'2:1,{2**64 - 1},-,-,-,-',
           f'2:1,{MOST + 1},100,1,-,-', f'2:1,{2**64 - 1},100,1,-,-',
           '3:1,1,4097,0,1,7', '3:1,1,4097,2,1,7', '3:1,1,4097,4097,1,7', '3:1,1,4095,1,4095,7', '3:1,1,4096,0,0,7', f'3:1,1,4097,{2**64 - 1},1,7',
           '3:1,1,4097,1,0,7', '3:1,1,4097,1,2,7', '3:1,1,4097,1,4097,7', '3:1,1,4097,-,0,7', f'3:1,1,4097,1,{2**64 - 1},7', '3:1,1,4096,1,4096,7',
           '3:1,1,4097,1,1,2048', '3:1,1,4097,-,-,2048', '3:1,1,4097,1,1,65535', '3:1,1,4097,1,1,65543', f'3:1,1,4097,1,1,{2**64 - 1}',
           f'3:1,1,{2**34},{2**22},0,7', f'3:1,1,{2**34},-,-,-', f'3:1,1,{2**35 - 1},-,-,-', f'3:1,1,{2**63 - 1},-,-,-', '3:1,1,-1,-,-,-',
           '3:1,1,-1,0,0,0', f'3:1,1,{-2**63},-,-,-',
           f'3:1,0,-,{2**22},-,-', '3:1,0,-,-,0,-', '3:1,0,-,-,-,0', '3:1,0,-,-,-,2047', '3:1,1,-,-,-,-', '3:0,1,-,-,-,-', '3:1,3,-,1,1,7',
           f'3:1,{2**64 - 1},-,-,-,-', f'3:1,{MOST + 1},4097,1,1,7', f'3:1,{2**64 - 1},4097,1,1,7']
    for sink in good + bad:
        assert writer_in_range(sink) == (sink in good), sink
        enc, _, _, last, *_ = fields(sink)
        t = max(0, min(PERIOD[enc] - 1, last or 0))
        expect = None if sink in good else 'refused 10'
        for list_ in [Append(one_event(t))], [Append(), Append(one_event(min(t + 5000, PERIOD[enc] - 1), 2047, 2047, 0), room=OUTPUT)]:
            yield Writing(f'wstate{enc}', sink, list_, [expect] * len(list_))
    for enc, state in (2, f'2:1,{MOST},100,1,-,-'), (3, f'3:1,{MOST},4097,1,1,7'):
        yield Writing('wleave', state, [Append(), Append(one_event(9000)), Append(one_event(9000)), Append()], [None, None, 'refused 10', 'refused 10'])
        state = state.replace(str(MOST), str(MOST - 2))
        yield Writing('wleave', state, [Append(one_event(9000)), Append(one_event(9000)), Append(), Append(one_event(9000) * 2),
                                        Append(one_event(9000))], [None] * 4 + ['refused 10'])


def writer_order():
    """Every meeting of 10, 12, 6, 7 and 11: the first in that order is given."""
    sinks = {2: '2:1,1,100,1,-,-', 3: '3:1,1,4097,1,1,7'}
    broken = {2: '2:1,1,100,1,-,0', 3: '3:1,1,4097,1,2,7'}
    for enc, is10, is12, is6, is7, is11 in itertools.product((2, 3), *[(False, True)] * 5):
        t = {2: 100, 3: 4097}[enc]
        for k in range(4):
            xs, ys, ts, ps = [5, 6], [7, 7], [t, t + 9], [1, 1]
            if is6:
                ts = [[t + 9, t], [t - 1, t + 9], [t + 9, -1], [t - 1, t - 1]][k]
            if is7:
                (xs, ys, ps, ts)[k][1] = [2048, 2048, 2, BOUND if ts[0] >= t else -1][k]
            if is12:
                (xs, ys, ts, ps)[k].append((xs, ys, ts, ps)[k][1])
            expect = 'refused 10' if is10 else 'refused 12' if is12 else 'refused 6' if is6 else 'refused 7' if is7 else 'refused 11' if is11 else None
            if k and not (is12 or is6 or is7):
                continue
            yield Writing(f'wmeet{enc}', (broken if is10 else sinks)[enc], [Append(columns=(xs, ys, ts, ps), room=0 if is11 else 40, short=is11)], [expect])


def writer_columns():
    """12: each column shorter, longer and empty. 7: each bound, just inside and outside, at the first, middle and last event.
    6: at each place, inside and between."""
    for enc in 2, 3:
        t = 5000
        for k, n in itertools.product(range(4), (0, 1, 2, 4)):
            columns = [[1, 2, 3], [7, 7, 7], [t, t, t], [0, 0, 0]]
            columns[k] = (columns[k] * 2)[:n]
            yield Writing(f'wlength{enc}', f'{enc}h', [Append(columns=columns, room=200), Append(one_event(9))], ['refused 12'])
        for k, n in itertools.product(range(4), (0, 1)):
            columns = [[1] * (k == j) or [1] * n for j in range(4)] if n == 0 else [[1] * (k != j) for j in range(4)]
            yield Writing(f'wlength{enc}', f'{enc}n', [Append(columns=columns, room=99)], ['refused 12'])
        values = [(0, 2047, 1), (0, 2048, 0), (0, 4095, 0), (0, 65535, 0), (1, 2047, 1), (1, 2048, 0), (1, 65535, 0), (3, 1, 1), (3, 2, 0), (3, 3, 0),
                  (3, 255, 0), (3, 128, 0)]
        for (k, v, ok), place in itertools.product(values, range(3)):
            columns = [[1, 2, 3], [7, 8, 7], [t, t, t], [0, 0, 0]]
            columns[k][place] = v
            yield Writing(f'wrange{enc}', f'{enc}n', [Append(columns=columns), Append(row_of([4, 5], t))], [None if ok else 'refused 7'])
        top = PERIOD[enc] - 1
        for t0 in 0, -1, -2**63, top, top + 1, 2**63 - 1, top + 4098, 2**32:
            expect, make = [None if 0 <= t0 < BOUND else 'refused 7'], modelled if enc == 3 and top < t0 < BOUND else Writing
            yield make(f'wrange{enc}', f'{enc}n', [Append(one_event(t0)), Append(one_event(top))], expect)
            times = sorted([t0, t, t + 1])
            yield make(f'wrange{enc}', f'{enc}n', [Append([(t, 1, 1, 1) for t in times]), Append(one_event(6000))], expect)
        for times in [5, 4], [5, 5, 4], [5, 4, 5], [0, -1], [4097, 4096], [4096, 4095], [64, 63], [top, 0], [1, 2, 3, 4, 3], [-1, -2], \
                [2**63 - 1, -2**63], [top + 2, top + 1]:
            yield Writing(f'wfall{enc}', f'{enc}n', [Append([(t, 1, 1, 1) for t in times])], ['refused 6'])
        for last, t in (5, 4), (5, 5), (5, 6), (64, 63), (4096, 4095), (4096, 0), (top, top - 1), (top, top), \
                (5, -1), (0, -1), (0, 0):
            yield Writing(f'wfall{enc}', f'{enc}n', [Append(one_event(last)), Append(one_event(t)), Append(),
                                                     Append(one_event(last) + one_event(last))], [None, 'refused 6' if t < last else None])
        yield Writing(f'wfall{enc}', f'{enc}n', [Append(one_event(9000), more=-1), Append(one_event(8000)), Append(one_event(9000, x=2048)),
                                                 Append(one_event(7999)), Append(one_event(8000))], ['refused 11', None, 'refused 7', 'refused 6'])


def writer_rooms():
    """11: every length of the output up to what is needed and a little more; around 96 bytes and 8 for each event; headers."""
    for enc in 2, 3:
        lists = [one_event(4097), row_of([10, 11, 13]) + one_event(4098) + one_event(70000, 6, 8, 0)]
        for events, need in zip(lists, {2: (8, 28), 3: (8, 28)}[enc]):
            for more in range(-need if enc == 2 or events is lists[0] else -20, 3):
                yield Writing(f'wroom{enc}', f'{enc}n', [Append(events, more)], ['refused 11' if more < 0 else None])
        head_ = len(f'% format EVT{enc}\n% geometry 64x48\n% generator eventcv\n% end\n')
        for more in [-head_ - 8, -head_ - 7, -head_, -9, -8, -7, -1, 0, 1]:
            yield Writing(f'wroom{enc}', f'{enc}h', [Append(one_event(4097), more), Append(one_event(4098))], [f'refused 11 {head_ + 8}' if more < 0 else None])
        for n in 1, 2, 7:
            for room in 96 + 8 * n - 1, 96 + 8 * n, 96 + 8 * n + 1:
                events = [(t * 5000, t, t, t % 2) for t in range(n)]
                yield Writing(f'wroom{enc}', f'{enc}h', [Append(events, room=room, size=(2**64 - 1, 2**64 - 1)), Append(events[-1:], room=room)])
        for room in 0, 1, 95, 96, 97, OUTPUT:
            yield Writing(f'wempty{enc}', f'{enc}n', [Append(room=room)], [f'- {NEW[enc]}'])
            yield Writing(f'wempty{enc}', f'{enc}h', [Append(room=room), Append(one_event(5)), Append(room=room)], [f'- {enc}:0,0,-,-,-,-'])
        for size in (64, 48), (0, 0), (0, 5), (7, 0), (1, 1), (9, 10), (99, 100), (1280, 720), (2**32, 2**32 - 1), (10**19, 10**19 - 1), \
                (2**64 - 1, 2**64 - 1), (2**63, 12345678901234567890):
            yield Writing(f'whead{enc}', f'{enc}h', [Append(one_event(5), size=size), Append(one_event(6), size=(3, 3))])
            yield Writing(f'whead{enc}', f'{enc}h', [Append(one_event(5), -1, size=size), Append(one_event(5, p=2), size=size), Append(size=(8, 8)),
                                                     Append(one_event(6), size=size)], ['refused 11', 'refused 7'])
        yield Writing(f'whead{enc}', f'{enc}:0,4,{4097},-,-,-', [Append(one_event(4097)), Append(one_event(4097))])


def writer_words():
    """Times around each half; in EVT3 runs: which end one, dense ones, gaps of 12, 24 and 25 columns, first and last columns and rows,
    both sides of the rule for vectors."""
    for enc in 2, 3:
        g, top = GRAIN[enc], PERIOD[enc] - 1
        for times in [0], [1], [g - 1], [g], [g + 1], [top], [top - g], [0, 0], [0, 1], [0, g - 1], [0, g], [g - 1, g], [g, g + 1], [g + 1, 2 * g], \
                [g + 1, 2 * g + 1], [0, top], [top, top], [0, g, 2 * g, 3 * g], [5, 5, 6, 6], \
                [top - g, top], [1, g + 1, 2 * g + 1], [2**23, 2**23 + 5], [g * 4095 % (top + 1), top]:
            events = [(t, 3, 4, i % 2) for i, t in enumerate(times)]
            yield Writing(f'wtime{enc}', f'{enc}n', [Append(events)])
            if len(times) > 1:
                yield Writing(f'wtime{enc}', f'{enc}n', [Append([e]) for e in events])
        for x, y, p in itertools.product((0, 1, 2047), (0, 1, 2047), (0, 1)):
            yield Writing(f'wfield{enc}', f'{enc}n', [Append(one_event(4097, x, y, p))])
    runs = [[0, 1], [0, 1, 2], [5, 6, 7], [2045, 2046, 2047], [2040, 2041, 2047], [0, 11, 12], [0, 1, 11], [0, 1, 12], [0, 5, 12], [0, 1, 2, 12],
            [0, 1, 2, 23], [0, 1, 2, 24], [0, 1, 2, 3, 24], [0, 1, 2, 3, 35], [0, 1, 2, 3, 36],
            [0, 12, 24], [0, 12, 24, 36], [0, 1, 24, 25], [0, 1, 2, 3, 25], [0, 1, 2, 3, 4, 25, 49], [7, 8, 9, 10, 35], [7, 8, 9, 10, 31],
            [7, 8, 9, 10, 32], [0, 13, 26, 39, 40, 41, 42, 43], list(range(12)), list(range(13)), list(range(1, 25)),
            list(range(25)), list(range(36)), list(range(2036, 2048)), list(range(2012, 2048)), list(range(0, 48, 2)), list(range(0, 48, 5)),
            list(range(0, 48, 6)), list(range(0, 60, 7)), [0, 2047], [0, 1, 2047], [100] + list(range(112, 124)),
            [100] + list(range(111, 124)), [1, 2, 3, 40, 41, 42, 43, 44], [1, 2, 3, 4, 5, 6, 52, 53, 54], [2000, 2001, 2002, 2003, 2024, 2025, 2047],
            [2035, 2036, 2046], [2035, 2036, 2047], [2036, 2037, 2047], [2, 3, 3, 4], [3, 4, 5, 4, 5, 6], [9, 8, 7], [5, 5, 5]]
    for xs in runs:
        for p, y in (0, 7), (1, 2047):
            yield Writing('wrun', '3n', [Append(row_of(xs, 4097, y, p))])
        yield Writing('wrun', '3n', [Append(row_of(xs[:2], 4097)), Append(row_of(xs[2:], 4097), more=3), Append(row_of(xs, 4097))])
    a, b = row_of([1, 2, 3, 4]), row_of([5, 6, 7, 8])
    ends = [b, [(4098, *e[1:]) for e in b], [(8192, *e[1:]) for e in b], [(*e[:2], 8, e[3]) for e in b], [(*e[:3], 1) for e in b], a, row_of([4, 5, 6]),
            row_of([3, 9, 10])]
    for end in ends:
        yield Writing('wrunend', '3n', [Append(a + end)])
        yield Writing('wrunend', '3n', [Append(a + end + a if end[-1][0] == 4097 else a + end)])
        yield Writing('wrunend', '3n', [Append(a), Append(end)])
        yield Writing('wrunend', '2n', [Append(a + end)])


def writer_drawn():
    """Random lists of appends, refused ones among them, to fresh writers and to resumed ones (fixed seed)."""
    r = random.Random(1022)

    def events(enc, last):
        t, out = last, []
        for _ in range(r.choice([0, 1, 1, 2, 3, 4])):
            t = min(PERIOD[enc] - 1, t + r.choice([0, 0, 0, 1, r.randrange(64), r.randrange(5000), r.randrange(PERIOD[enc] // 4)]))
            y, p, x = r.choice([0, 7, 2047, r.randrange(2048)]), r.randrange(2), r.choice([0, r.randrange(64), r.randrange(2048), 2047])
            out.append((t, x, y, p))
            for _ in range(r.choice([0, 0, 1, 3, 6, 14])):
                x += r.choice([1, 1, 1, 1, 2, 3, 12, 24, 25, 0])
                out += [(t, x, y, p)] * (x <= 2047)
        return out

    def append(enc, last):
        es, size = events(enc, last), r.choice([SIZED, SIZED, (r.randrange(2000), r.randrange(2000))])
        kind = r.randrange(10)
        if kind == 0 and len(es) > 1:
            k = r.randrange(1, len(es))
            es[k:] = [(es[k - 1][0] - r.choice([1, 1, 64, 5000]), *e[1:]) for e in es[k:]]
        if kind == 1 and last:
            es = [(last - r.randrange(1, last + 1), 5, 6, 1)] + es
        if kind == 2 and es:
            es[r.randrange(len(es))] = (es[-1][0], r.choice([2048, 60000, 3]), r.choice([2048, 5]), r.choice([2, 0]))
        if kind == 3 and es:
            columns = [[e[k] for e in es] for k in (1, 2, 0, 3)]
            columns[r.randrange(4)].pop()
            return Append(columns=columns, room=300, size=size)
        if kind == 4 and es:
            return Append(es, -r.choice([1, 1, 2]), size=size)
        return Append(es, r.choice([0, 0, 1, 5, 200]), size=size)

    def some(enc, sink, last):
        list_ = []
        for _ in range(r.randrange(1, 6)):
            a = append(enc, last)
            list_.append(a)
            if number_of(enc, True, last, a) == 0 and not a.short and a.columns[2]:
                last = a.columns[2][-1]
        return list_

    for enc, count in (2, 40), (3, 80):
        for _ in range(count):
            sink = f"{enc}{r.choice('nnh')}"
            yield Writing(f'wlist{enc}', sink, some(enc, sink, 0))
        for _ in range(count // 2):
            last = r.choice([0, 1, GRAIN[enc], r.randrange(PERIOD[enc]), r.randrange(20000), PERIOD[enc] - 1])
            or_none = lambda v: r.choice([v, v, v, '-'])
            low, row = (or_none(last % 4096), or_none(r.choice([0, 7, 2047]))) if enc == 3 else ('-', '-')
            sink = f'{enc}:{r.choice([1, 1, 0])},{r.choice([0, 1, r.randrange(10**6), r.randrange(MOST)])},{last},{or_none(last // GRAIN[enc])},{low},{row}'
            yield Writing(f'wresume{enc}', sink, some(enc, sink, last))


def writer_lengths():
    """Rules 12 and 4 by the lengths of the columns alone, expected by the table: 12 comes first."""
    most = 2**28
    told = lambda lengths: 'refused 12' if len(set(lengths)) > 1 else 'refused 4' if lengths[0] > most else 'ok'
    alike = [(n,) * 4 for n in (0, 1, most - 1, most, most + 1, 2**32, 2**64 - 1)]
    apart = [tuple(b if i == k else a for i in range(4)) for a, b in itertools.permutations((0, most, most + 1, 2**64 - 1), 2) for k in range(4)]
    for lengths in alike + apart:
        yield Case('wlengths', 'lengths ' + ','.join(map(str, lengths)), [], lambda _, answer=told(lengths): answer)


def writing():
    for part in writer_bench, writer_states, writer_order, writer_lengths, writer_columns, writer_rooms, writer_words, writer_drawn:
        yield from part()


LAYERS = [decoding, reading, writing]


def answers_of(oracle, cases):
    """The oracle's answers to what the cases ask, in order."""
    lines = [f'{i} {a}' for i, c in enumerate(cases) for a in c.asked]
    asked = '\n'.join(lines) + '\n'
    out = subprocess.run([oracle], input=asked, stdout=subprocess.PIPE, text=True, check=True).stdout.splitlines()
    assert len(out) == len(lines), 'the oracle left lines out'
    found = [[] for _ in cases]
    for line, told in zip(lines, out):
        case, answer = told.split(' ', 1)
        assert 'MISMATCH' not in answer, (line, answer)
        found[int(case)].append(answer)
    return found


def write(program, oracle, cases):
    """A program's cases and their expected answers; the same case once."""
    told = [c.judge(a) for c, a in zip(cases, answers_of(oracle, cases))]
    count, seen, read, written = {}, set(), [], []
    for c, answer in zip(cases, told):
        if c.words in seen:
            continue
        seen.add(c.words)
        count[c.group] = count.get(c.group, 0) + 1
        read.append(f'{c.group}.{count[c.group]} {c.words}\n')
        written.append(f'{c.group}.{count[c.group]} {answer}\n')
    (CRATES / program / 'stdin').write_text(''.join(read))
    (CRATES / program / 'stdout').write_text(''.join(written))
    refused = sum(' refused ' in w for w in written)
    print(f'{program}: {len(read)} cases, {refused} of them refused, {sum(map(len, read))} and {sum(map(len, written))} bytes')
    print(', '.join(f'{g} {n}' for g, n in count.items()))


def main():
    import vectors21, vectors_index, vectors_long, vectors_number
    if len(sys.argv) not in (2, 3):
        sys.exit(__doc__)
    oracle, programs = sys.argv[1], sys.argv[2:] or ['test_vectors', 'test_vectors_index']
    if 'test_vectors' in programs:
        layers = LAYERS + [vectors21.decoding, vectors21.reading, vectors21.writing, vectors_long.writing, vectors_long.resuming, vectors_number.numbers]
        write('test_vectors', oracle, [c for layer in layers for c in layer()])
    if 'test_vectors_index' in programs:
        write('test_vectors_index', oracle, list(vectors_index.cases(oracle)) + list(vectors21.indexes()))


if __name__ == '__main__':
    main()

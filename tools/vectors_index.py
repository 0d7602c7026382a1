"""The cases of crates/test_vectors_index: opening (`open`, `openw`) and slices (`slice`). vectors.py runs this; docs/VECTORS.md says what a case is.

An expected answer is the oracle's, except where the table of docs/RULES.md has a number that the Rust lacks (3, 5, 8, 9, 10), and except for
openings of recordings with a `%` behind the header's end line, where it is the model's (tools/model). The records that slices are given are the
oracle's too, or the model's of such a recording.
"""
import itertools, random, subprocess
from vectors import (Case, COLUMNS, FRESH, MORE, ONE, OPENING, WIDE, at2, at3, expected, head, headed_case, header_end, in_range, joined, model, numbered,
                     parsed, percent_behind_end, range2, range3, rooms, s2, s3, shown, text, written_head)

RECORDS = 64        # the records of the program's array
MOST = 2**33        # the greatest count of a record
ALL = (2048, 2048)


class Oracle:
    """A running oracle, asked line by line: for the records that cases are made of."""
    def __init__(self, path):
        self.path, self.known, self.process = path, {}, None

    def ask(self, line):
        if self.process is None:
            self.process = subprocess.Popen([self.path], stdin=subprocess.PIPE, stdout=subprocess.PIPE, text=True)
        if line not in self.known:
            self.process.stdin.write(f'x {line}\n')
            self.process.stdin.flush()
            self.known[line] = self.process.stdout.readline().split(' ', 1)[1].strip()
        return self.known[line]


ORACLE = Oracle(None)


def long_bytes(start, unit, n):
    """n bytes: start, then unit again and again."""
    return (start + unit * (n // len(unit) + 1))[:n]


def short_hex(data):
    """HEX, or HEX*K*N where that is much shorter."""
    if len(data) > 2048:
        for k in range(1, 65):
            n = next((i for i in range(len(data) - k) if data[i:i + 64] == data[i + k:i + k + 64]
                      and all(data[j] == data[j + k] for j in range(i, len(data) - k))), None)
            if n is not None and n < 512:
                return f'{data[:n + k].hex()}*{k}*{len(data)}'
        raise ValueError('too long')
    return data.hex() or '-'


# ---- opening

def spacing_ok(spacing):
    return spacing % 4 == 0 and 4 <= spacing <= 4194304


def need_of(body, spacing):
    return max(1, -(-body // spacing))


def own(spacing):
    """How the oracle is told a spacing: the Rust's own, at these lengths, by nothing."""
    return '-' if spacing == 65536 else str(spacing)


def index_line(data, size, spacing):
    return f'index data={data.hex()} size={shown(size)} spacing={own(spacing)}'


def opened(answer, spacing, length, back=0):
    """From the oracle's answer; offsets less `back`."""
    w = answer.split()
    enc, width, height, n, start, k, records = w[1][3], w[2], w[3], w[4], int(w[7]) - back, w[8], [r.split('/', 1) for r in w[10:]]
    return ' '.join([f'ok {enc}:{spacing},{start},{length - back},{width},{height},{n} {k} :'] + [f'{int(o) - back}/{rest}' for o, rest in records])


def open_raw(group, data, size=None, spacing=4, room=RECORDS, expect=None):
    line = f'open {shown(size)} {spacing} {room} {short_hex(data)}'
    asked = [f'hdr data={data.hex()} size={shown(size)}'] + [index_line(data, size, spacing)] * spacing_ok(spacing)

    def judge(answers):
        start = header_end(data)
        head_, answer = numbered(answers[0]), numbered(answers[-1])
        if any(b > 127 for b in data[:start]):
            r = 'refused 3'
        elif head_.startswith('refused'):
            r = head_
        elif not spacing_ok(spacing):
            r = 'refused 8'
        else:
            need = need_of(len(data) - start, spacing)
            assert answer == 'refused 1' or int(answer.split()[8]) == need, (line, answer)
            r = f'refused 9 {need}' if room < need else answer if answer == 'refused 1' else opened(answer, spacing, len(data))
        return r

    return headed_case(group, line, data, asked, judge, expect)


def open_words(group, enc, data, size=None, spacing=4, room=RECORDS, expect=None):
    """The reference is the Rust behind a header of the encoding alone, unless the words begin with `%`; the rule for records, over the Rust's decoder
    at each place, has to give the same."""
    line = f'openw {enc} {shown(size)} {spacing} {room} {short_hex(data)}'
    back = len(head(enc))
    places = [j * spacing for j in range(need_of(len(data), spacing))] if spacing_ok(spacing) else []
    asked = [f'step enc={enc} data={data[:p].hex()}' for p in places + [len(data)]]
    if places and data[:1] != b'%':
        asked.append(index_line(head(enc) + data, size, spacing))

    def kept(answer):
        events = [tuple(map(int, e.split(','))) for e in answer.split(' :')[1].split()]
        return [e for e in events if not size or (e[1] < size[0] and e[2] < size[1])]

    def judge(answers):
        if size and 0 in size:
            return expected(expect, 'refused 1', line)
        if not places:
            return expected(expect, 'refused 8', line)
        steps, all_ = answers[:len(places)], kept(answers[len(places)])
        w, h = size or (max((e[1] for e in all_), default=-1) + 1, max((e[2] for e in all_), default=-1) + 1)
        r = 'refused 1' if 0 in (w, h) else ' '.join([f'ok {enc}:{spacing},0,{len(data)},{w},{h},{len(all_)} {len(places)} :'] + [
            f'{p}/{len(kept(a))}/{max((e[0] for e in kept(a)), default=0)}/{a.split()[1]}' for p, a in zip(places, steps)])
        for a in answers[len(places) + 1:]:
            a = numbered(a)
            assert r == (a if a == 'refused 1' else opened(a, spacing, len(data) + back, back)), (line, r, a)
        return expected(expect, f'refused 9 {len(places)}' if room < len(places) else r, line)

    return Case(group, line, asked, judge)


# ---- slices

class Index:
    """A source (enc, spacing, start, length, width, height, events) and its records (offset, events, time, state)."""
    def __init__(self, source, records, direct=None):
        self.source, self.records, self.direct = source, records, direct

    def with_(self, records=None, direct=False, **changes):
        names = ('enc', 'spacing', 'start', 'length', 'width', 'height', 'events')
        source = tuple(changes.get(n, v) for n, v in zip(names, self.source))
        return Index(source, self.records if records is None else records, self.direct if direct else None)

    def record(self, j, **changes):
        names = ('offset', 'events', 'time', 'state')
        return self.with_([tuple(changes.get(n, v) for n, v in zip(names, r)) if i == j else r for i, r in enumerate(self.records)])

    def in_range(self):
        """docs/RULES.md, rule 10, for an index."""
        enc, spacing, start, _, _, _, total = self.source
        count, time = 0, 0
        for j, (offset, events, t, state) in enumerate(self.records):
            if offset != start + j * spacing or state[0] != enc or not in_range(state) or not count <= events <= min(MOST, total) or t < time:
                return False
            count, time = events, t
        return bool(self.records)


def record_text(r):
    return f'{r[0]}/{r[1]}/{r[2]}/{text(r[3])}'


def model_index_of(enc, data, size, spacing):
    """The model's index of a recording."""
    ok, source, _, _, *records = model.answer(f'open {shown(size)} {spacing} {RECORDS} {data.hex()}').split()
    assert ok == 'ok' and source[0] == str(enc), data.hex()
    numbers = [r.split('/') for r in records]
    return Index((enc, *map(int, source[2:].split(','))), [(int(o), int(n), int(t), parsed(state)) for o, n, t, state in numbers])


def index_of(enc, data, size=None, spacing=4, headed=True):
    """The oracle's index of a recording, or of headerless words; the model's where the Rust takes the body for a header line."""
    if headed and percent_behind_end(data):
        return model_index_of(enc, data, size, spacing)
    whole = data if headed else head(enc) + data
    back = 0 if headed else len(head(enc))
    answer = ORACLE.ask(index_line(whole, size, spacing))
    assert answer.startswith(f'ok EVT{enc} '), (data.hex(), answer)
    w = answer.split()
    records = []
    for r in w[10:]:
        o, n, t, state = r.split('/')
        records.append((int(o) - back, int(n), int(t), parsed(state)))
    return Index((enc, spacing, int(w[7]) - back, len(data), int(w[2]), int(w[3]), int(w[4])), records, (whole, size, back))


def query_text(q):
    return f'{q[0]}:{q[1]}:{q[2]}'


class Slices(Case):
    """Slices of the recording lent. Of an index in range the oracle is asked twice: as opened from the recording, where it was, and over these very records
    behind a header that names the encoding and the size, all offsets by that header's length more."""
    def __init__(self, group, index, lent, queries, room=COLUMNS, expect=None):
        enc, spacing, start, length, width, height, events = index.source
        self.index, self.room, self.queries, self.expect = index, room, queries, expect
        self.line = ' '.join(['slice', f'{enc}:{spacing},{start},{length},{width},{height},{events}', '+'.join(map(record_text, index.records)) or '-',
                              str(room) if isinstance(room, int) else ','.join(map(str, room)), ';'.join(map(query_text, queries)), short_hex(lent)])
        self.number = 1 if 0 in (width, height) else 8 if not spacing_ok(spacing) else 10 if not index.in_range() else 0
        asked, self.doubled = [], False
        if self.number == 0:
            h = head(enc, (width, height))
            shifted = '+'.join(record_text((min(o + len(h), WIDE), *r)) for o, *r in index.records)
            for q in queries:
                # the Rust's columns for a time slice have the length that the total says: a huge one couldn't be had
                total = events if q[0] == 'n' else min(events, index.records[-1][1] + 1000)
                asked.append(f'slice data={h.hex()} size=- spacing={own(spacing)} lent={(h + lent).hex()} cps={shifted} n={total} q={query_text(q)}')
            if index.direct:
                whole, size, back = index.direct
                lent_ = whole[:back] + lent
                altered = f' lent={lent_.hex()}' * (lent_ != whole)
                asked += [f'slice data={whole.hex()} size={shown(size)} spacing={own(spacing)}{altered} q={query_text(q)}' for q in queries]
                self.doubled = True
        super().__init__(group, self.line, asked, self.judged)

    def judged(self, answers):
        if self.number:
            told = [f'refused {self.number}'] * len(self.queries)
        else:
            n = len(self.queries)
            told = [a.split(' | ')[1] for a in answers]
            assert not self.doubled or told[:n] == told[n:], (self.line, told)
            told = [self.lent(a.split()) for a in told[:n]]
        for e, r in zip(self.expect or [], told):
            expected(e, r, self.line)
        return ' | '.join(['ok'] + told)

    def lent(self, w):
        assert w[0] == 'ok' and tuple(map(int, w[1:3])) == self.index.source[4:6], (self.line, w)
        return f'refused 5 {w[3]}' if int(w[3]) > min(rooms(self.room)) else ' '.join(['ok'] + w[3:])


EVERY = [('n', 0, WIDE), ('t', 0, 2**63 - 1)]


def whole_of(index):
    """Slices of everything."""
    return [('n', 0, index.source[6]), ('t', 0, 2**63 - 1)]


# ---- the lists

VECTORS = {3: [0x8001, 0x6001, 0x0007, 0x300A, 0x4FFF, 0x4801, 0x50FF, 0x6005, 0x3810, 0x4003, 0x5F81, 0x2005],
           2: [0x80000001, 0x10000801, 0x10400802, 0x00400803, 0x80000002, 0x00000804, 0x1FC00805, 0x80000003, 0x10000806]}
LOOPING = {3: [0x8FFE, 0x0007, 0x2001, 0x8FFF, 0x2002, 0x800A, 0x2003, 0x6005, 0x2004, 0x8FFF, 0x2805, 0x8000, 0x2006],
           2: [0x8FFFFFFE, 0x10000801, 0x8FFFFFFF, 0x10000802, 0x80FFFFFF, 0x1FC00803, 0x8FFFFFFF, 0x10000804, 0x80000000, 0x00000805]}
BACK = {3: [0x8001, 0x6064, 0x6005, 0x2001], 2: [0x80000002, 0x80000001, 0x10000801, 0x10400802]}


def table():
    """The table's own examples for 8, 9 and 10, and those for 1, 2 and 3."""
    for enc in 2, 3:
        one = joined(enc, ONE[enc])
        assert len(one) == 8
        yield open_raw('itable', head(enc) + one, None, 6, 8, 'refused 8')
        yield open_words('itable', enc, one, None, 6, 8, 'refused 8')
        yield open_raw('itable', head(enc) + one, None, 4, 1, 'refused 9 2')
        yield open_words('itable', enc, one, None, 4, 1, 'refused 9 2')
        yield open_raw('itable', head(enc) + one, (0, 5), 4, 8, 'refused 1')
        yield open_words('itable', enc, one, (0, 5), 4, 8, 'refused 1')
        index = index_of(enc, head(enc) + one)
        yield Slices('itable', index.with_(spacing=6), head(enc) + one, EVERY, expect=['refused 8'] * 2)
        yield Slices('itable', index.with_(width=0, height=5), head(enc) + one, EVERY, expect=['refused 1'] * 2)
        yield Slices('itable', index, head(enc) + one, EVERY, 0, ['refused 5 1'] * 2)
        yield Slices('itable', index, head(enc) + one, EVERY, 1, ['ok 1 :'] * 2)
    index = index_of(3, head(3) + joined(3, ONE[3]))
    yield Slices('itable', index.record(1, state=s3(4096, 4097, 2048)), head(3) + joined(3, ONE[3]), EVERY, expect=['refused 10'] * 2)
    yield open_raw('itable', b'', None, 4, 8, 'refused 2')
    yield open_raw('itable', b'\x25\x80', None, 4, 8, 'refused 3')


def order():
    """Every meeting of 3, 2, 1 (zero size), 8, 9 and 1 (no event) in opening, and of 1, 8, 10 and 5 in slices: the first in that order is given."""
    yes = (False, True)
    for is3, is2, is1, is8, is9, empty in itertools.product(*[yes] * 6):
        enc = 2 + (is3 + is2 + is1 + is8 + is9 + empty) % 2
        body = [0xE << {2: 28, 3: 12}[enc]] * (8 // {2: 4, 3: 2}[enc]) if empty else ONE[enc]
        data = (b'% date x\n' if is2 else head(enc)) + b'% \xC3\xA9\n' * is3 + joined(enc, body)
        size, spacing, room = (0, 5) if is1 else None, 6 if is8 else 4, 1 if is9 else 2
        refused = [(is3, '3'), (is2, '2'), (is1, '1'), (is8, '8'), (is9, '9 2'), (empty, '1')]
        expect = next((f'refused {n}' for applies, n in refused if applies), 'ok')
        yield open_raw('imeet', data, size, spacing, room, expect)
        if not is3 and not is2:
            yield open_words('imeet', enc, data[len(head(enc)):], size, spacing, room, expect)
    for is1, is8, is10, is5, k in itertools.product(*[yes] * 4, (0, 1)):
        for enc in (2, 3) if k else (3,):
            data = joined(enc, ONE[enc])
            index = index_of(enc, data, ALL, headed=False)
            index = index.record(1, time=-1) if is10 and k else index.record(0, offset=1) if is10 else index
            index = index.with_(spacing=6) if is8 else index
            index = index.with_(**{('width', 'height')[k]: 0}) if is1 else index
            expect = 'refused 1' if is1 else 'refused 8' if is8 else 'refused 10' if is10 else 'refused 5 1' if is5 else 'ok 1 :'
            yield Slices('imeet', index, data, EVERY, 0 if is5 else 1, [expect] * 2)


def spacings():
    """8: every bound and remainder. 9: no record, one short, just enough, more."""
    for enc in 2, 3:
        data = joined(enc, MORE[enc])
        for spacing in 0, 1, 2, 3, 4, 5, 6, 8, 12, 65534, 65536, 4194300, 4194304, 4194305, 4194308, 2**32, 2**63, 2**64 - 4, 2**64 - 1:
            ok = spacing % 4 == 0 and 4 <= spacing <= 4194304
            yield open_raw('ispacing', head(enc) + data, None, spacing, RECORDS, 'ok' if ok else 'refused 8')
            yield open_words('ispacing', enc, data, (12, 8), spacing, RECORDS, 'ok' if ok else 'refused 8')
            index = index_of(enc, data, headed=False)
            yield Slices('ispacing', index.with_(index.records[:1], spacing=spacing), data, EVERY, expect=['ok' if ok else 'refused 8'] * 2)
        for cut in 0, 4, 5, len(data):
            need = max(1, -(-cut // 4))
            for room in sorted({0, need - 1, need, need + 1}):
                expect = f'refused 9 {need}' if room < need else 'ok'
                yield open_raw('iroom', head(enc, ALL) + data[:cut], None, 4, room, expect)
                yield open_words('iroom', enc, data[:cut], ALL, 4, room, expect)
        for n in 252, 253, 256, 257, 400:
            body = long_bytes(data, data[-4:], n)
            yield open_words('iroom', enc, body, ALL, 4, RECORDS, 'ok' if n <= 256 else f'refused 9 {-(-n // 4)}')
            yield open_words('iroom', enc, body, ALL, 8, RECORDS, 'ok')


def recordings():
    """Recordings and words of both encodings, their index at each spacing; all slices by number and by time around every boundary."""
    for enc, words_ in itertools.product((2, 3), (MORE, VECTORS, LOOPING, BACK)):
        body = joined(enc, words_[enc])
        for headed, size in ((True, None), (False, (14, 2000))) if words_ is not LOOPING else ((False, None), (True, ALL)):
            data = head(enc) + body if headed else body
            for spacing in 4, 8, 65536, 4194304:
                if headed:
                    yield open_raw(f'index{enc}', data, size, spacing)
                else:
                    yield open_words(f'index{enc}', enc, data, size, spacing)
                index = index_of(enc, data, size, spacing, headed)
                n = index.source[6]
                ends = sorted({0, 1, 2, n // 2, n - 1, n, n + 1, WIDE} | {r[1] for r in index.records})
                numbers = [('n', a, b) for a, b in itertools.product(ends, ends)]
                times = sorted({r[2] + d for r in index.records for d in (-1, 0, 1)} | {-2**63, -1, 0, 2**63 - 1})
                windows = [('t', a, b) for a, b in itertools.product(times, times)]
                if spacing > 8:
                    times = (-1, 0, 4097, 4101, 4102, 2**24, 2**34, 2**63 - 1)
                    numbers, windows = numbers[::5], [('t', a, b) for a, b in itertools.product(times, repeat=2)][::5]
                elif spacing == 8 or words_ is LOOPING:
                    numbers, windows = numbers[::3], windows[::7]
                else:
                    windows = windows[::3]
                for list_ in numbers, windows:
                    for i in range(0, len(list_), 16):
                        yield Slices(f'slice{enc}', index, data, list_[i:i + 16])


def cuts():
    """A short recording cut at every byte: opened, and lent to slices over the whole one's index; lent recordings that are longer."""
    for enc in 2, 3:
        body = joined(enc, VECTORS[enc])[:24]
        for headed in True, False:
            data = head(enc, (2000, 2000)) + body if headed else body
            for spacing in 4, 8:
                index = index_of(enc, data, (2000, 2000), spacing, headed)
                n = index.source[6]
                for cut in range(len(data) + 1):
                    if headed and spacing == 8:
                        yield open_raw(f'icut{enc}', data[:cut], None, spacing)
                    if not headed and spacing == 4:
                        yield open_words(f'icut{enc}', enc, data[:cut], None, spacing)
                    if (cut >= index.source[2] or cut % 7 == 0) and headed == (spacing == 8):
                        yield Slices(f'icut{enc}', index, data[:cut],
                                     [('n', 0, n), ('n', 1, n - 1), ('n', n, n), ('t', 0, 2**63 - 1), ('t', 66, 4097), ('t', 4101, 4102)])
                for more in MORE[enc][:1], MORE[enc], [0xE << {2: 28, 3: 12}[enc]] * 9:
                    yield Slices(f'ilonger{enc}', index, data + joined(enc, more),
                                 [('n', 0, n), ('n', n - 1, n + 5), ('n', 0, WIDE), ('t', 0, 2**63 - 1), ('t', 4097, 4200), ('t', 64, 130)])


def ranges():
    """Rule 10 for an index, each condition by itself, just inside and just outside. Which are refused is written here, by the table."""
    for enc in 2, 3:
        body = joined(enc, MORE[enc])
        data = head(enc) + body
        index = index_of(enc, data, ALL, 4)
        start, n, last = index.source[2], index.source[6], len(index.records) - 1
        some = [('n', 0, n), ('n', 2, 3), ('t', 0, 2**63 - 1), ('t', 65, 4100)]

        def case(changed, ok, queries=some, lent=data):
            return Slices(f'irange{enc}', changed, lent, queries, expect=['ok' if ok else 'refused 10'] * len(queries))

        yield case(index, True)
        yield case(index.with_([]), False)
        yield case(index.with_([], events=0, width=1), False)
        for j in 0, 1, last:                                        # a wrong offset
            offset = start + 4 * j
            for wrong in offset - 1, offset + 1, offset - 4, offset + 4, 0, 4 * j, WIDE, offset + 2**32, 2**63:
                yield case(index.record(j, offset=wrong), wrong == offset)
        yield case(index.with_(start=start + 1), False)
        yield case(index.with_(start=0), False)
        yield case(index.with_(spacing=8), False)
        yield case(index.with_(index.records[:1], spacing=8), True)
        fresh, top = FRESH[enc], 2**64
        for first, spacing, k, ok in (top - 8, 4, 2, True), (top - 8, 4, 3, False), (top - 4, 4, 1, True), (top - 4, 4, 2, False), \
                (top - 1, 4, 1, True), (top - 1, 4, 2, False), (top - 5, 4, 2, True), \
                (top - 4194304, 4194304, 1, True), (top - 4194304, 4194304, 2, False), (top - 4194305, 4194304, 2, True), \
                (top - 65536 * 3, 65536, 3, True), (top - 65536 * 3, 65536, 4, False):
            records = [((first + j * spacing) % top, 0, 0, fresh) for j in range(k)]
            yield case(Index((enc, spacing, first, 0, 64, 48, 3), records), ok, [('n', 0, 3), ('t', 0, 9999)])
        other = {2: FRESH[3], 3: FRESH[2]}[enc]                     # the other encoding
        for j in 0, 1, last:
            yield case(index.record(j, state=other), False)
            yield case(index.record(j, state=at3(1, row=7) if enc == 2 else at2(64)), False)
        yield case(index.with_(enc=5 - enc), False)
        good, bad, _ = range2() if enc == 2 else range3()           # a decoder out of range
        for i, state in enumerate(good + bad):
            for j in (0,) if i % 2 else (last,):
                yield case(index.record(j, state=state), i < len(good))
        counts = [r[1] for r in index.records]                      # counts
        for j in 1, last:
            yield case(index.record(j, events=counts[j - 1]), True)
            yield case(index.record(j - 1, events=counts[j] + 1), False)
            if counts[j - 1]:
                yield case(index.record(j, events=counts[j - 1] - 1), False)
        yield case(index.record(last, events=n), True)
        yield case(index.record(last, events=n + 1), False)
        yield case(index.with_(events=counts[last]), True)
        yield case(index.with_(events=counts[last] - 1), False)
        yield case(index.with_(events=0), False)
        yield case(index.with_(index.records[:2], events=counts[1]), True)
        for total, count, ok in (MOST, MOST, True), (MOST + 1, MOST, True), (WIDE, MOST, True), (WIDE, MOST + 1, False), (MOST + 1, MOST + 1, False), \
                (MOST, MOST + 1, False), (WIDE, WIDE, False), (WIDE, 2**63, False):
            near = [('n', MOST - 1, MOST + 2), ('n', count, min(count + 3, WIDE)), ('n', 0, 3), ('t', 0, 9999)]
            yield case(Index((*index.source[:6], total), [(start, count, 0, FRESH[enc])]), ok, near)
            yield case(Index((*index.source[:6], total), [(start, 0, 0, FRESH[enc]), (start + 4, count, 5, index.records[1][3])]), ok, near[:3])
        times = [r[2] for r in index.records]                       # times
        for j in 1, last:
            yield case(index.record(j - 1, time=times[j]), True)
            yield case(index.record(j - 1, time=times[j] + 1), False)
        for j, t, ok in (0, -1, False), (0, -2**63, False), (0, 0, True), (last, 2**63 - 1, True), (0, 2**63 - 1, False), (last, times[last - 1], True), \
                (last, times[last - 1] - 1, False), (last, -1, False):
            yield case(index.record(j, time=t), ok)
        yield case(index.with_([(*r[:2], 2**63 - 1, r[3]) for r in index.records]), True)
        yield case(index.with_([(*r[:2], -1, r[3]) for r in index.records]), False)
        yield case(index.with_(index.records[:1]).record(0, time=-1), False)


def altered():
    """Records that rule 10 allows and this recording wouldn't give; other totals, sizes, starts and lengths of a source; fewer and more records."""
    for enc, words_ in itertools.product((2, 3), (MORE, VECTORS)):
        body = joined(enc, words_[enc])
        data = head(enc) + body
        index = index_of(enc, data, ALL, 4)
        start, n, last = index.source[2], index.source[6], len(index.records) - 1
        some = [('n', 0, n), ('n', 1, 4), ('n', n - 2, n + 2), ('n', 0, 1000), ('t', 0, 2**63 - 1), ('t', 64, 4100), ('t', 130, 5000), ('t', -5, 70)]

        def case(changed, queries=some, lent=data):
            assert changed.in_range()
            return Slices(f'ialtered{enc}', changed, lent, queries)

        for d in 1, 2, 5, 100:                                      # first count above 0
            yield case(index.with_([(r[0], r[1] + d, *r[2:]) for r in index.records], events=n + d))
            yield case(index.with_([(start, d, 0, FRESH[enc])], events=n + d))
        states = [at2(1), at2(1, 0, 63), at2(0xFFFFFFF), at2(5, 3), at2(2**28 - 1, 2**27, 63), FRESH[2]] if enc == 2 else \
            [at3(1, row=9), at3(1, 0, 5, row=2047, x=65530, p=1), at3(4095, row=3, x=7), at3(5, 3, 77), at3(4095, 2**28, 4095, row=1, x=2040, p=1), FRESH[3]]
        for state, j in itertools.product(states, (0, last)):
            yield case(index.record(j, state=state))
        for total in last and index.records[-1][1], n + 1, n + 1000:
            yield case(index.with_(events=total))
        for size in (1, 1), (6, 8), (14, 2048), (2048, 3), (WIDE, WIDE), (65536, 65536), (2**32, 2**32 + 1):
            yield case(index.with_(width=size[0], height=size[1]))
        for length in 0, 1, len(data) + 1, WIDE:
            yield case(index.with_(length=length))
        for k in 1, 2, last:
            yield case(index.with_(index.records[:k]))
        more = [(start + 4 * j, n, 9999, index.records[last][3]) for j in range(last + 1, last + 4)]
        yield case(index.with_(index.records + more), some + [('n', n, n + 1), ('t', 10000, 20000), ('t', 9999, 20000)])
        for back in 1, 2, 3, 4, start:
            yield case(index.with_([(r[0] - back, *r[1:]) for r in index.records], start=start - back))
        for t in 1, 64, 4096, 2**62:
            yield case(index.with_([(*r[:2], r[2] + t, r[3]) for r in index.records]), some + [('t', t, t + 5000), ('t', t + 1, 2**63 - 1)])
        leave = at2(0xFFFFFFF, 2**27) if enc == 2 else at3(0xFFF, 2**28)
        words2 = joined(enc, [0x80000000, 0x10000801, 0x8FFFFFFF, 0x80000000, 0x00000801] if enc == 2 else [0x8000, 0x2001, 0x8FFF, 0x8000, 0x2002])
        yield case(Index((enc, 4, 0, len(words2), 64, 48, 5), [(0, 0, 0, leave)]), some, words2)


def backward():
    """Times that step back: a time slice may depend on the checkpoint, as in the Rust. Of the first words that is written here."""
    for enc, window, found in (3, ('t', 4101, 4102), 'ok 1 : 4101,1,0,0'), (2, ('t', 64, 65), 'ok 1 : 64,1,1,1'):
        data = joined(enc, BACK[enc])
        for spacing in 4, 8, 65536, 4194304:
            yield Slices('iback', index_of(enc, data, ALL, spacing, False), data, [window, ('n', 0, 1)],
                         expect=[found if spacing == 4 or (enc, spacing) == (2, 8) else 'ok 0 :', 'ok 1 :'])
    lists = {3: [[0x8002, 0x2001, 0x8001, 0x6005, 0x2002, 0x8003, 0x2003, 0x6FFF, 0x6001, 0x2004, 0x8001, 0x2005],
                 [0x8005, 0x6064, 0x2001, 0x6005, 0x2002, 0x6003, 0x2003, 0x6FFF, 0x2004, 0x8004, 0x2005, 0x8006]],
             2: [[0x80000003, 0x10400801, 0x80000001, 0x10000802, 0x1FC00803, 0x80000002, 0x10400804, 0x10000805, 0x80000003, 0x10000806],
                 [0x80000009, 0x80000003, 0x1FC00801, 0x10000802, 0x10400803, 0x80000002, 0x1FC00804, 0x80000004]]}
    for enc in 2, 3:
        for words_, spacing in itertools.product(lists[enc], (4, 8, 12, 65536)):
            data = joined(enc, words_)
            index = index_of(enc, data, ALL, spacing, False)
            times = sorted({t + d for t in [r[2] for r in index.records] + [r[3][3] for r in index.records] for d in (0, 1)})
            windows = [('t', a, b) for a, b in itertools.product(times, times) if a < b]
            yield Slices('iback', index, data, windows[::max(1, len(windows) // 24)])


def percent():
    """Words that begin with `%`: no byte of theirs is header."""
    for enc, firsts in (2, [0x80000025, 0x80000A25]), (3, [0x8025, 0x0A25, 0x2025]):
        for first, rest, size, spacing in itertools.product(firsts, ([], MORE[enc]), (None, (12, 8), (0, 1)), (4, 65536)):
            data = joined(enc, [first] + rest)
            yield open_words('ipercent', enc, data, size, spacing)
        for first in firsts:
            yield open_raw('ipercent', head(enc) + joined(enc, [first] + ONE[enc]), None, 4)


def ends():
    """The header's end line before each kind of body: opened at each spacing, cut at every byte, and slices, by the Rust over these very records."""
    for enc in 2, 3:
        name, words_ = f'% evt {enc}\n'.encode(), [OPENING[enc], MORE[enc], [OPENING[enc][0]] + VECTORS[enc]]
        fronts = [name + b'% end\n', name + b'%%  END \r\n', written_head(enc), written_head(enc).replace(b'\n', b'\r\n')]
        for front, words, spacing in itertools.product(fronts, words_, (4, 8, 65536)):
            data = front + joined(enc, words)
            yield open_raw('iend', data, None, spacing, RECORDS, 'ok')
            yield open_raw('iend', data, (12, 8), spacing, 2)
            if front in fronts[1:3]:
                index = index_of(enc, data, None, spacing)
                n, counts, times = index.source[6], [r[1] for r in index.records], [r[2] for r in index.records]
                numbers = [('n', a, b) for a, b in itertools.product(sorted({0, 1, n - 1, n, *counts}), repeat=2) if a <= b]
                windows = [('t', a, b) for a, b in itertools.product(sorted({0, times[-1] + 1, 2**63 - 1, *times}), repeat=2) if a < b]
                for queries in numbers, windows:
                    yield Slices('iend', index, data, queries[:24])
        data = written_head(enc) + joined(enc, OPENING[enc])
        for cut in range(len(data)):
            yield open_raw('iend', data[:cut], None, 4, RECORDS)
            if cut >= len(written_head(enc)):
                index = index_of(enc, data[:cut], None, 4)
                yield Slices('iend', index, data[:cut], [('n', 0, WIDE), ('n', 1, 2), ('t', 0, 2**63 - 1), ('t', 2404, 155648)])
        behinds = b'% geometry 5x7 \n', b'% geometry 0x7 \n', b'% format EVT5 \n\n', b'% \x80\n', b'% end\n', b'%', b'\x80', b''
        for behind, spacing, room in itertools.product(behinds, (4, 6), (0, RECORDS)):
            for front in name, b'% geometry 7x8\n' + name, b'% \x80\n' + name, b'', b'% geometry 0x8\n' + name:
                yield open_raw('iend', front + b'% end\n' + behind + joined(enc, OPENING[enc]), None, spacing, room)
        for near in b'% end x\n', b'% ending\n', b'% %end\n', b'%endx\n', b'% e nd\n':
            for words in OPENING[enc], MORE[enc]:
                yield open_raw('iend', name + near + joined(enc, words))
                yield open_raw('iend', name + near + b'% end\n' + joined(enc, words))


def longs():
    """More bytes than the Rust's own spacing, a loop in each unit; the body just at, below and above one and two of it."""
    units = {2: [0x8FFFFFFF, 0x10000801, 0x80000000, 0x00000802], 3: [0x8FFF, 0x0007, 0x2801, 0x300A, 0x4003, 0x8000, 0x2002, 0xE000]}
    for enc in 2, 3:
        unit = joined(enc, units[enc])
        for body, headed in (65532, False), (65536, False), (65537, False), (65536, True), (65540, True), (70001, False), (131072, False):
            start = head(enc, ALL) if headed else b''
            data = long_bytes(start, unit, len(start) + body)
            yield open_raw(f'ilong{enc}', data, None, 65536) if headed else open_words(f'ilong{enc}', enc, data, ALL, 65536)
            index = index_of(enc, data, ALL, 65536, headed)
            total, (offset, count, time, _) = index.source[6], index.records[-1]
            queries = [('n', a, a + 5) for a in (0, count - 3, count - 1, count, count + 1, total - 3)]
            queries += [('t', time + d, time + d + 2**25) for d in (-2**25, -1, 0, 1, 2**24)] + [('t', -1, 2**24)]
            yield Slices(f'ilong{enc}', index, data, [(k, max(a, 0) if k == 'n' else a, b) for k, a, b in queries], 30)
            yield Slices(f'ilong{enc}', index, data[:offset + 9], [('n', count, count + 9), ('t', time, 2**63 - 1), ('n', total - 1, total)], 30)


def drawn():
    """Random recordings, their index at a random spacing, random slices; cut, longer and other recordings lent; altered records (fixed seed)."""
    r = random.Random(477)

    def one(enc):
        kind = r.choice([0, 1, 8, 0, 1, 1, r.randrange(16)] if enc == 2 else [0, 2, 3, 4, 5, 6, 6, 8, 2, r.randrange(16)])
        bits = 28 if enc == 2 else 12
        low = r.choice([r.randrange(1 << bits), r.randrange(64), 1 << r.randrange(bits), (1 << bits) - 1 - r.randrange(16)])
        return kind << bits | low

    for enc, count in (2, 50), (3, 70):
        for _ in range(count):
            body = joined(enc, [r.choice([0x8001 << (16 if enc == 2 else 0), one(enc)])] + [one(enc) for _ in range(r.randrange(4, 26))])
            body = body[:len(body) - r.choice([0, 0, 0, 1, 2])]
            headed, size = r.random() < .5, r.choice([None, ALL, (1000, 2048), (64, 48), (2**20, 2**20)])
            spacing = r.choice([4, 4, 8, 12, 16, 20, 65536, 4194304])
            headed = headed or body[:1] == b'%'
            data = head(enc, r.choice([None, ALL, (700, 900)])) + body if headed else body
            group, room = f'irandom{enc}', r.choice([64, 64, 20, 5])
            yield open_raw(group, data, size, spacing, room) if headed else open_words(group, enc, data, size, spacing, room)
            if ORACLE.ask(index_line(data if headed else head(enc) + data, size, spacing)) == 'err size':
                continue
            index = index_of(enc, data, size, spacing, headed)
            n, records = index.source[6], index.records

            def number():
                return r.choice([0, n, WIDE, r.randrange(n + 2), r.randrange(n + 2), r.choice(records)[1]])

            def time():
                return max(-2**63, min(2**63 - 1, r.choice([r.choice(records)[2] + r.randrange(-1, 2), r.choice(records)[3][3] + r.randrange(-2, 70),
                                                            2**63 - 1, 0, r.randrange(2**24), -1])))

            queries = [r.choice([lambda: ('n', number(), number()), lambda: ('t', time(), time())])() for _ in range(6)]
            kind, lent = r.randrange(5), data
            if kind == 1:
                lent = data[:r.randrange(len(data) + 1)]
            if kind == 2:
                lent = data + joined(enc, [one(enc) for _ in range(4)])
            if kind == 3:
                at = r.randrange(len(data))
                lent = data[:at] + bytes([r.randrange(256)]) + data[at + 1:]
            if kind == 4:
                k = r.randrange(len(records))
                more = r.randrange(5)
                altered = [(o, e + more * (j >= k), t + 7 * more * (j >= k), records[k][3] if j == k - 1 else s)
                           for j, (o, e, t, s) in enumerate(records)]
                index = index.with_(altered, events=n + r.choice([more, more + 3]))
            yield Slices(f'irandom{enc}', index, lent, queries, r.choice([COLUMNS, COLUMNS, n, max(n - 1, 0), 3, (9, 8, 7, 6)]))


def cases(oracle):
    ORACLE.path = oracle
    for part in table, order, spacings, recordings, cuts, ranges, altered, backward, percent, longs, drawn, ends:
        yield from part()

"""The cases of EVT 2.1 of crates/test_vectors and crates/test_vectors_index: vectors.py runs this; docs/VECTORS.md says what a case is.

The Rust original doesn't know EVT 2.1, so the answers are the model's (tools/model), and where they are written here or in tools/model/cases21.py, by
hand, the model has to give them. The high half of a word is an EVT2 word, the low half its mask.
"""
import itertools, random
from vectors import Append, Case, COLUMNS, OUTPUT, SIZED, WIDE, END_LINES, NEAR_ENDS, expected, model, modelled, range2, shown, text
import cases21, writer
from refusal import Refused

RECORDS = 64
MOST = 2**33
ALL = (2048, 2048)
NAME = b'% format EVT21\n'
# time 64; events at 100, columns 5 and 7; nothing at 108; events at 101; a trigger; time 128; a row of 32 columns; an event at 191
MORE = [0x8000000100000000, 0x1900280700000005, 0x1B00000700000000, 0x0940280700000003, 0xA9001F0100000000, 0x8000000200000000, 0x10010007FFFFFFFF,
        0x1FC0100200000001]
COUNT = 37
ONE = [0x8000000100000000, 0x1900280700000001]
LOOPING = [0x8FFFFFFE00000000, 0x1000080100000003, 0x8FFFFFFF00000000, 0x1000080200000000, 0x80FFFFFF00000000, 0x1FC0080300000003, 0x8FFFFFFF00000000,
           0x1000080400000001, 0x8000000000000000, 0x0000080580000001]
BACK = [0x8000000300000000, 0x1040080100000001, 0x8000000100000000, 0x1000080200000000, 0x1FC0080300000003, 0x8000000200000000, 0x1040080400000000,
        0x1000080500000001, 0x1FC0080600000000, 0x1080080700000001, 0x8000000300000000, 0x1000080600000001]


def case(group, line, expect=None):
    return Case(group, line, [], lambda _: expected(expect, model.answer(line), line))


def joined(words):
    return b''.join(w.to_bytes(8, 'little') for w in words)


def hexed(data):
    return data.hex() or '-'


def numbers(body):
    """Words written as numbers, as in cases21.py; fewer digits are a broken last word, its bytes as they stand."""
    return b''.join(bytes.fromhex(w)[::-1] if len(w) == 16 else bytes.fromhex(w) for w in body.split())


# ---- decoding

def state(coarse=0, loops=0, low=0, started=1):
    """A decoder, its coarse time `coarse` units of 64 into period `loops`."""
    high = loops * 2**34 + coarse * 64
    return f'21:{started},{high},{high + low},{loops}'


FRESH = state(started=0)


def step(group, before, words, expect=None):
    return case(group, f'step {before} {hexed(joined(words))}', expect)


def word(group, before, data, expect=None):
    return case(group, f'word {before} {hexed(data)}', expect)


def types():
    """Each type, its fields at 0, at their greatest and in between; low halves that mean nothing; the bits of a mask."""
    started = [state(), state(0x1234567, 0, 5), state(0xFFFFFFF, 3, 63)]
    masks = 0, 1, 0x80000000, 0x00010400
    for kind in range(16):
        if kind < 2:
            highs = [t << 22 | x << 11 | y for t, x, y in ((0, 0, 0), (63, 2047, 2047), (21, 640, 480), (36, 5, 7), (63, 0, 2047), (0, 2047, 0))]
        elif kind == 8:
            highs = [0, 1, 63, 0x1234566, 0x1234567, 0x1234568, 0x8000000, 0xFFFFFFE, 0xFFFFFFF]
        elif kind == 10:
            highs = [t << 22 | c << 8 | v for t in (0, 63) for c in (0, 31) for v in (0, 1)] + [0xFFFFFFF]
        else:
            highs = [0, 0x5A5A5A5, 0xFFFFFFF]
        for high, low in itertools.product(highs, masks if kind < 2 else (0, 2**32 - 1)):
            w = kind << 60 | high << 32 | low
            yield step('type21', FRESH, [w])
            for before in started if kind in (0, 1, 8) else started[1:2]:
                yield step('type21', before, [w])
    for x, p in (0, 0), (100, 1), (2016, 0), (2047, 1):
        for mask in [1 << bit for bit in range(32)] + [0, 2**32 - 1, 2**31 - 1, 2**32 - 2, 0x55555555, 0xAAAAAAAA]:
            yield step('mask21', state(1), [p << 60 | 36 << 54 | x << 43 | 7 << 32 | mask])


def loops():
    """As EVT2's: from the threshold on, by the coarse time. A step may leave the range, and the next word gets 10."""
    top, edge = 0xFFFFFFF, 0xF000000
    for n, low in (0, 0), (0, 63), (1, 0), (2**27 - 1, 63):
        for old, new in (top, top - edge - 1), (top, top - edge), (top, top - edge + 1), (top, 0), (top, top), (edge + 1, 0), (edge + 1, 1), (edge, 0), \
                (edge, 1), (edge - 1, 0), (edge - 1, top), (0, 0), (0, top), (1, 0), (edge // 2, 0):
            counted = int(old - new >= edge)
            yield step('loop21', state(old, n, low), [0x8 << 60 | new << 32], f'ok {state(new, n + counted)} 0 :')
    yield step('loop21', FRESH, [0x8FFFFFFF00000000, 0x8000000000000000, 0x8FFFFFFF00000000, 0x80FFFFFF00000000, 0x8100000000000000, 0x1000080100000001])
    for behind in ([], [0x8FFFFFFF00000000], [1], [0xE000000000000000], [0x1000000000000000]):
        yield step('leave21', state(top, 2**27), [0x8 << 60] + behind, 'refused 10' if behind else f'ok {state(0, 2**27 + 1)} 0 :')
        yield step('leave21', state(top, 2**27 - 1), [0x8 << 60] + behind, 'ok')


def ranges():
    """EVT2's lists of decoders in range and out of it."""
    good, bad, _ = range2()
    for states, expect in (good, 'ok'), (bad, 'refused 10'):
        for i, before in enumerate(states):
            before = text((21, *before[1:]))
            for words in ([0x8000000100000000], [0x1000080100000003], [0x1B00000700000000], [0xE000000000000000])[:4 if expect == 'ok' else 2]:
                yield step('range21', before, words, expect)
            yield word('range21', before, joined([0x8000000100000000])[:i % 9], expect)


def word_lists():
    """The first word alone, whatever stands behind it; every list of two interesting words, and of three of fewer; streams cut at every byte."""
    for before in FRESH, state(1), state(0xFFFFFFF, 2, 9):
        for words in [0x8000000100000000, 0x1900280700000003], [0x1900280700000003, 0x8000000100000000], [0x1B00000700000000, 0x1900280700000003]:
            for n in range(17):
                yield word('word21', before, joined(words)[:n])
    some = [0x8000000100000000, 0x8FFFFFFFFFFFFFFF, 0x80FFFFFF00000000, 0x8100000000000000, 0, 0x1900280700000003, 0x1FFFFFFFFFFFFFFF, 0x1B00000700000000,
            0x2FFFFFFFFFFFFFFF, 0xA000010100000000, 0xF000000000000000]
    for pair in itertools.product(some, repeat=2):
        yield step('pair21', FRESH, pair)
    for triple in itertools.product([0x8FFFFFFF00000000, 0x80FFFFFF00000000, 0x1900280700000003, 0x0FC0000000000000], repeat=3):
        yield step('triple21', FRESH, triple)
    for words in ONE, MORE:
        data = joined(words)
        for cut in range(len(data) + 1):
            yield case('cut21', f'step {FRESH} {hexed(data[:cut])}')


def drawn_words():
    r = random.Random(2021)

    def one():
        kind = r.choice([0, 1, 8, 0, 1, 1, r.randrange(16)])
        high = r.choice([r.randrange(1 << 28), r.randrange(1 << 28), 1 << r.randrange(28), (1 << 28) - 1 - r.randrange(16)])
        return kind << 60 | high << 32 | r.choice([0, 1 << r.randrange(32), r.getrandbits(32) & r.getrandbits(32), r.getrandbits(32)])

    for _ in range(120):
        before = state(r.choice([0, 1, 2**28 - 1, r.randrange(2**28)]), r.choice([0, 0, 1, 2, r.randrange(2**27), 2**27 - 1]), r.randrange(64))
        yield step('random21', before, [one() for _ in range(r.randrange(1, 5))])
    for _ in range(6):
        yield step('stream21', FRESH, [one() for _ in range(20)])


def decoding():
    for part in types, loops, ranges, word_lists, drawn_words:
        yield from part()
    for name, before, body, _, _ in cases21.WORDS:
        if before[3] in (2, 3, 21) and before[4:6] + before[7:] == (0, 0, 0):     # the others are no STATE
            yield word('word21', f'{before[3]}:{before[6]},{before[0]},{before[1]},{before[2]}', numbers(body))


# ---- headers and reading

def hdr(group, data, size=None, expect=None):
    return case(group, f'hdr {shown(size)} {hexed(data)}', expect)


def called(data, size, limit, room):
    return f'{shown(size)} {shown(limit)} {room if isinstance(room, int) else ",".join(map(str, room))} {hexed(data)}'


def read(group, data, size=None, limit=None, room=COLUMNS, expect=None):
    return case(group, f'read {called(data, size, limit, room)}', expect)


def words(group, data, size=None, limit=None, room=COLUMNS, expect=None):
    return case(group, f'words 21 {called(data, size, limit, room)}', expect)


def names():
    """Which lines name EVT 2.1; the body behind them is another in each encoding."""
    counts = {21: 1, 2: 2, 3: 1}
    for lines, encoding in cases21.NAMES:
        start, line = len(lines), lines.encode()
        for tail in (b'', b'% geometry 7x9\n', b'% end\n'):
            expect = 'refused 2' if encoding is None else f'ok EVT{encoding} {start + len(tail)} ' + ('7x9' if b'geometry' in tail else '-')
            yield hdr('names21', line + tail, None, expect)
        yield read('names21', line + joined(ONE), None, None, 2, 'refused 2' if encoding is None else f'ok EVT{encoding}')
        yield read('names21', line + joined(ONE), (2048, 2048), None, 1, 'refused 2' if encoding is None else 'ok' if counts[encoding] == 1 else 'refused 5 2')
    for first, second in itertools.product(('EVT21', 'EVT2', 'EVT3', 'none', ''), ('2.1', '2', '3', 'none', '')):
        yield hdr('names21', f'% format {first}\n% evt {second}\n'.encode())
        yield hdr('names21', f'% evt {second}\n% format {first}'.encode(), (7, 9))
    for text_ in 'EVT21', 'evt21', 'EVT 21', 'EVT2', '2.1', '2 .1':
        for n in range(len(text_) + 1):
            yield hdr('names21', f'% format {text_[:n]}\n'.encode())
            yield hdr('names21', f'% evt {text_[:n]}\n'.encode())


def listed_readings():
    """Those of cases21.py, without their triggers, which the programs don't ask for."""
    for name, front, body, size, limit, room, _, answer in cases21.READINGS:
        if answer.startswith('refused 13') or front in (20, 22, 2**32 - 21):
            continue
        answer = answer.split(' | ')[0].strip()
        if isinstance(front, str):
            yield read('read21', front.encode('latin-1') + numbers(body), size, limit, room, answer)
        else:
            yield words('read21', numbers(body), size, limit, room, answer)
            if name != 'percent':
                yield read('read21', NAME + numbers(body), size, limit, room, answer)


def order():
    """Every meeting of 3, 2, 1 (zero size) and 1 (no event) or 5: the first in that order is given."""
    for line, mark, geometry, size, body, room in itertools.product((b'% date x\n', b'% evt 2.1\n'), (b'', b'% \xC3\xA9\n'), (None, (5, 0), (64, 48)),
                                                                    (None, (0, 5), (64, 48)), ([], ONE), (0, 1)):
        data = line + mark + (f'% geometry {shown(geometry)}\n'.encode() if geometry else b'')
        holds = size or geometry
        expect = ('refused 3' if mark else 'refused 2' if b'evt' not in line else 'refused 1' if holds and 0 in holds or not holds and not body
                  else 'refused 5 1' if body and not room else 'ok')
        yield read('order21', data + joined(body), size, None, room, expect)
    for size, body, room in itertools.product((None, (0, 5), (5, 0), (64, 48)), ([], ONE, [0x8000000100000000, 0x1900280700000000]), (0, 1)):
        some = body == ONE
        expect = 'refused 1' if size and 0 in size or not size and not some else 'refused 5 1' if some and not room else 'ok'
        yield words('order21', joined(body), size, None, room, expect)


def rooms():
    """Limits 0, within a mask and past; columns of no entry, one short, exact and longer, and of different lengths; cut at every byte."""
    data, n = joined(MORE), COUNT
    for limit in None, 0, 1, 2, 3, n - 2, n - 1, n, n + 1, WIDE:
        given = n if limit is None else min(n, limit)
        for room in sorted({0, 1, max(given - 1, 0), given, given + 1, COLUMNS}):
            expect = f'refused 5 {given}' if given > room else 'ok' if given else None
            yield read('room21', NAME + data, None, limit, room, expect)
            yield words('room21', data, ALL, limit, room, expect)
    for k in range(4):
        for short in n - 1, n:
            lengths = tuple(short if j == k else n + 3 for j in range(4))
            yield words('room21', data, None, None, lengths, f'refused 5 {n}' if short < n else 'ok')
    full = joined([0x8000000100000000, 0x19010007FFFFFFFF, 0x1902000700000003])
    for limit in range(36):
        yield read('within21', NAME + full, None, limit, min(limit, 34))
        yield words('within21', full, (40, 48), limit, 34)
        yield words('within21', full, ALL, limit, max(limit - 1, 0), f'refused 5 {min(limit, 34)}' if limit and limit - 1 < 34 else None)
    recording = NAME + b'% geometry 2048x48\n' + data
    for cut in range(len(recording)):
        yield read('cut21', recording[:cut])
    for cut in range(len(data)):
        yield words('cut21', data[:cut])


def sizes():
    """Derived sizes, masks across every edge of the sensor, the greatest sizes; words that begin with `%`."""
    for x, y, mask in itertools.product((0, 1, 32, 63, 2016, 2047), (0, 47, 2047), (1, 0x80000001)):
        data = joined([0x8000000100000000, 1 << 60 | x << 43 | y << 32 | mask])
        last = x + 31 * (mask > 1)
        yield words('size21', data, None, None, 2, f'ok EVT21 {last + 1} {y + 1} {1 + (mask > 1)} :')
        for size in (x, y + 1), (x + 1, y), (x + 1, y + 1), (last, y + 1), (last + 1, y + 1), (64, 48):
            yield read('size21', NAME + b'% geometry 3x3\n' + data, size, None, 2)
    for size in (1, 1), (6, 8), (8, 8), (32, 8), (33, 8), (63, 8), (64, 8), (65, 8), (65536, 65536), (WIDE, 1), (1, WIDE), (WIDE, WIDE), (14, 2), (2079, 48):
        for limit in None, 1, 3:
            yield words('size21', joined(MORE), size, limit)
    for first in 0x8000000100000025, 0x8000000100000A25, 0x1000000000002025:
        for rest, size, limit in itertools.product(([], ONE, MORE), (None, ALL, (12, 8), (0, 1)), (None, 2)):
            yield words('percent21', joined([first] + rest), size, limit)
        yield read('percent21', NAME + joined([first] + MORE))
        yield hdr('percent21', NAME + joined([first] + MORE))


def ends():
    """The end line before words that begin with `%` and others, and lines behind it, which are body; near misses."""
    opening, plain = joined([0x8000000100000025, *MORE[1:]]), joined(MORE)
    for line, name in itertools.product(END_LINES, (NAME, b'% evt 2.1\n')):
        start = len(name + line) + 1
        for body in opening, plain, b'', b'%', b'% geometry 5x7 \n' + plain, b'% format EVT3 \n' + opening, b'% evt 2 \n' + plain, b'% end\n' + opening:
            yield hdr('end21', name + line + b'\n' + body, None, f'ok EVT21 {start} -')
        yield read('end21', name + line + b'\n' + opening, None, None, COUNT, 'ok EVT21')
    for line in NEAR_ENDS:
        for body in opening, plain:
            yield hdr('end21', b'% evt 2.1\n' + line + b'\n' + body)
            yield read('end21', b'% evt 2.1\n' + line + b'\n' + body)
    for front, behind in itertools.product((b'', b'% evt 2\n', b'% evt 3\n'), (NAME, b'% evt 2.1\n')):
        yield hdr('end21', front + b'% end\n' + behind + plain)     # named too late
        yield read('end21', front + b'% end\n' + behind + plain, ALL)
    whole = writer.header(21, SIZED) + opening
    for cut in range(len(whole)):
        yield read('end21', whole[:cut])


def recordings():
    """Random recordings and words, whole and cut, with random sizes, limits and columns."""
    r = random.Random(2121)

    def stream():
        one = lambda: (r.choice([0, 1, 0, 1, 8, 10, r.randrange(16)]) << 60 | r.choice([r.randrange(1 << 28), r.randrange(1 << 22)]) << 32
                       | r.choice([0, 1 << r.randrange(32), r.getrandbits(32) & r.getrandbits(32) & r.getrandbits(32)]))
        return [0x8 << 60 | r.randrange(1 << 28) << 32] * r.randrange(2) + [one() for _ in range(r.randrange(1, 20))]

    side = lambda: r.choice([r.randrange(1, 64), r.randrange(1, 2080), 2048, 2048])
    size = lambda: r.choice([None, None, (side(), side()), ALL])
    limit = lambda: r.choice([None, None, r.randrange(3), r.randrange(60), 10**6])
    room = lambda: r.choice([COLUMNS, COLUMNS, r.randrange(40), r.randrange(90), tuple(r.randrange(90) for _ in range(4))])
    for _ in range(130):
        name = r.choice([NAME, b'% evt 2.1\n', b'% format EVT2\n% evt 2.10\n', b'% geometry 40x2048\n' + NAME])
        data = name + r.choice([b'', b'% end\n']) + joined(stream())
        yield read('recording21', data[:r.choice([None, None, len(data) - r.randrange(1, 17)])], size(), limit(), room())
        data = joined(stream())
        yield words('recording21', data[:r.choice([None, None, len(data) - r.randrange(1, 8)])], size(), limit(), room())


def reading():
    for part in names, listed_readings, order, rooms, sizes, ends, recordings:
        yield from part()


# ---- the writer

def event_row(columns, t=100, y=7, p=1):
    return [(t, x, y, p) for x in columns]


def listed_appends():
    for sink, events, room, answer in cases21.APPENDS:
        events = [tuple(map(int, event.split(','))) for event in events.split()]
        if sink.split(':')[0] != '21':
            continue    # no SINK: an encoding that isn't known
        head, body = (cases21.HEAD, answer[len(cases21.HEAD):]) if answer.startswith(cases21.HEAD) else ('', answer)
        *told, after = body.split()
        wanted = body if answer.startswith('refused') else f'{(head.encode() + numbers(" ".join(told))).hex() or "-"} {after}'
        yield modelled('wlist21', sink, [Append(events, room=room)], [wanted])


def writer_states():
    """Rule 10 for writers, each condition by itself; 10 comes first, also before an empty append."""
    top = 2**34 - 1
    good = ['21:1,0,-,-,-,-', '21:0,0,-,-,-,-', '21:1,1,100,1,-,-', '21:1,0,100,1,-,-', '21:0,5,100,1,-,-', '21:1,1,100,-,-,-', f'21:1,1,{top},{top // 64},-,-',
            '21:1,1,0,0,-,-', f'21:1,{2**62},100,1,-,-']
    bad = ['21:1,1,100,0,-,-', '21:1,1,100,2,-,-', f'21:1,1,100,{2**64 - 1},-,-', '21:1,1,64,0,-,-', '21:1,1,63,1,-,-', '21:1,1,100,1,36,-', '21:1,1,100,1,0,-',
           '21:1,1,100,1,-,7', '21:1,1,100,-,-,0', f'21:1,1,{2**34},{2**28},-,-', f'21:1,1,{2**34},-,-,-', '21:1,1,-1,-,-,-', f'21:1,1,{-2**63},-,-,-',
           f'21:1,0,-,{2**28},-,-', '21:1,0,-,-,0,-', '21:1,0,-,-,-,0', '21:1,1,-,-,-,-', f'21:1,{2**62 + 1},100,1,-,-', f'21:1,{2**64 - 1},100,1,-,-']
    for sink in good + bad:
        last = model.sink_of(sink).last or 0
        t = max(0, min(top, last))
        for list_ in [Append(event_row([5], t))], [Append(), Append(event_row([2047], min(t + 5000, top), 2047, 0), room=OUTPUT)]:
            yield modelled('wstate21', sink, list_, [None if sink in good else 'refused 10'] * len(list_))
    list_ = [Append(), Append(event_row([5])), Append(event_row([5])), Append()]
    yield modelled('wleave21', f'21:1,{2**62},100,1,-,-', list_, [None, None, 'refused 10', 'refused 10'])


def writer_order():
    """Every meeting of 10, 12, 6, 7 and 11."""
    for is10, is12, is6, is7, is11 in itertools.product((False, True), repeat=5):
        for k in range(4) if is12 or is6 or is7 else (0,):
            xs, ys, ts, ps = [5, 6], [7, 7], [100, 109], [1, 1]
            if is6:
                ts = [[109, 100], [99, 109], [109, -1], [99, 99]][k]
            if is7:
                (xs, ys, ps, ts)[k][1] = [2048, 2048, 2, 2**34 if ts[0] >= 100 else -1][k]
            if is12:
                (xs, ys, ts, ps)[k].append((xs, ys, ts, ps)[k][1])
            expect = 'refused 10' if is10 else 'refused 12' if is12 else 'refused 6' if is6 else 'refused 7' if is7 else 'refused 11' if is11 else None
            yield modelled('wmeet21', '21:1,1,100,1,-,0' if is10 else '21:1,1,100,1,-,-', [Append(columns=(xs, ys, ts, ps), room=0 if is11 else 40)], [expect])


def writer_bounds():
    """12, 7 and 6: each column, each bound, each place. 11: every length of the output up to what is needed and a little more, and around 96 bytes and 16 for
    each event."""
    for k, n in itertools.product(range(4), (0, 1, 2, 4)):
        columns = [[1, 2, 3], [7, 7, 7], [500] * 3, [0, 0, 0]]
        columns[k] = (columns[k] * 2)[:n]
        yield modelled('wlength21', '21h', [Append(columns=columns, room=200), Append(event_row([9]))], ['refused 12'])
    values = [(0, 2047, 1), (0, 2048, 0), (0, 65535, 0), (1, 2047, 1), (1, 2048, 0), (3, 1, 1), (3, 2, 0), (3, 255, 0), (2, 2**34 - 1, None), (2, -1, 0)]
    for (k, v, ok), place in itertools.product(values, range(3)):
        columns = [[1, 2, 3], [7, 8, 7], [500] * 3, [0, 0, 0]]
        columns[k][place] = v
        yield modelled('wrange21', '21n', [Append(columns=columns)], [None if ok in (1, None) else 'refused 6' if k == 2 and place else 'refused 7'])
    for t, ok in (0, 1), (-1, 0), (-2**63, 0), (2**34 - 1, 1), (2**34, 0), (2**63 - 1, 0), (2**24, 1):
        yield modelled('wrange21', '21n', [Append(event_row([5], t)), Append(event_row([5], 2**34 - 1))], [None if ok else 'refused 7'])
    for times in [5, 4], [5, 5, 4], [5, 4, 5], [0, -1], [64, 63], [2**34 - 1, 0], [2**63 - 1, -2**63]:
        yield modelled('wfall21', '21n', [Append([(t, 1, 1, 1) for t in times])], ['refused 6'])
    for last, t in (5, 4), (5, 5), (64, 63), (64, 64), (2**34 - 1, 2**34 - 2), (0, -1):
        yield modelled('wfall21', '21n', [Append(event_row([5], last)), Append(event_row([5], t)), Append()], [None, 'refused 6' if t < last else None])
    events = event_row([10, 11, 13]) + event_row([40], 101) + event_row([6], 700, 8, 0)
    for more in range(-48, 3):
        yield modelled('wroom21', '21n', [Append(events, more)], ['refused 11' if more < 0 else None])
    for more in [-len(cases21.HEAD) - 16, -len(cases21.HEAD), -17, -16, -15, -8, -1, 0, 1]:
        yield modelled('wroom21', '21h', [Append(event_row([5]), more), Append(event_row([6]))], ['refused 11' if more < 0 else None])
    for n in 1, 2, 7:
        for room in 96 + 16 * n - 1, 96 + 16 * n, 96 + 16 * n + 1:
            apart = [(t * 100, t, t, t % 2) for t in range(n)]
            yield modelled('wroom21', '21h', [Append(apart, room=room, size=(WIDE, WIDE)), Append(apart[-1:], room=room)])
    for room in 0, 1, 95, 96, OUTPUT:
        yield modelled('wempty21', '21n', [Append(room=room)], ['- 21:1,0,-,-,-,-'])
        yield modelled('wempty21', '21h', [Append(room=room), Append(event_row([5])), Append(room=room)], ['- 21:0,0,-,-,-,-'])
    for size in (64, 48), (0, 0), (7, 0), (1280, 720), (2**32, 2**32 - 1), (WIDE, WIDE), (2**63, 12345678901234567890):
        yield modelled('whead21', '21h', [Append(event_row([5]), size=size), Append(event_row([6]), size=(3, 3))])
        yield modelled('whead21', '21h', [Append(event_row([5]), -1, size=size), Append(event_row([5], p=2), size=size), Append(size=(8, 8)),
                                       Append(event_row([6]), size=size)], ['refused 11', 'refused 7'])


def writer_words():
    """Times around the coarse half; runs: each border of a block, dense ones, gaps, repeats, falling columns; whatever ends a run."""
    for times in [0], [1], [63], [64], [65], [2**34 - 1], [0, 0], [0, 1], [0, 63], [0, 64], [63, 64], [64, 65], [0, 2**34 - 1], [0, 64, 128, 192], [5, 5, 6, 6]:
        events = [(t, 3, 4, i % 2) for i, t in enumerate(times)]
        yield modelled('wtime21', '21n', [Append(events)])
        yield modelled('wtime21', '21n', [Append([e]) for e in events])
    for x, y, p in itertools.product((0, 1, 31, 32, 2047), (0, 1, 2047), (0, 1)):
        yield modelled('wfield21', '21n', [Append(event_row([x], 100, y, p))])
    runs = [[0, 1], [30, 31, 32, 33], [31, 32], [31, 33], [0, 31], [0, 32], [0, 31, 32, 63, 64], list(range(32)), list(range(33)), list(range(1, 64)),
            list(range(0, 64, 2)), list(range(0, 128, 31)), list(range(0, 128, 32)), list(range(0, 128, 33)), [2015, 2016], [2016, 2047],
            list(range(2012, 2048)), [5, 5], [5, 5, 5], [2, 3, 3, 4], [3, 4, 5, 4, 5, 6], [9, 8, 7],
            [31, 32, 31, 32], [40, 8], [63, 32], [32, 31], [0, 2047], [31, 31, 32, 32]]
    for xs in runs:
        for p, y in (0, 7), (1, 2047):
            yield modelled('wrun21', '21n', [Append(event_row(xs, 100, y, p))])
        yield modelled('wrun21', '21n', [Append(event_row(xs[:1])), Append(event_row(xs[1:]), 3), Append(event_row(xs))])
    a, b = event_row([1, 2, 3]), event_row([5, 6])
    for end in [b, [(101, *e[1:]) for e in b], [(128, *e[1:]) for e in b], [(*e[:2], 8, e[3]) for e in b], [(*e[:3], 0) for e in b], a, event_row([3, 9])]:
        yield modelled('wrunend21', '21n', [Append(a + end)])
        yield modelled('wrunend21', '21n', [Append(a), Append(end)])


def writer_drawn():
    """Random lists of appends, refused ones among them, to fresh writers and to others."""
    r = random.Random(3221)

    def events(last):
        t, out = last, []
        for _ in range(r.choice([0, 1, 1, 2, 3])):
            t = min(2**34 - 1, t + r.choice([0, 0, 1, r.randrange(64), r.randrange(5000), r.randrange(2**32)]))
            y, p, x = r.choice([0, 7, 2047]), r.randrange(2), r.choice([0, 30, r.randrange(64), r.randrange(2048)])
            for _ in range(r.choice([1, 1, 2, 4, 15])):
                out += [(t, x, y, p)] * (x <= 2047)
                x += r.choice([1, 1, 1, 2, 3, 12, 31, 32, 0])
        return out

    def some(sink):
        held, list_ = model.sink_of(sink), []
        for _ in range(r.randrange(1, 5)):
            es = events(held.last or 0)
            if es and r.random() < .2:
                es[r.randrange(len(es))] = (es[0][0] - r.choice([0, 1]), r.choice([2048, 3]), r.choice([2048, 5]), r.choice([2, 0]))
            o = Append(es, r.choice([0, 0, 0, 1, 200, -1, -8]), size=r.choice([SIZED, (7, 9)]))
            list_.append(o)
            try:
                held = writer.append(held, o.size, o.columns, 2**40)[1] if o.more >= 0 else held
            except Refused:
                pass
        return list_

    for _ in range(60):
        sink = r.choice(['21n', '21n', '21h'])
        yield modelled('wlist21', sink, some(sink))
    for _ in range(30):
        last = r.choice([0, 1, 64, r.randrange(2**34), r.randrange(20000), 2**34 - 1])
        sink = f'21:{r.randrange(2)},{r.choice([0, 1, r.randrange(10**6)])},{last},{r.choice([last // 64, "-"])},-,-'
        yield modelled('wresume21', sink, some(sink))


def writing():
    for part in listed_appends, writer_states, writer_order, writer_bounds, writer_words, writer_drawn:
        yield from part()


# ---- indexes and slices

def open_raw(group, data, size=None, spacing=8, room=RECORDS, expect=None):
    return case(group, f'open {shown(size)} {spacing} {room} {hexed(data)}', expect)


def open_words(group, data, size=None, spacing=8, room=RECORDS, expect=None, enc=21):
    return case(group, f'openw {enc} {shown(size)} {spacing} {room} {hexed(data)}', expect)


def opened(data, size=None, spacing=8, headed=False):
    """The model's index, as source and records."""
    ok, source, _, _, *records = model.answer(('open ' if headed else 'openw 21 ') + f'{shown(size)} {spacing} {RECORDS} {hexed(data)}').split()
    assert ok == 'ok', data.hex()
    return source, [r.split('/') for r in records]


def slices(group, source, records, data, queries, room=COLUMNS, expect=None):
    line = ' '.join(['slice', source, '+'.join('/'.join(map(str, r)) for r in records) or '-', str(room) if isinstance(room, int) else ','.join(map(str, room)),
                     ';'.join(queries), data if isinstance(data, str) else hexed(data)])

    def judge(_):
        answer = model.answer(line)
        for told in answer.split(' | ')[1:] if expect else []:
            expected(expect, told, line)
        return answer

    return Case(group, line, [], judge)


def changed(source, **changes):
    """A source with some numbers altered."""
    enc, rest = source.split(':')
    fields = dict(zip(('spacing', 'start', 'length', 'width', 'height', 'events'), rest.split(',')))
    enc = changes.pop('enc', enc)
    fields.update(changes)
    return f'{enc}:' + ','.join(map(str, fields.values()))


def altered(records, j, **changes):
    names_ = ('offset', 'events', 'time', 'state')
    return [[changes.get(n, v) for n, v in zip(names_, r)] if i == j else r for i, r in enumerate(records)]


EVERY = [f'n:0:{WIDE}', f't:0:{2**63 - 1}']


def listed_indexes():
    for front, body, size, spacing, records, query, rooms_, answer in cases21.OPENINGS:
        data = numbers(body)
        if isinstance(front, str):
            yield open_raw('itable21', front.encode('latin-1') + data, size, spacing, records, answer.split(' | ')[0].strip())
        elif front == 21:
            yield open_words('itable21', data, size, spacing, records, answer.split(' | ')[0].strip())
            if answer.startswith('ok'):
                yield slices('itable21', *opened(data, size, spacing), data, [query], rooms_, answer.split(' | ')[1])
    for source, records, body, query, rooms_, answer in cases21.GIVEN:
        if not source.startswith('7'):
            yield slices('itable21', source, [] if records == '-' else [r.split('/') for r in records.split('+')], numbers(body), [query], rooms_, answer)


def index_order():
    """Every meeting of 3, 2, 1 (zero size), 8, 9 and 1 (no event) in opening, and of 1, 8, 10 and 5 in slices; 8 by a spacing of 4."""
    for is3, is2, is1, is8, is9, empty in itertools.product((False, True), repeat=6):
        body = joined([0xE << 60] * 2 if empty else ONE)
        data = (b'% date x\n' if is2 else NAME) + b'% \xC3\xA9\n' * is3 + body
        size, spacing, room = (0, 5) if is1 else None, 4 if is8 else 8, 1 if is9 else 2
        refused = [(is3, '3'), (is2, '2'), (is1, '1'), (is8, '8'), (is9, '9 2'), (empty, '1')]
        expect = next((f'refused {n}' for applies, n in refused if applies), 'ok')
        yield open_raw('imeet21', data, size, spacing, room, expect)
        if not is3 and not is2:
            yield open_words('imeet21', body, size, spacing, room, expect)
    data = joined(ONE)
    source, records = opened(data, ALL)
    for is1, is8, is10, is5 in itertools.product((False, True), repeat=4):
        changes = dict(spacing=4) if is8 else {}
        changes.update(dict(width=0) if is1 else {})
        expect = 'refused 1' if is1 else 'refused 8' if is8 else 'refused 10' if is10 else 'refused 5 1' if is5 else 'ok 1 :'
        yield slices('imeet21', changed(source, **changes), altered(records, 1, time=-1) if is10 else records, data, EVERY, 0 if is5 else 1, expect)


def spacings():
    """8: every bound and remainder, by the encoding that the header names. 9: no record, one short, just enough, more."""
    data = joined(MORE)
    source, records = opened(data)
    for spacing in 0, 1, 2, 3, 4, 5, 6, 7, 8, 12, 16, 20, 24, 65532, 65536, 4194296, 4194300, 4194304, 4194308, 4194312, 2**32, 2**63, WIDE - 7, WIDE - 3, WIDE:
        expect = 'ok' if spacing % 8 == 0 and 8 <= spacing <= 4194304 else 'refused 8'
        yield open_raw('ispacing21', NAME + data, None, spacing, RECORDS, expect)
        yield open_raw('ispacing21', b'% format EVT2\n% evt 2.1\n' + data, None, spacing, RECORDS, expect)
        yield open_words('ispacing21', data, (12, 8), spacing, RECORDS, expect)
        yield slices('ispacing21', changed(source, spacing=spacing), records[:1], data, EVERY, expect=expect)
    for name in b'% format EVT2.1\n', b'% evt 21\n', b'% format EVT21\n% evt 3\n':     # not EVT 2.1: a spacing of 4 is one
        yield open_raw('ispacing21', name + data, ALL, 4, RECORDS, 'ok')
        yield open_raw('ispacing21', name + data, ALL, 12, RECORDS, 'ok')
    for cut in 0, 7, 8, 9, 16, 17, len(data):
        need = max(1, -(-cut // 8))
        for room in sorted({0, need - 1, need, need + 1}):
            expect = f'refused 9 {need}' if room < need else 'ok'
            yield open_raw('iroom21', NAME + b'% geometry 2048x2048\n' + data[:cut], None, 8, room, expect)
            yield open_words('iroom21', data[:cut], ALL, 8, room, expect)
    for n in 504, 505, 512, 513, 700:
        body = (data * 11)[:n]
        yield open_words('iroom21', body, ALL, 8, RECORDS, 'ok' if n <= 512 else f'refused 9 {-(-n // 8)}')


def queries_of(source, records):
    n = int(source.split(',')[-1])
    counts, times = [int(r[1]) for r in records], [int(r[2]) for r in records] + [int(r[3].split(',')[2]) for r in records]
    ends_ = sorted({0, 1, 2, n // 2, n - 1, n, n + 1, WIDE, *counts})
    windows = sorted({t + d for t in times for d in (-1, 0, 1)} | {-2**63, -1, 0, 2**63 - 1})
    return [f'n:{a}:{b}' for a, b in itertools.product(ends_, ends_) if a >= 0], [f't:{a}:{b}' for a, b in itertools.product(windows, windows)]


def index_recordings():
    """Recordings and words, their index at each spacing; slices by number and by time around every boundary. Times that loop and step back, and empty masks
    at which a slice by time ends."""
    for body, name in (MORE, 'more'), (LOOPING, 'looping'), (BACK, 'back'), ([int(w, 16) for w in cases21.FOUR.split()], 'four'):
        for headed, size in (True, None), (False, (14, 2000)), (False, ALL):
            data = (NAME if headed else b'') + joined(body)
            for spacing in 8, 16, 24, 65536, 4194304:
                yield open_raw('index21', data, size, spacing) if headed else open_words('index21', data, size, spacing)
                source, records = opened(data, size, spacing, headed)
                for list_ in queries_of(source, records):
                    list_ = list_[::max(1, len(list_) // (48 if spacing < 24 else 16))]
                    for i in range(0, len(list_), 16):
                        yield slices('slice21', source, records, data, list_[i:i + 16])


def index_cuts():
    """A recording cut at every byte: opened, and lent to slices over the whole one's index; lent recordings that are longer, and of another encoding."""
    for headed in True, False:
        data = (NAME + b'% geometry 2000x2000\n' if headed else b'') + joined(MORE)
        source, records = opened(data, (2000, 2000), 8, headed)
        some = [f'n:0:{COUNT}', 'n:1:3', f'n:{COUNT - 1}:{COUNT}', f't:0:{2**63 - 1}', 't:100:105', 't:101:129']
        for cut in range(len(data) + 1):
            yield open_raw('icut21', data[:cut]) if headed else open_words('icut21', data[:cut])
            if cut % 3 == 0 or not headed:
                yield slices('icut21', source, records, data[:cut], some)
        for more in MORE[:1], MORE, [0xE << 60] * 9:
            yield slices('ilonger21', source, records, data + joined(more), some + [f'n:0:{WIDE}'])


def index_ranges():
    """Rule 10 for an index, each condition by itself. A record of another encoding is out of range, whatever its numbers."""
    data = NAME + joined(MORE)
    source, records = opened(data, ALL, 8, True)
    last, start, some = len(records) - 1, len(NAME), [f'n:0:{COUNT}', 'n:2:3', f't:0:{2**63 - 1}', 't:65:101']

    def one(ok, changed_=source, records_=records, queries=some):
        return slices('irange21', changed_, records_, data, queries, expect='ok' if ok else 'refused 10')

    yield one(True)
    yield one(False, records_=[])
    for j in 0, 1, last:
        for wrong in start + 8 * j - 1, start + 8 * j + 1, start + 8 * j + 8, start + 8 * j - 8, WIDE:
            yield one(False, records_=altered(records, j, offset=wrong))
        for other in '2:0,0,0,0', '3:0,0,0,0,0,0,0', '2:1,64,100,0', '3:1,4096,4096,0,0,0,0', records[j][3].replace('21:', '2:'):
            yield one(False, records_=altered(records, j, state=other))
    for enc in 2, 3:
        yield one(False, changed(source, enc=enc))      # its records are of EVT 2.1
    mixed = [[start, 0, 0, '2:0,0,0,0'], [start + 8, 0, 0, '21:1,64,64,0']]
    yield slices('irange21', f'2:8,{start},{len(data)},64,48,9', mixed, data, some, expect='refused 10')
    yield slices('irange21', f'3:8,{start},{len(data)},64,48,9', [[start, 0, 0, '21:0,0,0,0']], data, some, expect='refused 10')
    good, bad, _ = range2()
    for i, before in enumerate(good + bad):
        yield one(i < len(good), records_=altered(records, last if i % 2 else 0, state=text((21, *before[1:]))))
    counts, times = [int(r[1]) for r in records], [int(r[2]) for r in records]
    yield one(False, records_=altered(records, last - 1, events=counts[last] + 1))
    yield one(True, records_=altered(records, last, events=COUNT))
    yield one(False, records_=altered(records, last, events=COUNT + 1))
    yield one(False, changed(source, events=counts[last] - 1))
    yield one(False, records_=altered(records, last - 1, time=times[last] + 1))
    for j, t, ok in (0, -1, False), (0, -2**63, False), (last, 2**63 - 1, True), (0, 2**63 - 1, False):
        yield one(ok, records_=altered(records, j, time=t))
    for total, count, ok in (MOST, MOST, True), (WIDE, MOST, True), (WIDE, MOST + 1, False), (MOST + 1, MOST + 1, False):
        yield one(ok, changed(source, events=total), [[start, count, 0, '21:0,0,0,0']], [f'n:{MOST - 1}:{MOST + 2}', 'n:0:3', 't:0:999'])
    top = 2**64
    for first, spacing, k, ok in (top - 16, 8, 2, True), (top - 16, 8, 3, False), (top - 8, 8, 1, True), (top - 8, 8, 2, False), (top - 1, 8, 1, True):
        yield one(ok, f'21:{spacing},{first},0,64,48,3', [[(first + j * spacing) % top, 0, 0, '21:0,0,0,0'] for j in range(k)], ['n:0:3', 't:0:999'])


def index_altered():
    """Records that rule 10 allows and this recording wouldn't give; other totals, sizes and starts; words that begin with `%`, and end lines before them."""
    body = joined(MORE)
    source, records = opened(body, ALL)
    some = [f'n:0:{COUNT}', 'n:1:4', f'n:{COUNT - 2}:{COUNT + 2}', f't:0:{2**63 - 1}', 't:64:101', 't:101:130', 't:-5:70']
    for d in 1, 2, 5, 100:
        more = [[r[0], int(r[1]) + d, *r[2:]] for r in records]
        yield slices('ialtered21', changed(source, events=COUNT + d), more, body, some)
    others = state(1), state(1, 0, 63), state(0xFFFFFFF), state(5, 3), state(2**28 - 1, 2**27, 63), FRESH
    for before, j in itertools.product(others, (0, 1, len(records) - 1)):
        yield slices('ialtered21', source, altered(records, j, state=before), body, some)
    for changes in dict(events=COUNT + 1), dict(events=COUNT + 1000), dict(width=1, height=1), dict(width=6, height=8), dict(width=33), dict(width=48), \
            dict(width=WIDE, height=WIDE), dict(length=0), dict(length=WIDE):
        yield slices('ialtered21', changed(source, **changes), records, body, some)
    for k in 1, 2, len(records) - 1:
        yield slices('ialtered21', source, records[:k], body, some)
    for t in 1, 64, 2**62:
        yield slices('ialtered21', source, [[*r[:2], int(r[2]) + t, r[3]] for r in records], body, some + [f't:{t}:{t + 101}'])
    for first, size, spacing in itertools.product((0x8000000100000025, 0x1000000000000A25), (None, (12, 8), (0, 1)), (8, 65536)):
        yield open_words('ipercent21', joined([first] + MORE), size, spacing)
        yield open_raw('ipercent21', NAME + joined([first] + MORE), size, spacing)
        for end in b'% end\n', b'%%  END \r\n', b'% ending\n':
            yield open_raw('iend21', NAME + end + joined([first] + MORE), size, spacing)
    data = writer.header(21, SIZED) + joined([0x8000000100000025] + MORE[1:])
    for cut in range(len(data)):
        yield open_raw('iend21', data[:cut])
    yield slices('iend21', *opened(data, None, 8, True), data, some)


def index_longs():
    """More bytes than a spacing of 65,536, a loop in each unit."""
    unit = joined([0x8FFFFFFF00000000, 0x1000080100000003, 0x8000000000000000, 0x0000080200000000])
    for body in 65528, 65536, 65537, 65544, 70001, 131072:
        short = f'{unit.hex()}*{len(unit)}*{body}'
        yield case('ilong21', f'openw 21 {shown(ALL)} 65536 {RECORDS} {short}')
        _, source, _, _, *records = model.answer(f'openw 21 {shown(ALL)} 65536 {RECORDS} {short}').split()
        records = [r.split('/') for r in records]
        total, count, time = int(source.split(',')[-1]), int(records[-1][1]), int(records[-1][2])
        queries = [f'n:{max(a, 0)}:{max(a, 0) + 5}' for a in (0, count - 3, count - 1, count, count + 1, total - 3)]
        queries += [f't:{time + d}:{time + d + 2**35}' for d in (-2**35, -1, 0, 1)]
        yield slices('ilong21', source, records, short, queries, 30)


def index_drawn():
    """Random words and recordings, their index at a random spacing, random slices; cut and other recordings lent; altered records."""
    r = random.Random(4221)

    def one():
        kind = r.choice([0, 1, 8, 0, 1, 1, r.randrange(16)])
        high = r.choice([r.randrange(1 << 28), r.randrange(64), 1 << r.randrange(28), (1 << 28) - 1 - r.randrange(16)])
        return kind << 60 | high << 32 | r.choice([0, 1 << r.randrange(32), r.getrandbits(32) & r.getrandbits(32) & r.getrandbits(32)])

    for _ in range(60):
        body = joined([r.choice([0x8000000100000000, one()])] + [one() for _ in range(r.randrange(3, 20))])
        body = body[:len(body) - r.choice([0, 0, 0, 1, 5])]
        headed, size, spacing = r.random() < .5, r.choice([None, ALL, (1000, 2048), (64, 48), (2**20, 2**20)]), r.choice([8, 8, 16, 24, 40, 65536])
        data = NAME + body if headed else body
        room = r.choice([64, 64, 20, 3])
        yield open_raw('irandom21', data, size, spacing, room) if headed else open_words('irandom21', data, size, spacing, room)
        if not model.answer(('open ' if headed else 'openw 21 ') + f'{shown(size)} {spacing} {RECORDS} {hexed(data)}').startswith('ok'):
            continue
        source, records = opened(data, size, spacing, headed)
        numbers_, windows = queries_of(source, records)
        queries = r.sample(numbers_, min(4, len(numbers_))) + r.sample(windows, min(4, len(windows)))
        lent = r.choice([data, data, data[:r.randrange(len(data) + 1)], data + joined([one() for _ in range(4)])])
        if r.random() < .2:
            records = altered(records, r.randrange(len(records)), state=state(r.randrange(2**28), r.randrange(3), r.randrange(64)))
        yield slices('irandom21', source, records, lent, queries, r.choice([COLUMNS, COLUMNS, 30, 3, (90, 80, 70, 60)]))


def indexes():
    for part in listed_indexes, index_order, spacings, index_recordings, index_cuts, index_ranges, index_altered, index_longs, index_drawn:
        yield from part()

"""The cases of shows past sixteen seconds of crates/test_vectors: writers of EVT3 past its first loop, and writers that resume. vectors.py runs this;
docs/VECTORS.md says what a case is.

The Rust original writes other words past a loop and doesn't resume, so the answers are the model's (tools/model), and where they are written in
tools/model/cases_long.py, by hand, the model has to give them.
"""
import itertools, random
from vectors import Append, Case, END_LINES, NEAR_ENDS, OUTPUT, SIZED, expected, model, modelled, one_event, range2, range3, row_of, text
import cases, cases_long, writer
from words import DECODERS

LOOP, BOUND = 2**24, 2**34
SIZE = {enc: decoder.SIZE for enc, decoder in DECODERS.items()}
UNIT = {enc: decoder.UNIT for enc, decoder in DECODERS.items()}


# ---- writers past a loop, and writers that hold a coarse time without a last time

def listed(group, sink, columns, room, answer):
    """An append of cases_long.py. The program's output has 4,096 bytes; more are lent only where that isn't looked at."""
    enc = int(sink.split(':')[0])
    if enc not in DECODERS:
        return      # no SINK
    head = cases_long.HEADS[enc] if answer.startswith(cases_long.HEADS[enc]) else ''
    *told, after = answer[len(head):].split()
    refused = answer.startswith('refused')
    if refused or room <= OUTPUT:
        wanted = answer if refused else f'{(head.encode() + cases.body_bytes(" ".join(told), SIZE[enc])).hex() or "-"} {after}'
        yield modelled(f'{group}{enc}', sink, [Append(columns=columns, room=min(room, OUTPUT))], [wanted])


def listed_appends():
    for sink, events, room, answer in cases_long.APPENDS:
        yield from listed('wlong', sink, cases.columns_of(events), room, answer)
    for sink, columns, room, answer in cases_long.BY_COLUMNS:
        yield from listed('wlongmeet', sink, columns, room, answer)


def times():
    """Around the borders of loops, in one append and in two; in a row of events, a vector behind a border among them; behind a header."""
    near = [k * LOOP + d for k in (1, 2, 3) for d in (-4097, -4096, -1, 0, 1, 4095, 4096, 4097)]
    for t in near:
        yield modelled('wloop3', '3n', [Append(one_event(t)), Append(one_event(t + 1, y=8))])
        yield modelled('wloop3', '3h', [Append(one_event(t)), Append(one_event(t))])
    early, late = [0, 5, *near[:4], near[6]], [LOOP, LOOP + 1, LOOP + 4096, 2 * LOOP - 1, 2 * LOOP, 2 * LOOP + 4095, 3 * LOOP, 5 * LOOP + 77]
    for a, b in itertools.product(early, late):
        if a <= b:
            yield modelled('wloop3', '3n', [Append(one_event(a) + one_event(b, x=6))])
            yield modelled('wloop3', '3n', [Append(one_event(a)), Append(), Append(one_event(b, x=6)), Append(one_event(b - 1))])
    for t in LOOP - 1, LOOP, 2 * LOOP, 3 * LOOP + 4097:
        run = row_of([10, 11, 13], t)
        yield modelled('wloop3', '3n', [Append(run)])
        yield modelled('wloop3', '3n', [Append(one_event(LOOP - 1) + run + row_of(range(20, 40), t + LOOP))])
    for k in 10, 100, 500, 1022, 1023:
        yield modelled('wloop3', '3n', [Append(one_event(k * LOOP)), Append(one_event(k * LOOP + 4096))])
        yield modelled('wloop3', f'3:1,9,{k * LOOP - 1},{k * 4096 - 1},4095,7', [Append(one_event(k * LOOP)), Append(one_event((k + 1) * LOOP - 1))])
    yield modelled('wloop3', '3n', [Append([(k * LOOP + 5, k, k, 1) for k in range(12)]), Append(one_event(12 * LOOP))])
    yield modelled('wloop3', '3n', [Append([(k * LOOP - 1, k, k, 1) for k in range(1, 12)]), Append(one_event(12 * LOOP))])


def rooms():
    """11 past a loop: every length of the output up to what is needed and a little more; what surely suffices with the loops and without them."""
    for events, need in (one_event(2 * LOOP), 12), (one_event(LOOP - 1) + one_event(2 * LOOP) + one_event(2 * LOOP + 1), 20):
        for more in range(-need, 3):
            yield modelled('wlongroom3', '3n', [Append(events, more)], ['refused 11' if more < 0 else None])
    head = len(cases_long.HEADS[3])
    for more in -head - 12, -head, -13, -12, -11, -1, 0, 1:
        yield modelled('wlongroom3', '3h', [Append(one_event(2 * LOOP), more), Append(one_event(3 * LOOP))], ['refused 11' if more < 0 else None])
    for n, k in itertools.product((1, 2, 7), (1, 3)):
        events = [(k * LOOP * i, i, i, 1) for i in range(1, n + 1)]
        for room in sorted({base + 8 * n + 4 * passed + d for base in (0, 96) for passed in (0, n * k) for d in (-1, 0, 1)}):
            yield modelled('wlongroom3', '3h' if room > 96 else '3n', [Append(events, room=room)])
    for sink, t, need in ('3n', 1023 * LOOP, 4096), ('3n', BOUND - 1, 4100), (cases_long.held(0), BOUND - 1, 4100), (cases_long.held(4095), BOUND - 1, 4098), \
            (cases_long.sent(LOOP - 1), BOUND - 1, 4096), (cases_long.sent(0), BOUND - 1, 4098):
        for room in 0, 104, need - 1, need:
            if room < need or need <= OUTPUT:
                room = min(room, OUTPUT)
                yield modelled('wlongroom3', sink, [Append(one_event(t), room=room)], [f'refused 11 {need}' if room < need else None])


def held_halves():
    """Rules 10 and 6 of a half without a last time: each half at a border, an event below its coarse time, at it, at its end and in the next unit; lists
    that go on behind refused appends."""
    for enc, unit in UNIT.items():
        top = BOUND // unit
        halves = [0, 1, top - 1] + ([4094, 4095, 4096, 8191, 8192, 1023 * 4096 - 1, 1023 * 4096] if enc == 3 else [LOOP // unit - 1, LOOP // unit])
        for half in halves:
            t = half * unit
            list_ = [Append(one_event(t - 1)), Append(), Append(one_event(t)), Append(one_event(t))]
            for sent in 1, 0:
                yield modelled(f'wheld{enc}', f'{enc}:{sent},0,-,{half},-,-', list_, ['refused 6'])
            for other in t + 1, t + unit - 1, t + unit, t + LOOP:
                yield modelled(f'wheld{enc}', cases_long.held(half, enc), [Append(one_event(other)), Append(one_event(t)), Append(one_event(other))],
                               ['refused 7' if other >= BOUND else None])
            yield modelled(f'wheld{enc}', cases_long.held(half, enc), [Append(one_event(t), -1), Append(one_event(t, x=2048)), Append(one_event(-1)),
                                                                      Append(row_of([10, 11, 13], t)), Append(one_event(t - 1))],
                           ['refused 11', 'refused 7', 'refused 6', None, 'refused 6'])
        for half in top, top + 1, 2**64 // unit, 2**64 // unit + 1, 2**63, 2**64 - 1:
            list_ = [Append(one_event(0)), Append(), Append(one_event(BOUND - 1), room=0)]
            yield modelled(f'wheld{enc}', cases_long.held(half, enc), list_, ['refused 10'] * 3)


def drawn():
    """Random lists of appends past loops, refused ones among them, to fresh writers, to writers with a last time and to those that resume."""
    r = random.Random(1604)

    def later(t):
        loop = t // LOOP + r.choice([0, 1, 1, 1, 2, 3])
        beside = loop * LOOP + r.choice([-4097, -4096, -1, 0, 0, 1, 4095, 4096, r.randrange(LOOP)])
        return min(BOUND - 1, r.choice([t, t + r.randrange(5000), max(t, beside), max(t, beside)]))

    def events(t):
        out = []
        for _ in range(r.choice([0, 1, 1, 2, 3])):
            t = later(t)
            y, p, x = r.choice([0, 7, 2047]), r.randrange(2), r.choice([0, 30, r.randrange(2048)])
            for _ in range(r.choice([1, 1, 2, 4])):
                out += [(t, x, y, p)] * (x <= 2047)
                x += r.choice([1, 1, 2, 12, 0])
        return out

    def some(sink):
        held, list_ = model.sink_of(sink), []
        for _ in range(r.randrange(1, 5)):
            es = events(writer.earliest(held) or 0)
            if es and r.random() < .2:
                t, x, y, p = es[0]
                es[0] = r.choice([(t - 1, x, y, p), (t - LOOP, x, y, p), (t, 2048, y, p), (t, x, y, 2), (BOUND, x, y, p)])
            a = Append(es, r.choice([0, 0, 0, 1, 9, -1, -2]), size=r.choice([SIZED, (7, 9)]))
            list_.append(a)
            try:
                held = writer.append(held, a.size, a.columns, 2**40)[1] if a.more >= 0 else held
            except writer.Refused:
                pass
        return list_

    for enc, count in (3, 90), (2, 20), (21, 20):
        for _ in range(count):
            t = r.choice([0, 1, 2, 5, 1000, 1021]) * LOOP + r.choice([0, 0, 4095, 4096, LOOP - 1, LOOP - 4096, r.randrange(LOOP)])
            half = t // UNIT[enc]
            last = f'{enc}:1,3,{t},{half},' + (f'{t % 4096},7' if enc == 3 else '-,-')
            sink = r.choice([f'{enc}n', f'{enc}h', last, cases_long.held(half, enc), cases_long.held(half, enc)])
            yield modelled(f'wlonglist{enc}', sink, some(sink))


def writing():
    for part in listed_appends, times, rooms, held_halves, drawn:
        yield from part()


# ---- resuming: `resume STATE`, `resumew ENC BYTES`, `resumer BYTES` and `after BYTES`

def case(group, line, expect=None):
    return Case(group, line, [], lambda _: expected(expect, model.answer(line), line))


def hexed(data):
    return data.hex() or '-'


def resume(enc, state, expect=None):
    return case(f'resume{enc}', f'resume {state}', expect)


def by_words(enc, data, expect=None):
    return case(f'resumew{enc}', f'resumew {enc} {data if isinstance(data, str) else hexed(data)}', expect)


def by_raw(data, expect=None, after=None):
    """The writer and the decoder."""
    data = data if isinstance(data, str) else hexed(data)
    yield case('resumer', f'resumer {data}', expect)
    yield case('after', f'after {data}', after)


def is_state(decoder):
    """Whether a decoder's numbers can be written as a STATE."""
    *_, enc, row, base, started, polarity = decoder
    return enc in DECODERS and started < 2 and polarity < 2 and (enc == 3 or (row, base, polarity) == (0, 0, 0))


def told(answer):
    return answer if answer.startswith('refused') else f'ok {answer}'


def listed_resumes():
    """Those of cases_long.py, but for 4 and for what is no STATE or ENC; streams of 1,023 loops are written shorter below."""
    for decoder, answer in cases_long.DECODERS:
        if is_state(decoder):
            yield resume(decoder[3], model.state_text(decoder), told(answer))
    for enc, body, answer, zeros in cases_long.WORDS:
        if enc in DECODERS and not zeros and len(body) < 4000:
            yield by_words(enc, cases.body_bytes(body, cases.word_size(body)), told(answer))
    for head, body, decoder, answer, zeros in cases_long.RAWS:
        if not zeros and len(body) < 4000:
            data, headless = head.encode('latin-1') + cases.body_bytes(body, cases.word_size(body)), answer in ('refused 3', 'refused 2')
            wanted = f'{answer} {cases_long.NEW[2]}' if headless else told(answer)
            yield from by_raw(data, wanted, (f'{answer} ' if headless else 'ok ') + model.state_text(decoder))


def ranges():
    """Decoders in range and out of it; those in range are refused from a coarse time of 2^34 on."""
    for enc, (good, bad, _) in (2, range2()), (3, range3()), (21, range2()):
        for i, state in enumerate(good + bad):
            wanted = i < len(good) and (not state[1] or state[2] < BOUND)
            yield resume(enc, text((enc, *state[1:])), 'ok' if wanted else f'refused 10 {cases_long.NEW[enc]}')
    for enc, unit in UNIT.items():
        for coarse, low in itertools.product((0, unit, LOOP - unit, LOOP, BOUND // 2, BOUND - LOOP, BOUND - unit, BOUND, BOUND + unit), (0, unit - 1)):
            place = '2047,65535,1,' if enc == 3 else ''
            wanted = f'ok {cases_long.held(coarse // unit, enc)}' if coarse < BOUND else f'refused 10 {cases_long.NEW[enc]}'
            yield resume(enc, f'{enc}:1,{coarse},{coarse + low},{place}{coarse // DECODERS[enc].PERIOD}', wanted)


def bounds():
    """Streams of 1,023 loops and more, as BYTES that repeat: FFF, then 000 and FFF again and again, cut at each byte around the last of them."""
    passes, head = 'ff8f0080ff8f', cases_long.HEADS[3].encode()
    for length in 4089, 4090, 4091, 4092, 4093, 4094, 4095, 4096, 4097, 4100:
        passed, top = divmod(length // 2, 2)    # whole words: each two pass a loop, and one more is FFF
        wanted = f'ok {cases_long.held(passed * 4096 + 4095 * top)}' if passed < 1024 else f'refused 10 {cases_long.NEW[3]}'
        yield by_words(3, f'{passes}*4*{length}', wanted)
        yield from by_raw(f'{head.hex()}{passes}*4*{len(head) + length}', wanted)
    for enc, word in (2, 'ffffff8f'), (21, '00000000ffffff8f'):
        for length in range(len(word) // 2 + 1):
            last = bytes.fromhex(word) + bytes(len(word) // 2 - 1) + b'\x80'     # then 000 of the next loop
            data = last[:len(word) // 2 + length]
            wanted = f'refused 10 {cases_long.NEW[enc]}' if length == len(word) // 2 else f'ok {cases_long.held(2**28 - 1, enc)}'
            yield by_words(enc, data, wanted)
            yield from by_raw(f'% evt {"2.1" if enc == 21 else enc}\n% end\n'.encode() + data, wanted)


def streams():
    """What a writer sends past loops, cut at every byte: words, and behind a header. Garbage before the first time word."""
    events = {3: [(t, 5, 7, 1) for t in (4097, LOOP - 1, LOOP, 3 * LOOP - 4097, 3 * LOOP + 5)], 2: [(t, 5, 7, 1) for t in (100, 128, 9000)]}
    for enc in 3, 2, 21:
        columns = list(zip(*[(x, y, t, p) for t, x, y, p in events.get(enc, events[2])]))
        for headed in False, True:
            data = writer.append(writer.fresh(enc, headed), SIZED, columns, 10**6)[0]
            for cut in range(len(data) + 1):
                if headed:
                    yield from by_raw(data[:cut])
                else:
                    yield by_words(enc, data[:cut])
        for front in b'\x07\x00\x05\x28' * 4, b'%end\n\x00\x00\x80', bytes(16), b'\xff' * 16:
            yield by_words(enc, front)
            yield by_words(enc, front + b'\x00' * (-len(front) % SIZE[enc]) + data[len(cases_long.HEADS[enc]):])


def headers():
    """3 and 2 and their meetings, no 1 for a zero size, end lines and what nearly is one, before words that begin with `%` and others."""
    plain, opening = bytes.fromhex('01800160'), bytes.fromhex('25800160')
    names, sizes = (b'', b'% evt 3\n', b'% evt 2\n', b'% evt 2.1\n'), (b'', b'% geometry 0x5\n', b'% geometry 64x48\n')
    for name, mark, size, end in itertools.product(names, (b'', b'% \xC3\xA9\n'), sizes, (b'', b'% end\n')):
        wanted = f'refused 3 {cases_long.NEW[2]}' if mark else 'ok' if name else f'refused 2 {cases_long.NEW[2]}'
        yield from by_raw(name + mark + size + end + plain, wanted)
    for line, body in itertools.product(END_LINES + NEAR_ENDS, (opening, plain)):
        yield from by_raw(b'% evt 3\n' + line + b'\n' + body)
    for data in b'', b'%', b'%\x80', b'% end', b'% end\n% evt 3\n' + plain, b'% evt 3', b'% evt 3\n% end', b'% evt 3\n% end\n% evt 2\n' + plain, plain, opening:
        yield from by_raw(data)


def drawn_resumes():
    """Random decoders, and random words behind random headers, whole and cut."""
    r = random.Random(1704)
    for enc in 3, 2, 21:
        decoder = DECODERS[enc]
        units = decoder.PERIOD // decoder.UNIT
        for _ in range(60 if enc == 3 else 25):
            loops = r.choice([0, 0, 1, 5, 1022, 1023, 1024, r.randrange(1024)]) if enc == 3 else r.choice([0, 0, 0, 1])
            coarse = loops * decoder.PERIOD + r.choice([0, 1, units - 1, r.randrange(units)]) * decoder.UNIT
            place = f'{r.randrange(2048)},{r.randrange(65536)},{r.randrange(2)},' if enc == 3 else ''
            yield resume(enc, f'{enc}:1,{coarse},{coarse + r.randrange(decoder.UNIT)},{place}{loops}')
        for _ in range(40):
            kinds, bits = ([8, 8, 0, 2, 4, 6] if enc == 3 else [8, 8, 0, 1]) + [r.randrange(16)], decoder.SIZE * 8 - 4
            low = lambda: r.choice([r.getrandbits(bits), (1 << bits) - 1, 0, r.getrandbits(bits - 4)])
            data = b''.join((r.choice(kinds) << bits | low()).to_bytes(decoder.SIZE, 'little') for _ in range(r.randrange(1, 12)))
            data = data[:len(data) - r.choice([0, 0, 1, decoder.SIZE - 1])]
            yield by_words(enc, data)
            name = {3: b'% evt 3\n', 2: b'% format EVT2\n', 21: b'% evt 2.1\n'}[enc]
            yield from by_raw(name + r.choice([b'', b'% end\n', b'% geometry 0x0\n']) + data)


def resuming():
    for part in listed_resumes, ranges, bounds, streams, headers, drawn_resumes:
        yield from part()

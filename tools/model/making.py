"""Random cases: recordings with headers and without, good and damaged ones, indexes, writers, single words, and numbers; the calls that each case makes."""
import random

import calls
import header
import index
import reading
import writer
from refusal import Refused
from words import DECODERS, decoder_after_words

HUGE = 2**64 - 1
KINDS = {
    2: ['0118', '01018A', '0000111188A', '8A', 'AAA018', '01A', '0123456789ABCDEF'],
    3: ['0226688', '0226A68', '345458A', '34444A55', '0268A', 'AAA268', '68A', '0123456789ABCDEF'],
    21: ['0118', '01018A', '0000111188AE', '8A', 'AAA018', '01A', '0123456789ABCDEF'],
}
# fields of an event's word that a small sensor divides, and all of them
SMALL = {2: 63 << 22 | 15 << 11 | 15, 3: 0x80F, 21: 63 << 54 | 79 << 43 | 15 << 32 | 2**32 - 1}
NAMED = {   # lines that name the encoding
    2: ['% format EVT2\n', '% evt 2.0\n', '%evt 2\n', '% FORMAT evt2\r\n', '% format EVT2.1\n', '% evt 21\n', '% format evt2;x=21\n'],
    3: ['% format EVT3\n', '% evt 3.0\n', '%evt 3\n', '% FORMAT evt3\r\n', '% format EVT21\n% evt 3\n', '% evt 2.1\n% format EVT3\n'],
    21: ['% format EVT21\n', '% evt 2.1\n', '%evt 2.1\n', '% FORMAT evt21\r\n', '% evt 2.10\n', '% format Evt21;height=720;width=1280\n',
         '% format EVT2\n% evt 2.1\n', '% evt 2.0\n% format EVT21\n', '% format EVT4\n%EVT 2.1 beta\n', '% evt 3\n% evt 2.1\n'],
}
FORMATS = ['EVT3', 'EVT2', 'evt3', 'evt2', 'Evt3;height=720;width=1280', 'EVT21', 'EVT21', 'evt21;x', 'eVt210', 'EVT2.1', 'EVT 21', 'EVT', 'evt4', '',
           '3', '2', '21', '2.1', 'EVT 3', '%evt3', 'xevt3']
VERSIONS = ['3', '2', '3.0', '2.0', '2.1', '2.1', '2.10', '2.1.0', '2.', '2,1', '2 .1', '21', '30', '23', '4', '', '+3', '+2.1', 'evt3', 'evt2.1', '03',
            '02.1', '3 2']
NUMBERS = ['64', '48', '16', '8', '1280', '720', '2048', '1', '10', '65536',
           '0', '00', '+7', '+0', '+', '-1', '', '++1', '0012', str(HUGE), str(HUGE + 1), '9' * 30, '1 2', '12a', '0x10', '0' * 30 + '9']
BETWEEN = ['x', 'x', 'x', 'x', 'X', ' x ', ' X', 'x\t', '', 'xx', 'Xx', 'xX', '*']
BLANKS = [' ', ' ', ' ', '  ', '\t', '\x0b', '\x0c', '\r', ' \t ', '', '\x1c', '_']
SIGNS = ['%', '%', '%', '%', '%%', '%%%', '% %', '%\t']
END_LINES = ['% end\n'] * 4 + ['%end\n', '%%  END \r\n', '% End\r\n', '%\tend \x0b\x0c\n', '%%%\x0beNd\n', '% end', '%end', '%%  END \r']
NEAR_ENDS = ['% end x\n', '% ending\n', '% %end\n', '%endx\n', '% e nd\n', '% end%\n', '% en\n', '% end.\n', '% format end\n', '% evt end\n',
             '%\x1cend\n', '% end\x00\n', '%_end\n', 'end\n', ' % end\n', '\n% end\n', '% end %end\n']
BEHIND_END = ['% geometry 5x7\n', '% format EVT2\n', '% format EVT3\n', '% evt 2\n', '% evt 3\n', '% end\n', '% geometry 0x1\n', '%', '%\n', '%\x80\n',
              '\x80', '\xff\n', '%\xff', '\n', '%%', 'x\n']


def chance(rng, percent):
    return rng.random() * 100 < percent


# ---- headers

def geometry(rng):
    numbers = NUMBERS[:10] if chance(rng, 70) else NUMBERS if chance(rng, 70) else [number_text(rng).decode('latin-1').replace('\n', '') for _ in range(2)]
    return rng.choice(numbers) + rng.choice(BETWEEN) + rng.choice(numbers) + (rng.choice(['x3', 'X3', ' 5', 'x']) if chance(rng, 4) else '')


def key(rng, name):
    draw = rng.randrange(14)
    return name.upper() if draw == 0 else name.title() if draw == 1 else name + 's' if draw == 2 else name[1:] if draw == 3 else name


def header_line(rng):
    name = rng.choice(['format', 'format', 'evt', 'geometry', 'geometry', 'geometry', 'end', 'date'])
    value = {'format': lambda: rng.choice(FORMATS), 'evt': lambda: rng.choice(VERSIONS), 'geometry': lambda: geometry(rng),
             'end': lambda: '', 'date': lambda: rng.choice(['evt3 3x4', '2014-02-28', 'format EVT3'])}[name]()
    return rng.choice(SIGNS) + rng.choice(BLANKS) + key(rng, name) + rng.choice(BLANKS) + value + rng.choice(['', '', '', '\r', ' ', '\t \x0c']) + '\n'


def end_bytes(rng):
    """An end line, or what nearly is one, and lines behind it, as text of bytes 0 to 255."""
    near = [rng.choice(NEAR_ENDS) for _ in range(rng.randrange(1, 3))] if chance(rng, 25) else []
    end = [rng.choice(END_LINES)] if chance(rng, 80) else []
    behind = [rng.choice(BEHIND_END) if chance(rng, 70) else header_line(rng) for _ in range(rng.randrange(1, 4))] if chance(rng, 35) else []
    return ''.join(near + end + behind)


def header_bytes(rng, encoding):
    """Most name the encoding, many have an end line, some are odd or damaged."""
    lines = [header_line(rng) for _ in range(rng.choice([0, 0, 0, 1, 1, 2, 3]))] if chance(rng, 50) else []
    if chance(rng, 92):
        lines.insert(rng.randrange(len(lines) + 1), rng.choice(NAMED[encoding]))
    if chance(rng, 25):
        lines.append(f'% geometry {rng.choice(NUMBERS[:11])}x{rng.choice(NUMBERS[:10])}\n')
    if chance(rng, 50):
        lines.append(end_bytes(rng))
    data = ''.join(lines).encode('latin-1')
    if chance(rng, 5):
        data = damaged(rng, data)
    if data and chance(rng, 3):
        at = rng.randrange(len(data))
        data = data[:at] + bytes([rng.choice([127, 128, 133, 160, 194, 255])]) + data[at + 1:]
    return data


# ---- words

def next_coarse(rng, former, units, threshold):
    """Mostly a little later, at times back, or back by about the threshold of a loop."""
    draw = rng.randrange(12)
    if draw < 5:
        return (former + rng.choice([0, 1, 1, 2, 9])) % units
    if draw < 7:
        return (former - rng.randrange(5)) % units
    if draw < 9:
        return (former - threshold + rng.randrange(-1, 2)) % units
    return rng.choice([0, 1, 10, units - 1, units - 2, rng.randrange(units)])


def mask_bits(rng):
    """Of EVT 2.1: often no bit at all, one, the first or the last, few, or all."""
    draw = rng.randrange(10)
    if draw < 2:
        return 0
    if draw < 5:
        return 1 << rng.choice([0, 31, rng.randrange(32)])
    return 2**32 - 1 if draw == 5 else rng.getrandbits(32) & rng.getrandbits(32) & (rng.getrandbits(32) if draw < 9 else 2**32 - 1)


def word_bytes(rng, encoding, count, starts=85):
    """`starts`: how many of 100 begin with a type 8 word. `small`: coordinates that a small sensor divides."""
    decoder, kinds = DECODERS[encoding], [int(letter, 16) for letter in rng.choice(KINDS[encoding])]
    bits, below = decoder.SIZE * 8 - 4, 32 if encoding == 21 else 0     # bits below the coarse time, which mean nothing
    units, threshold = decoder.PERIOD // decoder.UNIT, -(-decoder.THRESHOLD // decoder.UNIT)
    small = (1 << bits) - 1 if chance(rng, 40) else SMALL[encoding]
    coarse, first, out = rng.choice([0, 1, units - 1, rng.randrange(units)]), chance(rng, starts), []
    for number in range(count):
        kind = 8 if number == 0 and first else rng.choice(kinds)
        low = rng.getrandbits(bits)
        if kind == 8:
            coarse = next_coarse(rng, coarse, units, threshold)
            low = coarse << below | rng.choice([0, low % (1 << below)])
        elif encoding == 21 and kind in (0, 1):
            low = (low & small) >> 32 << 32 | mask_bits(rng)
        elif kind in (0, 1, 2, 3) and (encoding == 2 or kind != 1):
            low &= small
        elif encoding == 3 and kind in (4, 5) and chance(rng, 50):
            low &= rng.getrandbits(bits)
        out.append((kind << bits | low).to_bytes(decoder.SIZE, 'little'))
    if out and chance(rng, 3):
        out[0] = b'%' + out[0][1:]
    return b''.join(out)


def damaged(rng, data):
    """Bytes altered here and there, lost, repeated, put in, or cut off."""
    for _ in range(rng.randrange(1, 4)):
        at = rng.randrange(len(data) + 1)
        to = min(at + rng.randrange(1, 9), len(data))
        draw = rng.randrange(6)
        if draw < 2 and at < len(data):
            data = data[:at] + bytes([data[at] ^ 1 << rng.randrange(8)]) + data[at + 1:]
        elif draw == 2:
            data = data[:at] + data[to:]
        elif draw == 3:
            data = data[:at] + data[at:to] + data[at:]
        elif draw == 4:
            data = data[:at] + bytes([rng.getrandbits(8)]) + data[at:]
        elif draw == 5:
            data = data[:at]
    return data


def body_bytes(rng, encoding):
    count = rng.randrange(rng.choice([4, 17, 17, 17, 61, 61, 201]) if chance(rng, 98) else 2001)
    data = word_bytes(rng, encoding, count)
    if chance(rng, 12):
        data = damaged(rng, data)
    if chance(rng, 8):
        data += bytes(rng.getrandbits(8) for _ in range(rng.randrange(1, DECODERS[encoding].SIZE)))   # a broken last word
    return data


# ---- size, limit and columns

def size_fields(rng, events):
    """No size, sizes at the border of an event, sizes that filter or cover, 0, and huge ones. Without the flag any numbers may stand there."""
    if chance(rng, 40):
        return (0, 0, 0) if chance(rng, 70) else (0, rng.choice([0, 5, HUGE]), rng.choice([0, 5, HUGE]))
    x, y = rng.choice(events)[1][:2] if events else (3, 4)
    width = rng.choice([x, x + 1, 8, 16, 40, 1024, 2048, 2060, 2079, 65536, HUGE])
    height = rng.choice([y + 1, y + 1, y, 8, 16, 1024, 2048, HUGE])
    if chance(rng, 4):
        width, height = rng.choice([(0, height), (width, 0), (0, 0)])
    return rng.choice([1, 1, 1, 2, 255]), width, height


def limit_fields(rng, count):
    if chance(rng, 35):
        return (0, 0) if chance(rng, 70) else (0, rng.choice([0, 1, HUGE]))
    limit = rng.choice([0, 1, count - 1, count, count, count + 1, rng.randrange(count + 1), rng.randrange(count + 1), HUGE])
    return rng.choice([1, 1, 1, 255]), max(limit, 0)


def lengths(rng, count, most, columns):
    """Exact, longer, one short, none, of different lengths, and so long (`most`) that they surely suffice."""
    draw = rng.randrange(12)
    if draw < 3:
        return [count] * columns
    if draw > 9:
        return [most + rng.randrange(-1, 2) if most else 0] * columns
    if draw < 5:
        return [count + rng.randrange(4) for _ in range(columns)]
    if draw == 5:
        return [max(count - 1, 0)] * columns
    if draw == 6:
        return [0] * columns
    rooms = [count + rng.randrange(3) for _ in range(columns)]
    rooms[rng.randrange(columns)] = rng.choice([max(count - 1, 0), count, count, 0, rng.randrange(count + 1)])
    return rooms


def setting(rng, encoding, body, header_size):
    """The fields of a call but its recording; `encoding` None: it is refused anyway, and the columns are any."""
    if encoding is None:
        rooms = [rng.randrange(4) for _ in range(7)] if chance(rng, 70) else [0] * 7
        sized, width, height = size_fields(rng, [])
        limited, most = limit_fields(rng, 3)
        return dict(sized=sized, width=width, height=height, limited=limited, max_events=most, rooms=tuple(rooms))
    sized, width, height = size_fields(rng, reading.decoded(encoding, body)[0])
    events, triggers = reading.kept(encoding, body, (width, height) if sized else header_size)
    limited, most = limit_fields(rng, len(events))
    events, triggers = reading.limited(events, triggers, most if limited else None)
    count = len(body) // DECODERS[encoding].SIZE
    rooms = lengths(rng, len(events), count * DECODERS[encoding].MOST_EVENTS, 4) + lengths(rng, len(triggers), count, 3)
    return dict(sized=sized, width=width, height=height, limited=limited, max_events=most, rooms=tuple(rooms))


def readings(rng, data, encoding, body, header_size, kinds, named):
    """Three settings, each without triggers and with; `named` is the encoding that the call is given."""
    for _ in range(3):
        fields = setting(rng, encoding, body, header_size)
        fill = rng.choice([0, 1, 0xEE, 0xEF, 0xFF])
        if chance(rng, 0.3):
            fields['zeros'] = 2**30 + 1 - len(data) + rng.choice([0, 0, 1, 4096])
        rooms = fields.pop('rooms')
        yield calls.Call(kinds[0], data, named, rooms=rooms[:4] + (0, 0, 0), fill=fill, **fields)
        yield calls.Call(kinds[1], data, named, rooms=rooms, fill=fill, **fields)


def any_encoding(rng):
    return rng.choice([2, 3, 21, 21])


def recording_bytes(rng):
    """Seldom with the words of another encoding than the header names."""
    encoding = any_encoding(rng)
    front, body = header_bytes(rng, encoding), body_bytes(rng, encoding if chance(rng, 95) else any_encoding(rng))
    if header.has_end_line(front) and chance(rng, 40):
        body = b'%' + body[1:]  # the low byte of the first word
    data = front + body
    return damaged(rng, data) if chance(rng, 3) else data


def headed(rng, data):
    """The header and readings of a recording."""
    try:
        h = header.parse_header(data, (1, 1))
        h = h._replace(size=header.header_values(header.header_lines(data)[0])[1])
        encoding, body, size = h.encoding, data[h.body:], h.size
    except Refused:
        encoding, body, size = None, b'', None
    made = list(readings(rng, data, encoding, body, size, (calls.READ_RAW, calls.READ_RAW_TRIGGERS), rng.choice([0, 2, 3, 21])))
    return [made[0]._replace(call=calls.PARSE_HEADER, rooms=(0,) * 7)] + made


def raw_case(rng):
    return headed(rng, recording_bytes(rng))


# ---- indexes and slices

def ends(rng, source, records, by_time):
    """The ends of a slice: at the records' counts or times and beside them, extreme ones, in both orders."""
    numbers = [0] + [r.time for r in records] + [r.decoder[1] for r in records] if by_time else [source.events] + [r.events for r in records]
    found = [rng.choice([rng.choice(numbers) + rng.randrange(-1, 2), rng.choice(numbers), 0, 2**63 - 1]) for _ in range(2)]
    if chance(rng, 85):
        found.sort()
    if chance(rng, 5):
        found[rng.randrange(2)] = rng.choice([HUGE, 2**63, 2**63 - 1, 2**64 - 2**40])
    return [end % 2**64 for end in found]


def any_spacing(rng):
    """8 is the least of EVT 2.1, and 4 and 12 are none of its."""
    return rng.choice([4, 4, 8, 8, 8, 12, 16, 24, 64, 128, 65536, 4194304]) if chance(rng, 95) else rng.choice([0, 2, 3, 6, 10, 4194300, 4194308, HUGE])


def found_by(rng, data, source, records, by_time):
    """The ends of a slice, and columns for it."""
    start, end = ends(rng, source, records, by_time)
    cut = index.slice_time if by_time else index.slice_index
    wanted = [calls.signed(n) for n in (start, end)] if by_time else (start, end)
    return start, end, lengths(rng, len(cut(data, source, records, *wanted, (HUGE,))), 0, 4)


def openings(rng, data, named=None):
    """A recording opened, or words of the encoding that is named, and slices of its index."""
    spacing, made = any_spacing(rng), []
    for by_time in False, True, rng.choice([False, True]):
        sized, width, height = size_fields(rng, [(0, (rng.choice([5, 40, 2047]), rng.choice([5, 2047])))])
        fields = dict(sized=sized, width=width, height=height, max_events=spacing, fill=rng.choice([0, 1, 0xEE, 0xEF, 0xFF]))
        size = (width, height) if sized else None
        try:
            opened = index.open_raw(data, size, spacing, HUGE) if named is None else index.open_words(data, named, size, spacing, HUGE)
            lent = max(0, len(opened[1]) + rng.choice([0, 0, 0, 0, 1, 3, 3, -1]))
            start, end, rooms = found_by(rng, data, *opened, by_time)
        except Refused:
            lent, start, end, rooms = rng.randrange(4), 0, rng.choice([1, HUGE]), [rng.randrange(4) for _ in range(4)]
        if chance(rng, 0.3):
            fields['zeros'] = 2**30 + 1 - len(data)
        kind = (calls.OPEN_SLICE_INDEX, calls.OPEN_SLICE_TIME) if named is None else (calls.OPEN_WORDS_SLICE_INDEX, calls.OPEN_WORDS_SLICE_TIME)
        made.append(calls.Call(kind[by_time], data, named or 0, rooms=(*rooms, 10 * lent, 0, 0), decoder=(start, end, 0, 0, 0, 0, 0, 0), **fields))
    return made


def index_case(rng):
    if chance(rng, 60):
        return openings(rng, recording_bytes(rng))
    encoding = any_encoding(rng)
    return openings(rng, body_bytes(rng, encoding), encoding if chance(rng, 95) else rng.choice([0, 1, 2, 3, 4, 21, 2**32 - 1]))


def spoiled_index(rng, source, records):
    """An index with a few things altered: the encoding, which is that of all records, a record's decoder, also one of another encoding, counts,
    times, places, how many records there are, the total, the size."""
    for _ in range(rng.choice([1, 1, 1, 2, 3])):
        draw, at = rng.randrange(14), rng.randrange(len(records)) if records else 0
        if draw < 3:
            source = source._replace(encoding=rng.choice([2, 3, 21, 21, 0, 1, 4, 7, 2**32 - 1]))
        elif draw < 6 and records:
            fields = decoder_fields(rng, rng.choice([source.encoding, 2, 3, 21]) if source.encoding in DECODERS else 21)
            fields = spoiled(rng, fields) if chance(rng, 30) else fields
            records = records[:at] + [records[at]._replace(decoder=tuple(fields))] + records[at + 1:]
        elif draw == 6 and records:
            name = rng.choice(['offset', 'events', 'time'])
            value = getattr(records[at], name) + rng.choice([1, -1, 4, 8, -8, 64, 2**33, 2**63])
            records = records[:at] + [records[at]._replace(**{name: value})] + records[at + 1:]
        elif draw == 7:
            more = rng.choice([1, 5, 2**33])
            records = records[:at] + [r._replace(events=r.events + more) for r in records[at:]]
            source = source._replace(events=(source.events + rng.choice([0, more, more + 2])) % 2**64)
        elif draw == 8:
            records = records[:at] + [r._replace(time=r.time + 70) for r in records[at:]]
        elif draw == 9:
            records = records[:rng.randrange(len(records) + 1)]
        elif draw == 10:
            spacing = any_spacing(rng)
            source = source._replace(spacing=spacing)
            records = [r._replace(offset=source.start + j * spacing) for j, r in enumerate(records)]
        elif draw == 11:
            source = source._replace(width=rng.choice([0, 1, 33, 2047, HUGE]), height=rng.choice([0, 9, 2047, HUGE]))
        elif draw == 12:
            start = rng.choice([0, 1, 8, source.start + 1, 2**64 - 64])
            source = source._replace(start=start)
            records = [r._replace(offset=start + j * source.spacing) for j, r in enumerate(records)]
        else:
            source = source._replace(events=rng.choice([0, source.events + 1, source.events - 1, HUGE]) % 2**64)
    return source, [calls.record_of([n % 2**64 for n in calls.record_numbers(r)], source.encoding) for r in records]


def altered_case(rng):
    """Slices of an index that opening didn't make just so, or over another recording."""
    encoding, spacing = any_encoding(rng), rng.choice([8, 8, 16, 24, 64])
    data = body_bytes(rng, encoding)
    source, records = index.open_words(data, encoding, rng.choice([(2048, 2048), (40, 9), (2079, 2048)]), spacing, HUGE)
    if chance(rng, 85):
        source, records = spoiled_index(rng, source, records)
    lent = data if chance(rng, 60) else rng.choice([data[:rng.randrange(len(data) + 1)], damaged(rng, data), body_bytes(rng, any_encoding(rng))])
    made = []
    for by_time in False, True:
        told = len(records) + (rng.choice([-1, 1, 2**63]) if chance(rng, 6) else 0)
        try:
            start, end, rooms = found_by(rng, lent, source, records, by_time)
        except Refused:
            start, end, rooms = 0, rng.choice([1, HUGE]), [rng.randrange(4) for _ in range(4)]
        made.append(calls.Call((calls.SLICE_INDEX, calls.SLICE_TIME)[by_time], lent, rooms=(*rooms, 0, 0, 0), decoder=(start, end, 0, 0, 0, 0, 0, 0),
                               source=calls.source_numbers(source, max(told, 0)), records=tuple(map(calls.record_numbers, records)),
                               fill=rng.choice([0, 1, 0xEE, 0xEF]), zeros=2**30 + 1 - len(lent) if chance(rng, 0.3) else 0))
    return made


# ---- writers

LOOP = 2**24    # of EVT3


def far(rng, t):
    """Around the border of a loop of EVT3, this one's or a later one's, mostly a few on; seldom at the bound."""
    loop = t // LOOP + rng.choice([0, 0, 1, 1, 1, 1, 2, 3, rng.randrange(20), rng.choice([rng.randrange(20), rng.randrange(1024)])])
    beside = loop * LOOP + rng.choice([-4097, -4096, -1, 0, 0, 1, 4095, 4096, 4097, rng.randrange(LOOP), rng.randrange(LOOP)])
    return max(t, beside if chance(rng, 97) else writer.BOUND - 1)


def later(rng, t):
    """A time that stands, goes on a little, or far; below the bound."""
    if chance(rng, 15):
        return min(writer.BOUND - 1, far(rng, t))
    return min(writer.BOUND - 1, t + rng.choice([0, 0, 0, 1, 63, 64, 4095, 4096, rng.randrange(64), rng.randrange(5000), rng.randrange(LOOP // 4)]))


def some_events(rng, last):
    """Runs along a row, across borders of 12 and 32 columns, repeats, times that stand, go on a little or far."""
    t, out = last, []
    for _ in range(rng.choice([0, 1, 1, 2, 3, 4, 6])):
        t = later(rng, t)
        y, p, x = rng.choice([0, 7, 2047, rng.randrange(2048)]), rng.randrange(2), rng.choice([0, 31, 32, rng.randrange(64), rng.randrange(2048), 2047])
        out.append((x, y, t, p))
        for _ in range(rng.choice([0, 0, 1, 3, 6, 14, 40])):
            x += rng.choice([1, 1, 1, 1, 1, 2, 3, 12, 24, 31, 32, 33, 0, -1])
            out += [(x, y, t, p)] * (0 <= x <= 2047)
    return out


def spoiled_events(rng, events):
    """An event that is out of range, or a time that falls."""
    x, y, t, p = events[rng.randrange(len(events))]
    at = rng.choice([0, len(events) - 1, rng.randrange(len(events))])
    events[at] = rng.choice([(2048, y, t, p), (65535, y, t, p), (x, 2048, t, p), (x, y, t, 2), (x, y, t, 255), (x, y, writer.BOUND, p),
                             (x, y, writer.BOUND + rng.randrange(2**40), p), (x, y, t + LOOP, p), (x, y, t - LOOP, p), (x, y, -1, p), (x, y, t - 1, p),
                             (x, y, -2**63, p), (x, y, 2**63 - 1, p)])
    return events


def start_of(sink):
    """Where the events of a writer begin that is given by its numbers: its last time or coarse time, if that is one."""
    _, last, high, _, _, encoding, _, has_last, has_high, *_ = sink
    start = last if has_last else high * DECODERS[encoding].UNIT if has_high and encoding in DECODERS else 0
    return start if 0 <= start < writer.BOUND else 0


def lengths_of_output(rng, encoding, need, events, passed):
    """Exact, one more and one short; what surely suffices, for the loops passed and without them, and for any."""
    most = 96 + {2: 8, 3: 8, 21: 16}[encoding] * events
    return rng.choice([need, need, need, need + 1, need + 9, max(need - 1, 0), max(need - 1, 0), max(need - 8, 0), 0, most, most - 1,
                       most + 4 * passed, most + 4 * passed - 1, 16 * events + 4 * 1023])


def append_call(rng, sink):
    """An append to a writer, given by its numbers."""
    encoding, start = sink[5] if sink[5] in DECODERS else 21, start_of(sink)
    below = rng.choice([1, 1, 64, 4096, LOOP]) if chance(rng, 4) else 0
    events = some_events(rng, start - below)
    if events and chance(rng, 12):
        events = spoiled_events(rng, events)
    columns = list(map(tuple, calls.columns_of(events, 4)))
    if chance(rng, 4):
        at = rng.randrange(4)
        columns[at] = columns[at][:-1] if chance(rng, 50) else columns[at] + (1,)
    width, height = rng.choice([(64, 48), (2048, 2048), (0, 0), (HUGE, 1), (1280, 720)])
    call = calls.Call(calls.APPEND, width=width, height=height, sink=sink, columns=tuple(columns), fill=rng.choice([0, 1, 0xEE, 0xEF]),
                      rooms=(0,) * 5 + (2**31, 0))
    try:
        need = len(calls.model_append(call)[0])
    except Refused:
        need = rng.randrange(40)
    passed = (max([start] + [t for _, _, t, _ in events if t < writer.BOUND]) - start) // LOOP if encoding == 3 else 0
    return call._replace(rooms=(0,) * 5 + (lengths_of_output(rng, encoding, need, len(events), passed), 0))


def listed(rng, sink, count):
    """Appends to one writer: the calls, and the bytes that they hand over."""
    made, stream = [], b''
    for _ in range(count):
        call = append_call(rng, sink)
        made.append(call)
        try:
            out, after = calls.model_append(call)
            stream, sink = stream + out, calls.sink_numbers(after)
        except Refused:
            pass    # it returns the writer as it was
    return made, stream


def held_half(rng, encoding):
    """Of a coarse time below the bound, at it, or so large that times 64 or 4096 it passes 2^64; in EVT3 in any loop, near its first and last."""
    most = writer.BOUND // DECODERS[encoding].UNIT
    draw = rng.randrange(10)
    if draw < 2:
        return most + rng.choice([-1, -1, 0, 1])
    if draw == 2:
        return rng.choice([2 * most, 2**52, 2**52 + 1, 2**58, 2**58 + 1, 2**64 - 1])
    if encoding != 3:
        return rng.choice([0, 1, 2**18 - 1, 2**18, rng.randrange(2**20), rng.randrange(most)])
    return rng.choice([0, 0, 0, 1, 2, 1022, 1023, rng.randrange(1024)]) * 4096 + rng.choice([0, 0, 1, 0xFFE, 0xFFF, 0xFFF, rng.randrange(4096)])


def held_sink(rng, encoding):
    """A writer as resumed, with a coarse time and no last time; seldom with what it can't have beside that."""
    sink = writer.Sink(encoding, rng.choice([1, 1, 1, 0]), 0, None, held_half(rng, encoding))
    if chance(rng, 8):
        sink = sink._replace(**{rng.choice(['count', 'low', 'row']): rng.choice([0, 1, 7])})
    return sink


def written_sink(rng, encoding):
    """A writer with a last time, with and without the halves that belong to it."""
    bound, unit = writer.BOUND, DECODERS[encoding].UNIT
    last = rng.choice([0, 1, unit, rng.randrange(20000), rng.randrange(LOOP), LOOP - 1, LOOP, far(rng, 0), far(rng, 0), rng.randrange(bound), bound - 1, bound])
    sink = writer.Sink(encoding, rng.choice([0, 1]), rng.choice([0, 1, 17, 2**62 - 1, 2**62]), last, rng.choice([None, last // unit, last // unit]))
    return sink._replace(low=rng.choice([None, last % unit]), row=rng.choice([None, 0, 7, 2047])) if encoding == 3 else sink


def writers_encoding(rng):
    """EVT3 more often: it alone passes loops."""
    return rng.choice([2, 3, 3, 21])


def any_sink(rng):
    """A writer in range, or just outside."""
    encoding, draw = writers_encoding(rng), rng.randrange(10)
    sink = writer.fresh(encoding, 1) if draw == 0 else held_sink(rng, encoding) if draw < 5 else written_sink(rng, encoding)
    numbers = list(calls.sink_numbers(sink))
    if chance(rng, 15):
        at = rng.randrange(len(numbers))
        limit = [2**64, 2**63, 2**64, 2**64, 2**64, 2**32][at] if at < 6 else 256
        numbers[at] = rng.choice([numbers[at] + 1, numbers[at] - 1, 0, 1, 2, 3, 21, 2048, rng.getrandbits(64)]) % limit
    return tuple(numbers)


def writer_case(rng):
    made = listed(rng, any_sink(rng), rng.choice([1, 2, 3]))[0]
    number = rng.choice([2, 3, 21, 0, 1, 20, 22, 2**32 - 1])
    return made + [calls.Call(calls.WRITER, encoding=number, sized=rng.choice([0, 1, 255])), calls.Call(calls.NEW_DECODER, encoding=number)]


def cut_stream(rng, encoding, headed_):
    """The calls that write a stream, what is left of it when it is cut anywhere behind its header, and where its words begin."""
    made, stream = listed(rng, calls.sink_numbers(writer.fresh(encoding, headed_)), rng.choice([1, 2, 4]))
    start = header.header_lines(stream)[1] if headed_ else 0
    return made, stream[:rng.randrange(start, len(stream) + 1)], start


def resumed_case(rng):
    """A stream that is cut, then the words of the writer resumed from what is left, or of a fresh one that sends no header: read, opened and sliced."""
    encoding, headed_ = writers_encoding(rng), chance(rng, 50)
    made, left, start = cut_stream(rng, encoding, headed_)
    whole = left[:len(left) - (len(left) - start) % DECODERS[encoding].SIZE]
    _, sink = writer.resumed(lambda: writer.resume_words(encoding, whole[start:]), encoding)
    more, behind = listed(rng, calls.sink_numbers(sink if chance(rng, 80) else writer.fresh(encoding, 0)), rng.choice([0, 1, 2]))
    made, joined = made + more, whole + behind
    if start:
        return made + raw_resumes(rng, left) + headed(rng, joined) + openings(rng, joined)
    kinds = calls.DECODE_WORDS, calls.DECODE_WORDS_TRIGGERS
    made += words_resumes(rng, encoding, left)
    return made + list(readings(rng, joined, encoding, joined, None, kinds, encoding)) + openings(rng, joined, encoding)


# ---- resuming

def too_long(rng, data):
    """Seldom how many bytes 0 make a recording too long."""
    return 2**30 + 1 - len(data) + rng.choice([0, 0, 4096]) if chance(rng, 0.5) else 0


def raw_resumes(rng, data):
    """The writer and the decoder behind a recording."""
    return [calls.Call(kind, data, zeros=too_long(rng, data), fill=rng.randrange(2)) for kind in (calls.RESUME_RAW, calls.DECODER_AFTER_RAW)]


def words_resumes(rng, encoding, data):
    """The writer behind words without a header, and by their decoder."""
    named = encoding if chance(rng, 97) else rng.choice([0, 1, 2, 3, 4, 20, 21, 22, 2**32 - 1])
    return [calls.Call(calls.RESUME_WORDS, data, named, zeros=too_long(rng, data), fill=rng.randrange(2)),
            calls.Call(calls.RESUME, decoder=decoder_after_words(encoding, data).fields())]


def resumable_fields(rng, encoding):
    """A decoder with a coarse time below the bound, just at it, or past it."""
    decoder = DECODERS[encoding]
    half = rng.choice([held_half(rng, encoding), rng.randrange(writer.BOUND // decoder.UNIT)])
    coarse = half * decoder.UNIT if half < 2**40 else writer.BOUND
    time = coarse + rng.choice([0, 1, decoder.UNIT - 1, rng.randrange(decoder.UNIT)])
    place = [rng.choice([0, 7, 2047]), rng.choice([0, 10, 65535])] if encoding == 3 else [0, 0]
    return [coarse, time, coarse // decoder.PERIOD, encoding, *place, 1, rng.randrange(2) if encoding == 3 else 0]


def forged_case(rng):
    """Decoders that are given: any, at the bound, with a number altered, of an unknown encoding; then appends to what they leave."""
    made = []
    for _ in range(4):
        encoding = writers_encoding(rng)
        fields = decoder_fields(rng, encoding) if chance(rng, 40) else resumable_fields(rng, encoding)
        if chance(rng, 20):
            fields = spoiled(rng, fields)
        if chance(rng, 3):
            fields[3] = rng.choice([0, 1, 2, 3, 4, 7, 20, 21, 22, 2**32 - 1])
        made.append(calls.Call(calls.RESUME, decoder=tuple(fields), fill=rng.randrange(2)))
        made += listed(rng, calls.sink_numbers(calls.model_resumed(made[-1])[1]), rng.choice([0, 1, 1, 2]))[0]
    return made


def past_bound(rng, encoding, data):
    """Words behind a stream that bring its coarse time to the bound, or nearly: loops of EVT3, one of the others."""
    decoder, words = DECODERS[encoding], []
    top, type_8 = decoder.PERIOD // decoder.UNIT - 1, 8 << decoder.SIZE * 8 - 4
    loops = 1024 - decoder_after_words(encoding, data).loops - rng.choice([0, 0, 1]) if encoding == 3 else 1
    for _ in range(max(loops, 0)):
        words += [type_8 | top << (32 if encoding == 21 else 0), type_8]
    return data + b''.join(word.to_bytes(decoder.SIZE, 'little') for word in words[:len(words) - rng.randrange(2)])


def left_case(rng):
    """What is left of streams, garbage, and recordings with odd and damaged headers: the writer and the decoder behind them."""
    encoding = writers_encoding(rng)
    front = header_bytes(rng, encoding) if chance(rng, 30) else writer.header(encoding, rng.choice([(64, 48), (0, 48), (0, 0)]))
    body = body_bytes(rng, encoding) if chance(rng, 50) else cut_stream(rng, encoding, False)[1]
    body = past_bound(rng, encoding, body) if chance(rng, 15) else body
    recording = recording_bytes(rng) if chance(rng, 20) else front + body
    if chance(rng, 20):
        recording = damaged(rng, recording) if chance(rng, 30) else recording[:rng.randrange(len(recording) + 1)]
    made = raw_resumes(rng, recording) + words_resumes(rng, encoding, body)
    return made + listed(rng, calls.sink_numbers(calls.model_resumed(made[-1])[1]), rng.choice([0, 1, 2]))[0]


# ---- headers alone, and words without one

def header_case(rng):
    """Headers alone: some lines, any of them odd."""
    made = []
    for _ in range(6):
        data = header_bytes(rng, any_encoding(rng)) + ''.join(header_line(rng) for _ in range(rng.randrange(4))).encode('latin-1')
        sized, width, height = size_fields(rng, []) if chance(rng, 20) else (0, 0, 0)
        made.append(calls.Call(calls.PARSE_HEADER, data[:-1] if chance(rng, 10) else data, sized=sized, width=width, height=height, fill=rng.randrange(2)))
    return made


def words_case(rng):
    encoding = any_encoding(rng)
    data = body_bytes(rng, encoding)
    named = encoding if chance(rng, 97) else rng.choice([0, 1, 2, 3, 4, 21, 20, 22, 2**32 - 1])
    known = named if named in DECODERS else None
    return list(readings(rng, data, known, data, None, (calls.DECODE_WORDS, calls.DECODE_WORDS_TRIGGERS), named))


# ---- single words

def decoder_fields(rng, encoding):
    """A decoder, often at a border of its range; of the loops also one too many."""
    decoder = DECODERS[encoding]
    units = decoder.PERIOD // decoder.UNIT
    if chance(rng, 10):
        return [0, 0, 0, encoding, 0, 0, 0, 0]
    most = decoder.MOST_LOOPS
    loops = rng.choice([0, 0, 1, 2, 3, rng.randrange(most), rng.randrange(most), most - 1, most, most + 1])
    coarse = loops * decoder.PERIOD + rng.choice([0, 1, 10, units - 1, rng.randrange(units)]) * decoder.UNIT
    time = coarse + rng.choice([0, 1, decoder.UNIT - 1, rng.randrange(decoder.UNIT)])
    place = [rng.choice([0, 7, 2047]), rng.choice([0, 10, 2047, 65523, 65524, 65535, rng.randrange(65536)])] if encoding == 3 else [0, 0]
    return [coarse, time, loops, encoding, *place, 1, rng.randrange(2) if encoding == 3 else 0]


def spoiled(rng, fields):
    """A number altered, by a little or to any."""
    limits = [2**64, 2**64, 2**64, 2**32, 2**16, 2**16, 2**8, 2**8]
    at = rng.randrange(len(fields))
    value = fields[at] + rng.choice([1, -1, 64, -64, 4096, -4096, 2**24, 2**34]) if chance(rng, 60) else rng.choice([0, 1, 2, 2048, rng.getrandbits(64)])
    return fields[:at] + [value % limits[at]] + fields[at + 1:]


def single_case(rng):
    encoding = any_encoding(rng)
    fields = decoder_fields(rng, encoding)
    if chance(rng, 25):
        fields = spoiled(rng, fields)
    data = body_bytes(rng, encoding) if chance(rng, 30) else word_bytes(rng, encoding, rng.choice([0, 1, 1, 1, 2]), 10)
    last = DECODERS[encoding].SIZE - 1
    if len(data) > last and chance(rng, 30):
        data = data[:last] + bytes([0xA0 | data[last] & 15]) + data[last + 1:]  # a trigger
    if data and chance(rng, 10):
        data = data[:rng.randrange(last + 2)]
    kinds = calls.DECODE, calls.WORD_TRIGGER, calls.DECODER_AFTER
    made = [calls.Call(kind, data, decoder=tuple(fields), fill=rng.randrange(2)) for kind in kinds]
    if chance(rng, 0.3):
        made[2] = made[2]._replace(zeros=2**30 + 1 - len(data))
    return made


# ---- numbers

TOP = str(HUGE)     # 2^64 - 1
SPOILING = b'+-/: xX\t\r\n._,aeAE09\x00\x1f\x7f\x80\xb1\xff'


def digits(rng):
    """Of small values, of any of 64 bits, around 2^64, that leave 2^64 - 1 at one of its digits, and of more digits than it has."""
    draw = rng.randrange(12)
    if draw < 3:
        return str(rng.choice([0, 1, 9, rng.randrange(100), rng.randrange(100), 64, 1280, 720, 65536]))
    if draw < 5:
        return str(rng.getrandbits(rng.choice([16, 32, 63, 64])))
    if draw < 7:
        return str(2**64 + rng.choice([-2, -1, 0, 1, -rng.randrange(10**rng.randrange(19)), rng.randrange(10**rng.randrange(20))]))
    if draw < 10:
        at = rng.randrange(len(TOP))
        return TOP[:at] + ''.join(rng.choice('0123456789') for _ in range(len(TOP) - at + rng.choice([-1, 0, 0, 0, 1])))
    return ''.join(rng.choice('0123456789') for _ in range(rng.choice([19, 20, 20, 21, 22, rng.randrange(60), rng.randrange(400)])))


def number_text(rng):
    """Mostly digits, behind zeros or a sign; a byte altered or put in anywhere; more bytes behind; cut; seldom any bytes at all."""
    if chance(rng, 4):
        return bytes(rng.getrandbits(8) for _ in range(rng.randrange(rng.choice([3, 30, 300]))))
    zeros = rng.choice([0, 0, 0, 0, 1, 2, rng.randrange(25), rng.randrange(25), rng.randrange(400) if chance(rng, 30) else 0])
    text = (rng.choice([''] * 6 + ['+'] * 4 + ['++', '-']) + '0' * zeros + digits(rng)).encode()
    if chance(rng, 40):
        at = rng.choice([0, len(text), rng.randrange(len(text) + 1), rng.randrange(len(text) + 1), rng.randrange(len(text) + 1)])
        byte = bytes([rng.choice(SPOILING) if chance(rng, 80) else rng.getrandbits(8)])
        text = text[:at] + byte + text[at + rng.randrange(2):]
    if chance(rng, 20):
        text += rng.choice([digits(rng).encode(), b'x' + digits(rng).encode(), b'+', b' ', bytes([rng.getrandbits(8)]) * rng.randrange(100)])
    return text[:rng.randrange(len(text) + 1)] if chance(rng, 10) else text


def number_case(rng):
    return [calls.Call(calls.READ_NUMBER, number_text(rng), fill=rng.randrange(2), zeros=rng.choice([1, 9, 2**30]) if chance(rng, 1) else 0) for _ in range(12)]


CASES = [raw_case] * 9 + [words_case] * 6 + [single_case] * 3 + [header_case] * 2 + [index_case] * 5 + [altered_case] * 4 + [writer_case] * 6 + [
    resumed_case] * 4 + [forged_case] * 3 + [left_case] * 4 + [number_case] * 3


def case(seed, number):
    """The calls of a case; it depends on the seed and its number alone."""
    rng = random.Random(f'{seed} {number}')
    return rng.choice(CASES)(rng)

"""The calls of the C interface that are compared: how tools/model/driver.c is asked for one, and the answer that the model expects.

An answer is bytes, laid out as the driver does, so that comparing it compares every number, every place of every column, and the canaries.
"""
import struct
from collections import namedtuple

import header
import index
import reading
import words
import writer
from number import read_number
from refusal import Refused

NAMES = ['parse_header', 'read_raw', 'decode_words', 'read_raw_triggers', 'decode_words_triggers', 'decode', 'decoder_after', 'word_trigger',
         'open, slice_index', 'open, slice_time', 'open_words, slice_index', 'open_words, slice_time', 'slice_index', 'slice_time', 'append', 'writer',
         'new_decoder', 'resume', 'resume_words', 'resume_raw', 'decoder_after_raw', 'read_number']
(PARSE_HEADER, READ_RAW, DECODE_WORDS, READ_RAW_TRIGGERS, DECODE_WORDS_TRIGGERS, DECODE, DECODER_AFTER, WORD_TRIGGER,
 OPEN_SLICE_INDEX, OPEN_SLICE_TIME, OPEN_WORDS_SLICE_INDEX, OPEN_WORDS_SLICE_TIME, SLICE_INDEX, SLICE_TIME, APPEND, WRITER,
 NEW_DECODER, RESUME, RESUME_WORDS, RESUME_RAW, DECODER_AFTER_RAW, READ_NUMBER) = range(len(NAMES))
TRIGGER_CALLS = READ_RAW_TRIGGERS, DECODE_WORDS_TRIGGERS, WORD_TRIGGER
READINGS = READ_RAW, DECODE_WORDS, READ_RAW_TRIGGERS, DECODE_WORDS_TRIGGERS
RAW_READINGS = READ_RAW, READ_RAW_TRIGGERS
RAW_OPENINGS = OPEN_SLICE_INDEX, OPEN_SLICE_TIME
OPENINGS = *RAW_OPENINGS, OPEN_WORDS_SLICE_INDEX, OPEN_WORDS_SLICE_TIME
SLICES = SLICE_INDEX, SLICE_TIME    # of an index that is given
BY_TIME = OPEN_SLICE_TIME, OPEN_WORDS_SLICE_TIME, SLICE_TIME
RESUMES = RESUME, RESUME_WORDS, RESUME_RAW
WITH_HEADER = PARSE_HEADER, *RAW_READINGS, *RAW_OPENINGS, RESUME_RAW, DECODER_AFTER_RAW
WITH_DECODER = DECODE, DECODER_AFTER, WORD_TRIGGER, RESUME

# `rooms`: places lent of x, y, t, p, trigger time, id and value. `decoder`: the numbers of `words.Decoder.fields`. `zeros`: bytes 0 behind
# `data`. `sized` and `limited` are flags, true if not 0. `fill` is what every byte of a column holds beforehand.
# An opening has its spacing in `max_events`; a slice its ends as the first two numbers of `decoder`; both their records, 10 places each, in the
# fifth column. `source` and `records` are those of a slice, `sink` and `columns` those of an append, all as the C interface's numbers; an
# append's columns are lent as the first four, its output as the sixth. A fresh writer has its flag for the header in `sized`. A number's text is `data`
# and the sixth column too.
Call = namedtuple('Call', 'call data encoding sized width height limited max_events rooms decoder zeros fill source records sink columns',
                  defaults=(b'', 0, 0, 0, 0, 0, 0, (0,) * 7, (0,) * 8, 0, 0, (), (), (), ()))
REQUEST = struct.Struct('<4Q3QI2H2B6x7I3I4B4x')
DECODER = struct.Struct('<3QI2H2B')
HEADER = struct.Struct('<2I3QB')
READING = struct.Struct('<2I5Q')
EVENT = struct.Struct('<2HqB')
TRIGGER = struct.Struct('<IBq2B')
OPENING = struct.Struct('<I8QI')
SLICE = struct.Struct('<I2Q')
APPENDED = struct.Struct('<I2Q')
SOURCE = struct.Struct('<7QI4x')    # records, spacing, start, length, width, height, events, encoding
RECORD = struct.Struct('<10Q')
SINK = struct.Struct('<Qq3QI5B')    # events, last time, high half, low half, row, encoding; flags: header sent, has each of the four
SINK_PADDING = bytes(7)
NUMBER = struct.Struct('<2QB')
FRESH_EVT2 = words.DECODERS[2]().fields()
COLUMNS = 'HHqBqBB'
WIDTHS = [struct.calcsize('<' + letter) for letter in COLUMNS]


def packed(columns):
    return [struct.pack(f'<{len(values)}{COLUMNS[i]}', *values) for i, values in enumerate(columns)]


def more_of(c):
    """What stands behind the recording of a request."""
    if c.call in SLICES:
        return SOURCE.pack(*c.source) + b''.join(RECORD.pack(*record) for record in c.records)
    return SINK.pack(*c.sink) + SINK_PADDING + b''.join(packed(c.columns)) if c.call == APPEND else b''


def rooms_of(c):
    """A slice lends the records that it is given, an append its columns, a number's reader its text."""
    if c.call in SLICES:
        return c.rooms[:4] + (10 * len(c.records), 0, 0)
    if c.call == READ_NUMBER:
        return (0,) * 5 + (len(c.data), 0)
    return tuple(map(len, c.columns)) + (0, c.rooms[5], 0) if c.call == APPEND else c.rooms


def request(c):
    more = more_of(c)
    numbers = REQUEST.pack(c.width, c.height, c.max_events, c.zeros, *c.decoder, *rooms_of(c), c.encoding, len(c.data), len(more), c.call, c.sized,
                           c.limited, c.fill)
    return numbers + c.data + more


def size_of(c):
    return (c.width, c.height) if c.sized else None


def limit_of(c):
    return c.max_events if c.limited else None


def model_reading(c):
    """The model's reading; raises Refused."""
    triggers = c.rooms[4:] if c.call in TRIGGER_CALLS else None
    if c.call in RAW_READINGS:
        return reading.read_raw(c.data, size_of(c), limit_of(c), c.rooms[:4], triggers, c.zeros)
    return reading.decode_words(c.data, c.encoding, size_of(c), limit_of(c), c.rooms[:4], triggers, c.zeros)


def columns_of(entries, number):
    return list(zip(*entries)) if entries else [()] * number


def filled(c, columns):
    """Each column in full: what was handed over, and behind it what it held before."""
    parts = []
    for i, values in enumerate(packed(columns)):
        parts += [values, bytes([c.fill]) * (WIDTHS[i] * rooms_of(c)[i] - len(values))]
    return b''.join(parts)


def filled_columns(c, events, triggers):
    return filled(c, columns_of(events, 4) + columns_of(triggers, 3))


UNALTERED = b'\0'   # no canary, and no byte of the recording
NO_EVENT = 4 + DECODER.size + len(UNALTERED)    # the length of a decoded word's answer without an event


def expected_reading(c):
    try:
        r = model_reading(c)
    except Refused as refused:
        return READING.pack(refused.number, 0, refused.told, 0, 0, 0, 0) + UNALTERED + filled_columns(c, [], [])
    numbers = READING.pack(0, r.encoding, 0, r.width, r.height, len(r.events), len(r.triggers))
    return numbers + UNALTERED + filled_columns(c, r.events, r.triggers)


def expected_header(c):
    try:
        h = header.parse_header(c.data, size_of(c), c.zeros)
    except Refused as refused:
        return HEADER.pack(refused.number, 0, 0, 0, 0, 0) + UNALTERED
    return HEADER.pack(0, h.encoding, h.body, *(h.size or (0, 0)), h.size is not None) + UNALTERED


def expected_word(c):
    """A refused decoder is returned as it was."""
    try:
        if c.call == DECODER_AFTER:
            return struct.pack('<I', 0) + DECODER.pack(*words.decoder_after(c.decoder, c.data, c.zeros).fields()) + UNALTERED
        decoder, events, trigger = words.first_word(c.decoder, c.data)
    except Refused as refused:
        if c.call == WORD_TRIGGER:
            return TRIGGER.pack(refused.number, 0, 0, 0, 0) + UNALTERED
        return struct.pack('<I', refused.number) + DECODER.pack(*c.decoder) + UNALTERED
    if c.call == WORD_TRIGGER:
        return TRIGGER.pack(0, trigger is not None, *(trigger or (0, 0, 0))) + UNALTERED
    return struct.pack('<I', 0) + DECODER.pack(*decoder.fields()) + b''.join(EVENT.pack(*event) for event in events) + UNALTERED


def expected_decoder_after_raw(c):
    """Refused, a fresh decoder of EVT2 is told."""
    try:
        number, fields = 0, words.decoder_after_raw(c.data, c.zeros).fields()
    except Refused as refused:
        number, fields = refused.number, FRESH_EVT2
    return struct.pack('<I', number) + DECODER.pack(*fields) + UNALTERED


def signed(number):
    return number - 2**64 if number >= 2**63 else number


def record_numbers(record):
    """In the order of the C interface, where a record has no encoding of its own."""
    coarse, time, loops, _, row, base, started, polarity = record.decoder
    return record.offset, record.events, record.time % 2**64, started, coarse, time, loops, row, base, polarity


def source_numbers(source, records):
    return records, source.spacing, source.start, source.length, source.width, source.height, source.events, source.encoding


def source_of(numbers):
    records, *source, encoding = numbers
    return index.Source(encoding, *source), records


def record_of(numbers, encoding):
    offset, events, time, started, coarse, now, loops, row, base, polarity = numbers
    return index.Record(offset, events, signed(time), (coarse, now, loops, encoding, row, base, started, polarity))


def model_opening(c):
    """The model's index; raises Refused."""
    if c.call in RAW_OPENINGS:
        return index.open_raw(c.data, size_of(c), c.max_events, c.rooms[4] // 10, c.zeros)
    return index.open_words(c.data, c.encoding, size_of(c), c.max_events, c.rooms[4] // 10, c.zeros)


def ends_of(c):
    return tuple(map(signed, c.decoder[:2])) if c.call in BY_TIME else c.decoder[:2]


def model_slice(c, source, records):
    """The model's slice of an index; raises Refused."""
    cut = index.slice_time if c.call in BY_TIME else index.slice_index
    return cut(c.data, source, records, *ends_of(c), c.rooms[:4], c.zeros)


def given_slice(c):
    """Of an index that is given. With fewer records lent than the source tells it has none that count (10); those behind aren't looked at."""
    source, told = source_of(c.source)
    lent = [record_of(numbers, source.encoding) for numbers in c.records]
    return model_slice(c, source, lent[:told] if told <= len(lent) else [])


def sliced(answered):
    """The events of a slice, and its numbers."""
    try:
        events = answered()
        return events, SLICE.pack(0, 0, len(events))
    except Refused as refused:
        return [], SLICE.pack(refused.number, refused.told, 0)


def expected_opening(c):
    """The numbers of an opening and of a slice of it; the records stand in the fifth column."""
    try:
        source, records = model_opening(c)
    except Refused as refused:
        return OPENING.pack(refused.number, refused.told, *[0] * 8) + SLICE.pack(0, 0, 0) + UNALTERED + filled_columns(c, [], [])
    events, told = sliced(lambda: model_slice(c, source, records))
    places = [signed(number) for record in records for number in record_numbers(record)]
    return OPENING.pack(0, 0, *source_numbers(source, len(records))) + told + UNALTERED + filled(c, columns_of(events, 4) + [places, (), ()])


def expected_slice(c):
    """The records, unaltered, stand in the fifth column."""
    events, told = sliced(lambda: given_slice(c))
    places = [signed(number) for record in c.records for number in record]
    return told + UNALTERED + filled(c, columns_of(events, 4) + [places, (), ()])


# ---- writing

def sink_numbers(sink):
    held = sink.last, sink.high, sink.low, sink.row
    last, high, low, row = (number or 0 for number in held)
    return sink.count, last, high, low, row, sink.encoding, sink.sent, *(int(number is not None) for number in held)


def sink_of(numbers):
    """10 for numbers that are no writer's: a flag above 1, a value whose flag is 0."""
    count, last, high, low, row, encoding, sent, *flags = numbers
    held = last, high, low, row
    if sent > 1 or any(flag > 1 or (flag == 0 and number != 0) for flag, number in zip(flags, held)):
        raise Refused(10)
    return writer.Sink(encoding, sent, count, *(number if flag else None for flag, number in zip(flags, held)))


def model_append(c):
    return writer.append(sink_of(c.sink), (c.width, c.height), c.columns, c.rooms[5])


def expected_append(c):
    """A refused writer is returned as it was."""
    try:
        out, sink = model_append(c)
        numbers = APPENDED.pack(0, 0, len(out)) + SINK.pack(*sink_numbers(sink))
    except Refused as refused:
        out, numbers = b'', APPENDED.pack(refused.number, refused.told, 0) + SINK.pack(*c.sink)
    return numbers + UNALTERED + filled(c, [*c.columns, (), tuple(out), ()])


def model_resumed(c):
    """The number of the refusal, and the writer that is told."""
    if c.call == RESUME:
        return writer.resumed(lambda: writer.resume(c.decoder), c.decoder[3])
    if c.call == RESUME_WORDS:
        return writer.resumed(lambda: writer.resume_words(c.encoding, c.data, c.zeros), c.encoding)
    return writer.resumed(lambda: writer.resume_raw(c.data, c.zeros), writer.encoding_left(c.data, c.zeros))


def expected_resumed(c):
    number, sink = model_resumed(c)
    return struct.pack('<I', number) + SINK.pack(*sink_numbers(sink)) + UNALTERED


# ---- numbers

# in which ways the driver lends the text, each with its answer
HOW_LENT = 'before a page', 'between marks', 'of the heap', 'to the place'
TEXTS = len(HOW_LENT)


def model_number(c):
    """Of bytes 0 behind the text the first is the place, if there is none before; the others don't count."""
    return read_number(c.data + bytes(min(c.zeros, 1)))


def expected_number(c):
    value, place = model_number(c)
    return NUMBER.pack(value or 0, place or 0, place is None) * TEXTS + UNALTERED + filled(c, [()] * 5 + [tuple(c.data), ()])


def expected(c):
    if c.call in READINGS:
        return expected_reading(c)
    if c.call in OPENINGS:
        return expected_opening(c)
    if c.call in SLICES:
        return expected_slice(c)
    if c.call == APPEND:
        return expected_append(c)
    if c.call == WRITER:
        return SINK.pack(*sink_numbers(writer.fresh(c.encoding, c.sized))) + UNALTERED
    if c.call == NEW_DECODER:
        return DECODER.pack(0, 0, 0, c.encoding, 0, 0, 0, 0) + UNALTERED
    if c.call in RESUMES:
        return expected_resumed(c)
    if c.call == DECODER_AFTER_RAW:
        return expected_decoder_after_raw(c)
    if c.call == READ_NUMBER:
        return expected_number(c)
    return expected_header(c) if c.call == PARSE_HEADER else expected_word(c)


def refusal_of(c, answer):
    """The number of an expected answer, 0 for an acceptance; of a number `place` if there is one."""
    if c.call in (WRITER, NEW_DECODER):
        return 0
    if c.call == READ_NUMBER:
        return 0 if NUMBER.unpack_from(answer)[2] else 'place'
    return answer[0] or (answer[OPENING.size] if c.call in OPENINGS else 0)


def encoding_of(c, answer):
    """The encoding of a call that was accepted; a number has none."""
    if c.call == READ_NUMBER:
        return None
    if c.call == PARSE_HEADER:
        return HEADER.unpack_from(answer)[1]
    if c.call in READINGS:
        return READING.unpack_from(answer)[1]
    if c.call in OPENINGS:
        return OPENING.unpack_from(answer)[-1]
    if c.call in SLICES:
        return c.source[-1]
    if c.call == APPEND:
        return c.sink[5]
    if c.call in RESUMES:
        return SINK.unpack_from(answer, 4)[5]
    if c.call == DECODER_AFTER_RAW:
        return DECODER.unpack_from(answer, 4)[3]
    return c.encoding if c.call in (WRITER, NEW_DECODER) else c.decoder[3]


# ---- for people

def call_text(c):
    lines = [f'{NAMES[c.call]}', f'  bytes {c.data.hex(" ") or "none"}' + (f' and {c.zeros} bytes 0' if c.zeros else '')]
    if c.call == READ_NUMBER:
        return '\n'.join(lines + [f'  {c.data!r}'])
    if c.call not in WITH_HEADER:
        lines.append(f'  encoding {c.encoding}')
    if c.call in READINGS or c.call in OPENINGS or c.call == PARSE_HEADER:
        lines.append(f'  size {"x".join(map(str, size_of(c))) if c.sized else "none"}')
    if c.call in READINGS:
        lines.append(f'  limit {limit_of(c) if c.limited else "none"}')
        lines.append(f'  columns x {c.rooms[0]}, y {c.rooms[1]}, t {c.rooms[2]}, p {c.rooms[3]}'
                     + (f'; trigger t {c.rooms[4]}, id {c.rooms[5]}, value {c.rooms[6]}' if c.call in TRIGGER_CALLS else ''))
    elif c.call in OPENINGS:
        lines.append(f'  spacing {c.max_events}, records {c.rooms[4] // 10}; slice from %d to %d; columns x %d, y %d, t %d, p %d' % (*ends_of(c), *c.rooms[:4]))
    elif c.call in SLICES:
        lines.append('  source: records %d, spacing %d, from %d of %d, size %dx%d, events %d, encoding %d' % c.source)
        lines += [f'  record {record}' for record in c.records]
        lines.append('  slice from %d to %d; columns x %d, y %d, t %d, p %d' % (*ends_of(c), *c.rooms[:4]))
    elif c.call == APPEND:
        lines.append(f'  writer {c.sink}; size {c.width}x{c.height}; output {c.rooms[5]} bytes')
        lines.append('  columns x {}; y {}; t {}; p {}'.format(*map(list, c.columns)))
    elif c.call == WRITER:
        lines.append(f'  header {c.sized}')
    elif c.call in WITH_DECODER:
        lines.append('  decoder coarse %d, time %d, loops %d, encoding %d, row %d, base column %d, started %d, polarity %d' % c.decoder)
    return '\n'.join(lines + [f'  columns held {c.fill:02x} before'])


def columns_text(c, answer):
    parts, at = [], 0
    names = {} if c.call in READINGS else {'q': 'records', 'B': 'output'}
    for i, name in enumerate(['x', 'y', 't', 'p', 'trigger t', 'id', 'value']):
        room = rooms_of(c)[i]
        name = names.get(COLUMNS[i], name) if i > 3 else name
        if room or i < 4 or c.call in READINGS:
            parts.append(f'{name} {list(struct.unpack_from(f"<{room}{COLUMNS[i]}", answer, at))}')
        at += WIDTHS[i] * room
    return '; '.join(parts)


def answer_text(c, answer):
    """An answer's numbers; its raw bytes if it hasn't the length that this call's has."""
    try:
        if c.call in READINGS:
            numbers = 'refusal %d, encoding %d, told %d, size %dx%d, count %d, triggers %d' % READING.unpack_from(answer)
            at = READING.size
            rest = '; ' + columns_text(c, answer[at + 1:])
        elif c.call in OPENINGS:
            numbers = 'refusal %d, told %d, records %d, spacing %d, from %d of %d, size %dx%d, events %d, encoding %d' % OPENING.unpack_from(answer)
            numbers += '; slice: refusal %d, told %d, count %d' % SLICE.unpack_from(answer, OPENING.size)
            at = OPENING.size + SLICE.size
            rest = '; ' + columns_text(c, answer[at + 1:])
        elif c.call in SLICES:
            numbers, at = 'refusal %d, told %d, count %d' % SLICE.unpack_from(answer), SLICE.size
            rest = '; ' + columns_text(c, answer[at + 1:])
        elif c.call == APPEND:
            numbers, at = 'refusal %d, told %d, written %d' % APPENDED.unpack_from(answer), APPENDED.size + SINK.size
            rest = f', writer {SINK.unpack_from(answer, APPENDED.size)}; {columns_text(c, answer[at + 1:])}'
        elif c.call == WRITER:
            numbers, at, rest = f'writer {SINK.unpack_from(answer)}', SINK.size, ''
        elif c.call == NEW_DECODER:
            numbers, at, rest = f'decoder {DECODER.unpack_from(answer)}', DECODER.size, ''
        elif c.call in RESUMES:
            numbers, at, rest = f'refusal {answer[0]}, writer {SINK.unpack_from(answer, 4)}', 4 + SINK.size, ''
        elif c.call == READ_NUMBER:
            texts = [NUMBER.unpack_from(answer, at) for at in range(0, TEXTS * NUMBER.size, NUMBER.size)]
            numbers, at = '; '.join(f'{how}: value %d, place %d, valid %d' % text for how, text in zip(HOW_LENT, texts)), TEXTS * NUMBER.size
            rest = '' if answer[at + 1:] == c.data else f'; the text between marks {answer[at + 1:].hex(" ")}'
        elif c.call == PARSE_HEADER:
            numbers, at, rest = 'refusal %d, encoding %d, body at %d, size %dx%d, sized %d' % HEADER.unpack_from(answer), HEADER.size, ''
        elif c.call == WORD_TRIGGER:
            numbers, at, rest = 'refusal %d, some %d, t %d, id %d, value %d' % TRIGGER.unpack_from(answer), TRIGGER.size, ''
        else:
            numbers = f'refusal {answer[0]}, decoder {DECODER.unpack_from(answer, 4)}'
            at, rest = len(answer) - 1, f'; events {list(EVENT.iter_unpack(answer[4 + DECODER.size:-1]))}'
        return numbers + rest + ('; altered beyond a buffer' if answer[at] else '')
    except (struct.error, IndexError):
        return 'bytes ' + answer.hex()

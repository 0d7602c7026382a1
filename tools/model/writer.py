"""The writer: what an append writes, and its refusals in their order: 10, 12, 4, 6, 7, 11; and the writer that goes on behind what is left."""
from collections import namedtuple

from header import known_header
from refusal import Refused
from words import DECODERS, decoder_after_raw, decoder_after_words, decoder_of

MOST_EVENTS, MOST_COUNT = 2**28, 2**62
BOUND = 2**34   # times are below, in every encoding
TOP = 0xFFF     # the last coarse half of a loop of EVT3

# A writer: whether its header was sent, or isn't due, how many events it wrote, its last time, and the halves and the row that it has sent,
# each None where there is none. The high half is t // 64, in EVT3 t // 4096: its loop and, in the low 12 bits, what a word carries.
Sink = namedtuple('Sink', 'encoding sent count last high low row', defaults=(0, None, None, None, None))


def fresh(encoding, header):
    return Sink(encoding, int(not header))


def in_range(sink):
    """10: an unknown encoding; halves that don't belong to the last time; a low half or row in any encoding but EVT3; a last time or row outside
    7's bounds; a low half, a row, a count other than 0 or a coarse time outside 7's bounds without a last time; a count over 2^62."""
    if sink.encoding not in DECODERS or sink.count > MOST_COUNT or (sink.encoding != 3 and (sink.low, sink.row) != (None, None)):
        return False
    unit = DECODERS[sink.encoding].UNIT
    if sink.last is None:
        return (sink.count, sink.low, sink.row) == (0, None, None) and (sink.high is None or sink.high * unit < BOUND)
    high, low = divmod(sink.last, unit)
    return 0 <= sink.last < BOUND and sink.high in (None, high) and sink.low in (None, low) and (sink.row is None or sink.row <= 2047)


def earliest(sink):
    """The last time, or without one the coarse time that is held: an event below it gets 6. None: there is neither."""
    if sink.last is None and sink.high is not None:
        return sink.high * DECODERS[sink.encoding].UNIT
    return sink.last


def check_lengths(lengths):
    """12, 4."""
    if len(set(lengths)) > 1:
        raise Refused(12)
    if lengths[0] > MOST_EVENTS:
        raise Refused(4)


def check_events(sink, events):
    """6, 7."""
    start = earliest(sink)
    times = ([] if start is None else [start]) + [t for _, _, t, _ in events]
    if any(later < earlier for earlier, later in zip(times, times[1:])):
        raise Refused(6)
    if not all(x <= 2047 and y <= 2047 and p <= 1 and 0 <= t < BOUND for x, y, t, p in events):
        raise Refused(7)


# ---- words: each function gives those of the longest run that the events begin with, how many events it takes, and the writer after it

def run_length(events, end):
    """How many events from the first on have the same t, y and p, and strictly rising x below `end`."""
    n = 1
    while n < len(events) and events[n][1:] == events[0][1:] and events[n - 1][0] < events[n][0] < end:
        n += 1
    return n


def evt2_words(sink, events):
    x, y, t, p = events[0]
    due = [8 << 28 | t // 64] if sink.high != t // 64 else []
    return due + [p << 28 | t % 64 << 22 | x << 11 | y], 1, sink._replace(high=t // 64)


def evt3_halves(held, half):
    """What the type 8 words carry on the way from the half that is held, or from loop 0 if none is, to another: for each loop passed FFF, unless
    that is held, then 000; then the half itself, unless that is held now."""
    carried, loop = [], 0 if held is None else held >> 12
    while loop < half >> 12:
        carried += [0] if held is not None and held & TOP == TOP else [TOP, 0]
        loop += 1
        held = loop << 12
    return carried + [half & TOP] * (held != half)


def evt3_words(sink, events):
    x, y, t, p = events[0]
    due = [8 << 12 | half for half in evt3_halves(sink.high, t // 4096)]
    if due:
        sink = sink._replace(high=t // 4096, low=0)
    if sink.low != t % 4096:
        due.append(6 << 12 | t % 4096)
    if sink.row != y:
        due.append(y)
    n = run_length(events, 2048)
    columns = [event[0] for event in events[:n]]
    vectors = -(-(columns[-1] - x + 1) // 12)
    if n > 2 and 1 + vectors < n:
        masks = [sum(1 << column - base for column in columns if base <= column < base + 12) for base in range(x, x + 12 * vectors, 12)]
        due += [3 << 12 | p << 11 | x] + [4 << 12 | mask for mask in masks]
    else:
        due += [2 << 12 | p << 11 | column for column in columns]
    return due, n, sink._replace(low=t % 4096, row=y)


def evt21_words(sink, events):
    """A run stays inside one block of 32 columns, which starts at a multiple of 32; its word has that column."""
    x, y, t, p = events[0]
    block = x // 32 * 32
    due = [8 << 60 | t // 64 << 32] if sink.high != t // 64 else []
    n = run_length(events, block + 32)
    mask = sum(1 << event[0] - block for event in events[:n])
    return due + [p << 60 | t % 64 << 54 | block << 43 | y << 32 | mask], n, sink._replace(high=t // 64)


WORDS = {2: evt2_words, 3: evt3_words, 21: evt21_words}


def header(encoding, size):
    return f'% format EVT{encoding}\n% geometry {size[0]}x{size[1]}\n% generator eventcv\n% end\n'.encode()


def append(sink, size, columns, room):
    """The bytes and the writer behind them. `columns`: x, y, t, p. No events write nothing, not even the header."""
    if not in_range(sink):
        raise Refused(10)
    check_lengths([len(column) for column in columns])
    events = list(zip(*columns))
    check_events(sink, events)
    if not events:
        return b'', sink
    parts, at, after = [] if sink.sent else [header(sink.encoding, size)], 0, sink
    while at < len(events):
        words, taken, after = WORDS[sink.encoding](after, events[at:at + 2048])    # a run has no more columns
        parts += [word.to_bytes(DECODERS[sink.encoding].SIZE, 'little') for word in words]
        at += taken
    out = b''.join(parts)
    if len(out) > room:
        raise Refused(11, len(out))
    return out, after._replace(sent=1, count=sink.count + len(events), last=events[-1][2])


# ---- the writer that goes on behind what is left of a stream

def resume(fields):
    """By the decoder after it, given by its numbers: 10 for one out of range or with a coarse time past 7's bounds. A started one leaves its coarse time
    held and nothing else, an unstarted one a fresh writer; neither sends a header."""
    decoder = decoder_of(fields)
    if decoder.coarse >= BOUND:
        raise Refused(10)
    return fresh(decoder.NUMBER, False)._replace(high=decoder.coarse // decoder.UNIT if decoder.started else None)


def resume_words(encoding, data, zeros=0):
    """Words without a header: 4, 2 for an unknown encoding, 10."""
    return resume(decoder_after_words(encoding, data, zeros).fields())


def resume_raw(data, zeros=0):
    """A recording, with its header: 4, 3, 2, 10."""
    return resume(decoder_after_raw(data, zeros).fields())


def encoding_left(data, zeros=0):
    """The encoding of the writer that a recording is answered with: EVT2 where the header gets 4, 3 or 2."""
    try:
        return known_header(data, zeros).encoding
    except Refused:
        return 2


def resumed(answered, encoding):
    """The number of the refusal, and the writer; refused, a fresh one of the encoding that sends no header."""
    try:
        return 0, answered()
    except Refused as refused:
        return refused.number, fresh(encoding, False)

"""The index of a recording, and slices of it by number and by time: opening's refusals and a slice's, in their order."""
from collections import namedtuple

from header import check_size, parse_header
from refusal import Refused, check_length
from words import DECODERS, decoder_of, whole_words

MOST_COUNT = 2**33

# `decoder`: the numbers of `words.Decoder.fields`. A source's `width` and `height` are known: the caller's, the header's or the events'.
Source = namedtuple('Source', 'encoding spacing start length width height events')
Record = namedtuple('Record', 'offset events time decoder')


def check_spacing(spacing, encoding):
    """8: no multiple of 4, in EVT2.1 none of 8, or outside 4..4,194,304. The encoding may be none that is known, which comes later (10)."""
    if spacing % (8 if encoding == 21 else 4) or not 4 <= spacing <= 4194304:
        raise Refused(8)


def inside(event, size):
    return size is None or event[0] < size[0] and event[1] < size[1]


def index_body(encoding, data, start, size, spacing, room):
    """8, 9, 1 for no event. Record j stands at body start + j * spacing; there are max(1, body / spacing rounded up)."""
    check_spacing(spacing, encoding)
    body = data[start:]
    need = max(1, -(-len(body) // spacing))
    if need > room:
        raise Refused(9, need)
    decoder, records, kept, latest = DECODERS[encoding](), [], [], 0
    for at in range(0, need * spacing, spacing):
        records.append(Record(start + at, len(kept), latest, decoder.fields()))
        for word in whole_words(body[at:at + spacing], decoder.SIZE):
            here = [event for event in decoder.step(word)[0] if inside(event, size)]
            latest = max([latest] + [t for _, _, t, _ in here])
            kept += here
    if size is None:
        if not kept:
            raise Refused(1)
        size = max(event[0] for event in kept) + 1, max(event[1] for event in kept) + 1
    return Source(encoding, spacing, start, len(data), *size, len(kept)), records


def open_raw(data, size, spacing, room, zeros=0):
    """A recording, with its header: 4, 3, 2, 1 for a zero size, 8, 9, 1 for no event."""
    header = parse_header(data, size, zeros)
    return index_body(header.encoding, data, header.body, header.size, spacing, room)


def open_words(data, encoding, size, spacing, room, zeros=0):
    """Words without a header: 4, 2 for an unknown encoding, 1 for a zero size, 8, 9, 1 for no event."""
    check_length(data, zeros)
    if encoding not in DECODERS:
        raise Refused(2)
    check_size(size)
    return index_body(encoding, data, 0, size, spacing, room)


# ---- slices

def check_records(source, records):
    """10: no record, a wrong offset or encoding, a decoder out of range, counts or times that fall, a negative time, a count over 2^33 or the total."""
    if not records:
        raise Refused(10)
    count, time = 0, 0
    for j, record in enumerate(records):
        decoder = decoder_of(record.decoder)
        placed = decoder.NUMBER == source.encoding and record.offset == source.start + j * source.spacing
        if not placed or not count <= record.events <= min(MOST_COUNT, source.events) or record.time < time:
            raise Refused(10)
        count, time = record.events, record.time


def check_index(data, source, records, zeros):
    """4, 1, 8, 10."""
    check_length(data, zeros)
    check_size((source.width, source.height))
    check_spacing(source.spacing, source.encoding)
    check_records(source, records)


def words_from(data, record):
    """Each word from the record's place on, decoded: the decoder after it and its events. Past the end of the recording there is none."""
    decoder = decoder_of(record.decoder)
    for word in whole_words(data[record.offset:], decoder.SIZE):
        events, _ = decoder.step(word)
        yield decoder, events


def last_or_first(records, fits):
    return next((record for record in reversed(records) if fits(record)), records[0])


def handed(events, rooms):
    if len(events) > min(rooms):
        raise Refused(5, len(events))
    return events


def slice_index(data, source, records, i0, i1, rooms, zeros=0):
    """From the last record whose count is at most the clamped start, or else from the first; numbers go on from its count."""
    check_index(data, source, records, zeros)
    i0 = min(i0, source.events)
    i1 = max(i0, min(i1, source.events))
    record = last_or_first(records, lambda r: r.events <= i0)
    number, found = record.events, []
    for _, events in words_from(data, record):
        for event in events:
            if inside(event, (source.width, source.height)):
                if i0 <= number < i1:
                    found.append(event)
                number += 1
        if number >= i1:
            break
    return handed(found, rooms)


def slice_time(data, source, records, t0, t1, rooms, zeros=0):
    """From the last record whose time is below t0, or else from the first, through the first word with the decoder started and its time >= t1."""
    check_index(data, source, records, zeros)
    record = last_or_first(records, lambda r: r.time < t0)
    found = []
    for decoder, events in words_from(data, record):
        found += [event for event in events if inside(event, (source.width, source.height)) and t0 <= event[2] < t1]
        if decoder.started and decoder.time >= t1:
            break
    return handed(found, rooms)

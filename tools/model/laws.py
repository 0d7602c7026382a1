#!/usr/bin/env python3
"""laws.py [LISTS [SEED]]: holds the model to what the rules say of writing, reading and slices together (docs/RULES.md, D-1 to D-6), without the library.

Random lists of events of each encoding, written by a few appends, with a header and without. Read back: the same events. Cut at every byte (long ones
at some): those whose word is whole. Resumed with the others, by the writer that decoding what is left gives and, where no loop of EVT3 is passed, by a
fresh one: all of them. Slices: what a plain filter gives. A show of an hour in EVT3, cut at every byte around each of its loops and resumed. And a
recording of EVT2 is, word for word, one of EVT 2.1 with masks of one bit. Numbers: what is put together of a sign, zeros and a value has that value, and its
beginnings have no place before their end; what stands before a place begins a number, and with the byte there whatever follows has this place.
Exit status 1 at the first that doesn't hold.
"""
import random
import sys

import header
import index
import making
import reading
import words
import writer
from number import MOST, number_value, read_number
from words import DECODERS, bits, decoder_of, whole_words

ENOUGH = (10**9,)
LOOP, HOUR = making.LOOP, 3600 * 10**6
WIDE = 2048, 2048
NUMBERS = 50    # to a list of events


def accepted(rng):
    events, last = [], 0
    for _ in range(rng.choice([1, 1, 2, 4])):
        events += making.some_events(rng, last)
        last = events[-1][2] if events else 0
    return events


def written(rng, sink, events):
    """In a few appends."""
    out, at = b'', 0
    while at < len(events):
        to = min(len(events), at + rng.randrange(1, len(events) + 1))
        more, sink = writer.append(sink, WIDE, list(zip(*events[at:to])), 10**9)
        out, at = out + more, to
    assert sink.count == len(events)
    return out


def event_count(encoding, body):
    """How many events stand in whole words, by the words' types and bits alone."""
    count, size = 0, DECODERS[encoding].SIZE
    for word in whole_words(body, size):
        kind = word >> 8 * size - 4
        if encoding == 3:
            count += 1 if kind == 2 else bits(word, 11, 0).bit_count() if kind == 4 else 0
        elif kind < 2:
            count += 1 if encoding == 2 else bits(word, 31, 0).bit_count()
    return count


def read(encoding, headed, data):
    """No size given: behind a header it is the header's."""
    r = reading.read_raw(data, None, None, ENOUGH) if headed else reading.decode_words(data, encoding, WIDE, None, ENOUGH)
    assert r.encoding == encoding and (r.width, r.height) == WIDE
    return r.events


def check_slices(rng, encoding, headed, data, events):
    spacing = rng.choice([8, 8, 16, 24, 4096] + [4, 12] * (encoding != 21))
    opened = index.open_raw(data, None, spacing, 10**9) if headed else index.open_words(data, encoding, WIDE, spacing, 10**9)
    times = [0, 2**40] + [t + d for _, _, t, _ in events[:40] for d in (0, 1)]
    for _ in range(4):
        i0, i1 = rng.randrange(len(events) + 2), rng.randrange(len(events) + 2)
        assert index.slice_index(data, *opened, i0, i1, ENOUGH) == events[i0:max(i0, i1)]
        t0, t1 = rng.choice(times), rng.choice(times)
        assert index.slice_time(data, *opened, t0, t1, ENOUGH) == [event for event in events if t0 <= event[2] < t1]


def resumed(encoding, headed, left):
    """The writer by decoding what is left, as each entry gives it."""
    decoder = words.decoder_after_raw(left) if headed else words.decoder_after_words(encoding, left)
    sink = writer.resume(decoder.fields())
    assert sink == (writer.resume_raw(left) if headed else writer.resume_words(encoding, left))
    return sink


def fresh_goes_on(encoding, left, events):
    """Whether a fresh writer may go on as well: of EVT3 where what is left has counted no loop and all events are below 2^24."""
    return encoding != 3 or words.decoder_after_words(3, left).loops == 0 and all(t < LOOP for _, _, t, _ in events)


def check_joined(rng, encoding, headed, data, start, events):
    """Cut, a broken last word left out, and resumed with the events that are missing."""
    cut = rng.randrange(start, len(data) + 1)
    left = data[:cut - (cut - start) % DECODERS[encoding].SIZE]
    missing = events[event_count(encoding, left[start:]):]
    sinks = [resumed(encoding, headed, left)] + [writer.fresh(encoding, False)] * fresh_goes_on(encoding, left[start:], events)
    for sink in sinks:
        joined = left + written(rng, sink, missing)
        assert read(encoding, headed, joined) == events
        check_slices(rng, encoding, headed, joined, events)


def check_list(rng, encoding, headed):
    events = accepted(rng)
    data = written(rng, writer.fresh(encoding, headed), events)
    if not events:
        assert data == b''
        return
    start = header.header_lines(data)[1] if headed else 0
    assert read(encoding, headed, data) == events
    assert event_count(encoding, data[start:]) == len(events)
    for cut in range(start, len(data), 1 if len(data) < 300 else 17):   # every byte would take long
        assert read(encoding, headed, data[:cut]) == events[:event_count(encoding, data[start:cut])]
    check_slices(rng, encoding, headed, data, events)
    for _ in range(3):
        check_joined(rng, encoding, headed, data, start, events)


# ---- a show of an hour in EVT3

def hour(rng):
    """Events around the borders of its 214 loops and between; before a border the half FFF is held or not, and a few loops have none at all."""
    times = [0]
    for loop in range(1, HOUR // LOOP + 1):
        near = [d for d in (-4097, -4096, -1, 0, 1, 4095, 4096, 4097) if rng.randrange(3) == 0]
        times += [loop * LOOP + d for d in near + [rng.randrange(4098, LOOP - 4098)]] if rng.randrange(8) else []
    times = [t for t in times if t < HOUR - 1] + [HOUR - 1]     # the last loop goes past the hour
    return [(rng.randrange(2048), rng.choice([7, rng.randrange(2048)]), t, rng.randrange(2)) for t in times]


def decoders_after(body):
    """The numbers of the decoder after each number of words, and how many events these have."""
    decoder, after, counts = DECODERS[3](), [], [0]
    for word in whole_words(body, 2):
        after.append(decoder.fields())
        counts.append(counts[-1] + len(decoder.step(word)[0]))
    return after + [decoder.fields()], counts


def decoded_from(fields, body):
    decoder = decoder_of(fields)
    return [event for word in whole_words(body, 2) for event in decoder.step(word)[0]]


def cuts_of(rng, body, fields):
    """Every byte from a few words before a loop is passed to a few behind it, so between FFF and 000 too, and random others."""
    loops = [at for at in range(1, len(fields)) if fields[at][2] > fields[at - 1][2]]
    assert len(loops) == HOUR // LOOP
    cuts = {cut for at in loops for cut in range(2 * max(at - 4, 0), min(2 * at + 7, len(body) + 1))}
    return sorted(cuts | {rng.randrange(len(body) + 1) for _ in range(100)})


def check_hour(rng, headed):
    events = hour(rng)
    data = written(rng, writer.fresh(3, headed), events)
    start = header.header_lines(data)[1] if headed else 0
    assert read(3, headed, data) == events
    body = data[start:]
    fields, counts = decoders_after(body)
    cuts, last = cuts_of(rng, body, fields), None
    for number, cut in enumerate(cuts):
        at = cut // 2
        if at != last:      # the byte of a broken last word changes nothing else
            missing = events[counts[at]:]
            more = written(rng, writer.resume(fields[at]), missing) if missing else b''
            assert decoded_from(fields[at], more) == missing
            last = at
        if number % 200 == 0:
            assert read(3, headed, data[:start + cut]) == events[:counts[at]]
            assert read(3, headed, data[:start + 2 * at] + written(rng, resumed(3, headed, data[:start + cut]), missing)) == events
    return len(events), len(cuts)


def check_wide(rng):
    """EVT2 as EVT 2.1."""
    data = making.body_bytes(rng, 2)
    wide = b''.join((1 if data[at + 3] >> 4 < 2 else rng.getrandbits(32)).to_bytes(4, 'little') + data[at:at + 4] for at in range(0, len(data) - 3, 4))
    assert reading.decoded(2, data) == reading.decoded(21, wide)


def check_number(rng):
    value = rng.choice([0, rng.randrange(3000), rng.getrandbits(64), MOST - rng.randrange(20), MOST // 10 ** rng.randrange(20)])
    text = f'{rng.choice(["", "+"])}{"0" * rng.choice([0, 1, rng.randrange(40)])}{value}'.encode()
    assert read_number(text) == (value, None)
    assert all(read_number(text[:k]).place in (None, k) for k in range(len(text)))


def check_place(rng):
    text = making.number_text(rng)
    place = read_number(text).place
    if place is not None:
        assert any(number_value(text[:place] + more) is not None for more in (b'', b'0'))
    if place is not None and place < len(text):
        assert all(read_number(text[:place + 1] + more) == (None, place) for more in (b'', b'0', b'9', b'+', b'x', making.number_text(rng)))


def main():
    count, seed = [int(a) for a in sys.argv[1:]] + [100, 1][len(sys.argv) - 1:]
    shows = [check_hour(random.Random(f'hour {seed} {headed}'), headed) for headed in (False, True)]
    for number in range(count):
        rng = random.Random(f'laws {seed} {number}')
        for encoding in DECODERS:
            for headed in False, True:
                check_list(rng, encoding, headed)
        check_wide(rng)
        for _ in range(NUMBERS):
            check_number(rng)
            check_place(rng)
    print(f'{count} lists of each encoding, with a header and without: read, cut, resumed and sliced as they should be; two shows of an hour with'
          f' {" and ".join(f"{n:,}" for n, _ in shows)} events, resumed behind {" and ".join(f"{n:,}" for _, n in shows)} cuts;'
          f' {count * NUMBERS:,} numbers and as many texts')


if __name__ == '__main__':
    main()

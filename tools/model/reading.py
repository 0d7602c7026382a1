"""Reading into columns, with triggers and without: what is kept of the words, and the refusals of each entry in their order."""
from collections import namedtuple
from functools import lru_cache

from header import check_size, parse_header
from refusal import Refused, check_length
from words import DECODERS, whole_words

# `events` are (x, y, t, p), `triggers` are (t, id, value), in word order.
Reading = namedtuple('Reading', 'encoding width height events triggers')


@lru_cache(maxsize=4)
def decoded(encoding, body):
    """All events and all triggers of a body, each with the number of its word."""
    decoder, events, triggers = DECODERS[encoding](), [], []
    for number, word in enumerate(whole_words(body, decoder.SIZE)):
        here, trigger = decoder.step(word)
        events += [(number, event) for event in here]
        if trigger is not None:
            triggers.append((number, trigger))
    return events, triggers


def kept(encoding, body, size):
    """Events with x >= width or y >= height are dropped. The sensor filters no trigger."""
    events, triggers = decoded(encoding, body)
    if size is not None:
        events = [(number, event) for number, event in events if event[0] < size[0] and event[1] < size[1]]
    return events, triggers


def limited(events, triggers, limit):
    """The first `limit` kept events, and the triggers of words before the one that holds the last of these. With fewer events: all triggers."""
    if limit is None or len(events) < limit:
        return events, triggers
    if limit == 0:
        return [], []
    last = events[limit - 1][0]
    return events[:limit], [(number, trigger) for number, trigger in triggers if number < last]


def read_body(encoding, body, size, limit, rooms, trigger_rooms):
    """1 for no size and no event, 5, 13. `trigger_rooms` None: the caller asks for no triggers. The shortest column counts."""
    events, triggers = limited(*kept(encoding, body, size), limit)
    events, triggers = [event for _, event in events], [trigger for _, trigger in triggers]
    if size is None:
        if not events:
            raise Refused(1)
        size = max(event[0] for event in events) + 1, max(event[1] for event in events) + 1
    if len(events) > min(rooms):
        raise Refused(5, len(events))
    if trigger_rooms is None:
        triggers = []
    elif len(triggers) > min(trigger_rooms):
        raise Refused(13, len(triggers))
    return Reading(encoding, *size, events, triggers)


def read_raw(data, size, limit, rooms, trigger_rooms=None, zeros=0):
    """A recording, with its header: 4, 3, 2, 1 for a zero size, 1 for no event, 5, 13."""
    header = parse_header(data, size, zeros)
    return read_body(header.encoding, data[header.body:], header.size, limit, rooms, trigger_rooms)


def decode_words(data, encoding, size, limit, rooms, trigger_rooms=None, zeros=0):
    """Words without a header: 4, 2 for an unknown encoding, 1 for a zero size, 1 for no event, 5, 13. No byte of theirs is header."""
    check_length(data, zeros)
    if encoding not in DECODERS:
        raise Refused(2)
    check_size(size)
    return read_body(encoding, data, size, limit, rooms, trigger_rooms)

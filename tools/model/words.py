"""Words of each encoding, one at a time: a decoder takes a word and gives its events and its trigger.

An event is (x, y, t, p), a trigger is (t, id, value). An encoding is a class here and an entry of DECODERS, by its number.
"""
from header import known_header
from refusal import Refused, check_length

NO_EVENTS = ()


def bits(word, high, low):
    return word >> low & (1 << high - low + 1) - 1


class Decoder:
    """What all encodings share: the coarse time, which loops, the current time, and the range of a decoder (refusal 10)."""
    row = base = polarity = 0   # only EVT3 sets them

    def __init__(self):
        self.started, self.coarse, self.time, self.loops = 0, 0, 0, 0

    def coarse_time(self, units):
        """A type 8 word: if the former coarse time exceeds the new one by the threshold or more, one loop is added. The first counts none."""
        coarse = units * self.UNIT + self.loops * self.PERIOD
        if self.started and self.coarse - coarse >= self.THRESHOLD:
            self.loops += 1
            coarse += self.PERIOD
        self.started, self.coarse, self.time = 1, coarse, coarse

    def fields(self):
        """The numbers of a decoder, in the order of the C interface."""
        return self.coarse, self.time, self.loops, self.NUMBER, self.row, self.base, self.started, self.polarity

    def in_range(self):
        if not self.started:
            return not any((self.coarse, self.time, self.loops, self.row, self.base, self.polarity))
        within = self.coarse - self.loops * self.PERIOD
        return (0 <= within < self.PERIOD and within % self.UNIT == 0 and 0 <= self.time - self.coarse < self.UNIT
                and self.row <= 2047 and self.loops <= self.MOST_LOOPS)


class Evt2(Decoder):
    NUMBER, SIZE, UNIT, PERIOD, THRESHOLD, MOST_LOOPS = 2, 4, 64, 2**34, 2**34 - 2**30, 2**27
    MOST_EVENTS = 1     # of a word

    def step(self, word):
        kind = bits(word, 31, 28)
        if kind == 8:
            self.coarse_time(bits(word, 27, 0))
        elif not self.started:
            pass    # events and triggers before the first type 8 are dropped
        elif kind in (0, 1):
            self.time = self.coarse + bits(word, 27, 22)
            return [(bits(word, 21, 11), bits(word, 10, 0), self.time, kind)], None
        elif kind == 0xA:
            # its own low bits give its time; the decoder's time is left alone
            return NO_EVENTS, (self.coarse + bits(word, 27, 22), bits(word, 12, 8), bits(word, 0, 0))
        return NO_EVENTS, None


class Evt3(Decoder):
    NUMBER, SIZE, UNIT, PERIOD, THRESHOLD, MOST_LOOPS = 3, 2, 4096, 2**24, 16732160, 2**28
    MOST_EVENTS = 12

    def step(self, word):
        kind = bits(word, 15, 12)
        if kind == 8:
            self.coarse_time(bits(word, 11, 0))
        elif not self.started:
            pass    # before the first type 8, all other words are ignored
        elif kind == 0:
            self.row = bits(word, 10, 0)
        elif kind == 2:
            return [(bits(word, 10, 0), self.row, self.time, bits(word, 11, 11))], None
        elif kind == 3:
            self.base, self.polarity = bits(word, 10, 0), bits(word, 11, 11)
        elif kind == 4:
            return self.vector(bits(word, 11, 0), 12), None
        elif kind == 5:
            return self.vector(bits(word, 7, 0), 8), None
        elif kind == 6:
            self.time = self.coarse + bits(word, 11, 0)
        elif kind == 0xA:
            return NO_EVENTS, (self.time, bits(word, 11, 8), bits(word, 0, 0))
        return NO_EVENTS, None

    def vector(self, mask, width):
        """Bit i gives an event at base + i, at most 65,535, the low bit first. Then base grows by the width, to at most 65,535."""
        columns = [min(self.base + i, 65535) for i in range(width) if mask >> i & 1]
        self.base = min(self.base + width, 65535)
        return [(x, self.row, self.time, self.polarity) for x in columns]


class Evt21(Decoder):
    """EVT 2.1. Time, its loops and its range are EVT2's."""
    NUMBER, SIZE, UNIT, PERIOD, THRESHOLD, MOST_LOOPS = 21, 8, Evt2.UNIT, Evt2.PERIOD, Evt2.THRESHOLD, Evt2.MOST_LOOPS
    MOST_EVENTS = 32

    def step(self, word):
        kind = bits(word, 63, 60)
        if kind == 8:
            self.coarse_time(bits(word, 59, 32))
        elif not self.started:
            pass    # as in EVT2
        elif kind in (0, 1):
            self.time = self.coarse + bits(word, 59, 54)    # an empty mask sets it too
            x, y = bits(word, 53, 43), bits(word, 42, 32)
            return [(x + i, y, self.time, kind) for i in range(32) if bits(word, i, i)], None
        elif kind == 0xA:
            return NO_EVENTS, (self.coarse + bits(word, 59, 54), bits(word, 44, 40), bits(word, 32, 32))
        return NO_EVENTS, None


DECODERS = {2: Evt2, 3: Evt3, 21: Evt21}


def whole_words(data, size):
    """A broken last word is ignored."""
    for at in range(0, len(data) - size + 1, size):
        yield int.from_bytes(data[at:at + size], 'little')


# ---- single words and lists of them, with a decoder that the caller gives by its numbers (as `fields`) or with a fresh one

def decoder_of(fields):
    """10 for a decoder out of range, and for numbers that are no decoder's."""
    coarse, time, loops, encoding, row, base, started, polarity = fields
    if encoding not in DECODERS or started > 1 or polarity > 1 or base > 65535:
        raise Refused(10)
    if encoding != 3 and (row, base, polarity) != (0, 0, 0):
        raise Refused(10)
    decoder = DECODERS[encoding]()
    decoder.started, decoder.coarse, decoder.time, decoder.loops = started, coarse, time, loops
    decoder.row, decoder.base, decoder.polarity = row, base, polarity
    if not decoder.in_range():
        raise Refused(10)
    return decoder


def first_word(fields, data):
    """The decoder after the first word of the bytes, its events and its trigger. Fewer bytes than a word do nothing."""
    decoder = decoder_of(fields)
    for word in whole_words(data[:decoder.SIZE], decoder.SIZE):
        return decoder, *decoder.step(word)
    return decoder, NO_EVENTS, None


def decoder_after(fields, data, zeros=0):
    """The decoder after all whole words: 4, 10."""
    check_length(data, zeros)
    decoder = decoder_of(fields)
    for word in whole_words(data, decoder.SIZE):
        decoder.step(word)
    return decoder


def decoder_after_words(encoding, data, zeros=0):
    """A fresh decoder after all whole words: 4, 2 for an unknown encoding."""
    check_length(data, zeros)
    if encoding not in DECODERS:
        raise Refused(2)
    return decoder_after(DECODERS[encoding]().fields(), data)


def decoder_after_raw(data, zeros=0):
    """A fresh decoder after all whole words of a recording's body: 4, 3, 2."""
    header = known_header(data, zeros)
    return decoder_after_words(header.encoding, data[header.body:])

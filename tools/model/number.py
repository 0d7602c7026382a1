"""Numbers in texts: the value of one, or the place at which a text stops being the beginning of any.

A number is an optional `+` and one or more decimal digits, with a value of at most 2^64 - 1; zeros in front are digits too, as many as one likes.
The place comes straight from its law, and not by reading digit by digit: what stands before it begins some number, with the byte there it begins none; it is
the length where the text begins some number and is none.
"""
import re
from collections import namedtuple

MOST = 2**64 - 1
# Digits alone, behind a `+` or not: the zeros in front, and the others, of which a value up to MOST has no more than MOST has.
DIGITS = re.compile(rb'\+?(0*)((?:[1-9][0-9]{0,%d})?)' % (len(str(MOST)) - 1))

# One of the two is None.
Number = namedtuple('Number', 'value place')


def parts(text):
    """The zeros in front and the other digits; None if there is a byte that can't belong, or too large a value."""
    found = DIGITS.fullmatch(text)
    return found.groups() if found and int(found[2] or b'0') <= MOST else None


def begins_some(text):
    """Whether some number begins so: the text is one, or is with a 0 behind it."""
    return parts(text) is not None


def number_value(text):
    """None for a text that is no number."""
    found = parts(text)
    return int(found[1] or b'0') if found and any(found) else None


def number_place(text):
    """Of a text that is no number."""
    return next((k for k in range(len(text)) if not begins_some(text[:k + 1])), len(text))


def read_number(text):
    value = number_value(text)
    return Number(value, number_place(text) if value is None else None)

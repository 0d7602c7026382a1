"""The cases of numbers in texts of crates/test_vectors, `number HEX`: vectors.py runs this; docs/VECTORS.md says what a case is.

The Rust original tells no place, so the answers are the model's (tools/model). All of them are written here too, by hand, and the model has to give them.
"""
from vectors import Case, expected, model
from cases_number import PAST, TOP

# The places that are named in docs/RULES.md, the bound, zeros in front, signs.
TEXTS = [
    ('', 'place 0'), ('+', 'place 1'), ('12a', 'place 2'), ('++1', 'place 1'), (PAST, 'place 19'), ('0', 'value 0'), ('0' * 64, 'value 0'), ('7', 'value 7'),
    ('1280', 'value 1280'), ('65536', 'value 65536'), ('12x' + '0' * 40, 'place 2'),
    (TOP, f'value {TOP}'), ('18446744073709551614', 'value 18446744073709551614'), ('18446744073709551617', 'place 19'), ('18446744073709551620', 'place 19'),
    ('20000000000000000000', 'place 19'), ('99999999999999999999', 'place 19'), ('9999999999999999999', 'value 9999999999999999999'),
    ('100000000000000000000', 'place 20'), (TOP + '0', 'place 20'), (TOP + 'x', 'place 20'), (PAST + 'x', 'place 19'), (PAST + '9' * 40, 'place 19'),
    ('007', 'value 7'), ('0' * 20, 'value 0'), ('0' * 20 + '1', 'value 1'), ('0' * 30 + TOP, f'value {TOP}'), ('0' * 30 + PAST, 'place 49'),
    ('0' * 30 + TOP + '0', 'place 50'), ('0' * 30 + 'x', 'place 30'),
    ('+0', 'value 0'), ('+7', 'value 7'), ('+007', 'value 7'), (f'+{TOP}', f'value {TOP}'), (f'+{PAST}', 'place 20'), ('+x', 'place 1'), ('+12x', 'place 3'),
    (f'+{TOP}0', 'place 21'), ('+' + '0' * 30 + PAST, 'place 50'), ('++', 'place 1'), ('+-1', 'place 1'), ('-1', 'place 0'), ('1+', 'place 1'),
    ('1+1', 'place 1'),
    (' 12', 'place 0'), ('12 ', 'place 2'), ('1 2', 'place 1'), ('+ 1', 'place 1'), ('1_0', 'place 1'), ('0x10', 'place 1'), ('12x34', 'place 2'),
]
# Bytes beside the digits and others, alone and behind two digits.
BYTES = [0, 9, 10, 32, 42, 43, 44, 45, 47, 48, 57, 58, 65, 120, 127, 128, 178, 255]


def number(text, answer):
    line = f'number {text.encode("latin-1").hex() or "-"}'
    return Case('number', line, [], lambda _: expected(answer, model.answer(line), line))


def bytes_beside():
    for letter in map(chr, BYTES):
        digit = letter in '09'
        yield letter, f'value {letter}' if digit else 'place 1' if letter == '+' else 'place 0'
        yield '12' + letter, f'value 12{letter}' if digit else 'place 2'


def garbled():
    """A byte that can't belong at each of the first places."""
    for at in range(6):
        yield '123456'[:at] + 'a' + '123456'[at + 1:], f'place {at}'


def numbers():
    for text, answer in [*TEXTS, *bytes_beside(), *garbled()]:
        yield number(text, answer)

"""Small cases of numbers in texts, for cases.py. The answers were written by hand from the rules and not by the model: `value N` or `place K`.

A text stands as latin-1. Those of NUMBERS are asked again behind a `+`. What is listed by a rule has its answers by that rule.
"""
import itertools

TOP = '18446744073709551615'    # 2^64 - 1
PAST = '18446744073709551616'

# Without a `+` in front: behind one the value is the same, and the place one later.
NUMBERS = [
    ('', 'place 0'), ('0', 'value 0'), ('1', 'value 1'), ('9', 'value 9'), ('10', 'value 10'), ('1280', 'value 1280'), ('12a', 'place 2'), ('12x', 'place 2'),
    # the bound: the digit that passes it is the twentieth, or the one behind twenty that don't
    (TOP, f'value {TOP}'), ('18446744073709551614', 'value 18446744073709551614'), ('18446744073709551609', 'value 18446744073709551609'),
    (PAST, 'place 19'), ('18446744073709551617', 'place 19'), ('18446744073709551619', 'place 19'), ('18446744073709551620', 'place 19'),
    ('18446744073709551625', 'place 19'), ('18446744073709551700', 'place 19'), ('18446744073709552000', 'place 19'), ('18446744073710000000', 'place 19'),
    ('18446744080000000000', 'place 19'), ('18450000000000000000', 'place 19'), ('19000000000000000000', 'place 19'), ('20000000000000000000', 'place 19'),
    ('99999999999999999999', 'place 19'), ('10000000000000000000', 'value 10000000000000000000'), ('9999999999999999999', 'value 9999999999999999999'),
    ('17999999999999999999', 'value 17999999999999999999'), ('36893488147419103232', 'place 19'), ('55340232221128654847', 'place 19'),
    ('184467440737095516150', 'place 20'), ('184467440737095516149', 'place 20'), ('184467440737095516159', 'place 20'), ('184467440737095516160', 'place 19'),
    ('100000000000000000000', 'place 20'), ('999999999999999999999', 'place 19'), ('340282366920938463463374607431768211455', 'place 19'),
    # past the bound the rest isn't looked at
    (PAST + 'x', 'place 19'), (PAST + '0' * 40, 'place 19'), (TOP + 'x', 'place 20'), (TOP + ' ', 'place 20'), (TOP + '+', 'place 20'),
    ('1844674407370955161x', 'place 19'), ('12345678901234567890x', 'place 20'), ('1234567890x1234567890', 'place 10'),
    # zeros in front
    ('00', 'value 0'), ('000', 'value 0'), ('007', 'value 7'), ('0' * 19, 'value 0'), ('0' * 20, 'value 0'), ('0' * 21, 'value 0'), ('0' * 1000, 'value 0'),
    ('0' * 20 + '1', 'value 1'), ('0' * 300 + '1280', 'value 1280'), ('0' + TOP, f'value {TOP}'), ('0' * 1000 + TOP, f'value {TOP}'),
    ('0' + PAST, 'place 20'), ('0' * 1000 + PAST, 'place 1019'), ('0' * 1000 + TOP + '0', 'place 1020'), ('0' * 1000 + 'x', 'place 1000'),
    ('0' * 1000 + ' ', 'place 1000'), ('0' * 1000 + '+', 'place 1000'), ('00x1', 'place 2'), ('0x10', 'place 1'),
    # bytes that can't belong, blanks among them: a text is trimmed before it is read, or not at all
    ('-1', 'place 0'), ('-', 'place 0'), (' 1', 'place 0'), ('1 ', 'place 1'), ('1 2', 'place 1'), ('\t1', 'place 0'), ('1\n', 'place 1'), ('\n', 'place 0'),
    (' ', 'place 0'), ('1\r', 'place 1'), ('1_000', 'place 1'), ('1,5', 'place 1'), ('1.0', 'place 1'), ('1e3', 'place 1'), ('x', 'place 0'),
    ('1x', 'place 1'), ('1x2x3', 'place 1'), ('/', 'place 0'), (':', 'place 0'), ('1/', 'place 1'), ('1:', 'place 1'), ('\0', 'place 0'), ('1\0', 'place 1'),
    ('1+', 'place 1'), ('1+1', 'place 1'), ('0+', 'place 1'), ('1-1', 'place 1'), ('1 +', 'place 1'), ('\x80', 'place 0'), ('1\xff', 'place 1'),
    ('\xb2', 'place 0'), ('1\xb1', 'place 1'), ('1\xa0', 'place 1'), ('\xd9\xa1', 'place 0'), ('\xef\xbc\x91', 'place 0'),
]
SIGNED = [('++1', 'place 1'), ('++', 'place 1'), ('+++', 'place 1'), ('++' + PAST, 'place 1'), ('+-1', 'place 1'), ('-+1', 'place 0'), ('+ 1', 'place 1'),
          (' +1', 'place 0'), ('+1+', 'place 2'), ('+x', 'place 1'), ('+ ', 'place 1'), ('+\0', 'place 1'), ('+\xff', 'place 1')]

# With bytes 0 behind the text, longer than any recording that is read.
LONG = [('', 2**30 + 1, 'place 0'), ('+', 2**30, 'place 1'), ('12', 2**30, 'place 2'), ('12x', 2**30, 'place 2'), (TOP, 2**30, 'place 20'),
        (PAST, 2**30, 'place 19')]


def behind_plus(answer):
    kind, number = answer.split()
    return f'place {int(number) + 1}' if kind == 'place' else answer


def each_byte():
    """Every byte alone, behind a digit and behind a `+`."""
    for byte in range(256):
        letter = chr(byte)
        digit = letter in '0123456789'
        yield letter, f'value {letter}' if digit else 'place 1' if letter == '+' else 'place 0'
        yield '7' + letter, f'value 7{letter}' if digit else 'place 1'
        yield '+' + letter, f'value {letter}' if digit else 'place 1'


def each_place():
    """A byte that can't belong at each place of digits and of zeros; as many digits and zeros without it."""
    digits = '123456789012345678901234'
    for at in range(24):
        yield digits[:at] + 'x' + digits[at + 1:], f'place {min(at, 20)}'
        yield '0' * at + 'x' + '0' * (23 - at), f'place {at}'
        yield digits[:at], 'place 0' if at == 0 else f'value {digits[:at]}' if at <= 20 else 'place 20'
        yield '0' * at, 'value 0' if at else 'place 0'


def listed():
    """Each text, how many bytes 0 stand behind it, and the answer; no text twice."""
    short = NUMBERS + [('+' + text, behind_plus(answer)) for text, answer in NUMBERS] + SIGNED + [*each_byte(), *each_place()]
    return [(text, 0, answer) for text, answer in dict.fromkeys(short)] + LONG


def short_texts():
    """Every text of up to four bytes of `+`, `-`, `0`, `9`, a blank and `x`; the answers are the model's."""
    return [''.join(letters) for length in range(5) for letters in itertools.product('+-09 x', repeat=length)]

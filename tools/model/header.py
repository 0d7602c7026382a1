"""The header of a recording: its lines, its encoding and its size, and the refusals 4, 3, 2 and 1."""
from collections import namedtuple

from number import number_value
from refusal import Refused, check_length

BLANKS = bytes([9, 10, 11, 12, 13, 32])

# `size` is (width, height), or None where no size is known.
Header = namedtuple('Header', 'encoding body size')


def trimmed(line):
    """Trim the line, drop all leading `%`, trim."""
    return line.strip(BLANKS).lstrip(b'%').strip(BLANKS)


def is_end(line):
    return trimmed(line).lower() == b'end'


def header_lines(data):
    """While the next byte is `%`, a line runs through its newline, or to the end of the file. An end line is the last one: the next byte,
    whatever it is, opens the body. Told with where the body starts."""
    lines, at = [], 0
    while data[at:at + 1] == b'%' and not (lines and is_end(lines[-1])):
        newline = data.find(b'\n', at)
        end = len(data) if newline < 0 else newline + 1
        lines.append(data[at:end])
        at = end
    return lines, at


def has_end_line(data):
    return any(map(is_end, header_lines(data)[0]))


def percent_behind_end(data):
    """The byte behind the header's end line is `%`. The Rust original takes it for one more header line: of such files it is no reference."""
    return has_end_line(data) and data[header_lines(data)[1]:][:1] == b'%'


def key_and_value(line):
    """The key of the trimmed line runs up to the first blank, the value is the trimmed remainder."""
    line = trimmed(line)
    end = next((at for at, byte in enumerate(line) if byte in BLANKS), len(line))
    return line[:end].lower(), line[end:].strip(BLANKS)


def geometry(value, size):
    """The size after a geometry line. It parts at its first `x`, or if it has none at its first `X`; without either it changes nothing."""
    at = value.find(b'x')
    if at < 0:
        at = value.find(b'X')
    if at < 0:
        return size
    width, height = (number_value(half.strip(BLANKS)) for half in (value[:at], value[at + 1:]))
    return None if width is None or height is None else (width, height)


def encoding_of(form, evt):
    """EVT3 if format begins `evt3` or evt begins `3`; else EVT2.1 for `evt21` or `2.1`; else EVT2 for `evt2` or `2`; None if neither names one."""
    for number, of_format, of_evt in (3, b'evt3', b'3'), (21, b'evt21', b'2.1'), (2, b'evt2', b'2'):
        if form.startswith(of_format) or evt.startswith(of_evt):
            return number
    return None


def header_values(lines):
    """The encoding and the size that the lines tell. Of `format` and `evt` the last line wins."""
    form, evt, size = b'', b'', None
    for line in lines:
        key, value = key_and_value(line)
        if key == b'format':
            form = value.lower()
        elif key == b'evt':
            evt = value.lower()
        elif key == b'geometry':
            size = geometry(value, size)
    return encoding_of(form, evt), size


def names_evt21(data):
    """The Rust original takes EVT 2.1 for EVT2: of recordings whose header names it, it is no reference."""
    return header_values(header_lines(data)[0])[0] == 21


def check_size(size):
    if size is not None and 0 in size:
        raise Refused(1)


def known_header(data, zeros=0):
    """4, 3, 2. No size is asked for: the header's is told as it stands, with a zero too."""
    check_length(data, zeros)
    lines, body = header_lines(data)
    if any(byte >= 128 for byte in data[:body]):
        raise Refused(3)
    encoding, size = header_values(lines)
    if encoding is None:
        raise Refused(2)
    return Header(encoding, body, size)


def parse_header(data, given=None, zeros=0):
    """4, 3, 2, 1 for a zero size. `given` is the caller's size, which overrides the header's."""
    header = known_header(data, zeros)
    size = header.size if given is None else given
    check_size(size)
    return header._replace(size=size)

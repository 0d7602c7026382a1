#!/usr/bin/env python3
"""cut.py CHECKOUT OUT: cuts what prophesee_raw.rs needs out of a checkout of EventLAB-Team/eventcv, into the folder OUT.

CHECKOUT is the repository at commit cfbccf43b6, or a folder with these files of it, each with or without `.txt` behind its name:
    crates/eventcv-core/src/lib.rs, io.rs, io/text.rs, io/prophesee_raw.rs
OUT gets prophesee_raw.rs as it is, spaced.rs (the same with CHANGES and our module `probe`), and the items of PARTS.
A file is written only if it differs from what is there, so that nothing is compiled again without need.
"""
import hashlib, sys
from pathlib import Path

SOURCE = 'crates/eventcv-core/src'
# of prophesee_raw.rs up to its tests
SHA256 = '130c81fa048e07bb6eef5d7016233f4cc5881b539274736f3da09301b7f6850b'
TESTS = '\n#[cfg(test)]\nmod '

# A line of ours behind a line of prophesee_raw.rs.
CHANGES = [('fn checkpoint_interval(bytes: u64) -> u64 {', '    if let Some(n) = crate::spacing() { return n; }')]
PROBE = '\n#[path = "../src/probe.rs"]\npub mod probe;\n'

# By file of OUT: the file, the line that an item begins with, and its members that are left out, since they need more of the crate.
PARTS = {
    'stream.rs': [
        ('lib.rs', 'pub struct EventStream {'),
        ('lib.rs', 'pub struct Event {'),
        ('lib.rs', 'impl EventStream {', 'to_array2', 'from_array2'),
        ('lib.rs', 'pub struct EventStreamBuilder {'),
        ('lib.rs', 'impl EventStreamBuilder {'),
    ],
    'reading.rs': [
        ('io.rs', 'pub struct RawEvent {'),
        ('io.rs', 'pub struct LoadOptions {'),
        ('io.rs', 'pub struct EventKeys {'),
        ('io.rs', 'pub trait EventSink: Send {'),
        ('io.rs', 'pub trait EventConsumer {'),
        ('io.rs', 'impl EventConsumer for EventStreamBuilder {'),
        ('io.rs', 'pub trait SliceSource: Send {', 'frames', 'imu', 'camera', 'pixel_counts'),
        ('io.rs', 'pub enum IoError {'),
        ('io.rs', 'impl fmt::Display for IoError {'),
        ('io.rs', 'impl Error for IoError {'),
        ('io.rs', 'impl From<io::Error> for IoError {'),
        ('io/text.rs', 'pub enum TimeUnit {'),
        ('io/text.rs', 'pub enum ColumnOrder {'),
    ],
}


def found(checkout, name):
    """The text of a file of the checkout."""
    for path in (checkout / SOURCE / name, checkout / SOURCE / (name + '.txt')):
        if path.is_file():
            return path.read_bytes().decode('utf-8')
    sys.exit(f'{checkout} has neither {SOURCE}/{name} nor {SOURCE}/{name}.txt')


def differs(name, how):
    sys.exit(f'{SOURCE}/{name} differs from that of commit cfbccf43b6: {how}')


def place(lines, first, name):
    if first not in lines:
        differs(name, f'it has no line `{first.strip()}`')
    return lines.index(first)


def extent(lines, at, indent):
    """From the comments and attributes above line `at` through the closing brace of what begins there."""
    start = at
    while start and lines[start - 1].startswith((indent + '///', indent + '#[')):
        start -= 1
    return start, lines.index(indent + '}', at) + 1


def item(text, name, first, *left_out):
    lines = text.split('\n')
    start, end = extent(lines, place(lines, first, name), '')
    lines = lines[start:end]
    for member in left_out:
        at = next((i for i, line in enumerate(lines) if line.startswith('    ') and f'fn {member}(' in line), None)
        if at is None:
            differs(name, f'`{first}` has no member {member}')
        start, end = extent(lines, at, '    ')
        del lines[start:end]
    return '\n'.join(lines) + '\n'


def module(checkout):
    """prophesee_raw.rs without its tests."""
    text = found(checkout, 'io/prophesee_raw.rs')
    text = text[:text.index(TESTS) + 1] if TESTS in text else text
    told = hashlib.sha256(text.encode()).hexdigest()
    if told != SHA256:
        differs('io/prophesee_raw.rs', f'SHA256 {told}, and not {SHA256}')
    return text


def changed(text):
    lines = text.split('\n')
    for first, more in CHANGES:
        lines.insert(place(lines, first, 'io/prophesee_raw.rs') + 1, more)
    return '\n'.join(lines) + PROBE


def main():
    if len(sys.argv) != 3:
        sys.exit(__doc__)
    checkout, out = Path(sys.argv[1]), Path(sys.argv[2])
    texts = {name: found(checkout, name) for name in ('lib.rs', 'io.rs', 'io/text.rs')}
    raw = module(checkout)
    made = {'prophesee_raw.rs': raw, 'spaced.rs': changed(raw)}
    for name, parts in PARTS.items():
        made[name] = '\n'.join(item(texts[file], file, *rest) for file, *rest in parts)
    out.mkdir(parents=True, exist_ok=True)
    for name, text in made.items():
        if not (out / name).exists() or (out / name).read_bytes() != text.encode():
            (out / name).write_bytes(text.encode())


main()

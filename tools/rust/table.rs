//! The table of refusals of docs/RULES.md, as far as the arguments alone tell it: written from its text, apart from the library.
#![allow(dead_code)]
use crate::archive::{Decoder, Record, Sink, Source, EVT21};

pub const LONGEST: usize = 1 << 30;
pub const MOST_EVENTS: usize = 1 << 28;
/// Rule 7's bound of times, in every encoding.
pub const TIMES: i64 = 1 << 34;
/// EVT3: the times of the first loop, past which a writer sends words that the original doesn't.
pub const FIRST_LOOP: i64 = 1 << 24;

/// Where the header lines end, and whether an end line, which is always the last one, is among them.
fn header_lines(bytes: &[u8]) -> (usize, bool) {
    let (mut at, mut ended) = (0, false);
    while !ended && bytes.get(at) == Some(&b'%') {
        let end = bytes[at..].iter().position(|b| *b == b'\n').map_or(bytes.len(), |n| at + n + 1);
        ended = stripped(&bytes[at..end]).eq_ignore_ascii_case(b"end");
        at = end;
    }
    (at, ended)
}

pub fn header_end(bytes: &[u8]) -> usize {
    header_lines(bytes).0
}

pub fn has_end_line(bytes: &[u8]) -> bool {
    header_lines(bytes).1
}

/// Why the original is no reference for a recording.
#[derive(Clone, Copy, Debug, PartialEq, Eq)]
pub enum Outside {
    /// The byte behind the end line is `%`, which it takes for one more header line.
    Percent,
    /// The header names EVT2.1, which it takes for EVT2.
    Evt21,
}

/// Without an end line no header has a `%` behind it.
pub fn outside(bytes: &[u8]) -> Option<Outside> {
    if bytes.get(header_end(bytes)) == Some(&b'%') {
        Some(Outside::Percent)
    } else {
        (head(bytes).encoding == EVT21).then_some(Outside::Evt21)
    }
}

/// What a header tells; `encoding` 0: none.
#[derive(Clone, Copy, Debug, PartialEq, Eq)]
pub struct Head {
    pub start: usize,
    pub ascii: bool,
    pub encoding: u32,
    pub size: Option<(usize, usize)>,
}

fn blank(b: &u8) -> bool {
    (9..=13).contains(b) || *b == 32
}

fn trimmed(s: &[u8]) -> &[u8] {
    let from = s.iter().position(|b| !blank(b)).unwrap_or(s.len());
    let to = s.iter().rposition(|b| !blank(b)).map_or(from, |n| n + 1);
    &s[from..to]
}

fn number(s: &[u8]) -> Option<usize> {
    let digits = s.strip_prefix(b"+").unwrap_or(s);
    if digits.is_empty() {
        return None;
    }
    digits.iter().try_fold(0usize, |n, d| if d.is_ascii_digit() { n.checked_mul(10)?.checked_add((d - b'0') as usize) } else { None })
}

/// The value of a text, or its place: that of the byte with which it no longer begins a number, or its length.
pub fn number_place(text: &[u8]) -> Result<usize, usize> {
    let sign = text.starts_with(b"+") as usize;
    match (sign + 1..=text.len()).find(|k| number(&text[..*k]).is_none()) {
        Some(k) => Err(k - 1),
        None => number(text).ok_or(text.len()),
    }
}

/// The size after a `geometry` line with this value.
fn geometry(value: &[u8], before: Option<(usize, usize)>) -> Option<(usize, usize)> {
    let Some(at) = value.iter().position(|b| *b == b'x').or(value.iter().position(|b| *b == b'X')) else {
        return before;
    };
    Some((number(trimmed(&value[..at]))?, number(trimmed(&value[at + 1..]))?))
}

/// A header line without its blanks and leading `%`s.
fn stripped(line: &[u8]) -> &[u8] {
    let line = trimmed(line);
    trimmed(&line[line.iter().position(|b| *b != b'%').unwrap_or(line.len())..])
}

/// Key and value of a header line, in small letters.
fn key_value(line: &[u8]) -> (Vec<u8>, Vec<u8>) {
    let body = stripped(line);
    let at = body.iter().position(blank).unwrap_or(body.len());
    (body[..at].to_ascii_lowercase(), trimmed(&body[at..]).to_vec())
}

pub fn head(bytes: &[u8]) -> Head {
    let start = header_end(bytes);
    let (mut format, mut evt, mut size) = (Vec::new(), Vec::new(), None);
    for line in bytes[..start].split(|b| *b == b'\n') {
        let (key, value) = key_value(line);
        match &key[..] {
            b"format" => format = value.to_ascii_lowercase(),
            b"evt" => evt = value,
            b"geometry" => size = geometry(&value, size),
            _ => {}
        }
    }
    let says = |name: &[u8], number: &[u8]| format.starts_with(name) || evt.starts_with(number);
    let encoding = if says(b"evt3", b"3") {
        3
    } else if says(b"evt21", b"2.1") {
        EVT21
    } else if says(b"evt2", b"2") {
        2
    } else {
        0
    };
    Head { start, ascii: bytes[..start].is_ascii(), encoding, size }
}

fn is_zero(size: Option<(usize, usize)>) -> bool {
    size.is_some_and(|(w, h)| w == 0 || h == 0)
}

/// 4, 3, 2 and 1 for a zero size, the first that applies; 0 for none.
pub fn header_refusal(bytes: &[u8], given: Option<(usize, usize)>) -> u32 {
    if bytes.len() > LONGEST {
        return 4;
    }
    let head = head(bytes);
    match head {
        Head { ascii: false, .. } => 3,
        Head { encoding: 0, .. } => 2,
        _ if is_zero(given.or(head.size)) => 1,
        _ => 0,
    }
}

pub fn is_known(encoding: u32) -> bool {
    matches!(encoding, 2 | 3 | EVT21)
}

/// The same without a header: 4, 2, 1.
pub fn words_refusal(bytes: &[u8], encoding: u32, given: Option<(usize, usize)>) -> u32 {
    if bytes.len() > LONGEST {
        4
    } else if !is_known(encoding) {
        2
    } else if is_zero(given) {
        1
    } else {
        0
    }
}

/// Rule 8; an encoding that isn't known comes later.
pub fn spacing_ok(spacing: usize, encoding: u32) -> bool {
    let unit = if encoding == EVT21 { 8 } else { 4 };
    spacing % unit == 0 && (4..=4194304).contains(&spacing)
}

pub fn records_needed(body: usize, spacing: usize) -> usize {
    body.div_ceil(spacing).max(1)
}

/// Rule 10 for a decoder, given as a record has it, but for the bound of its loops. EVT2.1 has EVT2's ranges.
fn decoder_fits(encoding: u32, [started, coarse, time, loops, row, base, polarity]: [u64; 7]) -> bool {
    let evt3 = encoding == 3;
    let place = if evt3 { row <= 2047 && base <= 65535 && polarity <= 1 } else { (row, base, polarity) == (0, 0, 0) };
    if !is_known(encoding) || started > 1 || !place {
        return false;
    }
    if started == 0 {
        return (coarse, time, loops, row, base, polarity) == (0, 0, 0, 0, 0, 0);
    }
    let (step, period) = if evt3 { (4096, 1 << 24) } else { (64, 1 << 34) };
    let [coarse, time, loops] = [coarse, time, loops].map(u128::from);
    let Some(rest) = coarse.checked_sub(loops * period) else { return false };
    rest < period && rest % step == 0 && (coarse..coarse + step).contains(&time)
}

fn loops_fit(encoding: u32, loops: u64) -> bool {
    loops <= if encoding == 3 { 1 << 28 } else { 1 << 27 }
}

/// A decoder as a record has it.
pub fn numbers(d: &Decoder) -> [u64; 7] {
    [d.initialised.into(), d.time_base, d.time, d.high_loops, d.y.into(), d.base_x.into(), d.polarity.into()]
}

/// Rule 10 for a decoder.
pub fn decoder_ok(d: &Decoder) -> bool {
    loops_fit(d.encoding, d.high_loops) && decoder_fits(d.encoding, numbers(d))
}

/// What words may make of a decoder in range: its loops may have gone past their bound.
pub fn decoder_made(d: &Decoder) -> bool {
    decoder_fits(d.encoding, numbers(d))
}

/// The state of a record's decoder.
pub fn state(r: &Record) -> [u64; 7] {
    [r[3], r[4], r[5], r[6], r[7], r[8], r[9]]
}

/// Rule 10 for an index: as many records as it tells, one at least, each in its place and in range.
pub fn index_ok(source: &Source, records: &[Record]) -> bool {
    let (mut count, mut time) = (0, 0);
    for (j, r) in records.iter().take(source.records).enumerate() {
        let place = source.data_offset as u128 + j as u128 * source.spacing as u128;
        let numbers = r[1] >= count && r[1] <= 1 << 33 && r[1] <= source.n_events as u64 && r[2] >= time && r[2] < 1 << 63;
        if r[0] as u128 != place || !numbers || !loops_fit(source.encoding, r[6]) || !decoder_fits(source.encoding, state(r)) {
            return false;
        }
        (count, time) = (r[1], r[2]);
    }
    is_known(source.encoding) && (1..=records.len()).contains(&source.records)
}

/// 4, 1, 8 and 10 of a slice, the first that applies; 0 for none.
pub fn slice_refusal(lent: usize, source: &Source, records: &[Record]) -> u32 {
    if lent > LONGEST {
        4
    } else if source.width == 0 || source.height == 0 {
        1
    } else if !spacing_ok(source.spacing, source.encoding) {
        8
    } else if !index_ok(source, records) {
        10
    } else {
        0
    }
}

/// The unit of a writer's high half.
pub fn grain(encoding: u32) -> u64 {
    if encoding == 3 {
        4096
    } else {
        64
    }
}

/// A flag, and a number that is 0 where the flag is.
fn flagged(has: u8, number: u64) -> bool {
    has == 1 || (has == 0 && number == 0)
}

/// A writer's numbers, whatever their range: known encoding, flags of 0 or 1, 0 where a flag is 0.
fn is_sink(s: &Sink) -> bool {
    let halves = flagged(s.has_time_high, s.time_high) && flagged(s.has_time_low, s.time_low) && flagged(s.has_y, s.y);
    is_known(s.encoding) && s.header_written <= 1 && flagged(s.has_last_t, s.last_t as u64) && halves
}

/// Rule 10 for a writer.
pub fn sink_ok(s: &Sink) -> bool {
    let evt3 = s.encoding == 3;
    let (high, low, row) = (s.has_time_high == 1, s.has_time_low == 1, s.has_y == 1);
    if !is_sink(s) || s.n_events > 1 << 62 || (!evt3 && (low || row)) {
        return false;
    }
    let step = grain(s.encoding);
    if s.has_last_t == 0 {
        return s.n_events == 0 && (s.time_high as u128 * step as u128) < TIMES as u128 && !low && !row;
    }
    if !(0..TIMES).contains(&s.last_t) {
        return false;
    }
    let t = s.last_t as u64;
    (!high || s.time_high == t / step) && (!low || s.time_low == t % step) && (!row || s.y <= 2047)
}

/// What no time may be below: the last time, or else the coarse time that is held.
pub fn not_before(s: &Sink) -> Option<i64> {
    if s.has_last_t != 0 {
        Some(s.last_t)
    } else {
        (s.has_time_high != 0).then(|| s.time_high.saturating_mul(grain(s.encoding)).min(i64::MAX as u64) as i64)
    }
}

/// Whether a time is below the one before it.
pub fn falls(before: Option<i64>, ts: &[i64]) -> bool {
    ts.first().is_some_and(|t| before.is_some_and(|b| *t < b)) || ts.windows(2).any(|t| t[1] < t[0])
}

/// Whether an append lies past the first loop of EVT3, or its writer does: its words have no reference in the original.
pub fn past_first_loop(s: &Sink, ts: &[i64]) -> bool {
    s.encoding == 3 && (s.time_high > 4095 || ts.iter().any(|t| *t >= FIRST_LOOP))
}

/// The writer that resumes behind a decoder, and 10 or 0.
pub fn resumed(d: &Decoder) -> (Sink, u32) {
    let fresh = Sink { encoding: d.encoding, header_written: 1, ..Sink::default() };
    if !decoder_ok(d) || d.time_base >= TIMES as u64 {
        return (fresh, 10);
    }
    (Sink { has_time_high: d.initialised, time_high: d.time_base / grain(d.encoding), ..fresh }, 0)
}

/// 10, 12, 4, 6 and 7 of an append, the first that applies; 0 for none.
pub fn append_refusal(s: &Sink, xs: &[u16], ys: &[u16], ts: &[i64], ps: &[u8]) -> u32 {
    if !sink_ok(s) {
        10
    } else if ys.len() != xs.len() || ts.len() != xs.len() || ps.len() != xs.len() {
        12
    } else if xs.len() > MOST_EVENTS {
        4
    } else if falls(not_before(s), ts) {
        6
    } else {
        let times = ts.iter().all(|t| (0..TIMES).contains(t));
        let places = xs.iter().chain(ys).all(|n| *n <= 2047) && ps.iter().all(|p| *p <= 1);
        if times && places {
            0
        } else {
            7
        }
    }
}

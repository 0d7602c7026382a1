//! Random recordings: headers, words of the three encodings, events for the writer, and damage.
#![allow(dead_code)]
use crate::archive::{self, most_bytes, word_size, Columns, EVT21};
use crate::lent::Rng;
use crate::table;

/// The encodings that the original knows.
pub const COMPARED: [u32; 2] = [2, 3];
pub const KNOWN: [u32; 3] = [2, 3, EVT21];

/// How many words: mostly few, seldom up to 1 MiB of them.
pub fn length(rng: &mut Rng, encoding: u32) -> usize {
    match rng.below(1000) {
        0..=349 => rng.below(17),
        350..=799 => rng.below(201),
        800..=974 => rng.below(3001),
        975..=996 => rng.below(20001),
        _ => rng.below((1 << 20) / word_size(encoding) + 1),
    }
}

fn blanks(rng: &mut Rng) -> &'static str {
    rng.pick(&[" ", " ", " ", "  ", "\t", "\x0b", "\x0c", "\r", " \t ", "", "\x1c", "_"])
}

const FORMATS: [&str; 18] = [
    "EVT3",
    "EVT2",
    "evt3",
    "evt2",
    "Evt3;height=720;width=1280",
    "EVT21",
    "EVT2.1",
    "evt210",
    "EVT 21",
    "EVT",
    "evt4",
    "",
    "3",
    "2",
    "EVT 3",
    "evt3evt2",
    "%evt3",
    "xevt3",
];
const VERSIONS: [&str; 18] =
    ["3", "2", "3.0", "2.0", "2.1", "2.10", "21", "2,1", "2.", "30", "23", "4", "", "+3", "evt3", "03", " 3", "3 2"];
/// Lines that name an encoding.
const NAMES: [(u32, &str); 9] = [
    (3, "% format EVT3\n"),
    (2, "% format EVT2\n"),
    (3, "% evt 3.0\n"),
    (2, "% evt 2.0\n"),
    (3, "%evt 3\n"),
    (2, "% FORMAT evt2\r\n"),
    (EVT21, "% format EVT21\n"),
    (EVT21, "% evt 2.1\n"),
    (EVT21, "% FORMAT evt21\r\n"),
];
const NUMBERS: [&str; 26] = [
    "64",
    "48",
    "1280",
    "720",
    "640",
    "480",
    "2048",
    "65536",
    "1",
    "2",
    "10",
    "0",
    "00",
    "+7",
    "+0",
    "+",
    "-1",
    "",
    "++1",
    "0012",
    "18446744073709551615",
    "18446744073709551616",
    "99999999999999999999",
    "1 2",
    "12a",
    "0x10",
];

fn geometry(rng: &mut Rng) -> String {
    let n = if rng.chance(70) { 11 } else { NUMBERS.len() };
    let between = rng.pick(&["x", "x", "x", "X", " x ", " X", "x\t", "", "xx", "Xx", "*"]);
    let mut s = format!("{}{}{}", rng.pick(&NUMBERS[..n]), between, rng.pick(&NUMBERS[..n]));
    if rng.chance(5) {
        s.push_str(rng.pick(&["x3", "X3", " 5", "x"]));
    }
    s
}

fn key(rng: &mut Rng, key: &str) -> String {
    match rng.below(12) {
        0 => key.to_ascii_uppercase(),
        1 => key.chars().map(|c| if rng.chance(50) { c.to_ascii_uppercase() } else { c }).collect(),
        2 => format!("{key}s"),
        3 => key[1..].to_owned(),
        _ => key.to_owned(),
    }
}

fn header_line(rng: &mut Rng) -> Vec<u8> {
    let (name, value) = match rng.below(30) {
        0..=8 => ("format", rng.pick(&FORMATS).to_owned()),
        9..=14 => ("evt", rng.pick(&VERSIONS).to_owned()),
        15..=23 => ("geometry", geometry(rng)),
        24 => ("end", String::new()),
        _ => (rng.pick(&["generator", "date", "system_ID", "formatevt", "ge ometry"]), "eventcv 3x4".to_owned()),
    };
    let signs = rng.pick(&["%", "%", "%", "%", "%%", "%%%", "% %", "%\t"]);
    let tail = rng.pick(&["", "", "", "\r", " ", "\t \x0c"]);
    format!("{signs}{}{}{}{value}{tail}\n", blanks(rng), key(rng, name), blanks(rng)).into_bytes()
}

const END_LINES: [&str; 9] =
    ["% end\n", "% end\n", "% end\n", "%end\n", "%%  END \r\n", "% End\r\n", "%\tend \x0b\x0c\n", "%%%\x0beNd\n", "% end"];
const NEAR_ENDS: [&str; 12] = [
    "% end x\n",
    "% ending\n",
    "% %end\n",
    "%endx\n",
    "% e nd\n",
    "% end%\n",
    "% en\n",
    "%\x1cend\n",
    "% end\0\n",
    "end\n",
    " % end\n",
    "\n% end\n",
];
const BEHIND_END: [&[u8]; 12] = [
    b"% geometry 5x7\n",
    b"% format EVT2\n",
    b"% format EVT3\n",
    b"% end\n",
    b"%",
    b"%\n",
    b"%\x80\n",
    b"\x80",
    b"\xff\n",
    b"\n",
    b"x\n",
    b" % end\n",
];

/// An end line, or what nearly is one, and at times lines behind it.
fn end_part(rng: &mut Rng) -> Vec<u8> {
    let mut bytes = Vec::new();
    if rng.chance(25) {
        bytes.extend(rng.pick(&NEAR_ENDS).bytes());
    }
    if rng.chance(80) {
        bytes.extend(rng.pick(&END_LINES).bytes());
    }
    if rng.chance(20) {
        (0..1 + rng.below(2)).for_each(|_| bytes.extend(rng.pick(&BEHIND_END)));
    }
    bytes
}

/// Header lines, most of them with one of these encodings.
pub fn header(rng: &mut Rng, of: &[u32]) -> Vec<u8> {
    let mut lines: Vec<Vec<u8>> = (0..rng.below(5)).map(|_| header_line(rng)).collect();
    if rng.chance(90) {
        let names: Vec<&str> = NAMES.iter().filter(|n| of.contains(&n.0)).map(|n| n.1).collect();
        let line = rng.pick(&names);
        lines.insert(rng.below(lines.len() + 1), line.as_bytes().to_vec());
    }
    if rng.chance(1) {
        lines.push(format!("% long {}\n", "y ".repeat(rng.below(9000))).into_bytes());
    }
    let mut bytes = lines.concat();
    if rng.chance(8) {
        damage(rng, &mut bytes);
    }
    if rng.chance(90) {
        bytes.iter_mut().for_each(|b| *b &= 127);
    } else if rng.chance(40) && !bytes.is_empty() {
        let at = rng.below(bytes.len());
        bytes[at] = rng.pick(&[128, 133, 160, 194, 226, 255]);
    }
    bytes
}

/// Alters bytes here and there, drops some, repeats some, or cuts the end off.
pub fn damage(rng: &mut Rng, bytes: &mut Vec<u8>) {
    for _ in 0..1 + rng.below(3) {
        let n = bytes.len();
        let at = rng.below(n);
        let to = (at + 1 + rng.below(9)).min(n);
        match rng.below(7) {
            0 | 1 if n > 0 => bytes[at] ^= 1 << rng.below(8),
            2 if n > 0 => bytes[at] = rng.next() as u8,
            3 => drop(bytes.drain(at.min(to)..to)),
            4 => bytes.truncate(rng.below(n + 1)),
            5 => {
                let part = bytes[at.min(to)..to].to_vec();
                bytes.splice(at.min(n)..at.min(n), part);
            }
            6 => bytes.insert(at, rng.next() as u8),
            _ => {}
        }
    }
}

fn field(rng: &mut Rng, most: usize) -> usize {
    match rng.below(8) {
        0 => 0,
        1 => most,
        2 => most - 1,
        3 => 1,
        4 => most / 2 + rng.below(2),
        5 | 6 => rng.below(64),
        _ => rng.below(most + 1),
    }
}

/// The next coarse time, of `bits` bits: mostly a little later, at times back or around a loop's threshold.
fn coarse(rng: &mut Rng, former: usize, bits: u32) -> usize {
    let (all, threshold) = if bits == 12 { (1 << 12, 4085) } else { (1 << 28, (1 << 28) - (1 << 24)) };
    let next = match rng.below(16) {
        0..=5 => former + 1,
        6..=8 => former,
        9 => former + rng.below(20),
        10 => former + all - rng.below(5),
        11 => former + all - (threshold + rng.below(3) - 1),
        12 => all - 1 - rng.below(3),
        13 => rng.below(12),
        14 => rng.below(all),
        _ => former + all / 8,
    };
    next % all
}

fn vector_mask(rng: &mut Rng) -> usize {
    match rng.below(6) {
        0 => 0,
        1 => 0xfff,
        2 => 1 << rng.below(12),
        3 => rng.next() as usize & rng.next() as usize & 0xfff,
        _ => rng.next() as usize & 0xfff,
    }
}

fn words3(rng: &mut Rng, n: usize) -> Vec<u8> {
    let mut time = if rng.chance(50) { rng.below(4096) } else { 4080 + rng.below(16) };
    let (vectors, bases) = (rng.pick(&[5, 30, 90, 99]), rng.pick(&[0, 1, 20, 50]));
    let mut bytes = Vec::with_capacity(2 * n);
    for i in 0..n {
        let kind = if i == 0 && rng.chance(80) {
            8
        } else if rng.chance(vectors) {
            if rng.chance(bases) {
                3
            } else {
                rng.pick(&[4, 4, 5])
            }
        } else {
            rng.pick(&[0, 0, 2, 2, 2, 2, 6, 6, 6, 8, 8, 1, 7, 10, 14, 15])
        };
        let low = match kind {
            8 => {
                time = coarse(rng, time, 12);
                time
            }
            4 | 5 => vector_mask(rng),
            _ => field(rng, 2047) | rng.pick(&[0, 0x800]),
        };
        bytes.extend((((kind << 12) | low) as u16).to_le_bytes());
    }
    bytes
}

fn words2(rng: &mut Rng, n: usize) -> Vec<u8> {
    let mut time = if rng.chance(50) { rng.below(1 << 28) } else { (1 << 28) - 1 - rng.below(16) };
    let mut bytes = Vec::with_capacity(4 * n);
    for i in 0..n {
        let kind = if i == 0 && rng.chance(80) { 8 } else { rng.pick(&[0, 0, 0, 1, 1, 1, 8, 8, 2, 10, 14, 15]) };
        let low = if kind == 8 {
            time = coarse(rng, time, 28);
            time
        } else {
            (field(rng, 63) << 22) | (field(rng, 2047) << 11) | field(rng, 2047)
        };
        bytes.extend((((kind << 28) | low) as u32).to_le_bytes());
    }
    bytes
}

/// EVT2's words, each the high half of one, and masks.
fn words21(rng: &mut Rng, n: usize) -> Vec<u8> {
    let high = words2(rng, n);
    let mask = |rng: &mut Rng| match rng.below(6) {
        0 => 0,
        1 => u32::MAX,
        2 | 3 => 1 << rng.below(32),
        4 => (rng.next() & rng.next() & rng.next()) as u32,
        _ => rng.next() as u32,
    };
    high.chunks_exact(4).flat_map(|h| [mask(rng).to_le_bytes(), [h[0], h[1], h[2], h[3]]].concat()).collect()
}

/// What times are below: in EVT3 mostly the first loop, to which the original's writer keeps.
pub fn time_bound(rng: &mut Rng, encoding: u32) -> i64 {
    if encoding == 3 && rng.chance(85) {
        table::FIRST_LOOP
    } else {
        table::TIMES
    }
}

/// n events that a writer takes after time `from`: runs along a row, gaps, times that stand or go on.
pub fn events(rng: &mut Rng, encoding: u32, from: i64, n: usize) -> Columns {
    let mut c = Columns::default();
    let bound = if from < table::FIRST_LOOP { time_bound(rng, encoding) } else { table::TIMES };
    let far = if encoding == 3 && bound == table::TIMES { table::FIRST_LOOP } else { bound / 16 };
    let mut t = from.clamp(0, bound - 1);
    let (mut y, busy) = (rng.below(2048), rng.pick(&[2, 20, 60]));
    while c.xs.len() < n {
        if rng.chance(busy) {
            let later = rng.pick(&[1, 2, 5, 63, 64, 65, 1000, 4095, 4096, 4097, 100_000, far, bound / 16]);
            t = (t + later).min(bound - 1);
        }
        if rng.chance(busy) {
            y = field(rng, 2047);
        }
        let p = rng.below(2) as u8;
        let gap = rng.pick(&[1, 1, 2, 4, 12, 13, 30]);
        let mut x = field(rng, 2047);
        let most = rng.pick(&[1, 4, 40]);
        for _ in 0..1 + rng.below(most) {
            if c.xs.len() == n || x > 2047 {
                break;
            }
            c.xs.push(x as u16);
            c.ys.push(y as u16);
            c.ts.push(t);
            c.ps.push(p);
            x += 1 + rng.below(gap);
        }
    }
    c
}

/// About n words that the library's writer made.
fn written(rng: &mut Rng, encoding: u32, n: usize) -> Vec<u8> {
    let bound = time_bound(rng, encoding);
    let from = if rng.chance(50) { 0 } else { rng.below(bound as usize) as i64 };
    let c = events(rng, encoding, from, n);
    let mut bytes = vec![0; most_bytes(encoding, c.xs.len())];
    let a = archive::append(archive::writer(encoding, 0), 0, 0, &c, &mut bytes);
    bytes.truncate(a.written);
    bytes
}

/// An encoding's number, mostly a known one.
pub fn encoding(rng: &mut Rng) -> u32 {
    if rng.chance(90) {
        rng.pick(&KNOWN)
    } else {
        let wild = rng.wild() as u32;
        rng.pick(&[0, 1, 4, 5, 7, 20, 22, 30, 258, 65538, u32::MAX, wild])
    }
}

/// The same without EVT2.1, of which the original is no reference.
pub fn compared_encoding(rng: &mut Rng) -> u32 {
    match encoding(rng) {
        EVT21 => rng.pick(&COMPARED),
        n => n,
    }
}

/// Words of one of the encodings.
pub fn words(rng: &mut Rng, encoding: u32) -> Vec<u8> {
    let n = length(rng, encoding);
    let mut bytes = match rng.below(10) {
        0 => (0..n * word_size(encoding)).map(|_| rng.next() as u8).collect(),
        1..=3 => written(rng, encoding, n / 2),
        _ => match encoding {
            3 => words3(rng, n),
            EVT21 => words21(rng, n),
            _ => words2(rng, n),
        },
    };
    if rng.chance(25) {
        damage(rng, &mut bytes);
    }
    if rng.chance(3) && !bytes.is_empty() {
        bytes[0] = b'%';
    }
    bytes
}

/// A recording of one of these encodings that can be opened, most likely.
pub fn good_recording(rng: &mut Rng, of: &[u32]) -> Vec<u8> {
    let encoding = rng.pick(of);
    let size = rng.pick(&["", "", "% geometry 64x48\n", "% geometry 1280x720\n", "% geometry 2048x2048\n"]);
    let name = match encoding {
        3 => "format EVT3",
        EVT21 => "format EVT21",
        _ => "evt 2.0",
    };
    let mut bytes = format!("% {name}\n{size}% end\n").into_bytes();
    bytes.extend(words(rng, encoding));
    bytes
}

/// A recording with its header, which names one of these encodings, most likely.
pub fn recording(rng: &mut Rng, of: &[u32]) -> Vec<u8> {
    let mut bytes = header(rng, of);
    let named = table::head(&bytes).encoding;
    let encoding = if rng.chance(90) && table::is_known(named) { named } else { rng.pick(of) };
    let mut body = words(rng, encoding);
    if rng.chance(50) {
        bytes.extend(end_part(rng));
        if !body.is_empty() && rng.chance(15) {
            body[0] = b'%';
        }
    }
    bytes.extend(body);
    bytes
}

/// A size that may be unknown.
pub fn size(rng: &mut Rng) -> Option<(usize, usize)> {
    match rng.below(20) {
        0..=9 => None,
        10 => Some((0, 5)),
        11 => Some((5, 0)),
        12 => Some((usize::MAX, usize::MAX)),
        13 => Some((65536, 65536)),
        14 => Some((2048, 2048)),
        15 => Some((1 + rng.below(2048), 1 + rng.below(2048))),
        16 => Some((1 + rng.below(70), 1 + rng.below(70))),
        17 => Some((1280, 720)),
        18 => Some((65535, 1 + rng.below(2048))),
        _ => Some((rng.wild() as usize, rng.wild() as usize)),
    }
}

/// A limit that may be absent, for a recording of n bytes.
pub fn limit(rng: &mut Rng, n: usize) -> Option<usize> {
    match rng.below(20) {
        0..=9 => None,
        10 => Some(0),
        11 => Some(1),
        12 => Some(usize::MAX),
        13 => Some(rng.wild() as usize),
        14 => Some(rng.below(10)),
        _ => Some(rng.below(n / 2 + 1)),
    }
}

/// A spacing, mostly one that is allowed; for n bytes it seldom gives over 5,000 records.
pub fn spacing(rng: &mut Rng, n: usize) -> usize {
    if rng.chance(5) {
        let wild = rng.wild() as usize;
        return rng.pick(&[0, 1, 2, 3, 5, 6, 7, 4194305, 4194306, 4194308, usize::MAX, usize::MAX - 3, wild]);
    }
    let s = match rng.below(8) {
        0 | 1 => 4 * (1 + rng.below(4)),
        2 | 3 => 4 * (1 + rng.below(40)),
        4 => 4 * (1 + rng.below(n / 4 + 1)).min(1048576),
        5 => rng.pick(&[64, 1024, 65536, 65536, 65536, 4194304]),
        6 => 4 * (1 + rng.below(1000)),
        _ => 4 * (1 + rng.below(1048576)),
    };
    if n / s > 5000 && rng.chance(99) {
        (n / 5000 + 1) * 4
    } else {
        s
    }
}

//! What the kinds of cases share: the regions that are lent, lengths of columns, counts, and comparing events.
use crate::archive::Lent;
use crate::lent::{columns_untouched, Board, Region, Rng};
use crate::original::Original;
use crate::table::Outside;
use eventcv::EventStream;

/// Calls of one kind and their answers.
#[derive(Clone, Default)]
pub struct Count {
    pub cases: u64,
    pub calls: u64,
    /// By number; 0: accepted.
    pub answers: [u64; 13],
    /// Events, records or bytes handed over, and acceptances that handed over any.
    pub items: u64,
    pub filled: u64,
    /// Calls whose reference is docs/RULES.md over the original's decoder.
    pub ruled: u64,
    /// Cases that came to no call, since the recording they start from was refused.
    pub without: u64,
    /// Cases that came to no call, since the original is no reference: the byte behind the header's end line is `%`.
    pub percent: u64,
    /// The others for which it is none: the header names EVT2.1.
    pub evt21: u64,
    /// Appends whose words have no reference in the original: past EVT3's first loop. No call is counted for them.
    pub looped: u64,
    /// Cases of a recording with an end line that were compared.
    pub ended: u64,
}

pub const KINDS: [&str; 15] = [
    "read_raw",
    "decode_words",
    "open",
    "open_words",
    "slice_index",
    "slice_time",
    "slice_index, other recording",
    "slice_time, other recording",
    "slice_index, altered index",
    "slice_time, altered index",
    "append, fresh writer",
    "append, any writer",
    "parse_header",
    "decoder_after",
    "decode and next_event",
];
pub const HEADERS: usize = 12;
pub const AFTER: usize = 13;
pub const DECODING: usize = 14;

pub struct Env {
    pub original: Original,
    pub bytes: Region,
    pub board: Board,
    pub records: Region,
    pub given: Board,
    pub output: Region,
    pub counts: Vec<Count>,
}

impl Env {
    pub fn new() -> Env {
        Env {
            original: Original::new(),
            bytes: Region::new(4 << 20),
            board: Board::new(16 << 20),
            records: Region::new(64 << 20),
            given: Board::new(1 << 20),
            output: Region::new(16 << 20),
            counts: vec![Count::default(); KINDS.len()],
        }
    }

    pub fn count_outside(&mut self, kind: usize, why: Outside) {
        let c = &mut self.counts[kind];
        match why {
            Outside::Percent => c.percent += 1,
            Outside::Evt21 => c.evt21 += 1,
        }
    }

    pub fn count(&mut self, kind: usize, refusal: u32, items: usize, ruled: bool) {
        let c = &mut self.counts[kind];
        c.calls += 1;
        c.answers[(refusal as usize).min(12)] += 1;
        c.items += items as u64;
        c.filled += (items > 0) as u64;
        c.ruled += ruled as u64;
    }
}

/// Lengths of the lent columns, beside the events to hand over and the most that the words could carry.
#[derive(Clone, Debug)]
pub enum Room {
    Exact,
    Short(usize),
    Longer(usize),
    Ample(usize),
    Apart([usize; 4]),
    Any([usize; 4]),
}

impl Room {
    pub fn make(rng: &mut Rng) -> Room {
        let mut four = || [rng.below(6), rng.below(6), rng.below(6), rng.below(6)];
        let apart = four();
        match rng.below(6) {
            0 => Room::Exact,
            1 => Room::Short(rng.below(4)),
            2 => Room::Longer(1 + rng.below(40)),
            3 => Room::Ample(rng.below(3)),
            4 => Room::Apart(apart),
            _ => Room::Any([rng.next() as usize, rng.next() as usize, rng.next() as usize, rng.next() as usize]),
        }
    }

    pub fn lengths(&self, need: usize, most: usize) -> [usize; 4] {
        let mut n = [need; 4];
        match self {
            Room::Exact => n,
            Room::Short(i) => {
                n[*i] = need.saturating_sub(1);
                n
            }
            Room::Longer(k) => [need + k; 4],
            Room::Ample(k) => [most.max(need) + k; 4],
            Room::Apart(k) => k.map(|k| need + k),
            Room::Any(k) => k.map(|k| k % (2 * need + 3)),
        }
    }
}

/// The most events that this many bytes could carry.
pub fn most_events(evt3: bool, bytes: usize) -> usize {
    if evt3 {
        bytes / 2 * 12
    } else {
        bytes / 4
    }
}

/// The events stand at the front of the columns (None: there are none), and no other place was altered.
pub fn columns_are(c: &Lent, events: Option<&EventStream>) -> Result<(), String> {
    let n = events.map_or(0, |e| e.len());
    if let Some(e) = events {
        let ps = || e.ps().iter().zip(&c.ps[..n]).all(|(a, b)| *a as u8 == *b);
        if e.xs() != &c.xs[..n] || e.ys() != &c.ys[..n] || e.ts() != &c.ts[..n] || !ps() {
            let at = (0..n)
                .find(|i| (e.xs()[*i], e.ys()[*i], e.ts()[*i], e.ps()[*i] as u8) != (c.xs[*i], c.ys[*i], c.ts[*i], c.ps[*i]))
                .unwrap_or(0);
            return Err(format!(
                "event {at} of {n}: t,x,y,p {},{},{},{}, the original's {},{},{},{}",
                c.ts[at],
                c.xs[at],
                c.ys[at],
                c.ps[at],
                e.ts()[at],
                e.xs()[at],
                e.ys()[at],
                e.ps()[at] as u8
            ));
        }
    }
    if columns_untouched(c, n) {
        Ok(())
    } else {
        Err(format!("a column was altered behind the {n} events handed over"))
    }
}

pub fn same<T: PartialEq + std::fmt::Debug>(got: T, want: T) -> Result<(), String> {
    if got == want {
        Ok(())
    } else {
        Err(format!("answered {got:?}, expected {want:?}"))
    }
}

/// The same list with some of it left out, longer parts first.
pub fn fewer<T: Clone>(of: &[T]) -> impl Iterator<Item = Vec<T>> + '_ {
    let parts = std::iter::successors(Some(of.len()), |n| Some(n / 2)).take_while(|n| *n > 0);
    let places = parts.flat_map(|n| (0..of.len()).step_by(n.max(of.len() / 200)).map(move |at| (at, n)));
    places.map(|(at, n)| [&of[..at], &of[(at + n).min(of.len())..]].concat())
}

pub fn hex(bytes: &[u8]) -> String {
    let text: String = bytes.iter().take(4096).map(|b| format!("{b:02x}")).collect();
    if bytes.len() > 4096 {
        format!("{text}.. ({} bytes)", bytes.len())
    } else {
        text
    }
}

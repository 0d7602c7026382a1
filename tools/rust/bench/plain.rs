//! EVT 2.1 in plain Rust: what this library is timed against there, since the original doesn't know that encoding. It is what one would write
//! by hand: safe, no refusal but of falling times, columns that are long enough. The sensor is tested once a word; tested for each event, as
//! the original does, it was slower.
use crate::archive::Columns;

const PERIOD: i64 = 1 << 34;
const THRESHOLD: i64 = PERIOD - (1 << 30);

#[derive(Clone, Copy, Default)]
pub struct Decoder {
    pub started: bool,
    pub coarse: i64,
    pub time: i64,
    pub loops: i64,
}

/// The events of a word: bit i of the mask is one at column x + i.
#[derive(Clone, Copy)]
pub struct Vector {
    pub mask: u32,
    pub x: u16,
    pub y: u16,
    pub t: i64,
    pub p: u8,
}

impl Decoder {
    #[inline(always)]
    fn step(&mut self, word: u64) -> Option<Vector> {
        match word >> 60 {
            kind @ (0 | 1) if self.started => {
                self.time = self.coarse + (word >> 54 & 63) as i64;
                Some(Vector { mask: word as u32, x: (word >> 43 & 2047) as u16, y: (word >> 32 & 2047) as u16, t: self.time, p: kind as u8 })
            }
            8 => {
                let mut coarse = (word >> 32 & 0xFFF_FFFF) as i64 * 64 + self.loops * PERIOD;
                if self.started && self.coarse - coarse >= THRESHOLD {
                    self.loops += 1;
                    coarse += PERIOD;
                }
                (self.started, self.coarse, self.time) = (true, coarse, coarse);
                None
            }
            _ => None,
        }
    }
}

impl Vector {
    /// Without the events outside of the sensor: one test for all of them.
    #[inline(always)]
    fn within(self, (width, height): (usize, usize)) -> u32 {
        let columns = width.saturating_sub(self.x as usize);
        if self.y as usize >= height {
            0
        } else if columns < 32 {
            self.mask & ((1 << columns) - 1)
        } else {
            self.mask
        }
    }
}

fn words(bytes: &[u8]) -> impl Iterator<Item = u64> + '_ {
    bytes.chunks_exact(8).map(|b| u64::from_le_bytes(b.try_into().unwrap()))
}

/// All events inside the sensor, into columns of the same length; how many.
#[inline(never)]
pub fn read(body: &[u8], size: (usize, usize), xs: &mut [u16], ys: &mut [u16], ts: &mut [i64], ps: &mut [u8]) -> usize {
    let room = xs.len();
    let (xs, ys, ts, ps) = (&mut xs[..room], &mut ys[..room], &mut ts[..room], &mut ps[..room]);
    let (mut d, mut n) = (Decoder::default(), 0);
    for word in words(body) {
        let Some(v) = d.step(word) else { continue };
        let mut mask = v.within(size);
        while mask != 0 {
            xs[n] = v.x + mask.trailing_zeros() as u16;
            (ys[n], ts[n], ps[n]) = (v.y, v.t, v.p);
            n += 1;
            mask &= mask - 1;
        }
    }
    n
}

/// A place of an index: where it stands in the body, the events before it, their greatest time, and the decoder there.
pub struct Checkpoint {
    pub offset: usize,
    pub events: usize,
    pub time: i64,
    pub decoder: Decoder,
}

pub struct Index<'a> {
    body: &'a [u8],
    size: (usize, usize),
    pub checkpoints: Vec<Checkpoint>,
    pub events: usize,
    /// The greatest time of an event.
    pub time: i64,
}

impl<'a> Index<'a> {
    #[inline(never)]
    pub fn new(body: &'a [u8], size: (usize, usize), spacing: usize) -> Self {
        let (mut d, mut events, mut time, mut checkpoints) = (Decoder::default(), 0, 0, Vec::new());
        for (j, part) in body.chunks(spacing).enumerate() {
            checkpoints.push(Checkpoint { offset: j * spacing, events, time, decoder: d });
            for word in words(part) {
                let Some(v) = d.step(word) else { continue };
                let mask = v.within(size);
                if mask != 0 {
                    events += mask.count_ones() as usize;
                    time = time.max(v.t);
                }
            }
        }
        Index { body, size, checkpoints, events, time }
    }

    /// Each word's events from the last checkpoint on that `fits`, until `each` says that it has enough.
    #[inline(always)]
    fn from(&self, fits: impl Fn(&Checkpoint) -> bool, mut each: impl FnMut(&Decoder, Vector, usize) -> bool) {
        let start = &self.checkpoints[self.checkpoints.partition_point(fits).saturating_sub(1)];
        let (mut d, mut number) = (start.decoder, start.events);
        for word in words(&self.body[start.offset..]) {
            let v = d.step(word).map_or(Vector { mask: 0, x: 0, y: 0, t: 0, p: 0 }, |v| Vector { mask: v.within(self.size), ..v });
            if each(&d, v, number) {
                return;
            }
            number += v.mask.count_ones() as usize;
        }
    }

    /// Events by number, into columns of their own.
    #[inline(never)]
    pub fn slice_index(&self, from: usize, to: usize) -> Columns {
        let mut c = with_capacity(to - from);
        let each = |_: &Decoder, v: Vector, number: usize| {
            v.each().zip(number..).filter(|(_, n)| (from..to).contains(n)).for_each(|(x, _)| push(&mut c, x, &v));
            c.xs.len() == to - from
        };
        self.from(|k| k.events <= from, each);
        c
    }

    /// Events by time, likewise.
    #[inline(never)]
    pub fn slice_time(&self, from: i64, to: i64) -> Columns {
        let mut c = with_capacity(0);
        let each = |d: &Decoder, v: Vector, _: usize| {
            if (from..to).contains(&v.t) {
                v.each().for_each(|x| push(&mut c, x, &v));
            }
            d.started && d.time >= to
        };
        self.from(|k| k.time < from, each);
        c
    }
}

fn with_capacity(n: usize) -> Columns {
    Columns { xs: Vec::with_capacity(n), ys: Vec::with_capacity(n), ts: Vec::with_capacity(n), ps: Vec::with_capacity(n) }
}

#[inline(always)]
fn push(c: &mut Columns, x: u16, v: &Vector) {
    c.xs.push(x);
    c.ys.push(v.y);
    c.ts.push(v.t);
    c.ps.push(v.p);
}

impl Vector {
    /// The columns, the lowest first.
    fn each(&self) -> impl Iterator<Item = u16> {
        let (mut mask, x) = (self.mask, self.x);
        std::iter::from_fn(move || {
            let next = (mask != 0).then(|| x + mask.trailing_zeros() as u16);
            mask &= mask.wrapping_sub(1);
            next
        })
    }
}

/// A writer that sends no header.
#[derive(Default)]
pub struct Writer {
    high: Option<i64>,
    last: Option<i64>,
}

impl Writer {
    /// A time word when t / 64 changes, and a word for each run: the same t, y, p and x / 32, strictly rising x.
    #[inline(never)]
    pub fn append(&mut self, c: &Columns, out: &mut Vec<u8>) -> Result<(), &'static str> {
        let n = c.xs.len();
        let (xs, ys, ts, ps) = (&c.xs[..n], &c.ys[..n], &c.ts[..n], &c.ps[..n]);
        if self.last.zip(ts.first()).is_some_and(|(a, b)| *b < a) || ts.windows(2).any(|t| t[1] < t[0]) {
            return Err("times fall");
        }
        let mut i = 0;
        while i < n {
            let (mut x, t, y, p) = (xs[i], ts[i], ys[i], ps[i]);
            if self.high != Some(t >> 6) {
                self.high = Some(t >> 6);
                out.extend_from_slice(&(8 << 60 | (t as u64 >> 6) << 32).to_le_bytes());
            }
            let end = (x | 31) + 1;
            let mut word = (p as u64) << 60 | (t as u64 & 63) << 54 | ((end - 32) as u64) << 43 | (y as u64) << 32 | 1 << (x & 31);
            i += 1;
            while i < n && ts[i] == t && ys[i] == y && ps[i] == p && x < xs[i] && xs[i] < end {
                x = xs[i];
                word |= 1 << (x & 31);
                i += 1;
            }
            out.extend_from_slice(&word.to_le_bytes());
        }
        self.last = ts.last().copied().or(self.last);
        Ok(())
    }
}

//! The synthetic recordings of 64 MiB: the same bytes at every time.
const LEN: usize = 64 << 20;

struct Rng(u64);

impl Rng {
    fn next(&mut self) -> u64 {
        self.0 ^= self.0 << 13;
        self.0 ^= self.0 >> 7;
        self.0 ^= self.0 << 17;
        self.0
    }

    fn below(&mut self, n: u64) -> u64 {
        (self.next() >> 11) % n
    }

    fn chance(&mut self, one_in: u64) -> bool {
        self.below(one_in) == 0
    }
}

/// A header that names the encoding and the size, and the first 64 MiB of the words.
fn recording<const N: usize>(encoding: &str, words: impl Iterator<Item = [u8; N]>) -> Vec<u8> {
    let mut bytes = format!("% format {encoding}\n% geometry 1280x720\n").into_bytes();
    bytes.reserve_exact(LEN);
    bytes.extend(words.take(LEN / N).flatten());
    bytes
}

/// EVT2: a time word for about ten events.
fn evt2(r: &mut Rng) -> Vec<u8> {
    let mut words: Vec<u32> = Vec::with_capacity(LEN / 4 + 16);
    let mut high = 1u32;
    while words.len() < LEN / 4 {
        words.push(0x8000_0000 | (high & 0x0FFF_FFFF));
        high += 1 + r.below(2) as u32;
        let n = 5 + r.below(11);
        let mut low = 0;
        for _ in 0..n {
            low = (low + r.below(64 / n + 1)).min(63);
            words.push((r.below(2) << 28 | low << 22 | r.below(1280) << 11 | r.below(720)) as u32);
        }
    }
    recording("EVT2", words.into_iter().map(u32::to_le_bytes))
}

/// Words of EVT3, and the time that they have come to.
struct Words {
    words: Vec<u16>,
    time: u64,
}

impl Words {
    fn new() -> Words {
        Words { words: vec![0x8000], time: 0 }
    }

    fn put(&mut self, kind: u16, low: u64) {
        self.words.push(kind << 12 | low as u16);
    }

    /// The time goes on by up to 20 µs.
    fn later(&mut self, r: &mut Rng) {
        let coarse = self.time >> 12;
        self.time += 1 + r.below(20);
        if self.time >> 12 != coarse {
            self.put(8, self.time >> 12 & 0xFFF);
        }
        self.put(6, self.time & 0xFFF);
    }

    fn done(self) -> Vec<u8> {
        recording("EVT3", self.words.into_iter().map(u16::to_le_bytes))
    }
}

/// A single event, or a sparse vector of one to three words.
fn events(r: &mut Rng, w: &mut Words) {
    if r.below(100) < 60 {
        w.put(2, r.below(2) << 11 | r.below(1280));
        return;
    }
    w.put(3, r.below(2) << 11 | r.below(1240));
    for _ in 0..1 + r.below(2) {
        w.put(4, 1 << r.below(12) | 1 << r.below(12));
    }
    if r.chance(8) {
        w.put(5, 1 << r.below(8));
    }
}

/// EVT3 as cameras send it: few rows for a microsecond, single events and sparse vectors, seldom a trigger.
fn evt3(r: &mut Rng) -> Vec<u8> {
    let mut w = Words::new();
    while w.words.len() < LEN / 2 {
        w.later(r);
        for _ in 0..1 + r.below(3) {
            w.put(0, r.below(720));
            for _ in 0..1 + r.below(2) {
                events(r, &mut w);
            }
        }
        if r.chance(500) {
            w.put(10, r.below(4096));
        }
        if r.chance(300) {
            w.put(14, r.below(4096));
            w.put(15, r.below(4096));
        }
    }
    w.done()
}

/// EVT3 dense: whole rows of vectors, about 8 bits of 12 set.
fn evt3dense(r: &mut Rng) -> Vec<u8> {
    let mut w = Words::new();
    while w.words.len() < LEN / 2 {
        w.later(r);
        for _ in 0..4 {
            w.put(0, r.below(720));
            w.put(3, r.below(2) << 11);
            for _ in 0..106 {
                w.put(4, (r.next() | r.next() >> 20) & 0xFFF);
            }
        }
    }
    w.done()
}

/// Words of EVT 2.1, and the time that they have come to.
struct Wide {
    words: Vec<u64>,
    high: u64,
}

impl Wide {
    fn new() -> Wide {
        Wide { words: Vec::with_capacity(LEN / 8 + 256), high: 0 }
    }

    fn later(&mut self, r: &mut Rng) {
        self.high += 1 + r.below(2);
        self.words.push(8 << 60 | self.high << 32);
    }

    fn put(&mut self, p: u64, low: u64, block: u64, y: u64, mask: u64) {
        self.words.push(p << 60 | low << 54 | (32 * block) << 43 | y << 32 | mask);
    }

    fn done(self) -> Vec<u8> {
        recording("EVT21", self.words.into_iter().map(u64::to_le_bytes))
    }
}

/// EVT 2.1 sparse: a time word for about ten others, anywhere on the sensor; masks of one bit or two, 1.5 in the mean.
fn evt21(r: &mut Rng) -> Vec<u8> {
    let mut w = Wide::new();
    while w.words.len() < LEN / 8 {
        w.later(r);
        let n = 5 + r.below(11);
        let mut low = 0;
        for _ in 0..n {
            low = (low + r.below(64 / n + 1)).min(63);
            let bit = r.below(32);
            let other = if r.chance(2) { 1 << ((bit + 1 + r.below(31)) % 32) } else { 0 };
            w.put(r.below(2), low, r.below(40), r.below(720), 1 << bit | other);
        }
    }
    w.done()
}

/// EVT 2.1 dense: whole rows, 12 bits of 32 set in the mean.
fn evt21dense(r: &mut Rng) -> Vec<u8> {
    let mut w = Wide::new();
    while w.words.len() < LEN / 8 {
        w.later(r);
        for row in 0..4 {
            let (p, low, y) = (r.below(2), 16 * row + r.below(16), r.below(720));
            for block in 0..40 {
                w.put(p, low, block, y, r.next() & (r.next() | r.next() >> 20) & 0xFFFF_FFFF);
            }
        }
    }
    w.done()
}

/// Names and bytes. The three draw on one sequence of numbers, so that none is made alone.
pub fn all() -> [(&'static str, Vec<u8>); 3] {
    let mut r = Rng(0x9E37_79B9_7F4A_7C15);
    [("evt2", evt2(&mut r)), ("evt3", evt3(&mut r)), ("evt3dense", evt3dense(&mut r))]
}

/// The two of EVT 2.1, on a sequence of their own.
pub fn all21() -> [(&'static str, Vec<u8>); 2] {
    let mut r = Rng(0x9E37_79B9_7F4A_7C15);
    [("evt21", evt21(&mut r)), ("evt21dense", evt21dense(&mut r))]
}

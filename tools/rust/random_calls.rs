//! Calls every function of the archive with any arguments at all, for some minutes.
//!   random_calls MINUTES [SEED [CASE]]     CASE: this one alone
//! Lent memory ends, or begins, at a page that can't be touched. Each answer is held to the table of docs/RULES.md as far as the
//! arguments tell it (table.rs), each call is made twice, and a call that told a count is made again with just that room.
//! Exit status 1 at the first answer that isn't allowed, or at a crash.
mod archive;
#[path = "random_calls/indexes.rs"]
mod indexes;
mod lent;
mod making;
#[path = "random_calls/reading.rs"]
mod reading;
mod table;
#[path = "random_calls/words.rs"]
mod words;
#[path = "random_calls/writing.rs"]
mod writing;

use archive::{Columns, Lent};
use lent::{columns_untouched, Board, Region, Rng};
use std::time::{Duration, Instant};

type Checked = Result<(), String>;
type Size = Option<(usize, usize)>;

#[derive(Clone, Copy)]
enum Name {
    Version,
    ReadNumber,
    ParseHeader,
    ReadRaw,
    DecodeWords,
    ReadRawTriggers,
    DecodeWordsTriggers,
    Open,
    OpenWords,
    SliceIndex,
    SliceTime,
    Writer,
    Append,
    NewDecoder,
    Decode,
    WordTrigger,
    NextEvent,
    DecoderAfter,
    DecoderAfterRaw,
    Resume,
    ResumeWords,
    ResumeRaw,
}

const NAMES: [&str; 22] = [
    "version",
    "read_number",
    "parse_header",
    "read_raw",
    "decode_words",
    "read_raw_triggers",
    "decode_words_triggers",
    "open",
    "open_words",
    "slice_index",
    "slice_time",
    "writer",
    "append",
    "new_decoder",
    "decode",
    "word_trigger",
    "next_event",
    "decoder_after",
    "decoder_after_raw",
    "resume",
    "resume_words",
    "resume_raw",
];

/// Calls of each function by answer.
type Counts = [[u64; 14]; NAMES.len()];

struct Env {
    rng: Rng,
    bytes: Region,
    /// Over 2^30 bytes, and over 2^28 events, all 0 and never written.
    long: Region,
    many: Board,
    board: Board,
    records: Region,
    given: Board,
    output: Region,
    counts: Counts,
}

fn ensure(holds: bool, what: &str) -> Checked {
    if holds {
        Ok(())
    } else {
        Err(what.to_owned())
    }
}

fn same<T: PartialEq + std::fmt::Debug>(got: T, want: T) -> Checked {
    if got == want {
        Ok(())
    } else {
        Err(format!("answered {got:?}, the table's answer is {want:?}"))
    }
}

fn snapshot(c: &Lent) -> Columns {
    Columns { xs: c.xs.to_vec(), ys: c.ys.to_vec(), ts: c.ts.to_vec(), ps: c.ps.to_vec() }
}

/// Bytes to lend: a recording's, words', or any; seldom over 2^30 of them, all 0.
struct Bytes {
    given: Vec<u8>,
    long: Option<usize>,
    last: bool,
}

impl Bytes {
    fn make(rng: &mut Rng) -> Bytes {
        let given = any_bytes(rng);
        Bytes::of(rng, given)
    }

    fn of(rng: &mut Rng, given: Vec<u8>) -> Bytes {
        let long = rng.chance(1).then(|| table::LONGEST + 1 + rng.below(4096));
        Bytes { given, long, last: rng.chance(70) }
    }

    fn lend<'a>(&self, bytes: &'a mut Region, long: &'a mut Region) -> &'a [u8] {
        match self.long {
            Some(n) => long.places(n, self.last),
            None => bytes.copy(&self.given, self.last),
        }
    }

    fn unaltered(&self, bytes: &[u8]) -> Checked {
        ensure(self.long.is_some() || bytes == self.given, "the recording was altered")
    }
}

fn any_bytes(rng: &mut Rng) -> Vec<u8> {
    let mut bytes = match rng.below(9) {
        0 => Vec::new(),
        1 => (0..rng.below(40)).map(|_| rng.next() as u8).collect(),
        2 => (0..rng.below(200)).map(|_| rng.pick(b"%% \n\t efmtvgory32xX0918\rnd")).collect(),
        3 | 4 => making::good_recording(rng, &making::KNOWN),
        5 => making::recording(rng, &making::KNOWN),
        _ => {
            let encoding = rng.pick(&making::KNOWN);
            making::words(rng, encoding)
        }
    };
    bytes.truncate(1 << 16);
    bytes
}

/// Lengths of four columns: none, tiny, apart, or ample.
fn any_lengths(rng: &mut Rng, most: usize) -> [usize; 4] {
    let mut one = |n: usize| [rng.below(n), rng.below(n), rng.below(n), rng.below(n)];
    let (tiny, apart) = (one(4), one(most + 2));
    match rng.below(6) {
        0 => [0; 4],
        1 => tiny,
        2 => apart,
        3 => [most + rng.below(3); 4],
        4 => [rng.below(most + 2); 4],
        _ => [rng.below(50); 4],
    }
}

/// A number that may make sense.
fn number(rng: &mut Rng) -> usize {
    if rng.chance(50) {
        rng.wild() as usize
    } else {
        rng.pick(&[1, 5, 64, 2048, 65536, usize::MAX])
    }
}

/// A flag of options: true if it isn't 0.
fn flag(rng: &mut Rng) -> u8 {
    if rng.chance(50) {
        0
    } else {
        rng.next() as u8
    }
}

fn size_given(sized: u8, width: usize, height: usize) -> Size {
    (sized != 0).then_some((width, height))
}

fn shortest(c: &Lent) -> usize {
    c.xs.len().min(c.ys.len()).min(c.ts.len()).min(c.ps.len())
}

/// The events handed over lie within the sensor, and no place behind them was altered.
fn columns_allowed(c: &Lent, count: usize, (w, h): (usize, usize)) -> Checked {
    ensure(columns_untouched(c, count), "a column was altered behind the events handed over")?;
    let inside = c.xs[..count].iter().all(|x| (*x as usize) < w) && c.ys[..count].iter().all(|y| (*y as usize) < h);
    ensure(inside && c.ts[..count].iter().all(|t| *t >= 0) && c.ps[..count].iter().all(|p| *p <= 1), "an event out of range")
}

impl Env {
    fn new(seed: u64) -> Env {
        Env {
            rng: Rng::new(seed, 0),
            bytes: Region::new(1 << 20),
            long: Region::new(table::LONGEST + 8192),
            many: Board::new(table::MOST_EVENTS + 8192),
            board: Board::new(1 << 20),
            records: Region::new(16 << 20),
            given: Board::new(1 << 17),
            output: Region::new(1 << 21),
            counts: Counts::default(),
        }
    }

    fn count(&mut self, name: Name, refusal: u32) -> Checked {
        ensure(refusal <= 13, "a refusal over 13")?;
        self.counts[name as usize][refusal as usize] += 1;
        Ok(())
    }

    fn call(&mut self) -> Checked {
        match self.rng.below(100) {
            0..=3 => self.header(),
            4 => self.number(),
            5..=24 => self.reading(),
            25..=41 => self.opening(),
            42..=64 => self.slicing(),
            65..=79 => self.appending(),
            80..=84 => self.resuming(),
            85..=97 => self.decoding(),
            _ => self.fresh(),
        }
    }

    /// Those that are told no more than a number.
    fn fresh(&mut self) -> Checked {
        ensure(archive::version() == archive::VERSION, "another version")?;
        self.count(Name::Version, 0)?;
        self.writer()?;
        self.new_decoder()
    }
}

fn report(counts: &Counts, seed: u64, cases: u64) {
    for (name, c) in NAMES.iter().zip(counts) {
        let refused: String = c.iter().enumerate().skip(1).filter(|(_, k)| **k > 0).map(|(n, k)| format!(", {k} refused {n}")).collect();
        println!("{name}: {} calls: {} accepted{refused}", c.iter().sum::<u64>(), c[0]);
    }
    println!(
        "seed {seed}: {cases} cases, {} calls (most of them made twice), no answer that isn't allowed, no crash",
        counts.iter().flatten().sum::<u64>()
    );
}

fn main() {
    let args: Vec<u64> = std::env::args().skip(1).map(|a| a.parse().expect("numbers")).collect();
    let [minutes, seed] = [args.first().copied().unwrap_or(1), args.get(1).copied().unwrap_or(1)];
    let end = Instant::now() + Duration::from_secs(60 * minutes);
    let mut env = Env::new(seed);
    lent::watch(seed);
    let mut case = args.get(2).copied().unwrap_or(0);
    loop {
        lent::begin_case(case);
        env.rng = Rng::new(seed, case);
        if let Err(what) = env.call() {
            println!("MISMATCH in seed {seed} case {case}: {what}");
            std::process::exit(1);
        }
        case += 1;
        if args.len() > 2 || (case % 256 == 0 && Instant::now() >= end) {
            break;
        }
    }
    report(&env.counts, seed, case);
}

//! What is timed. Both sides of a pair run in turn, and the best time of each counts. Before that each runs
//! once, so that its memory is there, and what both hand over is compared: a difference ends the program.
use crate::archive::{self, most_bytes, word_size, Columns, Lend, Lent, OpenOptions, Options, Record, Source, Triggers, EVT21};
use crate::memory::{self, Mapped};
use crate::recordings::Recording;
use eventcv::io::spaced::{self, probe};
use eventcv::io::{prophesee_raw as original, EventSink, LoadOptions, SliceSource};
use eventcv::EventStream;
use std::hint::black_box;

/// The original's spacing for every length up to 13 GB.
pub const SPACING: usize = 65_536;
const SLICES: usize = 200;
pub const SLICE_EVENTS: usize = 1_000;
pub const SLICE_TIME: i64 = 10_000;
/// Appending: events in all, and in one append.
const APPENDED: usize = 10_000_000;
pub const APPEND: usize = 10_000;
/// All our calls run in this much stack.
pub const STACK: usize = 32 << 10;

pub type Operation = fn(&Recording, &Setup, &mut Lent) -> Times;
/// Name, unit, what the table says, and how it is measured; evt21.rs has how for EVT2.1.
pub const OPERATIONS: [(&str, &str, &str, Operation); 10] = [
    ("read", "ms", "reading, columns surely long enough", read),
    ("read_exact", "ms", "reading, columns that hold just the events", read_exact),
    ("read_words", "ms", "reading, beside its `decode_words`, which allocates", read_words),
    ("read_file", "ms", "reading a file, beside its `read_raw`, which allocates", read_file),
    ("open", "ms", "opening", open),
    ("slice_index", "µs", "slice of 1,000 events by number", slice_index),
    ("slice_time", "µs", "slice of 10 ms, columns surely long enough", slice_time),
    ("slice_time_exact", "µs", "slice of 10 ms, columns that hold just the events", slice_time_exact),
    ("append", "ms", "appending 10,000 events at a time, output surely long enough", append),
    ("append_exact", "ms", "appending, output that holds just the bytes", append_exact),
];

pub struct Setup {
    pub runs: usize,
    pub spacing: usize,
}

/// `original`: what ours is timed against, in EVT2.1 a plain loop.
#[derive(Clone, Copy)]
pub struct Times {
    pub ours: f64,
    pub original: f64,
}

extern "C" {
    fn clock_gettime(clock: i32, told: *mut [i64; 2]) -> i32;
}

/// What this thread has had of a processor: waiting for one that is busy doesn't count. Nothing here
/// waits for anything else.
fn seconds() -> f64 {
    const THREAD: i32 = 3;
    let mut told = [0; 2];
    assert_eq!(unsafe { clock_gettime(THREAD, &mut told) }, 0);
    told[0] as f64 + told[1] as f64 * 1e-9
}

/// Once a pair has taken this many seconds it has no more than three runs.
const LONG: f64 = 15.0;

/// Both in turn, and of each the best time; what they answer must be the same.
pub fn pair(runs: usize, mut ours: impl FnMut() -> usize, mut theirs: impl FnMut() -> usize) -> Times {
    let mut best = Times { ours: f64::MAX, original: f64::MAX };
    let begun = seconds();
    for k in 0..runs {
        let start = seconds();
        if k >= 3 && start - begun > LONG {
            break;
        }
        let a = black_box(ours());
        let between = seconds();
        let b = black_box(theirs());
        let end = seconds();
        assert_eq!(a, b, "the answers differ");
        best.ours = best.ours.min(between - start);
        best.original = best.original.min(end - between);
    }
    best
}

// ---- reading

/// Writes over what an earlier call left, so that a comparison can't be with that.
pub fn spoil(c: &mut Lent, n: usize) {
    let c = c.first(n);
    c.xs.fill(0xAAAA);
    c.ys.fill(0xBBBB);
    c.ts.fill(-7);
    c.ps.fill(0xCC);
}

/// The original decodes into columns that it was handed: what the others add is its allocations.
fn read_places(r: &Recording, s: &Setup, c: &mut Lent, places: usize, n: usize) -> Times {
    let mut warm = probe::Warm::new(n);
    let decode = |warm: &mut probe::Warm| warm.decode(r.evt3, r.body(), r.width, r.height);
    spoil(c, n);
    assert_eq!(r.read(&mut c.first(places)), decode(&mut warm));
    assert!(warm.same(c.xs, c.ys, c.ts, c.ps), "the columns differ");
    pair(s.runs, || r.read(&mut c.first(places)), || decode(&mut warm))
}

pub fn read(r: &Recording, s: &Setup, c: &mut Lent) -> Times {
    let n = r.read(c);
    read_places(r, s, c, r.most(), n)
}

fn read_exact(r: &Recording, s: &Setup, c: &mut Lent) -> Times {
    let n = r.read(c);
    read_places(r, s, c, n, n)
}

fn same(c: &Lent, stream: &EventStream) {
    let n = stream.len();
    assert!(c.xs[..n] == *stream.xs() && c.ys[..n] == *stream.ys() && c.ts[..n] == *stream.ts(), "the columns differ");
    assert!(c.ps[..n].iter().zip(stream.ps()).all(|(a, b)| *a == *b as u8), "the columns differ");
}

fn read_words(r: &Recording, s: &Setup, c: &mut Lent) -> Times {
    let sized = Options { sized: 1, width: r.width, height: r.height, ..Options::default() };
    let theirs = || original::decode_words(r.body(), r.version(), r.width, r.height).unwrap();
    let stream = theirs();
    spoil(c, stream.len());
    archive::decode_words(r.body(), r.encoding, sized, c);
    same(c, &stream);
    drop(stream);
    pair(s.runs, || archive::decode_words(r.body(), r.encoding, sized, c).count, || theirs().len())
}

fn read_file(r: &Recording, s: &Setup, c: &mut Lent) -> Times {
    let theirs = || original::read_raw(&r.path, &LoadOptions::default()).unwrap();
    let stream = theirs();
    spoil(c, stream.len());
    r.read(c);
    same(c, &stream);
    drop(stream);
    let ours = |c: &mut Lent| archive::read_raw(Mapped::new(&r.path).bytes(), Options::default(), c).count;
    pair(s.runs, || ours(c), || theirs().len())
}

// ---- indexes

/// The unchanged module where its own spacing is asked for.
fn source(r: &Recording, spacing: usize) -> Box<dyn SliceSource> {
    let o = LoadOptions::default();
    if spacing == SPACING {
        return Box::new(original::open_raw_slice(&r.path, &o).unwrap());
    }
    eventcv::set_spacing(Some(spacing as u64));
    Box::new(spaced::open_raw_slice(&r.path, &o).unwrap())
}

pub fn room(r: &Recording, spacing: usize) -> Vec<Record> {
    vec![[7; 10]; r.body().len().div_ceil(spacing).max(1)]
}

pub fn open_in(bytes: &[u8], records: &mut [Record], spacing: usize) -> Source {
    let a = archive::open(bytes, records, OpenOptions { spacing, ..OpenOptions::default() });
    assert_eq!(a.refusal, 0);
    a.source
}

fn same_record(ours: &Record, theirs: &probe::Record) -> bool {
    let first = [theirs.byte_offset, theirs.event_index as u64, theirs.time as u64];
    ours[..3] == first && ours[3..] == theirs.state.map(|n| n as u64)
}

fn same_index(r: &Recording, ours: &Source, records: &[Record]) {
    eventcv::set_spacing(Some(ours.spacing as u64));
    let theirs = spaced::open_raw_slice(&r.path, &LoadOptions::default()).unwrap();
    assert_eq!((ours.n_events, (ours.width, ours.height)), (theirs.n_events(), theirs.sensor_size()));
    let theirs = probe::records(&theirs);
    assert_eq!(ours.records, theirs.len());
    assert!(records.iter().zip(&theirs).all(|(a, b)| same_record(a, b)), "the records differ");
}

/// Both map the file and make the index of it.
pub fn open(r: &Recording, s: &Setup, _: &mut Lent) -> Times {
    let mut records = room(r, s.spacing);
    same_index(r, &open_in(r.bytes(), &mut records, s.spacing), &records);
    let ours = || open_in(Mapped::new(&r.path).bytes(), &mut records, s.spacing).n_events;
    pair(s.runs, ours, || source(r, s.spacing).n_events())
}

// ---- slices

struct Index {
    ours: Source,
    records: Vec<Record>,
    source: Box<dyn SliceSource>,
}

impl Index {
    fn new(r: &Recording, spacing: usize) -> Self {
        let mut records = room(r, spacing);
        let ours = open_in(r.bytes(), &mut records, spacing);
        Index { ours, records, source: source(r, spacing) }
    }
}

/// Numbers without any order, the same in every run.
pub fn scattered() -> Vec<u64> {
    let mut state = 0x9E37_79B9_7F4A_7C15u64;
    let next = |_| {
        state ^= state << 13;
        state ^= state >> 7;
        state ^= state << 17;
        state >> 1
    };
    (0..SLICES).map(next).collect()
}

/// The time of one slice.
pub fn each(t: Times) -> Times {
    Times { ours: t.ours / SLICES as f64, original: t.original / SLICES as f64 }
}

fn slice_index(r: &Recording, s: &Setup, c: &mut Lent) -> Times {
    let i = Index::new(r, s.spacing);
    let n = i.source.n_events();
    let starts: Vec<usize> = scattered().iter().map(|v| *v as usize % (n - SLICE_EVENTS)).collect();
    let ours = |c: &mut Lent, a: usize| {
        archive::slice_index(r.bytes(), i.ours, &i.records, a, a + SLICE_EVENTS, &mut c.first(SLICE_EVENTS)).count
    };
    let theirs = |a: usize| i.source.slice_index(a, a + SLICE_EVENTS).unwrap();
    for a in &starts {
        spoil(c, SLICE_EVENTS);
        assert_eq!(ours(c, *a), SLICE_EVENTS);
        same(c, &theirs(*a));
    }
    let all = || starts.iter().map(|a| ours(c, *a)).sum();
    each(pair(s.runs, all, || starts.iter().map(|a| theirs(*a).len()).sum()))
}

/// Time slices, each into columns of the length that `places` makes of the number of its events.
fn slice_times(r: &Recording, s: &Setup, c: &mut Lent, places: impl Fn(usize) -> usize) -> Times {
    let i = Index::new(r, s.spacing);
    let (from, to) = i.source.time_span();
    let theirs = |a: i64| i.source.slice_time(a, a + SLICE_TIME).unwrap();
    let start = |v: &u64| from + *v as i64 % (to - from);
    let starts: Vec<(i64, usize)> = scattered().iter().map(start).map(|a| (a, places(theirs(a).len()))).collect();
    let ours = |c: &mut Lent, (a, n): (i64, usize)| {
        archive::slice_time(r.bytes(), i.ours, &i.records, a, a + SLICE_TIME, &mut c.first(n)).count
    };
    for q in &starts {
        let stream = theirs(q.0);
        spoil(c, stream.len());
        assert_eq!(ours(c, *q), stream.len());
        same(c, &stream);
    }
    let all = || starts.iter().map(|q| ours(c, *q)).sum();
    each(pair(s.runs, all, || starts.iter().map(|q| theirs(q.0).len()).sum()))
}

fn slice_time(r: &Recording, s: &Setup, c: &mut Lent) -> Times {
    slice_times(r, s, c, |_| r.most())
}

fn slice_time_exact(r: &Recording, s: &Setup, c: &mut Lent) -> Times {
    slice_times(r, s, c, |n| n)
}

// ---- appending

/// The first events that both writers write alike (EVT3: those of the first loop), in lists of `APPEND`.
pub fn lists(r: &Recording, c: &mut Lent) -> Vec<Columns> {
    let limited = Options { limited: 1, max_events: APPENDED, ..Options::default() };
    let n = archive::read_raw(r.bytes(), limited, c).count;
    let end = if r.evt3 { 1 << 24 } else { 1 << 34 };
    let n = c.ts[..n].partition_point(|t| *t < end);
    let part = |a: usize| {
        let b = n.min(a + APPEND);
        Columns { xs: c.xs[a..b].to_vec(), ys: c.ys[a..b].to_vec(), ts: c.ts[a..b].to_vec(), ps: c.ps[a..b].to_vec() }
    };
    (0..n).step_by(APPEND).map(part).collect()
}

fn stream(r: &Recording, c: &Columns) -> EventStream {
    let ps = c.ps.iter().map(|p| *p != 0).collect();
    eventcv::stream_of(r.width, r.height, c.xs.clone(), c.ys.clone(), c.ts.clone(), ps)
}

/// Appends all lists to a fresh writer, each into the part of the output that `room` ends; the bytes written.
pub fn append_ours(r: &Recording, lists: &[Columns], out: &mut [u8], room: impl Fn(usize) -> usize) -> usize {
    let mut sink = archive::writer(r.encoding, 0);
    let mut at = 0;
    for (k, c) in lists.iter().enumerate() {
        let a = archive::append(sink, r.width, r.height, c, &mut out[at..room(k)]);
        assert_eq!(a.refusal, 0);
        sink = a.sink;
        at += a.written;
    }
    at
}

/// The original's writer over a vector that has its memory already.
fn append_theirs(r: &Recording, lists: &[EventStream], out: &mut Vec<u8>) -> usize {
    out.clear();
    let mut sink = original::RawEventSink::to_writer(out, r.version(), false);
    for stream in lists {
        sink.append(stream).unwrap();
    }
    sink.into_inner().unwrap().len()
}

/// Where the bytes of each append end.
pub fn ends(r: &Recording, lists: &[Columns], out: &mut [u8]) -> Vec<usize> {
    let mut sink = archive::writer(r.encoding, 0);
    let mut at = 0;
    let end = |c: &Columns| {
        let a = archive::append(sink, r.width, r.height, c, &mut out[at..]);
        sink = a.sink;
        at += a.written;
        at
    };
    lists.iter().map(end).collect()
}

fn appends(r: &Recording, s: &Setup, c: &mut Lent, exact: bool) -> Times {
    let ours = lists(r, c);
    let theirs: Vec<EventStream> = ours.iter().map(|c| stream(r, c)).collect();
    let long = ours.len() * most_bytes(r.encoding, APPEND);
    let (mut out, mut warm) = (vec![0xEE; long], vec![0xEE; long]);
    let ends = if exact { ends(r, &ours, &mut out) } else { vec![long; ours.len()] };
    out.fill(0xEE);
    let n = append_theirs(r, &theirs, &mut warm);
    assert_eq!(append_ours(r, &ours, &mut out, |k| ends[k]), n);
    assert!(out[..n] == warm[..], "the bytes differ");
    pair(s.runs, || append_ours(r, &ours, &mut out, |k| ends[k]), || append_theirs(r, &theirs, &mut warm))
}

fn append(r: &Recording, s: &Setup, c: &mut Lent) -> Times {
    appends(r, s, c, false)
}

fn append_exact(r: &Recording, s: &Setup, c: &mut Lent) -> Times {
    appends(r, s, c, true)
}

// ---- triggers, beside reading without them

/// The recording without its own triggers, and with one behind every so many words; no longer than it was, so that the columns
/// are as surely long enough.
fn with_triggers(r: &Recording, every: Option<usize>) -> Vec<u8> {
    let size = word_size(r.encoding);
    let trigger: &[u8] = match r.encoding {
        3 => &[1, 0xA3],
        EVT21 => &[0, 0, 0, 0, 1, 3, 0x40, 0xA9],
        _ => &[1, 3, 0x40, 0xA9],
    };
    let mut out = r.bytes()[..r.bytes().len() - r.body().len()].to_vec();
    let words = r.body().chunks_exact(size).filter(|w| w[size - 1] >> 4 != 0xA);
    for (k, word) in words.enumerate() {
        out.extend(word);
        if every.is_some_and(|n| k % n == n - 1) {
            out.extend(trigger);
        }
    }
    out.truncate(r.bytes().len());
    out
}

/// With trigger columns, as `ours`, and without, as `original`: both are this library's. `exact`: the trigger columns have just
/// the places that are needed, else one for every word.
pub fn triggers(r: &Recording, s: &Setup, c: &mut Lent, every: Option<usize>, exact: bool) -> Times {
    let bytes = with_triggers(r, every);
    let words = bytes.len() / word_size(r.encoding);
    let mut g = Triggers::new(words);
    let read = |c: &mut Lent, g: &mut Triggers, n: usize| {
        let t = archive::read_raw_triggers(&bytes, Options::default(), c, g, [n; 3]);
        assert_eq!(t.refusal, 0);
        (t.count, t.triggers)
    };
    let (events, found) = read(c, &mut g, words);
    assert_eq!(found, every.map_or(0, |_| found.max(1)), "triggers where none were put");
    let n = if exact { found } else { words };
    assert_eq!(archive::read_raw(&bytes, Options::default(), c).count, events);
    let c = std::cell::RefCell::new(c.lend());
    let with = || read(&mut c.borrow_mut(), &mut g, n).0;
    pair(s.runs, with, || archive::read_raw(&bytes, Options::default(), &mut *c.borrow_mut()).count)
}

// ---- memory

/// What is resident after all our calls have run on a small stack, and after they have run again.
pub fn memory_gained(r: &Recording, c: &mut Lent) -> (usize, usize) {
    let lists = lists(r, c);
    let mut out = vec![0xEE; lists.len() * most_bytes(r.encoding, APPEND)];
    let mut records = room(r, SPACING);
    let mut calls = || {
        r.read(c);
        let s = open_in(r.bytes(), &mut records, SPACING);
        archive::slice_index(r.bytes(), s, &records, s.n_events / 2, s.n_events / 2 + SLICE_EVENTS, c);
        archive::slice_time(r.bytes(), s, &records, 0, SLICE_TIME, c);
        let end = out.len();
        append_ours(r, &lists, &mut out, |_| end);
    };
    let mut run = || {
        let small = std::thread::Builder::new().stack_size(STACK);
        std::thread::scope(|t| small.spawn_scoped(t, &mut calls).unwrap().join().unwrap());
        memory::kib("VmRSS")
    };
    (run(), run())
}

//! The original's answers. It reads files: they are written to a folder of their own.
use crate::archive::{encoding, Decoder, Record, Sink, Source};
use crate::table;
use eventcv::io::prophesee_raw as unchanged;
use eventcv::io::spaced::{self, probe};
use eventcv::io::{EventConsumer, EventSink, IoError, LoadOptions, RawEvent, SliceSource};
use eventcv::{set_spacing, stream_of, EventStream};
use std::path::PathBuf;

pub type Size = Option<(usize, usize)>;

pub struct Original {
    dir: PathBuf,
}

/// The number of docs/RULES.md for what the original refuses.
fn number(e: &IoError) -> u32 {
    match e {
        IoError::InvalidSensorSize => 1,
        IoError::Unsupported(_) => 2,
        other => panic!("the original: {other}"),
    }
}

fn options(size: Size, limit: Option<usize>) -> LoadOptions {
    LoadOptions { sensor_size: size, max_events: limit, ..LoadOptions::default() }
}

/// A header that names the encoding alone.
pub fn plain_header(evt3: bool) -> &'static [u8] {
    if evt3 {
        b"% format EVT3\n"
    } else {
        b"% format EVT2\n"
    }
}

pub fn behind_header(evt3: bool, words: &[u8]) -> Vec<u8> {
    [plain_header(evt3), words].concat()
}

/// The original's index of a file, and the same as numbers.
pub struct Index {
    pub source: Source,
    pub records: Vec<Record>,
    /// The least and the greatest time of its events.
    pub span: (i64, i64),
    /// None where the index was made by the rules alone.
    pub live: Option<spaced::RawSliceSource>,
    /// The module without a settable spacing, at its own.
    pub unchanged: Option<unchanged::RawSliceSource>,
}

impl Index {
    pub fn evt3(&self) -> bool {
        self.source.encoding == 3
    }
}

struct Collected(Vec<RawEvent>);

impl EventConsumer for Collected {
    fn push(&mut self, x: u16, y: u16, t: i64, p: bool) {
        self.0.push(RawEvent { x, y, t, p });
    }
}

pub fn stream(width: usize, height: usize, events: &[RawEvent]) -> EventStream {
    let of = events.iter();
    stream_of(
        width,
        height,
        of.clone().map(|e| e.x).collect(),
        of.clone().map(|e| e.y).collect(),
        of.clone().map(|e| e.t).collect(),
        of.map(|e| e.p).collect(),
    )
}

pub use probe::{step, Head, State};

/// The original's decoder from the numbers of one that is in range.
pub fn state_of(numbers: [u64; 7]) -> State {
    numbers.map(|n| n as i64)
}

pub fn decoder_of(evt3: bool, [initialised, time_base, time, high_loops, y, base_x, polarity]: State) -> Decoder {
    Decoder {
        time_base: time_base as u64,
        time: time as u64,
        high_loops: high_loops as u64,
        encoding: encoding(evt3),
        y: y as u16,
        base_x: base_x as u16,
        initialised: initialised as u8,
        polarity: polarity as u8,
    }
}

pub fn record(offset: u64, count: u64, time: u64, state: State) -> Record {
    let [started, coarse, now, loops, row, base, polarity] = state.map(|n| n as u64);
    [offset, count, time, started, coarse, now, loops, row, base, polarity]
}

/// The original's records, offsets less `shift`.
fn records(live: &spaced::RawSliceSource, shift: usize) -> Vec<Record> {
    let one = |r: &probe::Record| record(r.byte_offset - shift as u64, r.event_index as u64, r.time as u64, r.state);
    probe::records(live).iter().map(one).collect()
}

/// The original's records from ours, offsets and `shift` more.
fn checkpoints(records: &[Record], shift: usize) -> Vec<probe::Record> {
    let one = |r: &Record| probe::Record {
        byte_offset: r[0].saturating_add(shift as u64),
        event_index: r[1] as usize,
        time: r[2] as i64,
        state: state_of(table::state(r)),
    };
    records.iter().map(one).collect()
}

impl Original {
    pub fn new() -> Original {
        let base = std::env::var("COMPARE_TMP").unwrap_or("/dev/shm".to_owned());
        let dir = PathBuf::from(base).join(format!("compare.{}", std::process::id()));
        std::fs::create_dir_all(&dir).expect("a folder for files");
        Original { dir }
    }

    pub fn done(&self) {
        let _ = std::fs::remove_dir_all(&self.dir);
    }

    fn file(&self, name: &str, bytes: &[u8]) -> PathBuf {
        let path = self.dir.join(name);
        std::fs::write(&path, bytes).expect("a file");
        path
    }

    pub fn head(&self, bytes: &[u8], size: Size) -> Result<Head, u32> {
        probe::header(&self.file("head", bytes), size).map_err(|e| number(&e))
    }

    pub fn read(&self, bytes: &[u8], size: Size, limit: Option<usize>) -> Result<EventStream, u32> {
        unchanged::read_raw(self.file("read", bytes), &options(size, limit)).map_err(|e| number(&e))
    }

    pub fn decode(&self, words: &[u8], evt3: bool, (w, h): (usize, usize)) -> Result<EventStream, u32> {
        let version = if evt3 { unchanged::EvtVersion::Evt3 } else { unchanged::EvtVersion::Evt2 };
        unchanged::decode_words(words, version, w, h).map_err(|e| number(&e))
    }

    /// The index of a recording whose first `shift` bytes aren't counted.
    pub fn open(&self, bytes: &[u8], evt3: bool, size: Size, spacing: usize, shift: usize) -> Result<Index, u32> {
        let path = self.file("open", bytes);
        set_spacing(Some(spacing as u64));
        let live = spaced::open_raw_slice(&path, &options(size, None)).map_err(|e| number(&e));
        set_spacing(None);
        let live = live?;
        let (width, height) = live.sensor_size();
        let data_offset = probe::data_offset(&live) - shift;
        let (records, len) = (records(&live, shift), bytes.len() - shift);
        let n_events = live.n_events();
        let source = Source { records: records.len(), spacing, data_offset, len, width, height, n_events, encoding: encoding(evt3) };
        let unchanged =
            (spacing == 65536).then(|| unchanged::open_raw_slice(&path, &options(size, None)).expect("the unchanged module's index"));
        if let Some(u) = &unchanged {
            assert!(
                u.n_events() == live.n_events() && u.sensor_size() == live.sensor_size() && u.time_span() == live.time_span(),
                "two builds differ"
            );
        }
        Ok(Index { source, records, span: live.time_span(), live: Some(live), unchanged })
    }

    /// The original's slice source over other records, another total and size, and another recording lent.
    pub fn altered(&self, source: &Source, records: &[Record], lent: &[u8]) -> spaced::RawSliceSource {
        let evt3 = source.encoding == 3;
        let header = plain_header(evt3);
        let mut s = spaced::open_raw_slice(self.file("base", header), &options(Some((source.width, source.height)), None))
            .expect("an index of no words");
        probe::set_records(&mut s, evt3, &checkpoints(&records[..source.records], header.len()));
        probe::set_total(&mut s, source.n_events);
        probe::set_recording(&mut s, &self.file("lent", &behind_header(evt3, lent)));
        s
    }
}

pub fn slice_number(s: &dyn SliceSource, i0: usize, i1: usize) -> EventStream {
    s.slice_index(i0, i1).expect("a slice by number")
}

/// A time slice by the function that makes no columns beforehand; `both`: by the other one too.
pub fn slice_time(s: &dyn SliceSource, t0: i64, t1: i64, both: bool) -> EventStream {
    let mut c = Collected(Vec::new());
    s.slice_time_into(t0, t1, &mut c).expect("a slice by time");
    let (w, h) = s.sensor_size();
    let out = stream(w, h, &c.0);
    if both {
        assert!(same_events(&s.slice_time(t0, t1).expect("a slice by time"), &out), "slice_time and slice_time_into differ");
    }
    out
}

pub fn same_events(a: &EventStream, b: &EventStream) -> bool {
    a.xs() == b.xs() && a.ys() == b.ys() && a.ts() == b.ts() && a.ps() == b.ps()
}

/// The original's writer for one in range.
fn writer_of(s: &Sink) -> probe::Writer {
    let of = |has: u8, n: u64| (has != 0).then_some(n as i64);
    probe::Writer {
        header_written: s.header_written != 0,
        n_events: s.n_events,
        last_t: of(s.has_last_t, s.last_t as u64),
        time_high: of(s.has_time_high, s.time_high),
        time_low: of(s.has_time_low, s.time_low),
        y: of(s.has_y, s.y).map(|y| y as u16),
    }
}

fn sink_of(evt3: bool, w: &probe::Writer) -> Sink {
    let of = |n: Option<i64>| n.unwrap_or(0) as u64;
    Sink {
        n_events: w.n_events,
        last_t: of(w.last_t) as i64,
        time_high: of(w.time_high),
        time_low: of(w.time_low),
        y: w.y.unwrap_or(0).into(),
        encoding: encoding(evt3),
        header_written: w.header_written as u8,
        has_last_t: w.last_t.is_some() as u8,
        has_time_high: w.time_high.is_some() as u8,
        has_time_low: w.time_low.is_some() as u8,
        has_y: w.y.is_some() as u8,
    }
}

/// One append to a writer in range: the bytes and the writer behind it, or whether the order of times was refused.
pub fn append(s: &Sink, events: &EventStream) -> Result<(Vec<u8>, Sink), u32> {
    let (evt3, before) = (s.encoding == 3, writer_of(s));
    let mut sink = probe::sink_of(Vec::new(), evt3, before);
    let answer = sink.append(events);
    let after = probe::writer_of(&sink);
    let bytes = sink.into_inner().expect("the bytes");
    match answer {
        Ok(()) => Ok((bytes, sink_of(evt3, &after))),
        Err(IoError::Unsupported(_)) => {
            assert!(bytes.is_empty() && before == after, "a refused append wrote");
            Err(6)
        }
        Err(other) => panic!("the original: {other}"),
    }
}

/// The unchanged module's writer.
pub type Writer = unchanged::RawEventSink<Vec<u8>>;

pub fn writer(evt3: bool, header: bool) -> Writer {
    unchanged::RawEventSink::to_writer(Vec::new(), if evt3 { unchanged::EvtVersion::Evt3 } else { unchanged::EvtVersion::Evt2 }, header)
}

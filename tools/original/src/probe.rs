//! Sees the private items of the module whose child it is: headers, decoders, records and writers, as numbers.
use super::*;

fn encoding(evt3: bool) -> Encoding {
    if evt3 {
        Encoding::Evt3
    } else {
        Encoding::Evt2
    }
}

pub fn version(evt3: bool) -> EvtVersion {
    if evt3 {
        EvtVersion::Evt3
    } else {
        EvtVersion::Evt2
    }
}

/// What a header told.
pub struct Head {
    pub evt3: bool,
    pub start: usize,
    pub size: Option<(usize, usize)>,
}

pub fn header(path: &Path, size: Option<(usize, usize)>) -> Result<Head, IoError> {
    let told = parse_header(&mut BufReader::new(File::open(path)?), size)?;
    Ok(Head { evt3: told.encoding == Encoding::Evt3, start: told.data_offset as usize, size: told.sensor_size })
}

/// A decoder: initialised, coarse time, time, loops, row, base column, polarity; in EVT2 the last three are 0.
pub type State = [i64; 7];

fn state_of(codec: &Codec) -> State {
    match codec {
        Codec::Evt2(d) => [d.initialised.into(), d.time_high, d.time, d.high_loops, 0, 0, 0],
        Codec::Evt3(d) => [d.initialised.into(), d.time_base, d.time, d.high_loops, d.y.into(), d.base_x.into(), d.polarity.into()],
    }
}

fn codec_of(evt3: bool, [started, coarse, time, high_loops, y, base_x, polarity]: State) -> Codec {
    let initialised = started != 0;
    if !evt3 {
        return Codec::Evt2(Evt2Decoder { initialised, time_high: coarse, time, high_loops });
    }
    let (y, base_x, polarity) = (y as u16, base_x as u16, polarity != 0);
    Codec::Evt3(Decoder { initialised, time_base: coarse, time, y, base_x, polarity, high_loops })
}

/// All whole words from a decoder (None: a fresh one): the decoder after them, and their events, none dropped.
pub fn step(evt3: bool, state: Option<State>, bytes: &[u8]) -> (State, Vec<RawEvent>) {
    let mut codec = state.map_or(Codec::new(encoding(evt3)), |s| codec_of(evt3, s));
    let mut events = Vec::new();
    decode_bytes(&mut codec, bytes, |e| events.push(e), |_, _| false);
    (state_of(&codec), events)
}

/// A checkpoint.
pub struct Record {
    pub byte_offset: u64,
    pub event_index: usize,
    pub time: i64,
    pub state: State,
}

pub fn records(s: &RawSliceSource) -> Vec<Record> {
    let one = |c: &Checkpoint| Record { byte_offset: c.byte_offset, event_index: c.event_index, time: c.time, state: state_of(&c.codec) };
    s.checkpoints.iter().map(one).collect()
}

pub fn data_offset(s: &RawSliceSource) -> usize {
    s.data_offset
}

pub fn set_records(s: &mut RawSliceSource, evt3: bool, records: &[Record]) {
    let one = |r: &Record| {
        let codec = codec_of(evt3, r.state);
        Checkpoint { byte_offset: r.byte_offset, event_index: r.event_index, time: r.time, codec }
    };
    s.checkpoints = records.iter().map(one).collect();
}

pub fn set_total(s: &mut RawSliceSource, n: usize) {
    s.n_events = n;
}

/// Lends another recording to the slices. A file of no bytes can't be mapped: a page stands for it.
pub fn set_recording(s: &mut RawSliceSource, path: &Path) {
    let file = File::open(path).expect("the recording");
    s.len = file.metadata().expect("its length").len() as usize;
    let page = || MmapMut::map_anon(1).and_then(MmapMut::make_read_only);
    let data = if s.len == 0 { page() } else { unsafe { Mmap::map(&file) } };
    s.data = data.expect("a map of the recording");
    s.data_offset = s.data_offset.min(s.len);
}

/// A writer but for its encoding and where it writes to.
#[derive(Clone, Copy, Debug, PartialEq, Eq)]
pub struct Writer {
    pub header_written: bool,
    pub n_events: usize,
    pub last_t: Option<i64>,
    pub time_high: Option<i64>,
    pub time_low: Option<i64>,
    pub y: Option<u16>,
}

pub fn writer_of<W: Write>(s: &RawEventSink<W>) -> Writer {
    let EncoderState { time_high, time_low, y } = s.state;
    Writer { header_written: s.header_written, n_events: s.n_events, last_t: s.last_t, time_high, time_low, y }
}

pub fn sink_of<W: Write>(writer: W, evt3: bool, s: Writer) -> RawEventSink<W> {
    let state = EncoderState { time_high: s.time_high, time_low: s.time_low, y: s.y };
    RawEventSink { writer, version: version(evt3), header_written: s.header_written, n_events: s.n_events, last_t: s.last_t, state }
}

/// Columns with their memory at hand, for decoding without an allocation.
pub struct Warm(RawColumns);

impl Warm {
    pub fn new(n: usize) -> Warm {
        let mut c = RawColumns::with_capacity(n);
        c.xs.fill(1);
        c.ys.fill(1);
        c.ts.fill(1);
        c.ps.fill(true);
        Warm(c)
    }

    /// What `read_raw` does with a body whose size is known, without a limit, into these columns; the number of events.
    #[inline(never)]
    pub fn decode(&mut self, evt3: bool, body: &[u8], width: usize, height: usize) -> usize {
        let columns = &mut self.0;
        columns.len = 0;
        let (count, limit) = (Cell::new(0), usize::MAX);
        let keep = |RawEvent { x, y, t, p }| {
            let inside = usize::from(x) < width && usize::from(y) < height;
            if count.get() < limit && inside {
                columns.push(x, y, t, p);
                count.set(count.get() + 1);
            }
        };
        decode_bytes(&mut Codec::new(encoding(evt3)), body, keep, |_, _| count.get() >= limit);
        count.get()
    }

    /// The events decoded last stand at the front of these columns.
    pub fn same(&self, xs: &[u16], ys: &[u16], ts: &[i64], ps: &[u8]) -> bool {
        let (c, n) = (&self.0, self.0.len);
        let places = c.xs[..n] == xs[..n] && c.ys[..n] == ys[..n] && c.ts[..n] == ts[..n];
        places && c.ps[..n].iter().zip(&ps[..n]).all(|(a, b)| *a as u8 == *b)
    }
}

//! The C interface (include/prophesee_raw.h) as Rust sees it.
#![allow(dead_code)]
use std::mem::{offset_of, size_of};

/// The header file's version.
pub const VERSION: u32 = 1;

pub const EVT21: u32 = 21;

/// The number of an encoding that the original knows.
pub fn encoding(evt3: bool) -> u32 {
    2 + evt3 as u32
}

/// Bytes of a word. Of an unknown encoding: any number.
pub fn word_size(encoding: u32) -> usize {
    match encoding {
        3 => 2,
        EVT21 => 8,
        _ => 4,
    }
}

/// The most events of a word.
pub fn most_of_word(encoding: u32) -> usize {
    match encoding {
        3 => 12,
        EVT21 => 32,
        _ => 1,
    }
}

/// Bytes of an append of n events surely need no more, with a header.
pub fn most_bytes(encoding: u32, n: usize) -> usize {
    let loops = if encoding == 3 { 4 * 1023 } else { 0 };
    96 + if encoding == EVT21 { 16 } else { 8 } * n + loops
}

#[repr(C)]
#[derive(Clone, Copy, Debug, Default, PartialEq, Eq)]
pub struct Number {
    pub value: usize,
    pub place: usize,
    pub valid: u8,
}

#[repr(C)]
#[derive(Clone, Copy, Debug, Default, PartialEq, Eq)]
pub struct Header {
    pub refusal: u32,
    pub encoding: u32,
    pub data_offset: usize,
    pub width: usize,
    pub height: usize,
    pub sized: u8,
}

#[repr(C)]
#[derive(Clone, Copy, Debug, Default, PartialEq, Eq)]
pub struct Options {
    pub width: usize,
    pub height: usize,
    pub max_events: usize,
    pub sized: u8,
    pub limited: u8,
}

#[repr(C)]
#[derive(Clone, Copy, Debug, Default, PartialEq, Eq)]
pub struct Reading {
    pub refusal: u32,
    pub encoding: u32,
    pub told: usize,
    pub width: usize,
    pub height: usize,
    pub count: usize,
}

#[repr(C)]
#[derive(Clone, Copy, Debug, Default, PartialEq, Eq)]
pub struct TriggerReading {
    pub refusal: u32,
    pub encoding: u32,
    pub told: usize,
    pub width: usize,
    pub height: usize,
    pub count: usize,
    pub triggers: usize,
}

#[repr(C)]
#[derive(Clone, Copy, Debug, Default, PartialEq, Eq)]
pub struct OpenOptions {
    pub width: usize,
    pub height: usize,
    pub spacing: usize,
    pub sized: u8,
}

#[repr(C)]
#[derive(Clone, Copy, Debug, Default, PartialEq, Eq)]
pub struct Source {
    pub records: usize,
    pub spacing: usize,
    pub data_offset: usize,
    pub len: usize,
    pub width: usize,
    pub height: usize,
    pub n_events: usize,
    pub encoding: u32,
}

#[repr(C)]
#[derive(Clone, Copy, Debug, Default, PartialEq, Eq)]
pub struct Opening {
    pub source: Source,
    pub told: usize,
    pub refusal: u32,
}

/// A record's numbers in the order of its fields: byte_offset, event_index, time, and the decoder's initialised, time_base,
/// decoder_time, high_loops, y, base_x, polarity.
pub type Record = [u64; 10];

#[repr(C)]
#[derive(Clone, Copy, Debug, Default, PartialEq, Eq)]
pub struct Slice {
    pub told: usize,
    pub count: usize,
    pub refusal: u32,
}

#[repr(C)]
#[derive(Clone, Copy, Debug, Default, PartialEq, Eq)]
pub struct Sink {
    pub n_events: usize,
    pub last_t: i64,
    pub time_high: u64,
    pub time_low: u64,
    pub y: u64,
    pub encoding: u32,
    pub header_written: u8,
    pub has_last_t: u8,
    pub has_time_high: u8,
    pub has_time_low: u8,
    pub has_y: u8,
}

#[repr(C)]
#[derive(Clone, Copy, Debug, Default, PartialEq, Eq)]
pub struct Appended {
    pub sink: Sink,
    pub told: usize,
    pub written: usize,
    pub refusal: u32,
}

#[repr(C)]
#[derive(Clone, Copy, Debug, Default, PartialEq, Eq)]
pub struct Resumed {
    pub sink: Sink,
    pub refusal: u32,
}

#[repr(C)]
#[derive(Clone, Copy, Debug, Default, PartialEq, Eq)]
pub struct Decoder {
    pub time_base: u64,
    pub time: u64,
    pub high_loops: u64,
    pub encoding: u32,
    pub y: u16,
    pub base_x: u16,
    pub initialised: u8,
    pub polarity: u8,
}

#[repr(C)]
#[derive(Clone, Copy, Debug, Default, PartialEq, Eq)]
pub struct Vector {
    pub t: i64,
    pub mask: u32,
    pub x: u16,
    pub y: u16,
    pub p: u8,
}

#[repr(C)]
#[derive(Clone, Copy, Debug, Default, PartialEq, Eq)]
pub struct Decoded {
    pub decoder: Decoder,
    pub events: Vector,
    pub refusal: u32,
}

#[repr(C)]
#[derive(Clone, Copy, Debug, Default, PartialEq, Eq)]
pub struct Stepped {
    pub decoder: Decoder,
    pub refusal: u32,
}

#[repr(C)]
#[derive(Clone, Copy, Debug, Default, PartialEq, Eq)]
pub struct Event {
    pub t: i64,
    pub x: u16,
    pub y: u16,
    pub p: u8,
}

#[repr(C)]
#[derive(Clone, Copy, Debug, Default, PartialEq, Eq)]
pub struct Trigger {
    pub t: i64,
    pub refusal: u32,
    pub id: u8,
    pub value: u8,
    pub some: u8,
}

#[repr(C)]
#[derive(Clone, Copy, Debug, Default, PartialEq, Eq)]
pub struct Next {
    pub rest: Vector,
    pub event: Event,
    pub some: u8,
}

// What the header file takes for granted.
const _: () = {
    assert!(size_of::<Header>() == 40 && offset_of!(Header, sized) == 32);
    assert!(size_of::<Options>() == 32 && offset_of!(Options, limited) == 25);
    assert!(size_of::<Reading>() == 40 && offset_of!(Reading, count) == 32);
    assert!(size_of::<TriggerReading>() == 48 && offset_of!(TriggerReading, triggers) == 40);
    assert!(size_of::<OpenOptions>() == 32 && offset_of!(OpenOptions, sized) == 24);
    assert!(size_of::<Source>() == 64 && offset_of!(Source, encoding) == 56);
    assert!(size_of::<Opening>() == 80 && offset_of!(Opening, refusal) == 72);
    assert!(size_of::<Slice>() == 24 && offset_of!(Slice, refusal) == 16);
    assert!(size_of::<Sink>() == 56 && offset_of!(Sink, has_y) == 48);
    assert!(size_of::<Appended>() == 80 && offset_of!(Appended, refusal) == 72);
    assert!(size_of::<Resumed>() == 64 && offset_of!(Resumed, refusal) == 56);
    assert!(size_of::<Decoder>() == 40 && offset_of!(Decoder, polarity) == 33);
    assert!(size_of::<Vector>() == 24 && offset_of!(Vector, p) == 16);
    assert!(size_of::<Decoded>() == 72 && offset_of!(Decoded, refusal) == 64);
    assert!(size_of::<Stepped>() == 48 && offset_of!(Stepped, refusal) == 40);
    assert!(size_of::<Event>() == 16 && offset_of!(Event, p) == 12);
    assert!(size_of::<Trigger>() == 16 && offset_of!(Trigger, some) == 14);
    assert!(size_of::<Next>() == 48 && offset_of!(Next, some) == 40);
};

/// The four lent columns.
#[derive(Clone, Debug, Default, PartialEq, Eq)]
pub struct Columns {
    pub xs: Vec<u16>,
    pub ys: Vec<u16>,
    pub ts: Vec<i64>,
    pub ps: Vec<u8>,
}

impl Columns {
    /// Columns of n places, all of them written.
    pub fn new(n: usize) -> Self {
        Columns { xs: vec![0xAAAA; n], ys: vec![0xBBBB; n], ts: vec![-7; n], ps: vec![0xCC; n] }
    }
}

/// The three columns of triggers.
#[derive(Clone, Debug, PartialEq, Eq)]
pub struct Triggers {
    pub ts: Vec<i64>,
    pub ids: Vec<u8>,
    pub values: Vec<u8>,
}

impl Triggers {
    /// Columns of n places, all of them written.
    pub fn new(n: usize) -> Self {
        Triggers { ts: vec![-7; n], ids: vec![0xDD; n], values: vec![0xEE; n] }
    }
}

/// The four as a call is lent them: of Columns, a part of these, or memory of another kind.
pub struct Lent<'a> {
    pub xs: &'a mut [u16],
    pub ys: &'a mut [u16],
    pub ts: &'a mut [i64],
    pub ps: &'a mut [u8],
}

pub trait Lend {
    fn lend(&mut self) -> Lent<'_>;

    /// The first n places of each.
    fn first(&mut self, n: usize) -> Lent<'_> {
        let c = self.lend();
        Lent { xs: &mut c.xs[..n], ys: &mut c.ys[..n], ts: &mut c.ts[..n], ps: &mut c.ps[..n] }
    }
}

impl Lend for Columns {
    fn lend(&mut self) -> Lent<'_> {
        Lent { xs: &mut self.xs, ys: &mut self.ys, ts: &mut self.ts, ps: &mut self.ps }
    }
}

impl Lend for Lent<'_> {
    fn lend(&mut self) -> Lent<'_> {
        Lent { xs: self.xs, ys: self.ys, ts: self.ts, ps: self.ps }
    }
}

/// The functions, with the parts of their arguments that stand between a recording and the columns.
mod raw {
    use super::*;
    macro_rules! into_columns {
        ($($name:ident($($more:ident: $of:ty),*) -> $answer:ty;)*) => { extern "C" { $(pub fn $name(
            bytes: *const u8, n: usize $(, $more: $of)*,
            xs: *mut u16, xn: usize, ys: *mut u16, yn: usize, ts: *mut i64, tn: usize, ps: *mut u8, pn: usize) -> $answer;)* } };
    }
    into_columns! {
        prophesee_read_raw(options: Options) -> Reading;
        prophesee_decode_words(encoding: u32, options: Options) -> Reading;
        prophesee_slice_index(source: Source, records: *const Record, rn: usize, i0: usize, i1: usize) -> Slice;
        prophesee_slice_time(source: Source, records: *const Record, rn: usize, t0: i64, t1: i64) -> Slice;
    }
    macro_rules! with_triggers {
        ($($name:ident($($more:ident: $of:ty),*);)*) => { extern "C" { $(pub fn $name(
            bytes: *const u8, n: usize $(, $more: $of)*,
            xs: *mut u16, xn: usize, ys: *mut u16, yn: usize, ts: *mut i64, tn: usize, ps: *mut u8, pn: usize,
            trigger_ts: *mut i64, gn: usize, trigger_ids: *mut u8, dn: usize, trigger_values: *mut u8, vn: usize) -> TriggerReading;)* } };
    }
    with_triggers! {
        prophesee_read_raw_triggers(options: Options);
        prophesee_decode_words_triggers(encoding: u32, options: Options);
    }
    extern "C" {
        pub fn prophesee_version() -> u32;
        pub fn prophesee_word_trigger(decoder: Decoder, bytes: *const u8, n: usize) -> Trigger;
        pub fn prophesee_read_number(text: *const u8, n: usize) -> Number;
        pub fn prophesee_parse_header(recording: *const u8, n: usize, sized: u8, width: usize, height: usize) -> Header;
        pub fn prophesee_open(recording: *const u8, n: usize, records: *mut Record, rn: usize, options: OpenOptions) -> Opening;
        pub fn prophesee_open_words(
            words: *const u8, n: usize, encoding: u32, records: *mut Record, rn: usize, options: OpenOptions) -> Opening;
        pub fn prophesee_writer(encoding: u32, header: u8) -> Sink;
        pub fn prophesee_append(
            sink: Sink, width: usize, height: usize,
            xs: *const u16, xn: usize, ys: *const u16, yn: usize, ts: *const i64, tn: usize, ps: *const u8, pn: usize,
            output: *mut u8, on: usize) -> Appended;
        pub fn prophesee_new_decoder(encoding: u32) -> Decoder;
        pub fn prophesee_decode(decoder: Decoder, bytes: *const u8, n: usize) -> Decoded;
        pub fn prophesee_next_event(events: Vector) -> Next;
        pub fn prophesee_decoder_after(decoder: Decoder, words: *const u8, n: usize) -> Stepped;
        pub fn prophesee_decoder_after_raw(recording: *const u8, n: usize) -> Stepped;
        pub fn prophesee_resume(decoder: Decoder) -> Resumed;
        pub fn prophesee_resume_words(words: *const u8, n: usize, encoding: u32) -> Resumed;
        pub fn prophesee_resume_raw(recording: *const u8, n: usize) -> Resumed;
    }
}

macro_rules! with_columns {
    ($f:ident, $bytes:ident, $c:ident $(, $more:expr)*) => {{
        let c = $c.lend();
        unsafe { raw::$f($bytes.as_ptr(), $bytes.len() $(, $more)*,
            c.xs.as_mut_ptr(), c.xs.len(), c.ys.as_mut_ptr(), c.ys.len(),
            c.ts.as_mut_ptr(), c.ts.len(), c.ps.as_mut_ptr(), c.ps.len()) }
    }};
}

pub fn version() -> u32 {
    unsafe { raw::prophesee_version() }
}

pub fn read_number(text: &[u8]) -> Number {
    unsafe { raw::prophesee_read_number(text.as_ptr(), text.len()) }
}

pub fn parse_header(recording: &[u8], sized: u8, width: usize, height: usize) -> Header {
    unsafe { raw::prophesee_parse_header(recording.as_ptr(), recording.len(), sized, width, height) }
}

pub fn read_raw(recording: &[u8], o: Options, c: &mut impl Lend) -> Reading {
    with_columns!(prophesee_read_raw, recording, c, o)
}

pub fn decode_words(words: &[u8], encoding: u32, o: Options, c: &mut impl Lend) -> Reading {
    with_columns!(prophesee_decode_words, words, c, encoding, o)
}

macro_rules! with_both {
    ($f:ident, $bytes:ident, $c:ident, $g:ident, $n:ident $(, $more:expr)*) => {{
        let c = $c.lend();
        assert!($n[0] <= $g.ts.len() && $n[1] <= $g.ids.len() && $n[2] <= $g.values.len());
        unsafe { raw::$f($bytes.as_ptr(), $bytes.len() $(, $more)*,
            c.xs.as_mut_ptr(), c.xs.len(), c.ys.as_mut_ptr(), c.ys.len(), c.ts.as_mut_ptr(), c.ts.len(), c.ps.as_mut_ptr(), c.ps.len(),
            $g.ts.as_mut_ptr(), $n[0], $g.ids.as_mut_ptr(), $n[1], $g.values.as_mut_ptr(), $n[2]) }
    }};
}

/// Triggers into so many places of each of their columns.
pub fn read_raw_triggers(recording: &[u8], o: Options, c: &mut impl Lend, g: &mut Triggers, n: [usize; 3]) -> TriggerReading {
    with_both!(prophesee_read_raw_triggers, recording, c, g, n, o)
}

pub fn decode_words_triggers(
    words: &[u8], encoding: u32, o: Options, c: &mut impl Lend, g: &mut Triggers, n: [usize; 3]) -> TriggerReading {
    with_both!(prophesee_decode_words_triggers, words, c, g, n, encoding, o)
}

pub fn word_trigger(d: Decoder, bytes: &[u8]) -> Trigger {
    unsafe { raw::prophesee_word_trigger(d, bytes.as_ptr(), bytes.len()) }
}

pub fn open(recording: &[u8], records: &mut [Record], o: OpenOptions) -> Opening {
    unsafe { raw::prophesee_open(recording.as_ptr(), recording.len(), records.as_mut_ptr(), records.len(), o) }
}

pub fn open_words(words: &[u8], encoding: u32, records: &mut [Record], o: OpenOptions) -> Opening {
    unsafe { raw::prophesee_open_words(words.as_ptr(), words.len(), encoding, records.as_mut_ptr(), records.len(), o) }
}

pub fn slice_index(b: &[u8], s: Source, r: &[Record], i0: usize, i1: usize, c: &mut impl Lend) -> Slice {
    with_columns!(prophesee_slice_index, b, c, s, r.as_ptr(), r.len(), i0, i1)
}

pub fn slice_time(b: &[u8], s: Source, r: &[Record], t0: i64, t1: i64, c: &mut impl Lend) -> Slice {
    with_columns!(prophesee_slice_time, b, c, s, r.as_ptr(), r.len(), t0, t1)
}

pub fn writer(encoding: u32, header: u8) -> Sink {
    unsafe { raw::prophesee_writer(encoding, header) }
}

pub fn append(s: Sink, width: usize, height: usize, c: &Columns, output: &mut [u8]) -> Appended {
    unsafe {
        raw::prophesee_append(s, width, height, c.xs.as_ptr(), c.xs.len(), c.ys.as_ptr(), c.ys.len(),
            c.ts.as_ptr(), c.ts.len(), c.ps.as_ptr(), c.ps.len(), output.as_mut_ptr(), output.len())
    }
}

/// The same from columns that may stand anywhere.
pub fn append_from(s: Sink, width: usize, height: usize, c: &Lent, output: &mut [u8]) -> Appended {
    unsafe {
        raw::prophesee_append(s, width, height, c.xs.as_ptr(), c.xs.len(), c.ys.as_ptr(), c.ys.len(),
            c.ts.as_ptr(), c.ts.len(), c.ps.as_ptr(), c.ps.len(), output.as_mut_ptr(), output.len())
    }
}

pub fn new_decoder(encoding: u32) -> Decoder {
    unsafe { raw::prophesee_new_decoder(encoding) }
}

pub fn decode(d: Decoder, bytes: &[u8]) -> Decoded {
    unsafe { raw::prophesee_decode(d, bytes.as_ptr(), bytes.len()) }
}

pub fn next_event(events: Vector) -> Next {
    unsafe { raw::prophesee_next_event(events) }
}

pub fn decoder_after(d: Decoder, words: &[u8]) -> Stepped {
    unsafe { raw::prophesee_decoder_after(d, words.as_ptr(), words.len()) }
}

pub fn decoder_after_raw(recording: &[u8]) -> Stepped {
    unsafe { raw::prophesee_decoder_after_raw(recording.as_ptr(), recording.len()) }
}

pub fn resume(d: Decoder) -> Resumed {
    unsafe { raw::prophesee_resume(d) }
}

pub fn resume_words(words: &[u8], encoding: u32) -> Resumed {
    unsafe { raw::prophesee_resume_words(words.as_ptr(), words.len(), encoding) }
}

pub fn resume_raw(recording: &[u8]) -> Resumed {
    unsafe { raw::prophesee_resume_raw(recording.as_ptr(), recording.len()) }
}

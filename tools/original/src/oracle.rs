//! Answers cases from standard input, for tools/vectors.py: a line `ID COMMAND key=value ..` with a line `ID answer`.
//!
//! | command | keys | answer |
//! |---|---|---|
//! | hdr | data, size | `ok EVT3 BODYSTART WxH` |
//! | read | data, size, limit | `ok EVT3 W H N : events` |
//! | decode | data, enc, size | `ok W H N : events`, of `decode_words` |
//! | step | data, enc, state | `ok STATE N : events`, all events of all whole words |
//! | index | data, size, spacing | `ok EVT3 W H N TMIN TMAX BODYSTART RECORDS : OFFSET/EVENTS/TIME/STATE ..` |
//! | slice | as index, q, lent, cps, n | `ok EVT3 W H N TMIN TMAX \| ok W H N : events` |
//! | write | enc, header, a, wstate | `ok`, then for each append ` \| ok HEX [WSTATE]` or ` \| err order - [WSTATE]`; `-` is no byte |
//!
//! data and lent (another recording for the slice) are hex; enc is 2 or 3; size is WxH; `-` stands for none. An event is `t,x,y,p`.
//! STATE is `2:started,high,time,loops` or `3:started,base,time,row,basex,pol,loops`. A spacing of `-` is the original's own.
//! q is `n:I0:I1` or `t:T0:T1`; cps are other records, with `+` between them, and n another total. The appends of a are `WxH:t,x,y,p/..`,
//! with `;` between them; WSTATE is `HEADERSENT,N,LAST,HIGH,LOW,ROW`. Refusals are `err size`, `err encoding` and `err order`.
//! Where the module as it is has the call too, both answer, and `MISMATCH ..` is the answer where they differ.
use eventcv::io::spaced::probe::{self, Head, Record, State, Writer};
use eventcv::io::{prophesee_raw as unchanged, spaced, EventConsumer, EventSink, IoError, LoadOptions, RawEvent, SliceSource};
use eventcv::{set_spacing, stream_of, EventStream};
use std::collections::HashMap;
use std::path::{Path, PathBuf};
use std::str::FromStr;

type Size = Option<(usize, usize)>;

// ---- what is asked

struct Asked<'a>(HashMap<&'a str, &'a str>);

fn number<T: FromStr>(text: &str) -> T {
    text.parse().unwrap_or_else(|_| panic!("no number: {text}"))
}

fn size(text: &str) -> (usize, usize) {
    let (w, h) = text.split_once('x').expect("WxH");
    (number(w), number(h))
}

fn numbers(text: &str) -> Vec<i64> {
    text.split(',').map(number).collect()
}

/// The encoding and the decoder of a STATE.
fn state(text: &str) -> State {
    match numbers(&text[2..])[..] {
        [started, base, time, row, x, p, loops] => [started, base, time, loops, row, x, p],
        [started, high, time, loops] => [started, high, time, loops, 0, 0, 0],
        _ => panic!("no decoder: {text}"),
    }
}

fn record(text: &str) -> Record {
    let f: Vec<&str> = text.split('/').collect();
    Record { byte_offset: number(f[0]), event_index: number(f[1]), time: number(f[2]), state: state(f[3]) }
}

fn writer(text: &str) -> Writer {
    let f: Vec<Option<i64>> = text.split(',').map(|n| (n != "-").then(|| number(n))).collect();
    let n_events = f[1].expect("a count") as usize;
    Writer { header_written: f[0] == Some(1), n_events, last_t: f[2], time_high: f[3], time_low: f[4], y: f[5].map(|y| y as u16) }
}

fn append(text: &str) -> EventStream {
    let (wxh, events) = text.split_once(':').expect("WxH:events");
    let (w, h) = size(wxh);
    let events: Vec<Vec<i64>> = events.split('/').filter(|e| !e.is_empty()).map(numbers).collect();
    let column = |k: usize| events.iter().map(move |e| e[k]);
    let (xs, ys) = (column(1).map(|x| x as u16).collect(), column(2).map(|y| y as u16).collect());
    stream_of(w, h, xs, ys, column(0).collect(), column(3).map(|p| p != 0).collect())
}

impl<'a> Asked<'a> {
    fn get(&self, key: &str) -> Option<&'a str> {
        self.0.get(key).copied().filter(|v| *v != "-")
    }

    fn bytes(&self, key: &str) -> Option<Vec<u8>> {
        let byte = |k: usize, hex: &str| u8::from_str_radix(&hex[k..k + 2], 16).expect("hex");
        self.get(key).map(|hex| (0..hex.len()).step_by(2).map(|k| byte(k, hex)).collect())
    }

    fn data(&self) -> Vec<u8> {
        self.bytes("data").unwrap_or_default()
    }

    fn size(&self) -> Size {
        self.get("size").map(size)
    }

    fn evt3(&self) -> bool {
        self.get("enc").expect("an encoding") == "3"
    }

    fn options(&self) -> LoadOptions {
        LoadOptions { sensor_size: self.size(), max_events: self.get("limit").map(number), ..LoadOptions::default() }
    }
}

// ---- what is answered

fn refused(e: IoError) -> String {
    match e {
        IoError::InvalidSensorSize => "err size".to_owned(),
        IoError::Unsupported(_) => "err encoding".to_owned(),
        other => panic!("the original: {other}"),
    }
}

fn event(e: RawEvent) -> String {
    format!(" {},{},{},{}", e.t, e.x, e.y, e.p as u8)
}

fn events_of(s: &EventStream) -> impl Iterator<Item = RawEvent> + '_ {
    (0..s.len()).map(|i| RawEvent { x: s.xs()[i], y: s.ys()[i], t: s.ts()[i], p: s.ps()[i] })
}

fn stream(r: Result<EventStream, IoError>) -> String {
    r.map_or_else(refused, |s| {
        let (w, h) = s.sensor_size();
        format!("ok {w} {h} {} :{}", s.len(), events_of(&s).map(event).collect::<String>())
    })
}

fn state_text(evt3: bool, [started, coarse, time, loops, row, x, p]: State) -> String {
    if evt3 {
        format!("3:{started},{coarse},{time},{row},{x},{p},{loops}")
    } else {
        format!("2:{started},{coarse},{time},{loops}")
    }
}

fn writer_text(s: &Writer) -> String {
    let of = |n: Option<i64>| n.map_or("-".to_owned(), |n| n.to_string());
    let halves = format!("{},{},{}", of(s.last_t), of(s.time_high), of(s.time_low));
    format!("[{},{},{halves},{}]", s.header_written as u8, s.n_events, of(s.y.map(i64::from)))
}

fn agreed(a: String, b: String) -> String {
    if a == b {
        a
    } else {
        format!("MISMATCH {a} / {b}")
    }
}

fn name(h: &Head) -> &'static str {
    if h.evt3 {
        "EVT3"
    } else {
        "EVT2"
    }
}

/// `ok W H ..` with the encoding that the header names.
fn with_name(path: &Path, size: Size, answer: String) -> String {
    match (probe::header(path, size), answer.strip_prefix("ok ")) {
        (Ok(h), Some(rest)) => format!("ok {} {rest}", name(&h)),
        _ => answer,
    }
}

// ---- commands

fn hdr(a: &Asked, path: &Path) -> String {
    probe::header(path, a.size()).map_or_else(refused, |h| {
        let size = h.size.map_or("-".to_owned(), |(w, h)| format!("{w}x{h}"));
        format!("ok {} {} {size}", name(&h), h.start)
    })
}

fn read(a: &Asked, path: &Path) -> String {
    let answers = (stream(unchanged::read_raw(path, &a.options())), stream(spaced::read_raw(path, &a.options())));
    with_name(path, a.size(), agreed(answers.0, answers.1))
}

fn version(evt3: bool) -> unchanged::EvtVersion {
    if evt3 {
        unchanged::EvtVersion::Evt3
    } else {
        unchanged::EvtVersion::Evt2
    }
}

fn decode(a: &Asked) -> String {
    let (data, (w, h)) = (a.data(), a.size().expect("a size"));
    let other = spaced::decode_words(&data, probe::version(a.evt3()), w, h);
    agreed(stream(unchanged::decode_words(&data, version(a.evt3()), w, h)), stream(other))
}

fn step(a: &Asked) -> String {
    let (after, events) = probe::step(a.evt3(), a.get("state").map(state), &a.data());
    format!("ok {} {} :{}", state_text(a.evt3(), after), events.len(), events.into_iter().map(event).collect::<String>())
}

/// Size, total and span of an index.
fn summary(s: &dyn SliceSource) -> String {
    let ((w, h), (from, to)) = (s.sensor_size(), s.time_span());
    format!("ok {w} {h} {} {from} {to}", s.n_events())
}

/// The index with the spacing asked for, and what opening answers; at the original's own spacing also the unchanged module's index.
fn open(a: &Asked, path: &Path) -> (String, Option<spaced::RawSliceSource>, Option<unchanged::RawSliceSource>) {
    set_spacing(a.get("spacing").map(number));
    let source = spaced::open_raw_slice(path, &a.options());
    set_spacing(None);
    let mut told = source.as_ref().map_or_else(|_| String::new(), |s| summary(s));
    let source = source.map_err(|e| told = refused(e)).ok();
    if a.get("spacing").is_some() {
        return (with_name(path, a.size(), told), source, None);
    }
    let mut other = String::new();
    let same = unchanged::open_raw_slice(path, &a.options()).map_err(|e| other = refused(e)).ok();
    if let Some(s) = &same {
        other = summary(s);
    }
    (with_name(path, a.size(), agreed(told, other)), source, same)
}

fn index(a: &Asked, path: &Path) -> String {
    let (told, source, _) = open(a, path);
    let Some(s) = source else { return told };
    let evt3 = told.starts_with("ok EVT3");
    let one = |r: &Record| format!(" {}/{}/{}/{}", r.byte_offset, r.event_index, r.time, state_text(evt3, r.state));
    let records = probe::records(&s);
    format!("{told} {} {} :{}", probe::data_offset(&s), records.len(), records.iter().map(one).collect::<String>())
}

struct Collected(Vec<RawEvent>);

impl EventConsumer for Collected {
    fn push(&mut self, x: u16, y: u16, t: i64, p: bool) {
        self.0.push(RawEvent { x, y, t, p });
    }
}

fn ask(s: &dyn SliceSource, q: &str) -> String {
    let f: Vec<&str> = q.split(':').collect();
    if f[0] == "n" {
        return stream(s.slice_index(number(f[1]), number(f[2])));
    }
    let (t0, t1) = (number(f[1]), number(f[2]));
    let slice = s.slice_time(t0, t1).expect("a slice");
    let mut into = Collected(Vec::new());
    s.slice_time_into(t0, t1, &mut into).expect("a slice");
    if !events_of(&slice).eq(into.0) {
        return "MISMATCH slice_time_into".to_owned();
    }
    stream(Ok(slice))
}

fn slice(a: &Asked, path: &Path, lent: Option<&Path>) -> String {
    let (told, source, mut same) = open(a, path);
    let Some(mut s) = source else { return told };
    if let Some(cps) = a.get("cps") {
        let records: Vec<Record> = cps.split('+').map(record).collect();
        probe::set_records(&mut s, told.starts_with("ok EVT3"), &records);
        same = None;
    }
    if let Some(n) = a.get("n") {
        probe::set_total(&mut s, number(n));
        same = None;
    }
    if let Some(path) = lent {
        probe::set_recording(&mut s, path);
        same = None;
    }
    let q = a.get("q").expect("a query");
    let answer = ask(&s, q);
    let other = same.map_or(answer.clone(), |o| ask(&o, q));
    format!("{told} | {}", agreed(answer, other))
}

fn hex(bytes: &[u8]) -> String {
    if bytes.is_empty() {
        return "-".to_owned();
    }
    bytes.iter().map(|b| format!("{b:02x}")).collect()
}

/// One append to a writer: how it is answered, the bytes, and the writer after it.
fn appended(evt3: bool, s: Writer, events: &EventStream) -> (&'static str, Vec<u8>, Writer) {
    let mut sink = probe::sink_of(Vec::new(), evt3, s);
    let how = match sink.append(events) {
        Ok(()) => "ok",
        Err(IoError::Unsupported(_)) => "err order",
        Err(other) => panic!("the original: {other}"),
    };
    let after = probe::writer_of(&sink);
    (how, sink.into_inner().expect("the bytes"), after)
}

fn write(a: &Asked) -> String {
    let (evt3, header) = (a.evt3(), a.get("header") == Some("1"));
    let fresh = || probe::writer_of(&spaced::RawEventSink::to_writer(Vec::new(), probe::version(evt3), header));
    let mut whole = a.get("wstate").is_none().then(|| unchanged::RawEventSink::to_writer(Vec::new(), version(evt3), header));
    let mut sink = a.get("wstate").map_or_else(fresh, writer);
    let (mut out, mut all) = ("ok".to_owned(), Vec::new());
    for events in a.get("a").expect("appends").split(';').map(append) {
        let (how, bytes, after) = appended(evt3, sink, &events);
        if whole.as_mut().is_some_and(|w| w.append(&events).is_ok() != (how == "ok") || w.n_events() != after.n_events) {
            return "MISMATCH in an append".to_owned();
        }
        out += &format!(" | {how} {} {}", hex(&bytes), writer_text(&after));
        all.extend(bytes);
        sink = after;
    }
    match whole.map(|w| w.into_inner().expect("the bytes")) {
        Some(bytes) if bytes != all => format!("MISMATCH {} / {}", hex(&bytes), hex(&all)),
        _ => out,
    }
}

fn answer(dir: &Path, line: &str) -> String {
    let mut words = line.split_whitespace();
    let command = words.next().expect("a command");
    let a = Asked(words.map(|w| w.split_once('=').expect("key=value")).collect());
    let file = |key: &str, bytes: Vec<u8>| -> PathBuf {
        let path = dir.join(key);
        std::fs::write(&path, bytes).expect("a file");
        path
    };
    match command {
        "hdr" => hdr(&a, &file("data", a.data())),
        "read" => read(&a, &file("data", a.data())),
        "index" => index(&a, &file("data", a.data())),
        "slice" => slice(&a, &file("data", a.data()), a.bytes("lent").map(|b| file("lent", b)).as_deref()),
        "decode" => decode(&a),
        "step" => step(&a),
        "write" => write(&a),
        _ => panic!("no command: {command}"),
    }
}

fn main() {
    let dir = std::env::temp_dir().join(format!("oracle.{}", std::process::id()));
    std::fs::create_dir_all(&dir).expect("a folder for files");
    for line in std::io::stdin().lines() {
        let line = line.expect("a line of text");
        let (id, rest) = line.split_once(' ').expect("ID COMMAND");
        println!("{id} {}", answer(&dir, rest));
    }
    let _ = std::fs::remove_dir_all(&dir);
}

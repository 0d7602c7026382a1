//! Lists of appends to fresh writers and to writers of any state. Past the first loop of EVT3 the original's words are no
//! reference: there the table's refusals are compared, and of an acceptance that two calls, and what 11 tells, agree.
use crate::archive::{self, encoding, most_bytes, Appended, Columns, Sink};
use crate::lent::{untouched, Rng};
use crate::making;
use crate::original::{self, Writer};
use crate::shared::*;
use crate::table;
use eventcv::io::EventSink;
use eventcv::{stream_of, EventStream};

/// How long the output is, beside the bytes needed.
#[derive(Clone, Copy, Debug)]
enum Output {
    Exact,
    Short(usize),
    Longer(usize),
    Ample,
    Any(usize),
}

#[derive(Clone, Debug)]
struct Append {
    width: usize,
    height: usize,
    columns: Columns,
    output: Output,
}

#[derive(Clone, Debug)]
enum Start {
    Fresh { evt3: bool, header: bool },
    From(Sink),
}

#[derive(Clone, Debug)]
pub struct Case {
    start: Start,
    appends: Vec<Append>,
    last: bool,
}

/// A writer in range, or just outside.
fn any_sink(rng: &mut Rng) -> Sink {
    let evt3 = rng.chance(60);
    let bound = making::time_bound(rng, encoding(evt3));
    let last = match rng.below(4) {
        0 => rng.below(10000) as i64,
        1 => bound - 1 - rng.below(10000) as i64,
        _ => rng.below(bound as usize) as i64,
    };
    let step = table::grain(encoding(evt3));
    let [header, high, low, row] = [60, 80, 80, 80].map(|percent| rng.chance(percent) as u8);
    let y = making::events(rng, encoding(evt3), 0, 1).ys[0] as u64;
    let mut s = Sink { encoding: encoding(evt3), header_written: header, ..Sink::default() };
    if rng.chance(90) {
        (s.has_last_t, s.last_t, s.n_events) = (1, last, rng.pick(&[0, 1, 17, 1 << 40, (1 << 62) - 1, 1 << 62]));
        (s.has_time_high, s.time_high) = (high, high as u64 * (last as u64 / step));
        let (low, row) = if evt3 { (low, row) } else { (0, 0) };
        (s.has_time_low, s.time_low, s.has_y, s.y) = (low, low as u64 * (last as u64 % step), row, row as u64 * y);
    } else if high == 1 {
        // as a resumed one holds it, at times just out of range
        let most = table::TIMES as u64 / step;
        (s.has_time_high, s.time_high) = (1, rng.pick(&[last as u64 / step, last as u64 / step, 0, most - 1, most]));
    }
    if rng.chance(15) {
        spoil(rng, &mut s);
    }
    s
}

/// Any of the numbers becomes another one, which may still be in range.
fn spoil(rng: &mut Rng, s: &mut Sink) {
    let wild = rng.wild();
    let flag = rng.pick(&[0, 1, 2, 255]);
    match rng.below(12) {
        0 => s.n_events = rng.pick(&[1, (1 << 62) + 1, wild as usize]),
        1 => s.last_t = rng.pick(&[-1, 1 << 24, 1 << 34, s.last_t + 1, wild as i64]),
        2 => s.time_high = rng.pick(&[s.time_high + 1, s.time_high.wrapping_sub(1), wild]),
        3 => s.time_low = rng.pick(&[s.time_low + 1, 4096, wild]),
        4 => s.y = rng.pick(&[2047, 2048, 65535, 65536, wild]),
        5 => s.encoding = making::compared_encoding(rng),
        6 => s.has_last_t = flag,
        7 => s.has_time_high = flag,
        8 => s.has_time_low = flag,
        9 => s.has_y = flag,
        10 => s.header_written = flag,
        _ => s.has_last_t = 0,
    }
}

/// Makes events that the table refuses (6, 7 or 12), or leaves them as they are.
fn fault(rng: &mut Rng, c: &mut Columns) {
    let n = c.xs.len();
    let at = rng.below(n);
    match rng.below(10) {
        0 if n > 0 => c.ts[at] = c.ts[at].saturating_sub(1 + rng.below(5000) as i64),
        1 if n > 0 => c.xs[at] = rng.pick(&[2048, 4096, 65535]),
        2 if n > 0 => c.ys[at] = rng.pick(&[2048, 4096, 65535]),
        3 if n > 0 => c.ps[at] = rng.pick(&[2, 128, 255]),
        4 if n > 0 => c.ts[at..].iter_mut().for_each(|t| *t = (*t).max(table::TIMES)),
        5 if n > 0 => c.ts[..=at].iter_mut().for_each(|t| *t = -1),
        6 if n > 0 => c.ts[at] = rng.pick(&[i64::MIN, i64::MAX, table::FIRST_LOOP - 1, table::TIMES - 1]),
        7 => c.xs.truncate(at),
        8 => c.ps.push(0),
        9 => c.ts.extend([1 << 23, 1 << 23]),
        _ => c.ys.push(1),
    }
}

fn any_append(rng: &mut Rng, evt3: bool, from: i64) -> Append {
    let n = match rng.below(40) {
        0..=3 => 0,
        4..=27 => rng.below(12),
        28..=38 => rng.below(300),
        _ => rng.below(20000),
    };
    let mut columns = making::events(rng, encoding(evt3), from, n);
    if rng.chance(15) {
        fault(rng, &mut columns);
    }
    let output = match rng.below(8) {
        0..=2 => Output::Exact,
        3 => Output::Short(1 + rng.below(4)),
        4 => Output::Longer(1 + rng.below(40)),
        5..=6 => Output::Ample,
        _ => Output::Any(rng.next() as usize),
    };
    let size = rng.pick(&[(64, 48), (1280, 720), (0, 0), (usize::MAX, 1), (2048, 2048)]);
    let (width, height) = if rng.chance(80) { size } else { (rng.wild() as usize, rng.wild() as usize) };
    Append { width, height, columns, output }
}

fn room(output: Output, need: usize, ample: usize) -> usize {
    match output {
        Output::Exact => need,
        Output::Short(k) => need.saturating_sub(k),
        Output::Longer(k) => need + k,
        Output::Ample => ample,
        Output::Any(k) => k % (2 * need + 3),
    }
}

fn stream(a: &Append) -> EventStream {
    let c = &a.columns;
    stream_of(a.width, a.height, c.xs.clone(), c.ys.clone(), c.ts.clone(), c.ps.iter().map(|p| *p != 0).collect())
}

fn at<T: Copy>(of: &[T], places: &[usize]) -> Vec<T> {
    places.iter().filter_map(|i| of.get(*i)).copied().collect()
}

fn fewer_events(c: &Columns) -> impl Iterator<Item = Columns> + '_ {
    let n = c.xs.len().max(c.ys.len()).max(c.ts.len()).max(c.ps.len());
    let all: Vec<usize> = (0..n).collect();
    let kept: Vec<Vec<usize>> = fewer(&all).take(500).collect();
    kept.into_iter().map(|k| Columns { xs: at(&c.xs, &k), ys: at(&c.ys, &k), ts: at(&c.ts, &k), ps: at(&c.ps, &k) })
}

/// The unchanged module has taken as many events, and its bytes are these.
fn same_whole(w: Writer, s: &Sink, bytes: &[u8]) -> Result<(), String> {
    same(s.n_events, w.n_events())?;
    same(w.into_inner().expect("bytes") == bytes, true).map_err(|_| "the unchanged module's bytes differ".to_owned())
}

impl Case {
    pub fn make(rng: &mut Rng) -> Case {
        let fresh = rng.chance(50);
        let sink = any_sink(rng);
        let start = if fresh { Start::Fresh { evt3: sink.encoding == 3, header: rng.chance(50) } } else { Start::From(sink) };
        let mut from = if !fresh {
            table::not_before(&sink).unwrap_or(sink.last_t)
        } else if rng.chance(50) {
            0
        } else {
            sink.last_t
        };
        let mut appends: Vec<Append> = Vec::new();
        for _ in 0..1 + rng.below(5) {
            appends.push(any_append(rng, sink.encoding == 3, from));
            from = appends.last().and_then(|a| a.columns.ts.last().copied()).unwrap_or(from);
        }
        Case { start, appends, last: rng.chance(70) }
    }

    fn kind(&self) -> usize {
        10 + matches!(self.start, Start::From(_)) as usize
    }

    pub fn check(&self, env: &mut Env) -> Result<(), String> {
        env.counts[self.kind()].cases += 1;
        let (mut sink, mut whole) = match self.start {
            Start::From(s) => (s, None),
            Start::Fresh { evt3, header } => {
                let sink = archive::writer(encoding(evt3), header as u8);
                same(sink, Sink { encoding: encoding(evt3), header_written: !header as u8, ..Sink::default() })?;
                (sink, Some(original::writer(evt3, header)))
            }
        };
        let mut bytes = Vec::new();
        for (k, a) in self.appends.iter().enumerate() {
            sink = self.append(env, &sink, a, &mut whole, &mut bytes).map_err(|e| format!("append {k} to {sink:?}: {e}"))?;
        }
        whole.map_or(Ok(()), |w| same_whole(w, &sink, &bytes))
    }

    /// What is to be answered, the bytes if it is an acceptance, and the length of the output.
    fn expected(&self, env: &mut Env, s: &Sink, a: &Append) -> Result<(Appended, Vec<u8>, usize), String> {
        let c = &a.columns;
        let refused = |refusal, told| Appended { sink: *s, told, written: 0, refusal };
        let n = table::append_refusal(s, &c.xs, &c.ys, &c.ts, &c.ps);
        // the original asks for no more than the last time
        if n == 6 && table::falls((s.has_last_t != 0).then_some(s.last_t), &c.ts) {
            same(original::append(s, &stream(a)).err(), Some(6)).map_err(|e| format!("the original's order of times: {e}"))?;
        }
        let ample = most_bytes(s.encoding, c.xs.len());
        if n > 0 {
            return Ok((refused(n, 0), Vec::new(), room(a.output, 20, ample)));
        }
        let (bytes, after) = if table::past_first_loop(s, &c.ts) {
            self.accepted(env, s, a, ample)?
        } else {
            original::append(s, &stream(a)).map_err(|n| format!("the original gives {n}, the table nothing"))?
        };
        let lent = room(a.output, bytes.len(), ample);
        if lent < bytes.len() {
            return Ok((refused(11, bytes.len()), Vec::new(), lent));
        }
        Ok((Appended { sink: after, told: 0, written: bytes.len(), refusal: 0 }, bytes, lent))
    }

    /// The library's own bytes, into an output that surely suffices, and its writer: all that this has to be but for its halves and row.
    fn accepted(&self, env: &mut Env, s: &Sink, a: &Append, ample: usize) -> Result<(Vec<u8>, Sink), String> {
        let c = &a.columns;
        let given = env.given.give(&c.xs, &c.ys, &c.ts, &c.ps, self.last);
        let output = env.output.marked::<u8>(ample, self.last);
        let got = archive::append_from(*s, a.width, a.height, &given, output);
        same((got.refusal, got.told), (0, 0))?;
        let last = c.ts.last().copied().or((s.has_last_t != 0).then_some(s.last_t));
        let last = (last.is_some() as u8, last.unwrap_or(0));
        same((got.sink.n_events, (got.sink.has_last_t, got.sink.last_t)), (s.n_events + c.xs.len(), last))?;
        same(table::sink_ok(&Sink { n_events: got.sink.n_events.min(1 << 62), ..got.sink }), true)?;
        Ok((output[..got.written].to_vec(), got.sink))
    }

    fn append(&self, env: &mut Env, s: &Sink, a: &Append, whole: &mut Option<Writer>, all: &mut Vec<u8>) -> Result<Sink, String> {
        let (want, bytes, lent) = self.expected(env, s, a)?;
        let c = &a.columns;
        let given = env.given.give(&c.xs, &c.ys, &c.ts, &c.ps, self.last);
        let output = env.output.marked::<u8>(lent, self.last);
        let got = archive::append_from(*s, a.width, a.height, &given, output);
        same(got, want)?;
        if output[..bytes.len()] != bytes[..] {
            return Err(format!("wrote {}, expected {}", hex(&output[..bytes.len()]), hex(&bytes)));
        }
        if !untouched(output, bytes.len()) {
            return Err("the output was altered behind the bytes handed over".to_owned());
        }
        if (&given.xs[..], &given.ys[..], &given.ts[..], &given.ps[..]) != (&c.xs[..], &c.ys[..], &c.ts[..], &c.ps[..]) {
            return Err("the columns were altered".to_owned());
        }
        let outside = matches!(got.refusal, 0 | 11) && table::past_first_loop(s, &c.ts);
        if outside {
            // the words before it are still the unchanged module's
            whole.take().map_or(Ok(()), |w| same_whole(w, s, all))?;
            env.counts[self.kind()].looped += 1;
            return Ok(got.sink);
        }
        if let (Some(w), 0) = (whole, got.refusal) {
            w.append(&stream(a)).map_err(|e| format!("the unchanged module: {e}"))?;
        }
        all.extend(bytes);
        env.count(self.kind(), got.refusal, got.written, false);
        Ok(got.sink)
    }

    pub fn smaller(&self) -> impl Iterator<Item = Case> + '_ {
        let lists = fewer(&self.appends).map(|appends| Case { appends, ..self.clone() });
        let shorter = (0..self.appends.len()).flat_map(move |k| {
            fewer_events(&self.appends[k].columns).map(move |columns| {
                let mut appends = self.appends.clone();
                appends[k].columns = columns;
                Case { appends, ..self.clone() }
            })
        });
        lists.chain(shorter)
    }

    pub fn show(&self) -> String {
        format!("{} {:?}\n{:?}", KINDS[self.kind()], self.start, self.appends)
    }
}

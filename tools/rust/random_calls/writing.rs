//! Writers, those that resume, and appends.
use crate::archive::{self, Appended, Columns, Decoder, Resumed, Sink, Stepped};
use crate::lent::{untouched, Rng};
use crate::*;

fn append_allowed(r: &Appended, early: u32, sink: &Sink, c: &Columns, out: &[u8]) -> Checked {
    match (early, r.refusal) {
        (0, 0) => {
            let s = &r.sink;
            ensure(r.told == 0 && r.written <= out.len() && untouched(out, r.written), "the output was altered behind the bytes written")?;
            ensure(s.n_events == sink.n_events + c.xs.len() && s.encoding == sink.encoding, "another number of events, or encoding")?;
            let last = c.ts.last().copied().or((sink.has_last_t != 0).then_some(sink.last_t));
            ensure((s.has_last_t != 0).then_some(s.last_t) == last, "another last time")?;
            ensure(table::sink_ok(&Sink { n_events: s.n_events.min(1 << 62), ..*s }), "a writer out of range")
        }
        (0, 11) => ensure(
            r.sink == *sink && r.told > out.len() && r.written == 0 && untouched(out, 0),
            "11 with a wrong count, or something altered",
        ),
        (n, m) => ensure(
            n == m && r.sink == *sink && r.told == 0 && r.written == 0 && untouched(out, 0),
            "another refusal than the table's, or something altered",
        ),
    }
}

fn wild_sink(rng: &mut Rng) -> Sink {
    let small = |rng: &mut Rng| rng.pick(&[0, 0, 1, 1, 1, 2]);
    Sink {
        n_events: rng.wild() as usize,
        last_t: rng.wild() as i64,
        time_high: rng.wild(),
        time_low: rng.wild(),
        y: rng.wild(),
        encoding: making::encoding(rng),
        header_written: small(rng),
        has_last_t: small(rng),
        has_time_high: small(rng),
        has_time_low: small(rng),
        has_y: small(rng),
    }
}

/// A fresh writer, one that wrote, one that resumes, one with a number altered, or any numbers at all.
fn any_sink(rng: &mut Rng) -> Sink {
    if rng.chance(15) {
        return wild_sink(rng);
    }
    let encoding = rng.pick(&making::KNOWN);
    let mut s = if rng.chance(20) { archive::resume(words::any_decoder(rng)).sink } else { archive::writer(encoding, flag(rng)) };
    if rng.chance(60) {
        let bound = making::time_bound(rng, s.encoding);
        let from = table::not_before(&s).unwrap_or(rng.below(bound as usize) as i64);
        let c = making::events(rng, s.encoding, from, 5);
        s = archive::append(s, 1, 1, &c, &mut [0; 5000]).sink;
    }
    let (wild, flag) = (rng.wild(), flag(rng));
    match rng.below(30) {
        0 => s.n_events = wild as usize,
        1 => s.last_t = wild as i64,
        2 => s.time_high = wild,
        3 => s.time_low = wild,
        4 => s.y = wild,
        5 => s.encoding = making::encoding(rng),
        6 => s.header_written = flag,
        7 => s.has_last_t = flag,
        8 => s.has_time_high = flag,
        9 => s.has_time_low = flag,
        10 => s.has_y = flag,
        _ => {}
    }
    s
}

fn spoil_events(rng: &mut Rng, c: &mut Columns) {
    let (wild, at) = (rng.wild(), rng.below(c.xs.len()));
    match rng.below(10) {
        0 if at < c.xs.len() => c.xs[at] = wild as u16,
        1 if at < c.ys.len() => c.ys[at] = wild as u16,
        2 if at < c.ps.len() => c.ps[at] = wild as u8,
        3 | 4 if at < c.ts.len() => c.ts[at] = wild as i64,
        5 => c.xs.truncate(at),
        6 => c.ys.push(wild as u16),
        7 => c.ts.clear(),
        8 => c.ps.extend([0, 1, 2]),
        _ => c.ts.iter_mut().for_each(|t| *t = wild as i64),
    }
}

impl Env {
    pub fn writer(&mut self) -> Checked {
        let (encoding, header) = (making::encoding(&mut self.rng), flag(&mut self.rng));
        let want = Sink { encoding, header_written: (header == 0) as u8, ..Sink::default() };
        same(archive::writer(encoding, header), want)?;
        self.count(Name::Writer, 0)
    }

    pub fn appending(&mut self) -> Checked {
        let rng = &mut self.rng;
        let sink = any_sink(rng);
        let (size, last) = ((number(rng), number(rng)), rng.chance(70));
        let from = if rng.chance(80) { table::not_before(&sink).unwrap_or(0) } else { 0 };
        let n = if rng.chance(90) { rng.below(20) } else { rng.below(3000) };
        let mut c = making::events(rng, sink.encoding, from, n);
        if rng.chance(30) {
            spoil_events(rng, &mut c);
        }
        if rng.chance(1) {
            return self.append_many(sink, last);
        }
        let output = rng.pick(&[0, 3, 60, 200, archive::most_bytes(sink.encoding, c.xs.len()), 4 * c.xs.len()]);
        let output = output + rng.below(8);
        let got = self.append(sink, size, &c, output, last)?;
        if got.refusal == 11 {
            ensure(got.told <= archive::most_bytes(sink.encoding, c.xs.len()), "11 tells more bytes than the events can need")?;
            let again = self.append(sink, size, &c, got.told, last)?;
            ensure(again.refusal == 0 && again.written == got.told, "the count that 11 told isn't taken")?;
        }
        Ok(())
    }

    fn append(&mut self, sink: Sink, (w, h): (usize, usize), c: &Columns, output: usize, last: bool) -> Result<Appended, String> {
        let given = self.given.give(&c.xs, &c.ys, &c.ts, &c.ps, last);
        let early = table::append_refusal(&sink, &c.xs, &c.ys, &c.ts, &c.ps);
        let mut answers = Vec::new();
        for _ in 0..2 {
            let out = self.output.marked::<u8>(output, last);
            let r = archive::append_from(sink, w, h, &given, out);
            append_allowed(&r, early, &sink, c, out)?;
            answers.push((r, out.to_vec()));
        }
        ensure(snapshot(&given) == *c, "the columns were altered")?;
        ensure(answers[0] == answers[1], "two answers to one call")?;
        self.count(Name::Append, answers[0].0.refusal)?;
        Ok(answers[0].0)
    }

    /// Behind a decoder, behind words, and behind a recording: all that is answered follows from the decoder there.
    pub fn resuming(&mut self) -> Checked {
        let d = words::any_decoder(&mut self.rng);
        let (sink, refusal) = table::resumed(&d);
        self.resumed(Name::Resume, || archive::resume(d), sink, refusal)?;
        let encoding = making::encoding(&mut self.rng);
        let given = making::words(&mut self.rng, encoding);
        let given = Bytes::of(&mut self.rng, given);
        self.resume_words(encoding, &given)?;
        let given = Bytes::make(&mut self.rng);
        self.resume_raw(&given)
    }

    fn resumed(&mut self, name: Name, call: impl Fn() -> Resumed, sink: Sink, refusal: u32) -> Checked {
        for _ in 0..2 {
            same(call(), Resumed { sink, refusal })?;
        }
        self.count(name, refusal)
    }

    fn resume_words(&mut self, encoding: u32, given: &Bytes) -> Checked {
        let words = given.lend(&mut self.bytes, &mut self.long);
        let early = table::words_refusal(words, encoding, None);
        let behind = archive::decoder_after(archive::new_decoder(encoding), words).decoder;
        let got = archive::resume_words(words, encoding);
        let fresh = Sink { encoding, header_written: 1, ..Sink::default() };
        let (sink, refusal) = if early > 0 { (fresh, early) } else { table::resumed(&behind) };
        ensure(archive::resume_words(words, encoding) == got, "two answers to one call")?;
        given.unaltered(words)?;
        self.resumed(Name::ResumeWords, || got, sink, refusal)
    }

    /// After 4, 3 and 2 a writer and a decoder of EVT2.
    fn resume_raw(&mut self, given: &Bytes) -> Checked {
        let recording = given.lend(&mut self.bytes, &mut self.long);
        let early = table::header_refusal(recording, Some((1, 1)));
        let behind = if early > 0 {
            Decoder { encoding: 2, ..Decoder::default() }
        } else {
            let head = table::head(recording);
            archive::decoder_after(archive::new_decoder(head.encoding), &recording[head.start..]).decoder
        };
        let (after, got) = (archive::decoder_after_raw(recording), archive::resume_raw(recording));
        let again = (archive::decoder_after_raw(recording), archive::resume_raw(recording));
        ensure((after, got) == again, "two answers to one call")?;
        same(after, Stepped { decoder: behind, refusal: early })?;
        given.unaltered(recording)?;
        self.count(Name::DecoderAfterRaw, early)?;
        let (sink, refusal) = table::resumed(&behind);
        self.resumed(Name::ResumeRaw, || got, sink, if early > 0 { early } else { refusal })
    }

    /// Over 2^28 events, and columns of such lengths that differ.
    fn append_many(&mut self, sink: Sink, last: bool) -> Checked {
        let n = table::MOST_EVENTS + 1 + self.rng.below(3000);
        let other = if self.rng.chance(70) { n } else { self.rng.below(n) };
        let early = if !table::sink_ok(&sink) {
            10
        } else if other != n {
            12
        } else {
            4
        };
        let c = self.many.bare([n, other, n, n], last);
        let out = self.output.marked::<u8>(100, last);
        let r = archive::append_from(sink, 1, 1, &c, out);
        append_allowed(&r, early, &sink, &Columns::default(), out)?;
        self.count(Name::Append, r.refusal)
    }
}

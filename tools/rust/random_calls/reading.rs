//! read_number, parse_header, read_raw and decode_words, the last two with triggers too.
use crate::archive::{self, Columns, Header, Lent, Number, Options, Reading, TriggerReading, Triggers};
use crate::lent::{columns_untouched, Rng};
use crate::*;

fn any_options(rng: &mut Rng) -> Options {
    Options {
        width: number(rng),
        height: number(rng),
        max_events: if rng.chance(50) { rng.below(300) } else { rng.wild() as usize },
        sized: flag(rng),
        limited: flag(rng),
    }
}

/// What the table allows behind `early`, the refusal that the arguments tell: 0, 1 without a size, and 5 with its count.
fn reading_allowed(r: &Reading, early: u32, size: Size, limit: usize, c: &Lent) -> Checked {
    let refused = Reading { refusal: r.refusal, told: r.told, ..Reading::default() };
    if r.refusal == 0 {
        ensure(early == 0 && r.told == 0 && r.count <= shortest(c) && r.count <= limit, "an acceptance that isn't allowed")?;
        ensure(size.is_none_or(|s| s == (r.width, r.height)) && r.width > 0 && r.height > 0, "another size")?;
        return columns_allowed(c, r.count, (r.width, r.height));
    }
    ensure(columns_untouched(c, 0) && *r == refused, "a refusal that alters a column or tells more than it should")?;
    match (early, r.refusal) {
        (0, 1) => ensure(size.is_none() && r.told == 0, "1 with a size"),
        (0, 5) => ensure(r.told > shortest(c) && r.told <= limit, "5 with a wrong count"),
        (n, m) => ensure(n == m && n > 0 && r.told == 0, "another refusal than the table's"),
    }
}

/// Digits with a sign, zeros before them and other bytes among them, now and then; or any bytes.
fn any_text(rng: &mut Rng) -> Vec<u8> {
    if rng.chance(10) {
        return (0..rng.below(40)).map(|_| rng.next() as u8).collect();
    }
    let (zeros, digits, odd) = (rng.below(30) * rng.below(2), rng.below(25), rng.below(8));
    let mut text = if rng.chance(30) { vec![b'+'] } else { Vec::new() };
    text.extend(std::iter::repeat(b'0').take(zeros));
    text.extend((0..digits).map(|_| if rng.chance(odd) { rng.pick(b"+-/:x \0\xff") } else { rng.pick(b"0123456789") }));
    text
}

impl Env {
    /// All that a text tells is the model's.
    pub fn number(&mut self) -> Checked {
        let (text, last) = (any_text(&mut self.rng), self.rng.chance(70));
        let lent = self.bytes.copy(&text, last);
        let want = match table::number_place(&text) {
            Ok(value) => Number { value, place: 0, valid: 1 },
            Err(place) => Number { value: 0, place, valid: 0 },
        };
        for _ in 0..2 {
            same(archive::read_number(lent), want)?;
        }
        ensure(lent == &text[..], "the text was altered")?;
        self.count(Name::ReadNumber, 0)
    }

    /// All that a header tells follows from its text.
    pub fn header(&mut self) -> Checked {
        let (o, recording) = (any_options(&mut self.rng), Bytes::make(&mut self.rng));
        let bytes = recording.lend(&mut self.bytes, &mut self.long);
        let given = size_given(o.sized, o.width, o.height);
        let refusal = table::header_refusal(bytes, given);
        let want = if refusal > 0 {
            Header { refusal, ..Header::default() }
        } else {
            let head = table::head(bytes);
            let size = given.or(head.size);
            let (width, height) = size.unwrap_or((0, 0));
            Header { refusal, encoding: head.encoding, data_offset: head.start, width, height, sized: size.is_some() as u8 }
        };
        for _ in 0..2 {
            same(archive::parse_header(bytes, o.sized, o.width, o.height), want)?;
        }
        recording.unaltered(bytes)?;
        self.count(Name::ParseHeader, refusal)
    }

    pub fn reading(&mut self) -> Checked {
        let rng = &mut self.rng;
        let (options, recording) = (any_options(rng), Bytes::make(rng));
        let words = rng.chance(60).then(|| making::encoding(rng));
        let lengths = any_lengths(rng, recording.given.len() / 2 * 12);
        let got = self.read(words, &recording, options, lengths)?;
        if got.refusal == 5 {
            let again = self.read(words, &recording, options, [got.told; 4])?;
            ensure(again.refusal == 0 && again.count == got.told, "the count that 5 told isn't taken")?;
        }
        Ok(())
    }

    /// A recording, or words of this encoding.
    fn read(&mut self, words: Option<u32>, recording: &Bytes, o: Options, lengths: [usize; 4]) -> Result<Reading, String> {
        let bytes = recording.lend(&mut self.bytes, &mut self.long);
        let given = size_given(o.sized, o.width, o.height);
        let early = words.map_or_else(|| table::header_refusal(bytes, given), |n| table::words_refusal(bytes, n, given));
        let head = (words.is_none() && early == 0).then(|| table::head(bytes));
        let size = given.or(head.and_then(|h| h.size));
        let limit = if o.limited != 0 { o.max_events } else { usize::MAX };
        let mut answers = Vec::new();
        for _ in 0..2 {
            let mut c = self.board.lend(lengths, recording.last);
            let r = match words {
                None => archive::read_raw(bytes, o, &mut c),
                Some(n) => archive::decode_words(bytes, n, o, &mut c),
            };
            reading_allowed(&r, early, size, limit, &c)?;
            answers.push((r, snapshot(&c)));
        }
        recording.unaltered(bytes)?;
        ensure(answers[0] == answers[1], "two answers to one call")?;
        let r = answers[0].0;
        ensure(r.refusal != 0 || r.encoding == words.or(head.map(|h| h.encoding)).unwrap_or(0), "another encoding")?;
        self.count(if words.is_none() { Name::ReadRaw } else { Name::DecodeWords }, r.refusal)?;
        self.read_triggers(words, recording, o, lengths, &answers[0])?;
        Ok(r)
    }

    /// The same call with trigger columns: what it answered without, and 13 behind all else.
    fn read_triggers(&mut self, words: Option<u32>, recording: &Bytes, o: Options, lengths: [usize; 4], plain: &(Reading, Columns)) -> Checked {
        let most = recording.given.len() / 2 + 2;
        let n = any_lengths(&mut self.rng, most);
        let got = self.call_triggers(words, recording, o, lengths, [n[0], n[1], n[2]], plain)?;
        if got.refusal == 13 {
            let again = self.call_triggers(words, recording, o, lengths, [got.told; 3], plain)?;
            ensure(again.refusal == 0 && again.triggers == got.told, "the count that 13 told isn't taken")?;
        }
        Ok(())
    }

    fn call_triggers(
        &mut self, words: Option<u32>, recording: &Bytes, o: Options, lengths: [usize; 4], n: [usize; 3], plain: &(Reading, Columns),
    ) -> Result<TriggerReading, String> {
        let bytes = recording.lend(&mut self.bytes, &mut self.long);
        let mut c = self.board.lend(lengths, recording.last);
        let fresh = Triggers::new(n.into_iter().max().unwrap() + 8);
        let mut g = fresh.clone();
        let r = match words {
            None => archive::read_raw_triggers(bytes, o, &mut c, &mut g, n),
            Some(e) => archive::decode_words_triggers(bytes, e, o, &mut c, &mut g, n),
        };
        triggers_allowed(&r, &plain.0, n)?;
        let behind = |k: usize| g.ts[k..] == fresh.ts[k..] && g.ids[k..] == fresh.ids[k..] && g.values[k..] == fresh.values[k..];
        ensure(behind(r.triggers), "a trigger column was altered behind the triggers handed over")?;
        ensure(g.ts[..r.triggers].iter().all(|t| *t >= 0) && g.ids[..r.triggers].iter().all(|k| *k < 32), "a trigger out of range")?;
        ensure(g.values[..r.triggers].iter().all(|v| *v <= 1), "a trigger out of range")?;
        ensure(if r.refusal == 0 { snapshot(&c) == plain.1 } else { columns_untouched(&c, 0) }, "other events than without triggers")?;
        recording.unaltered(bytes)?;
        self.count(if words.is_none() { Name::ReadRawTriggers } else { Name::DecodeWordsTriggers }, r.refusal)?;
        Ok(r)
    }
}

fn triggers_allowed(r: &TriggerReading, plain: &Reading, n: [usize; 3]) -> Checked {
    let places = n.into_iter().min().unwrap();
    let refused = TriggerReading { refusal: r.refusal, told: r.told, ..TriggerReading::default() };
    let told = Reading { refusal: r.refusal, encoding: r.encoding, told: r.told, width: r.width, height: r.height, count: r.count };
    match (plain.refusal, r.refusal) {
        (0, 0) => ensure(told == *plain && r.triggers <= places, "another reading than without triggers"),
        (0, 13) => ensure(*r == refused && r.told > places, "13 with a wrong count"),
        _ => ensure(told == *plain && r.triggers == 0, "another refusal than without triggers"),
    }
}

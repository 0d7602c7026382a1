//! Opening, and slices by number and by time.
use crate::archive::{self, Lent, OpenOptions, Opening, Record, Slice, Source};
use crate::lent::{columns_untouched, untouched, Rng};
use crate::*;

/// What opening has to answer, as far as the arguments tell it.
struct Early {
    refusal: u32,
    told: usize,
    /// Where the body begins, the encoding, and the size where it is known.
    start: usize,
    encoding: u32,
    size: Size,
}

impl Early {
    /// Of a recording, or of words of this encoding.
    fn new(words: Option<u32>, bytes: &[u8], o: &OpenOptions, lent: usize) -> Early {
        let given = size_given(o.sized, o.width, o.height);
        let refusal = words.map_or_else(|| table::header_refusal(bytes, given), |n| table::words_refusal(bytes, n, given));
        if refusal > 0 {
            return Early { refusal, told: 0, start: 0, encoding: 0, size: given };
        }
        let (start, encoding, size) = match words {
            Some(n) => (0, n, given),
            None => {
                let head = table::head(bytes);
                (head.start, head.encoding, given.or(head.size))
            }
        };
        let (refusal, told) = match table::spacing_ok(o.spacing, encoding) {
            false => (8, 0),
            true => match table::records_needed(bytes.len() - start, o.spacing) {
                need if need > lent => (9, need),
                _ => (0, 0),
            },
        };
        Early { refusal, told, start, encoding, size }
    }
}

fn opening_allowed(r: &Opening, early: &Early, spacing: usize, len: usize, records: &[Record]) -> Checked {
    if r.refusal != 0 {
        let refused = Opening { refusal: r.refusal, told: early.told, ..Opening::default() };
        ensure(*r == refused && untouched(records, 0), "a refusal that alters a record or tells more than it should")?;
        let no_event = early.refusal == 0 && r.refusal == 1 && early.size.is_none();
        return ensure(r.refusal == early.refusal || no_event, "another refusal than the table's");
    }
    let s = &r.source;
    ensure(early.refusal == 0 && r.told == 0, "an acceptance that isn't allowed")?;
    ensure((s.spacing, s.data_offset, s.len, s.encoding) == (spacing, early.start, len, early.encoding), "another source")?;
    ensure(early.size.is_none_or(|k| k == (s.width, s.height)), "another size")?;
    let need = table::records_needed(len - early.start, spacing);
    ensure(s.records == need && untouched(records, need), "records of another number, or one behind them altered")?;
    ensure(table::slice_refusal(0, s, &records[..need]) == 0, "an index out of range was made")
}

fn slice_allowed(r: &Slice, early: u32, source: &Source, most: usize, c: &Lent) -> Checked {
    match (early, r.refusal) {
        (0, 0) => {
            ensure(r.told == 0 && r.count <= shortest(c) && r.count <= most, "too many events")?;
            columns_allowed(c, r.count, (source.width, source.height))
        }
        (0, 5) => ensure(
            r.count == 0 && r.told > shortest(c) && r.told <= most && columns_untouched(c, 0),
            "5 with a wrong count, or a column altered",
        ),
        (n, m) => ensure(
            n == m && r.told == 0 && r.count == 0 && columns_untouched(c, 0),
            "another refusal than the table's, or a column altered",
        ),
    }
}

/// The ends of a slice; times as numbers of the same bits.
#[derive(Clone, Copy)]
struct Query {
    by_time: bool,
    from: u64,
    to: u64,
}

impl Query {
    fn make(rng: &mut Rng) -> Query {
        let from = if rng.chance(40) { 0 } else { rng.wild() };
        let to = if rng.chance(40) { i64::MAX as u64 } else { rng.wild() };
        Query { by_time: rng.chance(50), from, to }
    }

    /// The most events that it may hand over.
    fn most(&self, s: &Source) -> usize {
        let n = s.n_events as u64;
        if self.by_time {
            usize::MAX
        } else {
            self.to.min(n).saturating_sub(self.from.min(n)) as usize
        }
    }

    fn run(&self, bytes: &[u8], s: Source, records: &[Record], c: &mut Lent) -> Slice {
        if self.by_time {
            archive::slice_time(bytes, s, records, self.from as i64, self.to as i64, c)
        } else {
            archive::slice_index(bytes, s, records, self.from as usize, self.to as usize, c)
        }
    }

    fn name(&self) -> Name {
        if self.by_time {
            Name::SliceTime
        } else {
            Name::SliceIndex
        }
    }
}

fn any_source(rng: &mut Rng) -> Source {
    let encoding = making::encoding(rng);
    let mut n = || rng.wild() as usize;
    Source { records: n(), spacing: n(), data_offset: n(), len: n(), width: n(), height: n(), n_events: n(), encoding }
}

/// One number of the source or of a record becomes another one, or there are other records at the end.
fn spoil_index(rng: &mut Rng, s: &mut Source, records: &mut Vec<Record>) {
    let (wild, at, k) = (rng.wild(), rng.below(records.len()), rng.below(10));
    match rng.below(20) {
        0 => s.spacing = wild as usize,
        1 => s.data_offset = wild as usize,
        2 => s.len = wild as usize,
        3 => s.width = wild as usize,
        4 => s.height = wild as usize,
        5 => s.n_events = wild as usize,
        6 => s.encoding = making::encoding(rng),
        7 => s.records = rng.pick(&[0, 1, s.records.wrapping_sub(1), s.records.wrapping_add(1), wild as usize]),
        8 => records.truncate(rng.below(records.len() + 1)),
        9 => records.extend((0..rng.below(4)).map(|_| [wild; 10])),
        10..=11 if !records.is_empty() => {
            records[at][k] = records[at][k].wrapping_add(rng.pick(&[1, u64::MAX, 64, 4096, 1 << 24, 1 << 34]));
        }
        12..=15 if !records.is_empty() => records[at][k] = rng.pick(&[0, 1, 2, 255, 2047, 2048, 65535, 65536]),
        _ if !records.is_empty() => records[at][k] = wild,
        _ => {}
    }
}

impl Env {
    pub fn opening(&mut self) -> Checked {
        let rng = &mut self.rng;
        let recording = Bytes::make(rng);
        let n = recording.given.len();
        let spacing = if rng.chance(10) { rng.wild() as usize } else { making::spacing(rng, n) };
        let o = OpenOptions { width: number(rng), height: number(rng), spacing, sized: flag(rng) };
        let words = rng.chance(60).then(|| making::encoding(rng));
        let lent = if rng.chance(50) { rng.below(6) } else { rng.below(2000) };
        let (got, _) = self.open(words, &recording, o, lent)?;
        if got.refusal == 9 {
            let (again, _) = self.open(words, &recording, o, got.told)?;
            let fits = again.refusal == 0 && again.source.records == got.told;
            ensure(fits || again.refusal == 1, "the count that 9 told isn't taken")?;
        }
        Ok(())
    }

    fn open(&mut self, words: Option<u32>, recording: &Bytes, o: OpenOptions, lent: usize) -> Result<(Opening, Vec<Record>), String> {
        let bytes = recording.lend(&mut self.bytes, &mut self.long);
        let early = Early::new(words, bytes, &o, lent);
        let mut answers = Vec::new();
        for _ in 0..2 {
            let records = self.records.marked::<Record>(lent, recording.last);
            let r = match words {
                None => archive::open(bytes, records, o),
                Some(n) => archive::open_words(bytes, n, records, o),
            };
            opening_allowed(&r, &early, o.spacing, bytes.len(), records)?;
            answers.push((r, records.to_vec()));
        }
        recording.unaltered(bytes)?;
        ensure(answers[0] == answers[1], "two answers to one call")?;
        self.count(if words.is_none() { Name::Open } else { Name::OpenWords }, answers[0].0.refusal)?;
        Ok(answers.swap_remove(0))
    }

    /// A source and records: those of words, a few numbers altered, or any numbers at all.
    fn any_index(&mut self) -> Result<(Source, Vec<Record>, Vec<u8>), String> {
        let encoding = self.rng.pick(&making::KNOWN);
        let mut given = making::words(&mut self.rng, encoding);
        let spacing = archive::word_size(encoding).max(4) * (1 + self.rng.below(100)) * (1 + given.len() / 20000);
        given.truncate(1 << 16);
        let n = table::records_needed(given.len(), spacing) + self.rng.below(3);
        let o = OpenOptions { width: 1 + self.rng.below(2048), height: 2048, spacing, sized: 1 };
        let words = Bytes { given, long: None, last: true };
        let (opening, mut records) = self.open(Some(encoding), &words, o, n)?;
        let mut source = opening.source;
        let rng = &mut self.rng;
        for _ in 0..rng.pick(&[0, 0, 1, 1, 2, 8]) {
            spoil_index(rng, &mut source, &mut records);
        }
        if rng.chance(10) {
            source = any_source(rng);
        }
        if rng.chance(10) {
            records = (0..rng.below(5)).map(|_| std::array::from_fn(|_| rng.wild())).collect();
        }
        Ok((source, records, words.given))
    }

    pub fn slicing(&mut self) -> Checked {
        let (source, records, own) = self.any_index()?;
        let rng = &mut self.rng;
        let given = if rng.chance(70) { own } else { any_bytes(rng) };
        let recording = Bytes::of(rng, given);
        let query = Query::make(rng);
        let lengths = any_lengths(rng, recording.given.len() / 2 * 12);
        let got = self.slice(&recording, source, &records, query, lengths)?;
        if got.refusal == 5 {
            let again = self.slice(&recording, source, &records, query, [got.told; 4])?;
            ensure(again.refusal == 0 && again.count == got.told, "the count that 5 told isn't taken")?;
        }
        Ok(())
    }

    fn slice(&mut self, recording: &Bytes, source: Source, records: &[Record], q: Query, lengths: [usize; 4]) -> Result<Slice, String> {
        let bytes = recording.lend(&mut self.bytes, &mut self.long);
        let lent: &[Record] = self.records.copy(records, recording.last);
        let early = table::slice_refusal(bytes.len(), &source, records);
        let mut answers = Vec::new();
        for _ in 0..2 {
            let mut c = self.board.lend(lengths, recording.last);
            let r = q.run(bytes, source, lent, &mut c);
            slice_allowed(&r, early, &source, q.most(&source), &c)?;
            let times = q.from as i64..q.to as i64;
            ensure(!q.by_time || c.ts[..r.count].iter().all(|t| times.contains(t)), "a time outside the slice")?;
            answers.push((r, snapshot(&c)));
        }
        recording.unaltered(bytes)?;
        ensure(lent == records, "the records were altered")?;
        ensure(answers[0] == answers[1], "two answers to one call")?;
        self.count(q.name(), answers[0].0.refusal)?;
        Ok(answers[0].0)
    }
}

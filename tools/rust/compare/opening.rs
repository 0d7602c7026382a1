//! Opening recordings and headerless words: every record of the index.
use crate::archive::{self, encoding, OpenOptions, Record, Source};
use crate::lent::{untouched, Rng};
use crate::making;
use crate::original::{behind_header, plain_header, record, step, Index, Original, Size};
use crate::shared::*;
use crate::table;

/// How many records are lent, beside those needed.
#[derive(Clone, Copy, Debug)]
pub enum Records {
    Exact,
    Short(usize),
    Longer(usize),
    Any(usize),
}

impl Records {
    pub fn make(rng: &mut Rng) -> Records {
        match rng.below(5) {
            0 | 1 => Records::Exact,
            2 => Records::Short(1 + rng.below(2)),
            3 => Records::Longer(1 + rng.below(7)),
            _ => Records::Any(rng.next() as usize),
        }
    }

    fn length(self, need: usize) -> usize {
        match self {
            Records::Exact => need,
            Records::Short(k) => need.saturating_sub(k),
            Records::Longer(k) => need + k,
            Records::Any(k) => k % (2 * need + 3),
        }
    }
}

#[derive(Clone, Debug)]
pub struct Case {
    pub bytes: Vec<u8>,
    /// Headerless words, EVT3 or EVT2.
    pub words: Option<bool>,
    pub size: Size,
    pub spacing: usize,
    rooms: Vec<Records>,
    junk: u64,
    last: bool,
}

/// The answer before records are counted (3, 2, 1 for a zero size, 8), or what follows where `need` records are lent.
pub enum Expected {
    Early(u32),
    Late { need: usize, index: Result<Index, u32> },
}

impl Case {
    pub fn make(rng: &mut Rng) -> Case {
        let words = if rng.chance(50) { None } else { Some(rng.chance(60)) };
        let bytes = match words {
            None => making::recording(rng, &making::COMPARED),
            Some(evt3) => making::words(rng, encoding(evt3)),
        };
        let spacing = making::spacing(rng, bytes.len());
        Case {
            words,
            size: making::size(rng),
            spacing,
            rooms: vec![Records::make(rng), Records::make(rng)],
            junk: rng.next(),
            last: rng.chance(70),
            bytes,
        }
    }

    fn kind(&self) -> usize {
        2 + self.words.is_some() as usize
    }

    /// Whether the index is by docs/RULES.md over the original's decoder: words that begin with `%`.
    pub fn is_ruled(&self) -> bool {
        self.words.is_some() && self.bytes.first() == Some(&b'%')
    }

    fn options(&self) -> OpenOptions {
        let (width, height) = self.size.unwrap_or((self.junk as usize, (self.junk >> 9) as usize));
        OpenOptions { sized: if self.size.is_some() { (self.junk as u8).max(1) } else { 0 }, width, height, spacing: self.spacing }
    }

    pub fn expected(&self, original: &Original) -> Expected {
        let (evt3, start, shift) = match self.words {
            None if !table::head(&self.bytes).ascii => return Expected::Early(3),
            None => match original.head(&self.bytes, self.size) {
                Ok(h) => (h.evt3, h.start, 0),
                Err(n) => return Expected::Early(n),
            },
            Some(_) if self.size.is_some_and(|(w, h)| w == 0 || h == 0) => return Expected::Early(1),
            Some(evt3) => (evt3, 0, plain_header(evt3).len()),
        };
        if !table::spacing_ok(self.spacing, encoding(evt3)) {
            return Expected::Early(8);
        }
        let index = if self.is_ruled() {
            self.ruled(evt3)
        } else if self.words.is_some() {
            original.open(&behind_header(evt3, &self.bytes), evt3, self.size, self.spacing, shift)
        } else {
            original.open(&self.bytes, evt3, self.size, self.spacing, 0)
        };
        Expected::Late { need: table::records_needed(self.bytes.len() - start, self.spacing), index }
    }

    /// The rule of docs/RULES.md for records over the original's decoder.
    fn ruled(&self, evt3: bool) -> Result<Index, u32> {
        let (mut records, mut state, mut count, mut latest) = (Vec::new(), step(evt3, None, &[]).0, 0usize, 0i64);
        let (mut width, mut height, mut earliest) = (0, 0, i64::MAX);
        for (j, part) in self.bytes.chunks(self.spacing).enumerate() {
            records.push(record((j * self.spacing) as u64, count as u64, latest as u64, state));
            let (after, events) = step(evt3, Some(state), part);
            for e in events.iter().filter(|e| self.size.is_none_or(|(w, h)| (e.x as usize) < w && (e.y as usize) < h)) {
                (width, height) = (width.max(e.x as usize + 1), height.max(e.y as usize + 1));
                (count, latest, earliest) = (count + 1, latest.max(e.t), earliest.min(e.t));
            }
            state = after;
        }
        let (width, height) = match self.size {
            Some(size) => size,
            None if count == 0 => return Err(1),
            None => (width, height),
        };
        let (n, len) = (records.len(), self.bytes.len());
        let place = Source { records: n, spacing: self.spacing, data_offset: 0, len, ..Source::default() };
        let source = Source { width, height, n_events: count, encoding: encoding(evt3), ..place };
        Ok(Index { source, records, span: (earliest.min(latest), latest), live: None, unchanged: None })
    }

    /// The original is no reference.
    pub fn outside(&self) -> Option<table::Outside> {
        self.words.map_or_else(|| table::outside(&self.bytes), |_| None)
    }

    pub fn has_end_line(&self) -> bool {
        self.words.is_none() && table::has_end_line(&self.bytes)
    }

    pub fn check(&self, env: &mut Env) -> Result<(), String> {
        if let Some(why) = self.outside() {
            env.count_outside(self.kind(), why);
            return Ok(());
        }
        let want = self.expected(&env.original);
        if let Expected::Late { need, index: Ok(i) } = &want {
            same(*need, i.records.len()).map_err(|e| format!("the table's number of records: {e}"))?;
        }
        env.counts[self.kind()].cases += 1;
        env.counts[self.kind()].ended += self.has_end_line() as u64;
        for room in &self.rooms {
            self.call(env, &want, *room).map_err(|e| format!("{room:?}: {e}"))?;
        }
        Ok(())
    }

    fn call(&self, env: &mut Env, want: &Expected, room: Records) -> Result<(), String> {
        let lent = room.length(if let Expected::Late { need, .. } = want { *need } else { 2 });
        let bytes = env.bytes.copy(&self.bytes, self.last);
        let records = env.records.marked::<Record>(lent, self.last);
        let got = match self.words {
            None => archive::open(bytes, records, self.options()),
            Some(evt3) => archive::open_words(bytes, encoding(evt3), records, self.options()),
        };
        let (numbers, made) = answer(want, lent);
        same(got, numbers)?;
        if let Some(at) = records.iter().zip(made).position(|(a, b)| a != b) {
            return Err(format!("record {at}: {:?}, the original's {:?}", records[at], made[at]));
        }
        if !untouched(records, made.len()) {
            return Err("a record behind those handed over was altered".to_owned());
        }
        let by_index = matches!(want, Expected::Late { .. }) && got.refusal != 9;
        env.count(self.kind(), got.refusal, got.source.records, by_index && self.is_ruled());
        Ok(())
    }

    pub fn with_bytes(&self, bytes: Vec<u8>) -> Case {
        Case { bytes, ..self.clone() }
    }

    pub fn smaller(&self) -> impl Iterator<Item = Case> + '_ {
        let one = self.rooms.iter().filter(|_| self.rooms.len() > 1).map(|r| Case { rooms: vec![*r], ..self.clone() });
        one.chain(fewer(&self.bytes).map(|bytes| self.with_bytes(bytes)))
    }

    pub fn show(&self) -> String {
        format!(
            "{} {:?} size {:?} spacing {} records {:?}\nbytes {}",
            KINDS[self.kind()],
            self.words.map(|e| if e { "EVT3" } else { "EVT2" }),
            self.size,
            self.spacing,
            self.rooms,
            hex(&self.bytes)
        )
    }
}

/// The numbers to be answered where this many records are lent, and the records.
fn answer(want: &Expected, room: usize) -> (archive::Opening, &[Record]) {
    let refused = |refusal, told| archive::Opening { refusal, told, ..archive::Opening::default() };
    match want {
        Expected::Early(n) => (refused(*n, 0), &[]),
        Expected::Late { need, .. } if room < *need => (refused(9, *need), &[]),
        Expected::Late { index: Err(n), .. } => (refused(*n, 0), &[]),
        Expected::Late { index: Ok(i), .. } => (archive::Opening { source: i.source, told: 0, refusal: 0 }, &i.records),
    }
}

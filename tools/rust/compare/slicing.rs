//! Slices by number and by time: over the recording itself, over another one lent, and over altered indexes.
use crate::archive::{self, encoding, Record, Slice, Source};
use crate::lent::{Mark, Rng};
use crate::making;
use crate::opening::{self, Expected};
use crate::original::{self, slice_number, slice_time, state_of, step, stream, Index};
use crate::shared::*;
use crate::table;
use eventcv::io::{RawEvent, SliceSource};
use eventcv::EventStream;

/// An end of a slice: a number, or one beside the total, a record's, or within the recording.
#[derive(Clone, Copy, Debug)]
enum End {
    Is(u64),
    Total(i64),
    Record(usize, i64),
    Part(i64),
}

impl End {
    fn make(rng: &mut Rng) -> End {
        let beside = rng.below(5) as i64 - 2;
        match rng.below(20) {
            0 => End::Is(rng.wild()),
            1..=2 => End::Is(rng.pick(&[0, 1, u64::MAX, i64::MIN as u64, i64::MAX as u64])),
            3..=4 => End::Total(beside),
            5 => End::Total(rng.pick(&[-5000, -64, 64, 5000])),
            6..=9 => End::Record(rng.next() as usize, beside),
            _ => End::Part(rng.below(65536) as i64),
        }
    }

    fn number(self, i: &Index) -> u64 {
        let of = |n: u64, k: i64| n.saturating_add_signed(k);
        match self {
            End::Is(n) => n,
            End::Total(k) => of(i.source.n_events as u64, k),
            End::Record(j, k) => of(record(i, j, 1), k),
            End::Part(f) => (i.source.n_events as u128 * f as u128 / 65536) as u64,
        }
    }

    fn time(self, i: &Index) -> i64 {
        match self {
            End::Is(n) => n as i64,
            End::Total(k) => i.span.1.saturating_add(k),
            End::Record(j, k) => (record(i, j, 2) as i64).saturating_add(k),
            End::Part(f) => i.span.0 + ((i.span.1 - i.span.0) as i128 * f as i128 / 65536) as i64,
        }
    }
}

/// The ends of a slice, put in order or as they come.
#[derive(Clone, Copy, Debug)]
struct Ends {
    from: End,
    to: End,
    in_order: bool,
}

impl Ends {
    fn make(rng: &mut Rng) -> Ends {
        Ends { from: End::make(rng), to: End::make(rng), in_order: rng.chance(80) }
    }

    /// Both as numbers; times as numbers of the same bits.
    fn resolved(&self, i: &Index, by_time: bool) -> (u64, u64) {
        if by_time {
            let (a, b) = (self.from.time(i), self.to.time(i));
            if self.in_order {
                (a.min(b) as u64, a.max(b) as u64)
            } else {
                (a as u64, b as u64)
            }
        } else {
            let (a, b) = (self.from.number(i), self.to.number(i));
            if self.in_order {
                (a.min(b), a.max(b))
            } else {
                (a, b)
            }
        }
    }
}

/// A number of record j, counted round the records.
fn record(i: &Index, j: usize, number: usize) -> u64 {
    i.records.get(j % i.records.len().max(1)).map_or(0, |r| r[number])
}

/// A change of an index. Which of them docs/RULES.md allows is left to table.rs.
#[derive(Clone, Debug)]
enum Change {
    Counts(usize, u64),
    Times(usize, u64),
    Decoder(usize, [u64; 7]),
    Number(usize, usize, u64),
    Fewer(usize),
    More(usize, [u64; 7]),
    Start(usize),
    Spacing(usize),
    Total(usize),
    TotalMore(usize),
    Size(usize, usize),
    Len(usize),
    /// How many records the source tells, the lent ones staying.
    Told(usize),
    Encoding(u32),
}

/// A decoder that is in range, or just outside.
pub fn decoder(rng: &mut Rng, evt3: bool) -> [u64; 7] {
    let (step, period, most) = if evt3 { (4096, 1u64 << 24, 1usize << 28) } else { (64, 1 << 34, 1 << 27) };
    let loops = rng.pick(&[0, 0, 1, 2, most / 2, most - 1, most]) as u64;
    let coarse = loops * period + rng.pick(&[0, 1, period / step - 1, period / step / 2]) * step;
    let time = coarse + rng.pick(&[0, 1, step - 1, step / 2]);
    let place = [rng.pick(&[0, 1, 7, 2047]), rng.pick(&[0, 10, 2047, 2048, 65524, 65535]), rng.pick(&[0, 1])];
    let [row, base, polarity] = if evt3 { place } else { [0; 3] };
    let mut d = [1, coarse, time, loops, row, base, polarity];
    if rng.chance(15) {
        d = [0; 7];
    }
    if rng.chance(15) {
        let at = rng.below(7);
        d[at] = rng.pick(&[0, 1, 2, 255, d[at].wrapping_add(1), d[at].wrapping_sub(1), d[at] + step, 2048, 65536, d[at] + period]);
    }
    d
}

impl Change {
    fn make(rng: &mut Rng, evt3: bool) -> Change {
        let at = rng.next() as usize;
        match rng.below(22) {
            0..=2 => Change::Counts(at, rng.pick(&[1, 2, 5, 100, 1 << 20, 1 << 33])),
            3..=5 => Change::Times(at, rng.pick(&[1, 2, 64, 4096, 1 << 24, 1 << 34, 1 << 62])),
            6..=9 => Change::Decoder(at, decoder(rng, evt3)),
            10 => Change::Number(at, rng.below(10), rng.wild()),
            11 => Change::Fewer(rng.below(4)),
            12 => Change::More(1 + rng.below(4), decoder(rng, evt3)),
            13 => Change::Start(if rng.chance(80) { rng.below(200) } else { rng.wild() as usize }),
            14 => Change::Spacing(making::spacing(rng, 1000)),
            15 => Change::Total(rng.wild() as usize),
            16..=17 => Change::TotalMore(rng.pick(&[1, 2, 50, 100_000, 1 << 33, 1 << 34])),
            18 => Change::Size(rng.pick(&[0, 1, 5, 64, 2048, 65536, usize::MAX]), rng.pick(&[1, 5, 64, 2048, 65536, usize::MAX])),
            19 => Change::Len(rng.wild() as usize),
            20 => Change::Told(if rng.chance(80) { rng.below(8) } else { rng.wild() as usize }),
            _ => Change::Encoding(making::compared_encoding(rng)),
        }
    }

    fn apply(&self, s: &mut Source, records: &mut Vec<Record>) {
        let n = records.len();
        let at = |j: &usize| j % n.max(1);
        match self {
            Change::Counts(j, k) => records.iter_mut().skip(at(j)).for_each(|r| r[1] = r[1].saturating_add(*k)),
            Change::Times(j, k) => records.iter_mut().skip(at(j)).for_each(|r| r[2] = r[2].saturating_add(*k)),
            Change::Decoder(j, d) if n > 0 => records[at(j)][3..].copy_from_slice(d),
            Change::Number(j, k, v) if n > 0 => records[at(j)][*k] = *v,
            Change::Fewer(k) => {
                records.truncate(n.saturating_sub(*k));
                s.records = records.len();
            }
            Change::More(k, d) => (0..*k).for_each(|_| more(s, records, d)),
            Change::Start(d) => replace(s.spacing, *d, s, records),
            Change::Spacing(k) => replace(*k, s.data_offset, s, records),
            Change::Total(k) => s.n_events = *k,
            Change::TotalMore(k) => s.n_events = s.n_events.saturating_add(*k),
            Change::Size(w, h) => (s.width, s.height) = (*w, *h),
            Change::Len(k) => s.len = *k,
            Change::Told(k) => s.records = *k,
            Change::Encoding(n) => s.encoding = *n,
            _ => {}
        }
    }
}

/// One more record, where the next one would stand.
fn more(s: &mut Source, records: &mut Vec<Record>, d: &[u64; 7]) {
    let place = s.data_offset.wrapping_add(records.len().wrapping_mul(s.spacing)) as u64;
    let [count, time] = records.last().map_or([0, 0], |r| [r[1], r[2]]);
    records.push([place, count, time, d[0], d[1], d[2], d[3], d[4], d[5], d[6]]);
    s.records = records.len();
}

/// Another start of the body or spacing, and the records at their places.
fn replace(spacing: usize, start: usize, s: &mut Source, records: &mut [Record]) {
    (s.spacing, s.data_offset) = (spacing, start);
    records.iter_mut().enumerate().for_each(|(j, r)| r[0] = start.wrapping_add(j.wrapping_mul(spacing)) as u64);
}

#[derive(Clone, Debug)]
pub struct Case {
    open: opening::Case,
    by_time: bool,
    /// Another recording lent to the slices.
    lent: Option<Vec<u8>>,
    changes: Vec<Change>,
    ends: Vec<Ends>,
    rooms: Vec<Room>,
    /// Records behind those that the source tells.
    behind: usize,
    last: bool,
}

/// A recording cut, lengthened, damaged, or another one.
fn other(rng: &mut Rng, bytes: &[u8], evt3: bool) -> Vec<u8> {
    let mut out = bytes.to_vec();
    match rng.below(5) {
        0 | 1 => out.truncate(rng.below(bytes.len() + 1)),
        2 => out.extend(making::words(rng, encoding(evt3))),
        3 => making::damage(rng, &mut out),
        _ => out = making::words(rng, encoding(evt3)),
    }
    out
}

impl Case {
    pub fn make(rng: &mut Rng) -> Case {
        let mut open = opening::Case::make(rng);
        if !table::spacing_ok(open.spacing, 2) {
            open.spacing = 4 * (1 + rng.below(200));
        }
        if open.words.is_none() && rng.chance(80) {
            open.bytes = making::good_recording(rng, &making::COMPARED);
        }
        open.size = open.size.filter(|(w, h)| *w > 0 && *h > 0);
        let evt3 = open.words.unwrap_or(table::head(&open.bytes).encoding == 3);
        let lent = rng.chance(40).then(|| other(rng, &open.bytes, evt3));
        let changes = if rng.chance(45) { (0..1 + rng.below(3)).map(|_| Change::make(rng, evt3)).collect() } else { Vec::new() };
        let few = 1 + rng.below(if open.bytes.len() > 20000 { 3 } else { 6 });
        Case {
            lent,
            changes,
            by_time: rng.chance(50),
            ends: (0..few).map(|_| Ends::make(rng)).collect(),
            rooms: (0..few).map(|_| Room::make(rng)).collect(),
            behind: if rng.chance(20) { rng.below(4) } else { 0 },
            last: rng.chance(70),
            open,
        }
    }

    fn kind(&self) -> usize {
        let what = if !self.changes.is_empty() {
            8
        } else if self.lent.is_some() {
            6
        } else {
            4
        };
        what + self.by_time as usize
    }

    fn bytes(&self) -> &[u8] {
        self.lent.as_ref().unwrap_or(&self.open.bytes)
    }

    fn lent_records(&self, i: &Index) -> Vec<Record> {
        i.records.iter().copied().chain((0..self.behind).map(Mark::mark)).collect()
    }

    pub fn check(&self, env: &mut Env) -> Result<(), String> {
        if let Some(why) = self.open.outside() {
            env.count_outside(self.kind(), why);
            return Ok(());
        }
        env.counts[self.kind()].cases += 1;
        let Expected::Late { index: Ok(mut index), .. } = self.open.expected(&env.original) else {
            env.counts[self.kind()].without += 1;
            return Ok(());
        };
        env.counts[self.kind()].ended += self.open.has_end_line() as u64;
        for c in &self.changes {
            c.apply(&mut index.source, &mut index.records);
        }
        let refused = table::slice_refusal(self.bytes().len(), &index.source, &self.lent_records(&index));
        if refused == 0 && (index.live.is_none() || self.lent.is_some() || !self.changes.is_empty()) {
            index.live = Some(env.original.altered(&index.source, &self.lent_records(&index), self.bytes()));
            index.unchanged = None;
        }
        for (room, ends) in self.rooms.iter().zip(&self.ends) {
            let ends = ends.resolved(&index, self.by_time);
            let (want, ruled) = if refused > 0 { (Err(refused), false) } else { self.expected(&index, ends)? };
            self.call(env, &index, ends, want, ruled, room)
                .map_err(|e| format!("from {} to {}, {room:?}: {e}", ends.0 as i64, ends.1 as i64))?;
        }
        Ok(())
    }

    /// The original's slice, and whether it comes from the rules alone.
    fn expected(&self, i: &Index, (a, b): (u64, u64)) -> Result<(Result<EventStream, u32>, bool), String> {
        let Some(live) = &i.live else { return Err("no source".to_owned()) };
        let few = i.source.n_events <= 1 << 24;
        if self.by_time {
            let out = slice_time(live, a as i64, b as i64, few);
            let same = i.unchanged.as_ref().is_none_or(|u| original::same_events(&slice_time(u, a as i64, b as i64, true), &out));
            return if same { Ok((Ok(out), false)) } else { Err("two builds of the original differ".to_owned()) };
        }
        let Some(end) = self.asked_end(i, (a, b)) else {
            return Ok((Ok(self.ruled(i, (a, b))), true));
        };
        let out = slice_number(live, a as usize, end);
        let same = i.unchanged.as_ref().is_none_or(|u| original::same_events(&u.slice_index(a as usize, end).expect("a slice"), &out));
        if same {
            Ok((Ok(out), false))
        } else {
            Err("two builds of the original differ".to_owned())
        }
    }

    /// An end that gives the same slice and that the original, which makes columns for end - start events, can be asked.
    fn asked_end(&self, i: &Index, (a, b): (u64, u64)) -> Option<usize> {
        let width = 1 << 24;
        let start = a.min(i.source.n_events as u64);
        let end = b.clamp(start, i.source.n_events as u64);
        if end - start <= width {
            return Some(b as usize);
        }
        let first = i.records[0][1].max(start);
        let most = most_events(i.evt3(), self.bytes().len()) as u64;
        (first + most < start + width).then_some((start + width) as usize)
    }

    /// The rule of docs/RULES.md for a slice by number over the original's decoder.
    fn ruled(&self, i: &Index, (a, b): (u64, u64)) -> EventStream {
        let start = a.min(i.source.n_events as u64);
        let end = b.clamp(start, i.source.n_events as u64);
        let from = i.records.iter().take(i.source.records).rev().find(|r| r[1] <= start).unwrap_or(&i.records[0]);
        let bytes = &self.bytes()[(from[0] as usize).min(self.bytes().len())..];
        let inside = |e: &RawEvent| (e.x as usize) < i.source.width && (e.y as usize) < i.source.height;
        let numbered = step(i.evt3(), Some(state_of(table::state(from))), bytes).1.into_iter().filter(inside).zip(from[1]..);
        let events: Vec<RawEvent> = numbered.filter(|(_, n)| (start..end).contains(n)).map(|(e, _)| e).collect();
        stream(i.source.width, i.source.height, &events)
    }

    fn call(
        &self,
        env: &mut Env,
        i: &Index,
        (a, b): (u64, u64),
        want: Result<EventStream, u32>,
        ruled: bool,
        room: &Room,
    ) -> Result<(), String> {
        let n = want.as_ref().map_or(3, |e| e.len());
        let lengths = room.lengths(n, most_events(i.evt3(), self.bytes().len()));
        let bytes = env.bytes.copy(self.bytes(), self.last);
        let given = self.lent_records(i);
        let records: &[Record] = env.records.copy(&given, self.last);
        let mut lent = env.board.lend(lengths, self.last);
        let got = if self.by_time {
            archive::slice_time(bytes, i.source, records, a as i64, b as i64, &mut lent)
        } else {
            archive::slice_index(bytes, i.source, records, a as usize, b as usize, &mut lent)
        };
        let (numbers, events) = match &want {
            Err(refusal) => (Slice { refusal: *refusal, ..Slice::default() }, None),
            Ok(e) if lengths.iter().any(|k| *k < e.len()) => (Slice { told: e.len(), count: 0, refusal: 5 }, None),
            Ok(e) => (Slice { told: 0, count: e.len(), refusal: 0 }, Some(e)),
        };
        same(got, numbers)?;
        columns_are(&lent, events)?;
        if records != given {
            return Err("the records were altered".to_owned());
        }
        env.count(self.kind(), got.refusal, got.count, ruled);
        Ok(())
    }

    pub fn smaller(&self) -> impl Iterator<Item = Case> + '_ {
        let several = 0..if self.ends.len() > 1 { self.ends.len() } else { 0 };
        let one = several.map(|k| Case { ends: vec![self.ends[k]], rooms: vec![self.rooms[k].clone()], ..self.clone() });
        let changed = fewer(&self.changes).map(|changes| Case { changes, ..self.clone() });
        let opened = fewer(&self.open.bytes).map(|bytes| Case { open: self.open.with_bytes(bytes), ..self.clone() });
        let lent = self.lent.iter().flat_map(|b| fewer(b)).map(|lent| Case { lent: Some(lent), ..self.clone() });
        one.chain(changed).chain(opened).chain(lent)
    }

    pub fn show(&self) -> String {
        let lent = self.lent.as_ref().map_or("itself".to_owned(), |b| hex(b));
        format!(
            "{} ends {:?} columns {:?} changes {:?} records behind {}\nlent {lent}\nindex of {}",
            KINDS[self.kind()],
            self.ends,
            self.rooms,
            self.changes,
            self.behind,
            self.open.show()
        )
    }
}

//! What is timed of EVT 2.1, against plain.rs. As in operations.rs each side runs once before and what both hand over is compared.
use crate::archive::{self, most_bytes, Columns, Lend, Lent};
use crate::memory::Mapped;
use crate::operations::*;
use crate::plain::{Checkpoint, Index, Writer};
use crate::recordings::Recording;
use crate::plain;
use std::cell::RefCell;

/// By the names of `OPERATIONS`; None: not for EVT 2.1.
pub fn operation(name: &str) -> Option<Operation> {
    Some(match name {
        "read" => read,
        "read_exact" => read_exact,
        "open" => open,
        "slice_index" => slice_index,
        "slice_time" => slice_time,
        "slice_time_exact" => slice_time_exact,
        "append" => append,
        "append_exact" => append_exact,
        _ => return None,
    })
}

fn size(r: &Recording) -> (usize, usize) {
    (r.width, r.height)
}

fn same(ours: &Lent, theirs: &Columns) {
    let n = theirs.xs.len();
    let places = ours.xs[..n] == theirs.xs[..] && ours.ys[..n] == theirs.ys[..];
    assert!(places && ours.ts[..n] == theirs.ts[..] && ours.ps[..n] == theirs.ps[..], "the columns differ");
}

/// Both write to the same lent columns: where columns lie decides much of the time.
fn read_places(r: &Recording, s: &Setup, c: &mut Lent, places: usize, n: usize) -> Times {
    let theirs = |w: Lent| plain::read(r.body(), size(r), w.xs, w.ys, w.ts, w.ps);
    let mut apart = Columns::new(n);
    spoil(c, n);
    assert_eq!(r.read(&mut c.first(places)), theirs(apart.lend()));
    same(c, &apart);
    let c = RefCell::new(c);
    pair(s.runs, || r.read(&mut c.borrow_mut().first(places)), || theirs(c.borrow_mut().first(places)))
}

fn read(r: &Recording, s: &Setup, c: &mut Lent) -> Times {
    let n = r.read(c);
    read_places(r, s, c, r.most(), n)
}

fn read_exact(r: &Recording, s: &Setup, c: &mut Lent) -> Times {
    let n = r.read(c);
    read_places(r, s, c, n, n)
}

fn same_record(r: &Recording, ours: &archive::Record, k: &Checkpoint) -> bool {
    let start = r.bytes().len() - r.body().len();
    let d = &k.decoder;
    let theirs = [(start + k.offset) as i64, k.events as i64, k.time, d.started as i64, d.coarse, d.time, d.loops, 0, 0, 0];
    *ours == theirs.map(|n| n as u64)
}

/// Both map the file and make the index of it.
fn open(r: &Recording, s: &Setup, _: &mut Lent) -> Times {
    let mut records = room(r, s.spacing);
    let source = open_in(r.bytes(), &mut records, s.spacing);
    let index = Index::new(r.body(), size(r), s.spacing);
    assert_eq!((source.records, source.n_events), (index.checkpoints.len(), index.events));
    assert!(records.iter().zip(&index.checkpoints).all(|(a, k)| same_record(r, a, k)), "the records differ");
    let ours = || open_in(Mapped::new(&r.path).bytes(), &mut records, s.spacing).n_events;
    let theirs = || {
        let mapped = Mapped::new(&r.path);
        let start = r.bytes().len() - r.body().len();
        Index::new(&mapped.bytes()[start..], size(r), s.spacing).events
    };
    pair(s.runs, ours, theirs)
}

/// Both indexes of a recording.
struct Both<'a> {
    source: archive::Source,
    records: Vec<archive::Record>,
    index: Index<'a>,
}

impl<'a> Both<'a> {
    fn new(r: &'a Recording, spacing: usize) -> Self {
        let mut records = room(r, spacing);
        let source = open_in(r.bytes(), &mut records, spacing);
        Both { source, records, index: Index::new(r.body(), size(r), spacing) }
    }
}

fn slice_index(r: &Recording, s: &Setup, c: &mut Lent) -> Times {
    let i = Both::new(r, s.spacing);
    let starts: Vec<usize> = scattered().iter().map(|v| *v as usize % (i.index.events - SLICE_EVENTS)).collect();
    let ours = |c: &mut Lent, a: usize| {
        archive::slice_index(r.bytes(), i.source, &i.records, a, a + SLICE_EVENTS, &mut c.first(SLICE_EVENTS)).count
    };
    let theirs = |a: usize| i.index.slice_index(a, a + SLICE_EVENTS);
    for a in &starts {
        spoil(c, SLICE_EVENTS);
        assert_eq!(ours(c, *a), SLICE_EVENTS);
        same(c, &theirs(*a));
    }
    let all = || starts.iter().map(|a| ours(c, *a)).sum();
    each(pair(s.runs, all, || starts.iter().map(|a| theirs(*a).xs.len()).sum()))
}

/// Each into columns of the length that `places` makes of the number of its events.
fn slice_times(r: &Recording, s: &Setup, c: &mut Lent, places: impl Fn(usize) -> usize) -> Times {
    let i = Both::new(r, s.spacing);
    let theirs = |a: i64| i.index.slice_time(a, a + SLICE_TIME);
    let start = |v: &u64| *v as i64 % i.index.time;
    let starts: Vec<(i64, usize)> = scattered().iter().map(start).map(|a| (a, places(theirs(a).xs.len()))).collect();
    let ours = |c: &mut Lent, (a, n): (i64, usize)| {
        archive::slice_time(r.bytes(), i.source, &i.records, a, a + SLICE_TIME, &mut c.first(n)).count
    };
    for q in &starts {
        let wanted = theirs(q.0);
        spoil(c, wanted.xs.len());
        assert_eq!(ours(c, *q), wanted.xs.len());
        same(c, &wanted);
    }
    let all = || starts.iter().map(|q| ours(c, *q)).sum();
    each(pair(s.runs, all, || starts.iter().map(|q| theirs(q.0).xs.len()).sum()))
}

fn slice_time(r: &Recording, s: &Setup, c: &mut Lent) -> Times {
    slice_times(r, s, c, |_| r.most())
}

fn slice_time_exact(r: &Recording, s: &Setup, c: &mut Lent) -> Times {
    slice_times(r, s, c, |n| n)
}

/// All lists to a fresh writer, over a vector that has its memory already.
fn append_theirs(lists: &[Columns], out: &mut Vec<u8>) -> usize {
    out.clear();
    let mut writer = Writer::default();
    lists.iter().for_each(|c| writer.append(c, out).unwrap());
    out.len()
}

fn appends(r: &Recording, s: &Setup, c: &mut Lent, exact: bool) -> Times {
    let lists = lists(r, c);
    let long = lists.len() * most_bytes(r.encoding, APPEND);
    let (mut out, mut warm) = (vec![0xEE; long], vec![0xEE; long]);
    let ends = if exact { ends(r, &lists, &mut out) } else { vec![long; lists.len()] };
    out.fill(0xEE);
    let n = append_theirs(&lists, &mut warm);
    assert_eq!(append_ours(r, &lists, &mut out, |k| ends[k]), n);
    assert!(out[..n] == warm[..], "the bytes differ");
    pair(s.runs, || append_ours(r, &lists, &mut out, |k| ends[k]), || append_theirs(&lists, &mut warm))
}

fn append(r: &Recording, s: &Setup, c: &mut Lent) -> Times {
    appends(r, s, c, false)
}

fn append_exact(r: &Recording, s: &Setup, c: &mut Lent) -> Times {
    appends(r, s, c, true)
}

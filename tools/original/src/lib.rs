//! What the original's prophesee_raw.rs stands on, as cut.py has cut it out of a checkout, and what our tools add to it:
//! a spacing of checkpoints that can be set, and `io::spaced::probe`, which sees private items.
#![allow(dead_code)]
use std::cell::Cell;

pub mod io;

include!("../cut/stream.rs");

thread_local! {
    static SPACING: Cell<Option<u64>> = const { Cell::new(None) };
}

/// What `io::spaced` takes as its spacing on this thread; None: what the original would take.
pub fn spacing() -> Option<u64> {
    SPACING.get()
}

pub fn set_spacing(n: Option<u64>) {
    SPACING.set(n);
}

/// A stream of these columns just as they are.
pub fn stream_of(width: usize, height: usize, xs: Vec<u16>, ys: Vec<u16>, ts: Vec<i64>, ps: Vec<bool>) -> EventStream {
    EventStreamBuilder::from_columns(width, height, 0.001, xs, ys, ts, ps).build()
}

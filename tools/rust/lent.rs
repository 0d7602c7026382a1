//! Random numbers, lent memory between pages that can't be touched, and the marks in it that tell whether it was altered.
#![allow(dead_code)]
use crate::archive::{Lent, Record};
use std::fmt::Write;
use std::sync::atomic::{AtomicU64, Ordering::Relaxed};

/// Random numbers that depend on the seed and the case alone.
pub struct Rng(u64);

fn mixed(x: u64) -> u64 {
    let x = (x ^ (x >> 30)).wrapping_mul(0xbf58476d1ce4e5b9);
    let x = (x ^ (x >> 27)).wrapping_mul(0x94d049bb133111eb);
    x ^ (x >> 31)
}

impl Rng {
    pub fn new(seed: u64, case: u64) -> Rng {
        Rng(mixed(mixed(seed.wrapping_add(0x9e3779b97f4a7c15)).wrapping_add(case)))
    }

    pub fn next(&mut self) -> u64 {
        self.0 = self.0.wrapping_add(0x9e3779b97f4a7c15);
        mixed(self.0)
    }

    /// A number below n; 0 for n = 0.
    pub fn below(&mut self, n: usize) -> usize {
        if n == 0 {
            0
        } else {
            (self.next() % n as u64) as usize
        }
    }

    pub fn chance(&mut self, percent: usize) -> bool {
        self.below(100) < percent
    }

    pub fn pick<T: Copy>(&mut self, of: &[T]) -> T {
        of[self.below(of.len())]
    }

    /// Any number of 64 bits, extreme ones often.
    pub fn wild(&mut self) -> u64 {
        let near = self.below(5) as u64;
        match self.below(8) {
            0 => near,
            1 => u64::MAX - near,
            2 => (1 << 63) + near - 2,
            3 => (1 << self.below(64)) + near,
            4 => (1u64 << self.below(64)).wrapping_sub(near),
            5 => self.next() >> self.below(64),
            6 => self.below(300) as u64,
            _ => self.next(),
        }
    }
}

const PAGE: usize = 4096;

extern "C" {
    fn mmap(at: *mut u8, n: usize, protection: i32, flags: i32, file: i32, offset: i64) -> *mut u8;
    fn mprotect(at: *mut u8, n: usize, protection: i32) -> i32;
    fn signal(number: i32, handler: usize) -> usize;
    fn alarm(seconds: u32) -> u32;
    fn write(file: i32, from: *const u8, n: usize) -> isize;
    fn _exit(status: i32) -> !;
}

/// Memory with a page before and one behind it that nobody may touch.
pub struct Region {
    at: *mut u8,
    bytes: usize,
}

impl Region {
    pub fn new(bytes: usize) -> Region {
        const NONE: i32 = 0;
        const READ_WRITE: i32 = 3;
        const PRIVATE_ANONYMOUS_NORESERVE: i32 = 0x4022;
        let bytes = bytes.div_ceil(PAGE) * PAGE;
        unsafe {
            let p = mmap(std::ptr::null_mut(), bytes + 2 * PAGE, NONE, PRIVATE_ANONYMOUS_NORESERVE, -1, 0);
            assert!(p as isize != -1, "no memory");
            assert_eq!(mprotect(p.add(PAGE), bytes, READ_WRITE), 0);
            Region { at: p.add(PAGE), bytes }
        }
    }

    /// The last n places, or the first ones: what lies behind or before them can't be touched.
    pub fn places<T: Copy>(&mut self, n: usize, last: bool) -> &mut [T] {
        let need = n * std::mem::size_of::<T>();
        assert!(need <= self.bytes, "a region of {} bytes is too small for {need}", self.bytes);
        let at = if last { self.bytes - need } else { 0 };
        unsafe { std::slice::from_raw_parts_mut(self.at.add(at).cast(), n) }
    }

    pub fn copy<T: Copy>(&mut self, from: &[T], last: bool) -> &mut [T] {
        let to = self.places(from.len(), last);
        to.copy_from_slice(from);
        to
    }

    /// n places, each with its mark.
    pub fn marked<T: Mark>(&mut self, n: usize, last: bool) -> &mut [T] {
        let to = self.places(n, last);
        to.iter_mut().enumerate().for_each(|(i, x)| *x = T::mark(i));
        to
    }
}

/// What a place holds before a call: no time of an event is negative, no polarity above 1.
pub trait Mark: Copy + PartialEq {
    fn mark(i: usize) -> Self;
}

impl Mark for u8 {
    fn mark(i: usize) -> u8 {
        (i as u8).wrapping_mul(37) | 0x80
    }
}

impl Mark for u16 {
    fn mark(i: usize) -> u16 {
        (i as u16).wrapping_mul(31) | 0x8000
    }
}

impl Mark for i64 {
    fn mark(i: usize) -> i64 {
        !(i as i64)
    }
}

impl Mark for Record {
    fn mark(i: usize) -> Record {
        std::array::from_fn(|k| !((i * 10 + k) as u64))
    }
}

/// No place from number `from` on was altered.
pub fn untouched<T: Mark>(s: &[T], from: usize) -> bool {
    s.iter().enumerate().skip(from).all(|(i, x)| *x == T::mark(i))
}

/// Regions for four columns.
pub struct Board {
    xs: Region,
    ys: Region,
    ts: Region,
    ps: Region,
}

impl Board {
    pub fn new(most: usize) -> Board {
        Board { xs: Region::new(2 * most), ys: Region::new(2 * most), ts: Region::new(8 * most), ps: Region::new(most) }
    }

    /// Columns of these lengths, all places with their marks.
    pub fn lend(&mut self, n: [usize; 4], last: bool) -> Lent<'_> {
        Lent {
            xs: self.xs.marked(n[0], last),
            ys: self.ys.marked(n[1], last),
            ts: self.ts.marked(n[2], last),
            ps: self.ps.marked(n[3], last),
        }
    }

    /// Columns with these entries.
    pub fn give(&mut self, xs: &[u16], ys: &[u16], ts: &[i64], ps: &[u8], last: bool) -> Lent<'_> {
        Lent { xs: self.xs.copy(xs, last), ys: self.ys.copy(ys, last), ts: self.ts.copy(ts, last), ps: self.ps.copy(ps, last) }
    }

    /// Columns of these lengths, whatever they hold.
    pub fn bare(&mut self, n: [usize; 4], last: bool) -> Lent<'_> {
        Lent {
            xs: self.xs.places(n[0], last),
            ys: self.ys.places(n[1], last),
            ts: self.ts.places(n[2], last),
            ps: self.ps.places(n[3], last),
        }
    }
}

/// No place of a column from number `from` on was altered.
pub fn columns_untouched(c: &Lent, from: usize) -> bool {
    untouched(c.xs, from) && untouched(c.ys, from) && untouched(c.ts, from) && untouched(c.ps, from)
}

static SEED: AtomicU64 = AtomicU64::new(0);
static CASE: AtomicU64 = AtomicU64::new(0);

struct Line([u8; 128], usize);

impl Write for Line {
    fn write_str(&mut self, s: &str) -> std::fmt::Result {
        for b in s.bytes() {
            if self.1 < self.0.len() {
                self.0[self.1] = b;
                self.1 += 1;
            }
        }
        Ok(())
    }
}

extern "C" fn died(number: i32) {
    let mut line = Line([0; 128], 0);
    let what = if number == 14 { "no answer within 5 minutes" } else { "a crash" };
    let _ = writeln!(line, "MISMATCH: {what} (signal {number}) in seed {} case {}", SEED.load(Relaxed), CASE.load(Relaxed));
    unsafe {
        write(1, line.0.as_ptr(), line.1);
        _exit(1)
    }
}

/// From now on a crash, or a case of over 5 minutes, names the case and ends the program with status 1.
pub fn watch(seed: u64) {
    SEED.store(seed, Relaxed);
    for number in [4, 6, 7, 8, 11, 14] {
        unsafe { signal(number, died as extern "C" fn(i32) as usize) };
    }
}

pub fn begin_case(case: u64) {
    CASE.store(case, Relaxed);
    unsafe { alarm(300) };
}

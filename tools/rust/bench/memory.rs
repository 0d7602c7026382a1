//! Memory for the benchmark: mapped files, long columns, and what the process has resident.
use crate::archive::Lent;
use std::os::fd::AsRawFd;

extern "C" {
    fn mmap(at: *mut u8, n: usize, protection: i32, flags: i32, file: i32, from: i64) -> *mut u8;
    fn munmap(at: *mut u8, n: usize) -> i32;
}
const READ: i32 = 1;
const WRITE: i32 = 2;
const SHARED: i32 = 1;
const PRIVATE: i32 = 2;
const ANONYMOUS: i32 = 0x20;
const NO_RESERVE: i32 = 0x4000;

/// A file's bytes, mapped as the original maps them.
pub struct Mapped(&'static [u8]);

impl Mapped {
    pub fn new(path: &str) -> Self {
        let file = std::fs::File::open(path).unwrap_or_else(|e| panic!("{path}: {e}"));
        let n = file.metadata().unwrap().len() as usize;
        let at = unsafe { mmap(std::ptr::null_mut(), n, READ, SHARED, file.as_raw_fd(), 0) };
        assert!(at as isize != -1, "{path} can't be mapped");
        Mapped(unsafe { std::slice::from_raw_parts(at, n) })
    }

    /// They are there for as long as the map is.
    pub fn bytes(&self) -> &[u8] {
        self.0
    }
}

impl Drop for Mapped {
    fn drop(&mut self) {
        unsafe { munmap(self.0.as_ptr().cast_mut(), self.0.len()) };
    }
}

/// A number, for which all zero bytes are a value.
pub trait Number: Copy {}
impl Number for u8 {}
impl Number for u16 {}
impl Number for i64 {}

const PAGE: usize = 4096;
const LINE: usize = 64;

/// n zeros from a page's given cache line on, until they are released. A page takes memory once it is written: columns that
/// are sure to hold a recording are much longer than what is written to them.
fn zeros<T: Number>(n: usize, line: usize) -> &'static mut [T] {
    let skip = line * LINE;
    let bytes = (n * std::mem::size_of::<T>()).max(1) + skip;
    unsafe {
        let at = mmap(std::ptr::null_mut(), bytes, READ | WRITE, PRIVATE | ANONYMOUS | NO_RESERVE, -1, 0);
        assert!(at as isize != -1, "no room for {bytes} bytes of addresses");
        std::slice::from_raw_parts_mut(at.add(skip).cast::<T>(), n)
    }
}

/// Each from a page on or, `apart`, from another line of one. Columns that begin at the same place of a page hinder each other:
/// whoever wrote to them took up to eight times as long. Those of the original, which allocates its own, do so too.
pub fn columns(n: usize, apart: bool) -> Lent<'static> {
    let line = apart as usize;
    Lent { xs: zeros(n, 0), ys: zeros(n, line), ts: zeros(n, 2 * line), ps: zeros(n, 3 * line) }
}

fn unmap<T>(part: &mut [T]) {
    let skip = part.as_ptr() as usize % PAGE;
    unsafe { munmap(part.as_mut_ptr().cast::<u8>().sub(skip), std::mem::size_of_val(part).max(1) + skip) };
}

pub fn release(c: Lent<'static>) {
    unmap(c.xs);
    unmap(c.ys);
    unmap(c.ts);
    unmap(c.ps);
}

/// A line of /proc/self/status, in KiB: `VmRSS` is resident now, `VmHWM` was at most.
pub fn kib(key: &str) -> usize {
    let status = std::fs::read_to_string("/proc/self/status").unwrap();
    let line = status.lines().find(|l| l.starts_with(key)).unwrap();
    line.split_whitespace().nth(1).unwrap().parse().unwrap()
}

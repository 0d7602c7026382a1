//! Compares the Rust original with this library's archive on random and damaged recordings, on lists of appends and
//! on single words.
//!   compare CASES [SEED]         all cases from 0 on
//!   compare CASES SEED CASE      this one alone
//! Recordings with a `%` behind the header's end line, which the original takes for one more header line, and recordings whose header names
//! EVT2.1, which it takes for EVT2, are not compared, only counted; so are the words of appends past EVT3's first loop, which it writes
//! without loops.
//! A line for each kind of call; exit status 1 at the first difference, with the smallest case found that shows one.
#[path = "compare/appending.rs"]
mod appending;
mod archive;
#[path = "compare/decoding.rs"]
mod decoding;
mod lent;
mod making;
#[path = "compare/opening.rs"]
mod opening;
#[path = "compare/original.rs"]
mod original;
#[path = "compare/reading.rs"]
mod reading;
#[path = "compare/shared.rs"]
mod shared;
#[path = "compare/slicing.rs"]
mod slicing;
mod table;

use lent::Rng;
use shared::{Count, Env, KINDS};
use std::panic::{catch_unwind, AssertUnwindSafe};

enum Case {
    Reading(reading::Case),
    Opening(opening::Case),
    Slicing(slicing::Case),
    Appending(appending::Case),
    Decoding(decoding::Case),
}

impl Case {
    fn make(rng: &mut Rng) -> Case {
        match rng.below(100) {
            0..=29 => Case::Reading(reading::Case::make(rng)),
            30..=44 => Case::Opening(opening::Case::make(rng)),
            45..=74 => Case::Slicing(slicing::Case::make(rng)),
            75..=91 => Case::Appending(appending::Case::make(rng)),
            _ => Case::Decoding(decoding::Case::make(rng)),
        }
    }

    fn run(&self, env: &mut Env) -> Result<(), String> {
        match self {
            Case::Reading(c) => c.check(env),
            Case::Opening(c) => c.check(env),
            Case::Slicing(c) => c.check(env),
            Case::Appending(c) => c.check(env),
            Case::Decoding(c) => c.check(env),
        }
    }

    /// A panic of the original counts as a difference.
    fn check(&self, env: &mut Env) -> Result<(), String> {
        catch_unwind(AssertUnwindSafe(|| self.run(env))).unwrap_or_else(|e| {
            let text = e.downcast_ref::<String>().cloned().or(e.downcast_ref::<&str>().map(|s| s.to_string()));
            Err(format!("panic: {}", text.unwrap_or_default()))
        })
    }

    fn smaller(&self) -> Box<dyn Iterator<Item = Case> + '_> {
        match self {
            Case::Reading(c) => Box::new(c.smaller().map(Case::Reading)),
            Case::Opening(c) => Box::new(c.smaller().map(Case::Opening)),
            Case::Slicing(c) => Box::new(c.smaller().map(Case::Slicing)),
            Case::Appending(c) => Box::new(c.smaller().map(Case::Appending)),
            Case::Decoding(c) => Box::new(c.smaller().map(Case::Decoding)),
        }
    }

    fn show(&self) -> String {
        match self {
            Case::Reading(c) => c.show(),
            Case::Opening(c) => c.show(),
            Case::Slicing(c) => c.show(),
            Case::Appending(c) => c.show(),
            Case::Decoding(c) => c.show(),
        }
    }
}

/// The smallest case found that still differs, and how.
fn smallest(mut case: Case, mut how: String, env: &mut Env) -> (Case, String) {
    let mut tries = 20000;
    loop {
        let found = case.smaller().take(tries).inspect(|_| tries -= 1).find_map(|c| c.check(env).err().map(|e| (c, e)));
        match found {
            Some(next) => (case, how) = next,
            None => return (case, how),
        }
    }
}

fn line(name: &str, c: &Count) -> String {
    let mut out = format!("{name}: {} cases, {} calls: {} accepted ({} not empty)", c.cases, c.calls, c.answers[0], c.filled);
    for (n, k) in c.answers.iter().enumerate().skip(1).filter(|(_, k)| **k > 0) {
        out.push_str(&format!(", {k} refused {n}"));
    }
    let what = match name.split([' ', ',']).next() {
        Some("open" | "open_words") => "records",
        Some("append") => "bytes",
        Some("parse_header") => "sizes",
        Some("decoder_after") => "words",
        _ => "events",
    };
    out.push_str(&format!("; {} {what}", c.items));
    if c.ruled > 0 {
        out.push_str(&format!("; {} by the rules over the original's decoder", c.ruled));
    }
    if c.without > 0 {
        out.push_str(&format!("; {} cases without a call, opening being refused", c.without));
    }
    if c.ended > 0 {
        out.push_str(&format!("; {} cases with an end line", c.ended));
    }
    if c.percent > 0 {
        out.push_str(&format!("; {} cases without a call, a % standing behind the end line", c.percent));
    }
    if c.evt21 > 0 {
        out.push_str(&format!("; {} cases without a call, the header naming EVT2.1", c.evt21));
    }
    if c.looped > 0 {
        out.push_str(&format!("; {} appends not compared, past EVT3's first loop", c.looped));
    }
    format!("{out}; 0 mismatches")
}

fn report(counts: &[Count], seed: u64, cases: u64) {
    for (name, c) in KINDS.iter().zip(counts) {
        println!("{}", line(name, c));
    }
    let sum = |f: fn(&Count) -> u64| counts.iter().map(f).sum::<u64>();
    let [calls, percent, evt21] = [sum(|c| c.calls), sum(|c| c.percent), sum(|c| c.evt21)];
    let left = format!("{} of them not compared ({percent} with a % behind the end line, {evt21} others that name EVT2.1)", percent + evt21);
    let looped = format!("{} more appends not compared, past EVT3's first loop", sum(|c| c.looped));
    println!("seed {seed}: {cases} cases, {left}, {calls} calls, {looped}, 0 mismatches");
}

fn differs(seed: u64, number: u64, case: Case, how: String, env: &mut Env) -> ! {
    println!("MISMATCH in seed {seed} case {number}: {how}");
    let (small, how) = smallest(case, how, env);
    println!("smallest: {how}\n{}", small.show());
    env.original.done();
    std::process::exit(1)
}

fn main() {
    let args: Vec<u64> = std::env::args().skip(1).map(|a| a.parse().expect("numbers")).collect();
    let [cases, seed] = [args.first().copied().unwrap_or(1_000_000), args.get(1).copied().unwrap_or(1)];
    let which = args.get(2).map_or(0..cases, |n| *n..*n + 1);
    let mut env = Env::new();
    lent::watch(seed);
    std::panic::set_hook(Box::new(|_| {}));
    for number in which.clone() {
        lent::begin_case(number);
        let case = Case::make(&mut Rng::new(seed, number));
        if args.len() > 2 {
            println!("{}", case.show());
        }
        if let Err(how) = case.check(&mut env) {
            differs(seed, number, case, how, &mut env);
        }
    }
    report(&env.counts, seed, which.end - which.start);
    env.original.done();
}

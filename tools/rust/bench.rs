//! Times this library's archive and the Rust original in one process, on the same bytes: tools/bench.sh builds
//! it and says how it is called. bench/operations.rs has what is timed and how; bench/evt21.rs has it for EVT2.1,
//! where a plain loop (bench/plain.rs) stands in for the original.
mod archive;
#[path = "bench/evt21.rs"]
mod evt21;
#[path = "bench/generating.rs"]
mod generating;
#[path = "bench/memory.rs"]
mod memory;
#[path = "bench/numbers.rs"]
mod numbers;
#[path = "bench/operations.rs"]
mod operations;
#[path = "bench/plain.rs"]
mod plain;
#[path = "bench/plot.rs"]
mod plot;
#[path = "bench/recordings.rs"]
mod recordings;

use operations::{Operation, Setup, Times, OPERATIONS, SPACING, STACK};
use recordings::{recording, Recording, RECORDINGS};

#[derive(Default)]
struct Asked {
    dir: String,
    only: Vec<String>,
    files: Vec<String>,
    runs: Option<usize>,
    mib: Option<usize>,
    spacing: Option<usize>,
    table: Option<String>,
    plot: Option<String>,
}

fn asked() -> Asked {
    let mut a = Asked::default();
    let mut words = std::env::args().skip(1);
    while let Some(word) = words.next() {
        if !word.starts_with("--") {
            a.dir = word;
            continue;
        }
        let value = words.next().unwrap_or_else(|| panic!("{word} needs a value"));
        let list = || value.split(',').map(str::to_owned).collect();
        let number = || Some(value.parse().unwrap_or_else(|_| panic!("{word} {value}: no number")));
        match word.as_str() {
            "--only" => a.only = list(),
            "--files" => a.files = list(),
            "--runs" => a.runs = number(),
            "--mib" => a.mib = number(),
            "--spacing" => a.spacing = number(),
            "--table" => a.table = Some(value),
            "--plot" => a.plot = Some(value),
            _ => panic!("unknown: {word}"),
        }
    }
    a.only.iter().for_each(|o| assert!(["memory", "triggers", "numbers"].contains(&o.as_str()) || OPERATIONS.iter().any(|k| k.0 == o), "no operation: {o}"));
    a.files.iter().for_each(|f| assert!(RECORDINGS.iter().any(|k| k.0 == f), "no recording: {f}"));
    a
}

fn wanted(list: &[String], name: &str) -> bool {
    list.is_empty() || list.iter().any(|l| l == name)
}

fn scaled(seconds: f64, unit: &str) -> f64 {
    seconds * if unit == "ms" { 1e3 } else { 1e6 }
}

/// Three digits, or all before the point.
fn digits(v: f64) -> String {
    let after = if v < 10.0 { 2 } else if v < 100.0 { 1 } else { 0 };
    format!("{v:.after$}")
}

fn told(op: &str, unit: &str, t: Times, beside: &str) -> String {
    let (ours, theirs) = (digits(scaled(t.ours, unit)), digits(scaled(t.original, unit)));
    format!("{op:<17} ours {ours:>7} {unit}  {beside} {theirs:>7} {unit}  ratio {:.2}", t.ours / t.original)
}

/// Reading with trigger columns: how many words lie between triggers, and whether the columns have just the places needed.
const TRIGGERS: [(&str, Option<usize>, bool); 5] = [
    ("no trigger", None, false),
    ("no trigger, columns of 0", None, true),
    ("a trigger every 1,000 words", Some(1_000), false),
    ("a trigger every 1,000 words, columns of just the places", Some(1_000), true),
    ("a trigger every 10 words", Some(10), false),
];

fn beside(says: &str, t: Times) -> String {
    let (with, without) = (digits(scaled(t.ours, "ms")), digits(scaled(t.original, "ms")));
    format!("triggers          with {with:>7} ms  without {without:>7} ms  ratio {:.2}  {says}", t.ours / t.original)
}

/// The operations that are asked for, of one recording; a line for each.
fn measure(a: &Asked, name: &str) -> Vec<Option<Times>> {
    let r = Recording::new(&recording(&a.dir, name, a.mib));
    let s = Setup { runs: a.runs.unwrap_or(9), spacing: a.spacing.unwrap_or(SPACING) };
    let plain = r.encoding == archive::EVT21;
    let mut columns = memory::columns(r.most(), plain); // the plain loop writes to the same
    let mut one = |(op, unit, _, f): &(&str, &str, &str, Operation)| {
        let f = if plain { evt21::operation(op) } else { Some(*f) }.filter(|_| wanted(&a.only, op))?;
        let t = f(&r, &s, &mut columns);
        println!("{name:<10} {}", told(op, unit, t, if plain { "plain loop" } else { "original" }));
        Some(t)
    };
    let times = OPERATIONS.iter().map(&mut one).collect();
    if wanted(&a.only, "triggers") {
        for (says, every, exact) in TRIGGERS {
            let t = operations::triggers(&r, &s, &mut columns, every, exact);
            println!("{name:<10} {}", beside(says, t));
        }
    }
    if wanted(&a.only, "memory") {
        let (before, after) = operations::memory_gained(&r, &mut columns);
        println!("{name:<10} memory            resident {before} KiB; after all our calls again, in {} KiB of stack, {after} KiB", STACK >> 10);
    }
    memory::release(columns);
    times
}

fn cell(t: &Option<Times>, unit: &str) -> String {
    let Some(t) = t else { return String::new() };
    format!("{} / {} {unit} = {:.2}", digits(scaled(t.ours, unit)), digits(scaled(t.original, unit)), t.ours / t.original)
}

/// The table as Markdown: ours / the original's time, in EVT2.1 the plain loop's, = ratio.
fn table(files: &[&str], times: &[Vec<Option<Times>>]) -> String {
    let head = "ours / the original (EVT2.1: a plain loop) = ratio";
    let mut text = format!("| {head} | {} |\n|---|{}\n", files.join(" | "), "---|".repeat(files.len()));
    for (k, (op, unit, says, _)) in OPERATIONS.iter().enumerate() {
        let cells: Vec<String> = times.iter().map(|t| cell(&t[k], unit)).collect();
        if cells.iter().any(|c| !c.is_empty()) {
            text += &format!("| `{op}`: {says} | {} |\n", cells.join(" | "));
        }
    }
    text
}

/// Reading and opening of 2^k MiB.
fn point(a: &Asked, k: usize) -> (usize, Times, Times) {
    let path = recording(&a.dir, "evt3long", Some(1 << k));
    let r = Recording::new(&path);
    let s = Setup { runs: a.runs.unwrap_or((512 >> k).clamp(5, 50)), spacing: SPACING };
    let mut columns = memory::columns(r.most(), false);
    let (reading, opening) = (operations::read(&r, &s, &mut columns), operations::open(&r, &s, &mut columns));
    memory::release(columns);
    std::fs::remove_file(&path).unwrap();
    for (op, t) in [("read", reading), ("open", opening)] {
        println!("{:>4} MiB   {}", 1 << k, told(op, "ms", t, "original"));
    }
    (1 << (k + 20), reading, opening)
}

fn main() {
    let a = asked();
    if let Some(path) = &a.plot {
        let last = a.mib.unwrap_or(1024).ilog2() as usize;
        let points: Vec<_> = (0..=last).map(|k| point(&a, k)).collect();
        std::fs::write(path, plot::svg(&points)).unwrap();
        return;
    }
    if wanted(&a.only, "numbers") {
        for (says, t) in numbers::measure(a.runs.unwrap_or(999)) {
            println!("numbers           ours {:>7.2} ns  parse {:>7.2} ns  ratio {:.2}  {says}", t.ours * 1e9, t.original * 1e9, t.ours / t.original);
        }
    }
    if a.only == ["numbers"] {
        return;
    }
    let files: Vec<_> = RECORDINGS.iter().filter(|f| wanted(&a.files, f.0)).collect();
    let times: Vec<_> = files.iter().map(|f| measure(&a, f.0)).collect();
    println!("peak of resident memory, both sides, recordings and columns: {} MiB", memory::kib("VmHWM") / 1024);
    if let Some(path) = &a.table {
        let names: Vec<&str> = files.iter().map(|f| f.1).collect();
        let text = table(&names, &times);
        if path == "-" { print!("{text}") } else { std::fs::write(path, text).unwrap() }
    }
}

//! Numbers in texts, beside `str::parse`, with which the original reads the halves of a geometry. That tells no place.
use crate::archive;
use crate::operations::Times;
use std::hint::black_box;
use std::time::Instant;

/// Sides of sensors; twenty digits; sides with a letter behind the second digit and up to 29 digits behind that.
fn lists() -> [(&'static str, Vec<String>); 3] {
    let each = |f: &dyn Fn(usize) -> String| (0..1000).map(f).collect();
    [
        ("three or four digits", each(&|k| (100 + k * 37 % 2000).to_string())),
        ("twenty digits", each(&|k| (usize::MAX - k * 1_234_567).to_string())),
        ("bad at the third byte", each(&|k| format!("{}a{}", 10 + k % 80, "7".repeat(k % 30)))),
    ]
}

/// Seconds for one text, best of the runs, and the sum of the values, 1 for a text that has none.
fn best(runs: usize, texts: &[String], read: impl Fn(&str) -> Option<usize>) -> (f64, usize) {
    let (mut least, mut sum) = (f64::MAX, 0);
    for _ in 0..runs {
        let began = Instant::now();
        sum = texts.iter().fold(0, |n: usize, t| n.wrapping_add(read(black_box(t)).unwrap_or(1)));
        least = least.min(began.elapsed().as_secs_f64() / texts.len() as f64);
    }
    (least, sum)
}

fn ours(text: &str) -> Option<usize> {
    let n = archive::read_number(text.as_bytes());
    (n.valid == 1).then_some(n.value)
}

pub fn measure(runs: usize) -> Vec<(&'static str, Times)> {
    let one = |(says, texts): (&'static str, Vec<String>)| {
        let (a, b) = (best(runs, &texts, ours), best(runs, &texts, |t| t.parse().ok()));
        assert_eq!(a.1, b.1, "{says}: other values");
        (says, Times { ours: a.0, original: b.0 })
    };
    lists().into_iter().map(one).collect()
}

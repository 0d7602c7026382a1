//! Time against length as an SVG: reading and opening, ours and the original's, both axes logarithmic.
use crate::operations::Times;

const WIDTH: f64 = 380.0;
const HEIGHT: f64 = 300.0;
const TOP: f64 = 60.0;
const COLOURS: [(&str, &str); 2] = [("#0b6e99", "this library"), ("#c8553d", "the Rust original")];

/// What both panels span: MiB as powers of two, seconds as powers of ten.
struct Span {
    last: f64,
    low: f64,
    high: f64,
}

impl Span {
    fn x(&self, mib: f64) -> f64 {
        mib.log2() / self.last * WIDTH
    }

    fn y(&self, seconds: f64) -> f64 {
        TOP + HEIGHT * (self.high - seconds.log10()) / (self.high - self.low)
    }
}

fn text(x: f64, y: f64, anchor: &str, words: &str) -> String {
    format!("<text x=\"{x:.1}\" y=\"{y:.1}\" text-anchor=\"{anchor}\">{words}</text>\n")
}

fn line(x: f64, y: f64, to_x: f64, to_y: f64) -> String {
    format!("<path d=\"M{x:.1} {y:.1}L{to_x:.1} {to_y:.1}\" stroke=\"#d0d0d0\"/>\n")
}

/// Lines at every fourfold length and every tenfold time, with their names.
fn grid(s: &Span) -> String {
    let mut out = String::new();
    for k in (0..=s.last as i32).step_by(2) {
        let x = s.x(f64::from(1 << k));
        out += &line(x, TOP, x, TOP + HEIGHT);
        out += &text(x, TOP + HEIGHT + 18.0, "middle", &(1 << k).to_string());
    }
    for k in s.low as i32..=s.high as i32 {
        let y = s.y(10f64.powi(k));
        let name = if k < 0 { format!("{} ms", 10f64.powi(k + 3)) } else { format!("{} s", 10f64.powi(k)) };
        out += &line(0.0, y, WIDTH, y);
        out += &text(-6.0, y + 4.0, "end", &name);
    }
    out + &text(WIDTH / 2.0, TOP + HEIGHT + 38.0, "middle", "MiB")
}

fn curve(s: &Span, points: &[(f64, f64)], colour: &str) -> String {
    let at: Vec<String> = points.iter().map(|(x, y)| format!("{:.1} {:.1}", s.x(*x), s.y(*y))).collect();
    let dots = points.iter().map(|(x, y)| format!("<circle cx=\"{:.1}\" cy=\"{:.1}\" r=\"3\" fill=\"{colour}\"/>\n", s.x(*x), s.y(*y)));
    format!("<path d=\"M{}\" stroke=\"{colour}\" stroke-width=\"2\" fill=\"none\"/>\n", at.join("L")) + &dots.collect::<String>()
}

fn panel(s: &Span, left: f64, title: &str, points: &[(usize, Times)]) -> String {
    let mib = |n: usize| n as f64 / f64::from(1 << 20);
    let ours: Vec<_> = points.iter().map(|(n, t)| (mib(*n), t.ours)).collect();
    let theirs: Vec<_> = points.iter().map(|(n, t)| (mib(*n), t.original)).collect();
    let curves = curve(s, &theirs, COLOURS[1].0) + &curve(s, &ours, COLOURS[0].0);
    format!("<g transform=\"translate({left} 0)\">\n{}{}{curves}</g>\n", text(0.0, TOP - 12.0, "start", title), grid(s))
}

fn key() -> String {
    let entry = |(k, (colour, name)): (usize, &(&str, &str))| {
        let x = 70.0 + 150.0 * k as f64;
        format!("<path d=\"M{x} 20h24\" stroke=\"{colour}\" stroke-width=\"2\"/>\n") + &text(x + 30.0, 24.0, "start", name)
    };
    COLOURS.iter().enumerate().map(entry).collect()
}

/// The points of a curve: length in bytes, reading, opening.
pub fn svg(points: &[(usize, Times, Times)]) -> String {
    let all = || points.iter().flat_map(|p| [p.1.ours, p.1.original, p.2.ours, p.2.original]);
    let (least, most) = (all().fold(f64::MAX, f64::min), all().fold(0.0, f64::max));
    let last = (points.last().unwrap().0 as f64).log2() - 20.0;
    let s = Span { last, low: least.log10().floor(), high: most.log10().ceil() };
    let reading: Vec<_> = points.iter().map(|p| (p.0, p.1)).collect();
    let opening: Vec<_> = points.iter().map(|p| (p.0, p.2)).collect();
    format!(
        "<svg xmlns=\"http://www.w3.org/2000/svg\" viewBox=\"0 0 940 420\" font-family=\"sans-serif\" font-size=\"13\" fill=\"#222\">\n\
         <rect width=\"940\" height=\"420\" fill=\"#fff\"/>\n{}{}{}</svg>\n",
        key(),
        panel(&s, 70.0, "Reading EVT3 into columns", &reading),
        panel(&s, 530.0, "Opening EVT3 (index, spacing 65,536)", &opening)
    )
}

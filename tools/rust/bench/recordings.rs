//! The recordings that both sides are timed on.
use crate::archive::{self, most_of_word, word_size, Lend, Options, EVT21};
use crate::generating;
use crate::memory::Mapped;
use eventcv::io::prophesee_raw as original;
use eventcv::io::spaced::probe;

/// Name of the file, and what the table calls it.
pub const RECORDINGS: [(&str, &str); 6] = [
    ("evt2", "EVT2"),
    ("evt3", "EVT3 typical"),
    ("evt3dense", "EVT3 dense"),
    ("evt3long", "EVT3 typical, 1 GiB"),
    ("evt21", "EVT2.1 sparse"),
    ("evt21dense", "EVT2.1 dense"),
];

pub struct Recording {
    pub path: String,
    mapped: Mapped,
    data_offset: usize,
    pub encoding: u32,
    pub evt3: bool,
    pub width: usize,
    pub height: usize,
}

impl Recording {
    pub fn new(path: &str) -> Self {
        let head = probe::header(path.as_ref(), None).unwrap();
        let (width, height) = head.size.unwrap();
        let mapped = Mapped::new(path);
        // the original takes EVT2.1 for EVT2
        let encoding = if mapped.bytes().starts_with(b"% format EVT21\n") { EVT21 } else { archive::encoding(head.evt3) };
        Recording { path: path.to_owned(), mapped, data_offset: head.start, encoding, evt3: head.evt3, width, height }
    }

    pub fn bytes(&self) -> &[u8] {
        self.mapped.bytes()
    }

    pub fn body(&self) -> &[u8] {
        &self.bytes()[self.data_offset..]
    }

    /// Columns of this many places are sure to hold its events.
    pub fn most(&self) -> usize {
        self.bytes().len() / word_size(self.encoding) * most_of_word(self.encoding)
    }

    pub fn version(&self) -> original::EvtVersion {
        if self.evt3 { original::EvtVersion::Evt3 } else { original::EvtVersion::Evt2 }
    }

    pub fn read(&self, c: &mut impl Lend) -> usize {
        let r = archive::read_raw(self.bytes(), Options::default(), c);
        assert_eq!(r.refusal, 0);
        r.count
    }
}

/// A gibibyte: the typical recording again and again, its clock going on from one to the next.
fn make_long(dir: &str, path: &str) {
    let bytes = std::fs::read(format!("{dir}/evt3.raw")).unwrap();
    let start = Recording::new(&format!("{dir}/evt3.raw")).data_offset;
    let words: Vec<u16> = bytes[start..].chunks_exact(2).map(|b| u16::from_le_bytes([b[0], b[1]])).collect();
    let coarse = |w: &u16| *w >> 12 == 8;
    let step = words.iter().rev().find(|w| coarse(w)).unwrap() + 1;
    let mut out = bytes[..start].to_vec();
    out.reserve_exact((1 << 30) - start);
    for k in 0u16.. {
        let later = |w: &u16| if coarse(w) { 0x8000 | w.wrapping_add(step.wrapping_mul(k)) & 0xFFF } else { *w };
        let left = ((1 << 30) - out.len()) / 2;
        out.extend(words.iter().take(left).flat_map(|w| later(w).to_le_bytes()));
        if left <= words.len() {
            break;
        }
    }
    put(path, &out);
}

/// Under its name only once it is whole: another process may have it mapped.
fn put(path: &str, bytes: &[u8]) {
    let part = format!("{path}.{}", std::process::id());
    std::fs::write(&part, bytes).unwrap();
    std::fs::rename(&part, path).unwrap();
}

fn exists(path: &str) -> bool {
    std::path::Path::new(path).exists()
}

/// The path of a recording, or of its first `mib` MiB.
pub fn recording(dir: &str, name: &str, mib: Option<usize>) -> String {
    let path = format!("{dir}/{name}.raw");
    let keep = |made: &[(&str, Vec<u8>)]| made.iter().for_each(|(name, bytes)| put(&format!("{dir}/{name}.raw"), bytes));
    if name.starts_with("evt21") {
        if !exists(&format!("{dir}/evt21dense.raw")) {
            keep(&generating::all21());
        }
    } else if !exists(&format!("{dir}/evt3dense.raw")) {
        keep(&generating::all());
    }
    if name == "evt3long" && !exists(&path) {
        make_long(dir, &path);
    }
    let Some(mib) = mib else { return path };
    let part = format!("{dir}/{name}-{mib}.raw");
    if !exists(&part) {
        let whole = Mapped::new(&path);
        put(&part, &whole.bytes()[..whole.bytes().len().min(mib << 20)]);
    }
    part
}

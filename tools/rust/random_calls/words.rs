//! Decoders and single words.
use crate::archive::{self, most_of_word, word_size, Decoded, Decoder, Event, Next, Stepped, Trigger, Vector, EVT21};
use crate::lent::Rng;
use crate::*;

fn wild_decoder(rng: &mut Rng) -> Decoder {
    Decoder {
        time_base: rng.wild(),
        time: rng.wild(),
        high_loops: rng.wild(),
        encoding: making::encoding(rng),
        y: rng.wild() as u16,
        base_x: rng.wild() as u16,
        initialised: rng.pick(&[0, 1, 1, 2]),
        polarity: rng.pick(&[0, 1, 1, 2]),
    }
}

/// A fresh decoder, one that has decoded words, one with a number altered, or any numbers at all.
pub fn any_decoder(rng: &mut Rng) -> Decoder {
    if rng.chance(15) {
        return wild_decoder(rng);
    }
    let encoding = rng.pick(&making::KNOWN);
    let mut d = archive::new_decoder(encoding);
    if rng.chance(80) {
        d = archive::decoder_after(d, &making::words(rng, encoding)).decoder;
    }
    let (wild, step) = (rng.wild(), if encoding == 3 { 1 << 24 } else { 1 << 34 });
    match rng.below(24) {
        0 => d.time_base = wild,
        1 => d.time = rng.pick(&[wild, d.time.wrapping_add(1)]),
        2 => d.high_loops = wild,
        3 => d.encoding = making::encoding(rng),
        4 => d.y = rng.pick(&[wild as u16, 2047, 2048]),
        5 => d.base_x = wild as u16,
        6 => d.initialised = wild as u8,
        7 => d.polarity = wild as u8,
        // the last loop but k that is in range, and one more
        8..=11 if d.initialised == 1 => {
            let more = (if encoding == 3 { 1 << 28 } else { 1 << 27 }) - d.high_loops + 1 - rng.below(3) as u64;
            d.high_loops += more;
            d.time_base += more * step;
            d.time += more * step;
        }
        // the last loop whose times a writer takes, and the next one
        12 | 13 if d.initialised == 1 => {
            let loops = (table::TIMES as u64 / step) - rng.below(2) as u64;
            d.time_base = d.time_base % step + loops * step;
            d.time = d.time % step + loops * step;
            d.high_loops = loops;
        }
        _ => {}
    }
    d
}

/// The first event and the rest, as the header file says it.
fn first_event(v: Vector) -> Next {
    if v.mask == 0 {
        return Next::default();
    }
    let x = (v.x as u32 + v.mask.trailing_zeros()).min(65535) as u16;
    Next { rest: Vector { mask: v.mask & (v.mask - 1), ..v }, event: Event { t: v.t, x, y: v.y, p: v.p }, some: 1 }
}

/// The trigger of a word, by bit position.
fn trigger_told(d: &Decoder, word: &[u8]) -> Trigger {
    if !table::decoder_ok(d) {
        return Trigger { refusal: 10, ..Trigger::default() };
    }
    let w = word.iter().rev().fold(0u64, |w, b| w << 8 | *b as u64);
    let (size, kind) = (word_size(d.encoding), w >> (word.len().max(1) * 8 - 4));
    if word.len() < size || kind != 10 || d.initialised == 0 {
        return Trigger::default();
    }
    let w = if d.encoding == EVT21 { w >> 32 } else { w }; // the high half, laid out as in EVT2
    let (t, ids) = if d.encoding == 3 { (d.time, 16) } else { (d.time_base + (w >> 22 & 63), 32) };
    Trigger { t: t as i64, refusal: 0, id: (w >> 8) as u8 % ids, value: w as u8 & 1, some: 1 }
}

fn decoded_allowed(r: &Decoded, given: &Decoder, bytes: &[u8]) -> Checked {
    if !table::decoder_ok(given) {
        return same(*r, Decoded { decoder: *given, events: Vector::default(), refusal: 10 });
    }
    let v = &r.events;
    ensure(r.refusal == 0 && r.decoder.encoding == given.encoding && table::decoder_made(&r.decoder), "a decoder that no word makes")?;
    ensure((v.mask as u64) < 1 << most_of_word(given.encoding) && v.p <= 1 && v.t >= 0 && v.y <= 2047, "events out of range")?;
    ensure(given.encoding == 3 || v.x <= 2047, "a column out of range")?;
    ensure(v.mask == 0 || (v.t as u64, given.initialised) == (r.decoder.time, 1), "events of another time")?;
    let broken = bytes.len() < word_size(given.encoding);
    ensure(!broken || (r.decoder == *given && v.mask == 0), "less than a word did something")
}

impl Env {
    pub fn new_decoder(&mut self) -> Checked {
        let encoding = making::encoding(&mut self.rng);
        same(archive::new_decoder(encoding), Decoder { encoding, ..Decoder::default() })?;
        self.count(Name::NewDecoder, 0)
    }

    pub fn decoding(&mut self) -> Checked {
        let d = any_decoder(&mut self.rng);
        let encoding = if self.rng.chance(90) { d.encoding } else { self.rng.pick(&making::KNOWN) };
        let mut given = making::words(&mut self.rng, encoding);
        given.truncate(1 << 16);
        let words = Bytes::of(&mut self.rng, given);
        let events = self.decode(d, &words)?;
        self.next_events(events)?;
        let any = Vector {
            t: self.rng.wild() as i64,
            mask: self.rng.wild() as u32,
            x: self.rng.wild() as u16,
            y: self.rng.wild() as u16,
            p: self.rng.wild() as u8,
        };
        self.next_events(any)?;
        self.after(d, &words)
    }

    fn decode(&mut self, d: Decoder, words: &Bytes) -> Result<Vector, String> {
        let bytes = words.lend(&mut self.bytes, &mut self.long);
        let r = archive::decode(d, bytes);
        decoded_allowed(&r, &d, bytes)?;
        let word = &bytes[..word_size(d.encoding).min(bytes.len())];
        ensure(archive::decode(d, bytes) == r && archive::decode(d, word) == r, "two answers to one call, or to one word")?;
        ensure(archive::decoder_after(d, word) == Stepped { decoder: r.decoder, refusal: r.refusal }, "another decoder after the word")?;
        let g = archive::word_trigger(d, bytes);
        same(g, trigger_told(&d, word))?;
        words.unaltered(bytes)?;
        self.count(Name::Decode, r.refusal)?;
        self.count(Name::WordTrigger, g.refusal)?;
        Ok(r.events)
    }

    /// All events of a vector: one for each bit, and none behind them.
    fn next_events(&mut self, mut v: Vector) -> Checked {
        for _ in 0..=v.mask.count_ones() {
            let got = archive::next_event(v);
            same(got, first_event(v))?;
            self.count(Name::NextEvent, 0)?;
            v = got.rest;
        }
        Ok(())
    }

    /// All words at once, and in two parts.
    fn after(&mut self, d: Decoder, words: &Bytes) -> Checked {
        let bytes = words.lend(&mut self.bytes, &mut self.long);
        let refusal = match bytes.len() > table::LONGEST {
            true => 4,
            false if !table::decoder_ok(&d) => 10,
            false => 0,
        };
        let whole = archive::decoder_after(d, bytes);
        ensure(archive::decoder_after(d, bytes) == whole, "two answers to one call")?;
        if refusal > 0 {
            same(whole, Stepped { decoder: d, refusal })?;
        } else {
            let kept = whole.refusal == 0 && whole.decoder.encoding == d.encoding;
            ensure(kept && table::decoder_made(&whole.decoder), "a decoder that no words make")?;
            let at = self.rng.below(bytes.len() / word_size(d.encoding) + 1) * word_size(d.encoding);
            let half = archive::decoder_after(d, &bytes[..at]).decoder;
            let parts = archive::decoder_after(half, &bytes[at..]);
            let apart = if table::decoder_ok(&half) { whole } else { Stepped { decoder: half, refusal: 10 } };
            same(parts, apart)?;
        }
        words.unaltered(bytes)?;
        self.count(Name::DecoderAfter, refusal)
    }
}

//! Single words: the decoder after parts of a body, and each word's events, from fresh decoders and from decoders of any state.
use crate::archive::{self, encoding, Decoded, Decoder, Stepped, Vector};
use crate::lent::Rng;
use crate::making;
use crate::original::{decoder_of, state_of, step, State};
use crate::shared::*;
use crate::slicing::decoder;
use crate::table;
use eventcv::io::RawEvent;

#[derive(Clone, Debug)]
pub struct Case {
    evt3: bool,
    /// The numbers of a decoder, in range or not; None: a fresh one.
    start: Option<[u64; 7]>,
    words: Vec<u8>,
    /// The lengths of parts, in words; the rest of the words is a part too.
    parts: Vec<usize>,
    last: bool,
}

/// A decoder of these numbers, where its fields hold them.
fn held(evt3: bool, n: [u64; 7]) -> Decoder {
    decoder_of(evt3, state_of(n))
}

/// All events of a vector, one by one.
fn events_of(mut v: Vector) -> Vec<RawEvent> {
    let mut events = Vec::new();
    loop {
        let next = archive::next_event(v);
        if next.some == 0 {
            return events;
        }
        let e = next.event;
        events.push(RawEvent { x: e.x, y: e.y, t: e.t, p: e.p != 0 });
        v = next.rest;
    }
}

impl Case {
    pub fn make(rng: &mut Rng) -> Case {
        let evt3 = rng.chance(60);
        let start = rng.chance(60).then(|| decoder(rng, evt3));
        let words = making::words(rng, encoding(evt3));
        let parts = (0..rng.below(5)).map(|_| rng.below(1 + words.len() / 4)).collect();
        Case { evt3, start, words, parts, last: rng.chance(70) }
    }

    fn size(&self) -> usize {
        if self.evt3 {
            2
        } else {
            4
        }
    }

    pub fn check(&self, env: &mut Env) -> Result<(), String> {
        env.counts[AFTER].cases += 1;
        env.counts[DECODING].cases += 1;
        let fresh = archive::new_decoder(encoding(self.evt3));
        same(fresh, decoder_of(self.evt3, step(self.evt3, None, &[]).0))?;
        let start = self.start.map_or(fresh, |n| held(self.evt3, n));
        self.after(env, start)?;
        self.each(env, start)
    }

    /// The parts one after another.
    fn after(&self, env: &mut Env, mut d: Decoder) -> Result<(), String> {
        let mut rest = &self.words[..];
        for n in self.parts.iter().map(Some).chain([None]) {
            let (part, behind) = rest.split_at(n.map_or(rest.len(), |n| (n * self.size()).min(rest.len())));
            let want = if table::decoder_ok(&d) { (0, self.stepped(&d, part).0) } else { (10, d) };
            let got = archive::decoder_after(d, env.bytes.copy(part, self.last));
            same(got, Stepped { decoder: want.1, refusal: want.0 })?;
            env.count(AFTER, got.refusal, part.len() / self.size(), false);
            (d, rest) = (got.decoder, behind);
        }
        Ok(())
    }

    fn stepped(&self, d: &Decoder, bytes: &[u8]) -> (Decoder, Vec<RawEvent>) {
        let (after, events): (State, _) = step(self.evt3, Some(state_of(table::numbers(d))), bytes);
        (decoder_of(self.evt3, after), events)
    }

    /// The first words one by one, the bytes behind them lent too.
    fn each(&self, env: &mut Env, mut d: Decoder) -> Result<(), String> {
        for k in 0..=(self.words.len() / self.size()).min(200) {
            let bytes = &self.words[k * self.size()..];
            let word = &bytes[..self.size().min(bytes.len())];
            let got = archive::decode(d, env.bytes.copy(bytes, self.last));
            if !table::decoder_ok(&d) {
                same(got, Decoded { decoder: d, events: Vector::default(), refusal: 10 })?;
                env.count(DECODING, 10, 0, false);
                return Ok(());
            }
            let (after, events) = self.stepped(&d, word);
            same((got.refusal, got.decoder), (0, after)).map_err(|e| format!("word {k}: {e}"))?;
            same(events_of(got.events), events).map_err(|e| format!("word {k}: {e}"))?;
            env.count(DECODING, 0, got.events.mask.count_ones() as usize, false);
            d = got.decoder;
        }
        Ok(())
    }

    pub fn smaller(&self) -> impl Iterator<Item = Case> + '_ {
        let parts = fewer(&self.parts).map(|parts| Case { parts, ..self.clone() });
        parts.chain(fewer(&self.words).map(|words| Case { words, ..self.clone() }))
    }

    pub fn show(&self) -> String {
        format!("EVT{} from {:?} parts {:?}\nwords {}", encoding(self.evt3), self.start, self.parts, hex(&self.words))
    }
}

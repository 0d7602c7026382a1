//! parse_header, read_raw, and decode_words of both encodings.
use crate::archive::{self, encoding, Header, Options, Reading};
use crate::lent::Rng;
use crate::making;
use crate::original::{behind_header, step, stream, Head, Original, Size};
use crate::shared::*;
use crate::table;
use eventcv::io::RawEvent;
use eventcv::EventStream;

#[derive(Clone, Debug)]
pub struct Case {
    bytes: Vec<u8>,
    /// Headerless words, EVT3 or EVT2.
    words: Option<bool>,
    size: Size,
    limit: Option<usize>,
    rooms: Vec<Room>,
    /// For numbers that don't count.
    junk: u64,
    last: bool,
}

/// What the original hands over.
struct Read {
    evt3: bool,
    events: EventStream,
}

impl Case {
    pub fn make(rng: &mut Rng) -> Case {
        let words = if rng.chance(60) { None } else { Some(rng.chance(60)) };
        let bytes = match words {
            None => making::recording(rng, &making::COMPARED),
            Some(evt3) => making::words(rng, encoding(evt3)),
        };
        let limit = making::limit(rng, bytes.len());
        Case {
            words,
            size: making::size(rng),
            limit,
            rooms: vec![Room::make(rng), Room::make(rng)],
            junk: rng.next(),
            last: rng.chance(70),
            bytes,
        }
    }

    fn kind(&self) -> usize {
        self.words.is_some() as usize
    }

    fn options(&self) -> Options {
        let flag = |set: bool| if set { (self.junk as u8).max(1) } else { 0 };
        let (width, height) = self.size.unwrap_or((self.junk as usize, (self.junk >> 9) as usize));
        Options {
            sized: flag(self.size.is_some()),
            limited: flag(self.limit.is_some()),
            width,
            height,
            max_events: self.limit.unwrap_or(self.junk as usize),
        }
    }

    /// The rule of docs/RULES.md for sizes and limits over all events, as words that begin with `%` have no other reference.
    fn ruled(&self, evt3: bool) -> Result<EventStream, u32> {
        let inside = |e: &RawEvent| self.size.is_none_or(|(w, h)| (e.x as usize) < w && (e.y as usize) < h);
        let events: Vec<RawEvent> =
            step(evt3, None, &self.bytes).1.into_iter().filter(inside).take(self.limit.unwrap_or(usize::MAX)).collect();
        let edge = |f: fn(&RawEvent) -> u16| events.iter().map(f).max().map(|n| n as usize + 1);
        match (self.size, edge(|e| e.x), edge(|e| e.y)) {
            (Some((w, h)), _, _) | (None, Some(w), Some(h)) => Ok(stream(w, h, &events)),
            _ => Err(1),
        }
    }

    fn expected_words(&self, original: &Original, evt3: bool) -> Result<EventStream, u32> {
        match (self.size, self.limit) {
            (Some(size), None) => original.decode(&self.bytes, evt3, size),
            (Some((w, h)), _) if w == 0 || h == 0 => Err(1),
            _ if self.is_ruled() => self.ruled(evt3),
            _ => original.read(&behind_header(evt3, &self.bytes), self.size, self.limit),
        }
    }

    fn is_ruled(&self) -> bool {
        let asks_more = self.size.is_none_or(|(w, h)| w > 0 && h > 0 && self.limit.is_some());
        self.words.is_some() && self.bytes.first() == Some(&b'%') && asks_more
    }

    fn expected(&self, original: &Original) -> Result<Result<Read, u32>, String> {
        if let Some(evt3) = self.words {
            return Ok(self.expected_words(original, evt3).map(|events| Read { evt3, events }));
        }
        let model = table::head(&self.bytes);
        if !model.ascii {
            return Ok(Err(3));
        }
        let head = original.head(&self.bytes, self.size);
        let refused = table::header_refusal(&self.bytes, self.size);
        same(refused, head.as_ref().err().copied().unwrap_or(0)).map_err(|e| format!("the table's header: {e}"))?;
        match (head, original.read(&self.bytes, self.size, self.limit)) {
            (Err(n), Err(m)) if n == m => Ok(Err(n)),
            (Ok(_), Err(n)) => Ok(Err(n)),
            (Ok(h), Ok(events)) => {
                same((model.start, model.encoding, self.size.or(model.size)), (h.start, encoding(h.evt3), h.size))
                    .map_err(|e| format!("the table's header: {e}"))?;
                Ok(Ok(Read { evt3: h.evt3, events }))
            }
            _ => Err("the original reads what its header refuses".to_owned()),
        }
    }

    pub fn check(&self, env: &mut Env) -> Result<(), String> {
        if let Some(why) = self.words.map_or_else(|| table::outside(&self.bytes), |_| None) {
            env.count_outside(self.kind(), why);
            return Ok(());
        }
        let want = self.expected(&env.original)?;
        if self.words.is_none() {
            self.parse(env).map_err(|e| format!("the header: {e}"))?;
        }
        env.counts[self.kind()].cases += 1;
        env.counts[self.kind()].ended += (self.words.is_none() && table::has_end_line(&self.bytes)) as u64;
        for room in &self.rooms {
            self.call(env, &want, room).map_err(|e| format!("{room:?}: {e}"))?;
        }
        Ok(())
    }

    fn parse(&self, env: &mut Env) -> Result<(), String> {
        let refused = |refusal| Header { refusal, ..Header::default() };
        let want = match env.original.head(&self.bytes, self.size) {
            _ if !table::head(&self.bytes).ascii => refused(3),
            Err(n) => refused(n),
            Ok(Head { evt3, start, size }) => {
                let (width, height) = size.unwrap_or((0, 0));
                Header { refusal: 0, encoding: encoding(evt3), data_offset: start, width, height, sized: size.is_some() as u8 }
            }
        };
        let (bytes, o) = (env.bytes.copy(&self.bytes, self.last), self.options());
        let got = archive::parse_header(bytes, o.sized, o.width, o.height);
        same(got, want)?;
        env.counts[HEADERS].cases += 1;
        env.count(HEADERS, got.refusal, got.sized as usize, false);
        Ok(())
    }

    fn call(&self, env: &mut Env, want: &Result<Read, u32>, room: &Room) -> Result<(), String> {
        let n = want.as_ref().map_or(3, |r| r.events.len());
        let evt3 = want.as_ref().map_or(true, |r| r.evt3);
        let lengths = room.lengths(n, most_events(evt3, self.bytes.len()));
        let bytes = env.bytes.copy(&self.bytes, self.last);
        let mut lent = env.board.lend(lengths, self.last);
        let got = match self.words {
            None => archive::read_raw(bytes, self.options(), &mut lent),
            Some(evt3) => archive::decode_words(bytes, encoding(evt3), self.options(), &mut lent),
        };
        let (numbers, events) = answer(want, lengths.into_iter().min().unwrap_or(0));
        same(got, numbers)?;
        columns_are(&lent, events)?;
        env.count(self.kind(), got.refusal, got.count, self.is_ruled());
        Ok(())
    }

    pub fn smaller(&self) -> impl Iterator<Item = Case> + '_ {
        let one = self.rooms.iter().filter(|_| self.rooms.len() > 1).map(|r| Case { rooms: vec![r.clone()], ..self.clone() });
        one.chain(fewer(&self.bytes).map(|bytes| Case { bytes, ..self.clone() }))
    }

    pub fn show(&self) -> String {
        format!(
            "{} {:?} size {:?} limit {:?} columns {:?}\nbytes {}",
            KINDS[self.kind()],
            self.words.map(|e| if e { "EVT3" } else { "EVT2" }),
            self.size,
            self.limit,
            self.rooms,
            hex(&self.bytes)
        )
    }
}

/// The numbers to be answered where the shortest column has `shortest` places, and the events.
fn answer(want: &Result<Read, u32>, shortest: usize) -> (Reading, Option<&EventStream>) {
    match want {
        Err(n) => (Reading { refusal: *n, ..Reading::default() }, None),
        Ok(r) if r.events.len() > shortest => (Reading { refusal: 5, told: r.events.len(), ..Reading::default() }, None),
        Ok(r) => {
            let (width, height) = r.events.sensor_size();
            (Reading { refusal: 0, encoding: encoding(r.evt3), told: 0, width, height, count: r.events.len() }, Some(&r.events))
        }
    }
}

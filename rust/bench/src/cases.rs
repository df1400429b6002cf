//! The calls that are measured, on a full book: 16 keys of two rights each, in the right places k and 16 + k.

use against::bytes::Bytes;
use against::frames::{FLAG_KEY, KEY_DELETION};
use against::frames::{key_deletion_frame, load_frame, message_frame, named_frame};
use against::known::{Name, number_at};
use against::random::Random;

use crate::books::Book;

const KEYS: usize = 16;
const RIGHTS: usize = 32;
const LAST_KEY: usize = KEYS - 1;
const LAST_RIGHT: usize = RIGHTS - 1;

/// The first key's ID; those of the others differ from it in the last byte.
const FIRST_ID: u64 = 0x000A_0B0C_0001_0001;

const LIVE_COUNTER: u8 = 0x0C;

/// More grants than any loop asks for, and less than the counter's limit.
const MANY: u32 = 4_000_000;

/// A key's first right is for the TS from 1 to here, its second for those from here to `END`.
const MIDDLE: u32 = 1_000_000_000;
const END: u32 = 2_000_000_000;

/// The end of each row of cases.
#[derive(Clone, Copy, PartialEq)]
pub enum Place {
    First,
    Last,
    None,
}

use Place::{First, Last};

impl Place {
    pub fn word(self) -> &'static str {
        match self {
            First => "first",
            Last => "last",
            Place::None => "",
        }
    }

    fn key(self) -> usize {
        if self == Last { LAST_KEY } else { 0 }
    }

    fn right(self) -> usize {
        if self == Last { LAST_RIGHT } else { 0 }
    }
}

pub struct Case {
    pub name: &'static str,
    /// Where the key and the right lie.
    pub place: Place,
    /// The code of every reply.
    pub code: u8,
    /// Whether each call is made of a fresh copy of the book, which it would else find altered.
    pub fresh: bool,
    before: Vec<Bytes>,
    frame: Bytes,
}

pub fn all() -> Vec<Case> {
    [loads(), messages(), others()]
        .into_iter()
        .flatten()
        .collect()
}

fn loads() -> Vec<Case> {
    let load = |place: Place| load(place.right(), 0, 7);
    let new = Case::fresh("load, a new right of a held ID", Last, load(Last));
    let held = |place| Case::steady("load, a held right, set", place, 0x00, load(place));
    vec![
        new.with(full(LAST_RIGHT, |_| MANY)),
        held(First),
        held(Last),
    ]
}

fn messages() -> Vec<Case> {
    let granted = |place: Place| {
        let frame = message(place, if place == Last { MIDDLE + 1 } else { 1 });
        Case::steady("message, granted", place, 0x01, frame)
    };
    let unknown = message_frame(id(KEYS), 1, 1);
    let outside = |place| {
        Case::steady(
            "message, 19: no right fits",
            place,
            0x19,
            message(place, END + 1),
        )
    };
    let empty = |place: Place| {
        let frame = message(place, if place == Last { END } else { MIDDLE });
        let counter = move |right| if right == place.right() { 0 } else { MANY };
        Case::steady("message, 1A: none can pay", place, 0x1A, frame).with(full(RIGHTS, counter))
    };
    vec![
        granted(First),
        granted(Last),
        Case::steady("message, 15: ID not held", Place::None, 0x15, unknown),
        outside(First),
        outside(Last),
        empty(First),
        empty(Last),
    ]
}

fn others() -> Vec<Case> {
    let report = |place: Place| {
        let frame = named_frame(0x03, name(place.right()));
        Case::steady("report", place, 0x02, frame)
    };
    let delete = |place: Place| {
        let frame = named_frame(0x04, name(place.right()));
        Case::fresh("deletion of a right", place, frame)
    };
    let erase = |place: Place| {
        let frame = key_deletion_frame(name(place.right()));
        Case::fresh("deletion of a key by 0A", place, frame)
    };
    let damaged = Bytes::from(&message(First, 1)[..12]);
    vec![
        report(First),
        report(Last),
        delete(First),
        delete(Last),
        erase(First),
        erase(Last),
        Case::steady("not a frame, 11", Place::None, 0x11, damaged),
    ]
}

fn id(key: usize) -> u64 {
    FIRST_ID + key as u64
}

/// The name of the right in a place of the full book.
fn name(right: usize) -> Name {
    let (ts_low, ts_high) = if right < KEYS {
        (0, MIDDLE)
    } else {
        (MIDDLE, END)
    };
    Name {
        id: id(right % KEYS),
        ts_low,
        ts_high,
        spe: LIVE_COUNTER,
    }
}

fn load(right: usize, flags: u8, amount: u32) -> Bytes {
    let mut random = Random::new(right as u64);
    load_frame(&mut random, name(right), flags, amount, 0)
}

fn message(place: Place, ts: u32) -> Bytes {
    message_frame(id(place.key()), ts, 1)
}

/// The loads of the first rights of a full book.
fn full(rights: usize, counter: impl Fn(usize) -> u32) -> Vec<Bytes> {
    let flags = |right| if right < KEYS { FLAG_KEY } else { 0 };
    (0..rights)
        .map(|right| load(right, flags(right), counter(right)))
        .collect()
}

impl Case {
    /// A case whose calls leave a full book as it is, but for a counter.
    fn steady(name: &'static str, place: Place, code: u8, frame: Bytes) -> Case {
        Case {
            name,
            place,
            code,
            fresh: false,
            before: full(RIGHTS, |_| MANY),
            frame,
        }
    }

    fn fresh(name: &'static str, place: Place, frame: Bytes) -> Case {
        Case {
            fresh: true,
            ..Case::steady(name, place, 0x00, frame)
        }
    }

    fn with(self, before: Vec<Bytes>) -> Case {
        Case { before, ..self }
    }

    /// The book that the calls are made of.
    pub fn book<B: Book>(&self) -> B {
        let mut book = B::empty();
        for frame in &self.before {
            let reply = B::bytes(book.call(frame, &mut [0; 16]));
            assert_eq!(reply[0], 0x00, "a load of the full book");
        }
        book
    }

    /// Those of a loop of so many calls: a grant wants a higher TS each time.
    pub fn frames(&self, calls: u32) -> Frames {
        Frames::new(self.frame, self.code == 0x01, calls)
    }

    /// The frame's kind in the words of a table.
    pub fn kind(&self) -> &'static str {
        match self.frame[0] {
            _ if self.code == 0x11 => "not a frame",
            0x01 if self.frame[16] == KEY_DELETION => "01 load with SPE 0A",
            0x01 => "01 load",
            0x02 => "02 short term message",
            0x03 => "03 report",
            _ => "04 delete one right",
        }
    }

    /// Panics unless both books answer every call of a loop as the case says, and alike.
    pub fn check(&self, calls: u32) {
        let first = self.replies::<keybook::Book>(calls);
        let second = self.replies::<plainbook::Book>(calls);
        assert_eq!(first, second, "{} {}", self.name, self.place.word());
        let named = first.iter().all(|reply| reply[0] == self.code);
        assert!(named, "{} {}", self.name, self.place.word());
    }

    fn replies<B: Book>(&self, calls: u32) -> Vec<[u8; 14]> {
        let prepared: B = self.book();
        let mut book = prepared.clone();
        let mut reply_to = |frame| {
            if self.fresh {
                book.clone_from(&prepared);
            }
            B::bytes(book.call(frame, &mut [0; 16]))
        };
        let frames = self.frames(calls);
        let frames = frames.iter().take(calls as usize);
        frames.map(&mut reply_to).collect()
    }
}

/// The frames of a loop, which are there before it: one again and again, or a TS for each call.
pub struct Frames {
    bytes: Vec<u8>,
    length: usize,
}

impl Frames {
    fn new(frame: Bytes, rising: bool, calls: u32) -> Frames {
        let mut bytes = frame.to_vec();
        for call in 1..if rising { calls } else { 1 } {
            let mut next = frame;
            let ts = number_at(&frame, 8) + call;
            next[8..12].copy_from_slice(&ts.to_be_bytes());
            bytes.extend_from_slice(&next);
        }
        Frames {
            bytes,
            length: frame.len(),
        }
    }

    pub fn iter(&self) -> impl Iterator<Item = &[u8]> {
        self.bytes.chunks_exact(self.length).cycle()
    }
}

#[cfg(test)]
mod tests {
    use super::*;

    #[test]
    fn both_books_answer_every_case_as_it_says() {
        for case in all() {
            case.check(300);
        }
    }

    #[test]
    fn replies_show_the_place_that_the_case_names() {
        for case in all() {
            let shown = case.replies::<plainbook::Book>(1)[0][1];
            let place = match case.code {
                0x01 | 0x02 => case.place.right() as u8,
                0x00 if case.name.starts_with("load") => case.place.right() as u8,
                _ => 0xFF,
            };
            assert_eq!(shown, place, "{}", case.name);
        }
    }

    #[test]
    fn each_of_the_named_codes_is_measured() {
        let cases = all();
        for code in [0x00, 0x01, 0x02, 0x11, 0x15, 0x19, 0x1A] {
            assert!(cases.iter().any(|case| case.code == code), "{code:02X}");
        }
    }

    #[test]
    fn a_rising_ts_rises_by_one_and_another_stays() {
        let frame = message_frame(FIRST_ID, 41, 1);
        for rising in [true, false] {
            let frames = Frames::new(frame, rising, 20);
            for (call, frame) in (0..20).zip(frames.iter()) {
                let wanted = if rising { 41 + call } else { 41 };
                assert_eq!(*frame, *message_frame(FIRST_ID, wanted, 1));
            }
        }
    }
}

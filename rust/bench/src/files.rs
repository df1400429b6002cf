//! The files of lines that the line programs run on, from a fixed seed.

use against::bytes::Bytes;
use against::frames::{FLAG_ADD, FLAG_KEY, SPES};
use against::frames::{key_deletion_frame, load_frame, message_frame, named_frame};
use against::known::Name;
use against::random::Random;
use against::show::hex;

/// More IDs than the book has places for keys.
const IDS: usize = 20;
const KEYS: usize = 16;
const FEW_KEYS: usize = 3;

const LIVE_TOKENS: u8 = 0x02;
const LIVE_COUNTER: u8 = 0x0C;
const PLAYBACK_COUNTER: u8 = 0x0D;

/// Counters that no file uses up.
const LIVE_GRANTS: u32 = 4_000_000;
const PLAYBACK_GRANTS: u32 = 8_000_000;

/// The end of the intervals of a full book.
const END: u32 = 0x7FFF_FFFF;

#[derive(Clone, Copy)]
pub enum Mix {
    /// Frames of each kind over more IDs than there is room for, and damaged lines.
    Mixed,
    /// Live grants of three keys.
    Grants,
    /// 16 keys and 32 rights: messages, reports and set-loads.
    Full,
}

impl Mix {
    pub const ALL: [Mix; 3] = [Mix::Mixed, Mix::Grants, Mix::Full];

    pub fn name(self) -> &'static str {
        match self {
            Mix::Mixed => "mixed",
            Mix::Grants => "grant-heavy",
            Mix::Full => "full-book",
        }
    }

    /// This many lines.
    pub fn text(self, lines: usize, seed: u64) -> String {
        let mut source = Source::new(seed);
        let start = match self {
            Mix::Mixed => vec![],
            Mix::Grants => grants_start(&mut source.random),
            Mix::Full => full_start(&mut source.random),
        };
        let mut text: String = start.iter().take(lines).map(line).collect();
        for _ in start.len()..lines {
            text += &match self {
                Mix::Mixed => source.mixed(),
                Mix::Grants => source.grant(),
                Mix::Full => source.full(),
            };
        }
        text
    }
}

fn line(frame: &Bytes) -> String {
    hex(frame) + "\n"
}

fn id(key: usize) -> u64 {
    0x000A_0B0C_0001_0000 + key as u64
}

fn counted(key: usize, spe: u8, ts_high: u32) -> Name {
    Name {
        id: id(key),
        ts_low: 0,
        ts_high,
        spe,
    }
}

fn grants_start(random: &mut Random) -> Vec<Bytes> {
    let name = |key| counted(key, LIVE_COUNTER, u32::MAX);
    (0..FEW_KEYS)
        .map(|key| load_frame(random, name(key), FLAG_KEY, LIVE_GRANTS, 0))
        .collect()
}

/// Two rights for each of 16 keys.
fn full_start(random: &mut Random) -> Vec<Bytes> {
    let live = |key| counted(key, LIVE_COUNTER, END);
    let playback = |key| counted(key, PLAYBACK_COUNTER, END);
    let mut frames = vec![];
    for key in 0..KEYS {
        frames.push(load_frame(random, live(key), FLAG_KEY, LIVE_GRANTS, 0));
        frames.push(load_frame(random, playback(key), 0, PLAYBACK_GRANTS, 0));
    }
    frames
}

struct Source {
    random: Random,
    /// The latest TS of each ID.
    mixed_ts: [u32; IDS],
    /// The latest TS of any.
    ts: u32,
}

impl Source {
    fn new(seed: u64) -> Source {
        Source {
            random: Random::new(seed),
            mixed_ts: [100; IDS],
            ts: 1,
        }
    }

    fn mixed(&mut self) -> String {
        let key = self.random.below(IDS);
        let name = self.name(key);
        let frame = match self.random.below(100) {
            0..25 => self.load(name),
            25..75 => self.message(key),
            75..85 => named_frame(0x03, name),
            85..90 => named_frame(0x04, name),
            90..92 => key_deletion_frame(name),
            _ => {
                let message = message_frame(name.id, self.mixed_ts[key], 1);
                return self.damaged(line(&message));
            }
        };
        line(&frame)
    }

    fn name(&mut self, key: usize) -> Name {
        let ts_low = self.random.pick(&[100, 200]);
        Name {
            id: id(key),
            ts_low,
            ts_high: ts_low + self.random.pick(&[1_000, 100_000]),
            spe: self.random.pick(&SPES),
        }
    }

    fn load(&mut self, name: Name) -> Bytes {
        let random = &mut self.random;
        let key = if random.chance(70) { FLAG_KEY } else { 0 };
        let flags = key | random.pick(&[0, FLAG_ADD]);
        let amount = random.below(100) as u32;
        let tokens = random.below(5) as u32;
        let cost = if name.is_counted() { 0 } else { tokens };
        load_frame(random, name, flags, amount, cost)
    }

    /// A TS again, or one that is higher by 1 or 2; three marks in a hundred are bad.
    fn message(&mut self, key: usize) -> Bytes {
        self.mixed_ts[key] += self.random.below(3) as u32;
        let mark = u8::from(self.random.chance(97));
        message_frame(id(key), self.mixed_ts[key], mark)
    }

    /// One digit taken away, or another character or two digits in its place.
    fn damaged(&mut self, mut line: String) -> String {
        let at = self.random.below(line.len() - 1);
        let other = self.random.pick(&["", "x", "a", "\r", "00"]);
        line.replace_range(at..=at, other);
        line
    }

    /// A live grant; one line in a thousand sets the counter anew.
    fn grant(&mut self) -> String {
        let key = self.random.below(FEW_KEYS);
        if self.random.below(1000) == 0 {
            let name = counted(key, LIVE_COUNTER, u32::MAX);
            return line(&load_frame(&mut self.random, name, 0, LIVE_GRANTS, 0));
        }
        self.ts += 1;
        line(&message_frame(id(key), self.ts, 1))
    }

    /// One ID in seventeen is not held.
    fn full(&mut self) -> String {
        let key = self.random.below(KEYS + 1);
        self.ts += 1;
        let spes = [LIVE_COUNTER, PLAYBACK_COUNTER];
        let frame = match self.random.below(100) {
            0..45 => message_frame(id(key), self.ts, 1),
            45..60 => message_frame(id(key), self.ts / 2, 1),
            60..70 => message_frame(id(key), END + self.ts, 1),
            70..85 => named_frame(0x03, counted(key, self.random.pick(&spes), END)),
            _ => self.set_load(key),
        };
        line(&frame)
    }

    /// Of a right that is held, or of one for which there is no place.
    fn set_load(&mut self, key: usize) -> Bytes {
        let spe = self.random.pick(&[LIVE_COUNTER, LIVE_TOKENS]);
        let name = counted(key, spe, END);
        load_frame(&mut self.random, name, 0, LIVE_GRANTS, 0)
    }
}

#[cfg(test)]
mod tests {
    use super::*;

    const LINES: usize = 20_000;

    /// How many lines begin with these digits, in a hundred.
    fn share(text: &str, digits: &str) -> f64 {
        let lines = text.lines().filter(|line| line.starts_with(digits));
        lines.count() as f64 * 100.0 / LINES as f64
    }

    fn replies(text: &str) -> String {
        let mut output = vec![];
        plainbook::lines::run(&mut text.as_bytes(), &mut output).expect("text in memory");
        String::from_utf8(output).expect("digits")
    }

    fn near(share: f64, wanted: f64) -> bool {
        (share - wanted).abs() < 1.5
    }

    #[test]
    fn a_file_is_made_by_its_seed() {
        for mix in Mix::ALL {
            let text = mix.text(500, 7);
            assert_eq!(text, mix.text(500, 7));
            assert_ne!(text, mix.text(500, 8));
            assert_eq!(text.matches('\n').count(), 500);
            assert!(mix.text(1000, 7).starts_with(&text));
        }
    }

    #[test]
    fn the_mixed_file_has_its_mix() {
        let text = Mix::Mixed.text(LINES, 7);
        let replies = replies(&text);
        assert!(near(share(&text, "01"), 27.0));
        assert!(near(share(&text, "02"), 58.0));
        assert!(near(share(&text, "03"), 10.0));
        assert!(near(share(&text, "04"), 5.0));
        assert!(near(share(&replies, "11"), 8.0));
        for code in ["00", "01", "02", "15", "16", "18", "19", "1A", "1B"] {
            assert!(share(&replies, code) > 0.3, "{code}");
        }
    }

    #[test]
    fn the_grant_heavy_file_has_its_mix() {
        let text = Mix::Grants.text(LINES, 7);
        let replies = replies(&text);
        assert!(near(share(&text, "02"), 99.9));
        assert_eq!(share(&text, "02"), share(&replies, "01"));
        assert_eq!(share(&text, "01"), share(&replies, "00"));
    }

    #[test]
    fn the_full_book_file_has_its_mix() {
        let text = Mix::Full.text(LINES, 7);
        let replies = replies(&text);
        assert!(near(share(&text, "01"), 15.0));
        assert!(near(share(&text, "02"), 70.0));
        assert!(near(share(&text, "03"), 15.0));
        assert!(near(share(&replies, "01"), 60.0 * 16.0 / 17.0));
        assert!(near(share(&replies, "02"), 15.0 * 16.0 / 17.0));
        assert!(near(share(&replies, "19"), 10.0 * 16.0 / 17.0));
        assert!(near(share(&replies, "16"), 7.5 * 16.0 / 17.0));
        let places = |line: &str| line.starts_with("00") && line[2..4] == *"1E";
        assert!(
            replies.lines().any(places),
            "the last key's live right is set"
        );
    }
}

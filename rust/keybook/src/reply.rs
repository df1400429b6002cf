//! What a call answers.

use crate::Refusal;
use crate::raw::REPLY_BYTES;
use core::fmt;

/// The place that stands for none.
const NO_PLACE: u8 = 0xFF;

/// A right as it is held after the call, with the purse and the replay counter of its key.
#[derive(Clone, Copy, Debug, PartialEq, Eq, Hash)]
pub struct Shown {
    /// The place of the right, from 0 to 31.
    pub place: u8,
    /// The traffic keys left on the right's counter; for a right with SPE 02 or 03, what a grant costs in tokens.
    pub value: u32,
    /// The tokens in the purse.
    pub purse: u32,
    /// The replay counter of the right's key: the highest TS that was granted live.
    pub replay_counter: u32,
}

/// What a call answers: what was done, or why nothing was.
///
/// `Display` says it in words, as `bookrun --explain` does; `{:X}` prints the 28 digits that `bookrun` prints.
#[derive(Clone, Copy, Debug, PartialEq, Eq, Hash)]
pub enum Reply {
    /// Code 00, after a load other than 0A: the right as held.
    Loaded(Shown),
    /// Code 00, after a deletion, of one right or by a load with SPE 0A.
    Deleted {
        /// The tokens in the purse.
        purse: u32,
    },
    /// Code 01: the key was handed out, and the right that paid is shown.
    Granted(Shown),
    /// Code 02: the right that a report asked for.
    Reported(Shown),
    /// Codes 10 to 1B: nothing was done.
    Refused(Refusal),
}

impl Reply {
    /// The code of the paper's table.
    #[must_use]
    pub fn code(&self) -> u8 {
        match self {
            Reply::Loaded(_) | Reply::Deleted { .. } => 0x00,
            Reply::Granted(_) => 0x01,
            Reply::Reported(_) => 0x02,
            Reply::Refused(refusal) => refusal.code(),
        }
    }

    /// The right that the reply shows.
    #[must_use]
    pub fn shown(&self) -> Option<Shown> {
        match *self {
            Reply::Loaded(shown)
            | Reply::Granted(shown)
            | Reply::Reported(shown)
            | Reply::Refused(Refusal::OverHeld(shown)) => Some(shown),
            Reply::Deleted { .. } | Reply::Refused(_) => None,
        }
    }

    /// The place of the right that the reply shows.
    #[must_use]
    pub fn place(&self) -> Option<u8> {
        self.shown().map(|shown| shown.place)
    }

    /// The counter of the right that the reply shows, or its cost for SPE 02 and 03.
    #[must_use]
    pub fn value(&self) -> Option<u32> {
        self.shown().map(|shown| shown.value)
    }

    /// The tokens in the purse, where the reply shows a right, or after a deletion, or with code 17.
    #[must_use]
    pub fn purse(&self) -> Option<u32> {
        match *self {
            Reply::Deleted { purse } | Reply::Refused(Refusal::OverNew { purse }) => Some(purse),
            _ => self.shown().map(|shown| shown.purse),
        }
    }

    /// The replay counter of the key whose right the reply shows.
    #[must_use]
    pub fn replay_counter(&self) -> Option<u32> {
        self.shown().map(|shown| shown.replay_counter)
    }

    /// Whether nothing was done.
    #[must_use]
    pub fn is_refusal(&self) -> bool {
        self.refusal().is_some()
    }

    /// Why nothing was done.
    #[must_use]
    pub fn refusal(&self) -> Option<Refusal> {
        match *self {
            Reply::Refused(refusal) => Some(refusal),
            _ => None,
        }
    }

    /// The reply where something was done, and the refusal as an error where nothing was, for `?`.
    ///
    /// # Errors
    ///
    /// The refusal of a [`Reply::Refused`].
    pub fn result(self) -> Result<Reply, Refusal> {
        match self {
            Reply::Refused(refusal) => Err(refusal),
            done => Ok(done),
        }
    }

    /// The reply as it is on the wire: code, place, and four bytes each for value, purse and replay counter, the highest byte first. What a reply
    /// does not show is FF for the place, and 0.
    #[must_use]
    pub fn bytes(&self) -> [u8; REPLY_BYTES] {
        let mut bytes = [0; REPLY_BYTES];
        bytes[0] = self.code();
        bytes[1] = self.place().unwrap_or(NO_PLACE);
        bytes[2..6].copy_from_slice(&self.value().unwrap_or(0).to_be_bytes());
        bytes[6..10].copy_from_slice(&self.purse().unwrap_or(0).to_be_bytes());
        bytes[10..].copy_from_slice(&self.replay_counter().unwrap_or(0).to_be_bytes());
        bytes
    }

    /// The reply of these bytes. The library writes no others: what it writes is `reply_bytes` of a reply, which has these cases and no more.
    /// A `match`, so that only what the code shows is read; a test holds its numbers to those of [`Reply::code`].
    #[inline]
    pub(crate) fn of_bytes(bytes: [u8; REPLY_BYTES]) -> Reply {
        let [code, place, v0, v1, v2, v3, p0, p1, p2, p3, r0, r1, r2, r3] = bytes;
        let purse = || u32::from_be_bytes([p0, p1, p2, p3]);
        let shown = || Shown {
            place,
            value: u32::from_be_bytes([v0, v1, v2, v3]),
            purse: purse(),
            replay_counter: u32::from_be_bytes([r0, r1, r2, r3]),
        };
        let refused = match code {
            0x00 if place == NO_PLACE => return Reply::Deleted { purse: purse() },
            0x00 => return Reply::Loaded(shown()),
            0x01 => return Reply::Granted(shown()),
            0x02 => return Reply::Reported(shown()),
            0x10 => Refusal::BufferLength,
            0x11 => Refusal::Unreadable,
            0x12 => Refusal::Policy,
            0x13 => Refusal::Fields,
            0x14 => Refusal::EmptyInterval,
            0x15 => Refusal::UnknownId,
            0x16 => Refusal::Full,
            0x17 if place == NO_PLACE => Refusal::OverNew { purse: purse() },
            0x17 => Refusal::OverHeld(shown()),
            0x18 => Refusal::Integrity,
            0x19 => Refusal::NoFit,
            0x1A => Refusal::NoFunds,
            0x1B => Refusal::NotHeld,
            _ => panic!("the library writes no other code"),
        };
        Reply::Refused(refused)
    }
}

impl fmt::Display for Shown {
    fn fmt(&self, f: &mut fmt::Formatter<'_>) -> fmt::Result {
        let Shown {
            place,
            value,
            purse,
            replay_counter,
        } = self;
        write!(
            f,
            "place {place}, counter or cost {value}, purse {purse}, replay counter {replay_counter}"
        )
    }
}

/// The words that `bookrun --explain` prints.
impl fmt::Display for Reply {
    fn fmt(&self, f: &mut fmt::Formatter<'_>) -> fmt::Result {
        match self {
            Reply::Loaded(shown) => write!(f, "done: {shown}"),
            Reply::Deleted { purse } => write!(f, "done: purse {purse}"),
            Reply::Granted(shown) => write!(f, "granted: {shown}"),
            Reply::Reported(shown) => write!(f, "held: {shown}"),
            Reply::Refused(refusal) => refusal.fmt(f),
        }
    }
}

/// The 28 digits that `bookrun` prints.
impl fmt::UpperHex for Reply {
    fn fmt(&self, f: &mut fmt::Formatter<'_>) -> fmt::Result {
        self.bytes()
            .iter()
            .try_for_each(|byte| write!(f, "{byte:02X}"))
    }
}

#[cfg(test)]
mod tests {
    use super::*;
    use std::string::ToString;
    use std::vec::Vec;

    fn of_digits(digits: &str) -> [u8; REPLY_BYTES] {
        let bytes: Vec<u8> = (0..digits.len())
            .step_by(2)
            .map(|i| u8::from_str_radix(&digits[i..i + 2], 16).unwrap())
            .collect();
        bytes.try_into().unwrap()
    }

    /// The lines that `bookexplain` is held to: 28 digits, two blanks and the words.
    fn explained() -> Vec<(&'static str, &'static str)> {
        include_str!("../../../crates/bookexplain/stdout")
            .lines()
            .filter_map(|line| line.split_once("  "))
            .filter(|(_, words)| *words != "no reply" && !words.starts_with("no code"))
            .collect()
    }

    #[test]
    fn words_and_digits_are_those_of_bookrun() {
        let explained = explained();
        let mut codes: Vec<u8> = Vec::new();
        for (digits, words) in explained {
            let bytes = of_digits(digits);
            let reply = Reply::of_bytes(bytes);
            assert_eq!(reply.to_string(), words);
            assert_eq!(std::format!("{reply:X}"), digits);
            assert_eq!(reply.bytes(), bytes);
            codes.push(reply.code());
        }
        codes.sort_unstable();
        codes.dedup();
        let all: Vec<u8> = (0x00..=0x02).chain(0x10..=0x1B).collect();
        assert_eq!(codes, all, "every code has a line");
    }
}

//! Why a call was refused.

use crate::Shown;
use core::error::Error;
use core::fmt;

/// Why a call was refused. A refused call has altered neither the book nor the key buffer.
///
/// The refusals are given in the order of the paper's table, the first that applies; `code` is the table's number.
#[derive(Clone, Copy, Debug, PartialEq, Eq, Hash)]
pub enum Refusal {
    /// Code 10: the key buffer is not 16 bytes long.
    BufferLength,
    /// Code 11: the byte string is not a frame. Its kind, length, flag bits or integrity mark is none that a frame has.
    Unreadable,
    /// Code 12: the SPE is none of 02, 03, 0A, 0C and 0D; in a report or the deletion of one right, also 0A.
    Policy,
    /// Code 13: a load with SPE 0A has a flag, an amount or a cost, or one with 0C or 0D has a cost.
    Fields,
    /// Code 14: a load other than 0A has a TS low that is not below its TS high.
    EmptyInterval,
    /// Code 15: a short term message has an ID that is not held, or a load other than 0A has one and carries no key.
    UnknownId,
    /// Code 16: a new key or right is needed, and no such place is free.
    Full,
    /// Code 17: the counter of a right that is held, or the purse that it pays from, would pass its limit. The right is shown as held.
    OverHeld(Shown),
    /// Code 17: the same for a right that is not held.
    OverNew {
        /// The tokens in the purse.
        purse: u32,
    },
    /// Code 18: the integrity mark of a short term message is bad.
    Integrity,
    /// Code 19: no right fits the message.
    NoFit,
    /// Code 1A: some right fits the message, and none that does can pay.
    NoFunds,
    /// Code 1B: the right that is to be reported or deleted, or the ID of a load with SPE 0A, is not held.
    NotHeld,
}

impl Refusal {
    /// The number of the paper's table, from 0x10 to 0x1B.
    #[must_use]
    pub const fn code(&self) -> u8 {
        match self {
            Refusal::BufferLength => 0x10,
            Refusal::Unreadable => 0x11,
            Refusal::Policy => 0x12,
            Refusal::Fields => 0x13,
            Refusal::EmptyInterval => 0x14,
            Refusal::UnknownId => 0x15,
            Refusal::Full => 0x16,
            Refusal::OverHeld(_) | Refusal::OverNew { .. } => 0x17,
            Refusal::Integrity => 0x18,
            Refusal::NoFit => 0x19,
            Refusal::NoFunds => 0x1A,
            Refusal::NotHeld => 0x1B,
        }
    }
}

/// The words that `bookrun --explain` prints.
impl fmt::Display for Refusal {
    fn fmt(&self, f: &mut fmt::Formatter<'_>) -> fmt::Result {
        f.write_str(match self {
            Refusal::BufferLength => "the key buffer is not 16 bytes long",
            Refusal::Unreadable => "not a frame",
            Refusal::Policy => "no such SPE here",
            Refusal::Fields => "a field must be zero",
            Refusal::EmptyInterval => "TS low is not below TS high",
            Refusal::UnknownId => "the ID is not held",
            Refusal::Full => "no place is free",
            Refusal::OverHeld(shown) => {
                return write!(f, "a limit would be passed: {shown}");
            }
            Refusal::OverNew { purse } => {
                return write!(f, "a limit would be passed: purse {purse}");
            }
            Refusal::Integrity => "the integrity mark is bad",
            Refusal::NoFit => "no right fits",
            Refusal::NoFunds => "some right fits, none can pay",
            Refusal::NotHeld => "the right or ID is not held",
        })
    }
}

impl Error for Refusal {}

//! Two books side by side, given the same calls.

use std::panic::{catch_unwind, AssertUnwindSafe};

use crate::bytes::Bytes;
use crate::Store;

/// One call: a frame, and the key buffer lent with it as it is before the call.
#[derive(Clone, Copy, Debug, PartialEq, Eq)]
pub struct Step {
    pub frame: Bytes,
    pub key: Bytes,
}

/// What one book made of a call: its reply, if it did not panic, and the key buffer afterwards.
#[derive(Clone, Copy, Debug, PartialEq, Eq)]
pub struct Answer {
    pub reply: Option<[u8; 14]>,
    pub key: Bytes,
}

/// The answers of two books that should have been the same.
#[derive(Clone, Copy, Debug, PartialEq, Eq)]
pub struct Difference {
    pub first: Answer,
    pub second: Answer,
}

pub struct Pair<A, B> {
    first: A,
    second: B,
}

impl<A: Store, B: Store> Pair<A, B> {
    pub fn empty() -> Self {
        Pair {
            first: A::empty(),
            second: B::empty(),
        }
    }

    /// Gives one call to both books; the reply, if both agree on it and on the whole key buffer.
    pub fn call(&mut self, step: &Step) -> Result<[u8; 14], Box<Difference>> {
        let first = answer(&mut self.first, step);
        let second = answer(&mut self.second, step);
        match first.reply {
            Some(reply) if first == second => Ok(reply),
            _ => Err(Box::new(Difference { first, second })),
        }
    }
}

pub fn answer(book: &mut impl Store, step: &Step) -> Answer {
    let mut key = step.key;
    // A panic is an answer too: it differs from every reply.
    let reply = catch_unwind(AssertUnwindSafe(|| book.call(&step.frame, &mut key)));
    Answer {
        reply: reply.ok(),
        key,
    }
}

/// The first step of a run from empty books on which they differ.
pub fn first_difference<A: Store, B: Store>(steps: &[Step]) -> Option<(usize, Box<Difference>)> {
    let mut pair = Pair::<A, B>::empty();
    steps
        .iter()
        .enumerate()
        .find_map(|(at, step)| pair.call(step).err().map(|difference| (at, difference)))
}

#![doc = include_str!("../README.md")]
#![no_std]
#![deny(unsafe_code, unsafe_op_in_unsafe_fn, missing_docs)]
#![warn(clippy::pedantic)]

#[cfg(test)]
extern crate std;

#[allow(unsafe_code)]
#[deny(clippy::undocumented_unsafe_blocks)]
mod raw;
mod refusal;
mod reply;

pub use refusal::Refusal;
pub use reply::{Reply, Shown};

use core::fmt;

/// The key store of one receiver under one rights issuer: 16 places for keys, 32 for rights, and a purse.
///
/// A book is changed by [`call`](Book::call) alone, so every book is one that calls make from an empty one. It is 1,540 bytes of plain memory, with
/// no pointer in it and nothing beside it: it may lie anywhere, be moved, and go to another thread. A clone is a book of its own, for trying what a
/// frame would do. It is no `Copy`, since a call on a copy made unawares is lost, and it has no `==`: what calls cannot tell apart is the same.
/// Keys are not wiped from the memory of a book that is dropped.
///
/// The eight lines of the paper:
///
/// ```
/// use keybook::Book;
///
/// let evening = [
///     ("010A0B0C0001000200000064000000C80C020000000200000000000102030405060708090A0B0C0D0E0F",
///      "0000000000020000000000000000"),
///     ("020A0B0C000100020000006401", "19FF000000000000000000000000"),
///     ("020A0B0C000100020000006501", "0100000000010000000000000065"),
///     ("020A0B0C000100020000006501", "19FF000000000000000000000000"),
///     ("020A0B0C000100020000006601", "0100000000000000000000000066"),
///     ("020A0B0C000100020000006701", "1AFF000000000000000000000000"),
///     ("030A0B0C0001000200000064000000C80C", "0200000000000000000000000066"),
///     ("010A0B0C0001000200000000000000000A000000000000000000", "00FF000000000000000000000000"),
/// ];
/// let bytes = |digits: &str| -> Vec<u8> {
///     (0..digits.len()).step_by(2).map(|i| u8::from_str_radix(&digits[i..i + 2], 16).unwrap()).collect()
/// };
///
/// let mut book = Book::new();
/// for (frame, reply) in evening {
///     let mut key = [0; 16];
///     assert_eq!(format!("{:X}", book.call(&bytes(frame), &mut key)), reply);
/// }
/// ```
#[derive(Clone)]
pub struct Book(raw::Memory);

impl Book {
    /// An empty book: no key, no right, no token in the purse.
    #[must_use]
    pub fn new() -> Book {
        Book(raw::Memory::empty())
    }

    /// Takes a byte string, and answers what it did.
    ///
    /// Any byte string gets a reply, and every call ends. Where a message is granted, its key is in `key` afterwards; else `key` is as it was. Any
    /// buffer that is not 16 bytes long gets [`Refusal::BufferLength`]. A refusal leaves the book as it was.
    ///
    /// ```
    /// use keybook::{Book, Refusal, Reply};
    ///
    /// let mut book = Book::new();
    /// let message = [0x02, 0x0A, 0x0B, 0x0C, 0, 1, 0, 2, 0, 0, 0, 101, 0x01];
    /// let mut key = [0; 16];
    /// assert_eq!(book.call(&message, &mut key), Reply::Refused(Refusal::UnknownId));
    /// assert_eq!(book.call(&message, &mut key[..15]), Reply::Refused(Refusal::BufferLength));
    /// assert_eq!(book.call(b"hello", &mut key).to_string(), "not a frame");
    /// ```
    #[inline]
    #[must_use = "a call may be refused"]
    pub fn call(&mut self, frame: &[u8], key: &mut [u8]) -> Reply {
        Reply::of_bytes(self.0.call(frame, key))
    }
}

impl Default for Book {
    fn default() -> Book {
        Book::new()
    }
}

/// It says nothing of what the book holds, so that no key gets into a log.
impl fmt::Debug for Book {
    fn fmt(&self, f: &mut fmt::Formatter<'_>) -> fmt::Result {
        f.debug_struct("Book").finish_non_exhaustive()
    }
}

//! Frames and digits that several tests use.
#![allow(dead_code)]

use keybook::{Book, Reply};

/// The bytes that these digits spell.
pub fn bytes(digits: &str) -> Vec<u8> {
    (0..digits.len())
        .step_by(2)
        .map(|i| u8::from_str_radix(&digits[i..i + 2], 16).expect("two digits"))
        .collect()
}

/// Five live traffic keys for one ID, from TS 101 to 200, with a key of bytes 55.
pub fn load() -> Vec<u8> {
    bytes(&format!(
        "010A0B0C0001000200000064000000C80C020000000500000000{}",
        "55".repeat(16)
    ))
}

/// A short term message for that ID that was checked good.
pub fn message(ts: u8) -> Vec<u8> {
    bytes(&format!("020A0B0C00010002000000{ts:02X}01"))
}

/// A book with that load, which the book takes.
pub fn loaded() -> Book {
    let mut book = Book::new();
    let reply = book.call(&load(), &mut [0; 16]);
    assert!(matches!(reply, Reply::Loaded(_)), "{reply}");
    book
}

/// What a report of that right shows, as far as calls can tell the whole of a book that holds no other.
pub fn report(book: &Book) -> Reply {
    let mut copy = book.clone();
    copy.call(&bytes("030A0B0C0001000200000064000000C80C"), &mut [0; 16])
}

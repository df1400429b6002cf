//! Frames for the tests, and the two short ways to write a reply.
#![allow(dead_code)]

use plainbook::Book;

pub const TOKENS_LIVE: u8 = 0x02;
pub const TOKENS_PLAYBACK: u8 = 0x03;
pub const KEY_DELETION: u8 = 0x0A;
pub const COUNTED_LIVE: u8 = 0x0C;
pub const COUNTED_PLAYBACK: u8 = 0x0D;

pub const SET: u8 = 0;
pub const ADD: u8 = 1;

pub const ID: [u8; 7] = [0x0A, 0x0B, 0x0C, 0x00, 0x01, 0x00, 0x02];
pub const OTHER_ID: [u8; 7] = [0x0A, 0x0B, 0x0C, 0x00, 0x01, 0x00, 0x03];
pub const KEY: [u8; 16] = [0, 1, 2, 3, 4, 5, 6, 7, 8, 9, 10, 11, 12, 13, 14, 15];
pub const OTHER_KEY: [u8; 16] = [0xC3; 16];

/// A right's name: key ID, TS low, TS high and SPE.
#[derive(Clone, Copy)]
pub struct Name(pub [u8; 7], pub u32, pub u32, pub u8);

impl Name {
    fn front(self, kind: u8) -> Vec<u8> {
        let mut frame = vec![kind];
        frame.extend(self.0);
        frame.extend(self.1.to_be_bytes());
        frame.extend(self.2.to_be_bytes());
        frame.push(self.3);
        frame
    }

    /// A load without a key.
    pub fn load(self, flags: u8, amount: u32, cost: u32) -> Vec<u8> {
        let mut frame = self.front(1);
        frame.push(flags);
        frame.extend(amount.to_be_bytes());
        frame.extend(cost.to_be_bytes());
        frame
    }

    pub fn load_with_key(self, flags: u8, amount: u32, cost: u32, key: [u8; 16]) -> Vec<u8> {
        let mut frame = self.load(flags | 2, amount, cost);
        frame.extend(key);
        frame
    }

    pub fn report(self) -> Vec<u8> {
        self.front(3)
    }

    pub fn delete(self) -> Vec<u8> {
        self.front(4)
    }
}

pub fn message(id: [u8; 7], ts: u32, mark: u8) -> Vec<u8> {
    let mut frame = vec![2];
    frame.extend(id);
    frame.extend(ts.to_be_bytes());
    frame.push(mark);
    frame
}

pub fn reply(code: u8, place: u8, value: u32, purse: u32, replay_counter: u32) -> [u8; 14] {
    let mut bytes = vec![code, place];
    bytes.extend(value.to_be_bytes());
    bytes.extend(purse.to_be_bytes());
    bytes.extend(replay_counter.to_be_bytes());
    bytes.try_into().unwrap()
}

/// FF and zeros.
pub fn refusal(code: u8) -> [u8; 14] {
    reply(code, 0xFF, 0, 0, 0)
}

/// Calls with a 16-byte buffer; asserts 01's rules for every call: only code 01 writes the buffer,
/// and after a code of 10 or more the book is unchanged.
pub fn call(book: &mut Book, frame: &[u8]) -> [u8; 14] {
    call_lending(book, frame, &mut [0xEE; 16])
}

pub fn call_lending(book: &mut Book, frame: &[u8], buffer: &mut [u8]) -> [u8; 14] {
    let book_before = book.clone();
    let buffer_before = buffer.to_vec();
    let reply = book.call(frame, buffer);
    if reply[0] != 0x01 {
        assert_eq!(buffer, buffer_before, "written with {:02X}", reply[0]);
    }
    if reply[0] >= 0x10 {
        assert_eq!(*book, book_before, "altered with {:02X}", reply[0]);
    }
    reply
}

/// The key bytes that a grant on this message hands out.
pub fn granted_key(book: &mut Book, id: [u8; 7], ts: u32) -> [u8; 16] {
    let mut buffer = [0xEE; 16];
    let reply = call_lending(book, &message(id, ts, 1), &mut buffer);
    assert_eq!(reply[0], 0x01, "not granted");
    buffer
}

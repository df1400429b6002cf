//! Up to 104 bytes without a heap: frames and key buffers.

use std::fmt;
use std::ops::{Deref, DerefMut};

/// Room for the longest frame made here.
const ROOM: usize = 104;

#[derive(Clone, Copy)]
pub struct Bytes {
    length: usize,
    bytes: [u8; ROOM],
}

impl Bytes {
    pub const fn new() -> Self {
        Bytes {
            length: 0,
            bytes: [0; ROOM],
        }
    }

    pub fn zeros(length: usize) -> Self {
        let mut bytes = Bytes::new();
        bytes.resize(length);
        bytes
    }

    /// Cuts the end off, or lengthens with zeros.
    pub fn resize(&mut self, length: usize) {
        self.bytes[length.min(self.length)..].fill(0);
        self.length = length;
    }

    pub fn push(&mut self, more: &[u8]) {
        self.bytes[self.length..self.length + more.len()].copy_from_slice(more);
        self.length += more.len();
    }
}

impl Default for Bytes {
    fn default() -> Self {
        Bytes::new()
    }
}

impl From<&[u8]> for Bytes {
    fn from(slice: &[u8]) -> Self {
        let mut bytes = Bytes::new();
        bytes.push(slice);
        bytes
    }
}

impl Deref for Bytes {
    type Target = [u8];

    fn deref(&self) -> &[u8] {
        &self.bytes[..self.length]
    }
}

impl DerefMut for Bytes {
    fn deref_mut(&mut self) -> &mut [u8] {
        &mut self.bytes[..self.length]
    }
}

impl PartialEq for Bytes {
    fn eq(&self, other: &Self) -> bool {
        **self == **other
    }
}

impl Eq for Bytes {}

impl fmt::Debug for Bytes {
    fn fmt(&self, text: &mut fmt::Formatter) -> fmt::Result {
        write!(text, "{}", crate::show::hex(self))
    }
}

//! Runs two key books over the same frames and compares all that calls can tell.
#![forbid(unsafe_code)]

pub mod bytes;
pub mod compare;
pub mod counts;
pub mod frames;
pub mod known;
mod proved;
pub mod random;
mod run;
pub mod show;
pub mod shrink;

pub use run::{hunt, Found, Limits};

/// A key book that can be compared.
pub trait Store {
    fn empty() -> Self;
    fn call(&mut self, frame: &[u8], key: &mut [u8]) -> [u8; 14];
}

impl Store for plainbook::Book {
    fn empty() -> Self {
        plainbook::Book::new()
    }

    fn call(&mut self, frame: &[u8], key: &mut [u8]) -> [u8; 14] {
        plainbook::Book::call(self, frame, key)
    }
}

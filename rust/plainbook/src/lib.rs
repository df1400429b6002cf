//! The key book in plain Rust, written from the scope paper ("01") alone.
#![forbid(unsafe_code)]

mod book;
pub mod lines;

pub use book::Book;

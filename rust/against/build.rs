//! Writes the faulty books and their tests, which `tests/faults.rs` takes in.

mod faults;

use faults::{Fault, FAULTS};
use std::env;
use std::fs;
use std::path::Path;

const BOOK: &str = "../plainbook/src/book.rs";

fn main() {
    println!("cargo:rerun-if-changed={BOOK}");
    println!("cargo:rerun-if-changed=faults.rs");
    println!("cargo:rerun-if-changed=build.rs");
    let book = fs::read_to_string(BOOK).expect("plainbook's book.rs");
    let modules: String = FAULTS.iter().map(|fault| module(fault, &book)).collect();
    let folder = env::var("OUT_DIR").expect("cargo sets OUT_DIR");
    fs::write(Path::new(&folder).join("faulty_books.rs"), modules).expect("a writable folder");
}

/// A faulty book as a module, and its test.
fn module(fault: &Fault, book: &str) -> String {
    let Fault { name, frames, .. } = fault;
    let Some(book) = altered(fault, book) else {
        return format!("compile_error!(\"{name}: its words are not in book.rs once\");\n");
    };
    format!(
        "#[allow(unused, clippy::all)]
mod faulty_{name} {{
{book}
}}

impl Store for faulty_{name}::Book {{
    fn empty() -> Self {{
        Self::new()
    }}

    fn call(&mut self, frame: &[u8], key: &mut [u8]) -> [u8; 14] {{
        faulty_{name}::Book::call(self, frame, key)
    }}
}}

#[test]
fn finds_that_{name}() {{
    finds::<faulty_{name}::Book>({frames});
}}
"
    )
}

fn altered(fault: &Fault, book: &str) -> Option<String> {
    let mut book = book.to_string();
    for (from, to) in fault.changes {
        if book.matches(from).count() != 1 {
            return None;
        }
        book = book.replacen(from, to, 1);
    }
    Some(book)
}

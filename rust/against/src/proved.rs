//! The compiled, proved book as a store.

use crate::Store;

impl Store for keybook::Book {
    fn empty() -> Self {
        keybook::Book::new()
    }

    fn call(&mut self, frame: &[u8], key: &mut [u8]) -> [u8; 14] {
        keybook::Book::call(self, frame, key).bytes()
    }
}

//! The two books, and a book that answers nothing, for what the loop around a call costs.

/// What a loop calls.
pub trait Callee: Clone {
    type Reply;
    fn call(&mut self, frame: &[u8], key: &mut [u8]) -> Self::Reply;
}

pub trait Book: Callee {
    const NAME: &str;
    fn empty() -> Self;
    fn bytes(reply: Self::Reply) -> [u8; 14];
}

impl Callee for keybook::Book {
    type Reply = keybook::Reply;

    fn call(&mut self, frame: &[u8], key: &mut [u8]) -> keybook::Reply {
        keybook::Book::call(self, frame, key)
    }
}

impl Book for keybook::Book {
    const NAME: &str = "keybook";

    fn empty() -> Self {
        keybook::Book::new()
    }

    fn bytes(reply: keybook::Reply) -> [u8; 14] {
        reply.bytes()
    }
}

impl Callee for plainbook::Book {
    type Reply = [u8; 14];

    fn call(&mut self, frame: &[u8], key: &mut [u8]) -> [u8; 14] {
        plainbook::Book::call(self, frame, key)
    }
}

impl Book for plainbook::Book {
    const NAME: &str = "plainbook";

    fn empty() -> Self {
        plainbook::Book::new()
    }

    fn bytes(reply: [u8; 14]) -> [u8; 14] {
        reply
    }
}

/// A book that is copied like another and answers nothing.
#[derive(Clone)]
pub struct Idle<B>(pub B);

impl<B: Clone> Callee for Idle<B> {
    type Reply = ();

    fn call(&mut self, _: &[u8], _: &mut [u8]) {}
}

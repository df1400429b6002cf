//! Books as values: clones, places in memory, and threads.

mod common;

use common::{load, loaded, message, report};
use keybook::{Book, Refusal, Reply, Shown};
use std::thread;

const fn goes_to_any_thread<T: Send + Sync>() {}

const _: () = goes_to_any_thread::<Book>();
const _: () = goes_to_any_thread::<Reply>();
const _: () = goes_to_any_thread::<Shown>();
const _: () = goes_to_any_thread::<Refusal>();

#[test]
fn a_refusal_is_an_error() {
    fn tried(book: &mut Book) -> Result<Reply, Box<dyn std::error::Error>> {
        Ok(book.call(&message(101), &mut [0; 16]).result()?)
    }
    let why = tried(&mut Book::default()).unwrap_err();
    assert_eq!(why.to_string(), "the ID is not held");
    assert!(tried(&mut loaded()).is_ok());
}

#[test]
fn a_clone_is_a_book_of_its_own() {
    let mut book = loaded();
    let kept = book.clone();
    let reply = book.call(&message(101), &mut [0; 16]);
    assert_eq!(reply.value(), Some(4));
    assert_eq!(report(&kept).value(), Some(5));
    assert_eq!(report(&book).value(), Some(4));
}

#[test]
fn a_book_may_be_moved() {
    let mut books = vec![Book::new()];
    for number in 0..100 {
        let mut frame = load();
        frame[21] = number;
        let mut book = books.pop().expect("one book");
        assert_eq!(book.call(&frame, &mut [0; 16]).value(), Some(number.into()));
        books = vec![Book::new(), book];
    }
    let last = Box::new(books.pop().expect("one book"));
    assert_eq!(report(&last).value(), Some(99));
}

#[test]
fn books_in_threads_do_not_meet() {
    thread::scope(|scope| {
        for amount in 1..=8 {
            scope.spawn(move || {
                let mut frame = load();
                frame[21] = amount;
                for _ in 0..2_000 {
                    let mut book = Book::new();
                    let mut key = [0; 16];
                    assert_eq!(book.call(&frame, &mut key).value(), Some(amount.into()));
                    let reply = book.call(&message(101), &mut key);
                    assert_eq!(reply.value(), Some(u32::from(amount) - 1));
                    assert_eq!(key, [0x55; 16]);
                }
            });
        }
    });
}

#[test]
fn a_book_says_nothing_of_its_keys() {
    assert_eq!(format!("{:?}", loaded()), "Book { .. }");
}

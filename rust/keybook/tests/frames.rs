//! Byte strings of every sort: each gets a reply, and the refused ones leave the book.

mod common;

use common::{load, loaded, message, report};
use keybook::{Book, Refusal, Reply};

const UNREADABLE: Reply = Reply::Refused(Refusal::Unreadable);

#[test]
fn no_byte_and_a_million() {
    let mut book = loaded();
    let before = report(&book);
    for length in [0, 1, 12, 14, 41, 43, 1 << 10, 1 << 20] {
        for kind in 0..=4 {
            let mut frame = vec![0; length];
            if let Some(first) = frame.first_mut() {
                *first = kind;
            }
            assert_eq!(book.call(&frame, &mut [0; 16]), UNREADABLE, "{length}");
        }
    }
    assert_eq!(report(&book), before);
}

#[test]
fn cut_short_and_too_long() {
    for whole in [load(), message(101)] {
        for length in 0..whole.len() {
            let mut cut = whole[..length].to_vec();
            let mut book = loaded();
            assert_eq!(book.call(&cut, &mut [0; 16]), UNREADABLE, "{length}");
            cut.extend_from_slice(&whole[length..]);
            cut.push(0);
            assert_eq!(book.call(&cut, &mut [0; 16]), UNREADABLE, "{length}");
        }
    }
}

#[test]
fn any_two_bytes() {
    let mut book = Book::new();
    for number in 0..=u16::MAX {
        let reply = book.call(&number.to_be_bytes(), &mut [0; 16]);
        assert_eq!(reply, UNREADABLE);
    }
}

#[test]
fn frame_and_buffer_at_any_address() {
    let mut key = [0; 40];
    for shift in 0..8 {
        let mut moved = vec![0; shift];
        moved.extend_from_slice(&message(101));
        let mut book = loaded();
        let reply = book.call(&moved[shift..], &mut key[shift..shift + 16]);
        assert!(matches!(reply, Reply::Granted(_)), "{reply}");
        assert_eq!(key[shift..shift + 16], [0x55; 16]);
        assert!(key[shift + 16..].iter().all(|byte| *byte == 0));
    }
}

//! The lent key buffer: which lengths it may have, and who writes it.

mod common;

use common::{bytes, load, loaded, message, report};
use keybook::{Book, Refusal, Reply};

#[test]
fn only_sixteen_bytes_are_a_key_buffer() {
    for length in 0..=64 {
        let mut book = loaded();
        let before = report(&book);
        let mut key = vec![0xEE; length];
        let reply = book.call(&message(101), &mut key);
        if length == 16 {
            assert!(matches!(reply, Reply::Granted(_)), "{reply}");
            assert_eq!(key, [0x55; 16]);
        } else {
            assert_eq!(reply, Reply::Refused(Refusal::BufferLength), "{length}");
            assert!(key.iter().all(|byte| *byte == 0xEE), "{length}");
            assert_eq!(report(&book), before, "{length}");
        }
    }
}

#[test]
fn the_buffer_is_tested_before_the_frame() {
    let reply = Book::new().call(b"no frame", &mut []);
    assert_eq!(reply.code(), 0x10);
}

/// A frame for each refusal that a buffer of sixteen bytes can get, from a book with one right.
fn refused() -> Vec<(u8, Vec<u8>)> {
    let load = |digits: &str| bytes(&format!("010A0B0C00010002{digits}"));
    vec![
        (0x11, vec![]),
        (0x11, bytes("020A0B0C000100020000006502")),
        (0x12, load("00000064000000C809000000000500000000")),
        (0x13, load("00000064000000C80C000000000500000001")),
        (0x14, load("000000C8000000C80C000000000500000000")),
        (0x15, bytes("020A0B0C000100030000006501")),
        (0x17, load("00000064000000C80C010040000000000000")),
        (0x18, bytes("020A0B0C000100020000006500")),
        (0x19, message(100)),
        (0x1B, bytes("030A0B0C0001000200000064000000C90C")),
    ]
}

#[test]
fn a_refusal_leaves_book_and_buffer() {
    for (code, frame) in refused() {
        let mut book = loaded();
        let before = report(&book);
        let mut key = [0xEE; 16];
        let reply = book.call(&frame, &mut key);
        assert_eq!(reply.code(), code, "{reply}");
        assert!(reply.is_refusal());
        assert_eq!(reply.result().unwrap_err().code(), code);
        assert_eq!(key, [0xEE; 16]);
        assert_eq!(report(&book), before);
    }
}

#[test]
fn an_exhausted_right_gets_no_key() {
    let mut book = loaded();
    for ts in 101..=105 {
        let reply = book.call(&message(ts), &mut [0; 16]);
        assert_eq!(reply.value(), Some(u32::from(105 - ts)));
        assert_eq!(reply.replay_counter(), Some(u32::from(ts)));
        assert_eq!((reply.place(), reply.purse()), (Some(0), Some(0)));
    }
    let mut key = [0xEE; 16];
    let reply = book.call(&message(106), &mut key);
    assert_eq!(reply, Reply::Refused(Refusal::NoFunds));
    assert_eq!((reply.place(), reply.purse()), (None, None));
    assert_eq!(key, [0xEE; 16]);
}

#[test]
fn no_place_is_free() {
    let mut book = Book::new();
    for number in 0..=16 {
        let mut frame = load();
        frame[7] = number;
        let reply = book.call(&frame, &mut [0; 16]);
        if number < 16 {
            assert_eq!(reply.place(), Some(number));
        } else {
            assert_eq!(reply, Reply::Refused(Refusal::Full));
        }
    }
}

#[test]
fn a_report_and_a_deletion() {
    let mut book = loaded();
    assert!(matches!(report(&book), Reply::Reported(shown) if shown.value == 5));
    let reply = book.call(&bytes("040A0B0C0001000200000064000000C80C"), &mut [0; 16]);
    assert_eq!(reply, Reply::Deleted { purse: 0 });
    assert_eq!(reply.result(), Ok(reply));
    assert_eq!(report(&book), Reply::Refused(Refusal::NotHeld));
}

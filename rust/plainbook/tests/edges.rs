//! 01's cases at the edges: P1 to P12, the eight lines and the 33rd right.
mod common;

use common::*;
use plainbook::Book;

const LIVE: Name = Name(ID, 100, 200, COUNTED_LIVE);

fn book_with(frames: &[Vec<u8>]) -> Book {
    let mut book = Book::new();
    for frame in frames {
        let reply = call(&mut book, frame);
        assert!(reply[0] < 0x10, "refused with {:02X}", reply[0]);
    }
    book
}

fn p1_book() -> Book {
    book_with(&[LIVE.load_with_key(SET, 5, 0, KEY)])
}

#[test]
fn p1_ts_low_is_outside() {
    let mut book = p1_book();
    assert_eq!(call(&mut book, &message(ID, 100, 1)), refusal(0x19));
    assert_eq!(
        call(&mut book, &message(ID, 101, 1)),
        reply(1, 0, 4, 0, 101)
    );
}

#[test]
fn p2_ts_high_is_inside() {
    let mut book = p1_book();
    assert_eq!(call(&mut book, &message(ID, 201, 1)), refusal(0x19));
    assert_eq!(
        call(&mut book, &message(ID, 200, 1)),
        reply(1, 0, 4, 0, 200)
    );
    assert_eq!(call(&mut book, &message(ID, 201, 1)), refusal(0x19));
}

#[test]
fn p3_ts_equal_to_the_replay_counter_is_not_live() {
    let mut book = p1_book();
    granted_key(&mut book, ID, 150);
    assert_eq!(call(&mut book, &message(ID, 150, 1)), refusal(0x19));
}

#[test]
fn p4_ts_equal_to_the_replay_counter_is_playback() {
    let mut book = p1_book();
    granted_key(&mut book, ID, 150);
    let playback = Name(ID, 100, 200, COUNTED_PLAYBACK);
    call(&mut book, &playback.load(SET, 1, 0));
    assert_eq!(
        call(&mut book, &message(ID, 150, 1)),
        reply(1, 1, 0, 0, 150)
    );
    assert_eq!(call(&mut book, &LIVE.report()), reply(2, 0, 4, 0, 150));
}

#[test]
fn p5_limit_of_the_live_counter() {
    let done = LIVE.load_with_key(SET, 4_194_303, 0, KEY);
    let past = LIVE.load_with_key(SET, 4_194_304, 0, KEY);
    let mut book = Book::new();
    assert_eq!(call(&mut book, &past), reply(0x17, 0xFF, 0, 0, 0));
    assert_eq!(call(&mut book, &done), reply(0, 0, 4_194_303, 0, 0));
    assert_eq!(call(&mut book, &past), reply(0x17, 0, 4_194_303, 0, 0));
}

#[test]
fn p6_limit_of_the_playback_counter() {
    let playback = Name(ID, 100, 200, COUNTED_PLAYBACK);
    let done = playback.load_with_key(SET, 8_388_607, 0, KEY);
    let past = playback.load_with_key(SET, 8_388_608, 0, KEY);
    let mut book = Book::new();
    assert_eq!(call(&mut book, &past), reply(0x17, 0xFF, 0, 0, 0));
    assert_eq!(call(&mut book, &done), reply(0, 0, 8_388_607, 0, 0));
    assert_eq!(call(&mut book, &past), reply(0x17, 0, 8_388_607, 0, 0));
}

#[test]
fn p7_limit_of_the_purse() {
    let tokens = Name(ID, 100, 200, TOKENS_LIVE);
    let mut book = book_with(&[tokens.load_with_key(SET, 134_217_727, 3, KEY)]);
    let full = reply(0, 0, 3, 134_217_727, 0);
    assert_eq!(call(&mut book, &tokens.load(ADD, 0, 3)), full);
    // The cost of a refused load is not stored either: the right shows as held.
    let past = reply(0x17, 0, 3, 134_217_727, 0);
    assert_eq!(call(&mut book, &tokens.load(ADD, 1, 4)), past);
    let other = Name(ID, 100, 201, TOKENS_LIVE);
    let past = reply(0x17, 0xFF, 0, 134_217_727, 0);
    assert_eq!(call(&mut book, &other.load(ADD, 1, 4)), past);
}

#[test]
fn p8_cost_is_paid_each_grant() {
    let tokens = Name(ID, 100, 200, TOKENS_LIVE);
    let mut book = book_with(&[tokens.load_with_key(SET, 10, 3, KEY)]);
    for (ts, purse) in [(101, 7), (102, 4), (103, 1)] {
        let granted = reply(1, 0, 3, purse, ts);
        assert_eq!(call(&mut book, &message(ID, ts, 1)), granted);
    }
    assert_eq!(call(&mut book, &message(ID, 104, 1)), refusal(0x1A));
}

#[test]
fn p9_and_p10_add_makes_a_right_and_set_replaces_its_counter() {
    let mut book = Book::new();
    let made = LIVE.load_with_key(ADD, 5, 0, KEY);
    assert_eq!(call(&mut book, &made), reply(0, 0, 5, 0, 0));
    assert_eq!(call(&mut book, &LIVE.load(SET, 2, 0)), reply(0, 0, 2, 0, 0));
}

#[test]
fn p11_ts_low_equal_to_ts_high() {
    let none = Name(ID, 100, 100, COUNTED_LIVE);
    let frame = none.load_with_key(SET, 5, 0, KEY);
    assert_eq!(call(&mut Book::new(), &frame), refusal(0x14));
}

#[test]
fn p12_mark_comes_before_the_unknown_id() {
    assert_eq!(call(&mut Book::new(), &message(ID, 1, 0)), refusal(0x18));
    assert_eq!(call(&mut Book::new(), &message(ID, 1, 1)), refusal(0x15));
}

#[test]
fn the_33rd_right_takes_the_freed_place() {
    let mut book = Book::new();
    let name = |low| Name(ID, low, 1000, COUNTED_LIVE);
    for low in 0..32 {
        let frame = name(low).load_with_key(SET, low, 0, KEY);
        assert_eq!(call(&mut book, &frame), reply(0, low as u8, low, 0, 0));
    }
    let extra = name(32).load(SET, 7, 0);
    assert_eq!(call(&mut book, &extra), refusal(0x16));
    let deleted = reply(0, 0xFF, 0, 0, 0);
    assert_eq!(call(&mut book, &name(17).delete()), deleted);
    assert_eq!(call(&mut book, &extra), reply(0, 17, 7, 0, 0));
    let again = name(17).load(SET, 7, 0);
    assert_eq!(call(&mut book, &again), refusal(0x16));
}

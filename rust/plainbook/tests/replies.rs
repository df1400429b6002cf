//! Every reply code of 01's table, in the order of the table, and the book after it.
mod common;

use common::*;
use plainbook::Book;

const LIVE: Name = Name(ID, 100, 200, COUNTED_LIVE);
const PLAYBACK: Name = Name(ID, 100, 200, COUNTED_PLAYBACK);
const TOKENS: Name = Name(ID, 100, 200, TOKENS_LIVE);
const PLAYBACK_TOKENS: Name = Name(ID, 100, 200, TOKENS_PLAYBACK);

/// Rights of one ID in places 0 to 3: counters 5 and 6, costs 2 and 3; purse 50, replay counter 110.
fn four_rights() -> Book {
    let mut book = Book::new();
    let frames = [
        LIVE.load_with_key(SET, 6, 0, KEY),
        PLAYBACK.load(SET, 6, 0),
        TOKENS.load(SET, 40, 2),
        PLAYBACK_TOKENS.load(ADD, 10, 3),
        message(ID, 110, 1),
    ];
    for frame in frames {
        assert!(call(&mut book, &frame)[0] < 0x10);
    }
    book
}

#[test]
fn code_00_of_a_load_shows_the_right_as_held() {
    let mut book = four_rights();
    let loads = [
        (LIVE.load(ADD, 3, 0), reply(0, 0, 8, 50, 110)),
        (PLAYBACK.load(SET, 3, 0), reply(0, 1, 3, 50, 110)),
        (TOKENS.load(ADD, 3, 9), reply(0, 2, 9, 53, 110)),
        (PLAYBACK_TOKENS.load(SET, 3, 8), reply(0, 3, 8, 3, 110)),
    ];
    for (frame, expected) in loads {
        assert_eq!(call(&mut book, &frame), expected);
    }
}

#[test]
fn code_00_of_the_last_deletion_leaves_an_empty_book_but_for_the_purse() {
    let mut book = four_rights();
    let deleted = reply(0, 0xFF, 0, 50, 0);
    for name in [TOKENS, LIVE, PLAYBACK_TOKENS, PLAYBACK] {
        assert_eq!(call(&mut book, &name.delete()), deleted);
        assert_eq!(call(&mut book, &name.delete()), refusal(0x1B));
    }
    assert_eq!(call(&mut book, &message(ID, 111, 1)), refusal(0x15));
    assert_eq!(book, book_with_purse(50));
}

#[test]
fn code_00_of_a_new_right_keeps_the_replay_counter_and_of_a_new_id_starts_it() {
    let mut book = four_rights();
    let wider = Name(ID, 100, 300, COUNTED_LIVE);
    assert_eq!(
        call(&mut book, &wider.load(ADD, 4, 0)),
        reply(0, 4, 4, 50, 110)
    );
    let deletion = Name(ID, 0, 0, KEY_DELETION).load(SET, 0, 0);
    assert_eq!(call(&mut book, &deletion)[0], 0x00);
    assert_eq!(call(&mut book, &wider.load(SET, 4, 0)), refusal(0x15));
    let made = wider.load_with_key(SET, 4, 0, OTHER_KEY);
    assert_eq!(call(&mut book, &made), reply(0, 0, 4, 50, 0));
    assert_eq!(granted_key(&mut book, ID, 101), OTHER_KEY);
}

#[test]
fn code_00_of_0a_takes_all_rights_of_the_id_and_no_other() {
    let mut book = four_rights();
    let other = Name(OTHER_ID, 100, 200, COUNTED_LIVE);
    call(&mut book, &other.load_with_key(SET, 1, 0, OTHER_KEY));
    let deletion = Name(ID, 7, 7, KEY_DELETION).load(SET, 0, 0);
    assert_eq!(call(&mut book, &deletion), reply(0, 0xFF, 0, 50, 0));
    assert_eq!(call(&mut book, &deletion), refusal(0x1B));
    assert_eq!(call(&mut book, &other.report()), reply(2, 4, 1, 50, 0));
    assert_eq!(granted_key(&mut book, OTHER_ID, 150), OTHER_KEY);
    call(&mut book, &other.delete());
    assert_eq!(book, book_with_purse(50));
}

/// A drained book that never held more than one right.
fn book_with_purse(purse: u32) -> Book {
    let mut book = Book::new();
    let name = Name([0; 7], 0, 1, TOKENS_LIVE);
    call(&mut book, &name.load_with_key(SET, purse, 0, [0; 16]));
    call(&mut book, &name.delete());
    book
}

#[test]
fn code_01_charges_the_lowest_place_that_can_pay() {
    let mut book = four_rights();
    call(&mut book, &LIVE.load(SET, 1, 0));
    let expected = [
        (111, reply(1, 0, 0, 50, 111)),
        (112, reply(1, 2, 2, 48, 112)),
        (112, reply(1, 1, 5, 48, 112)),
        (101, reply(1, 1, 4, 48, 112)),
    ];
    for (ts, granted) in expected {
        assert_eq!(call(&mut book, &message(ID, ts, 1)), granted);
    }
    call(&mut book, &PLAYBACK.load(SET, 0, 0));
    let granted = reply(1, 3, 3, 45, 112);
    assert_eq!(call(&mut book, &message(ID, 101, 1)), granted);
}

#[test]
fn code_01_hands_out_the_latest_key_of_the_id() {
    let mut book = four_rights();
    assert_eq!(granted_key(&mut book, ID, 120), KEY);
    call(&mut book, &PLAYBACK.load_with_key(ADD, 0, 0, OTHER_KEY));
    assert_eq!(granted_key(&mut book, ID, 121), OTHER_KEY);
}

#[test]
fn code_01_with_cost_0_is_paid_by_an_empty_purse() {
    let mut book = Book::new();
    call(&mut book, &TOKENS.load_with_key(SET, 0, 0, KEY));
    let granted = reply(1, 0, 0, 0, 101);
    assert_eq!(call(&mut book, &message(ID, 101, 1)), granted);
}

#[test]
fn code_02_shows_each_right_and_alters_nothing() {
    let mut book = four_rights();
    let before = book.clone();
    let rights = [
        (LIVE, reply(2, 0, 5, 50, 110)),
        (PLAYBACK, reply(2, 1, 6, 50, 110)),
        (TOKENS, reply(2, 2, 2, 50, 110)),
        (PLAYBACK_TOKENS, reply(2, 3, 3, 50, 110)),
    ];
    for (name, expected) in rights {
        assert_eq!(call(&mut book, &name.report()), expected);
    }
    assert_eq!(book, before);
}

#[test]
fn code_10_comes_before_every_other() {
    let mut book = four_rights();
    let frames = [
        LIVE.load(SET, 1, 0),
        message(ID, 111, 1),
        LIVE.report(),
        LIVE.delete(),
        vec![],
    ];
    for length in [0, 1, 15, 17, 32] {
        for frame in &frames {
            let mut buffer = vec![0x5A; length];
            assert_eq!(call_lending(&mut book, frame, &mut buffer), refusal(0x10));
        }
    }
}

#[test]
fn code_11_for_kinds_and_lengths() {
    let mut book = four_rights();
    let good = [
        LIVE.load(SET, 1, 0),
        LIVE.load_with_key(SET, 1, 0, KEY),
        message(ID, 111, 1),
        LIVE.report(),
        LIVE.delete(),
    ];
    for frame in good {
        for length in 0..100 {
            let mut other = frame.clone();
            other.resize(length, 0);
            if other != frame {
                assert_eq!(call(&mut book, &other), refusal(0x11), "{length}");
            }
        }
        for kind in (0..=255).filter(|kind| !(1..=4).contains(kind)) {
            let mut other = frame.clone();
            other[0] = kind;
            assert_eq!(call(&mut book, &other), refusal(0x11), "{kind}");
        }
    }
}

#[test]
fn code_11_for_flags_and_marks() {
    let mut book = four_rights();
    for flags in 4..=255 {
        let mut frame = LIVE.load(SET, 1, 0);
        frame[17] = flags;
        assert_eq!(call(&mut book, &frame), refusal(0x11), "{flags}");
        frame.extend(KEY);
        assert_eq!(call(&mut book, &frame), refusal(0x11), "{flags}");
    }
    for mark in 2..=255 {
        let frame = message(ID, 111, mark);
        assert_eq!(call(&mut book, &frame), refusal(0x11), "{mark}");
    }
    let mut frame = LIVE.load(SET, 1, 0);
    frame[17] = 2;
    assert_eq!(call(&mut book, &frame), refusal(0x11));
    let mut frame = LIVE.load_with_key(SET, 1, 0, KEY);
    frame[17] = 1;
    assert_eq!(call(&mut book, &frame), refusal(0x11));
}

#[test]
fn code_12_for_every_other_spe() {
    let mut book = four_rights();
    let served = [2, 3, 0x0C, 0x0D];
    for spe in (0..=255).filter(|spe| !served.contains(spe)) {
        let name = Name(ID, 100, 200, spe);
        // Beside 12, this load would get 13, 14 or 15.
        let load = Name(OTHER_ID, 200, 100, spe).load(SET, 1, 1);
        let code = if spe == KEY_DELETION { 0x13 } else { 0x12 };
        assert_eq!(call(&mut book, &load), refusal(code), "{spe}");
        assert_eq!(call(&mut book, &name.report()), refusal(0x12), "{spe}");
        assert_eq!(call(&mut book, &name.delete()), refusal(0x12), "{spe}");
    }
}

#[test]
fn code_13_for_figures_that_must_be_zero() {
    let mut book = four_rights();
    let deletion = Name(OTHER_ID, 200, 100, KEY_DELETION);
    for bit in 0..32 {
        let (amount, cost) = (
            deletion.load(SET, 1 << bit, 0),
            deletion.load(SET, 0, 1 << bit),
        );
        assert_eq!(call(&mut book, &amount), refusal(0x13));
        assert_eq!(call(&mut book, &cost), refusal(0x13));
        for spe in [COUNTED_LIVE, COUNTED_PLAYBACK] {
            let counted = Name(OTHER_ID, 200, 100, spe).load(SET, 0, 1 << bit);
            assert_eq!(call(&mut book, &counted), refusal(0x13));
        }
    }
    assert_eq!(call(&mut book, &deletion.load(ADD, 0, 0)), refusal(0x13));
    let with_key = deletion.load_with_key(SET, 0, 0, KEY);
    assert_eq!(call(&mut book, &with_key), refusal(0x13));
    assert_eq!(call(&mut book, &deletion.load(SET, 0, 0)), refusal(0x1B));
}

#[test]
fn code_14_comes_before_15_and_17() {
    let mut book = four_rights();
    for spe in [TOKENS_LIVE, TOKENS_PLAYBACK, COUNTED_LIVE, COUNTED_PLAYBACK] {
        for (low, high) in [(200, 100), (100, 100), (0, 0), (u32::MAX, 0)] {
            let load = Name(OTHER_ID, low, high, spe).load(SET, u32::MAX, 0);
            assert_eq!(call(&mut book, &load), refusal(0x14));
        }
    }
}

#[test]
fn code_15_for_an_id_that_differs_in_one_byte() {
    let mut book = four_rights();
    for at in 0..7 {
        let mut id = ID;
        id[at] ^= 0x80;
        let load = Name(id, 100, 200, COUNTED_LIVE).load(SET, u32::MAX, 0);
        assert_eq!(call(&mut book, &load), refusal(0x15));
        assert_eq!(call(&mut book, &message(id, 111, 1)), refusal(0x15));
    }
}

#[test]
fn code_16_for_the_17th_key_comes_before_17() {
    let mut book = Book::new();
    let name = |number| Name([0, 0, 0, 0, 0, 0, number], 0, 9, COUNTED_LIVE);
    for number in 0..16 {
        let load = name(number).load_with_key(SET, 1, 0, [number; 16]);
        assert_eq!(call(&mut book, &load), reply(0, number, 1, 0, 0));
    }
    let extra = name(16).load_with_key(SET, u32::MAX, 0, KEY);
    assert_eq!(call(&mut book, &extra), refusal(0x16));
    call(&mut book, &name(3).delete());
    assert_eq!(call(&mut book, &extra), reply(0x17, 0xFF, 0, 0, 0));
    let extra = name(16).load_with_key(SET, 1, 0, KEY);
    assert_eq!(call(&mut book, &extra), reply(0, 3, 1, 0, 0));
    assert_eq!(granted_key(&mut book, name(16).0, 1), KEY);
    assert_eq!(granted_key(&mut book, name(15).0, 1), [15; 16]);
}

#[test]
fn code_17_where_the_sum_would_wrap() {
    let mut book = four_rights();
    let held = [
        (LIVE, 0, reply(0x17, 0, 5, 50, 110)),
        (PLAYBACK, 0, reply(0x17, 1, 6, 50, 110)),
        (TOKENS, 9, reply(0x17, 2, 2, 50, 110)),
        (PLAYBACK_TOKENS, 9, reply(0x17, 3, 3, 50, 110)),
    ];
    for (name, cost, expected) in held {
        for amount in [u32::MAX, u32::MAX - 4, u32::MAX - 5, u32::MAX - 49, 1 << 31] {
            let load = name.load_with_key(ADD, amount, cost, OTHER_KEY);
            assert_eq!(call(&mut book, &load), expected);
        }
    }
    let new = Name(ID, 100, 201, TOKENS_LIVE).load(ADD, u32::MAX, 9);
    assert_eq!(call(&mut book, &new), reply(0x17, 0xFF, 0, 50, 0));
    assert_eq!(granted_key(&mut book, ID, 111), KEY);
}

#[test]
fn code_18_comes_before_every_test_of_the_book() {
    let mut book = four_rights();
    for (id, ts) in [(ID, 111), (ID, 300), (OTHER_ID, 111)] {
        assert_eq!(call(&mut book, &message(id, ts, 0)), refusal(0x18));
    }
}

#[test]
fn code_19_outside_every_interval_of_the_sort() {
    let mut book = four_rights();
    for ts in [0, 1, 100, 201, u32::MAX] {
        assert_eq!(call(&mut book, &message(ID, ts, 1)), refusal(0x19));
    }
    call(&mut book, &PLAYBACK.delete());
    call(&mut book, &PLAYBACK_TOKENS.delete());
    assert_eq!(call(&mut book, &message(ID, 110, 1)), refusal(0x19));
}

#[test]
fn code_1a_where_no_fitting_right_can_pay() {
    let mut book = Book::new();
    call(&mut book, &LIVE.load_with_key(SET, 0, 0, KEY));
    assert_eq!(call(&mut book, &message(ID, 101, 1)), refusal(0x1A));
    call(&mut book, &TOKENS.load(SET, 4, 5));
    assert_eq!(call(&mut book, &message(ID, 101, 1)), refusal(0x1A));
    call(&mut book, &TOKENS.load(ADD, 1, 5));
    let granted = reply(1, 1, 5, 0, 101);
    assert_eq!(call(&mut book, &message(ID, 101, 1)), granted);
    assert_eq!(call(&mut book, &LIVE.report()), reply(2, 0, 0, 0, 101));
}

#[test]
fn code_1b_for_a_name_that_differs_in_one_part() {
    let mut book = four_rights();
    call(&mut book, &PLAYBACK.delete());
    let near = [
        Name(OTHER_ID, 100, 200, COUNTED_LIVE),
        Name(ID, 101, 200, COUNTED_LIVE),
        Name(ID, 100, 201, COUNTED_LIVE),
        Name(ID, 100, 200, COUNTED_PLAYBACK),
        Name(ID, 200, 100, COUNTED_LIVE),
    ];
    for name in near {
        assert_eq!(call(&mut book, &name.report()), refusal(0x1B));
        assert_eq!(call(&mut book, &name.delete()), refusal(0x1B));
    }
    let deletion = Name(OTHER_ID, 100, 200, KEY_DELETION).load(SET, 0, 0);
    assert_eq!(call(&mut book, &deletion), refusal(0x1B));
}

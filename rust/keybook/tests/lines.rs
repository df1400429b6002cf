//! The lines of the paper, and those of the demonstration: what `bookrun` prints, from Rust.

mod common;

use common::bytes;
use keybook::Book;

const PAPER: &str = "\
010A0B0C0001000200000064000000C80C020000000200000000000102030405060708090A0B0C0D0E0F
020A0B0C000100020000006401
020A0B0C000100020000006501
020A0B0C000100020000006501
020A0B0C000100020000006601
020A0B0C000100020000006701
030A0B0C0001000200000064000000C80C
010A0B0C0001000200000000000000000A000000000000000000
";

const PAPER_REPLIES: &str = "\
0000000000020000000000000000
19FF000000000000000000000000
0100000000010000000000000065
19FF000000000000000000000000
0100000000000000000000000066
1AFF000000000000000000000000
0200000000000000000000000066
00FF000000000000000000000000
";

fn replies(frames: &str) -> String {
    let mut book = Book::new();
    frames
        .lines()
        .map(|line| format!("{:X}\n", book.call(&bytes(line), &mut [0; 16])))
        .collect()
}

#[test]
fn the_eight_lines_of_the_paper() {
    assert_eq!(replies(PAPER), PAPER_REPLIES);
}

#[test]
fn the_evening_of_the_demonstration() {
    let frames = include_str!("../../../demo/evening");
    let wanted = include_str!("../../../demo/evening.replies");
    assert!(frames.lines().count() > 20);
    assert_eq!(replies(frames), wanted);
}

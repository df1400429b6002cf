//! The random runs reach every case of every reply code.

use std::time::Duration;

use against::counts::Counts;
use against::{hunt, Limits};
use plainbook::Book;

#[test]
fn every_case_comes_and_a_book_agrees_with_itself() {
    let limits = Limits {
        calls: 400_000,
        time: Duration::MAX,
    };
    let mut counts = Counts::new();
    assert!(hunt::<Book, Book>(1, limits, &mut counts).is_none());
    for line in counts.lines() {
        let (case, times) = line.rarest;
        assert!(times > 5, "{:02X}, {case}: {times}", line.code);
        assert!(line.calls > 2_000, "{:02X}: {}", line.code, line.calls);
    }
}

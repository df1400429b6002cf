//! Faulty books are found, and by few frames.

use std::time::{Duration, Instant};

use against::compare::{first_difference, Step};
use against::counts::Counts;
use against::shrink::shrink;
use against::{hunt, show, Limits, Store};
use plainbook::Book;

const LIMITS: Limits = Limits {
    calls: 1_000_000,
    time: Duration::from_secs(60),
};

/// A hunt finds the faulty book with each of three seeds, and shows it by at most `frames` frames.
fn finds<Faulty: Store>(frames: usize) {
    for seed in 1..=3 {
        let start = Instant::now();
        let mut counts = Counts::new();
        let found = hunt::<Book, Faulty>(seed, LIMITS, &mut counts);
        let time = start.elapsed();
        let found = found.expect("a difference");
        let (steps, difference) = shrink::<Book, Faulty>(&found.steps).expect("still a difference");
        let text = show::difference(&steps, &difference);
        let (calls, length) = (counts.calls(), steps.len());
        println!("seed {seed}: {calls} calls, {time:.1?}, shown by {length} frames\n{text}");
        let last = first_difference::<Book, Faulty>(&steps).map(|(at, _)| at + 1);
        assert_eq!(last, Some(length));
        assert!(length <= frames, "{length} frames");
        agrees_with_the_line_program(&steps, difference.first.reply);
    }
}

/// The printed lines are such that 01's line program answers the last as the first book did.
fn agrees_with_the_line_program(steps: &[Step], reply: Option<[u8; 14]>) {
    if steps.iter().any(|step| step.key.len() != 16) {
        return;
    }
    let lines: Vec<String> = steps.iter().map(show::line).collect();
    let mut output = vec![];
    plainbook::lines::run(&mut lines.join("\n").as_bytes(), &mut output).unwrap();
    // An empty last line without a line feed is no line.
    if lines.last().is_some_and(|line| !line.is_empty()) {
        let last = show::hex(&reply.unwrap()) + "\n";
        assert!(String::from_utf8(output).unwrap().ends_with(&last));
    }
}

include!(concat!(env!("OUT_DIR"), "/faulty_books.rs"));

//! The loop of calls, and its time.

use std::hint::black_box;
use std::time::{Duration, Instant};

use crate::books::{Book, Callee, Idle};
use crate::cases::Case;

/// How long these calls of a case take, with the loop around them.
#[inline(never)]
pub fn calls<B: Callee>(case: &Case, prepared: &B, calls: u32) -> Duration {
    let mut book = prepared.clone();
    let mut key = [0; 16];
    let frames = case.frames(calls);
    let frames = frames.iter().take(calls as usize);
    let start = Instant::now();
    for frame in frames {
        if case.fresh {
            book.clone_from(prepared);
        }
        let book = black_box(&mut book);
        // By reference, so that the reply is not copied.
        black_box(&book.call(black_box(frame), black_box(&mut key)));
    }
    start.elapsed()
}

/// A prepared book, and the least time of its loop and of the loop without it.
struct Timed<B> {
    book: B,
    idle: Idle<B>,
    least: Duration,
    least_idle: Duration,
}

impl<B: Book> Timed<B> {
    fn new(case: &Case) -> Timed<B> {
        let book: B = case.book();
        Timed {
            idle: Idle(book.clone()),
            book,
            least: Duration::MAX,
            least_idle: Duration::MAX,
        }
    }

    fn round(&mut self, case: &Case, count: u32) {
        self.least = self.least.min(calls(case, &self.book, count));
        self.least_idle = self.least_idle.min(calls(case, &self.idle, count));
    }

    fn nanoseconds(&self, count: u32) -> f64 {
        let alone = self.least.saturating_sub(self.least_idle);
        alone.as_secs_f64() * 1e9 / f64::from(count)
    }
}

type Both = (Timed<keybook::Book>, Timed<plainbook::Book>);

/// Nanoseconds of a call of each book in each case: the least of the rounds. A round goes through all cases, and in each the books take turns.
pub fn nanoseconds(cases: &[Case], rounds: u32, count: u32) -> Vec<[f64; 2]> {
    cases.iter().for_each(|case| case.check(count));
    let mut timed: Vec<Both> = cases
        .iter()
        .map(|case| (Timed::new(case), Timed::new(case)))
        .collect();
    for _ in 0..rounds {
        for (case, (ours, plain)) in cases.iter().zip(&mut timed) {
            ours.round(case, count);
            plain.round(case, count);
        }
    }
    let both = |(ours, plain): &Both| [ours.nanoseconds(count), plain.nanoseconds(count)];
    timed.iter().map(both).collect()
}

//! What a call of each book takes: time, instructions and stack.

use std::env;
use std::ffi::OsString;
use std::time::Duration;

use crate::books::{Book, Idle};
use crate::cases::{self, Case};
use crate::counting::{Counter, Run};
use crate::stack::bytes_of_call;
use crate::timing;

/// How much is done.
#[derive(Clone, Copy)]
pub struct Effort {
    pub rounds: u32,
    pub calls: u32,
    pub counted_calls: u32,
    /// Instructions are counted for one case in this many.
    pub counted_every: usize,
}

/// What the two books took for a case, ours first.
pub struct Measured {
    pub case: Case,
    pub nanoseconds: [f64; 2],
    pub instructions: Option<[f64; 2]>,
    pub stack: [f64; 2],
}

pub fn measured(effort: Effort, counter: Option<Counter>) -> Result<Vec<Measured>, String> {
    let cases = cases::all();
    let times = timing::nanoseconds(&cases, effort.rounds, effort.calls);
    let mut measured = vec![];
    for (at, (case, nanoseconds)) in cases.into_iter().zip(times).enumerate() {
        let counter = counter.filter(|_| at % effort.counted_every == 0);
        measured.push(Measured {
            nanoseconds,
            instructions: counter.and_then(|it| instructions(it, at, effort.counted_calls)),
            stack: stack(&case)?,
            case,
        });
    }
    Ok(measured)
}

fn stack(case: &Case) -> Result<[f64; 2], String> {
    let bytes = [
        bytes_of_call::<keybook::Book>(case),
        bytes_of_call::<plainbook::Book>(case),
    ];
    let [ours, plain] = bytes.map(|bytes| bytes.map_err(|why| format!("the stack: {why}")));
    Ok([ours? as f64, plain? as f64])
}

/// The word that makes this program run one loop alone, to be counted: `--loop BOOK CASE CALLS`.
pub const LOOP: &str = "--loop";

const BOOKS: [&str; 2] = [keybook::Book::NAME, plainbook::Book::NAME];
const IDLE: &str = "idle-";

/// Runs that loop. With `idle-` before its name, a book answers nothing.
pub fn run_loop(book: &str, case: &str, calls: &str) -> Option<Duration> {
    let case = cases::all().into_iter().nth(case.parse().ok()?)?;
    let calls = calls.parse().ok()?;
    let (idle, name) = match book.strip_prefix(IDLE) {
        Some(name) => (true, name),
        None => (false, book),
    };
    match name {
        keybook::Book::NAME => Some(loop_of::<keybook::Book>(&case, idle, calls)),
        plainbook::Book::NAME => Some(loop_of::<plainbook::Book>(&case, idle, calls)),
        _ => None,
    }
}

fn loop_of<B: Book>(case: &Case, idle: bool, calls: u32) -> Duration {
    let book: B = case.book();
    if idle {
        timing::calls(case, &Idle(book), calls)
    } else {
        timing::calls(case, &book, calls)
    }
}

/// Instructions of a call: those of its loop without those of the same loop with a book that answers nothing.
fn instructions(counter: Counter, case: usize, calls: u32) -> Option<[f64; 2]> {
    let alone = |book: &str| {
        let count = |book| count_loop(counter, book, case, calls);
        let idle = count(format!("{IDLE}{book}"))?;
        count(book.into())?.checked_sub(idle)
    };
    let [ours, plain] = BOOKS.map(alone);
    Some([ours?, plain?].map(|count| count as f64 / f64::from(calls)))
}

/// This program is run anew, with one loop.
fn count_loop(counter: Counter, book: String, case: usize, calls: u32) -> Option<u64> {
    let arguments = [LOOP.into(), book, case.to_string(), calls.to_string()];
    counter.instructions(&Run {
        program: env::current_exe().ok()?,
        arguments: arguments.map(OsString::from).into(),
        input: None,
    })
}

#[cfg(test)]
mod tests {
    use super::*;

    #[test]
    fn each_loop_runs_by_its_name() {
        for name in BOOKS {
            assert!(run_loop(name, "0", "10").is_some());
            assert!(run_loop(&format!("{IDLE}{name}"), "0", "10").is_some());
        }
        assert!(run_loop("nobook", "0", "10").is_none());
        assert!(run_loop(BOOKS[0], "1000", "10").is_none());
        assert!(run_loop(BOOKS[0], "0", "ten").is_none());
    }

    #[test]
    fn both_books_take_some_stack() {
        for case in cases::all() {
            let stack = stack(&case).expect("a depth");
            assert!(stack.iter().all(|bytes| *bytes >= 32.0), "{stack:?}");
        }
    }
}

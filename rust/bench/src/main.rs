//! Measures the proved key book against plainbook, and `bookrun` against `plainlines`: `bench [--quick] [--write PAGE]`.
//! It prints tables in Markdown. Status 0: measured; 1: a program fails, or replies differ; 2: wrong arguments.
#![forbid(unsafe_code)]

mod books;
mod calls;
mod cases;
mod counting;
mod files;
mod lines;
mod machine;
mod page;
mod stack;
mod timing;

use std::env;
use std::path::Path;
use std::process::ExitCode;

use counting::Counter;

const USAGE: &str = "\
usage: cargo run --release --bin bench -- [--quick] [--write PAGE]
  --quick        some seconds, for a test that it works
  --write PAGE   put the tables into the page in place of those that are there";

/// How much is done.
struct Effort {
    calls: calls::Effort,
    lines: lines::Effort,
}

const FULL: Effort = Effort {
    calls: calls::Effort {
        rounds: 2_000,
        calls: 1_000,
        counted_calls: 10_000,
        counted_every: 1,
    },
    lines: lines::Effort {
        lines: 400_000,
        rounds: 15,
        counted_lines: 20_000,
    },
};

const QUICK: Effort = Effort {
    calls: calls::Effort {
        rounds: 10,
        calls: 500,
        counted_calls: 1_000,
        counted_every: 16,
    },
    lines: lines::Effort {
        lines: 20_000,
        rounds: 2,
        counted_lines: 1_000,
    },
};

fn main() -> ExitCode {
    let arguments: Vec<String> = env::args().skip(1).collect();
    let words: Vec<&str> = arguments.iter().map(String::as_str).collect();
    let done = match words[..] {
        [] => bench(&FULL, None),
        ["--quick"] => bench(&QUICK, None),
        ["--write", page] => bench(&FULL, Some(page)),
        ["--quick", "--write", page] => bench(&QUICK, Some(page)),
        [calls::LOOP, book, case, count] => match calls::run_loop(book, case, count) {
            Some(_) => Ok(()),
            None => return wrong_arguments(),
        },
        _ => return wrong_arguments(),
    };
    match done {
        Ok(()) => ExitCode::SUCCESS,
        Err(why) => {
            eprintln!("bench: {why}");
            ExitCode::FAILURE
        }
    }
}

fn wrong_arguments() -> ExitCode {
    eprintln!("{USAGE}");
    ExitCode::from(2)
}

fn bench(effort: &Effort, page: Option<&str>) -> Result<(), String> {
    if cfg!(debug_assertions) {
        return Err("a debug build says nothing of speed: cargo run --release --bin bench".into());
    }
    let counter = Counter::found();
    eprintln!("bench: measuring lines");
    let lines = lines::measured(effort.lines, counter)?;
    eprintln!("bench: measuring calls");
    let calls = calls::measured(effort.calls, counter)?;
    let tables = format!(
        "{}{}\n### A call\n\n{}\n### Lines\n\n{}\n### Stack\n\n{}",
        machine::words(),
        method(effort, counter),
        page::Calls(&calls),
        page::Lines(&lines),
        page::Stack(&calls),
    );
    print!("{tables}");
    page.map_or(Ok(()), |page| page::put(&tables, Path::new(page)))
}

fn method(effort: &Effort, counter: Option<Counter>) -> String {
    let counted = match counter {
        Some(counter) => format!("Instructions by `{}`.", counter.command()),
        None => "No instructions: perf counts none here, and valgrind is not here.".into(),
    };
    format!(
        "- A call: the least of {} rounds of {} calls. A file: the least of {} runs. In each the two take turns. {counted}\n",
        effort.calls.rounds, effort.calls.calls, effort.lines.rounds,
    )
}

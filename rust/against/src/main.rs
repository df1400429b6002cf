//! Compares two key books: `against [--seconds N] [--calls N] [--seed N]`.
//! Status 0: no difference, and every case of every code came; 1: not so; 2: wrong arguments.
#![forbid(unsafe_code)]

use std::panic;
use std::process::ExitCode;
use std::time::{Duration, Instant, SystemTime, UNIX_EPOCH};

use against::counts::Counts;
use against::shrink::shrink;
use against::{hunt, show, Found, Limits};

type First = plainbook::Book;
type Second = keybook::Book;

const USAGE: &str = "usage: against [--seconds N] [--calls N] [--seed N]";

struct Options {
    seconds: Option<u64>,
    calls: Option<u64>,
    seed: Option<u64>,
}

fn main() -> ExitCode {
    let Some(options) = options(std::env::args().skip(1)) else {
        eprintln!("{USAGE}");
        return ExitCode::from(2);
    };
    let seed = options.seed.unwrap_or_else(clock_seed);
    println!("first book:  {}", std::any::type_name::<First>());
    println!("second book: {}", std::any::type_name::<Second>());
    println!("seed {seed}");
    let limits = limits(&options);
    let mut counts = Counts::new();
    let start = Instant::now();
    let found = hunt::<First, Second>(seed, limits, &mut counts);
    let seconds = start.elapsed().as_secs_f64();
    let calls = counts.calls();
    println!(
        "{calls} calls in {seconds:.1} s, {:.0} calls a second",
        calls as f64 / seconds
    );
    if let Some(found) = found {
        tell_difference(found);
        return ExitCode::FAILURE;
    }
    if all_cases_came(&counts) {
        ExitCode::SUCCESS
    } else {
        ExitCode::FAILURE
    }
}

fn options(mut arguments: impl Iterator<Item = String>) -> Option<Options> {
    let mut options = Options {
        seconds: None,
        calls: None,
        seed: None,
    };
    while let Some(argument) = arguments.next() {
        let number = Some(arguments.next()?.parse().ok()?);
        match argument.as_str() {
            "--seconds" => options.seconds = number,
            "--calls" => options.calls = number,
            "--seed" => options.seed = number,
            _ => return None,
        }
    }
    Some(options)
}

/// 60 seconds where no limit is given.
fn limits(options: &Options) -> Limits {
    let seconds = match (options.seconds, options.calls) {
        (None, None) => 60,
        (seconds, _) => seconds.unwrap_or(u64::MAX),
    };
    Limits {
        calls: options.calls.unwrap_or(u64::MAX),
        time: Duration::from_secs(seconds),
    }
}

fn clock_seed() -> u64 {
    let since = SystemTime::now().duration_since(UNIX_EPOCH);
    since.map_or(1, |since| since.as_nanos() as u64)
}

/// Prints every code's count; whether each case of each code came.
fn all_cases_came(counts: &Counts) -> bool {
    let lines = counts.lines();
    println!("\ncode        calls       rarest case of the code");
    for line in &lines {
        let (case, times) = &line.rarest;
        println!("{:02X}   {:12}  {times:12}  {case}", line.code, line.calls);
    }
    let all_came = lines.iter().all(|line| line.rarest.1 > 0);
    if !all_came {
        println!("a case never came");
    }
    all_came
}

fn tell_difference(found: Found) {
    println!(
        "the books differ; seed {} shows it in its first run",
        found.seed
    );
    // A panic has told its message once; shrinking repeats it many times.
    panic::set_hook(Box::new(|_| {}));
    let shrunk = shrink::<First, Second>(&found.steps);
    let (steps, difference) = shrunk.unwrap_or((found.steps, found.difference));
    println!("{} calls from an empty book:\n", steps.len());
    print!("{}", show::difference(&steps, &difference));
}

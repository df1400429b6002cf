//! The line program over standard input and standard output.
#![forbid(unsafe_code)]

use std::fs::File;
use std::io::{self, Write};
use std::os::fd::AsFd;
use std::process::ExitCode;

use plainbook::lines::{run, Failure};

fn main() -> ExitCode {
    match run_standard() {
        Ok(()) => ExitCode::SUCCESS,
        Err(failure) => {
            // Where standard error fails as well, the status alone tells.
            let _ = writeln!(io::stderr(), "plainlines: {failure}");
            ExitCode::FAILURE
        }
    }
}

/// Standard streams as files: `std::io::stdin` and `stdout` hide a failed read or write (EBADF).
fn run_standard() -> Result<(), Failure> {
    let input = io::stdin().as_fd().try_clone_to_owned();
    let output = io::stdout().as_fd().try_clone_to_owned();
    let mut input = File::from(input.map_err(Failure::Read)?);
    let mut output = File::from(output.map_err(Failure::Write)?);
    run(&mut input, &mut output)
}

//! Instructions of a program: by perf where the processor counts for it, else by valgrind's callgrind.

use std::ffi::OsString;
use std::fs::File;
use std::path::{Path, PathBuf};
use std::process::{Command, Output, Stdio};

/// A program with its arguments, and the file that it reads, if any.
pub struct Run<'a> {
    pub program: PathBuf,
    pub arguments: Vec<OsString>,
    pub input: Option<&'a Path>,
}

impl Run<'_> {
    fn input(&self) -> Option<Stdio> {
        match self.input {
            Some(path) => File::open(path).ok().map(Stdio::from),
            None => Some(Stdio::null()),
        }
    }
}

#[derive(Clone, Copy)]
pub enum Counter {
    Perf,
    Callgrind,
}

const PERF: [&str; 6] = ["perf", "stat", "-x,", "-e", "instructions:u", "--"];
const CALLGRIND: [&str; 3] = [
    "valgrind",
    "--tool=callgrind",
    "--callgrind-out-file=/dev/null",
];

impl Counter {
    /// What this machine has, if any.
    pub fn found() -> Option<Counter> {
        let nothing = Run {
            program: "true".into(),
            arguments: vec![],
            input: None,
        };
        [Counter::Perf, Counter::Callgrind]
            .into_iter()
            .find(|counter| counter.instructions(&nothing).is_some())
    }

    pub fn command(self) -> String {
        self.words().join(" ")
    }

    fn words(self) -> &'static [&'static str] {
        match self {
            Counter::Perf => &PERF,
            Counter::Callgrind => &CALLGRIND,
        }
    }

    /// The instructions outside the kernel of a run that ends well. What it prints is dropped.
    pub fn instructions(self, run: &Run) -> Option<u64> {
        let output = Command::new(self.words()[0])
            .args(&self.words()[1..])
            .arg(&run.program)
            .args(&run.arguments)
            .stdin(run.input()?)
            .stdout(Stdio::null())
            .stderr(Stdio::piped())
            .output()
            .ok()?;
        self.read(&output).filter(|_| output.status.success())
    }

    /// Perf's first field, or the number after callgrind's `Collected :`.
    fn read(self, output: &Output) -> Option<u64> {
        let told = String::from_utf8_lossy(&output.stderr);
        let number = match self {
            Counter::Perf => told.lines().last()?.split(',').next()?,
            Counter::Callgrind => {
                let mut lines = told.lines();
                lines.find_map(|line| line.split_once("Collected :"))?.1
            }
        };
        number.trim().parse().ok()
    }
}

#[cfg(test)]
mod tests {
    use super::*;
    use std::process::ExitStatus;

    fn told(text: &str) -> Output {
        Output {
            status: ExitStatus::default(),
            stdout: vec![],
            stderr: text.into(),
        }
    }

    #[test]
    fn reads_what_perf_tells() {
        let counted = told("127243,,instructions:u,400000,100.00,1.01,insn per cycle\n");
        assert_eq!(Counter::Perf.read(&counted), Some(127_243));
        let no_counters = told("<not supported>,,instructions:u,0,100.00,,\n");
        assert_eq!(Counter::Perf.read(&no_counters), None);
        assert_eq!(Counter::Perf.read(&told("")), None);
    }

    #[test]
    fn reads_what_callgrind_tells() {
        let counted = told("==7== Events    : Ir\n==7== Collected : 127243\n==7==\n");
        assert_eq!(Counter::Callgrind.read(&counted), Some(127_243));
        assert_eq!(Counter::Callgrind.read(&told("==7== Killed\n")), None);
    }
}

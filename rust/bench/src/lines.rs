//! The two line programs on the same files.

use std::path::{Path, PathBuf};
use std::process::{Command, Output, Stdio};
use std::{env, fs, io, process};

use crate::counting::{Counter, Run};
use crate::files::Mix;

const SEED: u64 = 7;

/// Where the repository is.
const ROOT: &str = concat!(env!("CARGO_MANIFEST_DIR"), "/../..");

/// How much is done.
#[derive(Clone, Copy)]
pub struct Effort {
    pub lines: usize,
    pub rounds: usize,
    pub counted_lines: usize,
}

/// What the two programs took for a file, ours first.
pub struct Measured {
    pub mix: Mix,
    pub lines: usize,
    /// Milliseconds of processor time.
    pub processor: [f64; 2],
    /// Milliseconds from start to end.
    pub wall: [f64; 2],
    /// A line.
    pub instructions: Option<[f64; 2]>,
}

/// A folder that goes when it is dropped.
struct Folder(PathBuf);

impl Folder {
    fn new() -> io::Result<Folder> {
        let path = env::temp_dir().join(format!("keybook-bench-{}", process::id()));
        fs::create_dir(&path)?;
        Ok(Folder(path))
    }
}

impl Drop for Folder {
    fn drop(&mut self) {
        // What cannot be removed stays in the system's temporary folder.
        let _ = fs::remove_dir_all(&self.0);
    }
}

/// The two programs, ours first, and what they are tried with.
struct Trial {
    programs: [PathBuf; 2],
    folder: Folder,
    effort: Effort,
    counter: Option<Counter>,
    /// The instructions of each program for no lines.
    start: Option<[u64; 2]>,
}

/// Builds both programs where they are stale, and measures them on each file.
pub fn measured(effort: Effort, counter: Option<Counter>) -> Result<Vec<Measured>, String> {
    let mut trial = Trial {
        programs: [bookrun()?, plainlines()?],
        folder: Folder::new().map_err(|why| format!("a temporary folder: {why}"))?,
        effort,
        counter,
        start: None,
    };
    trial.start = trial.instructions(None);
    Mix::ALL.into_iter().map(|mix| trial.on_file(mix)).collect()
}

/// The script of that name builds the program where it is stale, and of no lines it prints nothing.
fn bookrun() -> Result<PathBuf, String> {
    let root = Path::new(ROOT);
    let mut script = Command::new(root.join("bookrun"));
    succeeded(script.stdin(Stdio::null()))?;
    Ok(root.join("crates/bookrun/out/bookrun"))
}

fn plainlines() -> Result<PathBuf, String> {
    let cargo = env::var_os("CARGO").unwrap_or("cargo".into());
    let words = [
        "build",
        "--quiet",
        "--offline",
        "--release",
        "--bin",
        "plainlines",
    ];
    let mut build = Command::new(cargo);
    succeeded(build.args(words).current_dir(Path::new(ROOT).join("rust")))?;
    let own = env::current_exe().map_err(|why| format!("this program's place: {why}"))?;
    Ok(own.with_file_name("plainlines"))
}

fn succeeded(command: &mut Command) -> Result<Output, String> {
    let output = command.output();
    let output = output.map_err(|why| format!("{:?}: {why}", command.get_program()))?;
    if output.status.success() {
        return Ok(output);
    }
    let told = String::from_utf8_lossy(&output.stderr);
    Err(format!(
        "{:?}: {}\n{told}",
        command.get_program(),
        output.status
    ))
}

impl Trial {
    fn on_file(&self, mix: Mix) -> Result<Measured, String> {
        let lines = self.effort.lines;
        let file = self.file(mix, lines)?;
        self.equal_replies(&file, mix)?;
        let least = self.least(&file)?;
        Ok(Measured {
            mix,
            lines,
            processor: least.map(|spent| spent.processor),
            wall: least.map(|spent| spent.wall),
            instructions: self.a_line(&self.file(mix, self.effort.counted_lines)?),
        })
    }

    fn file(&self, mix: Mix, lines: usize) -> Result<PathBuf, String> {
        let path = self.folder.0.join(format!("{}-{lines}", mix.name()));
        let written = fs::write(&path, mix.text(lines, SEED));
        written.map_err(|why| format!("{}: {why}", path.display()))?;
        Ok(path)
    }

    fn equal_replies(&self, file: &Path, mix: Mix) -> Result<(), String> {
        let replies = |program: &PathBuf| {
            let input = fs::File::open(file).map_err(|why| format!("{}: {why}", file.display()))?;
            succeeded(Command::new(program).stdin(input)).map(|output| output.stdout)
        };
        if replies(&self.programs[0])? == replies(&self.programs[1])? {
            return Ok(());
        }
        let name = mix.name();
        Err(format!(
            "the programs print different replies to the {name} file"
        ))
    }

    /// The least of the rounds, in which the programs take turns.
    fn least(&self, file: &Path) -> Result<[Spent; 2], String> {
        let [ours, plain] = &self.programs;
        let mut least = [spent(ours, file)?, spent(plain, file)?];
        for _ in 1..self.effort.rounds {
            least[0] = least[0].least(spent(ours, file)?);
            least[1] = least[1].least(spent(plain, file)?);
        }
        Ok(least)
    }

    /// Instructions a line, without what the program takes for no lines.
    fn a_line(&self, file: &Path) -> Option<[f64; 2]> {
        let ([ours, plain], start) = (self.instructions(Some(file))?, self.start?);
        let alone = [ours.checked_sub(start[0])?, plain.checked_sub(start[1])?];
        Some(alone.map(|count| count as f64 / self.effort.counted_lines as f64))
    }

    fn instructions(&self, input: Option<&Path>) -> Option<[u64; 2]> {
        let counter = self.counter?;
        let [ours, plain] = self.programs.clone().map(|program| {
            counter.instructions(&Run {
                program,
                arguments: vec![],
                input,
            })
        });
        Some([ours?, plain?])
    }
}

/// Milliseconds of one run.
#[derive(Clone, Copy)]
struct Spent {
    wall: f64,
    processor: f64,
}

impl Spent {
    fn least(self, other: Spent) -> Spent {
        Spent {
            wall: self.wall.min(other.wall),
            processor: self.processor.min(other.processor),
        }
    }
}

/// The library of Rust does not tell the time of a child, so that bash does. What a program prints goes nowhere.
const TIMED: &str = "TIMEFORMAT='%3R %3U %3S'; time \"$0\" < \"$1\" > /dev/null";

fn spent(program: &Path, file: &Path) -> Result<Spent, String> {
    let mut bash = Command::new("bash");
    let bash = bash.env("LC_ALL", "C").arg("-c").arg(TIMED);
    let output = succeeded(bash.arg(program).arg(file))?;
    let told = String::from_utf8_lossy(&output.stderr);
    read_times(&told).ok_or_else(|| format!("bash tells no times: {told}"))
}

/// Wall, user and system time in seconds. The kernel knows the sum of the last two, and guesses how they share it.
fn read_times(told: &str) -> Option<Spent> {
    let mut seconds = told.split_whitespace().map(|word| word.parse::<f64>().ok());
    let mut next = || seconds.next().flatten();
    let (wall, user, system) = (next()?, next()?, next()?);
    Some(Spent {
        wall: wall * 1e3,
        processor: (user + system) * 1e3,
    })
}

#[cfg(test)]
mod tests {
    use super::*;

    #[test]
    fn reads_what_bash_tells() {
        let spent = read_times("0.170 0.079 0.003\n").expect("three times");
        assert!((spent.wall - 170.0).abs() < 1e-9);
        assert!((spent.processor - 82.0).abs() < 1e-9);
        assert!(read_times("bash: no such file\n").is_none());
    }

    #[test]
    fn times_a_program() {
        let spent = spent(Path::new("true"), Path::new("/dev/null")).expect("times");
        assert!(spent.wall >= 0.0 && spent.processor < 1e3);
    }

    #[test]
    fn a_program_that_fails_is_told() {
        let told = spent(Path::new("false"), Path::new("/dev/null")).err();
        assert!(told.expect("a failure").contains("exit status: 1"));
    }
}

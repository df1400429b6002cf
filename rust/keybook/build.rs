//! Finds the proved static library `crates/card/out/libcard.a`, makes it with `rt lib` where it is missing or older than a source, and links it.

use std::path::{Path, PathBuf};
use std::process::{Command, ExitCode, Output};
use std::time::SystemTime;
use std::{env, fs, io};

fn main() -> ExitCode {
    match linked() {
        Ok(()) => ExitCode::SUCCESS,
        Err(why) => {
            println!("cargo::error={why}");
            ExitCode::FAILURE
        }
    }
}

fn linked() -> Result<(), String> {
    let root = Path::new(&variable("CARGO_MANIFEST_DIR")?).join("../..");
    let root = root.canonicalize().map_err(|why| said(&root, &why))?;
    let card = root.join("crates/card");
    let library = card.join("out/libcard.a");
    let target = variable("TARGET")?;
    if !target.starts_with("x86_64-") || !target.contains("linux") {
        return Err(format!(
            "the static library card is built for Linux on x86-64, and not for {target}"
        ));
    }

    let sources = sources(&root)?;
    for path in sources.iter().chain([&library]) {
        println!("cargo::rerun-if-changed={}", path.display());
    }
    if is_stale(&library, &sources)? {
        make(&card, &library)?;
    }
    println!(
        "cargo::rustc-link-search=native={}",
        card.join("out").display()
    );
    println!("cargo::rustc-link-lib=static=card");
    println!("cargo::rustc-env=KEYBOOK_LIBRARY={}", library.display());
    Ok(())
}

/// What the library is made of: the sources of `card` and of the crates below it, which `crates.txt` names.
fn sources(root: &Path) -> Result<Vec<PathBuf>, String> {
    let list = root.join("crates.txt");
    let text = fs::read_to_string(&list).map_err(|why| said(&list, &why))?;
    let below = text
        .lines()
        .find_map(|line| line.strip_prefix("card staticlib:"))
        .ok_or_else(|| format!("{} has no line for card", list.display()))?;
    let folders = below.split_whitespace().chain(["card"]).flat_map(|name| {
        ["src", "specs", "proofs"].map(|part| root.join("crates").join(name).join(part))
    });
    let present = folders.filter(|folder| folder.is_dir());
    Ok(present.chain([list]).collect())
}

fn is_stale(library: &Path, sources: &[PathBuf]) -> Result<bool, String> {
    let Ok(made) = changed(library) else {
        return Ok(true);
    };
    for path in sources {
        if newest(path).map_err(|why| said(path, &why))? > made {
            return Ok(true);
        }
    }
    Ok(false)
}

fn changed(path: &Path) -> io::Result<SystemTime> {
    fs::metadata(path)?.modified()
}

/// When a file or anything below a folder was changed last.
fn newest(path: &Path) -> io::Result<SystemTime> {
    let mut last = changed(path)?;
    if path.is_dir() {
        for entry in fs::read_dir(path)? {
            last = last.max(newest(&entry?.path())?);
        }
    }
    Ok(last)
}

fn make(card: &Path, library: &Path) -> Result<(), String> {
    let tried = Command::new("rt").arg("lib").current_dir(card).output();
    let output = tried.map_err(|why| match why.kind() {
        io::ErrorKind::NotFound => format!(
            "{} is missing or older than its sources, and rt, the command of the Rattle kit that proves and builds it, is not on the PATH",
            library.display()
        ),
        _ => said(Path::new("rt"), &why),
    })?;
    if !output.status.success() {
        return Err(refusal(&output));
    }
    // `rt lib` leaves a library alone that would come out the same.
    let touched = fs::File::options().append(true).open(library);
    touched
        .and_then(|file| file.set_modified(SystemTime::now()))
        .map_err(|why| said(library, &why))
}

/// The end of what `rt lib` said, on one line for each of its lines, since cargo takes a line for a message.
fn refusal(output: &Output) -> String {
    let said = [&output.stdout[..], &output.stderr[..]].concat();
    let said = String::from_utf8_lossy(&said);
    let lines: Vec<&str> = said.lines().collect();
    for line in &lines[lines.len().saturating_sub(20)..] {
        println!("cargo::warning={line}");
    }
    "rt lib did not prove crates/card, so nothing is linked: its last lines stand above".into()
}

fn variable(name: &str) -> Result<String, String> {
    env::var(name).map_err(|why| format!("{name}: {why}"))
}

fn said(path: &Path, why: &io::Error) -> String {
    format!("{}: {why}", path.display())
}

//! The header and its example, compiled and run as a C program would have them.

use std::path::{Path, PathBuf};
use std::process::Command;

const HERE: &str = env!("CARGO_MANIFEST_DIR");
const EXAMPLE: &str = include_str!("../examples/evening.c");
const README: &str = include_str!("../README.md");

/// Compiles these sources with the header, strictly, and links the library.
fn compiled(name: &str, language: &[&str], source: &Path) -> PathBuf {
    let program = Path::new(env!("CARGO_TARGET_TMPDIR")).join(name);
    let output = Command::new("cc")
        .args(language)
        .args(["-Wall", "-Wextra", "-Wpedantic", "-Werror", "-O2", "-I"])
        .arg(Path::new(HERE).join("include"))
        .arg(source)
        .args(["-x", "none", env!("KEYBOOK_LIBRARY"), "-o"])
        .arg(&program)
        .output()
        .expect("cc");
    let said = String::from_utf8_lossy(&output.stderr);
    assert!(output.status.success(), "{said}");
    program
}

fn printed(program: &Path) -> String {
    let output = Command::new(program).output().expect("the program");
    assert!(output.status.success(), "{}", output.status);
    String::from_utf8(output.stdout).expect("text")
}

/// The part of the readme between this line and the next fence.
fn shown(fence: &str) -> &'static str {
    let (_, rest) = README.split_once(fence).expect("the fence");
    rest.split_once("```").expect("its end").0
}

#[test]
fn the_example_prints_what_the_readme_says() {
    let source = Path::new(HERE).join("examples/evening.c");
    let program = compiled("evening", &["-std=c99"], &source);
    assert_eq!(printed(&program), shown("```text\n"));
    assert_eq!(shown("```c\n"), EXAMPLE);
}

#[test]
fn no_bytes_may_be_null() {
    let source = Path::new(HERE).join("tests/nothing.c");
    let program = compiled("nothing", &["-std=c99"], &source);
    assert_eq!(printed(&program), "11 10 10 11\n");
}

#[test]
fn the_header_is_cplusplus_too() {
    let source = Path::new(HERE).join("tests/nothing.c");
    let program = compiled("nothing-cplusplus", &["-std=c++11", "-x", "c++"], &source);
    assert_eq!(printed(&program), "11 10 10 11\n");
}

//! What the figures were measured on.

use std::fs;
use std::process::Command;

/// The processor, the kernel, the compiler and the kit, a line for each.
pub fn words() -> String {
    format!(
        "- {}, {}\n- {}; `{}`\n",
        processor(),
        kernel(),
        first_line("rustc", "--version"),
        first_line("rt", "version"),
    )
}

fn processor() -> String {
    let text = fs::read_to_string("/proc/cpuinfo").unwrap_or_default();
    let field = |line: &str| {
        Some(
            line.strip_prefix("model name")?
                .split_once(": ")?
                .1
                .to_string(),
        )
    };
    let names: Vec<String> = text.lines().filter_map(field).collect();
    match names.first() {
        Some(name) => format!("{name}, {} processors", names.len()),
        None => "a processor without a name".into(),
    }
}

fn kernel() -> String {
    match fs::read_to_string("/proc/sys/kernel/osrelease") {
        Ok(release) => format!("Linux {}", release.trim_end()),
        Err(_) => "a kernel without a name".into(),
    }
}

/// The first line that a program tells of itself.
fn first_line(program: &str, argument: &str) -> String {
    let output = Command::new(program).arg(argument).output();
    let told = output.map(|output| String::from_utf8_lossy(&output.stdout).into_owned());
    let line = told
        .ok()
        .and_then(|told| told.lines().next().map(String::from));
    line.unwrap_or_else(|| format!("{program} is not here"))
}

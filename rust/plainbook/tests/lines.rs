//! 01's line program, as a function and as the program `plainlines`.

use std::fs::File;
use std::io::{self, Read, Write};
use std::process::{Command, Output, Stdio};

use plainbook::lines::{run, Failure};

const EXAMPLE: &str = "\
010A0B0C0001000200000064000000C80C020000000200000000000102030405060708090A0B0C0D0E0F
020A0B0C000100020000006401
020A0B0C000100020000006501
020A0B0C000100020000006501
020A0B0C000100020000006601
020A0B0C000100020000006701
030A0B0C0001000200000064000000C80C
010A0B0C0001000200000000000000000A000000000000000000
";

const EXAMPLE_REPLIES: &str = "\
0000000000020000000000000000
19FF000000000000000000000000
0100000000010000000000000065
19FF000000000000000000000000
0100000000000000000000000066
1AFF000000000000000000000000
0200000000000000000000000066
00FF000000000000000000000000
";

const NO_FRAME: &str = "11FF000000000000000000000000\n";

/// Gives its bytes in pieces of one length, and a signal's interruption before each.
struct Pieces<'a> {
    rest: &'a [u8],
    length: usize,
    interrupted: bool,
}

impl Read for Pieces<'_> {
    fn read(&mut self, buffer: &mut [u8]) -> io::Result<usize> {
        self.interrupted = !self.interrupted;
        if self.interrupted {
            return Err(io::ErrorKind::Interrupted.into());
        }
        let length = self.length.min(self.rest.len()).min(buffer.len());
        let (piece, rest) = self.rest.split_at(length);
        buffer[..length].copy_from_slice(piece);
        self.rest = rest;
        Ok(length)
    }
}

fn answers_in_pieces(input: &[u8], length: usize) -> String {
    let mut pieces = Pieces {
        rest: input,
        length,
        interrupted: false,
    };
    let mut output = Vec::new();
    run(&mut pieces, &mut output).unwrap();
    String::from_utf8(output).unwrap()
}

fn answers(input: &[u8]) -> String {
    answers_in_pieces(input, usize::MAX)
}

#[test]
fn the_eight_lines_however_they_arrive() {
    for length in [1, 2, 7, 84, 85, 86, 1000] {
        let replies = answers_in_pieces(EXAMPLE.as_bytes(), length);
        assert_eq!(replies, EXAMPLE_REPLIES, "pieces of {length}");
    }
}

#[test]
fn a_last_line_counts_without_its_line_feed() {
    let input = EXAMPLE.trim_end();
    assert_eq!(answers(input.as_bytes()), EXAMPLE_REPLIES);
    assert_eq!(answers(b""), "");
    assert_eq!(answers(b"\n"), NO_FRAME);
    assert_eq!(answers(b"\n\n0"), NO_FRAME.repeat(3));
}

#[test]
fn lines_that_are_no_frames() {
    let report = "030A0B0C0001000200000064000000C80C";
    let lines = [
        "0".to_string(),
        report[1..].to_string(),
        format!("{report}\r"),
        format!(" {report}"),
        format!("{report}00"),
        report.to_lowercase(),
        report.replace('A', "G"),
        report.replace('A', "@"),
        report.replace('A', "/"),
        report.replace('A', ":"),
        report.replace('A', "\0"),
        report.replace('A', "\u{e9}"),
        "01".repeat(43),
        "0".repeat(85),
    ];
    for line in lines {
        let input = format!("{line}\n{report}\n");
        let expected = format!("{NO_FRAME}1BFF000000000000000000000000\n");
        assert_eq!(answers(input.as_bytes()), expected, "{line}");
    }
}

#[test]
fn a_line_of_any_length_is_one_line() {
    for length in [65_535, 65_536, 65_537, 131_072, 1_000_000] {
        for end in ["\n", ""] {
            let input = format!("{}{end}", "01".repeat(length));
            assert_eq!(answers(input.as_bytes()), NO_FRAME, "{length}");
            assert_eq!(answers_in_pieces(input.as_bytes(), 4096), NO_FRAME);
        }
    }
}

#[test]
fn many_lines_pass_the_buffers_whole() {
    let input = EXAMPLE.repeat(3000);
    let replies = answers(input.as_bytes());
    assert_eq!(replies, EXAMPLE_REPLIES.repeat(3000));
    assert_eq!(answers(&[b'\n'; 70_000]), NO_FRAME.repeat(70_000));
}

struct Broken;

impl Read for Broken {
    fn read(&mut self, _: &mut [u8]) -> io::Result<usize> {
        Err(io::Error::other("broken"))
    }
}

impl Write for Broken {
    fn write(&mut self, _: &[u8]) -> io::Result<usize> {
        Err(io::Error::other("broken"))
    }

    fn flush(&mut self) -> io::Result<()> {
        Ok(())
    }
}

#[test]
fn a_failed_read_or_write_is_told() {
    let mut input = EXAMPLE.as_bytes().chain(Broken);
    let mut output = Vec::new();
    let failure = run(&mut input, &mut output);
    assert!(matches!(failure, Err(Failure::Read(_))));
    assert_eq!(String::from_utf8(output).unwrap(), EXAMPLE_REPLIES);
    let failure = run(&mut EXAMPLE.as_bytes(), &mut Broken);
    assert!(matches!(failure, Err(Failure::Write(_))));
}

fn program() -> Command {
    Command::new(env!("CARGO_BIN_EXE_plainlines"))
}

fn assert_failed(output: Output, message: &str) {
    assert_eq!(output.status.code(), Some(1));
    let told = String::from_utf8(output.stderr).unwrap();
    assert!(told.contains(message), "{told}");
}

#[test]
fn the_program_answers_each_line_before_the_next() {
    let mut child = program()
        .stdin(Stdio::piped())
        .stdout(Stdio::piped())
        .spawn()
        .unwrap();
    let mut input = child.stdin.take().unwrap();
    let mut output = child.stdout.take().unwrap();
    for (line, expected) in EXAMPLE.lines().zip(EXAMPLE_REPLIES.lines()) {
        writeln!(input, "{line}").unwrap();
        let mut reply = [0; 29];
        output.read_exact(&mut reply).unwrap();
        assert_eq!(reply, *format!("{expected}\n").as_bytes());
    }
    drop(input);
    assert!(child.wait().unwrap().success());
}

#[test]
fn the_program_ends_with_status_1_where_it_cannot_read() {
    let folder = File::open("/").unwrap();
    assert_failed(program().stdin(folder).output().unwrap(), "cannot read");
    let write_only = File::options().write(true).open("/dev/null").unwrap();
    assert_failed(program().stdin(write_only).output().unwrap(), "cannot read");
}

#[test]
fn the_program_ends_with_status_1_where_it_cannot_write() {
    let full = File::options().write(true).open("/dev/full").unwrap();
    let read_only = File::open("/dev/null").unwrap();
    for output in [full, read_only] {
        let mut child = program()
            .stdin(Stdio::piped())
            .stdout(output)
            .stderr(Stdio::piped())
            .spawn()
            .unwrap();
        let mut input = child.stdin.take().unwrap();
        input.write_all(EXAMPLE.as_bytes()).unwrap();
        drop(input);
        assert_failed(child.wait_with_output().unwrap(), "cannot write");
    }
}

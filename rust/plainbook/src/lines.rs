//! 01's line program: one frame a line in, one reply a line out, in hexadecimal.

use crate::Book;
use std::fmt;
use std::io::{self, Read, Write};

const BUFFER: usize = 64 * 1024;

/// The longest frame has 42 bytes.
const LONGEST_FRAME: usize = 42;
const LONGEST_LINE: usize = 2 * LONGEST_FRAME;

/// Two digits for each of 14 bytes, and a line feed.
const REPLY_LINE: usize = 29;

/// The answer to a line that is no frame: code 11, FF and zeros.
const NO_FRAME: [u8; 14] = [0x11, 0xFF, 0, 0, 0, 0, 0, 0, 0, 0, 0, 0, 0, 0];

const NO_DIGIT: u8 = 0xFF;

/// The value of each upper-case hexadecimal digit, `NO_DIGIT` for any other character.
const DIGIT_VALUES: [u8; 256] = {
    let mut values = [NO_DIGIT; 256];
    let mut digit = 0;
    while digit < 16 {
        values[DIGITS[digit] as usize] = digit as u8;
        digit += 1;
    }
    values
};

const DIGITS: [u8; 16] = *b"0123456789ABCDEF";

/// Why a run ended before its input did.
#[derive(Debug)]
pub enum Failure {
    Read(io::Error),
    Write(io::Error),
}

impl fmt::Display for Failure {
    fn fmt(&self, text: &mut fmt::Formatter) -> fmt::Result {
        match self {
            Failure::Read(error) => write!(text, "cannot read: {error}"),
            Failure::Write(error) => write!(text, "cannot write: {error}"),
        }
    }
}

/// Answers every line of `input` on `output`, starting from an empty book.
pub fn run(input: &mut impl Read, output: &mut impl Write) -> Result<(), Failure> {
    let mut book = Book::new();
    let mut replies = Vec::with_capacity(BUFFER);
    let mut text = vec![0; BUFFER];
    let mut kept = 0;
    loop {
        let filled = kept + read(input, &mut text[kept..])?;
        if filled == kept {
            break;
        }
        let rest = answer_lines(&mut book, &text[..filled], &mut replies, output)?;
        // A line cut at one character past the longest still has too many.
        kept = (filled - rest).min(LONGEST_LINE + 1);
        text.copy_within(rest..rest + kept, 0);
        // Replies go out before the program waits for more input.
        send(&mut replies, output)?;
    }
    if kept > 0 {
        replies.extend_from_slice(&answer(&mut book, &text[..kept]));
    }
    send(&mut replies, output)
}

/// Answers the whole lines at the front of `text`; the result is where the unfinished one starts.
fn answer_lines(
    book: &mut Book,
    text: &[u8],
    replies: &mut Vec<u8>,
    output: &mut impl Write,
) -> Result<usize, Failure> {
    let mut start = 0;
    while let Some(length) = text[start..].iter().position(|&byte| byte == b'\n') {
        if replies.len() + REPLY_LINE > BUFFER {
            send(replies, output)?;
        }
        replies.extend_from_slice(&answer(book, &text[start..start + length]));
        start += length + 1;
    }
    Ok(start)
}

/// The reply line for one line, its line feed taken off.
fn answer(book: &mut Book, line: &[u8]) -> [u8; REPLY_LINE] {
    let mut bytes = [0; LONGEST_FRAME];
    let reply = match frame_of(line, &mut bytes) {
        Some(frame) => book.call(frame, &mut [0; 16]),
        None => NO_FRAME,
    };
    let mut text = [b'\n'; REPLY_LINE];
    for (pair, byte) in text.chunks_exact_mut(2).zip(reply) {
        pair[0] = DIGITS[usize::from(byte >> 4)];
        pair[1] = DIGITS[usize::from(byte & 0x0F)];
    }
    text
}

fn frame_of<'a>(line: &[u8], bytes: &'a mut [u8; LONGEST_FRAME]) -> Option<&'a [u8]> {
    if line.is_empty() || line.len() % 2 == 1 || line.len() > LONGEST_LINE {
        return None;
    }
    let frame = &mut bytes[..line.len() / 2];
    for (byte, pair) in frame.iter_mut().zip(line.chunks_exact(2)) {
        let high = DIGIT_VALUES[usize::from(pair[0])];
        let low = DIGIT_VALUES[usize::from(pair[1])];
        if high == NO_DIGIT || low == NO_DIGIT {
            return None;
        }
        *byte = high << 4 | low;
    }
    Some(frame)
}

fn read(input: &mut impl Read, text: &mut [u8]) -> Result<usize, Failure> {
    loop {
        match input.read(text) {
            Err(error) if error.kind() == io::ErrorKind::Interrupted => {}
            result => return result.map_err(Failure::Read),
        }
    }
}

fn send(replies: &mut Vec<u8>, output: &mut impl Write) -> Result<(), Failure> {
    output.write_all(replies).map_err(Failure::Write)?;
    replies.clear();
    Ok(())
}

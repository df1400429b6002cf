//! How far down the stack a call writes: the stack below its caller is painted, and looked at afterwards.

use std::fs::File;
use std::hint::black_box;
use std::io;
use std::os::unix::fs::FileExt;

use crate::books::Book;
use crate::cases::Case;

/// What is painted.
const PAINTED: usize = 64 * 1024;

/// What painting and looking take themselves: the call is made below that.
const OWN: usize = 4 * 1024;

/// What is looked at.
const SEEN: usize = PAINTED - OWN;

/// Two paints, since a call may write one of them.
const PAINTS: [u8; 2] = [0xA5, 0x5A];

const RETURN_ADDRESS: usize = 8;

/// The bytes below its caller's frame that a call of the case writes to, with its return address and the room for its reply.
pub fn bytes_of_call<B: Book>(case: &Case) -> io::Result<usize> {
    let mut deepest = 0;
    for paint in PAINTS {
        let mut book: B = case.book();
        let mut key = [0; 16];
        let frames = case.frames(1);
        let frame = frames.iter().next().expect("a frame");
        let called = bytes_below(paint, &mut || {
            black_box(&book.call(black_box(frame), black_box(&mut key)));
        })?;
        deepest = deepest.max(called);
    }
    Ok(deepest)
}

fn bytes_below(paint: u8, call: &mut dyn FnMut()) -> io::Result<usize> {
    let nothing = lowest_written(paint, &mut || ())?;
    let called = lowest_written(paint, call)?;
    Ok(nothing - called + RETURN_ADDRESS)
}

/// The lowest address that is not as painted after the call. The memory is read as a file, for which no `unsafe` is needed.
#[inline(never)]
fn lowest_written(paint: u8, call: &mut dyn FnMut()) -> io::Result<usize> {
    let memory = File::open("/proc/self/mem")?;
    let mut seen = vec![0; SEEN];
    let here = 0_u8;
    let bottom = (&raw const *black_box(&here)).addr() - SEEN;
    painted(paint);
    deeper(call);
    memory.read_exact_at(&mut seen, bottom as u64)?;
    match seen.iter().position(|byte| *byte != paint) {
        Some(at) if at > 0 => Ok(bottom + at),
        _ => Err(io::Error::other("a call takes more stack than is painted")),
    }
}

#[inline(never)]
fn painted(paint: u8) {
    black_box(&mut [paint; PAINTED]);
}

/// Calls from further down.
#[inline(never)]
fn deeper(call: &mut dyn FnMut()) {
    let own = [0_u8; OWN];
    black_box(&own);
    black_box(call)();
    black_box(&own);
}

#[cfg(test)]
mod tests {
    use super::*;

    #[inline(never)]
    fn takes<const N: usize>(paint: u8) {
        black_box(&mut [!paint; N]);
    }

    #[test]
    fn finds_what_a_function_takes() {
        let paint = PAINTS[0];
        let little = bytes_below(paint, &mut || takes::<100>(paint)).expect("a depth");
        let much = bytes_below(paint, &mut || takes::<20_100>(paint)).expect("a depth");
        assert!((100..1000).contains(&little), "{little}");
        assert!((much - little).abs_diff(20_000) < 64, "{little} {much}");
    }

    #[test]
    fn tells_where_more_is_taken_than_is_painted() {
        let paint = PAINTS[0];
        assert!(bytes_below(paint, &mut || takes::<PAINTED>(paint)).is_err());
    }
}

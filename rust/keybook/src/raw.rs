//! The boundary: the functions of the proved library `card`, and the memory that a book lies in. All that is `unsafe` in this crate stands here.

use core::mem::MaybeUninit;

/// The bytes of a reply.
pub(crate) const REPLY_BYTES: usize = 14;

/// The bytes of a book. [`Memory::empty`] asks the library whether it is so.
const BOOK_BYTES: usize = 1540;

/// Memory in which a book lies. Only the library reads it: some of the bytes are padding, which nobody has written.
#[derive(Clone, Copy)]
#[repr(C, align(4))]
pub(crate) struct Memory {
    bytes: MaybeUninit<[u8; BOOK_BYTES]>,
}

// SAFETY: these are the signatures of crates/card/src/lib.rt, where a slice crosses as a pointer and a length. Two of them require nothing.
unsafe extern "C" {
    safe fn keybook_size() -> usize;
    safe fn keybook_align() -> usize;
    fn keybook_empty(book: *mut Memory);
    fn keybook_call(
        book: *mut Memory,
        frame: *const u8,
        frame_length: usize,
        key: *mut u8,
        key_length: usize,
        reply: *mut [u8; REPLY_BYTES],
    );
}

impl Memory {
    /// Memory with an empty book in it.
    pub(crate) fn empty() -> Memory {
        assert!(
            keybook_size() == size_of::<Memory>() && keybook_align() == align_of::<Memory>(),
            "the library that is linked has books of another size"
        );
        let mut memory = Memory {
            bytes: MaybeUninit::uninit(),
        };
        // SAFETY: the library requires room for a book. `memory` has the size and the alignment of one, as was just asked, and is ours alone.
        unsafe { keybook_empty(&raw mut memory) };
        memory
    }

    /// One call of the book that lies here.
    #[inline]
    pub(crate) fn call(&mut self, frame: &[u8], key: &mut [u8]) -> [u8; REPLY_BYTES] {
        let mut reply = [0; REPLY_BYTES];
        // SAFETY: the library requires that a book lies at the first pointer. One does: the field is private, so `self` comes from `empty` or is
        // the copy of one that does, and only calls have changed it. The two slices and the reply are as a reference promises, and none of the
        // four overlaps another that is written, since `self`, `key` and `reply` are borrowed for this call alone.
        unsafe {
            keybook_call(
                &raw mut *self,
                frame.as_ptr(),
                frame.len(),
                key.as_mut_ptr(),
                key.len(),
                &raw mut reply,
            );
        }
        reply
    }
}

#[cfg(test)]
mod tests {
    use super::*;
    use std::vec::Vec;

    const GUARD: [u8; 256] = [0xA5; 256];

    /// A book with bytes before and after it that no call may touch.
    #[repr(C)]
    struct Guarded {
        before: [u8; 256],
        memory: Memory,
        after: [u8; 256],
    }

    impl Guarded {
        fn code(&mut self, frame: &[u8]) -> u8 {
            let reply = self.memory.call(frame, &mut [0; 16]);
            assert_eq!((self.before, self.after), (GUARD, GUARD));
            reply[0]
        }
    }

    /// A load, report, deletion or message of the right in this place; its key is that of every sixteenth.
    fn frame(kind: u8, place: u8) -> Vec<u8> {
        let mut frame = std::vec![kind, 0, 0, 0, 0, 0, 0, place % 16];
        let high = [0xFF, 0xFF, 0xFF, place];
        match kind {
            0x01 => {
                frame.extend([[0; 4], high].as_flattened());
                frame.extend([0x0C, 0x02, 0, 0, 0, 9, 0, 0, 0, 0]);
                frame.extend([place; 16]);
            }
            0x02 => frame.extend([0, 0, 0, place + 1, 0x01]),
            _ => {
                frame.extend([[0; 4], high].as_flattened());
                frame.push(0x0C);
            }
        }
        frame
    }

    #[test]
    fn calls_keep_to_the_book() {
        let mut lent = Guarded {
            before: GUARD,
            memory: Memory::empty(),
            after: GUARD,
        };
        for round in 0..3 {
            for place in 0..32 {
                assert_eq!(lent.code(&frame(0x01, place)), 0x00, "{round} {place}");
            }
            assert_eq!(lent.code(&frame(0x01, 32)), 0x16);
            for place in (0..32).chain((0..32).rev()) {
                let code = lent.code(&frame(0x02, place));
                assert!(code == 0x01 || code == 0x19, "{round} {place} {code:02X}");
                assert_eq!(lent.code(&frame(0x03, place)), 0x02);
            }
            for place in (0..32).rev() {
                assert_eq!(lent.code(&frame(0x04, place)), 0x00, "{round} {place}");
            }
            assert_eq!(lent.code(&frame(0x02, 0)), 0x15);
        }
    }
}

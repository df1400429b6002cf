//! Words for people: frames as lines, and a difference with the steps that show it.

use crate::bytes::Bytes;
use crate::compare::{Answer, Difference, Step};

pub fn hex(bytes: &[u8]) -> String {
    bytes.iter().map(|byte| format!("{byte:02X}")).collect()
}

/// The frame as `bookrun` reads it; a buffer that `bookrun` would not lend is told after it.
pub fn line(step: &Step) -> String {
    let frame = hex(&step.frame);
    match step.key.len() {
        16 => frame,
        length => format!("{frame} with a key buffer of {length} bytes"),
    }
}

/// The steps as lines, then what both books made of the last.
pub fn difference(steps: &[Step], difference: &Difference) -> String {
    let lines = steps
        .iter()
        .map(|step| line(step) + "\n")
        .collect::<String>();
    let key = steps.last().map_or(Bytes::new(), |step| step.key);
    format!(
        "{lines}\nkey buffer before: {}\n{}{}",
        hex(&key),
        answer("first", &difference.first),
        answer("second", &difference.second),
    )
}

fn answer(book: &str, answer: &Answer) -> String {
    let reply = answer
        .reply
        .map_or("panic".to_string(), |reply| hex(&reply));
    format!(
        "{book} book, reply: {reply}\n{book} book, key buffer: {}\n",
        hex(&answer.key)
    )
}

#[cfg(test)]
mod tests {
    use super::{difference, line};
    use crate::bytes::Bytes;
    use crate::compare::{Answer, Difference, Step};

    fn step(key: usize) -> Step {
        Step {
            frame: Bytes::from([0x02, 0xA0, 0x0B].as_slice()),
            key: Bytes::zeros(key),
        }
    }

    #[test]
    fn only_a_buffer_that_is_not_16_bytes_is_told() {
        assert_eq!(line(&step(16)), "02A00B");
        assert_eq!(line(&step(0)), "02A00B with a key buffer of 0 bytes");
    }

    #[test]
    fn a_difference_shows_both_replies_and_buffers() {
        let first = Answer {
            reply: Some([0x11; 14]),
            key: Bytes::zeros(2),
        };
        let second = Answer {
            reply: None,
            key: Bytes::from([0xC3, 0].as_slice()),
        };
        let text = difference(&[step(16), step(2)], &Difference { first, second });
        let expected = "\
02A00B
02A00B with a key buffer of 2 bytes

key buffer before: 0000
first book, reply: 1111111111111111111111111111
first book, key buffer: 0000
second book, reply: panic
second book, key buffer: C300
";
        assert_eq!(text, expected);
    }
}

//! The tables in Markdown, and the page that holds them.

use std::fmt::{self, Display, Formatter};
use std::fs;
use std::path::Path;

use crate::calls;
use crate::lines;

/// What stands before and after the tables in the page.
const BEGIN: &str = "<!-- tables: begin -->\n";
const END: &str = "<!-- tables: end -->\n";

/// Puts the tables into the page in place of those that are there.
pub fn put(tables: &str, page: &Path) -> Result<(), String> {
    let said = |why: &dyn Display| format!("{}: {why}", page.display());
    let before = fs::read_to_string(page).map_err(|why| said(&why))?;
    let after = with_tables(&before, tables);
    let after = after.ok_or_else(|| said(&"it has no place for the tables, or several"))?;
    fs::write(page, after).map_err(|why| said(&why))
}

fn with_tables(page: &str, tables: &str) -> Option<String> {
    let (before, rest) = page.split_once(BEGIN)?;
    let (old, after) = rest.split_once(END)?;
    let several = [old, after].iter().any(|text| text.contains(BEGIN)) || after.contains(END);
    (!several).then(|| format!("{before}{BEGIN}\n{tables}\n{END}{after}"))
}

/// Ours, plain and their ratio as three cells, with so many digits after the point.
struct Pair(Option<[f64; 2]>, usize);

impl Display for Pair {
    fn fmt(&self, f: &mut Formatter<'_>) -> fmt::Result {
        let Pair(pair, digits) = self;
        match pair {
            Some([ours, plain]) => {
                let ratio = ours / plain;
                write!(f, "{ours:.digits$} | {plain:.digits$} | {ratio:.2}")
            }
            None => write!(f, "– | – | –"),
        }
    }
}

/// The largest ratio of the pairs.
fn largest(pairs: impl Iterator<Item = Option<[f64; 2]>>) -> String {
    let ratios = pairs.flatten().map(|[ours, plain]| ours / plain);
    match ratios.reduce(f64::max) {
        Some(ratio) => format!("{ratio:.2}"),
        None => "not measured".into(),
    }
}

pub struct Calls<'a>(pub &'a [calls::Measured]);

impl Display for Calls<'_> {
    fn fmt(&self, f: &mut Formatter<'_>) -> fmt::Result {
        let Calls(calls) = self;
        writeln!(
            f,
            "| Call | Place | ns: keybook | plainbook | ratio | Instructions: keybook | plainbook | ratio |\n\
             |---|---|--:|--:|--:|--:|--:|--:|"
        )?;
        for call in *calls {
            let (name, place) = (call.case.name, call.case.place.word());
            let time = Pair(Some(call.nanoseconds), 1);
            let instructions = Pair(call.instructions, 0);
            writeln!(f, "| {name} | {place} | {time} | {instructions} |")?;
        }
        let time = largest(calls.iter().map(|call| Some(call.nanoseconds)));
        let instructions = largest(calls.iter().map(|call| call.instructions));
        writeln!(
            f,
            "\nLargest ratio: time {time}, instructions {instructions}."
        )
    }
}

pub struct Lines<'a>(pub &'a [lines::Measured]);

impl Display for Lines<'_> {
    fn fmt(&self, f: &mut Formatter<'_>) -> fmt::Result {
        let Lines(files) = self;
        writeln!(
            f,
            "| File | Lines | Processor ms: bookrun | plainlines | ratio | Wall ms: bookrun | plainlines | ratio \
             | Instructions a line: bookrun | plainlines | ratio |\n\
             |---|--:|--:|--:|--:|--:|--:|--:|--:|--:|--:|"
        )?;
        for file in *files {
            let (name, lines) = (file.mix.name(), file.lines);
            let (processor, wall) = (Pair(Some(file.processor), 0), Pair(Some(file.wall), 0));
            let instructions = Pair(file.instructions, 0);
            writeln!(
                f,
                "| {name} | {lines} | {processor} | {wall} | {instructions} |"
            )?;
        }
        let processor = largest(files.iter().map(|file| Some(file.processor)));
        let wall = largest(files.iter().map(|file| Some(file.wall)));
        let instructions = largest(files.iter().map(|file| file.instructions));
        writeln!(
            f,
            "\nLargest ratio: processor time {processor}, wall time {wall}, instructions {instructions}."
        )
    }
}

/// For each kind of frame the call that takes most.
pub struct Stack<'a>(pub &'a [calls::Measured]);

impl Display for Stack<'_> {
    fn fmt(&self, f: &mut Formatter<'_>) -> fmt::Result {
        writeln!(
            f,
            "| Frame | Stack bytes: keybook | plainbook | ratio |\n|---|--:|--:|--:|"
        )?;
        let mut kinds: Vec<(&str, [f64; 2])> = vec![];
        for call in self.0 {
            let kind = call.case.kind();
            match kinds.iter_mut().find(|(known, _)| *known == kind) {
                Some((_, [ours, plain])) => {
                    *ours = ours.max(call.stack[0]);
                    *plain = plain.max(call.stack[1]);
                }
                None => kinds.push((kind, call.stack)),
            }
        }
        for (kind, stack) in kinds {
            writeln!(f, "| {kind} | {} |", Pair(Some(stack), 0))?;
        }
        Ok(())
    }
}

#[cfg(test)]
mod tests {
    use super::*;

    #[test]
    fn tables_take_the_place_of_the_old_ones() {
        let page = format!("Before.\n{BEGIN}old\n{END}After.\n");
        let wanted = format!("Before.\n{BEGIN}\nnew\n\n{END}After.\n");
        assert_eq!(with_tables(&page, "new\n").as_deref(), Some(&*wanted));
        let again = with_tables(&wanted, "new\n");
        assert_eq!(again, Some(wanted));
    }

    #[test]
    fn a_page_without_one_place_for_them_is_refused() {
        let place = format!("{BEGIN}{END}");
        for page in ["", BEGIN, END, &format!("{place}{place}")] {
            assert_eq!(with_tables(page, "new\n"), None);
        }
    }

    #[test]
    fn pairs_have_their_ratio() {
        let cells = Pair(Some([30.0, 20.0]), 1).to_string();
        assert_eq!(cells, "30.0 | 20.0 | 1.50");
        let pairs = [Some([3.0, 2.0]), None, Some([1.0, 2.0])];
        assert_eq!(largest(pairs.into_iter()), "1.50");
        assert_eq!(largest([None].into_iter()), "not measured");
    }
}

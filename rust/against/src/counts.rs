//! How often each reply code came, and each case in which it is given.

use crate::compare::Step;
use crate::frames::SPES;
use crate::known::{id_of, number_at, Known, Name};

/// The codes of 01's table of replies.
const CODES: [u8; 15] = [
    0x00, 0x01, 0x02, 0x10, 0x11, 0x12, 0x13, 0x14, 0x15, 0x16, 0x17, 0x18, 0x19, 0x1A, 0x1B,
];

/// What a case is counted by beside its name.
#[derive(Clone, Copy)]
enum By {
    Nothing,
    Spe,
    /// SPE 02 and 03 alone.
    TokensSpe,
    BufferLength,
}

use By::{BufferLength, Nothing, Spe, TokensSpe};

/// The cases of each code, in the order of `CODES`.
const CASES: [&[(&str, By)]; 15] = [
    &[
        ("new ID, set", Spe),
        ("new ID, add", Spe),
        ("new right of a held ID, set", Spe),
        ("new right of a held ID, add", Spe),
        ("new right of a held ID with a key, set", Spe),
        ("new right of a held ID with a key, add", Spe),
        ("held right, set", Spe),
        ("held right, add", Spe),
        ("held right with a key, set", Spe),
        ("held right with a key, add", Spe),
        ("last right deleted", Spe),
        ("one right of several deleted", Spe),
        ("key of one right deleted", Nothing),
        ("key of several rights deleted", Nothing),
    ],
    &[
        ("lowest fitting place", Spe),
        ("a lower fitting place could not pay", Spe),
        ("nothing left afterwards", Spe),
        ("cost 0", TokensSpe),
    ],
    &[("report", Spe)],
    &[
        ("load", BufferLength),
        ("message", BufferLength),
        ("report", BufferLength),
        ("deletion", BufferLength),
        ("other bytes", BufferLength),
    ],
    &[
        ("empty", Nothing),
        ("kind", Nothing),
        ("length of a load", Nothing),
        ("length of a message", Nothing),
        ("length of a report", Nothing),
        ("length of a deletion", Nothing),
        ("spare flag bit", Nothing),
        ("flag bit 1 without a key", Nothing),
        ("key without flag bit 1", Nothing),
        ("mark", Nothing),
    ],
    &[
        ("load", Nothing),
        ("report, 0A", Nothing),
        ("report, other", Nothing),
        ("deletion, 0A", Nothing),
        ("deletion, other", Nothing),
    ],
    &[
        ("0A with add", Nothing),
        ("0A with a key", Nothing),
        ("0A with an amount", Nothing),
        ("0A with a cost", Nothing),
        ("0C with a cost", Nothing),
        ("0D with a cost", Nothing),
    ],
    &[("TS low equal", Spe), ("TS low greater", Spe)],
    &[("message", Nothing), ("load", Spe)],
    &[
        ("new ID, keys full", Spe),
        ("new ID, rights full", Spe),
        ("new ID, both full", Spe),
        ("held ID, rights full", Spe),
        ("held ID, both full", Spe),
    ],
    &[
        ("new ID, set", Spe),
        ("new ID, add", Spe),
        ("new ID, add past 32 bits", TokensSpe),
        ("held ID, set", Spe),
        ("held ID, add", Spe),
        ("held ID, add past 32 bits", TokensSpe),
        ("held right, set", Spe),
        ("held right, add", Spe),
        ("held right, add past 32 bits", Spe),
    ],
    &[("ID held", Nothing), ("ID not held", Nothing)],
    &[
        ("inside, but of the other sort", Nothing),
        ("TS low", Nothing),
        ("one past TS high", Nothing),
        ("no interval near", Nothing),
    ],
    &[
        ("live, counted", Nothing),
        ("live, tokens", Nothing),
        ("live, both", Nothing),
        ("playback, counted", Nothing),
        ("playback, tokens", Nothing),
        ("playback, both", Nothing),
    ],
    &[
        ("report, ID held", Nothing),
        ("report, ID not held", Nothing),
        ("deletion, ID held", Nothing),
        ("deletion, ID not held", Nothing),
        ("0A", Nothing),
    ],
];

const COLUMNS: usize = 4;
const BUFFERS: [&str; COLUMNS] = ["empty", "15", "17", "other"];

pub struct Counts {
    calls: u64,
    cases: [[[u64; COLUMNS]; 14]; CODES.len()],
}

/// One code's line in the table of counts.
pub struct Line {
    pub code: u8,
    pub calls: u64,
    /// The rarest case, and how often it came.
    pub rarest: (String, u64),
}

impl Counts {
    pub fn new() -> Self {
        Counts {
            calls: 0,
            cases: [[[0; COLUMNS]; 14]; CODES.len()],
        }
    }

    pub fn calls(&self) -> u64 {
        self.calls
    }

    /// Counts a reply; `known` is what was known before the call.
    pub fn note(&mut self, step: &Step, reply: &[u8; 14], known: &Known) {
        self.calls += 1;
        if let Some(row) = CODES.iter().position(|code| *code == reply[0]) {
            let (case, column) = case_of(step, reply, known);
            self.cases[row][case][column] += 1;
        }
    }

    pub fn lines(&self) -> Vec<Line> {
        (0..CODES.len()).map(|row| self.line(row)).collect()
    }

    fn line(&self, row: usize) -> Line {
        let cells = self.cases[row].as_flattened();
        let rarest = self.cells(row).into_iter().min_by_key(|cell| cell.1);
        Line {
            code: CODES[row],
            calls: cells.iter().sum(),
            rarest: rarest.expect("a code has cases"),
        }
    }

    /// Each case of a code, and how often it came.
    fn cells(&self, row: usize) -> Vec<(String, u64)> {
        let mut cells = vec![];
        for (case, (name, by)) in CASES[row].iter().enumerate() {
            let counts = self.cases[row][case];
            let columns = column_names(*by).into_iter().zip(counts);
            cells.extend(columns.map(|(column, count)| (format!("{name}{column}"), count)));
        }
        cells
    }
}

impl Default for Counts {
    fn default() -> Self {
        Counts::new()
    }
}

fn column_names(by: By) -> Vec<String> {
    let spe = |spe: &u8| format!(", SPE {spe:02X}");
    match by {
        Nothing => vec![String::new()],
        Spe => SPES.iter().map(spe).collect(),
        TokensSpe => SPES[..2].iter().map(spe).collect(),
        BufferLength => BUFFERS.map(|buffer| format!(", buffer {buffer}")).into(),
    }
}

/// The case in which a code was given, and its column.
fn case_of(step: &Step, reply: &[u8; 14], known: &Known) -> (usize, usize) {
    let frame: &[u8] = &step.frame;
    match reply[0] {
        0x00 => done(frame, known),
        0x01 => granted(frame, reply, known),
        0x02 | 0x14 => (usize::from(low_is_greater(frame)), spe_column(frame[16])),
        0x10 => (frame_sort(frame), buffer_column(step.key.len())),
        0x11 => (damage(frame), 0),
        0x12 => (wrong_spe(frame), 0),
        0x13 => (not_zero(frame), 0),
        0x15 if frame[0] == 0x02 => (0, 0),
        0x15 => (1, spe_column(frame[16])),
        0x16 => (full(frame, known), spe_column(frame[16])),
        0x17 => (past_limit(frame, known), spe_column(frame[16])),
        0x18 => (usize::from(!known.holds(id_of(frame))), 0),
        0x19 => (nothing_fits(frame, known), 0),
        0x1A => (nothing_pays(frame, known), 0),
        _ => (not_held(frame, known), 0),
    }
}

fn spe_column(spe: u8) -> usize {
    SPES.iter().position(|other| *other == spe).unwrap_or(0)
}

fn buffer_column(length: usize) -> usize {
    match length {
        0 => 0,
        15 => 1,
        17 => 2,
        _ => 3,
    }
}

fn low_is_greater(frame: &[u8]) -> bool {
    let name = Name::of(frame);
    name.ts_low > name.ts_high
}

/// New ID, new right of a held ID, held right.
fn novelty(frame: &[u8], known: &Known) -> usize {
    let name = Name::of(frame);
    usize::from(known.holds(name.id)) + usize::from(known.held_as(name).is_some())
}

fn done(frame: &[u8], known: &Known) -> (usize, usize) {
    let name = Name::of(frame);
    let several = known.held_with(name.id).nth(1).is_some();
    if frame[0] == 0x04 {
        return (10 + usize::from(several), spe_column(name.spe));
    }
    if name.spe == 0x0A {
        return (12 + usize::from(several), 0);
    }
    let add = usize::from(frame[17] & 1);
    let key = usize::from(frame.len() == 42);
    let case = match novelty(frame, known) {
        0 => add,
        held => 4 * held - 2 + 2 * key + add,
    };
    (case, spe_column(name.spe))
}

fn granted(frame: &[u8], reply: &[u8; 14], known: &Known) -> (usize, usize) {
    let Some(right) = known.at(reply[1]) else {
        return (0, 0);
    };
    let ts = number_at(frame, 8);
    let fits_lower = known.held_with(right.name.id).any(|(place, lower)| {
        place < usize::from(reply[1])
            && lower.name.is_live() == right.name.is_live()
            && lower.name.spans(ts)
    });
    let counted = right.name.is_counted();
    let left = number_at(reply, if counted { 2 } else { 6 });
    let case = match (fits_lower, left) {
        (true, _) => 1,
        _ if !counted && right.value == 0 => 3,
        (_, 0) => 2,
        _ => 0,
    };
    (case, spe_column(right.name.spe))
}

fn frame_sort(frame: &[u8]) -> usize {
    match (frame.first(), frame.len()) {
        (Some(0x01), 26 | 42) => 0,
        (Some(0x02), 13) => 1,
        (Some(0x03), 17) => 2,
        (Some(0x04), 17) => 3,
        _ => 4,
    }
}

fn damage(frame: &[u8]) -> usize {
    match (frame.first(), frame.len()) {
        (None, _) => 0,
        (Some(0x01), 26 | 42) if frame[17] > 3 => 6,
        (Some(0x01), 26) => 7,
        (Some(0x01), 42) => 8,
        (Some(0x02), 13) => 9,
        (Some(0x01), _) => 2,
        (Some(0x02), _) => 3,
        (Some(0x03), _) => 4,
        (Some(0x04), _) => 5,
        _ => 1,
    }
}

fn wrong_spe(frame: &[u8]) -> usize {
    let other = usize::from(frame[16] != 0x0A);
    match frame[0] {
        0x01 => 0,
        0x03 => 1 + other,
        _ => 3 + other,
    }
}

fn not_zero(frame: &[u8]) -> usize {
    match frame[16] {
        0x0C => 4,
        0x0D => 5,
        _ if frame[17] & 1 != 0 => 0,
        _ if frame[17] != 0 => 1,
        _ if number_at(frame, 18) != 0 => 2,
        _ => 3,
    }
}

fn full(frame: &[u8], known: &Known) -> usize {
    let keys_full = known.keys() == 16;
    let rights_full = known.rights() == 32;
    match (known.holds(id_of(frame)), keys_full, rights_full) {
        (false, true, false) => 0,
        (false, false, _) => 1,
        (false, true, true) => 2,
        (true, false, _) => 3,
        (true, true, _) => 4,
    }
}

fn past_limit(frame: &[u8], known: &Known) -> usize {
    let before = match known.held_as(Name::of(frame)) {
        Some(right) if right.name.is_counted() => right.value,
        _ if Name::of(frame).is_counted() => 0,
        _ => known.purse,
    };
    let add = frame[17] & 1 != 0;
    let wraps = before.checked_add(number_at(frame, 18)).is_none();
    3 * novelty(frame, known) + usize::from(add) + usize::from(add && wraps)
}

fn nothing_fits(frame: &[u8], known: &Known) -> usize {
    let ts = number_at(frame, 8);
    let any = |test: &dyn Fn(&Name) -> bool| {
        let mut rights = known.held_with(id_of(frame));
        rights.any(|(_, right)| test(&right.name))
    };
    if any(&|name| name.spans(ts)) {
        0
    } else if any(&|name| name.ts_low == ts) {
        1
    } else if any(&|name| name.ts_high.checked_add(1) == Some(ts)) {
        2
    } else {
        3
    }
}

fn nothing_pays(frame: &[u8], known: &Known) -> usize {
    let ts = number_at(frame, 8);
    let mut rights = known.held_with(id_of(frame));
    let live = rights
        .next()
        .is_some_and(|(_, right)| ts > right.replay_counter);
    let fitting = || {
        let rights = known.held_with(id_of(frame));
        rights.filter(|(_, right)| right.name.is_live() == live && right.name.spans(ts))
    };
    let counted = fitting().any(|(_, right)| right.name.is_counted());
    let tokens = fitting().any(|(_, right)| !right.name.is_counted());
    let account = match (counted, tokens) {
        (true, false) => 0,
        (false, _) => 1,
        (true, true) => 2,
    };
    account + if live { 0 } else { 3 }
}

fn not_held(frame: &[u8], known: &Known) -> usize {
    let id_is_held = known.holds(id_of(frame));
    match frame[0] {
        0x03 => usize::from(!id_is_held),
        0x04 => 2 + usize::from(!id_is_held),
        _ => 4,
    }
}

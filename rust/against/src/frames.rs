//! Random frames, aimed at the edges of 01's rules.

use crate::bytes::Bytes;
use crate::known::{HeldRight, Known, Name};
use crate::random::Random;

/// The SPEs of rights.
pub const SPES: [u8; 4] = [0x02, 0x03, 0x0C, 0x0D];
pub const KEY_DELETION: u8 = 0x0A;

pub const FLAG_ADD: u8 = 1;
pub const FLAG_KEY: u8 = 2;

const PURSE_LIMIT: u32 = 0x7FF_FFFF;
const LIVE_LIMIT: u32 = 0x3F_FFFF;
const PLAYBACK_LIMIT: u32 = 0x7F_FFFF;
const MAX: u32 = u32::MAX;

/// Intervals at the ends of the numbers, and some that differ from another in one byte.
const INTERVALS: [(u32, u32); 24] = [
    (100, 200),
    (100, 201),
    (101, 200),
    (99, 200),
    (100, 101),
    (0, 1),
    (0, 2),
    (1, 2),
    (0, 200),
    (200, 300),
    (0, MAX),
    (MAX - 1, MAX),
    (MAX - 2, MAX - 1),
    (100, 0x1C8),
    (100, 0x1_00C8),
    (100, 0x100_00C8),
    (0x164, 0x100_00C8),
    (0x1_0064, 0x100_00C8),
    (0x100_0064, 0x100_00C8),
    (0x7FFF_FFFF, 0x8000_0000),
    (0x7FFF_FFFF, MAX),
    (0, 0x8000_0000),
    (0x8000_0000, MAX),
    (0x7FFF_FFFE, 0x8000_0001),
];

/// What a run draws its frames from.
pub struct Source {
    ids: Vec<u64>,
    intervals: Vec<(u32, u32)>,
    /// The shares of loads, messages, reports, deletions and 0A.
    shares: [usize; 5],
}

impl Source {
    pub fn new(random: &mut Random, ids: usize, intervals: usize) -> Self {
        Source {
            ids: id_pool(random, ids),
            intervals: interval_pool(random, intervals),
            shares: random.pick(&[
                [40, 40, 8, 10, 2],
                [20, 65, 5, 8, 2],
                [70, 20, 5, 4, 1],
                [40, 20, 5, 30, 5],
                [30, 30, 20, 10, 10],
            ]),
        }
    }

    /// A frame that the reader takes.
    pub fn good_frame(&self, random: &mut Random, known: &Known) -> Bytes {
        let mut ticket = random.below(self.shares.iter().sum());
        let sort = self.shares.iter().position(|share| {
            let taken = ticket < *share;
            ticket = ticket.wrapping_sub(*share);
            taken
        });
        match sort {
            Some(0) => self.load(random, known),
            Some(1) => self.message(random, known),
            Some(2) => self.named(random, known, 0x03),
            Some(3) => self.named(random, known, 0x04),
            _ => self.key_deletion(random, known),
        }
    }

    /// A load of one of the first `ids` IDs that a book with free places takes.
    pub fn filling_load(&self, random: &mut Random, ids: usize) -> Bytes {
        let mut name = self.random_name(random);
        name.id = random.pick(&self.ids[..ids]);
        let flags = FLAG_KEY | random.pick(&[0, FLAG_ADD]);
        load_frame(
            random,
            name,
            flags,
            2,
            if name.is_counted() { 0 } else { 1 },
        )
    }

    pub fn load(&self, random: &mut Random, known: &Known) -> Bytes {
        let mut name = self.name(random, known, [45, 30]);
        match random.below(40) {
            0 => (name.ts_low, name.ts_high) = self.no_interval(random, name),
            1 => name.spe = random.byte(),
            _ => {}
        }
        let carries_key = random.chance(if known.holds(name.id) { 30 } else { 90 });
        let key_flag = if carries_key { FLAG_KEY } else { 0 };
        let flags = key_flag | random.pick(&[0, FLAG_ADD]);
        let amount = amount(random, known, name);
        let cost = cost(random, known, name);
        load_frame(random, name, flags, amount, cost)
    }

    fn no_interval(&self, random: &mut Random, name: Name) -> (u32, u32) {
        random.pick(&[
            (name.ts_high, name.ts_low),
            (name.ts_low, name.ts_low),
            (name.ts_high, name.ts_high),
            (name.ts_low.saturating_add(1), name.ts_low),
            (MAX, 0),
            (0, 0),
            (MAX, MAX),
        ])
    }

    fn key_deletion(&self, random: &mut Random, known: &Known) -> Bytes {
        let mut name = self.name(random, known, [60, 0]);
        name.spe = KEY_DELETION;
        if random.chance(50) {
            (name.ts_low, name.ts_high) = self.no_interval(random, name);
        }
        let bit = 1 << random.below(32);
        let (flags, amount, cost) = match random.below(20) {
            0 => (FLAG_ADD, 0, 0),
            1 => (FLAG_KEY, 0, 0),
            2 => (0, bit, 0),
            3 => (0, 0, bit),
            4 => (FLAG_ADD | FLAG_KEY, bit, bit),
            _ => (0, 0, 0),
        };
        load_frame(random, name, flags, amount, cost)
    }

    pub fn message(&self, random: &mut Random, known: &Known) -> Bytes {
        let held = held_right(random, known).filter(|_| random.chance(85));
        let id = match held {
            Some(right) => right.name.id,
            None => random.pick(&self.ids),
        };
        let ts = match held {
            Some(right) if random.chance(90) => ts_near(random, right),
            _ => self.random_ts(random),
        };
        message_frame(id, ts, if random.chance(6) { 0 } else { 1 })
    }

    /// A report or a deletion.
    fn named(&self, random: &mut Random, known: &Known, kind: u8) -> Bytes {
        let mut name = self.name(random, known, [60, 25]);
        match random.below(24) {
            0 => (name.ts_low, name.ts_high) = self.no_interval(random, name),
            1 => name.spe = random.byte(),
            2 => name.spe = KEY_DELETION,
            _ => {}
        }
        named_frame(kind, name)
    }

    /// A held name, one near a held name, or a random one; the shares are those of the first two.
    fn name(&self, random: &mut Random, known: &Known, shares: [usize; 2]) -> Name {
        let ticket = random.below(100);
        match held_right(random, known) {
            Some(right) if ticket < shares[0] => right.name,
            Some(right) if ticket < shares[0] + shares[1] => self.near_name(random, right.name),
            _ => self.random_name(random),
        }
    }

    /// A name with one part altered.
    fn near_name(&self, random: &mut Random, held: Name) -> Name {
        let other = self.random_name(random);
        let mut name = held;
        match random.below(6) {
            0 => name.id = other.id,
            1 => (name.ts_low, name.ts_high) = (other.ts_low, other.ts_high),
            2 => name.ts_low = name.ts_low.wrapping_add(random.pick(&[1, MAX])),
            3 => name.ts_high = name.ts_high.wrapping_add(random.pick(&[1, MAX])),
            4 => name.ts_low ^= 1 << random.below(32),
            _ => name.spe = other.spe,
        }
        name
    }

    pub fn random_name(&self, random: &mut Random) -> Name {
        let (ts_low, ts_high) = random.pick(&self.intervals);
        Name {
            id: random.pick(&self.ids),
            ts_low,
            ts_high,
            spe: random.pick(&SPES),
        }
    }

    fn random_ts(&self, random: &mut Random) -> u32 {
        let (low, high) = random.pick(&self.intervals);
        let any = random.number();
        random.pick(&[low, low + 1, high, high.wrapping_add(1), 0, 1, MAX, any])
    }
}

fn held_right<'a>(random: &mut Random, known: &'a Known) -> Option<&'a HeldRight> {
    let rights = known.rights();
    if rights == 0 {
        return None;
    }
    let (_, right) = known.held().nth(random.below(rights))?;
    Some(right)
}

/// IDs that differ from the first in one byte, each of the seven in turn; half start from zeros.
fn id_pool(random: &mut Random, length: usize) -> Vec<u64> {
    let any = random.next() >> 8;
    let base = random.pick(&[0, any]);
    let mut ids = vec![base];
    let mut at = random.below(7);
    while ids.len() < length {
        let id = base ^ u64::from(random.byte()) << (8 * at);
        if !ids.contains(&id) {
            ids.push(id);
        }
        at = (at + 1) % 7;
    }
    ids
}

fn interval_pool(random: &mut Random, length: usize) -> Vec<(u32, u32)> {
    let mut intervals = vec![];
    while intervals.len() < length {
        let (low, any) = (random.number(), random.number());
        let interval = match random.below(8) {
            0 if low < any => (low, any),
            _ => random.pick(&INTERVALS),
        };
        if !intervals.contains(&interval) {
            intervals.push(interval);
        }
    }
    intervals
}

/// A TS at an edge of the right's interval or of the replay counter, or one that it may grant.
fn ts_near(random: &mut Random, right: &HeldRight) -> u32 {
    let (low, high) = (right.name.ts_low, right.name.ts_high);
    let replay_counter = right.replay_counter;
    let step = random.below(8) as u32;
    match random.below(16) {
        0 => low,
        1 => low.wrapping_add(1),
        2 => high,
        3 => high.wrapping_add(1),
        4 => replay_counter,
        5 => replay_counter.wrapping_add(1),
        6 => replay_counter.wrapping_sub(1),
        7..=9 => low.wrapping_add(1 + step).min(high),
        _ if right.name.is_live() => replay_counter.max(low).saturating_add(1 + step / 4),
        _ => replay_counter.min(high).saturating_sub(step),
    }
}

/// An amount at an edge of the account that the name pays from, or a small one.
fn amount(random: &mut Random, known: &Known, name: Name) -> u32 {
    let limit = match name.spe {
        0x0C => LIVE_LIMIT,
        0x0D => PLAYBACK_LIMIT,
        _ => PURSE_LIMIT,
    };
    let before = match known.held_as(name) {
        Some(right) if name.is_counted() => right.value,
        _ if name.is_counted() => 0,
        _ => known.purse,
    };
    let step = random.pick(&[MAX, 0, 1]);
    match random.below(20) {
        0..=8 => random.below(6) as u32,
        9..=11 => (limit - before.min(limit)).wrapping_add(step),
        12 => limit.wrapping_add(step),
        13 => random
            .pick(&[PURSE_LIMIT, LIVE_LIMIT, PLAYBACK_LIMIT])
            .wrapping_add(step),
        // The sum is about 2^32, or about 2^32 more than the limit.
        14 => before.wrapping_neg().wrapping_add(step),
        15 => limit.wrapping_sub(before).wrapping_add(step),
        16 => random.pick(&[MAX, 0x8000_0000, 0x7FFF_FFFF, 0x100, 0x1_0000, 0x100_0000]),
        17 => random.number(),
        _ => random.below(100) as u32,
    }
}

fn cost(random: &mut Random, known: &Known, name: Name) -> u32 {
    let any = random.number();
    let small = random.below(6) as u32;
    let bit = 1 << random.below(32);
    let purse = known.purse;
    match (name.is_counted(), random.below(20)) {
        (true, 0) => bit,
        (true, _) => 0,
        (false, 0..=8) => small,
        (false, 9..=10) => 0,
        (false, 11..=13) => purse,
        (false, 14) => purse.wrapping_add(1),
        (false, 15) => purse.wrapping_sub(1),
        (false, 16) => bit,
        (false, 17) => MAX,
        (false, 18) => any,
        (false, _) => purse / 2,
    }
}

fn push_id(frame: &mut Bytes, id: u64) {
    frame.push(&id.to_be_bytes()[1..]);
}

pub fn named_frame(kind: u8, name: Name) -> Bytes {
    let mut frame = Bytes::new();
    frame.push(&[kind]);
    push_id(&mut frame, name.id);
    frame.push(&name.ts_low.to_be_bytes());
    frame.push(&name.ts_high.to_be_bytes());
    frame.push(&[name.spe]);
    frame
}

/// The deletion of a name's key with all its rights.
pub fn key_deletion_frame(mut name: Name) -> Bytes {
    name.spe = KEY_DELETION;
    bare_load_frame(name)
}

/// A load of nothing but its name.
pub fn bare_load_frame(name: Name) -> Bytes {
    let mut frame = named_frame(0x01, name);
    frame.push(&[0; 9]);
    frame
}

pub fn message_frame(id: u64, ts: u32, mark: u8) -> Bytes {
    let mut frame = Bytes::new();
    frame.push(&[0x02]);
    push_id(&mut frame, id);
    frame.push(&ts.to_be_bytes());
    frame.push(&[mark]);
    frame
}

/// A load with random key bytes where flag bit 1 says that it carries a key.
pub fn load_frame(random: &mut Random, name: Name, flags: u8, amount: u32, cost: u32) -> Bytes {
    let mut frame = named_frame(0x01, name);
    frame.push(&[flags]);
    frame.push(&amount.to_be_bytes());
    frame.push(&cost.to_be_bytes());
    if flags & FLAG_KEY != 0 {
        frame.push(&random_bytes(random, 16));
    }
    frame
}

pub fn random_bytes(random: &mut Random, length: usize) -> Bytes {
    let mut bytes = Bytes::zeros(length);
    random.fill(&mut bytes);
    bytes
}

/// A byte string made from a good frame, most often one that the reader must refuse.
pub fn damaged(random: &mut Random, mut frame: Bytes) -> Bytes {
    let at = random.below(frame.len());
    let length = frame.len();
    let bit = 1 << random.below(8);
    match random.below(12) {
        0 => frame[0] = random.pick(&[0, 5, 6, 7, 0x11, 0x81, 0xFF]),
        1 => frame[0] = random.pick(&[1, 2, 3, 4]),
        2 => frame.resize(length - 1),
        3 => frame.resize(length + 1),
        4 => frame.resize(random.below(101)),
        5 => frame = random_string(random),
        6 => damage_flags(random, &mut frame, bit),
        7 => damage_flags(random, &mut frame, FLAG_KEY),
        8 => damage_mark(random, &mut frame),
        9 => frame = Bytes::new(),
        10 => frame[at] = random.byte(),
        _ => frame[at] ^= bit,
    }
    frame
}

/// Random bytes, half of the time with a good frame's length and a kind at the front.
fn random_string(random: &mut Random) -> Bytes {
    if random.chance(50) {
        let length = random.below(101);
        return random_bytes(random, length);
    }
    let length = random.pick(&[13, 17, 26, 42]);
    let mut string = random_bytes(random, length);
    string[0] = random.pick(&[1, 2, 3, 4]);
    string
}

fn damage_flags(random: &mut Random, frame: &mut Bytes, bits: u8) {
    if frame[0] == 0x01 {
        frame[17] ^= bits;
        let length = random.pick(&[26, 42]);
        frame.resize(length);
    }
}

fn damage_mark(random: &mut Random, frame: &mut Bytes) {
    if frame[0] == 0x02 {
        frame[12] = random.byte();
    }
}

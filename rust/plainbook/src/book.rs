// The book: 16 key places, 32 right places and one user purse, altered in place.

const KEY_PLACES: usize = 16;
const RIGHT_PLACES: usize = 32;

// The limits, as 01's table of rights prints them.
const PURSE_LIMIT: u32 = 0x7FF_FFFF;
const LIVE_LIMIT: u32 = 0x3F_FFFF;
const PLAYBACK_LIMIT: u32 = 0x7F_FFFF;

// The values of the security_policy_extension (SPE) that the book serves.
const TOKENS_LIVE: u8 = 0x02;
const TOKENS_PLAYBACK: u8 = 0x03;
const KEY_DELETION: u8 = 0x0A;
const COUNTED_LIVE: u8 = 0x0C;
const COUNTED_PLAYBACK: u8 = 0x0D;

const FLAG_ADD: u8 = 0x01;
const FLAG_KEY: u8 = 0x02;

/// The place byte of a reply that shows no right, and the key place of a free right.
const NO_PLACE: u8 = 0xFF;

/// The codes of 01's table of replies.
#[derive(Clone, Copy)]
enum Code {
    Done = 0x00,
    Granted = 0x01,
    Reported = 0x02,
    BufferLength = 0x10,
    NoFrame = 0x11,
    WrongSpe = 0x12,
    NotZero = 0x13,
    NoInterval = 0x14,
    NoKey = 0x15,
    Full = 0x16,
    PastLimit = 0x17,
    BadMark = 0x18,
    NothingFits = 0x19,
    NothingPays = 0x1A,
    NotHeld = 0x1B,
}

/// A key place; it is free when no right belongs to it.
#[derive(Clone, Copy, Debug, PartialEq, Eq)]
struct Key {
    id: u64,
    bytes: [u8; 16],
    replay_counter: u32,
    rights: u8,
}

const FREE_KEY: Key = Key {
    id: 0,
    bytes: [0; 16],
    replay_counter: 0,
    rights: 0,
};

/// A right place; it is free when it belongs to no key place.
#[derive(Clone, Copy, Debug, PartialEq, Eq)]
struct Right {
    key_place: u8,
    spe: u8,
    ts_low: u32,
    ts_high: u32,
    /// The traffic keys left for SPE 0C and 0D, the cost in tokens for SPE 02 and 03.
    value: u32,
}

const FREE_RIGHT: Right = Right {
    key_place: NO_PLACE,
    spe: 0,
    ts_low: 0,
    ts_high: 0,
    value: 0,
};

/// What names a right: the front of a load, of a report and of a deletion.
struct Name {
    id: u64,
    ts_low: u32,
    ts_high: u32,
    spe: u8,
}

/// The fields of a load beside its key bytes.
struct Load {
    name: Name,
    add: bool,
    amount: u32,
    cost: u32,
}

/// The key book of one receiver under one rights issuer.
#[derive(Clone, Debug, PartialEq, Eq)]
pub struct Book {
    keys: [Key; KEY_PLACES],
    rights: [Right; RIGHT_PLACES],
    purse: u32,
}

impl Default for Book {
    fn default() -> Self {
        Self::new()
    }
}

impl Book {
    /// The empty book.
    pub const fn new() -> Self {
        Book {
            keys: [FREE_KEY; KEY_PLACES],
            rights: [FREE_RIGHT; RIGHT_PLACES],
            purse: 0,
        }
    }

    /// Takes one frame and answers its reply; only a grant writes the lent `key` buffer.
    pub fn call(&mut self, frame: &[u8], key: &mut [u8]) -> [u8; 14] {
        let Ok(lent) = <&mut [u8; 16]>::try_from(key) else {
            return refusal(Code::BufferLength);
        };
        match frame.first() {
            Some(0x01) => self.read_load(frame),
            Some(0x02) => self.read_message(frame, lent),
            Some(0x03) => match frame.try_into() {
                Ok(frame) => self.report(frame),
                Err(_) => refusal(Code::NoFrame),
            },
            Some(0x04) => match frame.try_into() {
                Ok(frame) => self.delete_right(frame),
                Err(_) => refusal(Code::NoFrame),
            },
            _ => refusal(Code::NoFrame),
        }
    }

    fn read_load(&mut self, frame: &[u8]) -> [u8; 14] {
        let Some(fields) = frame.first_chunk::<26>() else {
            return refusal(Code::NoFrame);
        };
        let flags = fields[17];
        if flags > FLAG_ADD | FLAG_KEY {
            return refusal(Code::NoFrame);
        }
        match (flags & FLAG_KEY != 0, frame.len()) {
            (false, 26) => self.load(fields, None),
            (true, 42) => self.load(fields, frame.last_chunk()),
            _ => refusal(Code::NoFrame),
        }
    }

    fn load(&mut self, fields: &[u8; 26], carried: Option<&[u8; 16]>) -> [u8; 14] {
        let load = Load {
            name: name_of(fields),
            add: fields[17] & FLAG_ADD != 0,
            amount: number_at(fields, 18),
            cost: number_at(fields, 22),
        };
        match load.name.spe {
            TOKENS_LIVE | TOKENS_PLAYBACK => {}
            COUNTED_LIVE | COUNTED_PLAYBACK if load.cost == 0 => {}
            COUNTED_LIVE | COUNTED_PLAYBACK => return refusal(Code::NotZero),
            // "Any flag" takes in flag bit 1: a 0A frame with a key gets 13.
            KEY_DELETION if fields[17..] == [0; 9] => return self.delete_key(load.name.id),
            KEY_DELETION => return refusal(Code::NotZero),
            _ => return refusal(Code::WrongSpe),
        }
        if load.name.ts_low >= load.name.ts_high {
            return refusal(Code::NoInterval);
        }
        let held_key = self.find_key(load.name.id);
        if held_key.is_none() && carried.is_none() {
            return refusal(Code::NoKey);
        }
        let held_right = held_key.and_then(|key_place| self.find_right(key_place, &load.name));
        match held_right {
            Some(place) => self.load_held(place, &load, carried),
            None => self.load_new(held_key, &load, carried),
        }
    }

    fn load_held(&mut self, place: usize, load: &Load, carried: Option<&[u8; 16]>) -> [u8; 14] {
        let Some((value, purse)) = self.account(self.rights[place].value, load) else {
            // As held: counter, cost and purse are those before the load.
            return self.as_held(Code::PastLimit, place);
        };
        self.rights[place].value = value;
        self.purse = purse;
        if let Some(bytes) = carried {
            self.keys[usize::from(self.rights[place].key_place)].bytes = *bytes;
        }
        self.as_held(Code::Done, place)
    }

    fn load_new(
        &mut self,
        held_key: Option<usize>,
        load: &Load,
        carried: Option<&[u8; 16]>,
    ) -> [u8; 14] {
        let Some(key_place) = held_key.or_else(|| self.free_key()) else {
            return refusal(Code::Full);
        };
        let Some(place) = self.free_right() else {
            return refusal(Code::Full);
        };
        let Some((value, purse)) = self.account(0, load) else {
            // "Else FF, 0, purse, 0": a held ID's replay counter is not shown either.
            return reply(Code::PastLimit, NO_PLACE, 0, self.purse, 0);
        };
        let key = &mut self.keys[key_place];
        key.id = load.name.id;
        key.rights += 1;
        if let Some(bytes) = carried {
            key.bytes = *bytes;
        }
        self.rights[place] = Right {
            key_place: key_place as u8,
            spe: load.name.spe,
            ts_low: load.name.ts_low,
            ts_high: load.name.ts_high,
            value,
        };
        self.purse = purse;
        self.as_held(Code::Done, place)
    }

    /// The right's value and the purse after a load, or nothing where one would pass its limit.
    fn account(&self, counter: u32, load: &Load) -> Option<(u32, u32)> {
        match load.name.spe {
            COUNTED_LIVE => Some((changed(counter, load, LIVE_LIMIT)?, self.purse)),
            COUNTED_PLAYBACK => Some((changed(counter, load, PLAYBACK_LIMIT)?, self.purse)),
            _ => Some((load.cost, changed(self.purse, load, PURSE_LIMIT)?)),
        }
    }

    fn delete_key(&mut self, id: u64) -> [u8; 14] {
        let Some(key_place) = self.find_key(id) else {
            return refusal(Code::NotHeld);
        };
        let mut left = self.keys[key_place].rights;
        for right in &mut self.rights {
            if usize::from(right.key_place) == key_place {
                *right = FREE_RIGHT;
                left -= 1;
                if left == 0 {
                    break;
                }
            }
        }
        self.keys[key_place] = FREE_KEY;
        reply(Code::Done, NO_PLACE, 0, self.purse, 0)
    }

    fn read_message(&mut self, frame: &[u8], lent: &mut [u8; 16]) -> [u8; 14] {
        let Ok(frame) = <&[u8; 13]>::try_from(frame) else {
            return refusal(Code::NoFrame);
        };
        match frame[12] {
            0x01 => self.message(id_of(frame), number_at(frame, 8), lent),
            0x00 => refusal(Code::BadMark),
            _ => refusal(Code::NoFrame),
        }
    }

    fn message(&mut self, id: u64, ts: u32, lent: &mut [u8; 16]) -> [u8; 14] {
        let Some(key_place) = self.find_key(id) else {
            return refusal(Code::NoKey);
        };
        let key = &mut self.keys[key_place];
        let live = ts > key.replay_counter;
        let mut left = key.rights;
        let mut refused = Code::NothingFits;
        for (place, right) in self.rights.iter_mut().enumerate() {
            if usize::from(right.key_place) != key_place {
                continue;
            }
            if right.fits(live, ts) {
                if right.pay(&mut self.purse) {
                    if live {
                        key.replay_counter = ts;
                    }
                    *lent = key.bytes;
                    return self.as_held(Code::Granted, place);
                }
                refused = Code::NothingPays;
            }
            left -= 1;
            if left == 0 {
                break;
            }
        }
        refusal(refused)
    }

    fn report(&self, frame: &[u8; 17]) -> [u8; 14] {
        let name = name_of(frame);
        if !holds_rights(name.spe) {
            return refusal(Code::WrongSpe);
        }
        match self.find(&name) {
            Some((_, place)) => self.as_held(Code::Reported, place),
            None => refusal(Code::NotHeld),
        }
    }

    fn delete_right(&mut self, frame: &[u8; 17]) -> [u8; 14] {
        let name = name_of(frame);
        if !holds_rights(name.spe) {
            return refusal(Code::WrongSpe);
        }
        let Some((key_place, place)) = self.find(&name) else {
            return refusal(Code::NotHeld);
        };
        self.rights[place] = FREE_RIGHT;
        self.keys[key_place].rights -= 1;
        if self.keys[key_place].rights == 0 {
            self.keys[key_place] = FREE_KEY;
        }
        reply(Code::Done, NO_PLACE, 0, self.purse, 0)
    }

    /// The places of the named right's key and of the right itself.
    fn find(&self, name: &Name) -> Option<(usize, usize)> {
        let key_place = self.find_key(name.id)?;
        Some((key_place, self.find_right(key_place, name)?))
    }

    fn find_key(&self, id: u64) -> Option<usize> {
        self.keys
            .iter()
            .position(|key| key.id == id && key.rights > 0)
    }

    fn free_key(&self) -> Option<usize> {
        self.keys.iter().position(|key| key.rights == 0)
    }

    /// The place of the right with this name among those of a held key.
    fn find_right(&self, key_place: usize, name: &Name) -> Option<usize> {
        let mut left = self.keys[key_place].rights;
        for (place, right) in self.rights.iter().enumerate() {
            if usize::from(right.key_place) != key_place {
                continue;
            }
            if right.is_named(name) {
                return Some(place);
            }
            left -= 1;
            if left == 0 {
                break;
            }
        }
        None
    }

    fn free_right(&self) -> Option<usize> {
        self.rights
            .iter()
            .position(|right| right.key_place == NO_PLACE)
    }

    /// The reply that shows the held right in `place`.
    fn as_held(&self, code: Code, place: usize) -> [u8; 14] {
        let right = &self.rights[place];
        let key = &self.keys[usize::from(right.key_place)];
        reply(
            code,
            place as u8,
            right.value,
            self.purse,
            key.replay_counter,
        )
    }
}

impl Right {
    /// Whether the rest of the name is this right's, its key's ID being the same.
    fn is_named(&self, name: &Name) -> bool {
        self.ts_low == name.ts_low && self.ts_high == name.ts_high && self.spe == name.spe
    }

    /// TS low is outside the interval, TS high is inside (01, "What a short term message does").
    fn fits(&self, live: bool, ts: u32) -> bool {
        let right_is_live = matches!(self.spe, TOKENS_LIVE | COUNTED_LIVE);
        right_is_live == live && self.ts_low < ts && ts <= self.ts_high
    }

    /// Charges one grant, if this right can pay it.
    fn pay(&mut self, purse: &mut u32) -> bool {
        let (account, price) = match self.spe {
            COUNTED_LIVE | COUNTED_PLAYBACK => (&mut self.value, 1),
            _ => (purse, self.value),
        };
        if *account < price {
            return false;
        }
        *account -= price;
        true
    }
}

/// The figure after a set or an add, if it is within its limit.
fn changed(before: u32, load: &Load, limit: u32) -> Option<u32> {
    let after = if load.add {
        before.checked_add(load.amount)?
    } else {
        load.amount
    };
    (after <= limit).then_some(after)
}

fn holds_rights(spe: u8) -> bool {
    matches!(
        spe,
        TOKENS_LIVE | TOKENS_PLAYBACK | COUNTED_LIVE | COUNTED_PLAYBACK
    )
}

/// The seven bytes of a key ID as one number.
fn id_of<const N: usize>(frame: &[u8; N]) -> u64 {
    u64::from_be_bytes([
        0, frame[1], frame[2], frame[3], frame[4], frame[5], frame[6], frame[7],
    ])
}

fn name_of<const N: usize>(frame: &[u8; N]) -> Name {
    Name {
        id: id_of(frame),
        ts_low: number_at(frame, 8),
        ts_high: number_at(frame, 12),
        spe: frame[16],
    }
}

fn number_at<const N: usize>(frame: &[u8; N], at: usize) -> u32 {
    u32::from_be_bytes([frame[at], frame[at + 1], frame[at + 2], frame[at + 3]])
}

/// A reply of FF and zeros.
fn refusal(code: Code) -> [u8; 14] {
    reply(code, NO_PLACE, 0, 0, 0)
}

fn reply(code: Code, place: u8, value: u32, purse: u32, replay_counter: u32) -> [u8; 14] {
    let mut bytes = [0; 14];
    bytes[0] = code as u8;
    bytes[1] = place;
    bytes[2..6].copy_from_slice(&value.to_be_bytes());
    bytes[6..10].copy_from_slice(&purse.to_be_bytes());
    bytes[10..14].copy_from_slice(&replay_counter.to_be_bytes());
    bytes
}

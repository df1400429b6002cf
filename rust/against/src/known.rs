//! What the replies of a run have told so far: it aims frames and sorts replies, but judges none.

/// A right's name.
#[derive(Clone, Copy, Debug, PartialEq, Eq)]
pub struct Name {
    /// The seven bytes as one number.
    pub id: u64,
    pub ts_low: u32,
    pub ts_high: u32,
    pub spe: u8,
}

impl Name {
    /// The name at the front of a load, a report or a deletion.
    pub fn of(frame: &[u8]) -> Name {
        Name {
            id: id_of(frame),
            ts_low: number_at(frame, 8),
            ts_high: number_at(frame, 12),
            spe: frame[16],
        }
    }

    /// SPE 02 and 0C.
    pub fn is_live(&self) -> bool {
        matches!(self.spe, 0x02 | 0x0C)
    }

    /// SPE 0C and 0D.
    pub fn is_counted(&self) -> bool {
        matches!(self.spe, 0x0C | 0x0D)
    }

    /// Whether the interval takes in this TS.
    pub fn spans(&self, ts: u32) -> bool {
        self.ts_low < ts && ts <= self.ts_high
    }
}

#[derive(Clone, Copy, Debug)]
pub struct HeldRight {
    pub name: Name,
    pub value: u32,
    pub replay_counter: u32,
}

pub struct Known {
    rights: [Option<HeldRight>; 32],
    pub purse: u32,
}

impl Known {
    pub fn empty() -> Self {
        Known {
            rights: [None; 32],
            purse: 0,
        }
    }

    /// Places and rights held, from the lowest place on.
    pub fn held(&self) -> impl Iterator<Item = (usize, &HeldRight)> {
        let places = self.rights.iter().enumerate();
        places.filter_map(|(place, right)| right.as_ref().map(|right| (place, right)))
    }

    pub fn held_with(&self, id: u64) -> impl Iterator<Item = (usize, &HeldRight)> {
        self.held().filter(move |(_, right)| right.name.id == id)
    }

    pub fn held_as(&self, name: Name) -> Option<&HeldRight> {
        self.held()
            .map(|(_, right)| right)
            .find(|right| right.name == name)
    }

    pub fn holds(&self, id: u64) -> bool {
        self.held_with(id).next().is_some()
    }

    pub fn at(&self, place: u8) -> Option<&HeldRight> {
        self.rights.get(usize::from(place))?.as_ref()
    }

    pub fn rights(&self) -> usize {
        self.held().count()
    }

    pub fn keys(&self) -> usize {
        // Each ID counts at its lowest place.
        let lowest = |place, id| self.held_with(id).next().is_some_and(|(at, _)| at == place);
        self.held()
            .filter(|(place, right)| lowest(*place, right.name.id))
            .count()
    }

    /// Takes over what an agreed reply says.
    pub fn learn(&mut self, frame: &[u8], reply: &[u8; 14]) {
        match (reply[0], frame.first()) {
            (0x00, Some(0x01)) if frame[16] == 0x0A => self.forget(|name| name.id == id_of(frame)),
            (0x00, Some(0x01)) => self.learn_load(frame, reply),
            (0x00, Some(0x04)) => self.forget(|name| name == Name::of(frame)),
            (0x01, Some(0x02)) => self.learn_grant(frame, reply),
            _ => {}
        }
    }

    fn learn_load(&mut self, frame: &[u8], reply: &[u8; 14]) {
        self.purse = number_at(reply, 6);
        if let Some(right) = self.rights.get_mut(usize::from(reply[1])) {
            *right = Some(HeldRight {
                name: Name::of(frame),
                value: number_at(reply, 2),
                replay_counter: number_at(reply, 10),
            });
        }
    }

    fn learn_grant(&mut self, frame: &[u8], reply: &[u8; 14]) {
        self.purse = number_at(reply, 6);
        let id = id_of(frame);
        for (place, right) in self.rights.iter_mut().enumerate() {
            if let Some(right) = right.as_mut().filter(|right| right.name.id == id) {
                right.replay_counter = number_at(reply, 10);
                if place == usize::from(reply[1]) {
                    right.value = number_at(reply, 2);
                }
            }
        }
    }

    fn forget(&mut self, gone: impl Fn(Name) -> bool) {
        for right in &mut self.rights {
            if right.is_some_and(|right| gone(right.name)) {
                *right = None;
            }
        }
    }
}

pub fn id_of(frame: &[u8]) -> u64 {
    let mut bytes = [0; 8];
    bytes[1..].copy_from_slice(&frame[1..8]);
    u64::from_be_bytes(bytes)
}

pub fn number_at(bytes: &[u8], at: usize) -> u32 {
    u32::from_be_bytes(bytes[at..at + 4].try_into().expect("four bytes"))
}

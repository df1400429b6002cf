//! Runs: a start, random frames, and what both books hold in between and at the end.

use std::time::{Duration, Instant};

use crate::bytes::Bytes;
use crate::compare::{Difference, Pair, Step};
use crate::counts::Counts;
use crate::frames::{self, Source, SPES};
use crate::known::{Known, Name};
use crate::random::Random;
use crate::Store;

/// A hunt ends with the run in which it reaches one of these.
#[derive(Clone, Copy)]
pub struct Limits {
    pub calls: u64,
    pub time: Duration,
}

/// The steps of the run that ended in a difference.
pub struct Found {
    /// A hunt with this seed finds it in its first run.
    pub seed: u64,
    pub steps: Vec<Step>,
    pub difference: Box<Difference>,
}

/// Makes random runs with both books until they differ or a limit is reached.
pub fn hunt<A: Store, B: Store>(seed: u64, limits: Limits, counts: &mut Counts) -> Option<Found> {
    let start = Instant::now();
    let mut seed = seed;
    let mut steps = vec![];
    while counts.calls() < limits.calls && start.elapsed() < limits.time {
        steps.clear();
        if let Err(difference) = Run::<A, B>::new(seed, &mut steps, counts).play() {
            return Some(Found {
                seed,
                steps,
                difference,
            });
        }
        seed = Random::new(seed).next();
    }
    None
}

/// How many keys and rights a run first fills in, and whether it empties the book again.
struct Start {
    keys: usize,
    rights: usize,
    drained: bool,
}

struct Run<'a, A, B> {
    random: Random,
    source: Source,
    start: Start,
    pair: Pair<A, B>,
    known: Known,
    /// The names that loads of this run had: no other right can be held.
    names: Vec<Name>,
    steps: &'a mut Vec<Step>,
    counts: &'a mut Counts,
}

impl<'a, A: Store, B: Store> Run<'a, A, B> {
    fn new(seed: u64, steps: &'a mut Vec<Step>, counts: &'a mut Counts) -> Self {
        let mut random = Random::new(seed);
        let (start, ids, intervals) = random_start(&mut random);
        Run {
            source: Source::new(&mut random, ids, intervals),
            random,
            start,
            pair: Pair::empty(),
            known: Known::empty(),
            names: vec![],
            steps,
            counts,
        }
    }

    fn play(&mut self) -> Result<(), Box<Difference>> {
        self.fill()?;
        if self.start.drained {
            self.drain()?;
        }
        for _ in 0..self.random.pick(&[20, 60, 120, 200]) {
            self.random_call()?;
            if self.random.below(120) == 0 {
                self.report_all()?;
            }
        }
        self.report_all()?;
        self.ask_for_keys()
    }

    /// Loads up to the start's keys, then more rights of those keys.
    fn fill(&mut self) -> Result<(), Box<Difference>> {
        let mut keys = 0;
        for _ in 0..600 {
            if self.known.rights() >= self.start.rights {
                break;
            }
            let frame = self.source.filling_load(&mut self.random, self.start.keys);
            let id_is_new = !self.known.holds(Name::of(&frame).id);
            if id_is_new == (keys < self.start.keys) {
                keys += usize::from(id_is_new);
                self.call(frame)?;
            }
        }
        Ok(())
    }

    /// Deletes every right, some one by one and some with their key.
    fn drain(&mut self) -> Result<(), Box<Difference>> {
        for _ in 0..32 {
            let held = self.known.rights();
            if held == 0 {
                break;
            }
            let at = self.random.below(held);
            let name = self.known.held().nth(at).map(|(_, right)| right.name);
            let name = name.expect("a held right");
            let frame = if self.random.chance(20) {
                frames::key_deletion_frame(name)
            } else {
                frames::named_frame(0x04, name)
            };
            self.call(frame)?;
        }
        Ok(())
    }

    fn random_call(&mut self) -> Result<(), Box<Difference>> {
        let mut frame = self.source.good_frame(&mut self.random, &self.known);
        if self.random.chance(8) {
            frame = frames::damaged(&mut self.random, frame);
        }
        let length = match self.random.below(100) {
            0 => 0,
            1 => 15,
            2 => 17,
            3 => self.random.below(65),
            _ => 16,
        };
        let key = frames::random_bytes(&mut self.random, length);
        self.take(Step { frame, key })
    }

    /// Asks both books for every right that either may hold.
    // Reports alter nothing: 01 gives them no effect, and only code 01 writes the buffer.
    // They are steps like any other, so that later ones tell if a report does alter a book.
    fn report_all(&mut self) -> Result<(), Box<Difference>> {
        for at in 0..self.names.len() {
            self.call(frames::named_frame(0x03, self.names[at]))?;
        }
        Ok(())
    }

    /// Ends a run: messages that most held rights grant, for the key bytes that no report shows.
    fn ask_for_keys(&mut self) -> Result<(), Box<Difference>> {
        let names: Vec<Name> = self.known.held().map(|(_, right)| right.name).collect();
        for name in names {
            let ts = if name.is_live() {
                name.ts_high
            } else {
                name.ts_low.saturating_add(1)
            };
            self.call(frames::message_frame(name.id, ts, 1))?;
        }
        Ok(())
    }

    /// A call with a buffer of 16 bytes.
    fn call(&mut self, frame: Bytes) -> Result<(), Box<Difference>> {
        let key = Bytes::from([0xA5; 16].as_slice());
        self.take(Step { frame, key })
    }

    fn take(&mut self, step: Step) -> Result<(), Box<Difference>> {
        self.steps.push(step);
        self.keep_name(&step.frame);
        let reply = self.pair.call(&step)?;
        self.counts.note(&step, &reply, &self.known);
        self.known.learn(&step.frame, &reply);
        Ok(())
    }

    fn keep_name(&mut self, frame: &[u8]) {
        if frame.first() == Some(&0x01) && matches!(frame.len(), 26 | 42) {
            let name = Name::of(frame);
            if SPES.contains(&name.spe) && !self.names.contains(&name) {
                self.names.push(name);
            }
        }
    }
}

/// A start, and how many IDs and intervals the run draws from.
fn random_start(random: &mut Random) -> (Start, usize, usize) {
    let sort = random.below(5);
    let few = 1 + random.below(4);
    let (keys, rights) = match sort {
        0 => (0, 0),
        1 => (1 + few, 1 + few + random.below(20)),
        2 => (16, 16 + random.below(4)),
        3 => (few, 32),
        _ => (16, 32),
    };
    let start = Start {
        keys,
        rights,
        drained: random.chance(20),
    };
    let ids = random
        .pick(&[1, 2, 3, 6, 18, 24])
        .max(if keys == 16 { 18 } else { keys });
    let intervals = random
        .pick(&[1, 2, 4, 8, 24])
        .max(if sort == 3 { 8 } else { 1 });
    (start, ids, intervals)
}

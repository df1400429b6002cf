//! Makes a run that shows a difference short, and its values simple.

use crate::bytes::Bytes;
use crate::compare::{answer, first_difference, Difference, Step};
use crate::frames;
use crate::known::{number_at, Name};
use crate::Store;

/// The last byte of simple values; their other bytes are zero.
const SIMPLE: [u8; 10] = [0, 1, 2, 3, 5, 10, 100, 101, 200, 201];

/// Values that must stay equal wherever they are equal now: key IDs, and timestamps.
#[derive(Clone, Copy, PartialEq, Eq)]
enum Sort {
    Id,
    Time,
    Alone,
}

/// A field of a frame: its sort, start and width.
#[derive(Clone, Copy)]
struct Field(Sort, usize, usize);

const LOAD: &[Field] = &[
    Field(Sort::Id, 1, 7),
    Field(Sort::Time, 8, 4),
    Field(Sort::Time, 12, 4),
    Field(Sort::Alone, 17, 1),
    Field(Sort::Alone, 18, 4),
    Field(Sort::Alone, 22, 4),
    Field(Sort::Alone, 26, 16),
];
const MESSAGE: &[Field] = &[Field(Sort::Id, 1, 7), Field(Sort::Time, 8, 4)];

fn fields(frame: &[u8]) -> Vec<Field> {
    match (frame.first(), frame.len()) {
        (Some(0x01), 42) => LOAD.to_vec(),
        (Some(0x01), 26) => LOAD[..6].to_vec(),
        (Some(0x02), 13) => MESSAGE.to_vec(),
        (Some(0x03 | 0x04), 17) => LOAD[..3].to_vec(),
        (_, length) => (0..length).map(|at| Field(Sort::Alone, at, 1)).collect(),
    }
}

/// With more steps, trying every load to make up for every step is too much work.
const FEW: usize = 20;

struct Shrinker<F, G> {
    steps: Vec<Step>,
    /// Where the two books first differ in these steps.
    differs_at: F,
    /// The numbers that the first book's replies to these steps show.
    shown: G,
}

/// The shortest steps found that still show a difference at their end.
pub fn shrink<A: Store, B: Store>(steps: &[Step]) -> Option<(Vec<Step>, Box<Difference>)> {
    let mut shrinker = Shrinker {
        steps: vec![],
        differs_at: |steps: &[Step]| Some(first_difference::<A, B>(steps)?.0),
        shown: |steps: &[Step]| shown_numbers::<A>(steps),
    };
    if !shrinker.accept(steps.to_vec()) {
        return None;
    }
    while shrinker.drop_steps()
        | shrinker.end_earlier()
        | shrinker.drop_and_make_up()
        | shrinker.simplify()
    {}
    let (_, difference) = first_difference::<A, B>(&shrinker.steps)?;
    Some((shrinker.steps, difference))
}

impl<F: Fn(&[Step]) -> Option<usize>, G: Fn(&[Step]) -> Vec<u32>> Shrinker<F, G> {
    /// Takes these steps, up to where the books differ, if they do.
    fn accept(&mut self, mut steps: Vec<Step>) -> bool {
        let Some(at) = (self.differs_at)(&steps) else {
            return false;
        };
        steps.truncate(at + 1);
        self.steps = steps;
        true
    }

    /// Drops chunks of steps, shorter ones each time, down to single steps.
    fn drop_steps(&mut self) -> bool {
        let before = self.steps.len();
        let mut length = before.div_ceil(2);
        while length > 0 {
            self.drop_chunks(length);
            length /= 2;
        }
        self.steps.len() < before
    }

    fn drop_chunks(&mut self, length: usize) {
        let mut start = 0;
        while start < self.steps.len() {
            let end = (start + length).min(self.steps.len());
            let mut steps = self.steps.clone();
            steps.drain(start..end);
            if !self.accept(steps) {
                start = end;
            }
        }
    }

    /// Ends the run with a question about one of its frames, where that makes it shorter.
    fn end_earlier(&mut self) -> bool {
        let ends = 1..self.steps.len();
        let asked = |end: usize| questions(&self.steps[end - 1].frame).into_iter();
        let endings: Vec<(usize, Bytes)> = ends
            .flat_map(|end| asked(end).map(move |frame| (end, frame)))
            .collect();
        let mut endings = endings.into_iter();
        endings.any(|(end, frame)| self.end_with(end, frame))
    }

    fn end_with(&mut self, end: usize, frame: Bytes) -> bool {
        let before = self.steps.clone();
        let mut steps = before[..end].to_vec();
        let key = Bytes::zeros(16);
        steps.push(Step { frame, key });
        if self.accept(steps) {
            self.drop_steps();
        }
        let shorter = self.steps.len() < before.len();
        if !shorter {
            self.steps = before;
        }
        shorter
    }

    /// Drops a step, where a load can make up for it by a number shown before or by a key.
    fn drop_and_make_up(&mut self) -> bool {
        let steps = self.steps.clone();
        if steps.len() > FEW {
            return false;
        }
        let numbers = (self.shown)(&steps);
        (0..steps.len() * steps.len()).any(|pair| {
            let (dropped, load) = (pair / steps.len(), pair % steps.len());
            let mut loads = changed_loads(&steps[load], &numbers).into_iter();
            dropped != load
                && loads.any(|changed| {
                    let mut steps = steps.clone();
                    steps[load] = changed;
                    steps.remove(dropped);
                    self.accept(steps)
                })
        })
    }

    /// Tries simpler values, which are always smaller or shorter, so that it comes to an end.
    fn simplify(&mut self) -> bool {
        let before = self.steps.clone();
        for at in 0..before.len() {
            self.simplify_step(at);
        }
        self.simplify_everywhere(Sort::Id);
        self.simplify_everywhere(Sort::Time);
        self.steps != before
    }

    fn simplify_step(&mut self, at: usize) {
        self.try_step(at, |step| step.key = Bytes::zeros(16));
        self.try_step(at, |step| step.key.fill(0));
        self.try_step(at, drop_key);
        for field in self
            .steps
            .get(at)
            .map_or(vec![], |step| fields(&step.frame))
        {
            self.simplify_field(at, field);
        }
    }

    fn simplify_field(&mut self, at: usize, field: Field) {
        for last in SIMPLE {
            self.try_step(at, |step| lower(step, field, None, last));
        }
    }

    fn try_step(&mut self, at: usize, change: impl Fn(&mut Step)) {
        let mut steps = self.steps.clone();
        if let Some(step) = steps.get_mut(at) {
            change(step);
        }
        if steps != self.steps {
            self.accept(steps);
        }
    }

    /// Lowers each ID, or each TS, in all steps alike.
    fn simplify_everywhere(&mut self, sort: Sort) {
        for value in values(&self.steps, sort) {
            for last in SIMPLE {
                let mut steps = self.steps.clone();
                for step in &mut steps {
                    lower_all(step, sort, &value, last);
                }
                if steps != self.steps {
                    self.accept(steps);
                }
            }
        }
    }
}

/// The value and the purse of each reply.
fn shown_numbers<A: Store>(steps: &[Step]) -> Vec<u32> {
    let mut book = A::empty();
    let mut numbers: Vec<u32> = steps
        .iter()
        .filter_map(|step| answer(&mut book, step).reply)
        .flat_map(|reply| [number_at(&reply, 2), number_at(&reply, 6)])
        .collect();
    numbers.sort();
    numbers.dedup();
    numbers
}

/// A load with each of the numbers as its amount, then as its cost, and last with a key.
fn changed_loads(step: &Step, numbers: &[u32]) -> Vec<Step> {
    if step.frame.first() != Some(&0x01) || !matches!(step.frame.len(), 26 | 42) {
        return vec![];
    }
    let changed = |start: usize, number: u32| {
        let mut step = *step;
        step.frame[start..start + 4].copy_from_slice(&number.to_be_bytes());
        step
    };
    let amounts = numbers.iter().map(|number| changed(18, *number));
    let costs = numbers.iter().map(|number| changed(22, *number));
    amounts.chain(costs).chain([with_key(*step)]).collect()
}

fn with_key(mut step: Step) -> Step {
    step.frame[17] |= 2;
    step.frame.resize(42);
    step
}

/// Messages, a report and a load that a book answers by what it holds of this frame's right.
fn questions(frame: &[u8]) -> Vec<Bytes> {
    if frame.len() < 17 {
        return vec![];
    }
    let name = Name::of(frame);
    vec![
        frames::message_frame(name.id, name.ts_low.saturating_add(1), 1),
        frames::message_frame(name.id, name.ts_high, 1),
        frames::named_frame(0x03, name),
        frames::bare_load_frame(name),
    ]
}

/// A load without the key that it carries.
fn drop_key(step: &mut Step) {
    if step.frame.first() == Some(&0x01) && step.frame.len() == 42 {
        step.frame[17] &= 1;
        step.frame.resize(26);
    }
}

/// Gives a field the simple value that ends in `last`, if that is lower than the one it has.
fn lower(step: &mut Step, field: Field, only: Option<&[u8]>, last: u8) {
    let Field(_, start, width) = field;
    let Some(bytes) = step.frame.get_mut(start..start + width) else {
        return;
    };
    let mut simple = vec![0; width];
    simple[width - 1] = last;
    if simple.as_slice() < &*bytes && only.is_none_or(|only| only == bytes) {
        bytes.copy_from_slice(&simple);
    }
}

fn lower_all(step: &mut Step, sort: Sort, value: &[u8], last: u8) {
    for field in fields(&step.frame) {
        if field.0 == sort {
            lower(step, field, Some(value), last);
        }
    }
}

/// The different values of one sort in all steps.
fn values(steps: &[Step], sort: Sort) -> Vec<Vec<u8>> {
    let fields = steps.iter().flat_map(|step| {
        let of_sort = fields(&step.frame)
            .into_iter()
            .filter(move |field| field.0 == sort);
        of_sort.map(|Field(_, start, width)| step.frame[start..start + width].to_vec())
    });
    let mut values: Vec<Vec<u8>> = fields.collect();
    values.sort();
    values.dedup();
    values
}

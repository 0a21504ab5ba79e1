//! One trial at the engine, and what it must have left behind.

use crate::area::Area;
use crate::engine::{self, Answer, Call, Written};
use crate::trial::Trial;
use reference::generate::{Random, LONGEST, LONGEST_POSITIONS, LONGEST_WORK};
use reference::run::{self, Work};

/// The six areas, and what the three that are written hold before a call.
pub struct Lent {
    read: [Area<u8>; 3],
    work: Area<u8>,
    result: Area<u8>,
    positions: Area<u16>,
    noise: Vec<u8>,
    entry_noise: Vec<u16>,
    zeros: Vec<u8>,
    shift: usize,
}

/// How far the noise is moved on from case to case.
const STEP: usize = 61;
const SHIFTS: usize = 500;

impl Lent {
    pub fn new(seed: u64) -> Lent {
        let mut random = Random::new(seed);
        let noise = random.bytes(LONGEST_WORK + STEP * SHIFTS);
        let entry_noise = (0..LONGEST_POSITIONS + STEP * SHIFTS).map(|_| random.bits() as u16).collect();
        Lent {
            read: [(); 3].map(|()| Area::new(LONGEST)),
            work: Area::new(LONGEST_WORK),
            result: Area::new(LONGEST),
            positions: Area::new(LONGEST_POSITIONS),
            noise,
            entry_noise,
            zeros: vec![0; LONGEST_WORK],
            shift: 0,
        }
    }

    /// Makes the call of a trial. Answers nothing if all is as the reference
    /// says, else what differs first.
    ///
    /// The areas that are written hold other noise in each trial, since no
    /// outcome may follow from what they hold.
    pub fn difference(&mut self, trial: &Trial) -> Option<String> {
        self.shift = (self.shift + 1) % SHIFTS;
        let noise = &self.noise[self.shift * STEP..];
        let (work, result) = (&noise[..trial.work_length], &noise[..trial.result_length]);
        let positions = &self.entry_noise[self.shift * STEP..][..trial.positions_length];
        for (at, (area, bytes)) in self.read.iter_mut().zip(&trial.read).enumerate() {
            area.lay(bytes, self.shift / (2 * at + 1));
        }
        self.work.lay(work, self.shift / 7);
        self.result.lay(result, self.shift / 11);
        self.positions.lay(positions, self.shift / 13);
        let read = [0, 1, 2].map(|at: usize| self.read[at].content());
        let written = Written {
            work: self.work.content_mut(),
            result: self.result.content_mut(),
            positions: self.positions.content_mut(),
        };
        let answer = trial.call.make(read, written);
        let expected = trial.verdict.over(result, positions);
        let expected_answer = Answer { number: expected.number.into(), length: expected.length as u64 };
        if answer != expected_answer {
            return Some(format!("the answer is {answer:?} and not {expected_answer:?}"));
        }
        if let Some(at) = first_difference(self.result.content(), &expected.result) {
            return Some(format!("byte {at} of the result area is {}", self.result.content()[at]));
        }
        if let Some(at) = first_difference(self.positions.content(), &expected.positions) {
            let (found, wanted) = (self.positions.content()[at], expected.positions[at]);
            return Some(format!("entry {at} of the position area is {found} and not {wanted}"));
        }
        let work_kept = match expected.work {
            Work::Zero => self.work.content() == &self.zeros[..trial.work_length],
            Work::Kept => self.work.content() == work,
        };
        if !work_kept {
            return Some(format!("the work area is not {:?}", expected.work));
        }
        self.changed_around(trial).or_else(|| self.checks_differ(trial))
    }

    /// Whether a guard or an area that is only read has changed.
    fn changed_around(&self, trial: &Trial) -> Option<String> {
        let names = trial.call.names();
        for ((name, area), bytes) in names.iter().zip(&self.read).zip(&trial.read) {
            if area.content() != bytes {
                return Some(format!("the {name} has changed"));
            }
        }
        let all = self.read[..names.len()].iter().chain([&self.work, &self.result]);
        let names = names.iter().copied().chain(["work area", "result area"]);
        let mut guarded =
            all.map(Area::guarded).zip(names).chain([(self.positions.guarded(), "position area")]);
        let broken = guarded.find(|(guarded, _)| !guarded);
        broken.map(|(_, name)| format!("what stands around the {name} has changed"))
    }

    /// Whether a call that only checks answers otherwise than the reference. A
    /// message is neither a query nor an array, and is not checked.
    fn checks_differ(&self, trial: &Trial) -> Option<String> {
        if trial.call == Call::Tracer {
            return None;
        }
        let only = |number: u8| Answer { number: number.into(), length: 0 };
        let checks = |at: usize| match at {
            0 => (engine::check_query(self.read[0].content()), run::check_query(&trial.read[0])),
            _ => (engine::check_array(self.read[at].content()), run::check_array(&trial.read[at])),
        };
        let named = (0..).zip(trial.call.names()).map(|(at, name)| (name, checks(at)));
        let differing = named.into_iter().find(|(_, (answer, expected))| *answer != only(*expected));
        differing.map(|(name, (answer, expected))| {
            format!("the check of the {name} is {answer:?} and not {expected}")
        })
    }

    /// What the engine left in the result area.
    pub fn result(&self) -> &[u8] {
        self.result.content()
    }
}

fn first_difference<T: PartialEq>(one: &[T], other: &[T]) -> Option<usize> {
    if one == other {
        return None;
    }
    one.iter().zip(other).position(|(a, b)| a != b)
}

//! Engine, opponent and floor on every case, timed in turn.
//!
//! The machine is not ours alone, and what disturbs it lasts for many calls. So each round goes through all
//! cases and all three; who begins changes from round to round; ratios are taken within a round, and medians
//! over the rounds.

use crate::areas::Areas;
use crate::cases::Case;
use crate::{engine, floor, opponent};
use std::hint::black_box;
use std::time::{Duration, Instant};

/// So many rounds, or as many as the budget has room for, but not fewer than the least.
const ROUNDS: usize = 301;
const LEAST: usize = 31;
const BUDGET: Duration = Duration::from_secs(120);

/// One timing takes at least this, over as many calls as that needs.
const TIMING: Duration = Duration::from_micros(20);

type Call = fn(&Case, &mut Areas);

const CALLS: [Call; 3] = [
    |c, areas| {
        let _ = black_box(engine(c, areas));
    },
    |c, areas| {
        let _ = black_box(opponent(c, areas));
    },
    floor,
];

/// The time of so many calls, after one that is not timed.
fn time(call: Call, c: &Case, areas: &mut Areas, calls: u32) -> Duration {
    call(black_box(c), areas);
    let from = Instant::now();
    for _ in 0..calls {
        call(black_box(c), areas);
        black_box(&areas);
    }
    from.elapsed()
}

/// How many calls one timing needs.
fn calls_needed(call: Call, c: &Case, areas: &mut Areas) -> u32 {
    let mut n = 1;
    while time(call, c, areas, n) < TIMING {
        n *= 2;
    }
    n
}

/// A case with the times of a call in each round, in microseconds.
struct Timed<'c> {
    case: &'c Case,
    calls: [u32; 3],
    rounds: Vec<[f64; 3]>,
}

impl Timed<'_> {
    fn new<'c>(case: &'c Case, areas: &mut [Areas; 3]) -> Timed<'c> {
        let mut calls = [0; 3];
        for who in 0..3 {
            calls[who] = calls_needed(CALLS[who], case, &mut areas[who]);
        }
        Timed { case, calls, rounds: Vec::new() }
    }

    fn round(&mut self, areas: &mut [Areas; 3]) {
        let mut times = [0.0; 3];
        for turn in 0..3 {
            let who = (turn + self.rounds.len()) % 3;
            let taken = time(CALLS[who], self.case, &mut areas[who], self.calls[who]);
            times[who] = taken.as_secs_f64() * 1e6 / f64::from(self.calls[who]);
        }
        self.rounds.push(times);
    }
}

/// The median of some numbers and their quartiles.
#[derive(Clone, Copy)]
pub struct Spread {
    pub low: f64,
    pub median: f64,
    pub high: f64,
}

fn spread(numbers: impl Iterator<Item = f64>) -> Spread {
    let mut sorted: Vec<f64> = numbers.collect();
    sorted.sort_by(f64::total_cmp);
    let at = |quarter: usize| sorted[(sorted.len() - 1) * quarter / 4];
    Spread { low: at(1), median: at(2), high: at(3) }
}

/// What one case gave.
pub struct Measured {
    /// Engine, opponent and floor: medians, in microseconds.
    pub times: [f64; 3],
    /// Engine by opponent.
    pub ratio: Spread,
    /// Engine and opponent by themselves on the case before, which is half as large. Of the first case 1.
    pub growth: [f64; 2],
}

fn measured(timed: &Timed, before: &Timed) -> Measured {
    let each = |who: usize| timed.rounds.iter().map(move |r| r[who]);
    let growth = |who: usize| {
        let pairs = timed.rounds.iter().zip(&before.rounds);
        spread(pairs.map(|(r, s)| r[who] / s[who])).median
    };
    Measured {
        times: [0, 1, 2].map(|who| spread(each(who)).median),
        ratio: spread(timed.rounds.iter().map(|r| r[0] / r[1])),
        growth: [0, 1].map(growth),
    }
}

/// Measures kinds of cases, each from small to large: what each case gave, and in how many rounds.
pub fn measure(kinds: &[Vec<Case>]) -> (Vec<Vec<Measured>>, usize) {
    let mut areas = [(); 3].map(|()| Areas::full_of(0));
    let mut timed: Vec<Vec<Timed>> =
        kinds.iter().map(|cases| cases.iter().map(|c| Timed::new(c, &mut areas)).collect()).collect();
    let from = Instant::now();
    let mut rounds = 0;
    while rounds < ROUNDS && (rounds < LEAST || from.elapsed() < BUDGET) {
        timed.iter_mut().flatten().for_each(|t| t.round(&mut areas));
        rounds += 1;
    }
    (timed.iter().map(|cases| measured_kind(cases)).collect(), rounds)
}

fn measured_kind(cases: &[Timed]) -> Vec<Measured> {
    let before = |at: usize| &cases[at.saturating_sub(1)];
    cases.iter().enumerate().map(|(at, t)| measured(t, before(at))).collect()
}

#[cfg(test)]
mod tests {
    use super::*;

    #[test]
    fn median_and_quartiles() {
        let s = spread([9.0, 1.0, 3.0, 7.0, 5.0].into_iter());
        assert_eq!([s.low, s.median, s.high], [3.0, 5.0, 7.0]);
    }

    #[test]
    fn ratios_are_taken_within_a_round() {
        let case = Case::Message(vec![]);
        let timed = |rounds: &[[f64; 3]]| Timed { case: &case, calls: [1; 3], rounds: rounds.to_vec() };
        let small = timed(&[[1.0, 1.0, 1.0], [10.0, 10.0, 10.0], [100.0, 100.0, 100.0]]);
        let large = timed(&[[3.0, 2.0, 1.0], [30.0, 20.0, 10.0], [300.0, 200.0, 100.0]]);
        let kind = measured_kind(&[small, large]);
        let m = &kind[1];
        assert_eq!((m.times, m.ratio.median, m.growth), ([30.0, 20.0, 10.0], 1.5, [3.0, 2.0]));
    }
}

//! The engine against a hand-written implementation of the same calls, on the same bytes, and against the
//! floor: copying the input to the result and clearing the work area; of a tracer's message, copying it.
//!
//! - `bench` measures and prints the tables.
//! - `bench --write DIRECTORY` measures, writes performance.svg there, and sets the tables into the
//!   PERFORMANCE.md that is there.
//! - `bench profile KIND SIZE CALLS` only calls the engine, so many times on one case, for a profiler.

mod areas;
mod cases;
mod forms;
mod measure;
mod messages;
mod opponent;
mod page;
mod paper;
mod plot;

use areas::Areas;
use cases::{Case, Kind, KINDS};
use measure::Measured;
use std::error::Error;
use std::hint::black_box;
use std::path::Path;
use std::process::ExitCode;
use tquery::Engine;

/// The engine's answer: the length, or the number of the refusal.
fn engine(c: &Case, areas: &mut Areas) -> Result<usize, u32> {
    let Areas { work, result, positions } = areas;
    let answer = match c {
        Case::Run(c) => Engine::new(work).run(&c.query, &c.input, &c.joined, result, positions),
        Case::Message(message) => tquery::trace(message, result),
    };
    answer.map_err(|r| r.number())
}

/// The opponent's answer, likewise.
fn opponent(c: &Case, areas: &mut Areas) -> Result<usize, u32> {
    let Areas { work, result, positions } = areas;
    match c {
        Case::Run(c) => opponent::run(&c.query, &c.input, &c.joined, work, result, positions),
        Case::Message(message) => opponent::trace(message, result),
    }
}

/// What every call does at least: it reads all bytes that it is lent, and a run clears the work area.
fn floor(c: &Case, areas: &mut Areas) {
    match c {
        Case::Run(c) => {
            areas.result[..c.input.len()].copy_from_slice(&c.input);
            areas.work.fill(0);
        }
        Case::Message(message) => areas.result[..message.len()].copy_from_slice(message),
    }
}

/// Whether engine and opponent give the same result, and leave the same in every area. A case that is refused is
/// no case to measure.
fn agree(c: &Case) -> bool {
    let run = |call: fn(&Case, &mut Areas) -> Result<usize, u32>| {
        let mut areas = Areas::full_of(7);
        (call(c, &mut areas), areas)
    };
    let given = run(engine);
    given.0.is_ok() && given == run(opponent)
}

/// What all cases gave.
struct Figures {
    /// Kind by kind, size by size.
    kinds: Vec<Vec<Measured>>,
    rounds: usize,
    /// The machine's load before the run.
    load: String,
}

fn measure_all() -> Result<Figures, String> {
    let load = page::load();
    let kinds: Vec<Vec<Case>> = KINDS.iter().map(Kind::cases).collect();
    if !kinds.iter().flatten().all(agree) {
        return Err("engine and opponent differ on a case, or refuse it: the tests say which".into());
    }
    let (kinds, rounds) = measure::measure(&kinds);
    Ok(Figures { kinds, rounds, load })
}

fn write(directory: &Path) -> Result<(), Box<dyn Error>> {
    let text = directory.join("PERFORMANCE.md");
    let before = std::fs::read_to_string(&text)?;
    let figures = measure_all()?;
    std::fs::write(&text, page::with_tables(&before, &page::tables(&figures))?)?;
    std::fs::write(directory.join("performance.svg"), plot::plot(&figures.kinds))?;
    Ok(())
}

fn profile(kind: &str, size: &str, calls: &str) -> Result<(), Box<dyn Error>> {
    let names = || KINDS.map(|k| k.name).join("; ");
    let kind = KINDS.iter().find(|k| k.name == kind).ok_or_else(|| format!("the kinds are: {}", names()))?;
    let c = kind.case(size.parse::<usize>()?.min(kind.most));
    let mut areas = Areas::full_of(0);
    for _ in 0..calls.parse::<usize>()? {
        let _ = black_box(engine(black_box(&c), &mut areas));
    }
    Ok(())
}

fn main() -> ExitCode {
    let words: Vec<String> = std::env::args().skip(1).collect();
    let words: Vec<&str> = words.iter().map(String::as_str).collect();
    let done = match words[..] {
        [] => measure_all().map(|figures| print!("{}", page::tables(&figures))).map_err(Box::from),
        ["--write", directory] => write(Path::new(directory)),
        ["profile", kind, size, calls] => profile(kind, size, calls),
        _ => Err("usage: bench [--write DIRECTORY | profile KIND SIZE CALLS]".into()),
    };
    if let Err(e) = done {
        eprintln!("{e}");
        return ExitCode::FAILURE;
    }
    ExitCode::SUCCESS
}

#[cfg(test)]
mod tests {
    use super::*;
    use reference::generate::{Cases, LONGEST_POSITIONS, LONGEST_WORK};
    use reference::run::Work;

    /// Number, length, every byte of the result and the work area and every entry of the position area, on random
    /// cases of which many are refused.
    #[test]
    fn opponent_answers_as_the_reference() {
        let noise: Vec<u8> = (0..LONGEST_WORK).map(|i| (i * 167 + 13) as u8).collect();
        let entries: Vec<u16> = (0..LONGEST_POSITIONS).map(|i| (i * 167 + 13) as u16).collect();
        let cases = Cases::new(11).take(5_000).chain(Cases::with_totals(11).take(2_000));
        for (i, (c, verdict)) in cases.enumerate() {
            let mut work = noise[..c.work_length].to_vec();
            let mut result = noise[..c.result_length].to_vec();
            let mut positions = entries[..c.positions_length].to_vec();
            let expected = verdict.over(&result, &positions);
            let answer = opponent::run(&c.query, &c.input, &c.joined, &mut work, &mut result, &mut positions);
            let (number, length) = answer.map_or_else(|number| (number, 0), |length| (0, length));
            assert_eq!((number, length), (expected.number.into(), expected.length), "case {i}");
            assert!(result == expected.result, "the result area of case {i}");
            assert!(positions == expected.positions, "the position area of case {i}");
            let kept = work == noise[..c.work_length];
            let zero = work.iter().all(|byte| *byte == 0);
            assert!(if expected.work == Work::Zero { zero } else { kept }, "the work area of case {i}");
        }
    }

    #[test]
    fn engine_and_opponent_agree_on_every_case() {
        for kind in &KINDS {
            for size in kind.sizes() {
                assert!(agree(&kind.case(size)), "{} at {size} bytes", kind.name);
            }
        }
    }

    /// A case's input has the size that it is named by, or its query, or its message. Of one kind it is shorter,
    /// and the kind says why.
    #[test]
    fn cases_have_their_size() {
        for kind in KINDS.iter().filter(|k| k.name != "lookup, unique keys") {
            for size in kind.sizes() {
                let n = match kind.case(size) {
                    Case::Run(c) if kind.name == "check of a query" => c.query.len(),
                    Case::Run(c) => c.input.len(),
                    Case::Message(message) => message.len(),
                };
                assert!((size * 9 / 10..=size).contains(&n), "{} at {size} bytes has {n}", kind.name);
            }
        }
    }
}

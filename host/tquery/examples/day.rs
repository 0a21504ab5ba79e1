//! A day in trays: 3,000 jobs, six to a tray, and two lists of them.
//!
//! The first has a line for each eye of each job whose lens is chosen, with
//! the shelf of the lens. Its query has no group, and the list is many times
//! longer than an array can be. The second has the lenses, with the jobs that
//! are urgent: its query ends in a group, by which each tray's result is
//! folded into the list.
//!
//! From host/: cargo run --example day
//!
//! With a directory behind it (`-- DIRECTORY`) it also writes the day there, as
//! files for the program of host/trays: `query`, `urgent`, `joined`, and `trays`.

use std::error::Error;
use std::path::Path as FilePath;
use tquery::{limits, Array, BuildError, Criterion, Engine, Pair, Path, Query, Trays, Tree};

type Outcome<T> = Result<T, Box<dyn Error>>;

/// The labels: of a job, the first four; of what is in stock, a lens and its shelf.
const JOB: u8 = 1;
const LENS: u8 = 2;
const EYES: u8 = 3;
const URGENT: u8 = 4;
const STOCK: u8 = 5;
const SHELF: u8 = 6;

const LENSES: [&str; 5] = ["progressive 1.6", "progressive 1.5", "bifocal 1.5", "single 1.5", "single 1.74"];

const TRAYS: i64 = 500;
const JOBS: i64 = 6;

fn path(label: u8) -> Result<Path, BuildError> {
    Path::new([label])
}

fn texts(words: &[&str]) -> Result<Array, BuildError> {
    words.iter().map(|word| Tree::text(*word)).collect::<Result<Vec<_>, _>>().map(Array::from)
}

/// A job by its number: every seventh has no lens yet, and every 97th is urgent.
fn job(number: i64) -> Result<Tree, BuildError> {
    let eyes: &[&str] = if number % 4 == 0 { &["left"] } else { &["right", "left"] };
    let mut job = Tree::void().with(JOB, [number])?.with(EYES, texts(eyes)?)?;
    if number % 7 != 0 {
        job = job.with(LENS, texts(&[LENSES[(number % 5) as usize]])?)?;
    }
    if number % 97 == 0 {
        job = job.with(URGENT, [number])?;
    }
    Ok(job)
}

/// The trays, first to last.
fn trays() -> Result<Vec<Array>, BuildError> {
    let tray = |tray| (0..JOBS).map(|place| job(1 + tray * JOBS + place)).collect::<Result<Vec<_>, _>>();
    (0..TRAYS).map(|number| tray(number).map(Array::from)).collect()
}

/// The joined array: what is in stock, all but the last lens.
fn stock() -> Result<Array, BuildError> {
    let shelf = |at: usize| Tree::void().with(LENS, texts(&LENSES[at..=at])?)?.with(SHELF, [at as i64]);
    (0..LENSES.len() - 1).map(shelf).collect::<Result<Vec<_>, _>>().map(Array::from)
}

/// The jobs that have a lens; a tree for each eye; with what is in stock.
fn lines() -> Result<Query, BuildError> {
    Ok(Query::new().matching(Criterion::exists(path(LENS)?)).unwind(path(EYES)?).lookup(
        path(LENS)?,
        path(LENS)?,
        path(STOCK)?,
    ))
}

/// The jobs that have a lens, by lens: of each the urgent ones.
fn urgent() -> Result<Query, BuildError> {
    let jobs = Pair::new(path(URGENT)?, path(JOB)?);
    Ok(Query::new().matching(Criterion::exists(path(LENS)?)).group([jobs], [Pair::same(path(LENS)?)]))
}

/// The day's list by a query.
fn list(query: &Query) -> Outcome<Trays> {
    let mut work = vec![0; limits::WORK];
    let mut engine = Engine::new(&mut work);
    let joined = stock()?.encode()?;
    let mut day = Trays::new(query)?;
    for tray in trays()? {
        day.run(&mut engine, &tray.encode()?, &joined)?;
    }
    Ok(day)
}

/// The day as files of byte forms.
fn write(directory: &FilePath) -> Outcome<()> {
    std::fs::create_dir_all(directory.join("trays"))?;
    std::fs::write(directory.join("query"), lines()?.encode()?)?;
    std::fs::write(directory.join("urgent"), urgent()?.encode()?)?;
    std::fs::write(directory.join("joined"), stock()?.encode()?)?;
    for (number, tray) in trays()?.into_iter().enumerate() {
        std::fs::write(directory.join(format!("trays/{number:04}")), tray.encode()?)?;
    }
    Ok(())
}

fn main() -> Outcome<()> {
    if let Some(directory) = std::env::args_os().nth(1) {
        write(directory.as_ref())?;
    }
    let lines = list(&lines()?)?;
    let (number, size) = (lines.trees()?.len(), lines.arrays().concat().len());
    println!("{} trays, {number} lines in {size} bytes: {} arrays", lines.come(), lines.arrays().len());
    for lens in &list(&urgent()?)?.trees()? {
        println!("{lens}");
    }
    Ok(())
}

#[test]
fn the_list_of_lines_is_that_of_all_jobs_and_passes_an_array() -> Outcome<()> {
    let lines = list(&lines()?)?;
    let eyes = |number: &i64| if number % 4 == 0 { 1 } else { 2 };
    let expected: usize =
        (1..=TRAYS * JOBS).filter(|number| number % 7 != 0).map(|number| eyes(&number)).sum();
    assert_eq!(lines.trees()?.len(), expected);
    assert!(lines.arrays().concat().len() > 20 * limits::ARRAY);
    Ok(())
}

#[test]
fn the_list_of_lenses_has_the_urgent_jobs_in_their_order() -> Outcome<()> {
    let lenses = list(&urgent()?)?;
    assert_eq!(lenses.arrays().len(), 1);
    let mut seen = Vec::new();
    for number in 1..=TRAYS * JOBS {
        let at = number % 5;
        if number % 7 != 0 && !seen.contains(&at) {
            seen.push(at);
        }
    }
    let numbers = |at: i64| (1..=TRAYS * JOBS).filter(move |n| n % 97 == 0 && n % 7 != 0 && n % 5 == at);
    let tree = |at: i64| {
        let jobs: Array = numbers(at).collect();
        Tree::void().with(JOB, jobs)?.with(LENS, texts(&[LENSES[at as usize]])?)
    };
    let expected: Array = seen.into_iter().map(tree).collect::<Result<Vec<_>, _>>()?.into();
    assert_eq!(lenses.trees()?, expected);
    Ok(())
}

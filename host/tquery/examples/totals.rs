//! Edge lengths added per job, by the engine: of each job the eyes whose lenses
//! were cut, and the length of all their edges together, with the position of
//! the first record of the job in front. The same as host/c/totals.c.
//!
//! From host/: cargo run --example totals

use std::error::Error;
use tquery::{limits, Array, BuildError, Engine, Line, Pair, Path, Query, Root};

/// The input, lenses: label 1 has the job, 2 the eye, 3 the lengths of the
/// edges in hundredths of a millimetre, as integers. A text adds nothing.
const LENSES: &str = r#"[
    v{1:["4711"], 2:["right"], 3:[7604, 7606]},
    v{1:["4712"], 2:["left"], 3:[14875]},
    v{1:["4711"], 2:["left"], 3:[15198]},
    v{1:["4713"], 2:["left"], 3:["rimless"]}
]"#;

const JOB: u8 = 1;
const EYES: u8 = 2;
const EDGES: u8 = 3;

/// One tree for each job, with its eyes, and with the sum of its edges.
fn query() -> Result<Query, BuildError> {
    let path = |label: u8| Path::new([label]);
    let aggregates = [Pair::same(path(EYES)?), Pair::total(path(EDGES)?, path(EDGES)?)];
    Ok(Query::new().group(aggregates, [Pair::same(path(JOB)?)]))
}

/// The roots of the trees under a label, of no tree if the label is missing.
fn roots(line: &Line, label: u8) -> impl Iterator<Item = &Root> {
    line.tree.get(label).into_iter().flatten().map(|tree| tree.root())
}

/// The texts at the roots of the trees under a label.
fn texts(line: &Line, label: u8) -> String {
    let texts = roots(line, label).filter_map(|root| match root {
        Root::Text(text) => text.as_str(),
        _ => None,
    });
    texts.collect::<Vec<_>>().join(" ")
}

/// The total in millimetres, or a dash where nothing was placed.
fn length(line: &Line) -> String {
    match roots(line, EDGES).next() {
        Some(Root::Integer(hundredths)) => format!("{}.{:02}", hundredths / 100, hundredths % 100),
        _ => "-".to_string(),
    }
}

fn totals() -> Result<String, Box<dyn Error>> {
    let lenses: Array = LENSES.parse()?;
    let mut work = vec![0; limits::WORK];
    let mut list = String::from("nr  job   eyes         edges in mm\n");
    for line in Engine::new(&mut work).run_lines(&query()?, &lenses, &Array::new())? {
        let (job, eyes) = (texts(&line, JOB), texts(&line, EYES));
        list += &format!("{:>2}  {job:<6}{eyes:<16}{:>8}\n", line.position, length(&line));
    }
    Ok(list)
}

fn main() -> Result<(), Box<dyn Error>> {
    print!("{}", totals()?);
    Ok(())
}

#[test]
fn is_the_list_of_the_example_in_c() -> Result<(), Box<dyn Error>> {
    assert_eq!(totals()?, include_str!("../../c/totals.out"));
    Ok(())
}

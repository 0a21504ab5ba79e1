//! The Tquery paper's diagnostic algorithm (document 000, Listing 2), run by the engine.
//!
//! Fever in the last three days, by a watch's temperatures; then lethargy in
//! the last two, by a phone's sleep logs; at the end both of them, joined, go
//! to the hospital's service. The paper's names become labels, which are
//! numbers here. Each of its two runs of operators is one query: lines 3 to 5
//! and lines 9 to 15. They are printed stage by stage, and then run again
//! whole, which gives the same.
//!
//! Not expressed: lines 1, 2, 8 and 16, which call other services, and line
//! 6, `detectFever`, for which `has_fever` stands in. The paper's Listing 1
//! is a picture; what its examples do not tell of it is made up below.

use std::error::Error;
use tquery::{limits, Array, BuildError, Criterion, Engine, Item, Pair, Path, Query, Root, Tree};

const NAMES: [&str; 18] = [
    "date",
    "t",
    "hr", // the watch's records
    "y",
    "M",
    "m",
    "D",
    "d",
    "L",
    "s",
    "e",
    "q", // the phone's sleep logs
    "year",
    "month",
    "day",
    "quality",
    "patient_id",
    "temperatures", // what is made of them
];

/// The path of names with points between them, as the paper writes it.
fn path(names: &str) -> Result<Path, BuildError> {
    // a name that is not listed becomes label 0, which no path takes
    let label = |name| NAMES.iter().position(|known| *known == name).map_or(0, |at| at as u8 + 1);
    Path::new(names.split('.').map(label).collect::<Vec<u8>>())
}

/// The path gives one tree, this integer.
fn is(names: &str, value: i64) -> Result<Criterion, BuildError> {
    Ok(Criterion::equal(path(names)?, [value]))
}

/// A place of what stands at one path at another.
fn moved(from: &str, to: &str) -> Result<Item, BuildError> {
    Ok(Item::place(path(from)?, path(to)?))
}

/// The patient's pseudo-identifier, which line 1 asks the hospital for.
fn identified() -> Result<Item, BuildError> {
    Ok(Item::place(Array::from([Tree::text("id_xxx")?]), path("patient_id")?))
}

const TEMPERATURE_LINES: [&str; 3] = [
    "line 3, match: date = 20201128 or date = 20201129 or date = 20201130",
    "line 4, group: aggregate t",
    "line 5, project: t, and pseudoID to patient_id",
];

/// Lines 3 to 5: the temperatures of three days.
fn temperatures() -> Result<Query, BuildError> {
    let three_days = is("date", 20201128)?.or(is("date", 20201129)?).or(is("date", 20201130)?);
    Ok(Query::new()
        .matching(three_days)
        .group([Pair::same(path("t")?)], [])
        .project([Item::keep(path("t")?), identified()?]))
}

const SLEEP_LINES: [&str; 7] = [
    "line 9, unwind: M.D.L",
    "line 10, project: y to year, M.m to month, M.D.d to day, M.D.L.q to quality",
    "line 11, match: year = 2020 and month = 11 and (day = 29 or day = 30)",
    "line 12, group: aggregate quality",
    "line 13, project: quality, and pseudoID to patient_id",
    "line 14, lookup: patient_id = patient_id, to temperatures",
    "line 15, project: quality, patient_id, and temperatures.t to temperatures",
];

/// Lines 9 to 15: the quality of sleep of two days, with the temperatures.
fn sleep() -> Result<Query, BuildError> {
    let november = is("year", 2020)?.and(is("month", 11)?);
    let two_days = november.and(is("day", 29)?.or(is("day", 30)?));
    Ok(Query::new()
        .unwind(path("M.D.L")?)
        .project([
            moved("y", "year")?,
            moved("M.m", "month")?,
            moved("M.D.d", "day")?,
            moved("M.D.L.q", "quality")?,
        ])
        .matching(two_days)
        .group([Pair::same(path("quality")?)], [])
        .project([Item::keep(path("quality")?), identified()?])
        .lookup(path("patient_id")?, path("patient_id")?, path("temperatures")?)
        .project([
            Item::keep(path("quality")?),
            Item::keep(path("patient_id")?),
            moved("temperatures.t", "temperatures")?,
        ]))
}

/// What the watch sends: date 1, t 2, hr 3. The first record's t and hr are made up.
const WATCH: &str = "[
    v{1:[20201127], 2:[37], 3:[64]},
    v{1:[20201128], 2:[36], 3:[66]},
    v{1:[20201129], 2:[36], 3:[65]},
    v{1:[20201130], 2:[37], 3:[67]}]";

/// What the phone sends: y 4, M 5, m 6, D 7, d 8, L 9, s 10, e 11, q 12. Day 30's hours are made up.
const PHONE: &str = r#"[
    v{4:[2020], 5:[v{6:[11], 7:[
        v{8:[27], 9:[v{10:["23:33"], 11:["07:04"], 12:["poor"]}]},
        v{8:[28], 9:[v{10:["21:13"], 11:["09:34"], 12:["good"]}]},
        v{8:[29], 9:[v{10:["21:01"], 11:["03:12"], 12:["good"]},
                     v{10:["03:36"], 11:["09:58"], 12:["good"]}]},
        v{8:[30], 9:[v{10:["20:33"], 11:["01:14"], 12:["poor"]},
                     v{10:["01:32"], 11:["06:15"], 12:["good"]}]}]}]}]"#;

/// Stands in for the hospital's service: some temperature of 37 or more.
fn has_fever(temperatures: &Array) -> bool {
    let is_high = |tree: &Tree| matches!(tree.root(), Root::Integer(value) if *value >= 37);
    temperatures.iter().filter_map(|tree| tree.get(2)).any(|array| array.iter().any(is_high))
}

fn print(title: &str, array: &Array) {
    println!("{title}");
    for tree in array {
        println!("    {tree}");
    }
}

/// Prints the trees after each stage, and gives what the query gives whole.
fn show(
    engine: &mut Engine,
    query: &Query,
    lines: &[&str],
    input: &Array,
    joined: &Array,
) -> Result<Array, Box<dyn Error>> {
    let mut array = input.clone();
    for (stage, line) in query.stages().iter().zip(lines) {
        array = engine.run_trees(&Query::new().stage(stage.clone()), &array, joined)?;
        print(line, &array);
    }
    let whole = engine.run_trees(query, input, joined)?;
    println!("the same as one query of {} stages: {}\n", query.stages().len(), whole == array);
    Ok(whole)
}

/// The algorithm; gives what line 16 sends, or nothing without a fever.
fn diagnose() -> Result<Option<Array>, Box<dyn Error>> {
    let mut work = vec![0; limits::WORK];
    let mut engine = Engine::new(&mut work);

    let watch = WATCH.parse()?;
    print("the watch's records", &watch);
    let warmth = show(&mut engine, &temperatures()?, &TEMPERATURE_LINES, &watch, &Array::new())?;
    if !has_fever(&warmth) {
        return Ok(None);
    }
    let phone = PHONE.parse()?;
    print("a fever: the phone's sleep logs", &phone);
    Ok(Some(show(&mut engine, &sleep()?, &SLEEP_LINES, &phone, &warmth)?))
}

fn main() -> Result<(), Box<dyn Error>> {
    let legend: Vec<String> = (1..).zip(NAMES).map(|(label, name)| format!("{label} {name}")).collect();
    println!("labels: {}\n", legend.join(", "));
    match diagnose()? {
        Some(signals) => print("to detectEncephalopathy", &signals),
        None => println!("no fever"),
    }
    Ok(())
}

/// The trees that document 000 prints behind lines 5 and 15.
#[test]
fn gives_the_papers_trees() -> Result<(), Box<dyn Error>> {
    let mut work = vec![0; limits::WORK];
    let mut engine = Engine::new(&mut work);
    let warmth = engine.run_trees(&temperatures()?, &WATCH.parse()?, &Array::new())?;
    assert_eq!(warmth.to_string(), r#"[v{2:[36, 36, 37], 17:["id_xxx"]}]"#);
    let signals = r#"[v{16:["good", "good", "poor", "good"], 17:["id_xxx"], 18:[36, 36, 37]}]"#;
    assert_eq!(diagnose()?, Some(signals.parse()?));
    Ok(())
}

/// The paper's other group: by day, month and year.
#[test]
fn groups_by_day_as_the_paper_does() -> Result<(), Box<dyn Error>> {
    let by_day = Query::from_iter(sleep()?.stages()[..3].iter().cloned()).group(
        [Pair::same(path("quality")?)],
        [Pair::same(path("day")?), Pair::same(path("month")?), Pair::same(path("year")?)],
    );
    let mut work = vec![0; limits::WORK];
    let days = Engine::new(&mut work).run_trees(&by_day, &PHONE.parse()?, &Array::new())?;
    assert_eq!(
        days.to_string(),
        r#"[v{13:[2020], 14:[11], 15:[29], 16:["good", "good"]}, v{13:[2020], 14:[11], 15:[30], 16:["poor", "good"]}]"#
    );
    Ok(())
}

//! `trays join`: one list of the trays' results.

use crate::failure::Failure;
use crate::input::{self, Source};
use std::path::Path;
use tquery::{limits, Engine, Trays};

/// The list that the results in these files make, or those on standard input.
pub fn join(query: &Path, results: &[&Path]) -> Result<Vec<u8>, Failure> {
    let mut day = Trays::of_bytes(&input::query(query)?)?;
    let mut work = vec![0; limits::WORK];
    let mut engine = Engine::new(&mut work);
    if results.is_empty() {
        take_all(&mut day, &mut engine, Source::standard())?;
    }
    for file in results {
        take_all(&mut day, &mut engine, Source::file(file)?)?;
    }
    Ok(day.arrays().concat())
}

/// Takes all results of a source into the list.
fn take_all(day: &mut Trays, engine: &mut Engine, mut source: Source) -> Result<(), Failure> {
    let mut number = 0;
    while let Some(result) = source.array()? {
        number += 1;
        let name = format!("{}, array {number}", source.name);
        day.take(engine, &result).map_err(Failure::of_tray(name))?;
    }
    Ok(())
}

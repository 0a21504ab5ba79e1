//! `trays map`: the query over each tray.

use crate::failure::Failure;
use crate::input::{self, Source, STANDARD};
use std::path::Path;
use tquery::{limits, Engine, TrayCause, Trays};

/// The results of the trays in these files, or of the one on standard input,
/// one behind another.
pub fn map(query: &Path, joined: &Path, trays: &[&Path]) -> Result<Vec<u8>, Failure> {
    let (query, joined) = (input::query(query)?, input::array(joined)?);
    // a query whose results would not join is refused before a day is spent on it
    Trays::of_bytes(&query)?;
    let mut work = vec![0; limits::WORK];
    let mut engine = Engine::new(&mut work);
    let mut results = Vec::new();
    let mut run = |name: String, tray: Vec<u8>| -> Result<(), Failure> {
        let (mut result, mut positions) = (vec![0; limits::ARRAY], vec![0; limits::POSITIONS]);
        let length = engine
            .run(&query, &tray, &joined, &mut result, &mut positions)
            .map_err(|refusal| Failure::Refused(name, TrayCause::Run(refusal)))?;
        results.extend_from_slice(&result[..length]);
        Ok(())
    };
    if trays.is_empty() {
        run(STANDARD.into(), Source::standard().whole(limits::ARRAY)?)?;
    }
    for tray in trays {
        run(tray.display().to_string(), input::array(tray)?)?;
    }
    Ok(results)
}

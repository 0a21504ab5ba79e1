//! The Tquery paper's seven-stage pipeline, lines 9 to 15 of its Listing 2, with the labels, the stages and
//! the records of host/tquery/examples/diagnostic.rs.

use crate::cases::Run;
use crate::forms::*;

const T: u8 = 2;
const Y: u8 = 4;
const M: u8 = 5;
const M_NUMBER: u8 = 6;
const D: u8 = 7;
const D_NUMBER: u8 = 8;
const L: u8 = 9;
const S: u8 = 10;
const E: u8 = 11;
const Q: u8 = 12;
const YEAR: u8 = 13;
const MONTH: u8 = 14;
const DAY: u8 = 15;
const QUALITY: u8 = 16;
const PATIENT_ID: u8 = 17;
const TEMPERATURES: u8 = 18;

/// Of each day of the phone's record the sleep logs: begin, end and quality.
type Logs = &'static [[&'static str; 3]];

const DAYS: [(i64, Logs); 4] = [
    (27, &[["23:33", "07:04", "poor"]]),
    (28, &[["21:13", "09:34", "good"]]),
    (29, &[["21:01", "03:12", "good"], ["03:36", "09:58", "good"]]),
    (30, &[["20:33", "01:14", "poor"], ["01:32", "06:15", "good"]]),
];

fn day((number, logs): &(i64, Logs)) -> Vec<u8> {
    let log = |[s, e, q]: &[&str; 3]| void(&[(S, vec![text(s)]), (E, vec![text(e)]), (Q, vec![text(q)])]);
    void(&[(D_NUMBER, vec![integer(*number)]), (L, logs.iter().map(log).collect())])
}

/// The phone's record: a year, in it a month, in it the first so many of the days.
fn record(days: usize) -> Vec<u8> {
    let days = DAYS[..days].iter().map(day).collect();
    void(&[(Y, vec![integer(2020)]), (M, vec![void(&[(M_NUMBER, vec![integer(11)]), (D, days)])])])
}

/// The paper's record again and again, and of one more as many days as fit: about n bytes.
fn records(n: usize) -> Vec<u8> {
    let whole = record(DAYS.len());
    let mut trees = vec![whole.clone(); (n - 3) / whole.len()];
    let left = (n - 3) % whole.len();
    trees.extend((1..DAYS.len()).rev().map(record).find(|t| t.len() <= left));
    array(&trees)
}

fn patient() -> Vec<u8> {
    text("id_xxx")
}

fn stages() -> [Vec<u8>; 7] {
    let is = |k, x| equal(&[k], &[integer(x)]);
    let two_days = both(both(is(YEAR, 2020), is(MONTH, 11)), either(is(DAY, 29), is(DAY, 30)));
    [
        unwind(&[M, D, L]),
        project(&[
            place(from(&[Y]), &[YEAR]),
            place(from(&[M, M_NUMBER]), &[MONTH]),
            place(from(&[M, D, D_NUMBER]), &[DAY]),
            place(from(&[M, D, L, Q]), &[QUALITY]),
        ]),
        matching(two_days),
        group(&[(&[QUALITY], &[QUALITY])], &[]),
        project(&[keep(&[QUALITY]), place(literal(&[patient()]), &[PATIENT_ID])]),
        lookup(&[PATIENT_ID], &[PATIENT_ID], &[TEMPERATURES]),
        project(&[keep(&[QUALITY]), keep(&[PATIENT_ID]), place(from(&[TEMPERATURES, T]), &[TEMPERATURES])]),
    ]
}

/// The pipeline over records of about n bytes. Of each record's six logs four are of the two days, as in the
/// paper.
pub fn pipeline(n: usize) -> Run {
    let warmth = void(&[(T, vec![integer(36), integer(36), integer(37)]), (PATIENT_ID, vec![patient()])]);
    Run { query: query(&stages()), input: records(n), joined: array(&[warmth]) }
}

#[cfg(test)]
mod tests {
    use super::*;
    use crate::areas::Areas;
    use tquery::{Array, Engine};

    /// What the first so many stages give of one record, in document 01's notation.
    fn after(stages_done: usize) -> String {
        let c = pipeline(record(DAYS.len()).len() + 3);
        let query = query(&stages()[..stages_done]);
        let Areas { mut work, mut result, mut positions } = Areas::full_of(0);
        let length = Engine::new(&mut work).run(&query, &c.input, &c.joined, &mut result, &mut positions);
        let array = length.map(|n| Array::decode(&result[..n]).map(|array| array.to_string()));
        array.expect("the run is accepted").expect("the result is an array")
    }

    /// One tree for each log; and the tree that the paper prints behind line 15.
    #[test]
    fn gives_the_papers_trees() {
        let log = |day, quality| format!("v{{13:[2020], 14:[11], 15:[{day}], 16:[\"{quality}\"]}}");
        let logs = [(27, "poor"), (28, "good"), (29, "good"), (29, "good"), (30, "poor"), (30, "good")];
        assert_eq!(after(2), format!("[{}]", logs.map(|(day, quality)| log(day, quality)).join(", ")));
        let last = r#"[v{16:["good", "good", "poor", "good"], 17:["id_xxx"], 18:[36, 36, 37]}]"#;
        assert_eq!(after(7), last);
    }
}

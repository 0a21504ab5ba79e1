//! `check [N] [SEED]`: the engine beside the reference on N random cases.
//!
//! Three of five are runs, a fifth of them with totals, one is a regrouping and
//! one a tracer's message. Compared are the number, the length, every byte of
//! the result area, every entry of the position area, the work area, the areas
//! that are only read, guards around all areas, and of runs and regroupings the
//! two calls that only check.
//! Ends with a table of how many cases of each number agreed, or with status 1
//! and the first case that differs.

mod area;
mod engine;
mod lent;
mod trial;

use engine::Call;
use lent::Lent;
use std::process::ExitCode;
use std::time::{Duration, Instant, SystemTime, UNIX_EPOCH};
use trial::{trials, Trial};

const DEFAULT_CASES: u64 = 1_000_000;
const BETWEEN_REPORTS: Duration = Duration::from_secs(5);

fn main() -> ExitCode {
    let arguments: Option<Vec<u64>> = std::env::args().skip(1).map(|word| word.parse().ok()).collect();
    match arguments.as_deref() {
        Some([]) => compare(DEFAULT_CASES, seed_of_now()),
        Some([number]) => compare(*number, seed_of_now()),
        Some([number, seed]) => compare(*number, *seed),
        _ => {
            eprintln!("usage: check [N] [SEED]");
            ExitCode::from(2)
        }
    }
}

/// A seed that no run before had.
fn seed_of_now() -> u64 {
    SystemTime::now().duration_since(UNIX_EPOCH).map_or(0, |since| since.as_micros() as u64)
}

/// The numbers of the table, 0 among them.
const NUMBERS: usize = 14;

/// How many cases of each number have agreed, by call, and since when.
struct Progress {
    runs: [u64; NUMBERS],
    regroups: [u64; NUMBERS],
    messages: [u64; NUMBERS],
    begun: Instant,
    reported: Instant,
}

impl Progress {
    fn new() -> Progress {
        let none = [0; NUMBERS];
        let now = Instant::now();
        Progress { runs: none, regroups: none, messages: none, begun: now, reported: now }
    }

    fn cases(&self) -> u64 {
        self.runs.iter().chain(&self.regroups).chain(&self.messages).sum()
    }

    fn count(&mut self, trial: &Trial, of: u64) {
        let agreed = match trial.call {
            Call::Run => &mut self.runs,
            Call::Regroup => &mut self.regroups,
            Call::Tracer => &mut self.messages,
        };
        agreed[usize::from(trial.verdict.number())] += 1;
        if self.reported.elapsed() >= BETWEEN_REPORTS {
            self.reported = Instant::now();
            eprintln!("{} of {of} cases, {} a second", self.cases(), self.rate());
        }
    }

    fn rate(&self) -> u64 {
        (self.cases() as f64 / self.begun.elapsed().as_secs_f64()) as u64
    }

    fn print(&self) {
        println!("number  runs that agree  regroupings that agree  messages that agree");
        let calls = [self.runs, self.regroups, self.messages];
        let line = |name: &str, [runs, regroups, messages]: [u64; 3]| {
            println!("{name:>6}  {runs:>15}  {regroups:>22}  {messages:>19}");
        };
        (0..NUMBERS).for_each(|number| line(&number.to_string(), calls.map(|agreed| agreed[number])));
        line("all", calls.map(|agreed| agreed.iter().sum()));
        eprintln!("{} cases a second", self.rate());
    }
}

fn compare(number: u64, seed: u64) -> ExitCode {
    println!("{number} cases from seed {seed}");
    let mut lent = Lent::new(seed);
    let mut progress = Progress::new();
    let mut trials = trials(seed);
    for _ in 0..number {
        let trial = trials.next().expect("trials have no end");
        if let Some(difference) = lent.difference(&trial) {
            progress.print();
            print_trial(&trial, &difference, lent.result());
            return ExitCode::FAILURE;
        }
        progress.count(&trial, number);
    }
    progress.print();
    ExitCode::SUCCESS
}

fn print_trial(trial: &Trial, difference: &str, result: &[u8]) {
    println!("DIFFERS, {:?}: {difference}", trial.call);
    for (name, bytes) in trial.call.names().iter().zip(&trial.read) {
        println!("{name} {}", hexadecimal(bytes));
    }
    let Trial { work_length, result_length, positions_length, verdict, .. } = trial;
    println!("work length {work_length}, result length {result_length}, entries {positions_length}");
    println!("by the reference: number {}, result {}", verdict.number(), hexadecimal(verdict.bytes()));
    println!("positions {:?}", verdict.positions());
    println!("the engine's result area {}", hexadecimal(result));
}

fn hexadecimal(bytes: &[u8]) -> String {
    bytes.iter().map(|byte| format!("{byte:02x}")).collect()
}

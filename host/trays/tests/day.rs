//! A day of 3,000 trays under GNU parallel, by the line that README shows,
//! beside one process, other bracketings, and the reference on the whole day.

use reference::bytes::{decode_array, encode_array, encode_query};
use reference::stages::{staged, Criterion, Pair, Stage};
use reference::tree::Tree;
use std::fs::{self, File};
use std::io::{self, Write};
use std::path::{Path, PathBuf};
use std::process::{Command, Output};
use std::thread::{self, JoinHandle};
use std::time::Duration;
use tquery::{limits, Engine, Trays};

const TRAYS: usize = 3_000;
const RECORDS: usize = 3;

/// The labels of a record: its number, its lens, its eyes, and the number
/// again where it is urgent.
const NUMBER: u8 = 1;
const LENS: u8 = 2;
const EYES: u8 = 3;
const URGENT: u8 = 4;
const STOCK: u8 = 5;

/// A day: its trays and its joined array, which are the same in every test.
struct Day {
    trays: Vec<Vec<Tree>>,
    joined: Vec<Tree>,
}

impl Day {
    fn new() -> Day {
        let tray = |tray| (0..RECORDS).map(|place| record(tray * RECORDS + place)).collect();
        let shelf = |lens: u8| Tree::void().with(LENS, vec![lens_of(lens)]);
        Day { trays: (0..TRAYS).map(tray).collect(), joined: (0..6).map(shelf).collect() }
    }

    /// What the stages give of the whole day, whose lists have no limit.
    fn whole(&self, stages: &[Stage]) -> Vec<Tree> {
        let over = |trees: Vec<Tree>, stage| staged(stage, &trees, &self.joined).expect("small trees");
        stages.iter().fold(self.trays.concat(), over)
    }

    /// The list by one process, tray after tray.
    fn list(&self, query: &[u8]) -> Vec<u8> {
        let mut work = vec![0; limits::WORK];
        let mut engine = Engine::new(&mut work);
        let mut list = Trays::of_bytes(query).expect("a query for trays");
        let joined = bytes(&self.joined);
        for tray in &self.trays {
            list.run(&mut engine, &bytes(tray), &joined).expect("small trays");
        }
        list.arrays().concat()
    }

    /// The day's files in a directory: a query, the joined array, the trays.
    fn write(&self, name: &str, query: &[u8]) -> PathBuf {
        let room = PathBuf::from(env!("CARGO_TARGET_TMPDIR")).join(name);
        // what an earlier run left would be a part of the day
        let _ = fs::remove_dir_all(&room);
        fs::create_dir_all(room.join("trays")).expect("a directory");
        fs::write(room.join("query"), query).expect("a file");
        fs::write(room.join("joined"), bytes(&self.joined)).expect("a file");
        for (number, tray) in self.trays.iter().enumerate() {
            fs::write(room.join(format!("trays/{number:04}")), bytes(tray)).expect("a file");
        }
        room
    }
}

/// A record by its number: some have no lens, some one eye, few are urgent.
fn record(number: usize) -> Tree {
    let value = || vec![Tree::integer(number as i64)];
    let eyes = [Tree::text(b"right"), Tree::text(b"left")];
    let mut record = Tree::void().with(NUMBER, value()).with(EYES, eyes[number % 4 / 3..].to_vec());
    if number % 7 != 3 {
        record = record.with(LENS, vec![lens_of((number % 23 % 8) as u8)]);
    }
    if number % 89 == 17 {
        record = record.with(URGENT, value());
    }
    record
}

fn lens_of(lens: u8) -> Tree {
    Tree::text(&[b'a' + lens; 9])
}

fn bytes(trees: &[Tree]) -> Vec<u8> {
    encode_array(trees).expect("few trees")
}

fn query(stages: &[Stage]) -> Vec<u8> {
    encode_query(stages).expect("few stages")
}

/// A line for each eye, with what is in stock.
fn lines() -> Vec<Stage> {
    let (lens, stock) = (vec![LENS], vec![STOCK]);
    vec![Stage::Unwind(vec![EYES]), Stage::Lookup { q: lens.clone(), r: lens, p: stock }]
}

/// By lens, the records that are urgent; those without a lens too.
fn lenses() -> Vec<Stage> {
    let pair = |from, to| Pair::new(&[from], &[to]);
    let grouped = Stage::Group { aggregates: vec![pair(URGENT, NUMBER)], grouping: vec![pair(LENS, LENS)] };
    vec![Stage::Match(Criterion::Exists(vec![NUMBER])), grouped]
}

/// README's line for a day on one machine.
fn line() -> &'static str {
    let readme = include_str!("../../../README.md");
    let shown = |line: &&str| line.contains("| parallel ") && !line.contains("--sshloginfile");
    readme.lines().find(shown).expect("README shows the line").trim()
}

/// The same with other brackets: lists of 77 trays each, and the list of these.
const BRACKETED: &str = "printf '%s\\n' trays/* | parallel -k -n 77 --halt soon,fail=1 \
    'trays map query joined {} >part{#} && trays join query part{#}' | trays join query >list";

/// A line in a directory; the list is then in the file `list`.
fn under_parallel(room: &Path, line: &str) -> Output {
    let programs = Path::new(env!("CARGO_BIN_EXE_trays")).parent().expect("a directory");
    let path = format!("{}:{}", programs.display(), std::env::var("PATH").unwrap_or_default());
    let mut shell = Command::new("bash");
    let shell = shell.current_dir(room).env("PATH", path).env("PARALLEL", "--will-cite");
    shell.args(["-o", "pipefail", "-c", line]).output().expect("a shell")
}

/// Arrays that stand one behind another, each by its bytes.
fn arrays(mut list: &[u8]) -> Vec<&[u8]> {
    let mut all = Vec::new();
    while let [_, high, low, ..] = list {
        let (array, rest) = list.split_at(3 + usize::from(u16::from_be_bytes([*high, *low])));
        all.push(array);
        list = rest;
    }
    all
}

/// The trees of arrays that stand one behind another.
fn trees(list: &[u8]) -> Vec<Tree> {
    arrays(list).into_iter().flat_map(|array| decode_array(array).expect("an array")).collect()
}

/// The list that a line makes of a day, which goes well and says nothing.
fn list(room: &Path, line: &str) -> Vec<u8> {
    let output = under_parallel(room, line);
    assert_eq!((output.status.code(), String::from_utf8_lossy(&output.stderr)), (Some(0), "".into()));
    fs::read(room.join("list")).expect("the list")
}

/// A day under parallel beside the other ways to its list. Gives the list.
fn compared(name: &str, stages: &[Stage]) -> Vec<u8> {
    let day = Day::new();
    let room = day.write(name, &query(stages));
    let [list, of_lists] = [line(), BRACKETED].map(|line| list(&room, line));
    assert_eq!(list, of_lists, "the list of lists");
    assert_eq!(list, day.list(&query(stages)), "the list of one process");
    assert_eq!(trees(&list), day.whole(stages), "what the stages give of the whole day");
    list
}

#[test]
fn a_day_without_a_group() {
    let list = compared("lines", &lines());
    assert!(list.len() > 20 * limits::ARRAY);
}

#[test]
fn a_grouped_day() {
    let list = compared("lenses", &lenses());
    assert!(list.len() < limits::ARRAY && trees(&list).len() == 9);
}

/// Lists of parts of the day, of many lengths, and the list of these.
#[test]
fn other_bracketings_give_the_same_list() {
    for stages in [lines(), lenses()] {
        let (day, query) = (Day::new(), query(&stages));
        let mut work = vec![0; limits::WORK];
        let mut engine = Engine::new(&mut work);
        let mut outer = Trays::of_bytes(&query).expect("a query for trays");
        let mut left = &day.trays[..];
        for each in (1..).map(|at| at * 37 % 150 + 1) {
            let (part, rest) = left.split_at(each.min(left.len()));
            let part = Day { trays: part.to_vec(), joined: day.joined.clone() }.list(&query);
            for array in arrays(&part) {
                outer.take(&mut engine, array).expect("a list of a part");
            }
            left = rest;
            if left.is_empty() {
                break;
            }
        }
        assert_eq!(outer.arrays().concat(), day.list(&query));
    }
}

/// A tray whose bytes come late: through a pipe, half a second after its process opens it.
fn delay(tray: PathBuf) -> JoinHandle<io::Result<()>> {
    let bytes = fs::read(&tray).expect("a tray");
    fs::remove_file(&tray).expect("a tray");
    assert!(Command::new("mkfifo").arg(&tray).status().expect("mkfifo").success());
    thread::spawn(move || {
        let mut pipe = File::options().write(true).open(tray)?;
        thread::sleep(Duration::from_millis(500));
        pipe.write_all(&bytes)
    })
}

/// A tray that is refused ends the line with its number, and the words say which: also while the process of the trays
/// before it still runs, which is not disturbed.
#[test]
fn a_refused_tray_ends_the_day() {
    let room = Day::new().write("refused", &query(&lenses()));
    let (last_of_a_process, first_of_the_next) = ("trays/1199", "trays/1200");
    let delayed = delay(room.join(last_of_a_process));
    fs::write(room.join(first_of_the_next), [1, 0, 1]).expect("a file");
    let output = under_parallel(&room, line());
    let said = String::from_utf8(output.stderr).expect("words");
    assert!(said.contains(&format!("trays: {first_of_the_next}: refused 5: input malformed")), "{said}");
    assert_eq!(output.status.code(), Some(5));
    delayed.join().expect("a thread").expect("the tray that came late was read");
}

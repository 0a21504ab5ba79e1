//! The two commands alone: what they read, what they write, and their statuses.

use std::fs::{self, File};
use std::io::Write;
use std::path::PathBuf;
use std::process::{Command, Stdio};
use tquery::{limits, Array, Item, Pair, Path, Query, Tree};

fn array(text: &str) -> Vec<u8> {
    text.parse::<Array>().expect("a notation").encode().expect("an array")
}

fn path(text: &str) -> Path {
    text.parse().expect("a path")
}

fn pair(source: &str, destination: &str) -> Pair {
    Pair::new(path(source), path(destination))
}

/// A directory of one test's files.
struct Room(PathBuf);

impl Room {
    fn new(name: &str) -> Room {
        let room = PathBuf::from(env!("CARGO_TARGET_TMPDIR")).join(name);
        fs::create_dir_all(&room).expect("a directory");
        let room = Room(room);
        room.put("none", &array("[]"));
        room.query("unwind", Query::new().unwind(path("2")));
        room.query("group", Query::new().group([pair("2", "1")], [pair("1", "2")]));
        room
    }

    fn put(&self, name: &str, bytes: &[u8]) {
        fs::write(self.0.join(name), bytes).expect("a file");
    }

    fn query(&self, name: &str, query: Query) {
        self.put(name, &query.encode().expect("a query"));
    }

    /// The status, what was written, and the words, of a command over an input.
    fn trays(&self, words: &str, input: &[u8]) -> (i32, Vec<u8>, String) {
        let mut command = Command::new(env!("CARGO_BIN_EXE_trays"));
        let command = command.current_dir(&self.0).args(words.split_whitespace());
        let piped = command.stdin(Stdio::piped()).stdout(Stdio::piped()).stderr(Stdio::piped());
        let mut process = piped.spawn().expect("the program starts");
        // a process that fails early may not read it
        let _ = process.stdin.take().expect("a pipe").write_all(input);
        let output = process.wait_with_output().expect("the program ends");
        let said = String::from_utf8(output.stderr).expect("words");
        (output.status.code().expect("a status"), output.stdout, said)
    }

    fn gives(&self, words: &str, input: &[u8], expected: &[u8]) {
        assert_eq!(self.trays(words, input), (0, expected.to_vec(), String::new()), "{words}");
    }

    /// The command fails with a status and words, and writes nothing.
    fn fails(&self, words: &str, input: &[u8], status: i32, said: &str) {
        assert_eq!(self.trays(words, input), (status, vec![], format!("trays: {said}\n")), "{words}");
    }
}

#[test]
fn a_tray_from_a_file_or_from_standard_input() {
    let room = Room::new("tray");
    let (tray, result) = (array("[v{1:[7], 2:[5, 6]}]"), array("[v{1:[7], 2:[5]}, v{1:[7], 2:[6]}]"));
    room.put("tray", &tray);
    room.gives("map unwind none tray", &[], &result);
    room.gives("map unwind none", &tray, &result);
    room.gives("map unwind none tray none tray", &[], &[&result[..], &array("[]"), &result].concat());
}

#[test]
fn results_make_the_list() {
    let room = Room::new("results");
    let (one, other) = (array("[v{1:[3], 2:[7]}]"), array("[v{1:[4], 2:[8]}, v{1:[5], 2:[7]}]"));
    let appended = array("[v{1:[3], 2:[7]}, v{1:[4], 2:[8]}, v{1:[5], 2:[7]}]");
    let grouped = array("[v{1:[3, 5], 2:[7]}, v{1:[4], 2:[8]}]");
    room.put("one", &one);
    room.put("two", &[&array("[]")[..], &other, &array("[]")].concat());
    for (query, list) in [("unwind", appended), ("group", grouped)] {
        room.gives(&format!("join {query}"), &[&one[..], &other].concat(), &list);
        room.gives(&format!("join {query} one two"), &[], &list);
        room.gives(&format!("join {query}"), &list, &list);
        room.gives(&format!("join {query}"), &[], &array("[]"));
    }
}

#[test]
fn a_long_list_is_several_arrays() {
    let room = Room::new("long");
    let voids = |count| Array::from(vec![Tree::void(); count]).encode().expect("an array");
    let (many, few) = (voids(2_000), voids(730));
    room.gives("join unwind", &[&many[..], &many].concat(), &[voids(2_730), voids(1_270)].concat());
    room.gives("join unwind", &[&many[..], &few].concat(), &voids(2_730));
}

#[test]
fn refusals_are_the_status() {
    let room = Room::new("refusals");
    let big = Array::from([Tree::void().with(1, vec![Tree::void(); 320]).expect("a tree")]);
    let keyed = Array::from([Tree::void().with(1, vec![Tree::void(); 330]).expect("a tree")]);
    let full = Array::from(vec![Tree::void(); 2_730]).encode().expect("an array");
    let big = big.encode().expect("an array");
    room.put("long", &[1; limits::ARRAY + 100]);
    room.put("bad", &[1, 0, 1]);
    room.put("long-query", &[16; limits::QUERY + 1]);
    room.query("twice", Query::new().project([Item::keep(path("1")), Item::place(path("1"), path("2"))]));
    room.query("by", Query::new().group([pair("1", "1")], []));
    room.put("keyed", &keyed.encode().expect("an array"));
    room.fails("map long-query none", &[], 2, "the query: refused 2: query over 4,096 bytes");
    room.fails("map bad none", &[], 3, "the query: refused 3: query malformed");
    room.fails("map group none none long", &[], 4, "long: refused 4: input over 16,384 bytes");
    let words = "standard input: refused 5: input malformed, tree limits included";
    room.fails("map group none", &[1, 0], 5, words);
    room.fails("map group long none", &[], 6, "none: refused 6: joined array over 16,384 bytes");
    room.fails("map group bad none", &[], 7, "none: refused 7: joined array malformed, tree limits included");
    room.fails("map twice none", &big, 8, "standard input: refused 8: tree too large in a stretch");
    let words = "keyed: refused 10: final array over 16,384 bytes or over the result area";
    room.query("copies", Query::new().unwind(path("1")).lookup(path("9"), path("9"), path("2")));
    room.put("hundred", &Array::from(vec![Tree::void(); 100]).encode().expect("an array"));
    room.fails("map copies hundred keyed", &[], 10, words);
    room.fails("join bad", &[], 3, "the query: refused 3: query malformed");
    let words = "standard input, array 2: refused 4: result over 16,384 bytes";
    room.fails("join group", &[&big[..], &[1, 0xff, 0xff], &[0; 0xffff]].concat(), 4, words);
    let words = "standard input, array 1: refused 5: result malformed, tree limits included";
    room.fails("join unwind", &[1, 0, 1, 9], 5, words);
    let words = "standard input, array 2: refused 8: tree too large in the regrouping";
    room.fails("join by", &[&big[..], &big].concat(), 8, words);
    let words = "standard input, array 2: refused 9: the list so far and the result joined over 16,384 bytes";
    room.fails("join group", &[&big[..], &full].concat(), 9, words);
}

#[test]
fn other_failures_have_statuses_above_the_numbers() {
    let room = Room::new("failures");
    let usage = "map QUERY JOINED [TRAY]... or join QUERY [RESULTS]...; --help says more";
    for words in ["", "map", "map group", "join", "fold group"] {
        room.fails(words, &[], 64, usage);
    }
    room.query("inside", Query::new().group([], []).unwind(path("1")));
    let words = "the query: stage 1 is a group and not the last stage; for trays only the last may be one";
    room.fails("map inside none none", &[], 65, words);
    room.fails("join inside", &[], 65, words);
    let total = Pair::total(path("1"), path("1"));
    room.query("total", Query::new().unwind(path("2")).group([pair("2", "2"), total], []));
    let words = "the query: aggregate 2 of the last group is a total; for trays none may be one";
    room.fails("map total none none", &[], 65, words);
    room.fails("join total", &[], 65, words);
    for words in ["map missing none", "map group missing", "map group none missing", "join group missing"] {
        room.fails(words, &[], 66, "missing: No such file or directory (os error 2)");
    }
    let loose = |at| format!("standard input: from byte {at} on no whole array stands there");
    for (bytes, at) in [(&[1][..], 0), (&[1, 0, 0, 2, 0, 0], 3), (&[1, 0, 2, 0], 0), (b"\x01\0\0\n", 3)] {
        room.fails("join group", bytes, 67, &loose(at));
    }
}

#[test]
fn a_list_that_cannot_be_written_is_a_failure() {
    let room = Room::new("full");
    let mut command = Command::new(env!("CARGO_BIN_EXE_trays"));
    let full = File::create("/dev/full").expect("the full device");
    let output = command.current_dir(&room.0).args(["join", "group", "none"]).stdout(full).output();
    assert_eq!(output.expect("the program ends").status.code(), Some(68));
}

#[test]
fn help_names_every_status() {
    let (status, said, _) = Room::new("help").trays("--help", &[]);
    let said = String::from_utf8(said).expect("words");
    assert_eq!(status, 0);
    for status in ["0  ", "1..10", "64", "65", "66", "67", "68"] {
        assert!(said.lines().any(|line| line.trim_start().starts_with(status)), "{status}");
    }
}

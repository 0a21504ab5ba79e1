//! A worklist of what tracers sent, by the engine: of the jobs whose frame has
//! a diameter, the widths and diameters in millimetres, with the blank that is
//! set aside for the job and, in front, the position of its first message. The
//! same as host/c/tracer.c.
//!
//! From host/: cargo run --example tracer

use std::error::Error;
use tquery::{
    limits, Array, BuildError, Criterion, Engine, Line, Name, Pair, Path, Query, Root, Traced, Tree,
};

/// What tracers sent, a message each. The eyes of job 4711 were traced one by
/// one; job 4712 has no diameter. Lines of other names are skipped.
const MESSAGES: [&str; 4] = [
    "JOB=4711\r\nSTATUS=0\r\nDO=R\r\nDBL=18\r\nHBOX=52.4\r\nVBOX=30.1\r\nFED=55.5\r\n",
    "JOB=4712\r\nSTATUS=0\r\nDO=B\r\nDBL=16.25\r\nHBOX=50;50.1\r\n",
    "JOB=4711\r\nSTATUS=0\r\nDO=L\r\nHBOX=52.45\r\nVBOX=30\r\nFED=55.75\r\n",
    "STATUS=0\r\nFED=;51.2\r\nHBOX=;48.05\r\nDBL=17.5\r\nDO=L\r\nJOB=4713\r\n",
];

/// The joined array, blanks that are set aside: label 1 has the job, 2 the shelf.
const BLANKS: &str = r#"[v{1:["4711"], 2:["A3"]}, v{1:["4712"], 2:["B1"]}]"#;

const SHELF: u8 = 2;
/// Where the lookup places the blank of a job: no name has this label.
const BLANK: u8 = 8;

/// The path to the values of a name.
fn path(name: Name) -> Result<Path, BuildError> {
    Path::new([name.label()])
}

/// The messages with a diameter; one tree for each job, with all that was
/// traced of it; and under 8 what is set aside for it.
fn query() -> Result<Query, BuildError> {
    let (job, diameter) = (path(Name::Job)?, path(Name::Fed)?);
    let sizes = [path(Name::Dbl)?, path(Name::Hbox)?, diameter.clone()];
    Ok(Query::new()
        .matching(Criterion::exists(diameter))
        .group(sizes.map(Pair::same), [Pair::same(job.clone())])
        .lookup(job.clone(), job, Path::new([BLANK])?))
}

/// The trees of all messages, in one array.
fn traces() -> Result<Array, tquery::Error> {
    let trees = MESSAGES.iter().map(|message| Traced::read(message.as_bytes()).map(Traced::into_tree));
    trees.collect::<Result<Vec<Tree>, _>>().map(Array::from)
}

/// The text at the root of the first tree along a path of labels, or a dash.
fn text<'t>(tree: &'t Tree, path: &[u8]) -> &'t str {
    let first = |tree: &'t Tree, label: &u8| tree.get(*label)?.first();
    match path.iter().try_fold(tree, first).map(Tree::root) {
        Some(Root::Text(text)) => text.as_str().unwrap_or("-"),
        _ => "-",
    }
}

/// A value in millimetres, or a dash where it is no number.
fn millimetres(tree: &Tree) -> String {
    match tree.root() {
        Root::Integer(hundredths) => {
            let sign = if *hundredths < 0 { "-" } else { "" };
            let hundredths = hundredths.unsigned_abs();
            format!("{sign}{}.{:02}", hundredths / 100, hundredths % 100)
        }
        _ => "-".to_string(),
    }
}

/// The values of a name, each in millimetres.
fn sizes(line: &Line, name: Name) -> String {
    let values = line.tree.get(name.label()).into_iter().flatten();
    values.map(|tree| format!("{:>7}", millimetres(tree))).collect()
}

fn worklist() -> Result<String, Box<dyn Error>> {
    let (traces, blanks) = (traces()?, BLANKS.parse()?);
    let mut work = vec![0; limits::WORK];
    let mut list = String::from("nr  job   blank     dbl         width      diameter in mm\n");
    for line in Engine::new(&mut work).run_lines(&query()?, &traces, &blanks)? {
        let job = text(&line.tree, &[Name::Job.label()]);
        let shelf = text(&line.tree, &[BLANK, SHELF]);
        let [dbl, width, diameter] = [Name::Dbl, Name::Hbox, Name::Fed].map(|name| sizes(&line, name));
        list += &format!("{:>2}  {job:<6}{shelf:<6}{dbl:<7}{width:<14}{diameter}\n", line.position);
    }
    Ok(list)
}

fn main() -> Result<(), Box<dyn Error>> {
    print!("{}", worklist()?);
    Ok(())
}

#[test]
fn is_the_worklist_of_the_example_in_c() -> Result<(), Box<dyn Error>> {
    assert_eq!(worklist()?, include_str!("../../c/tracer.out"));
    Ok(())
}

/// Each message is read by its names too.
#[test]
fn messages_say_their_jobs() -> Result<(), Box<dyn Error>> {
    for (message, job) in MESSAGES.iter().zip(["4711", "4712", "4711", "4713"]) {
        let traced = Traced::read(message.as_bytes())?;
        assert_eq!(traced.job().and_then(|values| values.first.as_str()), Some(job));
    }
    Ok(())
}

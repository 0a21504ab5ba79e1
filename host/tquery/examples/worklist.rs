//! A worklist, by the engine: of some jobs those whose lens is chosen, a line
//! for each eye, with the shelf that the lens lies on and, in front, the
//! position of the job that it stems from. The same as host/c/worklist.c, over
//! areas that are set aside once.
//!
//! From host/: cargo run --example worklist

use std::error::Error;
use tquery::{limits, Array, Criterion, Engine, Path, Query, Root, Tree};

/// The input, jobs: label 1 has the number, 2 the lens, 3 the eyes.
const JOBS: &str = r#"[
    v{1:["4711"], 2:["progressive 1.6"], 3:["right", "left"]},
    v{1:["4712"], 3:["left"]},
    v{1:["4713"], 2:["bifocal 1.5"], 3:["left"]}
]"#;

/// The joined array, what is in stock: label 1 has the lens, 2 its shelf.
const STOCK: &str = r#"[v{1:["progressive 1.6"], 2:["A3"]}]"#;

/// The jobs that have a lens; a tree for each eye; under 4 what is in stock of
/// the lens.
fn query() -> Result<Query, Box<dyn Error>> {
    let lens = Path::new([2])?;
    Ok(Query::new().matching(Criterion::exists(lens.clone())).unwind(Path::new([3])?).lookup(
        lens,
        Path::new([1])?,
        Path::new([4])?,
    ))
}

/// The lines, and where each came from.
fn run() -> Result<(Array, Vec<u16>), Box<dyn Error>> {
    let query = query()?.encode()?;
    let jobs = JOBS.parse::<Array>()?.encode()?;
    let stock = STOCK.parse::<Array>()?.encode()?;

    let (mut work, mut result) = (vec![0; limits::WORK], vec![0; limits::ARRAY]);
    let mut positions = vec![0; limits::POSITIONS];
    let length = Engine::new(&mut work).run(&query, &jobs, &stock, &mut result, &mut positions)?;
    Ok((Array::decode(&result[..length])?, positions))
}

/// The text at the root of the first tree along a path of labels, or a dash.
fn text<'t>(tree: &'t Tree, path: &[u8]) -> &'t str {
    let first = |tree: &'t Tree, label: &u8| tree.get(*label)?.first();
    match path.iter().try_fold(tree, first).map(Tree::root) {
        Some(Root::Text(text)) => text.as_str().unwrap_or("-"),
        _ => "-",
    }
}

fn worklist() -> Result<String, Box<dyn Error>> {
    let mut lines = String::from("nr  job   lens             eye    shelf\n");
    let (trees, positions) = run()?;
    for (tree, position) in trees.iter().zip(positions) {
        let [job, lens, eye, shelf] = [&[1][..], &[2], &[3], &[4, 2]].map(|path| text(tree, path));
        lines += &format!("{position:>2}  {job:<6}{lens:<17}{eye:<7}{shelf}\n");
    }
    Ok(lines)
}

fn main() -> Result<(), Box<dyn Error>> {
    print!("{}", worklist()?);
    Ok(())
}

#[test]
fn is_the_worklist_of_the_example_in_c() -> Result<(), Box<dyn Error>> {
    assert_eq!(worklist()?, include_str!("../../c/worklist.out"));
    Ok(())
}

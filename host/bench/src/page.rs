//! The tables, and their place in a page.

use crate::cases::{KINDS, SIZES};
use crate::measure::Measured;
use crate::Figures;

const BEGIN: &str = "<!-- tables: written by `bench --write` -->";
const END: &str = "<!-- end of tables -->";

/// One row for each kind, and in it one cell for each size from `skip` on, or a dash.
fn table(kinds: &[Vec<Measured>], skip: usize, cell: impl Fn(&Measured) -> String) -> String {
    let sizes: Vec<String> = SIZES[skip..].iter().map(|n| format!("{} KB", n / 1024)).collect();
    let mut out = format!("| Case | {} |\n|---|{}\n", sizes.join(" | "), "---:|".repeat(sizes.len()));
    for (kind, row) in KINDS.iter().zip(kinds) {
        let mut cells: Vec<String> = row[skip..].iter().map(&cell).collect();
        cells.resize(sizes.len(), "–".to_string());
        out += &format!("| {} | {} |\n", kind.name, cells.join(" | "));
    }
    out
}

/// A number in three digits, or more where there are more before the point.
fn short(x: f64) -> String {
    let places = if x < 10.0 { 2 } else { usize::from(x < 100.0) };
    format!("{x:.places$}")
}

/// The machine, as it names itself.
fn machine() -> String {
    let text = std::fs::read_to_string("/proc/cpuinfo").unwrap_or_default();
    let name = text.lines().find(|line| line.starts_with("model name"));
    let name = name.and_then(|line| line.split_once(": ")).map_or("unnamed", |(_, name)| name);
    let cores = std::thread::available_parallelism().map_or(0, usize::from);
    format!("{name}, {cores} cores")
}

/// How many programs wanted to run, on average over the last minute.
pub fn load() -> String {
    let text = std::fs::read_to_string("/proc/loadavg").unwrap_or_default();
    text.split(' ').next().filter(|word| !word.is_empty()).unwrap_or("unknown").to_string()
}

pub fn tables(Figures { kinds, rounds, load }: &Figures) -> String {
    let ratios = table(kinds, 0, |m| {
        let [low, median, high] = [m.ratio.low, m.ratio.median, m.ratio.high].map(short);
        format!("{median} ({low}–{high})")
    });
    let times = table(kinds, 0, |m| m.times.map(short).join(" / "));
    let growth = table(kinds, 1, |m| m.growth.map(short).join(" / "));
    format!(
        "Machine: {}; load before the run: {load}. Rounds: {rounds}.\n\n\
         Engine / opponent: the median of the rounds, and the quartiles.\n\n{ratios}\n\
         Engine / opponent / floor: µs for a call, medians.\n\n{times}\n\
         Growth from n / 2 to n, engine / opponent: medians. 2 is in proportion to n, 4 to its square.\n\n\
         {growth}",
        machine()
    )
}

/// The page with these tables between its marks.
pub fn with_tables(page: &str, tables: &str) -> Result<String, String> {
    let parts = page.split_once(BEGIN).and_then(|(before, rest)| Some((before, rest.split_once(END)?.1)));
    let (before, behind) = parts.ok_or_else(|| format!("no {BEGIN} and {END} in the page"))?;
    Ok(format!("{before}{BEGIN}\n\n{tables}\n{END}{behind}"))
}

#[cfg(test)]
mod tests {
    use super::*;
    use crate::measure::Spread;

    #[test]
    fn a_kind_with_fewer_sizes_has_dashes() {
        let ratio = Spread { low: 1.0, median: 1.0, high: 1.0 };
        let row = || [(); 2].map(|()| Measured { times: [1.0; 3], ratio, growth: [1.0; 2] }).into();
        let rows = table(&[row()], 1, |m| short(m.ratio.median));
        assert!(rows.ends_with(" | 1.00 | – | – | – |\n"), "{rows}");
    }

    #[test]
    fn tables_are_replaced_and_the_rest_stays() {
        let page = format!("a\n{BEGIN}\nold\n{END}\nb\n");
        let new = format!("a\n{BEGIN}\n\nnew\n{END}\nb\n");
        assert_eq!(with_tables(&page, "new"), Ok(new.clone()));
        assert_eq!(with_tables(&new, "new"), Ok(new));
        assert!(with_tables("a\nb\n", "new").is_err());
    }

    #[test]
    fn numbers_have_three_digits() {
        assert_eq!([1.514, 45.44, 123.4, 1212.3].map(short), ["1.51", "45.4", "123", "1212"]);
    }
}

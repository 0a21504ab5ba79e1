//! The plot: time against size, both logarithmic, one panel for each kind.

use crate::cases::{KINDS, SIZES};
use crate::measure::Measured;

const COLUMNS: usize = 4;
const PANEL: (f64, f64) = (236.0, 190.0);
/// Where the axes of a panel are: left, top, right and bottom.
const AXES: (f64, f64, f64, f64) = (38.0, 26.0, 226.0, 162.0);
const LEFT: f64 = 22.0;
const BOTTOM: f64 = 24.0;

/// Each line's name, colour, dashes and mark: legible without colours too.
const LINES: [(&str, &str, &str, Mark); 3] = [
    ("engine", "#0b57a4", "", Mark::Disc),
    ("opponent", "#b84a00", "6 3", Mark::Square),
    ("floor: copy and clear", "#6b6b6b", "2 3", Mark::None),
];

#[derive(Clone, Copy)]
enum Mark {
    Disc,
    Square,
    None,
}

/// The logarithms between which all times of engine and opponent are, the lower one whole. A floor below them, as that
/// of a message is, which clears no work area, lies on the axis.
struct Scale {
    low: i32,
    high: f64,
}

impl Scale {
    fn of(kinds: &[Vec<Measured>]) -> Scale {
        let times = || kinds.iter().flatten().flat_map(|m| [m.times[0], m.times[1]]);
        let least = times().fold(f64::INFINITY, f64::min);
        let most = times().fold(0.0, f64::max);
        Scale { low: least.log10().floor() as i32, high: most.log10() + 0.1 }
    }

    fn y(&self, time: f64) -> f64 {
        let share = (time.log10() - f64::from(self.low)) / (self.high - f64::from(self.low));
        AXES.3 - share.max(0.0) * (AXES.3 - AXES.1)
    }
}

fn x(size: usize) -> f64 {
    let (least, most) = (SIZES[0] as f64, SIZES[SIZES.len() - 1] as f64);
    let share = (size as f64 / least).log2() / (most / least).log2();
    AXES.0 + 8.0 + share * (AXES.2 - AXES.0 - 16.0)
}

fn text(x: f64, y: f64, anchor: &str, more: &str, words: &str) -> String {
    let words = words.replace('&', "&amp;").replace('<', "&lt;");
    format!("<text x=\"{x:.1}\" y=\"{y:.1}\" text-anchor=\"{anchor}\" fill=\"#222\"{more}>{words}</text>\n")
}

fn segment(from: (f64, f64), to: (f64, f64), colour: &str) -> String {
    let ((a, b), (c, d)) = (from, to);
    format!("<path d=\"M{a:.1} {b:.1}L{c:.1} {d:.1}\" stroke=\"{colour}\"/>\n")
}

fn mark(kind: Mark, (x, y): (f64, f64), colour: &str) -> String {
    match kind {
        Mark::Disc => format!("<circle cx=\"{x:.1}\" cy=\"{y:.1}\" r=\"3\" fill=\"{colour}\"/>\n"),
        Mark::Square => {
            let (x, y) = (x - 2.6, y - 2.6);
            format!("<rect x=\"{x:.1}\" y=\"{y:.1}\" width=\"5.2\" height=\"5.2\" fill=\"{colour}\"/>\n")
        }
        Mark::None => String::new(),
    }
}

/// One of the three lines through its points.
fn line(who: usize, points: &[(f64, f64)]) -> String {
    let (_, colour, dashes, kind) = LINES[who];
    let path: Vec<String> = points.iter().map(|(x, y)| format!("{x:.1} {y:.1}")).collect();
    let path = path.join("L");
    let dashed = if dashes.is_empty() { String::new() } else { format!(" stroke-dasharray=\"{dashes}\"") };
    let stroke = format!("<path d=\"M{path}\" stroke=\"{colour}\" stroke-width=\"1.8\"{dashed}/>\n");
    stroke + &points.iter().map(|p| mark(kind, *p, colour)).collect::<String>()
}

/// The grid of a panel, with numbers on both axes.
fn axes(scale: &Scale) -> String {
    let mut out = String::new();
    for power in scale.low..=scale.high as i32 {
        let y = scale.y(10f64.powi(power));
        out += &segment((AXES.0, y), (AXES.2, y), "#d9d9d9");
        out += &text(AXES.0 - 4.0, y + 3.5, "end", "", &10f64.powi(power).to_string());
    }
    for size in SIZES {
        out += &segment((x(size), AXES.3), (x(size), AXES.3 + 4.0), "#444");
        out += &text(x(size), AXES.3 + 15.0, "middle", "", &(size / 1024).to_string());
    }
    out + &segment((AXES.0, AXES.3), (AXES.2, AXES.3), "#444")
}

fn panel(name: &str, row: &[Measured], scale: &Scale) -> String {
    let title = text(AXES.0, AXES.1 - 10.0, "start", " font-weight=\"bold\"", name);
    let points = |who: usize| -> Vec<(f64, f64)> {
        SIZES.iter().zip(row).map(|(size, m)| (x(*size), scale.y(m.times[who]))).collect()
    };
    // the engine's line is drawn last, over the others
    let lines: String = (0..LINES.len()).rev().map(|who| line(who, &points(who))).collect();
    title + &axes(scale) + &lines
}

fn legend() -> String {
    let mut out = String::new();
    for (who, (name, ..)) in LINES.iter().enumerate() {
        let y = AXES.1 + 20.0 + 24.0 * who as f64;
        out += &line(who, &[(AXES.0, y), (AXES.0 + 20.0, y), (AXES.0 + 40.0, y)]);
        out += &text(AXES.0 + 50.0, y + 4.0, "start", "", name);
    }
    out
}

/// A part of the picture, moved to its place in the grid.
fn at(place: usize, part: &str) -> String {
    let (column, row) = (place % COLUMNS, place / COLUMNS);
    let (x, y) = (LEFT + column as f64 * PANEL.0, row as f64 * PANEL.1);
    format!("<g transform=\"translate({x:.0} {y:.0})\">\n{part}</g>\n")
}

pub fn plot(kinds: &[Vec<Measured>]) -> String {
    let scale = Scale::of(kinds);
    let rows = (kinds.len() + 1).div_ceil(COLUMNS);
    let (width, height) = (LEFT + COLUMNS as f64 * PANEL.0, rows as f64 * PANEL.1 + BOTTOM);
    let mut out = format!(
        "<svg xmlns=\"http://www.w3.org/2000/svg\" viewBox=\"0 0 {width} {height}\" width=\"{width}\" \
         height=\"{height}\" font-family=\"sans-serif\" font-size=\"11\" fill=\"none\">\n\
         <rect width=\"{width}\" height=\"{height}\" fill=\"#fff\"/>\n"
    );
    for (place, (kind, row)) in KINDS.iter().zip(kinds).enumerate() {
        out += &at(place, &panel(kind.name, row, &scale));
    }
    out += &at(kinds.len(), &legend());
    let middle = (height - BOTTOM) / 2.0;
    let turned = format!(" transform=\"rotate(-90 14 {middle:.1})\"");
    out += &text(14.0, middle, "middle", &turned, "time of a call, µs");
    out += &text(width / 2.0, height - 8.0, "middle", "", "size n, KB");
    out + "</svg>\n"
}

//! The time of a judge call against n, from a table: a panel for each kind, with logarithmic scales.

use super::svg::{Point, Svg};
use crate::definition::KIND_NAMES;
use crate::tables::{self, Row, Times};

const WIDTH: f64 = 165.0;
const HEIGHT: f64 = 160.0;
/// The upper left corners of the panels, which fill one line after the other.
const COLUMNS: [f64; 4] = [80.0, 265.0, 450.0, 635.0];
const LINES: [f64; 2] = [105.0, 325.0];

const TITLE: &str = "Time of one judge call, 64 rotating inputs (logarithmic scales)";
const BLACK: &str = "fill=\"#222222\"";
const GRID: &str = "stroke=\"#cccccc\" stroke-width=\"1\"";
const FRAME: &str = "stroke=\"#555555\" stroke-width=\"1\"";

/// One line of each panel.
struct Curve {
    name: &'static str,
    graph: &'static str,
    time: fn(&Times) -> f64,
    colour: &'static str,
    dashes: &'static str,
}

const LIBRARY: &str = "#0b4f9e";
const BIT_SETS: &str = "#c75000";

const CURVES: [Curve; 4] = [
    Curve::new("this library, dense", "dense", |times| times.library, LIBRARY, ""),
    Curve::new("this library, sparse", "sparse", |times| times.library, LIBRARY, "5 4"),
    Curve::new("bit sets, dense", "dense", |times| times.bit_sets, BIT_SETS, ""),
    Curve::new("bit sets, sparse", "sparse", |times| times.bit_sets, BIT_SETS, "5 4"),
];

impl Curve {
    const fn new(
        name: &'static str,
        graph: &'static str,
        time: fn(&Times) -> f64,
        colour: &'static str,
        dashes: &'static str,
    ) -> Curve {
        Curve { name, graph, time, colour, dashes }
    }

    /// Dashed with hollow dots, or solid with filled dots.
    fn draw(&self, svg: &mut Svg, points: &[Point]) {
        let Curve { colour, dashes, .. } = self;
        let dashed = match *dashes {
            "" => String::new(),
            dashes => format!(" stroke-dasharray=\"{dashes}\""),
        };
        svg.path(points, &format!("stroke=\"{colour}\" stroke-width=\"2\"{dashed}"));
        let fill = if dashes.is_empty() { colour } else { "#ffffff" };
        for &point in points {
            let look = format!("fill=\"{fill}\" stroke=\"{colour}\" stroke-width=\"1.5\"");
            svg.circle(point, 3.0, &look);
        }
    }
}

/// The scales that all panels share.
struct Scales {
    sizes: Vec<usize>,
    lowest: f64,
    highest: f64,
}

/// Rounds up or down to one of 1, 2, 5, 10, 20, 50 and so on.
fn round_time(time: f64, upwards: bool) -> f64 {
    let decades = (0..9).map(|power| 10f64.powi(power));
    let mut steps = decades.flat_map(|decade| [1.0, 2.0, 5.0].map(|step| step * decade));
    let above = steps.clone().find(|&step| step >= time).unwrap_or(time);
    if upwards {
        return above;
    }
    steps.rfind(|&step| step <= time).unwrap_or(time)
}

/// With a comma between thousands.
fn grouped(number: u64) -> String {
    match (number / 1000, number % 1000) {
        (0, rest) => rest.to_string(),
        (thousands, rest) => format!("{},{rest:03}", grouped(thousands)),
    }
}

impl Scales {
    fn of(rows: &[Row]) -> Scales {
        let mut sizes: Vec<usize> = rows.iter().map(|row| row.n).collect();
        sizes.sort();
        sizes.dedup();
        let judge = |row: &Row| [row.times[0].library, row.times[0].bit_sets];
        let times: Vec<f64> = rows.iter().flat_map(judge).collect();
        let lowest = times.iter().copied().fold(f64::MAX, f64::min);
        let highest = times.iter().copied().fold(1.0, f64::max);
        Scales { sizes, lowest: round_time(lowest, false), highest: round_time(highest, true) }
    }

    /// Distance from the panel's left side.
    fn across(&self, n: usize) -> f64 {
        let share = |n: usize| (n as f64 / self.sizes[0] as f64).log2();
        let widest = share(self.sizes[self.sizes.len() - 1]).max(1.0);
        14.0 + (WIDTH - 28.0) * share(n) / widest
    }

    /// Distance from the panel's upper side.
    fn down(&self, time: f64) -> f64 {
        HEIGHT * (self.highest / time).log10() / (self.highest / self.lowest).log10()
    }

    /// The powers of ten between the lowest and the highest.
    fn decades(&self) -> impl Iterator<Item = f64> + '_ {
        let powers = (0..9).map(|power| 10f64.powi(power));
        powers.filter(|&time| self.lowest <= time && time <= self.highest)
    }
}

/// The picture of the table of rotating inputs in docs/BENCHMARKS.md; or why there is none.
pub fn draw(benchmarks: &str) -> Result<String, String> {
    let rows = tables::read(benchmarks, tables::ROTATING)?;
    let scales = Scales::of(&rows);
    let mut svg = Svg::new(830, 550, TITLE);
    svg.words(Point(30.0, 32.0), &format!("font-size=\"16\" {BLACK}"), TITLE);
    legend(&mut svg);
    for (i, kind) in KIND_NAMES.iter().enumerate() {
        let corner = Point(COLUMNS[i % COLUMNS.len()], LINES[i / COLUMNS.len()]);
        panel(&mut svg, &scales, corner, kind);
        for curve in &CURVES {
            curve.draw(&mut svg, &points(&rows, &scales, corner, kind, curve));
        }
    }
    let small = format!("font-size=\"13\" text-anchor=\"middle\" {BLACK}");
    let middle = (COLUMNS[0] + COLUMNS[COLUMNS.len() - 1] + WIDTH) / 2.0;
    svg.words(Point(middle, 530.0), &small, "n, number of vertices");
    svg.upright_words(Point(24.0, 295.0), &small, "ns per call");
    Ok(svg.finish())
}

fn legend(svg: &mut Svg) {
    for (i, curve) in CURVES.iter().enumerate() {
        let (x, y) = (30.0 + 180.0 * i as f64, 58.0);
        curve.draw(svg, &[Point(x, y), Point(x + 34.0, y)]);
        svg.words(Point(x + 42.0, y + 4.0), &format!("font-size=\"13\" {BLACK}"), curve.name);
    }
}

/// The axes of a panel; only the first column has the times written beside it.
fn panel(svg: &mut Svg, scales: &Scales, Point(x, y): Point, kind: &str) {
    svg.words(Point(x, y - 8.0), &format!("font-size=\"14\" font-weight=\"bold\" {BLACK}"), kind);
    for time in scales.decades() {
        let at = y + scales.down(time);
        svg.line(Point(x, at), Point(x + WIDTH, at), GRID);
        if x == COLUMNS[0] {
            let right = format!("font-size=\"12\" text-anchor=\"end\" {BLACK}");
            svg.words(Point(x - 6.0, at + 4.0), &right, &grouped(time as u64));
        }
    }
    svg.line(Point(x, y), Point(x, y + HEIGHT), FRAME);
    svg.line(Point(x, y + HEIGHT), Point(x + WIDTH, y + HEIGHT), FRAME);
    for &n in &scales.sizes {
        let at = x + scales.across(n);
        svg.line(Point(at, y + HEIGHT), Point(at, y + HEIGHT + 4.0), FRAME);
        let middle = format!("font-size=\"12\" text-anchor=\"middle\" {BLACK}");
        svg.words(Point(at, y + HEIGHT + 17.0), &middle, &n.to_string());
    }
}

/// The points of a curve in the panel of a kind.
fn points(rows: &[Row], scales: &Scales, corner: Point, kind: &str, curve: &Curve) -> Vec<Point> {
    let of_curve = |row: &&Row| row.kind == kind && row.graph == curve.graph;
    let point = |row: &Row| {
        let time = (curve.time)(&row.times[0]);
        Point(corner.0 + scales.across(row.n), corner.1 + scales.down(time))
    };
    rows.iter().filter(of_curve).map(point).collect()
}

#[cfg(test)]
mod tests;

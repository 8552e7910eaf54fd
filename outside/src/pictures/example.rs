//! A walk over four points that is not a DFS, with its first fault triple.

use super::svg::{Point, Svg};
use crate::definition::sheet::read;
use crate::definition::{first_violation, Graph, Vertex, DFS};

/// Where each of the four points is drawn, and on which side its labels are.
const POINTS: [(Point, Side); 4] = [
    (Point(190.0, 50.0), Side::Right),
    (Point(110.0, 140.0), Side::Left),
    (Point(270.0, 140.0), Side::Right),
    (Point(110.0, 240.0), Side::Left),
];

#[derive(Clone, Copy)]
enum Side {
    Left,
    Right,
}

const RADIUS: f64 = 18.0;
const LINK: &str = "stroke=\"#555555\" stroke-width=\"2\"";
const LINK_OF_TRIPLE: &str = "stroke=\"#b30000\" stroke-width=\"5\"";
const MISSING_LINK: &str = "stroke=\"#b30000\" stroke-width=\"2\" stroke-dasharray=\"6 5\"";
const NOTE: &str = "font-size=\"13\" fill=\"#b30000\"";
const CAPTION: &str = "font-size=\"14\" fill=\"#222222\"";

type Triple = (Vertex, Vertex, Vertex);

/// The picture of the plan and the walk on a sheet; or why there is none.
pub fn draw(sheet: &[u8]) -> Result<String, String> {
    let (n, rows, walk) = read(sheet).map_err(|number| format!("refusal {number}"))?;
    let plan: Vec<u8> = rows.iter().flat_map(|row| row.to_le_bytes()).collect();
    let graph = Graph::from_plan(&plan);
    if n != POINTS.len() || walk.len() != n {
        return Err(format!("the picture is for a walk over {} points", POINTS.len()));
    }
    let triple = first_violation(DFS, &graph, &walk).ok_or("the walk is a DFS")?;
    let mut svg = Svg::new(730, 290, "A walk over four points that is not a DFS");
    links(&mut svg, &graph, triple);
    for (place, &v) in walk.iter().enumerate() {
        point(&mut svg, v as Vertex, place, triple);
    }
    caption(&mut svg, &walk, triple);
    Ok(svg.finish())
}

fn links(svg: &mut Svg, graph: &Graph, (a, b, c): Triple) {
    let at = |v: Vertex| POINTS[v].0;
    svg.line(at(a), at(b), MISSING_LINK);
    for u in 0..graph.size() {
        for v in (0..u).filter(|&v| graph.leads_to(u, v)) {
            let of_triple = (u, v) == (a, c) || (u, v) == (c, a);
            svg.line(at(u), at(v), if of_triple { LINK_OF_TRIPLE } else { LINK });
        }
    }
    let middle = |u, v| Point((at(u).0 + at(v).0) / 2.0, (at(u).1 + at(v).1) / 2.0);
    let Point(x, y) = middle(a, b);
    svg.words(Point(x, y + 18.0), &format!("{NOTE} text-anchor=\"middle\""), "not linked");
    let Point(x, y) = middle(a, c);
    svg.words(Point(x + 10.0, y + 5.0), NOTE, "linked");
}

/// A point with its number in it; beside it, its place and its letter in the triple.
fn point(svg: &mut Svg, v: Vertex, place: usize, (a, b, c): Triple) {
    let (at, side) = POINTS[v];
    let letter = [(a, "a"), (b, "b"), (c, "c")].into_iter().find(|(point, _)| *point == v);
    let stroke = if letter.is_some() { "#b30000" } else { "#555555" };
    let look = format!("fill=\"#ffffff\" stroke=\"{stroke}\" stroke-width=\"2\"");
    svg.circle(at, RADIUS, &look);
    let inner = "font-size=\"18\" text-anchor=\"middle\" fill=\"#222222\"";
    svg.words(Point(at.0, at.1 + 6.0), inner, &v.to_string());
    let (x, anchor) = match side {
        Side::Left => (at.0 - RADIUS - 8.0, "end"),
        Side::Right => (at.0 + RADIUS + 8.0, "start"),
    };
    let small = format!("font-size=\"13\" text-anchor=\"{anchor}\" fill=\"#222222\"");
    svg.words(Point(x, at.1 + 15.0), &small, &format!("place {place}"));
    if let Some((_, name)) = letter {
        let bold = format!("font-size=\"20\" font-weight=\"bold\" text-anchor=\"{anchor}\"");
        svg.words(Point(x, at.1 - 2.0), &format!("{bold} fill=\"#b30000\""), name);
    }
}

fn caption(svg: &mut Svg, walk: &[u8], (a, b, c): Triple) {
    let walk = walk.iter().map(u8::to_string).collect::<Vec<String>>().join(" ");
    let lines = [
        format!("The walk {walk} is not a DFS."),
        format!("First fault triple: a = {a}, b = {b}, c = {c}."),
        String::new(),
        "a was placed before b.".to_string(),
        "a is linked to c, but not to b.".to_string(),
        "No neighbour of b was placed between a and b.".to_string(),
        String::new(),
        format!("So {c} should have come before {b}."),
    ];
    for (i, line) in lines.iter().enumerate().filter(|(_, line)| !line.is_empty()) {
        svg.words(Point(365.0, 80.0 + 20.0 * i as f64), CAPTION, line);
    }
}

#[cfg(test)]
mod tests {
    use super::*;
    use crate::definition::sheet::write;
    use crate::sheets::printed;

    #[test]
    fn the_printed_sheet_has_a_picture_with_its_triple() {
        let picture = draw(&printed()).expect("a picture");
        assert!(picture.contains("a = 1, b = 2, c = 3"));
        assert_eq!(picture.matches(LINK_OF_TRIPLE).count(), 1);
        assert_eq!(picture.matches(MISSING_LINK).count(), 1);
        assert_eq!(picture.matches("<circle").count(), 4);
    }

    #[test]
    fn other_sheets_have_none() {
        assert!(draw(b"   4   3\n").is_err());
        assert!(draw(&write(&[(0, 1)], &[0, 1], 2)).is_err());
        assert!(draw(&write(&[(0, 1), (0, 2), (1, 3)], &[0, 1, 3, 2], 4)).is_err());
    }
}

//! Lines, circles and text on a white background.

/// The distance from the left edge and from the upper edge.
#[derive(Clone, Copy)]
pub struct Point(pub f64, pub f64);

pub struct Svg {
    text: String,
}

/// Rounded to one decimal, so that every machine writes the same.
fn number(value: f64) -> String {
    let text = format!("{value:.1}");
    text.strip_suffix(".0").unwrap_or(&text).to_string()
}

fn escaped(text: &str) -> String {
    text.replace('&', "&amp;").replace('<', "&lt;").replace('>', "&gt;")
}

impl Svg {
    /// The title is for screen readers.
    pub fn new(width: u32, height: u32, title: &str) -> Svg {
        let mut svg = Svg { text: String::new() };
        svg.push(&format!(
            "<svg xmlns=\"http://www.w3.org/2000/svg\" version=\"1.1\" width=\"{width}\" \
             height=\"{height}\" viewBox=\"0 0 {width} {height}\" font-family=\"sans-serif\">"
        ));
        svg.push(&format!("<title>{}</title>", escaped(title)));
        svg.push(&format!("<rect width=\"{width}\" height=\"{height}\" fill=\"#ffffff\"/>"));
        svg
    }

    fn push(&mut self, line: &str) {
        self.text.push_str(line);
        self.text.push('\n');
    }

    /// Here and below, `style` is a list of SVG attributes.
    pub fn line(&mut self, from: Point, to: Point, style: &str) {
        let [x1, y1, x2, y2] = [from.0, from.1, to.0, to.1].map(number);
        self.push(&format!("<line x1=\"{x1}\" y1=\"{y1}\" x2=\"{x2}\" y2=\"{y2}\" {style}/>"));
    }

    /// A line through the points, in their order.
    pub fn path(&mut self, points: &[Point], style: &str) {
        let pair = |point: &Point| format!("{},{}", number(point.0), number(point.1));
        let points = points.iter().map(pair).collect::<Vec<String>>().join(" ");
        self.push(&format!("<polyline points=\"{points}\" fill=\"none\" {style}/>"));
    }

    pub fn circle(&mut self, at: Point, radius: f64, style: &str) {
        let [x, y, r] = [at.0, at.1, radius].map(number);
        self.push(&format!("<circle cx=\"{x}\" cy=\"{y}\" r=\"{r}\" {style}/>"));
    }

    pub fn words(&mut self, at: Point, style: &str, words: &str) {
        let [x, y] = [at.0, at.1].map(number);
        self.push(&format!("<text x=\"{x}\" y=\"{y}\" {style}>{}</text>", escaped(words)));
    }

    /// From bottom to top.
    pub fn upright_words(&mut self, at: Point, style: &str, words: &str) {
        let [x, y] = [at.0, at.1].map(number);
        self.words(at, &format!("transform=\"rotate(-90 {x} {y})\" {style}"), words);
    }

    pub fn finish(mut self) -> String {
        self.push("</svg>");
        self.text
    }
}

#[cfg(test)]
mod tests {
    use super::*;

    #[test]
    fn numbers_have_at_most_one_decimal() {
        assert_eq!(number(12.0), "12");
        assert_eq!(number(12.345), "12.3");
        assert_eq!(number(-0.96), "-1");
    }

    #[test]
    fn a_picture_is_one_element_with_its_words_escaped() {
        let mut svg = Svg::new(20, 10, "a & b");
        svg.words(Point(1.0, 2.5), "font-size=\"9\"", "1 < 2");
        let text = svg.finish();
        assert!(text.starts_with("<svg ") && text.ends_with("</svg>\n"));
        assert!(text.contains("<title>a &amp; b</title>"));
        assert!(text.contains("<text x=\"1\" y=\"2.5\" font-size=\"9\">1 &lt; 2</text>"));
    }
}

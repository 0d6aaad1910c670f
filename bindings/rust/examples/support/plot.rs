//! Draws times against rows as an SVG, both axes logarithmic.

use std::fmt::Write;

/// The size of the drawing, and of the part inside the axes: left, top, right and bottom.
const SIZE: (f64, f64) = (860.0, 520.0);
const INSIDE: (f64, f64, f64, f64) = (90.0, 60.0, 620.0, 450.0);
/// The least distance of two labels.
const LABEL: f64 = 18.0;

/// The times of one implementation on descriptors of one size.
pub struct Series {
    /// What stands beside the line.
    pub label: String,
    pub colour: &'static str,
    pub dashed: bool,
    /// The rows and the seconds of each point.
    pub points: Vec<(usize, f64)>,
}

/// The drawing of the lines.
pub fn draw(title: &str, lines: &[Series]) -> String {
    let axes = Axes::of(lines);
    let (width, height) = SIZE;
    let mut svg = format!(
        "<svg xmlns=\"http://www.w3.org/2000/svg\" viewBox=\"0 0 {width} {height}\" font-family=\"sans-serif\" font-size=\"14\" fill=\"#222\">\n\
         <rect width=\"{width}\" height=\"{height}\" fill=\"#fff\"/>\n"
    );
    text(&mut svg, INSIDE.0, 32.0, "start", title);
    axes.draw(&mut svg);
    for line in lines {
        axes.draw_line(&mut svg, line);
    }
    for (line, y) in lines.iter().zip(axes.label_places(lines)) {
        let label = format!("<tspan fill=\"{}\">{}</tspan>", line.colour, line.label);
        text(&mut svg, INSIDE.2 + 10.0, y + 5.0, "start", &label);
    }
    svg + "</svg>\n"
}

/// Adds a text at a place.
fn text(svg: &mut String, x: f64, y: f64, anchor: &str, text: &str) {
    writeln!(
        svg,
        "<text x=\"{x:.1}\" y=\"{y:.1}\" text-anchor=\"{anchor}\">{text}</text>"
    )
    .expect("a string takes all");
}

/// What the axes reach to: the most rows, and the powers of ten of the least and the most seconds.
struct Axes {
    rows: f64,
    least: i32,
    most: i32,
}

impl Axes {
    /// The axes that have room for all lines.
    fn of(lines: &[Series]) -> Axes {
        let points = || lines.iter().flat_map(|line| &line.points);
        let seconds = || points().map(|point| point.1.log10());
        Axes {
            rows: points().map(|point| point.0 as f64).fold(1.0, f64::max),
            least: seconds().fold(f64::INFINITY, f64::min).floor() as i32,
            most: seconds().fold(f64::NEG_INFINITY, f64::max).ceil() as i32,
        }
    }

    /// Where so many rows stand.
    fn x(&self, rows: usize) -> f64 {
        INSIDE.0 + (INSIDE.2 - INSIDE.0) * (rows as f64).log2() / self.rows.log2()
    }

    /// Where so many seconds stand.
    fn y(&self, seconds: f64) -> f64 {
        let part = (seconds.log10() - f64::from(self.least)) / f64::from(self.most - self.least);
        INSIDE.3 - (INSIDE.3 - INSIDE.1) * part
    }

    /// Draws the axes, a line for each power of ten, and their numbers.
    fn draw(&self, svg: &mut String) {
        for power in self.least..=self.most {
            let y = self.y(10f64.powi(power));
            rule(svg, (INSIDE.0, y), (INSIDE.2, y));
            text(svg, INSIDE.0 - 10.0, y + 5.0, "end", &power_shown(power));
        }
        for rows in (0..)
            .map(|power| 4usize.pow(power))
            .take_while(|&rows| rows as f64 <= self.rows)
        {
            let x = self.x(rows);
            rule(svg, (x, INSIDE.1), (x, INSIDE.3));
            text(svg, x, INSIDE.3 + 22.0, "middle", &rows.to_string());
        }
        let middle = (INSIDE.0 + INSIDE.2) / 2.0;
        text(svg, middle, INSIDE.3 + 48.0, "middle", "rows of the image");
        text(svg, 10.0, INSIDE.1 - 10.0, "start", "time of a request");
    }

    /// Draws a line and its points.
    fn draw_line(&self, svg: &mut String, line: &Series) {
        let place = |&(rows, seconds): &(usize, f64)| (self.x(rows), self.y(seconds));
        let places: Vec<(f64, f64)> = line.points.iter().map(place).collect();
        let joined: Vec<String> = places
            .iter()
            .map(|(x, y)| format!("{x:.1},{y:.1}"))
            .collect();
        let dashes = if line.dashed {
            " stroke-dasharray=\"7 5\""
        } else {
            ""
        };
        writeln!(
            svg,
            "<polyline points=\"{}\" fill=\"none\" stroke=\"{}\" stroke-width=\"2.5\"{dashes}/>",
            joined.join(" "),
            line.colour
        )
        .expect("a string takes all");
        for (x, y) in places {
            writeln!(
                svg,
                "<circle cx=\"{x:.1}\" cy=\"{y:.1}\" r=\"4\" fill=\"{}\"/>",
                line.colour
            )
            .expect("a string takes all");
        }
    }

    /// Where the labels stand: at the ends of their lines, moved up where they would lie on the one below.
    fn label_places(&self, lines: &[Series]) -> Vec<f64> {
        let end = |line: &Series| line.points.last().map_or(INSIDE.3, |last| self.y(last.1));
        let mut order: Vec<usize> = (0..lines.len()).collect();
        order.sort_by(|&one, &other| end(&lines[other]).total_cmp(&end(&lines[one])));
        let mut places = vec![0.0; lines.len()];
        let mut free = f64::INFINITY;
        for line in order {
            places[line] = end(&lines[line]).min(free);
            free = places[line] - LABEL;
        }
        places
    }
}

/// Adds a thin grey line.
fn rule(svg: &mut String, from: (f64, f64), to: (f64, f64)) {
    writeln!(
        svg,
        "<line x1=\"{:.1}\" y1=\"{:.1}\" x2=\"{:.1}\" y2=\"{:.1}\" stroke=\"#ddd\"/>",
        from.0, from.1, to.0, to.1
    )
    .expect("a string takes all");
}

/// A power of ten of seconds, from nanoseconds on.
fn power_shown(power: i32) -> String {
    let unit = ["ns", "µs", "ms", "s"][((power + 9) / 3) as usize];
    format!("{} {unit}", 10u32.pow(((power + 9) % 3) as u32))
}

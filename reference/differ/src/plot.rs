//! A plot as SVG: both axes logarithmic.

use std::fmt::Write;

pub struct Line {
    pub name: String,
    /// Which of the colours.
    pub colour: usize,
    pub dashed: bool,
    pub points: Vec<(f64, f64)>,
}

const COLOURS: [&str; 4] = ["#1b6ca8", "#b8442c", "#3a7d34", "#7a4ea3"];
const WIDTH: f64 = 860.0;
const HEIGHT: f64 = 520.0;
const LEFT: f64 = 80.0;
const RIGHT: f64 = 620.0;
const TOP: f64 = 30.0;
const BOTTOM: f64 = 460.0;

/// An axis from one power to another, in places from the first to the last.
struct Axis {
    base: f64,
    low: f64,
    high: f64,
    first: f64,
    last: f64,
}

impl Axis {
    fn over(values: impl Iterator<Item = f64>, base: f64, first: f64, last: f64) -> Axis {
        let mut low = f64::MAX;
        let mut high = f64::MIN;
        for value in values {
            low = low.min(value.log(base));
            high = high.max(value.log(base));
        }
        if low > high {
            (low, high) = (0.0, 1.0);
        }
        Axis {
            base,
            low: low.floor(),
            high: high.ceil().max(low.floor() + 1.0),
            first,
            last,
        }
    }

    fn place(&self, value: f64) -> f64 {
        let part = (value.log(self.base) - self.low) / (self.high - self.low);
        self.first + part * (self.last - self.first)
    }

    fn powers(&self) -> impl Iterator<Item = f64> + '_ {
        (self.low as i32..=self.high as i32).map(|power| self.base.powi(power))
    }
}

pub fn plot(lines: &[Line]) -> String {
    let points = || lines.iter().flat_map(|line| line.points.iter());
    let across = Axis::over(points().map(|point| point.0), 4.0, LEFT, RIGHT);
    let up = Axis::over(points().map(|point| point.1), 10.0, BOTTOM, TOP);
    let mut text = format!(
        "<svg xmlns=\"http://www.w3.org/2000/svg\" width=\"{WIDTH}\" height=\"{HEIGHT}\" viewBox=\"0 0 {WIDTH} {HEIGHT}\" \
font-family=\"sans-serif\" font-size=\"13\">\n<rect width=\"100%\" height=\"100%\" fill=\"white\"/>\n"
    );
    axes(&mut text, &across, &up);
    for (place, line) in lines.iter().enumerate() {
        draw(&mut text, line, &across, &up);
        legend(&mut text, line, place);
    }
    text += "</svg>\n";
    text
}

fn axes(text: &mut String, across: &Axis, up: &Axis) {
    for value in across.powers() {
        let x = across.place(value);
        let _ = writeln!(
            text,
            "<path d=\"M{x:.1} {TOP}V{BOTTOM}\" stroke=\"#dddddd\"/><text x=\"{x:.1}\" y=\"{}\" text-anchor=\"middle\">{}</text>",
            BOTTOM + 20.0,
            grouped(value)
        );
    }
    for value in up.powers() {
        let y = up.place(value);
        let _ = writeln!(
            text,
            "<path d=\"M{LEFT} {y:.1}H{RIGHT}\" stroke=\"#dddddd\"/><text x=\"{}\" y=\"{:.1}\" text-anchor=\"end\">{}</text>",
            LEFT - 8.0,
            y + 4.0,
            grouped(value)
        );
    }
    let _ = writeln!(
        text,
        "<text x=\"{}\" y=\"{}\" text-anchor=\"middle\">entries of the log</text>\n\
<text transform=\"translate(18 {}) rotate(-90)\" text-anchor=\"middle\">nanoseconds for each entry</text>",
        (LEFT + RIGHT) / 2.0,
        BOTTOM + 45.0,
        (TOP + BOTTOM) / 2.0
    );
}

/// A whole number with commas.
fn grouped(value: f64) -> String {
    let digits = format!("{value:.0}");
    let mut text = String::new();
    for (place, digit) in digits.chars().enumerate() {
        if place > 0 && (digits.len() - place) % 3 == 0 {
            text.push(',');
        }
        text.push(digit);
    }
    text
}

fn stroke(line: &Line) -> String {
    let dashes = if line.dashed {
        " stroke-dasharray=\"6 4\""
    } else {
        ""
    };
    let colour = COLOURS[line.colour % COLOURS.len()];
    format!("fill=\"none\" stroke=\"{colour}\" stroke-width=\"2\"{dashes}")
}

fn draw(text: &mut String, line: &Line, across: &Axis, up: &Axis) {
    let places: Vec<String> = line
        .points
        .iter()
        .map(|(x, y)| format!("{:.1} {:.1}", across.place(*x), up.place(*y)))
        .collect();
    if places.is_empty() {
        return;
    }
    let _ = writeln!(text, "<path d=\"M{}\" {}/>", places.join("L"), stroke(line));
    let colour = COLOURS[line.colour % COLOURS.len()];
    for (x, y) in &line.points {
        let _ = writeln!(
            text,
            "<circle cx=\"{:.1}\" cy=\"{:.1}\" r=\"3\" fill=\"{colour}\"/>",
            across.place(*x),
            up.place(*y)
        );
    }
}

fn legend(text: &mut String, line: &Line, place: usize) {
    let y = TOP + 12.0 + 24.0 * place as f64;
    let x = RIGHT + 20.0;
    let _ = writeln!(
        text,
        "<path d=\"M{x} {y}H{}\" {}/><text x=\"{}\" y=\"{}\">{}</text>",
        x + 40.0,
        stroke(line),
        x + 50.0,
        y + 4.0,
        line.name
    );
}

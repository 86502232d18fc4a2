//! The chart: nanoseconds a base over the number of keys, a panel for each method.
use super::measure::Cell;
use crate::referee::correctors::METHODS;
use std::fmt::Write;

const PANEL: (f64, f64) = (250.0, 220.0);
const LEFT: f64 = 62.0;
const TOP: f64 = 56.0;
const GAP: f64 = 34.0;
const COLOURS: [&str; 3] = ["#1b6ca8", "#c06014", "#6a2c70"];
const FONT: &str = "font-family=\"sans-serif\" font-size=\"11\" fill=\"#333\"";

/// A logarithmic axis from low to high over a length.
struct Axis {
    low: f64,
    high: f64,
    length: f64,
}

impl Axis {
    fn at(&self, value: f64) -> f64 {
        (value.log10() - self.low) / (self.high - self.low) * self.length
    }
}

/// Ours drawn through, the Rust dashed, a colour for each error rate.
pub fn draw(cells: &[Cell], k: u8, keys: &[usize], errors: &[usize]) -> String {
    let cells: Vec<&Cell> = cells.iter().filter(|cell| cell.k == k).collect();
    let all: Vec<f64> = cells.iter().flat_map(|cell| [cell.nanoseconds(cell.rounds.ours()), cell.nanoseconds(cell.rounds.rust())]).collect();
    let low = all.iter().copied().fold(f64::MAX, f64::min).log10().floor();
    let high = all.iter().copied().fold(1.0, f64::max).log10().ceil().max(low + 1.0);
    let x = Axis { low: (keys[0] as f64 * 0.6).log10(), high: (keys[keys.len() - 1] as f64 * 1.6).log10(), length: PANEL.0 };
    let y = Axis { low, high, length: PANEL.1 };
    let width = LEFT + 4.0 * (PANEL.0 + GAP);
    let height = TOP + PANEL.1 + 60.0;
    let mut svg =
        format!("<svg xmlns=\"http://www.w3.org/2000/svg\" width=\"{width:.0}\" height=\"{height:.0}\" viewBox=\"0 0 {width:.0} {height:.0}\">\n");
    svg += "<rect width=\"100%\" height=\"100%\" fill=\"#fff\"/>\n";
    legend(&mut svg, k, errors);
    for (panel, method) in METHODS.iter().enumerate() {
        let left = LEFT + panel as f64 * (PANEL.0 + GAP);
        frame(&mut svg, left, &format!("{method:?}"), keys, &x, &y, panel == 0);
        for (rate, colour) in errors.iter().zip(COLOURS) {
            let row: Vec<&&Cell> = cells.iter().filter(|cell| cell.method == *method && cell.errors == *rate).collect();
            let place = |cell: &Cell, seconds: f64| (left + x.at(cell.keys as f64), TOP + PANEL.1 - y.at(cell.nanoseconds(seconds)));
            line(&mut svg, colour, "", row.iter().map(|cell| place(cell, cell.rounds.ours())));
            line(&mut svg, colour, " stroke-dasharray=\"5 4\"", row.iter().map(|cell| place(cell, cell.rounds.rust())));
        }
    }
    svg + "</svg>\n"
}

fn text(svg: &mut String, x: f64, y: f64, anchor: &str, text: &str) {
    let _ = writeln!(svg, "<text x=\"{x:.1}\" y=\"{y:.1}\" text-anchor=\"{anchor}\" {FONT}>{text}</text>");
}

fn legend(svg: &mut String, k: u8, errors: &[usize]) {
    text(svg, LEFT, 18.0, "start", &format!("Nanoseconds a base, k = {k}; ours drawn through, natir/br dashed; below: keys"));
    for (at, (rate, colour)) in errors.iter().zip(COLOURS).enumerate() {
        let x = LEFT + 560.0 + 110.0 * at as f64;
        line(svg, colour, "", [(x, 14.0), (x + 24.0, 14.0)].into_iter());
        text(svg, x + 30.0, 18.0, "start", &format!("{rate} % errors"));
    }
}

fn frame(svg: &mut String, left: f64, title: &str, keys: &[usize], x: &Axis, y: &Axis, first: bool) {
    let bottom = TOP + PANEL.1;
    text(svg, left + PANEL.0 / 2.0, TOP - 10.0, "middle", title);
    let _ = writeln!(svg, "<rect x=\"{left:.1}\" y=\"{TOP:.1}\" width=\"{}\" height=\"{}\" fill=\"none\" stroke=\"#999\"/>", PANEL.0, PANEL.1);
    for exponent in y.low as i32..=y.high as i32 {
        let value = 10_f64.powi(exponent);
        let at = bottom - y.at(value);
        let _ = writeln!(svg, "<path d=\"M{left:.1} {at:.1}h{}\" stroke=\"#ddd\"/>", PANEL.0);
        if first {
            text(svg, left - 5.0, at + 4.0, "end", &value.to_string());
        }
    }
    for count in keys {
        text(svg, left + x.at(*count as f64), bottom + 18.0, "middle", &super::page::short(*count));
    }
}

fn line(svg: &mut String, colour: &str, style: &str, points: impl Iterator<Item = (f64, f64)>) {
    let points: Vec<String> = points.map(|(x, y)| format!("{x:.1},{y:.1}")).collect();
    let _ = writeln!(svg, "<polyline points=\"{}\" fill=\"none\" stroke=\"{colour}\" stroke-width=\"2\"{style}/>", points.join(" "));
}

//! The times as a plot: one frame for each family, both axes logarithmic.

use std::fmt::Write;

use crate::{Point, Series};

const FRAME: (f64, f64) = (250.0, 190.0);
const GAP: (f64, f64) = (60.0, 62.0);
const COLUMNS: usize = 4;
/// The least distance between the sizes written below a frame.
const ROOM: f64 = 42.0;
const RUST: &str = "#b7410e";
const RATTLE: &str = "#1f5fa8";

/// The ranges of sizes and times of a frame, as logarithms.
struct Scale {
    x: (f64, f64),
    y: (f64, f64),
    left: f64,
    top: f64,
}

impl Scale {
    fn at(&self, size: f64, time: f64) -> (f64, f64) {
        let part = |value: f64, (low, high): (f64, f64)| (value.log10() - low) / (high - low);
        let x = self.left + FRAME.0 * part(size, self.x);
        (x, self.top + FRAME.1 * (1.0 - part(time, self.y)))
    }
}

pub fn svg(all: &[Series]) -> String {
    let lines = all.len().div_ceil(COLUMNS) as f64;
    let width = COLUMNS as f64 * (FRAME.0 + GAP.0) + 20.0;
    let height = lines * (FRAME.1 + GAP.1) + 40.0;
    let mut out = format!(
        "<svg xmlns=\"http://www.w3.org/2000/svg\" viewBox=\"0 0 {width} {height}\" \
         font-family=\"sans-serif\" font-size=\"11\">\n\
         <rect width=\"{width}\" height=\"{height}\" fill=\"white\"/>\n"
    );
    for (color, name, x) in [(RUST, "Rust", 60.0), (RATTLE, "Rattle", 130.0)] {
        let _ = writeln!(
            out,
            "<circle cx=\"{x}\" cy=\"16\" r=\"4\" fill=\"{color}\"/>\
             <text x=\"{}\" y=\"20\">{name}</text>",
            x + 8.0
        );
    }
    let note = "time of one run against size, both logarithmic";
    let _ = writeln!(out, "<text x=\"200\" y=\"20\" fill=\"#555\">{note}</text>");
    for (at, series) in all.iter().enumerate() {
        frame(&mut out, series, at);
    }
    out.push_str("</svg>\n");
    out
}

fn frame(out: &mut String, series: &Series, at: usize) {
    let left = 56.0 + (at % COLUMNS) as f64 * (FRAME.0 + GAP.0);
    let top = 52.0 + (at / COLUMNS) as f64 * (FRAME.1 + GAP.1);
    let Some(scale) = scale(series, left, top) else { return };
    let _ = writeln!(
        out,
        "<text x=\"{left}\" y=\"{}\" font-weight=\"bold\">{}</text>\
         <rect x=\"{left}\" y=\"{top}\" width=\"{}\" height=\"{}\" fill=\"none\" stroke=\"#999\"/>",
        top - 8.0,
        series.family.title,
        FRAME.0,
        FRAME.1
    );
    ticks(out, series, &scale);
    curve(out, &scale, RUST, series, |point| point.rust);
    curve(out, &scale, RATTLE, series, |point| point.program);
}

/// Whole powers of ten around the times, and the sizes with a little room.
fn scale(series: &Series, left: f64, top: f64) -> Option<Scale> {
    let sizes = series.points.iter().map(|point| (point.size as f64).log10());
    let times = series.points.iter().flat_map(|point| [point.rust, point.program]).flatten();
    let times: Vec<f64> = times.map(|time| (time.max(1) as f64).log10()).collect();
    let low = times.iter().copied().reduce(f64::min)?.floor();
    let high = times.iter().copied().reduce(f64::max)?.ceil().max(low + 1.0);
    let x = (sizes.clone().reduce(f64::min)? - 0.1, sizes.reduce(f64::max)? + 0.1);
    Some(Scale { x, y: (low, high), left, top })
}

fn ticks(out: &mut String, series: &Series, scale: &Scale) {
    for power in scale.y.0 as i32..=scale.y.1 as i32 {
        let (_, y) = scale.at(1.0, 10f64.powi(power));
        let right = scale.left + FRAME.0;
        let _ = writeln!(
            out,
            "<line x1=\"{}\" y1=\"{y:.1}\" x2=\"{right}\" y2=\"{y:.1}\" stroke=\"#eee\"/>\
             <text x=\"{}\" y=\"{:.1}\" text-anchor=\"end\" fill=\"#555\">{}</text>",
            scale.left,
            scale.left - 5.0,
            y + 4.0,
            time(power)
        );
    }
    let mut last = f64::NEG_INFINITY;
    for point in &series.points {
        let (x, _) = scale.at(point.size as f64, 1.0);
        if x - last < ROOM {
            continue;
        }
        last = x;
        let _ = writeln!(
            out,
            "<text x=\"{x:.1}\" y=\"{}\" text-anchor=\"middle\" fill=\"#555\">{}</text>",
            scale.top + FRAME.1 + 15.0,
            point.size
        );
    }
}

/// A power of ten of nanoseconds in a readable unit.
fn time(power: i32) -> String {
    let unit = ["ns", "us", "ms", "s"][(power / 3).min(3) as usize];
    format!("{} {unit}", 10i64.pow((power - 3 * (power / 3).min(3)) as u32))
}

fn curve(
    out: &mut String,
    scale: &Scale,
    color: &str,
    series: &Series,
    time: impl Fn(&Point) -> Option<u64>,
) {
    let places: Vec<(f64, f64)> = series
        .points
        .iter()
        .filter_map(|point| Some(scale.at(point.size as f64, time(point)?.max(1) as f64)))
        .collect();
    let line: Vec<String> = places.iter().map(|(x, y)| format!("{x:.1},{y:.1}")).collect();
    let _ = writeln!(
        out,
        "<polyline points=\"{}\" fill=\"none\" stroke=\"{color}\" stroke-width=\"1.5\"/>",
        line.join(" ")
    );
    for (x, y) in places {
        let _ = writeln!(out, "<circle cx=\"{x:.1}\" cy=\"{y:.1}\" r=\"2.5\" fill=\"{color}\"/>");
    }
}

//! The times as a table.

use crate::{Point, Series};

pub fn print(all: &[Series]) {
    for series in all {
        println!("\n{}", series.family.title);
        println!(
            "{:>8} {:>8} {:>11} {:>14} {:>14} {:>8} {:>9} {:>9}",
            "n", "rows", "identifiers", "Rust ns", "Rattle ns", "ratio", "Rust x4", "Rattle x4"
        );
        for (at, point) in series.points.iter().enumerate() {
            let earlier = series.points[..at].iter().find(|other| 4 * other.size == point.size);
            line(point, earlier);
        }
    }
    println!("\nratio: Rattle's time over the Rust's; x4: growth from a quarter of the size");
}

fn line(point: &Point, quarter: Option<&Point>) {
    let ratio = quotient(point.program, point.rust, 4);
    let rust = quotient(point.rust, quarter.and_then(|quarter| quarter.rust), 2);
    let program = quotient(point.program, quarter.and_then(|quarter| quarter.program), 2);
    println!(
        "{:>8} {:>8} {:>11} {:>14} {:>14} {:>8} {:>9} {:>9}",
        point.size,
        point.rows,
        point.identifiers,
        number(point.rust),
        number(point.program),
        ratio,
        rust,
        program
    );
}

fn number(nanoseconds: Option<u64>) -> String {
    nanoseconds.map_or("-".to_string(), |n| n.to_string())
}

fn quotient(above: Option<u64>, below: Option<u64>, digits: usize) -> String {
    match (above, below) {
        (Some(above), Some(below)) if below > 0 => {
            format!("{:.digits$}", above as f64 / below as f64)
        }
        _ => "-".to_string(),
    }
}

//! Times the Rust pass alone on families of inputs, and a second program on the same images.
//! bench FOLDER [PROGRAM [SVG]]: images go into FOLDER; PROGRAM reads one image from standard
//! input and prints the nanoseconds of its best run and the number of rows.

mod families;
mod plot;
mod side;
mod table;

use std::fs;
use std::path::{Path, PathBuf};

use families::Family;
use judge::image;

/// One input of a family with the times of both sides, where they were taken.
pub struct Point {
    pub size: usize,
    pub rows: usize,
    pub identifiers: usize,
    pub rust: Option<u64>,
    pub program: Option<u64>,
}

pub struct Series {
    pub family: Family,
    pub points: Vec<Point>,
}

/// All is timed so often, and the best time of each point counts: a machine with other users is slower now and then.
const ROUNDS: usize = 4;

impl Point {
    fn keep_best(&mut self, again: &Point) {
        self.rust = self.rust.min(again.rust);
        self.program = self.program.min(again.program);
    }
}

fn main() {
    let arguments: Vec<String> = std::env::args().skip(1).collect();
    let folder = PathBuf::from(arguments.first().expect("a folder for the images"));
    let program = arguments.get(1).map(PathBuf::from);
    fs::create_dir_all(&folder).expect("the folder can be made");
    let work = move || measure(&folder, program.as_deref());
    // Functions nest 4,096 deep, and the Rust visits them by recursion.
    let thread = std::thread::Builder::new().stack_size(1 << 28).spawn(work);
    let all = thread.expect("a thread").join().expect("the measurement");
    table::print(&all);
    if let Some(path) = arguments.get(2) {
        fs::write(path, plot::svg(&all)).expect("the plot can be written");
    }
}

fn measure(folder: &Path, program: Option<&Path>) -> Vec<Series> {
    let mut best = measure_once(folder, program);
    for _ in 1..ROUNDS {
        let again = measure_once(folder, program);
        let points = again.iter().flat_map(|series| &series.points);
        let kept = best.iter_mut().flat_map(|series| &mut series.points);
        kept.zip(points).for_each(|(point, other)| point.keep_best(other));
    }
    best
}

fn measure_once(folder: &Path, program: Option<&Path>) -> Vec<Series> {
    families::all()
        .into_iter()
        .map(|family| {
            eprintln!("{}", family.title);
            let sizes = family.sizes.to_vec();
            let points = sizes.into_iter().map(|size| point(&family, size, folder, program));
            Series { points: points.collect(), family }
        })
        .collect()
}

fn point(family: &Family, size: usize, folder: &Path, program: Option<&Path>) -> Point {
    let input = (family.make)(size);
    let bytes = image::write(&input);
    let path = folder.join(format!("{}-{size}.img", family.name));
    fs::write(&path, &bytes).expect("the image can be written");
    Point {
        size,
        rows: input.rows(),
        identifiers: input.identifiers.len(),
        rust: (size <= family.rust_up_to).then(|| side::rust(&input)),
        program: program.map(|program| side::program(program, &path, input.rows())),
    }
}

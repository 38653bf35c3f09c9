//! Recorded answers: functions of which each rule decides some, with the answers of the Rust.

use std::collections::HashSet;
use std::fmt::Write;
use std::fs;
use std::path::Path;

use crate::coverage::{deciders, decides};
use crate::input::Input;
use crate::rules::{self, Change};
use crate::{generate, image, oracle, shrink};

/// For each rule so many functions are shrunk as long as the rule decides them, and so many
/// are kept as they were drawn.
const SHRUNK: usize = 10;
const DRAWN: usize = 6;
/// Shrinking often ends at a function already kept; so many attempts are made for a rule.
const ATTEMPTS: usize = 60;
/// Drawn functions have at most so many rows; some larger ones are added.
const ROWS: usize = 24;
const LARGE: usize = 12;
/// Seeds beyond those of the other modes.
const FIRST_SEED: u64 = 1 << 40;
const MOST_SEEDS: u64 = 400_000;

struct Selection {
    changes: Vec<Change>,
    shrunk: Vec<usize>,
    attempts: Vec<usize>,
    drawn: Vec<usize>,
    known: HashSet<Input>,
    small: Vec<Input>,
    plain: Vec<Input>,
}

/// Writes `stdin`, `stdout` (the inputs and their answers) and `coverage.txt` into a folder.
pub fn write(folder: &Path) {
    let mut selection = Selection::new();
    for seed in FIRST_SEED..FIRST_SEED + MOST_SEEDS {
        selection.consider(generate::input(seed));
        if selection.complete() {
            break;
        }
    }
    let large = large();
    let mut inputs = selection.small;
    inputs.sort_by_key(|input| image::write(input).len());
    inputs.extend(selection.plain);
    inputs.extend(large);
    save(folder, &inputs, &selection.changes);
}

impl Selection {
    fn new() -> Selection {
        let changes = rules::all();
        Selection {
            shrunk: vec![0; changes.len()],
            attempts: vec![0; changes.len()],
            drawn: vec![0; changes.len()],
            changes,
            known: HashSet::new(),
            small: Vec::new(),
            plain: Vec::new(),
        }
    }

    fn complete(&self) -> bool {
        let every = 0..self.changes.len();
        every.into_iter().all(|at| self.has_shrunk(at) && self.drawn[at] >= DRAWN)
    }

    fn has_shrunk(&self, rule: usize) -> bool {
        self.shrunk[rule] >= SHRUNK || self.attempts[rule] >= ATTEMPTS
    }

    fn consider(&mut self, input: Input) {
        if input.rows() > ROWS {
            return;
        }
        let answer = oracle::answer(&input);
        let deciding = deciders(&self.changes, &input, &answer);
        for &at in &deciding {
            if !self.has_shrunk(at) {
                self.attempts[at] += 1;
                let change = self.changes[at];
                let small =
                    shrink::smallest(&input, |all| all.iter().position(|i| decides(change, i)));
                if self.known.insert(small.clone()) {
                    self.shrunk[at] += 1;
                    self.small.push(small);
                }
            }
        }
        if deciding.iter().any(|&at| self.drawn[at] < DRAWN) && self.known.insert(input.clone()) {
            deciding.iter().for_each(|&at| self.drawn[at] += 1);
            self.plain.push(input);
        }
    }
}

/// The first functions with many rows, one of them as deep as rows may be.
fn large() -> Vec<Input> {
    let seeds = (FIRST_SEED..).map(generate::input);
    let mut found: Vec<Input> =
        seeds.filter(|input| (80..400).contains(&input.rows())).take(LARGE).collect();
    let deep = (FIRST_SEED..).map(generate::input).find(|input| depth(input) == 127);
    found.extend(deep);
    found
}

fn depth(input: &Input) -> usize {
    fn below(row: &crate::input::Row) -> usize {
        row.children.iter().map(|child| 1 + below(child)).max().unwrap_or(0)
    }
    input.trees.iter().map(|tree| below(&tree.body)).max().unwrap_or(0)
}

fn save(folder: &Path, inputs: &[Input], changes: &[Change]) {
    let mut lines = String::new();
    let mut answers = String::new();
    let mut places: Vec<Vec<usize>> = vec![Vec::new(); changes.len()];
    for (at, input) in inputs.iter().enumerate() {
        let answer = oracle::answer(input);
        let _ = writeln!(lines, "{}", image::to_hex(&image::write(input)));
        let _ = writeln!(answers, "{answer}");
        for rule in deciders(changes, input, &answer) {
            places[rule].push(at + 1);
        }
    }
    let coverage = coverage(inputs.len(), changes, &places);
    for (name, text) in [("stdin", lines), ("stdout", answers), ("coverage.txt", coverage)] {
        fs::write(folder.join(name), text).expect("the folder can be written");
    }
    let least = places.iter().map(Vec::len).min().unwrap_or(0);
    println!("{} functions, {} rules, each decides at least {least}", inputs.len(), changes.len());
}

/// Each rule's change, how many recorded functions it alters, and the lines of the first ones.
fn coverage(inputs: usize, changes: &[Change], places: &[Vec<usize>]) -> String {
    let mut text = format!("{inputs} functions; a changed rule, how many it alters, some lines\n");
    for (&change, lines) in changes.iter().zip(places) {
        let first: Vec<String> = lines.iter().take(5).map(usize::to_string).collect();
        let _ = writeln!(text, "{}: {}: {}", rules::title(change), lines.len(), first.join(" "));
    }
    text
}

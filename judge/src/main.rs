//! The modes of the judge; see README.md.

use std::io::{BufRead, Write};
use std::path::Path;
use std::process::exit;

use judge::drive::Session;
use judge::input::Input;
use judge::{
    definitions, exhaustive, generate, image, model, oracle, possible, print, record, rules,
};

const USAGE: &str =
    "judge bounded [PROGRAM..] | long SEED COUNT [PROGRAM..] | exhaustive [PROGRAM..]
      | record FOLDER | verify FOLDER FILE | definitions FOLDER FILE
      | answer | model | changed RULE | show";

/// The bounded run: so many seeds, and every so manieth function of the alphabets.
const BOUNDED_SEED: u64 = 1;
const BOUNDED_COUNT: u64 = 300_000;
const BOUNDED_STEP: usize = 7;
/// Rules are counted on one function of so many.
const SAMPLE: usize = 53;

fn main() {
    let arguments: Vec<String> = std::env::args().skip(1).collect();
    let words: Vec<&str> = arguments.iter().map(String::as_str).collect();
    match words[..] {
        ["bounded", ref rest @ ..] => bounded(program(rest)),
        ["long", seed, count, ref rest @ ..] => long(number(seed), number(count), program(rest)),
        ["exhaustive", ref rest @ ..] => all_short(program(rest)),
        ["record", folder] => record::write(Path::new(folder)),
        ["verify", folder, file] => {
            verify(Path::new(folder));
            verify_definitions(Path::new(folder), Path::new(file));
        }
        ["definitions", folder, file] => {
            let text = definitions::text(&inputs(Path::new(folder)));
            std::fs::write(file, text).expect("the file can be written");
        }
        ["answer"] => each_line(|input| oracle::answer(input).to_string()),
        ["changed", ref title @ ..] => changed(&title.join(" ")),
        ["model"] => each_line(|input| model::answer(input).to_string()),
        ["show"] => each_line(print::text),
        _ => {
            eprintln!("{USAGE}");
            exit(2)
        }
    }
}

fn program(words: &[&str]) -> Vec<String> {
    words.iter().map(|word| word.to_string()).collect()
}

/// Answers by the model under a change of one rule: a program that the judge must find wrong.
fn changed(title: &str) {
    let Some(&change) = rules::all().iter().find(|&&change| rules::title(change) == title) else {
        eprintln!("no rule {title}");
        exit(2)
    };
    each_line(|input| model::changed_answer(input, Some(change)).to_string())
}

fn number(word: &str) -> u64 {
    word.parse().unwrap_or_else(|_| {
        eprintln!("{word} is no number\n{USAGE}");
        exit(2)
    })
}

fn bounded(program: Vec<String>) {
    let short: usize = exhaustive::alphabets().iter().map(|a| a.count()).sum();
    let total = BOUNDED_COUNT as usize + short.div_ceil(BOUNDED_STEP);
    let mut session = Session::new(program, total, SAMPLE);
    for seed in BOUNDED_SEED..BOUNDED_SEED + BOUNDED_COUNT {
        session.compare(&generate::input(seed));
    }
    let mut number = 0;
    for alphabet in exhaustive::alphabets() {
        alphabet.each(&mut |input| {
            if number % BOUNDED_STEP == 0 {
                session.compare(input);
            }
            number += 1;
        });
    }
    session.finish();
}

/// Seeds from `seed << 32` on, so that long runs with different seeds share no function.
fn long(seed: u64, count: u64, program: Vec<String>) {
    let mut session = Session::new(program, count as usize, SAMPLE);
    let first = seed << 32;
    for seed in first..first + count {
        session.compare(&generate::input(seed));
    }
    session.finish();
}

fn all_short(program: Vec<String>) {
    let total = exhaustive::alphabets().iter().map(|a| a.count()).sum();
    let mut session = Session::new(program, total, SAMPLE);
    for alphabet in exhaustive::alphabets() {
        println!("{}: {} functions", alphabet.name, alphabet.count());
        alphabet.each(&mut |input| session.compare(input));
    }
    session.finish();
}

/// Checks that the recorded answers are those of the Rust and of the model.
fn verify(folder: &Path) {
    let (inputs, answers) = (inputs(folder), file(folder, "stdout"));
    assert_eq!(inputs.len(), answers.lines().count(), "as many answers as inputs");
    for (at, (input, answer)) in inputs.iter().zip(answers.lines()).enumerate() {
        let given = [oracle::answer(input).to_string(), model::answer(input).to_string()];
        if given.iter().any(|given| given != answer) {
            println!("line {}: recorded {answer}, Rust {}, model {}", at + 1, given[0], given[1]);
            exit(1);
        }
    }
    println!("{} recorded answers are those of the Rust and of the model", inputs.len());
}

/// Checks that the file of functions for the checker is what would be written.
fn verify_definitions(folder: &Path, path: &Path) {
    if definitions::text(&inputs(folder)) != std::fs::read_to_string(path).expect("the file") {
        println!("{} is not what the mode definitions writes", path.display());
        exit(1);
    }
    println!("{} has recorded functions and the answers of the Rust", path.display());
}

/// The recorded inputs of a folder.
fn inputs(folder: &Path) -> Vec<Input> {
    file(folder, "stdin").lines().map(|line| read(line).expect("a recorded image")).collect()
}

fn file(folder: &Path, name: &str) -> String {
    std::fs::read_to_string(folder.join(name)).expect("a recorded file")
}

fn read(line: &str) -> Result<Input, String> {
    let input = image::read(&image::from_hex(line)?)?;
    possible::check(&input)?;
    Ok(input)
}

/// Answers images in hexadecimal from standard input, line by line.
fn each_line(answer: impl Fn(&Input) -> String) {
    let mut out = std::io::BufWriter::new(std::io::stdout().lock());
    for line in std::io::stdin().lock().lines() {
        let answer = match read(line.expect("text").trim()) {
            Ok(input) => answer(&input),
            Err(what) => format!("not an input of the Rust: {what}"),
        };
        writeln!(out, "{answer}").expect("standard output");
    }
}

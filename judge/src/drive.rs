//! Sends functions to the Rust, to the model and to the program under judgement, compares what
//! they answer, and shrinks the first difference.

use std::io::{IsTerminal, Write};
use std::panic::catch_unwind;
use std::time::{Duration, Instant};

use crate::child::{Running, ask};
use crate::coverage::Coverage;
use crate::image;
use crate::input::Input;
use crate::{model, oracle, print, shrink};

/// How many functions one process of the program gets.
const CHUNK: usize = 10_000;

pub struct Session {
    /// The program under judgement with its arguments; without one the model stands alone.
    program: Vec<String>,
    running: Option<Running>,
    /// Images sent to the running process, with the answers of the Rust.
    sent: Vec<(String, String)>,
    coverage: Coverage,
    /// Rules are counted on every function whose number this divides.
    sample: usize,
    count: usize,
    rows: usize,
    runs: usize,
    /// How many functions will come, for the progress line.
    total: usize,
    started: Instant,
    shown: Instant,
}

impl Session {
    pub fn new(program: Vec<String>, total: usize, sample: usize) -> Session {
        let now = Instant::now();
        Session {
            program,
            running: None,
            sent: Vec::new(),
            coverage: Coverage::default(),
            sample,
            count: 0,
            rows: 0,
            runs: 0,
            total,
            started: now,
            shown: now,
        }
    }

    /// Compares the sides on one function; ends the program at a difference.
    pub fn compare(&mut self, input: &Input) {
        let Ok(answer) = catch_unwind(|| oracle::answer(input)) else {
            fail("the Rust did not come to an answer", input);
        };
        let expected = answer.to_string();
        if model::answer(input) != answer {
            self.model_differs(input);
        }
        self.coverage.count(input, &answer);
        if self.count.is_multiple_of(self.sample) {
            self.coverage.count_rules(input, &answer);
        }
        self.count += 1;
        self.rows += input.rows();
        self.runs += input.trees.len();
        self.send(input, expected);
        self.progress();
    }

    fn send(&mut self, input: &Input, expected: String) {
        if self.program.is_empty() {
            return;
        }
        let running = self.running.get_or_insert_with(|| Running::start(&self.program));
        let line = image::to_hex(&image::write(input));
        running.send(line.clone());
        self.sent.push((line, expected));
        if self.sent.len() == CHUNK {
            self.receive();
        }
    }

    /// Ends the running process and compares its answers.
    fn receive(&mut self) {
        let Some(running) = self.running.take() else { return };
        let answers = running.finish();
        let sent = std::mem::take(&mut self.sent);
        for (at, (line, expected)) in sent.iter().enumerate() {
            if answers.get(at) != Some(expected) {
                self.program_differs(&read(line));
            }
        }
    }

    fn progress(&mut self) {
        if self.shown.elapsed() < Duration::from_secs(2) {
            return;
        }
        self.shown = Instant::now();
        let seconds = self.started.elapsed().as_secs_f64();
        let (count, total) = (self.count, self.total);
        let rate = count as f64 / seconds;
        let (start, end) = if std::io::stderr().is_terminal() { ("\r", "") } else { ("", "\n") };
        eprint!("{start}{count} of {total} functions, {rate:.0} a second, no difference{end}");
        let _ = std::io::stderr().flush();
    }

    /// Receives what is still out and prints the figures.
    pub fn finish(mut self) {
        self.receive();
        let seconds = self.started.elapsed().as_secs_f64();
        self.coverage.print();
        let sides = match self.program.first() {
            Some(program) => format!("the Rust, the model and {program}"),
            None => "the Rust and the model".to_string(),
        };
        println!(
            "{} functions, {} runs, {} rows in {seconds:.0} s: {sides} agree",
            self.count, self.runs, self.rows
        );
    }

    fn model_differs(&self, input: &Input) -> ! {
        let differs = |input: &Input| oracle::answer(input) != model::answer(input);
        let small = shrink::smallest(input, |candidates| candidates.iter().position(differs));
        println!("Rust  {}\nmodel {}", oracle::answer(&small), model::answer(&small));
        fail("the Rust and the model differ", &small)
    }

    fn program_differs(&self, input: &Input) -> ! {
        let answers = |inputs: &[Input]| {
            ask(&self.program, inputs.iter().map(|i| image::to_hex(&image::write(i))).collect())
        };
        let small = shrink::smallest(input, |candidates| {
            let given = answers(candidates);
            (0..candidates.len())
                .find(|&at| given.get(at) != Some(&oracle::answer(&candidates[at]).to_string()))
        });
        let given = answers(std::slice::from_ref(&small));
        let given = given.first().map_or("(no answer)", |line| line);
        println!("Rust    {}\nprogram {given}", oracle::answer(&small));
        fail("the Rust and the program differ", &small)
    }
}

fn read(line: &str) -> Input {
    image::read(&image::from_hex(line).expect("digits")).expect("an image written here")
}

/// Prints an input and ends the program.
fn fail(what: &str, input: &Input) -> ! {
    println!("{}{}", print::text(input), image::to_hex(&image::write(input)));
    println!("{what}");
    std::process::exit(1)
}

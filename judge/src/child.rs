//! A program that reads images in hexadecimal, a line each, and prints an answer line for each.

use std::io::{BufRead, BufReader, BufWriter, Write};
use std::process::{Child, Command, Stdio};
use std::sync::mpsc::{SyncSender, sync_channel};
use std::thread::{JoinHandle, spawn};

/// A running program. One thread writes and one reads, so that neither pipe can block the other.
pub struct Running {
    lines: SyncSender<String>,
    writer: JoinHandle<()>,
    reader: JoinHandle<Vec<String>>,
    child: Child,
}

impl Running {
    /// Starts a program, given with its arguments.
    pub fn start(program: &[String]) -> Running {
        let mut child = Command::new(&program[0])
            .args(&program[1..])
            .stdin(Stdio::piped())
            .stdout(Stdio::piped())
            .spawn()
            .unwrap_or_else(|error| panic!("{} does not start: {error}", program[0]));
        let input = child.stdin.take().expect("a pipe");
        let output = child.stdout.take().expect("a pipe");
        let (lines, queue) = sync_channel::<String>(256);
        let writer = spawn(move || {
            let mut input = BufWriter::new(input);
            for line in queue {
                // A program that ended early shows by its missing answers.
                if writeln!(input, "{line}").is_err() {
                    break;
                }
            }
        });
        let reader = spawn(move || BufReader::new(output).lines().map_while(Result::ok).collect());
        Running { lines, writer, reader, child }
    }

    pub fn send(&self, line: String) {
        let _ = self.lines.send(line);
    }

    /// Ends the input and gives all answers.
    pub fn finish(mut self) -> Vec<String> {
        drop(self.lines);
        self.writer.join().expect("the writing thread");
        let answers = self.reader.join().expect("the reading thread");
        let _ = self.child.wait();
        answers
    }
}

/// The answers of a new process to some lines.
pub fn ask(program: &[String], lines: Vec<String>) -> Vec<String> {
    let running = Running::start(program);
    for line in lines {
        running.send(line);
    }
    running.finish()
}

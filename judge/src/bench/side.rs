//! The time of one run on each side: the best of many.

use std::fs::File;
use std::path::Path;
use std::process::{Command, Stdio};
use std::time::{Duration, Instant};

use judge::input::Input;
use judge::possible;
use judge::values::{self, Values};
use oxc_allocator::Allocator;
use oxc_react_compiler::react_compiler_hir::IdentifierId;
use oxc_react_compiler::react_compiler_reactive_scopes::promote_used_temporaries::promote_used_temporaries;

/// Runs are repeated for so long, at least twice.
const SPAN: Duration = Duration::from_millis(400);
const MOST: usize = 20_000;

/// Nanoseconds of the pass alone; its values are made before, and its names taken back after.
pub fn rust(input: &Input) -> u64 {
    let arena = Allocator::default();
    let values = Values { arena: &arena };
    let contexts = possible::contexts(input).expect("one context for each function");
    let mut env = values.environment(input, &contexts);
    let mut function = values.tree(&input.trees[0]);
    let mut best = u64::MAX;
    let started = Instant::now();
    for round in 0..MOST {
        let from = Instant::now();
        promote_used_temporaries(&mut function, &mut env);
        best = best.min(from.elapsed().as_nanos() as u64);
        if round > 0 && started.elapsed() > SPAN {
            break;
        }
        for (at, row) in input.identifiers.iter().enumerate() {
            let name = values::name(&arena, row.declaration, row.tag);
            env.identifiers[IdentifierId::from_usize(at)].name = name;
        }
    }
    best
}

/// Nanoseconds that a program prints for an image, after a check of the number of rows.
pub fn program(program: &Path, image: &Path, rows: usize) -> u64 {
    let input = File::open(image).expect("the image");
    let output = Command::new(program)
        .stdin(Stdio::from(input))
        .output()
        .unwrap_or_else(|error| panic!("{} does not start: {error}", program.display()));
    let line = String::from_utf8_lossy(&output.stdout);
    let numbers: Vec<u64> = line.split_whitespace().flat_map(str::parse).collect();
    match numbers[..] {
        [nanoseconds, counted] if counted == rows as u64 => nanoseconds,
        _ => panic!("{} on {}: {line}", program.display(), image.display()),
    }
}

//! For each rule, how many inputs it decided.

use crate::answer::Answer;
use crate::input::{CODES, Input, KINDS};
use crate::model;
use crate::rules::{self, Change};

pub struct Coverage {
    changes: Vec<Change>,
    decided: Vec<usize>,
    inputs: usize,
    reasons: [usize; 7],
    codes: [usize; 25],
    kinds: [usize; 42],
    deepest: usize,
}

impl Default for Coverage {
    fn default() -> Self {
        let changes = rules::all();
        let decided = vec![0; changes.len()];
        Coverage {
            changes,
            decided,
            inputs: 0,
            reasons: [0; 7],
            codes: [0; 25],
            kinds: [0; 42],
            deepest: 0,
        }
    }
}

/// The rules, by place in the list of all, that decide an input whose answer is given.
pub fn deciders(changes: &[Change], input: &Input, answer: &Answer) -> Vec<usize> {
    (0..changes.len())
        .filter(|&at| model::changed_answer(input, Some(changes[at])) != *answer)
        .collect()
}

/// Whether a rule decides an input.
pub fn decides(change: Change, input: &Input) -> bool {
    model::changed_answer(input, Some(change)) != model::answer(input)
}

impl Coverage {
    /// Counts what an input holds and what was named in it.
    pub fn count(&mut self, input: &Input, answer: &Answer) {
        for run in &answer.runs {
            for &(_, reason) in &run.journal {
                self.reasons[usize::from(reason)] += 1;
            }
        }
        for tree in &input.trees {
            self.rows(&tree.body, 0);
        }
    }

    fn rows(&mut self, row: &crate::input::Row, depth: usize) {
        self.deepest = self.deepest.max(depth);
        self.codes[usize::from(row.code)] += 1;
        if row.code == crate::input::LEAF {
            self.kinds[usize::from(row.kind)] += 1;
        }
        for child in &row.children {
            self.rows(child, depth + 1);
        }
    }

    /// Counts which rules decide an input.
    pub fn count_rules(&mut self, input: &Input, answer: &Answer) {
        self.inputs += 1;
        for at in deciders(&self.changes, input, answer) {
            self.decided[at] += 1;
        }
    }

    /// The rules that decided no input.
    pub fn idle(&self) -> Vec<String> {
        let idle = self.changes.iter().zip(&self.decided).filter(|&(_, &count)| count == 0);
        idle.map(|(&change, _)| rules::title(change)).collect()
    }

    pub fn print(&self) {
        let names: Vec<String> = (1..7).map(|at| format!("{at}: {}", self.reasons[at])).collect();
        println!("names by reason    {}", names.join(", "));
        let pair = |(name, count): (&&str, &usize)| format!("{name} {count}");
        let codes: Vec<String> = CODES.iter().zip(&self.codes).skip(1).map(pair).collect();
        println!("rows by code       {}", codes.join(", "));
        let kinds: Vec<String> = KINDS.iter().zip(&self.kinds).map(pair).collect();
        println!("Leafs by kind      {}", kinds.join(", "));
        println!("deepest row        {}", self.deepest);
        self.print_rules();
    }

    fn print_rules(&self) {
        println!("rules, with how many of {} functions each decided:", self.inputs);
        let mut line = String::new();
        for (&change, count) in self.changes.iter().zip(&self.decided) {
            let item = format!("  {} {count};", rules::title(change));
            if line.len() + item.len() > 110 {
                println!("{line}");
                line.clear();
            }
            line.push_str(&item);
        }
        println!("{line}");
        let least = self.decided.iter().min().unwrap_or(&0);
        println!("rules: {}, least decided: {least}", self.changes.len());
        for idle in self.idle() {
            println!("not decided: {idle}");
        }
    }
}

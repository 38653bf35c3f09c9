//! An input in readable lines.

use std::fmt::Write;

use crate::input::*;

pub fn text(input: &Input) -> String {
    let mut out = String::new();
    for (i, row) in input.identifiers.iter().enumerate() {
        let _ = writeln!(out, "identifier {i}: declaration {}, tag {}", row.declaration, row.tag);
    }
    for (i, scope) in input.scopes.iter().enumerate() {
        let _ = writeln!(
            out,
            "scope {i}: dependencies {:?}, declarations {:?}, reassignments {:?}",
            scope.dependencies, scope.declarations, scope.reassignments
        );
    }
    for (i, function) in input.functions.iter().enumerate() {
        let _ = writeln!(
            out,
            "function {i}: parameters {:?}, nested {:?}",
            function.parameters, function.nested
        );
    }
    for (i, tree) in input.trees.iter().enumerate() {
        let _ = writeln!(out, "tree {i}: own parameters {:?}", tree.parameters);
        row(&mut out, &tree.body, 1);
    }
    out
}

fn row(out: &mut String, given: &Row, depth: usize) {
    let _ = write!(out, "{:1$}{2}", "", 2 * depth, CODES[usize::from(given.code)]);
    if let Some(identifier) = given.identifier {
        let _ = write!(out, " identifier {identifier}");
    }
    if let Some(number) = given.number {
        let _ = write!(out, " number {number}");
    }
    if given.code == LEAF {
        leaf(out, given);
    }
    out.push('\n');
    for child in &given.children {
        row(out, child, depth + 1);
    }
}

fn leaf(out: &mut String, given: &Row) {
    let _ = write!(out, " kind {} {}", given.kind, KINDS[usize::from(given.kind)]);
    if (2..=6).contains(&given.kind) {
        let _ = write!(out, ", mode {}", given.mode);
    }
    let _ = write!(out, ", operands {:?}, marks {:?}", given.operands, given.marks);
}

//! Recorded functions as data of the checker, with the answers of the Rust: the file
//! `crates/recorded/specs/Recorded.antt`.

use std::collections::BTreeMap;
use std::fmt::{Display, Write};

use crate::answer::Run;
use crate::coverage::decides;
use crate::input::*;
use crate::{oracle, rules};

const MODES: [&str; 8] = [
    "Const",
    "Let",
    "Reassign",
    "Catch",
    "HoistedConst",
    "HoistedLet",
    "HoistedFunction",
    "Function",
];
const REASONS: [&str; 7] =
    ["?", "OwnParameter", "Scope", "Escape", "InnerParameter", "Interposed", "SameDeclaration"];
/// Rows are put on one line up to so many letters.
const WIDTH: usize = 120;

/// The whole file, from the recorded inputs: for each rule the first that it decides.
pub fn text(inputs: &[Input]) -> String {
    let chosen = chosen(inputs);
    let mut out = head(chosen.len());
    for (at, rules) in chosen {
        let _ = writeln!(out, "    -- line {}: {}", at + 1, rules.join(", "));
        function(&mut out, &inputs[at]);
    }
    out.push_str("    []\n");
    out
}

/// The places of the chosen inputs, with the rules that decide no input before.
fn chosen(inputs: &[Input]) -> BTreeMap<usize, Vec<String>> {
    let mut chosen = BTreeMap::<usize, Vec<String>>::new();
    for change in rules::all() {
        let first = inputs.iter().position(|input| decides(change, input));
        let title = rules::title(change);
        let at = first.unwrap_or_else(|| panic!("{title} decides no recorded function"));
        chosen.entry(at).or_default().push(title);
    }
    chosen
}

fn head(count: usize) -> String {
    format!(
        "-- {count} recorded functions: of each changed rule the first that it alters. Made by `judge/run definitions`. Assumes nothing.
use Rattle.std.specs.Prelude.{{List, [], ◌∷◌}}
use Rattle.hir.specs.declared.tables.Reason.TheVariants as reasons
use Rattle.reactive.specs.declared.code.Code.TheVariants as codes
use Rattle.reactive.specs.declared.kind.Kind.TheVariants as kinds
use Rattle.reactive.specs.declared.mode.Mode.TheVariants as modes
use Rattle.recorded.specs.Tables.{{Recorded, recorded, run, row, identified, numbered, leaf, mode_leaf, function_leaf}}

-- each with its line in crates/replay/stdin, and the changes of rules for which it was chosen
abbrev pub functions : List Recorded
functions =
"
    )
}

fn function(out: &mut String, input: &Input) {
    let identifiers = input.identifiers.iter().map(|row| (row.declaration, row.tag));
    let scopes = input.scopes.iter().map(|scope| {
        let Scope { dependencies, declarations, reassignments } = scope;
        format!("({}, {}, {})", list(dependencies), list(declarations), list(reassignments))
    });
    let functions = input
        .functions
        .iter()
        .map(|function| format!("({}, {})", list(&function.parameters), list(&function.nested)));
    let identifiers = list(identifiers.map(|(declaration, tag)| format!("({declaration}, {tag})")));
    let _ = write!(out, "    recorded {identifiers} {} {} (", list(scopes), list(functions));
    for (tree, answer) in input.trees.iter().zip(&oracle::answer(input).runs) {
        run(out, tree, answer);
    }
    out.push_str("[]) ∷\n");
}

fn run(out: &mut String, tree: &Tree, answer: &Run) {
    let journal = answer.journal.iter().map(|&(identifier, reason)| {
        format!("({identifier}, reasons.{})", REASONS[usize::from(reason)])
    });
    let _ = writeln!(out, "run {}", list(&tree.parameters));
    rows(out, &tree.body);
    let _ = write!(out, "    {} {} ∷ ", list(journal), list(&answer.tags));
}

/// The rows within the first Block, several on a line.
fn rows(out: &mut String, block: &Row) {
    let (mut text, mut width) = (String::new(), 0);
    for row in texts(block, 0).iter().skip(1) {
        if width + row.len() > WIDTH {
            text.truncate(text.trim_end().len());
            text.push_str("\n    ");
            width = 0;
        }
        width += row.len();
        let _ = write!(text, "{row} ∷ ");
    }
    let _ = writeln!(out, "    {}", closed(&text));
}

/// A row at a depth, and the rows within it.
fn texts(row: &Row, depth: usize) -> Vec<String> {
    let within = row.children.iter().flat_map(|child| texts(child, depth + 1));
    [text_of(row, depth)].into_iter().chain(within).collect()
}

fn text_of(row: &Row, depth: usize) -> String {
    let code = CODES[usize::from(row.code)];
    match (row.code, row.identifier, row.number) {
        (LEAF, ..) => leaf(row, depth),
        (_, Some(identifier), _) => format!("identified {depth} codes.{code} {identifier}"),
        (_, _, Some(scope)) => format!("numbered {depth} codes.{code} {scope}"),
        _ => format!("row {depth} codes.{code}"),
    }
}

fn leaf(row: &Row, depth: usize) -> String {
    let kind = KINDS[usize::from(row.kind)];
    let (operands, marks) = (list(&row.operands), list(&row.marks));
    if let Some(function) = row.number {
        return format!("function_leaf {depth} kinds.{kind} {function} {operands}");
    }
    if (2..=6).contains(&row.kind) {
        let mode = MODES[usize::from(row.mode)];
        return format!("mode_leaf {depth} kinds.{kind} modes.{mode} {operands} {marks}");
    }
    format!("leaf {depth} kinds.{kind} {operands} {marks}")
}

fn list(items: impl IntoIterator<Item = impl Display>) -> String {
    let text: String = items.into_iter().map(|item| format!("{item} ∷ ")).collect();
    closed(&text)
}

/// A list of which the elements, each before a `∷`, are written.
fn closed(elements: &str) -> String {
    if elements.is_empty() { "[]".to_string() } else { format!("({elements}[])") }
}

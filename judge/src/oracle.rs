//! The unchanged pass run on an input: the tags after each run, and what it named in which order.

use oxc_allocator::Allocator;
use oxc_index::trace;
use oxc_react_compiler::react_compiler_hir::environment::Environment;
use oxc_react_compiler::react_compiler_hir::visitors::{
    each_instruction_value_operand, each_pattern_operand,
};
use oxc_react_compiler::react_compiler_hir::{
    Identifier, IdentifierName, InstructionValue, JsxTag, ReactiveValue,
};
use oxc_react_compiler::react_compiler_reactive_scopes::promote_used_temporaries::promote_used_temporaries;

use crate::answer::{Answer, Run};
use crate::input::{Input, LEAF, Row};
use crate::possible;
use crate::values::{AUTHOR, Values};

/// The line of `promote_identifier` that reads its identifier, and the two that write a name.
const READ: u32 = 1019;
const WRITE_TAG: u32 = 1027;
const WRITE_PLAIN: u32 = 1030;

/// The reason, by the line whose read comes last before `promote_identifier` is reached.
fn reason(line: u32) -> u8 {
    match line {
        80 => 1,
        306 => 2,
        327 => 3,
        454 => 4,
        535 => 5,
        816 | 858 | 864 | 870 | 878 | 916 => 6,
        _ => panic!("promote_identifier was reached from line {line}"),
    }
}

/// Runs every tree on one environment. The input must be one that the Rust can have.
pub fn answer(input: &Input) -> Answer {
    let arena = Allocator::default();
    let values = Values { arena: &arena };
    let contexts = possible::contexts(input).expect("an input that the Rust can have");
    let mut env = values.environment(input, &contexts);
    let mut answer = Answer::default();
    for tree in &input.trees {
        let mut function = values.tree(tree);
        same_operands(&values, &tree.body, &env);
        trace::take();
        promote_used_temporaries(&mut function, &mut env);
        let journal = journal(&trace::take());
        let tags = env.identifiers.iter().map(tag).collect();
        answer.runs.push(Run { tags, journal });
    }
    answer
}

/// What `promote_identifier` named, in order.
fn journal(writes: &[trace::Write]) -> Vec<(u32, u8)> {
    let names = writes.iter().filter(|write| matches!(write.line, WRITE_TAG | WRITE_PLAIN));
    names
        .map(|write| {
            assert_eq!(write.read, READ, "a name was written elsewhere");
            (write.index as u32, reason(write.read_before))
        })
        .collect()
}

/// The tag of an identifier; a promoted name must have the exact text.
fn tag(identifier: &Identifier) -> u8 {
    let number = identifier.declaration_id.index();
    match identifier.name {
        None => 0,
        Some(IdentifierName::Named(name)) => {
            assert_eq!(name.as_str(), AUTHOR);
            1
        }
        Some(IdentifierName::Promoted(name)) if name.as_str() == format!("#t{number}") => 2,
        Some(IdentifierName::Promoted(name)) if name.as_str() == format!("#T{number}") => 3,
        Some(IdentifierName::Promoted(name)) => panic!("the promoted name {name}"),
    }
}

/// Checks that each Leaf became a value with the row's operands and marks.
fn same_operands(values: &Values, row: &Row, env: &Environment) {
    if row.code == LEAF {
        let ReactiveValue::Instruction(value) = values.value(row) else { panic!("a Leaf") };
        let operands: Vec<u32> = each_instruction_value_operand(&value, env)
            .into_iter()
            .map(|place| place.identifier.index() as u32)
            .collect();
        assert_eq!(operands, row.operands, "operands of kind {}", row.kind);
        assert_eq!(marks(&value), row.marks, "marks of kind {}", row.kind);
    }
    for child in &row.children {
        same_operands(values, child, env);
    }
}

/// The marks of a value: the places that the pass looks at beside the operands.
fn marks(value: &InstructionValue) -> Vec<u32> {
    let places = match value {
        InstructionValue::LoadLocal { place, .. } | InstructionValue::LoadContext { place, .. } => {
            vec![*place]
        }
        InstructionValue::DeclareLocal { lvalue, .. }
        | InstructionValue::DeclareContext { lvalue, .. }
        | InstructionValue::StoreLocal { lvalue, .. }
        | InstructionValue::StoreContext { lvalue, .. } => vec![lvalue.place],
        InstructionValue::Destructure { lvalue, .. } => {
            each_pattern_operand(&lvalue.pattern).into_iter().collect()
        }
        InstructionValue::MethodCall { property, .. } => vec![*property],
        InstructionValue::PropertyLoad { object, .. }
        | InstructionValue::ComputedLoad { object, .. } => vec![*object],
        InstructionValue::JsxExpression { tag: JsxTag::Place(place), .. } => vec![*place],
        _ => Vec::new(),
    };
    places.into_iter().map(|place| place.identifier.index() as u32).collect()
}

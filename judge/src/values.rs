//! The Rust values of an input: an environment, and one reactive function for each tree.

use oxc_allocator::{Allocator, Box as ArenaBox, Vec as ArenaVec};
use oxc_ast::ast::LogicalOperator;
use oxc_react_compiler::react_compiler_hir::environment::Environment;
use oxc_react_compiler::react_compiler_hir::environment_config::EnvironmentConfig;
use oxc_react_compiler::react_compiler_hir::*;
use oxc_react_compiler::react_compiler_utils::OrderedMap;
use oxc_str::{Ident, format_ident};

use crate::input::{self, Input, Row, Tree};

/// The name of every identifier with tag 1.
pub const AUTHOR: &str = "author";

/// Makes the values of one input in one arena.
pub struct Values<'a> {
    pub arena: &'a Allocator,
}

pub fn place(identifier: u32) -> Place {
    Place {
        identifier: IdentifierId::from_usize(identifier as usize),
        effect: Effect::Unknown,
        reactive: false,
        span: None,
    }
}

/// A name by its tag.
pub fn name(arena: &Allocator, declaration: u32, tag: u8) -> Option<IdentifierName<'_>> {
    match tag {
        0 => None,
        1 => Some(IdentifierName::Named(Ident::from(AUTHOR))),
        2 => Some(IdentifierName::Promoted(format_ident!(arena, "#t{}", declaration))),
        _ => Some(IdentifierName::Promoted(format_ident!(arena, "#T{}", declaration))),
    }
}

pub(crate) fn spread(identifier: u32) -> SpreadPattern {
    SpreadPattern { place: place(identifier) }
}

fn parameter(at: usize, identifier: u32) -> ParamPattern {
    if at.is_multiple_of(2) {
        ParamPattern::Place(place(identifier))
    } else {
        ParamPattern::Spread(spread(identifier))
    }
}

fn parameters(list: &[u32]) -> impl Iterator<Item = ParamPattern> {
    list.iter().enumerate().map(|(at, &identifier)| parameter(at, identifier))
}

impl<'a> Values<'a> {
    /// The environment; `contexts` are the operands of the Leafs that name each function.
    pub fn environment(&self, input: &Input, contexts: &[Vec<u32>]) -> Environment<'a> {
        let mut env = Environment::with_config(self.arena, EnvironmentConfig::default());
        for row in &input.identifiers {
            let id = env.next_identifier_id();
            env.identifiers[id].declaration_id =
                DeclarationId::from_usize(row.declaration as usize);
            env.identifiers[id].name = name(self.arena, row.declaration, row.tag);
        }
        for scope in &input.scopes {
            self.scope(&mut env, scope);
        }
        for (function, context) in input.functions.iter().zip(contexts) {
            let made = self.function(function, context);
            env.add_function(made);
        }
        env
    }

    fn scope(&self, env: &mut Environment<'a>, given: &input::Scope) {
        let id = env.next_scope_id();
        let scope = &mut env.scopes[id];
        for &identifier in &given.dependencies {
            scope.dependencies.push(ReactiveScopeDependency {
                identifier: IdentifierId::from_usize(identifier as usize),
                reactive: false,
                path: ArenaVec::new_in(&self.arena),
                span: None,
            });
        }
        for &identifier in &given.declarations {
            let identifier = IdentifierId::from_usize(identifier as usize);
            let declaration = ReactiveScopeDeclaration { identifier, scope: id };
            scope.declarations.push((identifier, declaration));
        }
        for &identifier in &given.reassignments {
            scope.reassignments.push(IdentifierId::from_usize(identifier as usize));
        }
    }

    /// Nested functions stand two to a block, each beside an instruction of another kind.
    fn function(&self, given: &input::Function, context: &[u32]) -> HirFunction<'a> {
        let mut instructions = ArenaVec::new_in(&self.arena);
        let mut blocks = OrderedMap::default();
        for (at, pair) in given.nested.chunks(2).enumerate() {
            let mut ids = ArenaVec::new_in(&self.arena);
            for &nested in pair {
                for value in [InstructionValue::Debugger { span: None }, nested_function(nested)] {
                    ids.push(InstructionId::from_usize(instructions.len()));
                    instructions.push(instruction(value));
                }
            }
            let id = BlockId::from_usize(at);
            blocks.insert(id, self.basic_block(id, ids));
        }
        HirFunction {
            span: None,
            id: None,
            name_hint: None,
            fn_type: ReactFunctionType::Other,
            params: self.list(parameters(&given.parameters)),
            returns: place(0),
            context: self.list(context.iter().map(|&identifier| place(identifier))),
            body: HIR { entry: BlockId::ENTRY, blocks },
            instructions,
            generator: false,
            is_async: false,
            directives: ArenaVec::new_in(&self.arena),
            aliasing_effects: None,
        }
    }

    fn basic_block(
        &self,
        id: BlockId,
        instructions: ArenaVec<'a, InstructionId>,
    ) -> BasicBlock<'a> {
        BasicBlock {
            kind: BlockKind::Block,
            id,
            instructions,
            terminal: Terminal::Unreachable { id: EvaluationOrder::UNSET, span: None },
            preds: Default::default(),
            phis: ArenaVec::new_in(&self.arena),
        }
    }

    pub(crate) fn list<T>(&self, items: impl Iterator<Item = T>) -> ArenaVec<'a, T> {
        ArenaVec::from_iter_in(items, &self.arena)
    }

    /// The reactive function of a tree.
    pub fn tree(&self, tree: &Tree) -> ReactiveFunction<'a> {
        ReactiveFunction {
            span: None,
            id: None,
            name_hint: None,
            params: parameters(&tree.parameters).collect(),
            generator: false,
            is_async: false,
            body: self.block(&tree.body),
            directives: Vec::new(),
        }
    }

    fn block(&self, row: &Row) -> ReactiveBlock<'a> {
        self.list(row.children.iter().map(|child| self.statement(child)))
    }

    fn statement(&self, row: &Row) -> ReactiveStatement<'a> {
        match row.code {
            input::INSTRUCTION => ReactiveStatement::Instruction(self.instruction(row)),
            input::SCOPE => ReactiveStatement::Scope(ReactiveScopeBlock {
                scope: scope_id(row),
                instructions: self.block(&row.children[0]),
            }),
            input::PRUNED => ReactiveStatement::PrunedScope(PrunedReactiveScopeBlock {
                scope: scope_id(row),
                instructions: self.block(&row.children[0]),
            }),
            _ => {
                let terminal = self.terminal(row);
                let statement = ReactiveTerminalStatement { terminal, label: None };
                ReactiveStatement::Terminal(ArenaBox::new_in(statement, &self.arena))
            }
        }
    }

    fn instruction(&self, row: &Row) -> ReactiveInstruction<'a> {
        ReactiveInstruction {
            id: EvaluationOrder::UNSET,
            lvalue: row.identifier.map(place),
            value: self.value(&row.children[0]),
            span: None,
        }
    }

    fn boxed(&self, row: &Row) -> ArenaBox<'a, ReactiveValue<'a>> {
        ArenaBox::new_in(self.value(row), &self.arena)
    }

    pub fn value(&self, row: &Row) -> ReactiveValue<'a> {
        let below = &row.children;
        match row.code {
            input::LEAF => ReactiveValue::Instruction(self.leaf(row)),
            input::LOGICAL => ReactiveValue::LogicalExpression {
                operator: LogicalOperator::And,
                left: self.boxed(&below[0]),
                right: self.boxed(&below[1]),
            },
            input::CONDITIONAL => ReactiveValue::ConditionalExpression {
                test: self.boxed(&below[0]),
                consequent: self.boxed(&below[1]),
                alternate: self.boxed(&below[2]),
            },
            input::SEQUENCE => {
                let (last, instructions) = below.split_last().expect("a value at the end");
                ReactiveValue::SequenceExpression {
                    instructions: self.list(instructions.iter().map(|row| self.instruction(row))),
                    id: EvaluationOrder::UNSET,
                    value: self.boxed(last),
                }
            }
            input::OPTIONAL => {
                ReactiveValue::OptionalExpression { value: self.boxed(&below[0]), optional: true }
            }
            code => panic!("code {code} is no value"),
        }
    }

    fn terminal(&self, row: &Row) -> ReactiveTerminal<'a> {
        let id = EvaluationOrder::UNSET;
        let below = &row.children;
        let target = BlockId::ENTRY;
        let target_kind = ReactiveTerminalTargetKind::Implicit;
        match row.code {
            input::BREAK => ReactiveTerminal::Break { target, id, target_kind },
            input::CONTINUE => ReactiveTerminal::Continue { target, id, target_kind },
            input::RETURN => ReactiveTerminal::Return { value: required(row), id },
            input::THROW => ReactiveTerminal::Throw { value: required(row), id },
            input::SWITCH => ReactiveTerminal::Switch {
                test: required(row),
                cases: self.list(below.iter().map(|case| self.case(case))),
                id,
            },
            input::DO_WHILE => ReactiveTerminal::DoWhile {
                loop_block: self.block(&below[0]),
                test: self.value(&below[1]),
                id,
            },
            input::WHILE => ReactiveTerminal::While {
                test: self.value(&below[0]),
                loop_block: self.block(&below[1]),
                id,
            },
            input::FOR => ReactiveTerminal::For {
                init: self.value(&below[0]),
                test: self.value(&below[1]),
                update: below.get(3).map(|update| self.value(update)),
                loop_block: self.block(&below[2]),
                id,
            },
            input::FOR_OF => ReactiveTerminal::ForOf {
                init: self.value(&below[0]),
                test: self.value(&below[1]),
                loop_block: self.block(&below[2]),
                id,
                span: None,
            },
            input::FOR_IN => ReactiveTerminal::ForIn {
                init: self.value(&below[0]),
                loop_block: self.block(&below[1]),
                id,
                span: None,
            },
            input::IF => ReactiveTerminal::If {
                test: required(row),
                consequent: self.block(&below[0]),
                alternate: below.get(1).map(|alternate| self.block(alternate)),
                id,
            },
            input::LABEL => ReactiveTerminal::Label { block: self.block(&below[0]), id },
            input::TRY => ReactiveTerminal::Try {
                block: self.block(&below[0]),
                handler_binding: below[1].identifier.map(place),
                handler: self.block(&below[1].children[0]),
                id,
            },
            code => panic!("code {code} is no statement"),
        }
    }

    fn case(&self, row: &Row) -> ReactiveSwitchCase<'a> {
        ReactiveSwitchCase {
            test: row.identifier.map(place),
            block: row.children.first().map(|block| self.block(block)),
        }
    }
}

fn scope_id(row: &Row) -> ScopeId {
    ScopeId::from_usize(row.number.expect("a scope") as usize)
}

fn required(row: &Row) -> Place {
    place(row.identifier.expect("an identifier"))
}

/// Even functions are expressions, odd ones methods.
fn nested_function<'a>(function: u32) -> InstructionValue<'a> {
    let lowered_func = LoweredFunction { func: FunctionId::from_usize(function as usize) };
    if function.is_multiple_of(2) {
        InstructionValue::FunctionExpression {
            name: None,
            name_hint: None,
            lowered_func,
            expr_type: FunctionExpressionType::FunctionExpression,
            span: None,
        }
    } else {
        InstructionValue::ObjectMethod { span: None, lowered_func }
    }
}

fn instruction(value: InstructionValue) -> Instruction {
    Instruction { id: EvaluationOrder::UNSET, lvalue: place(0), value, span: None, effects: None }
}

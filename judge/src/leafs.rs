//! The Rust values of Leafs. Where several values have the same operands, the position of an
//! operand chooses one of them.

use std::marker::PhantomData;

use oxc_allocator::Vec as ArenaVec;
use oxc_ast::ast::{BinaryOperator, TSType, UpdateOperator};
use oxc_react_compiler::react_compiler_hir::*;
use oxc_str::{Ident, Str};

use crate::input::Row;
use crate::values::{Values, place, spread};

static TYPE: TSType<'static> = TSType(PhantomData);

impl<'a> Values<'a> {
    pub(crate) fn leaf(&self, row: &Row) -> InstructionValue<'a> {
        let span = None;
        let operand = |at: usize| place(row.operands[at]);
        let property = PropertyLiteral::String(Ident::from("property"));
        match row.kind {
            0 => InstructionValue::LoadLocal { place: operand(0), span },
            1 => InstructionValue::LoadContext { place: operand(0), span },
            2 => InstructionValue::DeclareLocal { lvalue: lvalue(row), span },
            3 => InstructionValue::DeclareContext { lvalue: lvalue(row), span },
            4 => InstructionValue::StoreLocal { lvalue: lvalue(row), value: operand(0), span },
            5 => InstructionValue::StoreContext { lvalue: lvalue(row), value: operand(1), span },
            6 => InstructionValue::Destructure {
                lvalue: LValuePattern { pattern: self.pattern(row), kind: mode(row) },
                value: operand(0),
                span,
            },
            7 => InstructionValue::Primitive { value: PrimitiveValue::Null, span },
            8 => InstructionValue::JSXText { value: Str::from("text"), span },
            9 => InstructionValue::BinaryExpression {
                operator: BinaryOperator::Addition,
                left: operand(0),
                right: operand(1),
                span,
            },
            10 => InstructionValue::NewExpression {
                callee: operand(0),
                args: self.arguments(&row.operands[1..]),
                span,
            },
            11 => InstructionValue::CallExpression {
                callee: operand(0),
                args: self.arguments(&row.operands[1..]),
                span,
            },
            12 => InstructionValue::MethodCall {
                receiver: operand(0),
                property: operand(1),
                args: self.arguments(&row.operands[2..]),
                span,
            },
            13 => InstructionValue::UnaryExpression {
                operator: UnaryOperator::Not,
                value: operand(0),
                span,
            },
            14 => InstructionValue::TypeCastExpression {
                value: operand(0),
                cast: TypeCast::As(&TYPE),
                span,
            },
            15 => self.jsx(row),
            16 => InstructionValue::ObjectExpression { properties: self.properties(row), span },
            17 => InstructionValue::ObjectMethod { lowered_func: lowered(row), span },
            18 => InstructionValue::ArrayExpression { elements: self.elements(row), span },
            19 => InstructionValue::JsxFragment { children: self.places(&row.operands), span },
            20 => InstructionValue::RegExpLiteral {
                pattern: Str::from("."),
                flags: Str::from("g"),
                span,
            },
            21 => InstructionValue::MetaProperty {
                meta: Ident::from("import"),
                property: Ident::from("meta"),
                span,
            },
            22 => InstructionValue::PropertyStore {
                object: operand(0),
                property,
                value: operand(1),
                span,
            },
            23 => InstructionValue::PropertyLoad { object: operand(0), property, span },
            24 => InstructionValue::PropertyDelete { object: operand(0), property, span },
            25 => InstructionValue::ComputedStore {
                object: operand(0),
                property: operand(1),
                value: operand(2),
                span,
            },
            26 => InstructionValue::ComputedLoad { object: operand(0), property: operand(1), span },
            27 => {
                InstructionValue::ComputedDelete { object: operand(0), property: operand(1), span }
            }
            28 => InstructionValue::LoadGlobal {
                binding: NonLocalBinding::Global { name: Ident::from("global") },
                span,
            },
            29 => InstructionValue::StoreGlobal {
                name: Ident::from("global"),
                value: operand(0),
                span,
            },
            30 => InstructionValue::FunctionExpression {
                name: None,
                name_hint: None,
                lowered_func: lowered(row),
                expr_type: FunctionExpressionType::ArrowFunctionExpression,
                span,
            },
            31 => InstructionValue::TaggedTemplateExpression {
                tag: operand(0),
                quasis: ArenaVec::new_in(&self.arena),
                subexprs: self.places(&row.operands[1..]),
                span,
            },
            32 => InstructionValue::TemplateLiteral {
                subexprs: self.places(&row.operands),
                quasis: ArenaVec::new_in(&self.arena),
                span,
            },
            33 => InstructionValue::Await { value: operand(0), span },
            34 => InstructionValue::GetIterator { collection: operand(0), span },
            35 => InstructionValue::IteratorNext {
                iterator: operand(0),
                collection: operand(1),
                span,
            },
            36 => InstructionValue::NextPropertyOf { value: operand(0), span },
            37 => InstructionValue::PrefixUpdate {
                lvalue: operand(0),
                operation: UpdateOperator::Increment,
                value: operand(0),
                span,
            },
            38 => InstructionValue::PostfixUpdate {
                lvalue: operand(0),
                operation: UpdateOperator::Decrement,
                value: operand(0),
                span,
            },
            39 => InstructionValue::Debugger { span },
            40 => InstructionValue::StartMemoize {
                manual_memo_id: 0,
                deps: self.dependencies(row),
                deps_span: None,
                has_invalid_deps: false,
                span,
            },
            41 => InstructionValue::FinishMemoize {
                manual_memo_id: 0,
                decl: operand(0),
                pruned: false,
                span,
            },
            kind => panic!("kind {kind}"),
        }
    }

    fn places(&self, identifiers: &[u32]) -> ArenaVec<'a, Place> {
        self.list(identifiers.iter().map(|&identifier| place(identifier)))
    }

    fn arguments(&self, identifiers: &[u32]) -> ArenaVec<'a, PlaceOrSpread> {
        self.list(identifiers.iter().enumerate().map(|(at, &identifier)| match at % 2 {
            0 => PlaceOrSpread::Place(place(identifier)),
            _ => PlaceOrSpread::Spread(spread(identifier)),
        }))
    }

    /// An array pattern with a hole, or an object pattern.
    fn pattern(&self, row: &Row) -> Pattern<'a> {
        if row.marks.len() % 2 == 1 {
            let items = row.marks.iter().enumerate().map(|(at, &identifier)| match at % 2 {
                0 => ArrayPatternElement::Place(place(identifier)),
                _ => ArrayPatternElement::Spread(spread(identifier)),
            });
            let items = std::iter::once(ArrayPatternElement::Hole).chain(items);
            Pattern::Array(ArrayPattern { items: self.list(items) })
        } else {
            let properties = row.marks.iter().enumerate().map(|(at, &identifier)| match at % 2 {
                0 => property(identifier, ObjectPropertyKey::String { name: Ident::from("key") }),
                _ => ObjectPropertyOrSpread::Spread(spread(identifier)),
            });
            Pattern::Object(ObjectPattern { properties: self.list(properties) })
        }
    }

    /// Attributes first, one of them spread, and the last operands as children.
    fn jsx(&self, row: &Row) -> InstructionValue<'a> {
        let (tag, rest) = match row.marks.first() {
            Some(&mark) => (JsxTag::Place(place(mark)), &row.operands[1..]),
            None => (JsxTag::Builtin(BuiltinTag { name: Ident::from("div") }), &row.operands[..]),
        };
        let (attributes, children) = rest.split_at(rest.len() / 2);
        let props = attributes.iter().enumerate().map(|(at, &identifier)| match at % 2 {
            0 => JsxAttribute::Attribute { name: Ident::from("name"), place: place(identifier) },
            _ => JsxAttribute::SpreadAttribute { argument: place(identifier) },
        });
        InstructionValue::JsxExpression {
            tag,
            props: self.list(props),
            children: if children.is_empty() { None } else { Some(self.places(children)) },
            span: None,
            opening_span: None,
            closing_span: None,
        }
    }

    /// A spread, then properties with a computed key, then perhaps one with a plain key.
    fn properties(&self, row: &Row) -> ArenaVec<'a, ObjectPropertyOrSpread<'a>> {
        let mut made = ArenaVec::new_in(&self.arena);
        let Some((&first, rest)) = row.operands.split_first() else { return made };
        made.push(ObjectPropertyOrSpread::Spread(spread(first)));
        for pair in rest.chunks(2) {
            made.push(match *pair {
                [key, value] => property(value, ObjectPropertyKey::Computed { name: place(key) }),
                _ => property(pair[0], ObjectPropertyKey::Identifier { name: Ident::from("key") }),
            });
        }
        made
    }

    fn elements(&self, row: &Row) -> ArenaVec<'a, ArrayElement> {
        let mut made = self.list(std::iter::once(ArrayElement::Hole));
        for (at, &identifier) in row.operands.iter().enumerate() {
            made.push(match at % 2 {
                0 => ArrayElement::Place(place(identifier)),
                _ => ArrayElement::Spread(spread(identifier)),
            });
        }
        made
    }

    /// None without operands; otherwise a global, which is no operand, and a local for each.
    fn dependencies(&self, row: &Row) -> Option<ArenaVec<'a, ManualMemoDependency<'a>>> {
        if row.operands.is_empty() {
            return None;
        }
        let global = ManualMemoDependencyRoot::Global { identifier_name: Ident::from("global") };
        let locals = row.operands.iter().map(|&identifier| ManualMemoDependencyRoot::NamedLocal {
            value: place(identifier),
            constant: false,
        });
        Some(self.list(std::iter::once(global).chain(locals).map(|root| ManualMemoDependency {
            root,
            path: ArenaVec::new_in(&self.arena),
            span: None,
        })))
    }
}

fn lowered(row: &Row) -> LoweredFunction {
    LoweredFunction { func: FunctionId::from_usize(row.number.expect("a function") as usize) }
}

fn lvalue(row: &Row) -> LValue {
    LValue { place: place(row.marks[0]), kind: mode(row) }
}

fn mode(row: &Row) -> InstructionKind {
    use InstructionKind::*;
    [Const, Let, Reassign, Catch, HoistedConst, HoistedLet, HoistedFunction, Function]
        [usize::from(row.mode)]
}

fn property<'a>(identifier: u32, key: ObjectPropertyKey<'a>) -> ObjectPropertyOrSpread<'a> {
    ObjectPropertyOrSpread::Property(ObjectProperty {
        key,
        property_type: ObjectPropertyType::Property,
        place: place(identifier),
    })
}

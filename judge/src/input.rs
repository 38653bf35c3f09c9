//! An input: the tables of an environment and the trees that run on it, one after the other.

#[derive(Clone, Debug, PartialEq, Eq, Hash, Default)]
pub struct Input {
    pub identifiers: Vec<Identifier>,
    pub scopes: Vec<Scope>,
    pub functions: Vec<Function>,
    pub trees: Vec<Tree>,
}

/// Tag 0 is no name, 1 an author's, 2 `#t`, 3 `#T`.
#[derive(Clone, Copy, Debug, PartialEq, Eq, Hash)]
pub struct Identifier {
    pub declaration: u32,
    pub tag: u8,
}

#[derive(Clone, Debug, PartialEq, Eq, Hash, Default)]
pub struct Scope {
    pub dependencies: Vec<u32>,
    pub declarations: Vec<u32>,
    pub reassignments: Vec<u32>,
}

#[derive(Clone, Debug, PartialEq, Eq, Hash, Default)]
pub struct Function {
    pub parameters: Vec<u32>,
    pub nested: Vec<u32>,
}

#[derive(Clone, Debug, PartialEq, Eq, Hash)]
pub struct Tree {
    pub parameters: Vec<u32>,
    pub body: Row,
}

/// A row with the rows directly below it.
#[derive(Clone, Debug, PartialEq, Eq, Hash, Default)]
pub struct Row {
    pub code: u8,
    pub identifier: Option<u32>,
    pub number: Option<u32>,
    pub kind: u8,
    pub mode: u8,
    pub operands: Vec<u32>,
    pub marks: Vec<u32>,
    pub children: Vec<Row>,
}

pub const BLOCK: u8 = 1;
pub const INSTRUCTION: u8 = 2;
pub const SCOPE: u8 = 3;
pub const PRUNED: u8 = 4;
pub const LEAF: u8 = 5;
pub const LOGICAL: u8 = 6;
pub const CONDITIONAL: u8 = 7;
pub const SEQUENCE: u8 = 8;
pub const OPTIONAL: u8 = 9;
pub const BREAK: u8 = 10;
pub const CONTINUE: u8 = 11;
pub const RETURN: u8 = 12;
pub const THROW: u8 = 13;
pub const SWITCH: u8 = 14;
pub const CASE: u8 = 15;
pub const DO_WHILE: u8 = 16;
pub const WHILE: u8 = 17;
pub const FOR: u8 = 18;
pub const FOR_OF: u8 = 19;
pub const FOR_IN: u8 = 20;
pub const IF: u8 = 21;
pub const LABEL: u8 = 22;
pub const TRY: u8 = 23;
pub const HANDLER: u8 = 24;

/// The names of the codes 1 to 24; place 0 is unused.
pub const CODES: [&str; 25] = [
    "?",
    "Block",
    "Instruction",
    "Scope",
    "Pruned",
    "Leaf",
    "Logical",
    "Conditional",
    "Sequence",
    "Optional",
    "Break",
    "Continue",
    "Return",
    "Throw",
    "Switch",
    "Case",
    "DoWhile",
    "While",
    "For",
    "ForOf",
    "ForIn",
    "If",
    "Label",
    "Try",
    "Handler",
];

/// The names of the kinds 0 to 41.
pub const KINDS: [&str; 42] = [
    "LoadLocal",
    "LoadContext",
    "DeclareLocal",
    "DeclareContext",
    "StoreLocal",
    "StoreContext",
    "Destructure",
    "Primitive",
    "JSXText",
    "BinaryExpression",
    "NewExpression",
    "CallExpression",
    "MethodCall",
    "UnaryExpression",
    "TypeCastExpression",
    "JsxExpression",
    "ObjectExpression",
    "ObjectMethod",
    "ArrayExpression",
    "JsxFragment",
    "RegExpLiteral",
    "MetaProperty",
    "PropertyStore",
    "PropertyLoad",
    "PropertyDelete",
    "ComputedStore",
    "ComputedLoad",
    "ComputedDelete",
    "LoadGlobal",
    "StoreGlobal",
    "FunctionExpression",
    "TaggedTemplateExpression",
    "TemplateLiteral",
    "Await",
    "GetIterator",
    "IteratorNext",
    "NextPropertyOf",
    "PrefixUpdate",
    "PostfixUpdate",
    "Debugger",
    "StartMemoize",
    "FinishMemoize",
];

impl Row {
    /// A row that holds nothing but rows.
    pub fn of(code: u8, children: Vec<Row>) -> Row {
        Row { code, children, ..Row::default() }
    }

    /// The number of rows of this subtree.
    pub fn size(&self) -> usize {
        1 + self.children.iter().map(Row::size).sum::<usize>()
    }

    /// The rows of this subtree in walk order.
    pub fn each<'r>(&'r self, visit: &mut impl FnMut(&'r Row)) {
        visit(self);
        for child in &self.children {
            child.each(visit);
        }
    }

    /// The rows of this subtree in walk order, to be altered.
    pub fn each_mut(&mut self, visit: &mut impl FnMut(&mut Row)) {
        visit(self);
        for child in &mut self.children {
            child.each_mut(visit);
        }
    }
}

impl Input {
    /// The number of tree rows.
    pub fn rows(&self) -> usize {
        self.trees.iter().map(|tree| tree.body.size()).sum()
    }
}

/// Whether a Leaf of this kind names a function.
pub fn names_function(kind: u8) -> bool {
    kind == 17 || kind == 30
}

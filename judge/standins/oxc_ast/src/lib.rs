//! Stand-in for oxc_ast: operators and the type node that values carry along.

pub mod ast {
    use std::marker::PhantomData;

    pub use oxc_span::Span;

    #[derive(Clone, Copy, Debug, PartialEq, Eq)]
    pub enum LogicalOperator {
        Or,
        And,
        Coalesce,
    }

    #[derive(Clone, Copy, Debug, PartialEq, Eq)]
    pub enum BinaryOperator {
        Addition,
    }

    #[derive(Clone, Copy, Debug, PartialEq, Eq)]
    pub enum UpdateOperator {
        Increment,
        Decrement,
    }

    #[derive(Debug)]
    pub struct TSType<'a>(pub PhantomData<&'a ()>);
}

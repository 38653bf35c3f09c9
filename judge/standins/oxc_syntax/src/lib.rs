//! Stand-in for oxc_syntax: the types that the environment names.

pub mod number {
    pub trait ToJsString {
        fn to_js_string(&self) -> String;
    }

    impl ToJsString for f64 {
        fn to_js_string(&self) -> String {
            self.to_string()
        }
    }
}

pub mod reference {
    #[derive(Clone, Copy, Debug, PartialEq, Eq, Hash)]
    pub struct ReferenceId(pub u32);
}

pub mod symbol {
    #[derive(Clone, Copy, Debug, PartialEq, Eq, Hash)]
    pub struct SymbolId(pub u32);
}

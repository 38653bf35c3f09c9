//! Stub: shapes without entries, and the names of the built-in ones.

use std::collections::HashMap;
use std::marker::PhantomData;

use oxc_allocator::Allocator;
use oxc_str::Ident;

use super::globals::Global;
use super::type_config::ValueKind;
use super::{Effect, Type};

macro_rules! names {
    ($($name:ident)*) => {
        $(pub const $name: Ident<'static> = Ident::new_const(stringify!($name));)*
    };
}

names! {
    BUILT_IN_ARRAY_ID BUILT_IN_JSX_ID BUILT_IN_PROPS_ID BUILT_IN_REF_VALUE_ID
    BUILT_IN_USE_OPERATOR_ID BUILT_IN_USE_REF_ID BUILT_IN_USE_STATE_ID BUILT_IN_SET_STATE_ID
    BUILT_IN_USE_EFFECT_HOOK_ID BUILT_IN_USE_LAYOUT_EFFECT_HOOK_ID
    BUILT_IN_USE_INSERTION_EFFECT_HOOK_ID BUILT_IN_USE_EFFECT_EVENT_ID REANIMATED_SHARED_VALUE_ID
    BUILT_IN_OBJECT_ID BUILT_IN_START_TRANSITION_ID BUILT_IN_MIXED_READONLY_ID
}

pub enum HookKind {
    Custom,
}

pub struct FunctionSignature {
    pub hook_kind: Option<HookKind>,
    pub no_alias: bool,
}

pub struct ObjectShape<'a> {
    pub properties: HashMap<String, Type<'a>>,
    pub function_type: Option<FunctionSignature>,
}

pub struct ShapeRegistry<'a>(PhantomData<&'a ()>);

impl<'a> ShapeRegistry<'a> {
    pub fn with_base(_: (), _: &'a Allocator) -> Self {
        ShapeRegistry(PhantomData)
    }

    pub fn get(&self, _: &str) -> Option<&ObjectShape<'a>> {
        None
    }
}

pub struct HookSignatureBuilder<'a> {
    pub rest_param: Option<Effect>,
    pub return_type: Type<'a>,
    pub return_value_kind: ValueKind,
    pub hook_kind: HookKind,
    pub no_alias: bool,
    pub known_incompatible: bool,
}

impl Default for HookSignatureBuilder<'_> {
    fn default() -> Self {
        HookSignatureBuilder {
            rest_param: None,
            return_type: Type::Poly,
            return_value_kind: ValueKind::Mutable,
            hook_kind: HookKind::Custom,
            no_alias: false,
            known_incompatible: false,
        }
    }
}

pub fn add_hook<'a>(
    _: &mut ShapeRegistry<'a>,
    _: HookSignatureBuilder<'a>,
    _: Option<&str>,
) -> Global<'a> {
    Type::Poly
}

pub fn default_mutating_hook<'a>(_: &mut ShapeRegistry<'a>) -> Global<'a> {
    Type::Poly
}

pub fn default_nonmutating_hook<'a>(_: &mut ShapeRegistry<'a>) -> Global<'a> {
    Type::Poly
}

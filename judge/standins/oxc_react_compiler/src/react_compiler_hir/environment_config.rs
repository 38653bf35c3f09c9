//! Stub: a configuration whose flags are all off.

use std::collections::HashMap;

use super::Effect;
use super::type_config::{TypeConfig, ValueKind};

pub struct HookConfig {
    pub effect_kind: Effect,
    pub value_kind: ValueKind,
    pub no_alias: bool,
    pub transitive_mixed_data: bool,
}

#[derive(Default)]
pub struct EnvironmentConfig {
    pub custom_hooks: HashMap<String, HookConfig>,
    pub module_type_provider: Option<HashMap<String, TypeConfig>>,
    pub enable_custom_type_definition_for_reanimated: bool,
    pub enable_assume_hooks_follow_rules_of_react: bool,
    pub validate_preserve_existing_memoization_guarantees: bool,
    pub validate_no_set_state_in_render: bool,
    pub enable_preserve_existing_memoization_guarantees: bool,
}

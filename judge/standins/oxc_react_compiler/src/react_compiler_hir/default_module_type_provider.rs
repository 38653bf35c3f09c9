//! Stub: no module has a type.

use super::type_config::TypeConfig;

pub fn default_module_type_provider(_: &str) -> Option<TypeConfig> {
    None
}

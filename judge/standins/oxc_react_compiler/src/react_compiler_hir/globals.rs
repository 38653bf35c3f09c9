//! Stub: registries without entries.

use oxc_str::Ident;

use super::Type;
use super::object_shape::ShapeRegistry;
use super::type_config::TypeConfig;

pub type Global<'a> = Type<'a>;

pub struct GlobalRegistry<'a> {
    entries: Vec<(Ident<'a>, Global<'a>)>,
}

impl<'a> GlobalRegistry<'a> {
    pub fn with_base(_: ()) -> Self {
        GlobalRegistry { entries: Vec::new() }
    }

    pub fn get(&self, name: &str) -> Option<&Global<'a>> {
        self.entries.iter().find(|(key, _)| key.as_str() == name).map(|(_, global)| global)
    }

    pub fn contains_key(&self, name: &str) -> bool {
        self.get(name).is_some()
    }

    pub fn insert(&mut self, name: Ident<'a>, global: Global<'a>) {
        self.entries.push((name, global));
    }
}

pub fn base_shapes() {}

pub fn base_globals() {}

pub fn get_reanimated_module_type<'a>(_: &mut ShapeRegistry<'a>) -> Global<'a> {
    Type::Poly
}

pub fn install_type_config<'a>(
    _: &mut ShapeRegistry<'a>,
    _: &TypeConfig,
    _: &str,
    _: &mut Vec<String>,
) -> Global<'a> {
    Type::Poly
}

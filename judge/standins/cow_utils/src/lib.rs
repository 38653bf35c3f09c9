//! Stand-in for cow_utils.

use std::borrow::Cow;

pub trait CowUtils {
    fn cow_to_lowercase(&self) -> Cow<'_, str>;
}

impl CowUtils for str {
    fn cow_to_lowercase(&self) -> Cow<'_, str> {
        Cow::Owned(self.to_lowercase())
    }
}

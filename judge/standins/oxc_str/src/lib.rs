//! Stand-in for oxc_str: text borrowed from an arena, and `format_ident!`.

use std::borrow::Borrow;
use std::collections::{HashMap, HashSet};
use std::fmt::{Arguments, Debug, Display, Formatter, Result as FmtResult, Write};
use std::hash::{Hash, Hasher};
use std::ops::Deref;

use oxc_allocator::{Allocator, CloneIn, CloneInSemanticIds, GetAllocator};

pub type IdentHashMap<'a, V> = HashMap<Ident<'a>, V>;
pub type IdentHashSet<'a> = HashSet<Ident<'a>>;

/// A text type with the lifetime of its arena.
macro_rules! text_type {
    ($name:ident) => {
        #[derive(Clone, Copy, Eq)]
        pub struct $name<'a>(&'a str);

        impl<'a> $name<'a> {
            pub const fn new_const(text: &'a str) -> Self {
                $name(text)
            }

            pub fn from_str_in<A: GetAllocator<'a>>(text: &str, allocator: &A) -> Self {
                $name(allocator.allocator().alloc_str(text))
            }

            pub fn as_str(&self) -> &'a str {
                self.0
            }
        }

        impl<'a> From<&'a str> for $name<'a> {
            fn from(text: &'a str) -> Self {
                $name(text)
            }
        }

        impl Deref for $name<'_> {
            type Target = str;
            fn deref(&self) -> &str {
                self.0
            }
        }

        impl Borrow<str> for $name<'_> {
            fn borrow(&self) -> &str {
                self.0
            }
        }

        impl Hash for $name<'_> {
            fn hash<H: Hasher>(&self, state: &mut H) {
                self.0.hash(state);
            }
        }

        impl<'b> PartialEq<$name<'b>> for $name<'_> {
            fn eq(&self, other: &$name<'b>) -> bool {
                self.0 == other.0
            }
        }

        impl PartialEq<&str> for $name<'_> {
            fn eq(&self, other: &&str) -> bool {
                self.0 == *other
            }
        }

        impl PartialEq<str> for $name<'_> {
            fn eq(&self, other: &str) -> bool {
                self.0 == other
            }
        }

        impl Debug for $name<'_> {
            fn fmt(&self, f: &mut Formatter<'_>) -> FmtResult {
                Debug::fmt(self.0, f)
            }
        }

        impl Display for $name<'_> {
            fn fmt(&self, f: &mut Formatter<'_>) -> FmtResult {
                Display::fmt(self.0, f)
            }
        }

        impl<'a> CloneIn<'a> for $name<'_> {
            type Cloned = $name<'a>;
            fn clone_in_impl(&self, _: CloneInSemanticIds, allocator: &'a Allocator) -> $name<'a> {
                $name(allocator.alloc_str(self.0))
            }
        }
    };
}

text_type!(Ident);
text_type!(Str);

/// Text gathered on the stack before it is copied into the arena.
struct Line {
    bytes: [u8; 64],
    len: usize,
}

impl Write for Line {
    #[inline]
    fn write_str(&mut self, text: &str) -> FmtResult {
        let end = self.len + text.len();
        let part = self.bytes.get_mut(self.len..end).ok_or(std::fmt::Error)?;
        part.copy_from_slice(text.as_bytes());
        self.len = end;
        Ok(())
    }
}

/// The formatted text as an `Ident` of the arena; what `format_ident!` expands to.
pub fn format_ident_in<'a>(allocator: &'a Allocator, text: Arguments<'_>) -> Ident<'a> {
    let mut line = Line { bytes: [0; 64], len: 0 };
    match line.write_fmt(text) {
        // SAFETY: only whole strings were written.
        Ok(()) => Ident(
            allocator.alloc_str(unsafe { std::str::from_utf8_unchecked(&line.bytes[..line.len]) }),
        ),
        Err(_) => Ident(allocator.alloc_str(&text.to_string())),
    }
}

#[macro_export]
macro_rules! format_ident {
    ($allocator:expr, $($text:tt)*) => {
        $crate::format_ident_in($allocator, ::std::format_args!($($text)*))
    };
}

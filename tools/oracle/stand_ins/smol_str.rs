//! Stand-in for the crate `smol_str`: what the Vexil sources ask of it, over a
//! plain `String`. Nothing here is compared with the real crate.

use std::borrow::Borrow;
use std::fmt;
use std::ops::Deref;

#[derive(Clone, PartialEq, Eq, PartialOrd, Ord, Hash, Default)]
pub struct SmolStr(String);

impl SmolStr {
    pub fn new<T: AsRef<str>>(text: T) -> SmolStr {
        SmolStr(text.as_ref().to_string())
    }

    pub fn as_str(&self) -> &str {
        &self.0
    }
}

impl Deref for SmolStr {
    type Target = str;

    fn deref(&self) -> &str {
        &self.0
    }
}

impl AsRef<str> for SmolStr {
    fn as_ref(&self) -> &str {
        &self.0
    }
}

/// Also gives `join` on lists, and look-ups by `&str` in maps.
impl Borrow<str> for SmolStr {
    fn borrow(&self) -> &str {
        &self.0
    }
}

impl PartialEq<str> for SmolStr {
    fn eq(&self, other: &str) -> bool {
        self.0 == other
    }
}

impl fmt::Display for SmolStr {
    fn fmt(&self, f: &mut fmt::Formatter<'_>) -> fmt::Result {
        fmt::Display::fmt(&self.0, f)
    }
}

impl fmt::Debug for SmolStr {
    fn fmt(&self, f: &mut fmt::Formatter<'_>) -> fmt::Result {
        fmt::Debug::fmt(&self.0, f)
    }
}

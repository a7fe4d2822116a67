//! Stands in for the crate `arcstr`: a shared string with the few methods that the sources call.
use std::{
    borrow::{Borrow, Cow},
    fmt,
    ops::Deref,
    sync::Arc,
};

#[derive(Clone, PartialEq, Eq, PartialOrd, Ord, Hash, Default)]
pub struct ArcStr(Arc<str>);

impl ArcStr {
    pub fn as_str(&self) -> &str {
        &self.0
    }
}
impl Deref for ArcStr {
    type Target = str;
    fn deref(&self) -> &str {
        &self.0
    }
}
impl Borrow<str> for ArcStr {
    fn borrow(&self) -> &str {
        &self.0
    }
}
impl From<&str> for ArcStr {
    fn from(s: &str) -> Self {
        Self(s.into())
    }
}
impl From<String> for ArcStr {
    fn from(s: String) -> Self {
        Self(s.into())
    }
}
impl From<Cow<'_, str>> for ArcStr {
    fn from(s: Cow<'_, str>) -> Self {
        Self(s.into())
    }
}
impl fmt::Display for ArcStr {
    fn fmt(&self, f: &mut fmt::Formatter<'_>) -> fmt::Result {
        f.write_str(&self.0)
    }
}
impl fmt::Debug for ArcStr {
    fn fmt(&self, f: &mut fmt::Formatter<'_>) -> fmt::Result {
        fmt::Debug::fmt(&*self.0, f)
    }
}

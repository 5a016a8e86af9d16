//! The HTML of many contents of one document.

use super::lists::walks;
use crate::fill::range_of;
use std::fmt;

/// The HTML of many contents, of which each has its own.
#[derive(Clone, Default, PartialEq, Eq)]
pub struct Htmls {
    pub(crate) html: String,
    pub(crate) ends: Vec<usize>,
}

impl Htmls {
    /// No contents, and no memory for any.
    #[must_use]
    pub fn new() -> Htmls {
        Htmls::default()
    }

    /// The HTML of all contents, one after another.
    #[must_use]
    pub fn as_str(&self) -> &str {
        &self.html
    }

    /// The HTML of the content with this number.
    #[must_use]
    pub fn get(&self, number: usize) -> Option<&str> {
        self.html.get(range_of(&self.ends, number)?)
    }
}

walks! {
    /// The contents one after another, of each its HTML.
    HtmlsIter over Htmls gives &'a str
}

impl fmt::Debug for Htmls {
    fn fmt(&self, f: &mut fmt::Formatter<'_>) -> fmt::Result {
        f.debug_list().entries(self.iter()).finish()
    }
}

//! Stands in for the crate `roxmltree`: the only thing asked of it is the string in which an attribute keeps its value.

use std::fmt::{Display, Formatter};

/// A borrowed string. Its address says which attribute of the card it is the value of.
#[derive(Clone, Copy)]
pub struct StringStorage<'input>(pub &'input str);

impl<'input> StringStorage<'input> {
    pub fn as_str(&self) -> &'input str {
        self.0
    }
}

impl Display for StringStorage<'_> {
    fn fmt(&self, formatter: &mut Formatter) -> std::fmt::Result {
        self.0.fmt(formatter)
    }
}

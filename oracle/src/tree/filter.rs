//! Stands in for usvg's src/tree/filter.rs: the shape of filters, of which a card has none.

use super::{Group, NonZeroRect};

#[derive(Debug)]
pub struct Filter {
    pub(crate) rect: NonZeroRect,
    pub(crate) primitives: Vec<Primitive>,
}

#[derive(Debug)]
pub struct Primitive {
    pub(crate) kind: Kind,
}

#[derive(Debug)]
pub enum Kind {
    Image(Image),
}

#[derive(Debug)]
pub struct Image {
    root: Group,
}

impl Image {
    pub fn root(&self) -> &Group {
        &self.root
    }
}

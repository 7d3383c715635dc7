//! Stands in for the crate `fontdb`: a database of no fonts, since nothing is laid out.

#[derive(Clone, Debug, Default)]
pub struct Database;

#[derive(Clone, Copy, PartialEq, Eq, Hash, Debug)]
pub struct ID;

pub enum Stretch {
    UltraCondensed,
    ExtraCondensed,
    Condensed,
    SemiCondensed,
    Normal,
    SemiExpanded,
    Expanded,
    ExtraExpanded,
    UltraExpanded,
}

pub enum Style {
    Normal,
    Italic,
    Oblique,
}

//! Stands in for usvg's src/text: fonts and layout. It catches the text that usvg has built and would lay out next.

use crate::parser::converter::Cache;
use crate::{FontVariation, Node, Text, Tree};
use std::cell::RefCell;

thread_local! {
    static BUILT: RefCell<Option<Text>> = const { RefCell::new(None) };
}

pub struct FontResolver;

#[derive(Clone, Copy, PartialEq, Eq, Hash, Debug)]
pub struct GlyphId(pub u16);

/// Where usvg lays a text out, this keeps it.
pub(crate) fn convert(text: &mut Text, _: &FontResolver, _: &mut Cache) -> Option<()> {
    BUILT.with_borrow_mut(|built| *built = Some(text.clone()));
    None
}

/// The text that was kept last.
pub(crate) fn take_built() -> Option<Text> {
    BUILT.take()
}

pub mod layout {
    #[derive(Clone, Debug)]
    pub struct Span;
}

pub(crate) mod flatten {
    use super::*;
    use fontdb::{Database, ID};

    #[derive(Clone)]
    pub(crate) struct BitmapImage;

    /// Questions about glyphs, which only layout asks.
    pub(crate) trait DatabaseExt {
        fn outline(&self, _: ID, _: GlyphId, _: &[FontVariation]) -> Option<tiny_skia_path::Path> {
            unreachable!("there are no fonts")
        }

        fn colr(&self, _: ID, _: GlyphId, _: &[FontVariation]) -> Option<Tree> {
            unreachable!("there are no fonts")
        }

        fn svg(&self, _: ID, _: GlyphId) -> Option<Node> {
            unreachable!("there are no fonts")
        }

        fn raster(&self, _: ID, _: GlyphId) -> Option<BitmapImage> {
            unreachable!("there are no fonts")
        }

        fn has_opsz_axis(&self, _: ID) -> bool {
            unreachable!("there are no fonts")
        }
    }

    impl DatabaseExt for Database {}
}

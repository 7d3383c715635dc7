//! Stands in for usvg's src/tree/geom.rs: boxes, which only drawing asks for.

pub use tiny_skia_path::{NonZeroRect, Rect, Size, Transform};

fn undrawn() -> ! {
    unreachable!("nothing is drawn")
}

#[derive(Clone, Copy, Debug)]
pub(crate) struct ViewBox {
    pub rect: NonZeroRect,
    pub aspect: svgtypes::AspectRatio,
}

impl ViewBox {
    pub fn to_transform(self, _: Size) -> Transform {
        undrawn()
    }
}

#[derive(Default)]
pub(crate) struct BBox;

impl From<Rect> for BBox {
    fn from(_: Rect) -> Self {
        undrawn()
    }
}

impl From<NonZeroRect> for BBox {
    fn from(_: NonZeroRect) -> Self {
        undrawn()
    }
}

impl BBox {
    pub fn expand(self, _: impl Into<BBox>) -> Self {
        undrawn()
    }

    pub fn to_rect(&self) -> Option<Rect> {
        undrawn()
    }

    pub fn to_non_zero_rect(&self) -> Option<NonZeroRect> {
        undrawn()
    }
}

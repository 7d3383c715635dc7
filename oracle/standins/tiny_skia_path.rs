//! Stands in for the crate `tiny-skia-path`: geometry. Boxes hold their sizes, a transform is the identity, and what only
//! drawing would ask for is never reached.

fn undrawn() -> ! {
    unreachable!("nothing is drawn")
}

#[derive(Clone, Copy, PartialEq, Debug)]
pub struct Point {
    pub x: f32,
    pub y: f32,
}

#[derive(Clone, Copy, PartialEq, Debug)]
pub struct Size;

impl Size {
    pub fn from_wh(_: f32, _: f32) -> Option<Self> {
        undrawn()
    }

    pub fn width(&self) -> f32 {
        undrawn()
    }

    pub fn height(&self) -> f32 {
        undrawn()
    }

    pub fn to_rect(&self, _: f32, _: f32) -> Option<Rect> {
        undrawn()
    }

    pub fn to_non_zero_rect(&self, _: f32, _: f32) -> NonZeroRect {
        undrawn()
    }
}

#[derive(Clone, Copy, PartialEq, Debug)]
pub struct Rect;

impl Rect {
    pub fn from_xywh(_: f32, _: f32, _: f32, _: f32) -> Option<Self> {
        Some(Self)
    }

    pub fn width(&self) -> f32 {
        undrawn()
    }

    pub fn height(&self) -> f32 {
        undrawn()
    }

    pub fn right(&self) -> f32 {
        undrawn()
    }

    pub fn bottom(&self) -> f32 {
        undrawn()
    }

    pub fn transform(&self, _: Transform) -> Option<Self> {
        undrawn()
    }

    pub fn intersect(&self, _: &Self) -> Option<Self> {
        undrawn()
    }

    pub fn to_non_zero_rect(&self) -> Option<NonZeroRect> {
        undrawn()
    }
}

/// The view box, of which the width and the height are asked.
#[derive(Clone, Copy, PartialEq, Debug)]
pub struct NonZeroRect {
    width: f32,
    height: f32,
}

impl NonZeroRect {
    pub fn from_xywh(_: f32, _: f32, width: f32, height: f32) -> Option<Self> {
        Some(Self { width, height })
    }

    pub fn width(&self) -> f32 {
        self.width
    }

    pub fn height(&self) -> f32 {
        self.height
    }

    pub fn transform(&self, _: Transform) -> Option<Self> {
        undrawn()
    }

    pub fn to_rect(&self) -> Rect {
        undrawn()
    }
}

/// The identity.
#[derive(Clone, Copy, PartialEq, Debug, Default)]
pub struct Transform;

impl Transform {
    pub fn from_row(_: f32, _: f32, _: f32, _: f32, _: f32, _: f32) -> Self {
        undrawn()
    }

    pub fn is_valid(&self) -> bool {
        true
    }

    pub fn is_identity(&self) -> bool {
        true
    }

    pub fn has_skew(&self) -> bool {
        undrawn()
    }

    pub fn pre_concat(&self, _: Self) -> Self {
        undrawn()
    }

    pub fn pre_translate(&self, _: f32, _: f32) -> Self {
        undrawn()
    }
}

/// A path of one point and no segment.
#[derive(Clone, PartialEq, Debug)]
pub struct Path;

impl Path {
    pub fn points(&self) -> &[Point] {
        &[Point { x: 0.0, y: 0.0 }]
    }

    pub fn segments(&self) -> std::iter::Empty<PathSegment> {
        std::iter::empty()
    }

    pub fn len(&self) -> usize {
        undrawn()
    }

    pub fn bounds(&self) -> Rect {
        undrawn()
    }

    pub fn compute_tight_bounds(&self) -> Option<Rect> {
        undrawn()
    }

    pub fn transform(self, _: Transform) -> Option<Self> {
        undrawn()
    }

    pub fn stroke(&self, _: &Stroke, _: f32) -> Option<Self> {
        undrawn()
    }
}

pub enum PathSegment {
    MoveTo(Point),
    LineTo(Point),
    QuadTo(Point, Point),
    CubicTo(Point, Point, Point),
    Close,
}

pub struct PathBuilder;

impl PathBuilder {
    pub fn from_rect(_: Rect) -> Path {
        undrawn()
    }
}

pub struct Stroke {
    pub width: f32,
    pub miter_limit: f32,
    pub line_cap: LineCap,
    pub line_join: LineJoin,
    pub dash: Option<StrokeDash>,
}

pub enum LineCap {
    Butt,
    Round,
    Square,
}

pub enum LineJoin {
    Miter,
    MiterClip,
    Round,
    Bevel,
}

pub struct StrokeDash;

impl StrokeDash {
    pub fn new(_: Vec<f32>, _: f32) -> Option<Self> {
        undrawn()
    }
}

//! Stands in for the crate `kurbo`: curves, whose lengths no answer of a card depends on.

#[derive(Clone, Copy)]
pub struct Point {
    pub x: f64,
    pub y: f64,
}

impl Point {
    pub fn new(x: f64, y: f64) -> Self {
        Self { x, y }
    }
}

pub struct Line {
    pub p0: Point,
    pub p1: Point,
}

impl Line {
    pub fn new(p0: Point, p1: Point) -> Self {
        Self { p0, p1 }
    }
}

pub trait ParamCurve {
    fn eval(&self, at: f64) -> Point;
}

impl ParamCurve for Line {
    fn eval(&self, _: f64) -> Point {
        unreachable!("a path of ours has no segments")
    }
}

pub struct QuadBez;

impl QuadBez {
    pub fn new(_: Point, _: Point, _: Point) -> Self {
        Self
    }

    pub fn raise(&self) -> CubicBez {
        unreachable!("a path of ours has no segments")
    }
}

pub struct CubicBez {
    pub p3: Point,
}

impl CubicBez {
    pub fn new(_: Point, _: Point, _: Point, p3: Point) -> Self {
        Self { p3 }
    }
}

pub trait ParamCurveArclen {
    fn arclen(&self, accuracy: f64) -> f64;
}

impl ParamCurveArclen for CubicBez {
    fn arclen(&self, _: f64) -> f64 {
        unreachable!("a path of ours has no segments")
    }
}

//! Stands in for usvg's src/parser/mod.rs: its modules, the options of a run, and doors into private functions.

pub(crate) mod absent;
pub(crate) mod converter;
pub(crate) mod style;
pub(crate) mod svgtree;
pub(crate) mod units;

/// usvg's file, and behind it in the same module the doors, which can so call its private functions.
pub(crate) mod text {
    include!("text.rs");
    include!("text_doors.rs");
}

pub(crate) use absent::{clippath, filter, image, marker, mask, paint_server, shapes, switch, use_node};

use crate::{FontResolver, ShapeRendering, Size, TextRendering};
use std::sync::Arc;

#[derive(Debug)]
pub enum Error {
    InvalidSize,
}

/// The options that the compiled files ask for, and the stage's answers on which elements are drawn.
pub struct Options<'a> {
    pub dpi: f32,
    pub font_size: f32,
    pub drawn: &'a [bool],
    pub font_family: String,
    pub text_rendering: TextRendering,
    pub shape_rendering: ShapeRendering,
    pub default_size: Size,
    pub font_resolver: FontResolver,
    pub fontdb: Arc<fontdb::Database>,
}

/// Runs a closure where there is no value; usvg logs with it.
pub(crate) trait OptionLog {
    fn log_none<F: FnOnce()>(self, f: F) -> Self;
}

impl<T> OptionLog for Option<T> {
    fn log_none<F: FnOnce()>(self, f: F) -> Self {
        if self.is_none() {
            f();
        }
        self
    }
}

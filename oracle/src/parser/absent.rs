//! Stands in for the files of usvg's parser that are not compiled. Two answer for the stage, the others are never asked.

fn undrawn() -> ! {
    unreachable!("nothing is drawn")
}

/// Which elements are drawn: the stage's answer, which takes in the transform.
pub(crate) mod switch {
    use crate::parser::converter::{Cache, State};
    use crate::parser::svgtree::SvgNode;
    use crate::{Group, Options};

    pub(crate) fn is_condition_passed(node: SvgNode, opt: &Options) -> bool {
        opt.drawn[node.number()]
    }

    pub(crate) fn convert(_: SvgNode, _: &State, _: &mut Cache, _: &mut Group) {
        super::undrawn()
    }
}

/// The path of a flow: whatever a text path is linked to has one, since links stand for the stage's flow codes.
pub(crate) mod shapes {
    use crate::parser::converter::State;
    use crate::parser::svgtree::SvgNode;
    use std::sync::Arc;

    pub(crate) fn convert(_: SvgNode, _: &State) -> Option<Arc<tiny_skia_path::Path>> {
        Some(Arc::new(tiny_skia_path::Path))
    }
}

pub(crate) mod clippath {
    use crate::parser::converter::{Cache, State};
    use crate::parser::svgtree::SvgNode;
    use crate::{ClipPath, NonZeroRect};
    use std::sync::Arc;

    pub(crate) fn convert(_: SvgNode, _: &State, _: Option<NonZeroRect>, _: &mut Cache) -> Option<Arc<ClipPath>> {
        super::undrawn()
    }
}

pub(crate) mod filter {
    use crate::NonZeroRect;
    use crate::parser::converter::{Cache, State};
    use crate::parser::svgtree::SvgNode;
    use std::sync::Arc;

    type Filters = Vec<Arc<crate::filter::Filter>>;

    pub(crate) fn convert(_: SvgNode, _: &State, _: Option<NonZeroRect>, _: &mut Cache) -> Result<Filters, ()> {
        super::undrawn()
    }
}

pub(crate) mod image {
    use crate::Group;
    use crate::parser::converter::{Cache, State};
    use crate::parser::svgtree::SvgNode;

    pub(crate) fn convert(_: SvgNode, _: &State, _: &mut Cache, _: &mut Group) {
        super::undrawn()
    }
}

pub(crate) mod marker {
    use crate::Group;
    use crate::parser::converter::{Cache, State};
    use crate::parser::svgtree::SvgNode;

    pub(crate) fn is_valid(_: SvgNode) -> bool {
        super::undrawn()
    }

    pub(crate) fn convert(_: SvgNode, _: &tiny_skia_path::Path, _: &State, _: &mut Cache, _: &mut Group) {
        super::undrawn()
    }
}

pub(crate) mod mask {
    use crate::parser::converter::{Cache, State};
    use crate::parser::svgtree::SvgNode;
    use crate::{Mask, NonZeroRect};
    use std::sync::Arc;

    pub(crate) fn convert(_: SvgNode, _: &State, _: Option<NonZeroRect>, _: &mut Cache) -> Option<Arc<Mask>> {
        super::undrawn()
    }
}

pub(crate) mod use_node {
    use crate::Group;
    use crate::parser::converter::{Cache, State};
    use crate::parser::svgtree::SvgNode;

    pub(crate) fn convert(_: SvgNode, _: &State, _: &mut Cache, _: &mut Group) {
        super::undrawn()
    }

    pub(crate) fn convert_svg(_: SvgNode, _: &State, _: &mut Cache, _: &mut Group) {
        super::undrawn()
    }
}

pub(crate) mod paint_server {
    use crate::parser::converter::{Cache, State};
    use crate::parser::svgtree::SvgNode;
    use crate::{Color, Group, Opacity, Paint, Rect, Transform, Units};

    #[allow(dead_code)]
    pub(crate) enum ServerOrColor {
        Server(Paint),
        Color { color: Color, opacity: Opacity },
    }

    impl Paint {
        pub(crate) fn units(&self) -> Units {
            super::undrawn()
        }
    }

    pub(crate) fn convert(_: SvgNode, _: &State, _: &mut Cache) -> Option<ServerOrColor> {
        super::undrawn()
    }

    pub(crate) fn process_paint(
        _: &mut Paint,
        _: bool,
        _: Transform,
        _: Option<Rect>,
        _: Transform,
        _: Rect,
        _: &mut Cache,
    ) {
        super::undrawn()
    }

    pub(crate) fn update_paint_servers(
        _: &mut Group,
        _: Transform,
        _: Option<Transform>,
        _: Option<Rect>,
        _: &mut Cache,
    ) {
        super::undrawn()
    }
}

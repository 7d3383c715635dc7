//! usvg's tree of a card. The stage's and the paint's answers are laid into it as attributes in front of the card's own,
//! so that usvg finds them first.

use crate::card::{Card, Kind};
use crate::parser::svgtree::{AId, Document, EId};
use crate::stand_ins::{Paint, Stage};
use std::collections::HashMap;
use svgtypes::Reading;

/// A node to put into a document. Only a parent is said; the other links follow from it.
pub struct Planned<'input> {
    pub parent: Option<usize>,
    pub kind: PlannedKind<'input>,
}

pub enum PlannedKind<'input> {
    Root,
    Element(EId, Vec<(AId, &'input str)>),
    Text(String),
}

/// A node that owns its values.
struct Laid {
    parent: Option<usize>,
    kind: LaidKind,
}

enum LaidKind {
    Root,
    Element(EId, Vec<Value>),
    Text(String),
}

/// A value with a filler behind it, so that an empty value, too, has an address of its own.
struct Value {
    name: AId,
    filled: Box<str>,
    reading: Option<Reading>,
}

impl Value {
    fn new(name: AId, value: &str, reading: Option<Reading>) -> Self {
        Self { name, filled: format!("{value}|").into(), reading }
    }

    fn value(&self) -> &str {
        &self.filled[..self.filled.len() - 1]
    }
}

/// What usvg is to be shown.
pub struct Plan {
    nodes: Vec<Laid>,
    links: HashMap<String, usize>,
    /// For each node, whether the stage has it drawn.
    pub drawn: Vec<bool>,
}

impl Plan {
    /// The whole card.
    pub fn whole(card: &Card, stage: &Stage, paint: &Paint) -> Self {
        let mut plan = Self { nodes: Vec::new(), links: HashMap::new(), drawn: Vec::new() };
        let mut flows = Vec::new();
        for (number, node) in card.nodes.iter().enumerate() {
            let (drawn, flow) = stage.answers(card, number);
            let answers = answers(flow, paint.codes(number));
            plan.push(node.parent, laid(&node.kind, answers), drawn);
            flows.push(flow);
        }
        plan.link(flows);
        plan
    }

    /// The elements above a text, all drawn, and in the lowest of them one text of one character. Answers the lowest's number.
    pub fn way_up(card: &Card, text: usize, paint: &Paint) -> (Self, usize) {
        let mut plan = Self { nodes: Vec::new(), links: HashMap::new(), drawn: Vec::new() };
        plan.push(None, LaidKind::Root, true);
        let mut way: Vec<_> = card.above(text).collect();
        way.reverse();
        for &number in &way {
            let mut answers = answers(0, paint.codes(number));
            answers.push((AId::Display, "inline".to_string()));
            plan.push(Some(plan.nodes.len() - 1), laid(&card.nodes[number].kind, answers), true);
        }
        plan.push(Some(way.len()), LaidKind::Text("x".to_string()), true);
        (plan, way.len())
    }

    fn push(&mut self, parent: Option<usize>, kind: LaidKind, drawn: bool) {
        self.nodes.push(Laid { parent, kind });
        self.drawn.push(drawn);
    }

    /// Adds a `path` for each flow code, outside of the tree, whose id is the code.
    fn link(&mut self, mut flows: Vec<u32>) {
        flows.retain(|&flow| flow != 0);
        flows.sort();
        flows.dedup();
        for flow in flows {
            let id = flow.to_string();
            let path = LaidKind::Element(EId::Path, vec![Value::new(AId::Id, &id, None)]);
            self.links.insert(id, self.nodes.len());
            self.push(None, path, true);
        }
    }

    /// The tree, with the readings of its values set.
    pub fn document(&self) -> Document<'_> {
        svgtypes::clear_readings();
        let planned = self.nodes.iter().map(|node| Planned { parent: node.parent, kind: planned(&node.kind) });
        Document::of(planned.collect(), self.links.clone())
    }
}

/// The attributes that stand for the answers on an element. What else belongs to a paint is set so that it does not read.
fn answers(flow: u32, (fill, stroke): (u32, u32)) -> Vec<(AId, String)> {
    let code = |code: u32, none: &str| if code == 0 { none.to_string() } else { code.to_string() };
    let unreadable =
        [AId::FillOpacity, AId::StrokeOpacity, AId::StrokeWidth, AId::StrokeMiterlimit, AId::StrokeDashoffset];
    let mut answers = vec![
        (AId::Href, code(flow, "")),
        (AId::Fill, code(fill, "none")),
        (AId::Stroke, code(stroke, "none")),
        (AId::StrokeDasharray, "none".to_string()),
    ];
    answers.extend(unreadable.map(|name| (name, String::new())));
    answers
}

fn laid(kind: &Kind, answers: Vec<(AId, String)>) -> LaidKind {
    match kind {
        Kind::Root => LaidKind::Root,
        Kind::Text(text) => LaidKind::Text(text.clone()),
        Kind::Element(tag, attributes) => {
            let answers = answers.iter().map(|(name, value)| Value::new(*name, value, None));
            let own = attributes.iter().map(|own| Value::new(own.name, &own.value, Some(own.reading.clone())));
            LaidKind::Element(*tag, answers.chain(own).collect())
        }
    }
}

fn planned(kind: &LaidKind) -> PlannedKind<'_> {
    match kind {
        LaidKind::Root => PlannedKind::Root,
        LaidKind::Text(text) => PlannedKind::Text(text.clone()),
        LaidKind::Element(tag, values) => {
            for value in values {
                if let Some(reading) = &value.reading {
                    svgtypes::set_reading(value.value(), reading.clone());
                }
            }
            PlannedKind::Element(*tag, values.iter().map(|value| (value.name, value.value())).collect())
        }
    }
}

//! Stands in for usvg's src/parser/svgtree/parse.rs: makes a `Document` of plain nodes, where usvg makes it of XML.

use super::{Attribute, Document, NodeData, NodeId, NodeKind, ShortRange, SvgNode};
use crate::plan::{Planned, PlannedKind};
use std::collections::HashMap;

impl<'input> Document<'input> {
    /// A document with these nodes in this order, and these links from ids to nodes.
    pub(crate) fn of(plan: Vec<Planned<'input>>, links: HashMap<String, usize>) -> Self {
        let mut children = vec![Vec::new(); plan.len()];
        for (number, planned) in plan.iter().enumerate() {
            if let Some(parent) = planned.parent {
                children[parent].push(number);
            }
        }
        let mut document = Document { nodes: Vec::new(), attrs: Vec::new(), links: HashMap::new() };
        for (number, planned) in plan.into_iter().enumerate() {
            let siblings = planned.parent.map_or(&[][..], |parent| &children[parent]);
            let next = siblings.iter().copied().find(|&sibling| sibling > number);
            document.put(planned, next, &children[number]);
        }
        document.links = links.into_iter().map(|(id, number)| (id, NodeId::from(number))).collect();
        document
    }

    fn put(&mut self, planned: Planned<'input>, next: Option<usize>, children: &[usize]) {
        let ends = children.first().zip(children.last());
        let kind = self.kind(planned.kind);
        self.nodes.push(NodeData {
            parent: planned.parent.map(NodeId::from),
            next_sibling: next.map(NodeId::from),
            children: ends.map(|(&first, &last)| (NodeId::from(first), NodeId::from(last))),
            kind,
        });
    }

    fn kind(&mut self, kind: PlannedKind<'input>) -> NodeKind {
        match kind {
            PlannedKind::Root => NodeKind::Root,
            PlannedKind::Text(text) => NodeKind::Text(text),
            PlannedKind::Element(tag_name, attributes) => {
                let start = self.attrs.len() as u32;
                for (name, value) in attributes {
                    let value = roxmltree::StringStorage(value);
                    self.attrs.push(Attribute { name, value, important: false });
                }
                NodeKind::Element { tag_name, attributes: ShortRange::new(start, self.attrs.len() as u32) }
            }
        }
    }

    /// The node of this number.
    pub(crate) fn node<'a>(&'a self, number: usize) -> SvgNode<'a, 'input> {
        self.get(NodeId::from(number))
    }
}

impl SvgNode<'_, '_> {
    /// The node's number in its document.
    pub(crate) fn number(&self) -> usize {
        self.id.get_usize()
    }
}

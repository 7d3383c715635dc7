//! A card as scripts build it. Nothing of usvg is in it but the names of tags and attributes.

use crate::parser::svgtree::{AId, EId};
use crate::trouble::Trouble;
use svgtypes::Reading;

pub struct Node {
    pub parent: Option<usize>,
    pub kind: Kind,
}

pub enum Kind {
    Root,
    Element(EId, Vec<Attribute>),
    Text(String),
}

pub struct Attribute {
    pub name: AId,
    pub value: String,
    pub reading: Reading,
}

pub struct Card {
    pub nodes: Vec<Node>,
    pub sealed: bool,
    open: usize,
    /// How many attributes, bytes and lengths are used.
    used: [usize; 3],
    /// How many entries the four tables have: nodes, attributes, bytes, lengths.
    sizes: [usize; 4],
}

/// The most entries that a card uses of each table.
pub const LIMITS: [usize; 4] = [4096, 16384, 65536, 16384];

/// The most elements that may lie one in another.
const MOST_OPEN: usize = 64;

impl Card {
    /// The root, and in it an `svg`, which is open.
    pub fn begin(sizes: [usize; 4]) -> Result<Self, Trouble> {
        let root = Node { parent: None, kind: Kind::Root };
        let svg = Node { parent: Some(0), kind: Kind::Element(EId::Svg, Vec::new()) };
        let card = Self { nodes: vec![root, svg], sealed: false, open: 1, used: [0; 3], sizes };
        if sizes[0] < card.nodes.len() { Err(Trouble::Unsupported) } else { Ok(card) }
    }

    pub fn open(&mut self, tag: EId) -> Result<usize, Trouble> {
        if self.above(self.open).count() >= MOST_OPEN {
            return Err(Trouble::Unsupported);
        }
        self.open = self.add(Kind::Element(tag, Vec::new()))?;
        Ok(self.open)
    }

    pub fn give(&mut self, name: AId, value: Vec<u8>, mut reading: Reading) -> Result<usize, Trouble> {
        if self.open + 1 != self.nodes.len() || !keeps_rules(&reading) {
            return Err(Trouble::Unsupported);
        }
        let value = String::from_utf8(value).map_err(|_| Trouble::Unsupported)?;
        let start = self.used[1];
        self.take([1, value.len(), reading.lengths.len()])?;
        reading.place = (start, self.used[1]);
        if let Kind::Element(_, attributes) = &mut self.nodes[self.open].kind {
            attributes.push(Attribute { name, value, reading });
        }
        Ok(self.used[0] - 1)
    }

    pub fn write(&mut self, text: Vec<u8>) -> Result<usize, Trouble> {
        let text = String::from_utf8(text).map_err(|_| Trouble::Unsupported)?;
        self.take([0, text.len(), 0])?;
        self.add(Kind::Text(text))
    }

    pub fn close(&mut self) -> Result<usize, Trouble> {
        if self.open == 1 {
            return Err(Trouble::Unsupported);
        }
        self.open = self.nodes[self.open].parent.unwrap();
        Ok(self.open)
    }

    pub fn seal(&mut self) -> Result<(), Trouble> {
        if self.open != 1 {
            return Err(Trouble::Unsupported);
        }
        self.sealed = true;
        Ok(())
    }

    fn add(&mut self, kind: Kind) -> Result<usize, Trouble> {
        if self.nodes.len() == self.sizes[0] {
            return Err(Trouble::Unsupported);
        }
        self.nodes.push(Node { parent: Some(self.open), kind });
        Ok(self.nodes.len() - 1)
    }

    /// Takes so many attributes, bytes and lengths more into use.
    fn take(&mut self, more: [usize; 3]) -> Result<(), Trouble> {
        let used: [usize; 3] = std::array::from_fn(|table| self.used[table] + more[table]);
        if used.iter().zip(&self.sizes[1..]).any(|(used, size)| used > size) {
            return Err(Trouble::Unsupported);
        }
        self.used = used;
        Ok(())
    }

    /// The elements from a node upward, itself included.
    pub fn above(&self, number: usize) -> impl Iterator<Item = usize> + '_ {
        let up = |&number: &usize| self.nodes[number].parent;
        std::iter::successors(Some(number), up).filter(|&number| self.tag(number).is_some())
    }

    pub fn tag(&self, number: usize) -> Option<EId> {
        match self.nodes.get(number)?.kind {
            Kind::Element(tag, _) => Some(tag),
            _ => None,
        }
    }

    /// The value of the first attribute of a name.
    pub fn value(&self, number: usize, name: AId) -> Option<&str> {
        match &self.nodes[number].kind {
            Kind::Element(_, attributes) => {
                attributes.iter().find(|attribute| attribute.name == name).map(|attribute| attribute.value.as_str())
            }
            _ => None,
        }
    }
}

fn keeps_rules(reading: &Reading) -> bool {
    let finite = reading.lengths.iter().all(|length| length.number.is_finite());
    let single = !reading.single || reading.lengths.len() == 1;
    let plain = !reading.plain || reading.lengths.iter().all(|length| length.unit == svgtypes::LengthUnit::None);
    finite && single && plain
}

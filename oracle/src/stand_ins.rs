//! What the script says in place of usvg: the stage, which elements are drawn and on which path; and the paint.

use crate::card::Card;
use crate::parser::svgtree::{AId, EId};
use crate::trouble::Trouble;

pub enum Stage {
    All,
    Table(Vec<(bool, u32)>),
    Language(Vec<u8>),
}

impl Stage {
    /// A table of n drawn bytes and n flow codes.
    pub fn table(bytes: &[u8]) -> Result<Self, Trouble> {
        let (count, rest) = counted(bytes)?;
        if rest.len() != 5 * count || rest[..count].iter().any(|&drawn| drawn > 1) {
            return Err(Trouble::Unsupported);
        }
        let flows = codes(&rest[count..]);
        Ok(Stage::Table(rest[..count].iter().map(|&drawn| drawn == 1).zip(flows).collect()))
    }

    /// Whether an element is drawn, and its flow code, 0 for none.
    pub fn answers(&self, card: &Card, number: usize) -> (bool, u32) {
        match self {
            Stage::All => (true, 0),
            Stage::Table(table) => table.get(number).copied().unwrap_or((false, 0)),
            Stage::Language(chosen) => {
                let is_element = card.tag(number).is_some();
                (is_element && speaks(card, number, chosen), linked_path(card, number).unwrap_or(0) as u32)
            }
        }
    }
}

fn speaks(card: &Card, number: usize, chosen: &[u8]) -> bool {
    let Some(listed) = card.value(number, AId::SystemLanguage) else { return true };
    listed.split(',').any(|entry| match entry.trim_matches(' ').as_bytes().strip_prefix(chosen) {
        Some(rest) => rest.is_empty() || rest[0] == b'-',
        None => false,
    })
}

fn linked_path(card: &Card, number: usize) -> Option<usize> {
    let id = card.value(number, AId::Href)?.strip_prefix('#').filter(|id| !id.is_empty())?;
    let has_id = |&other: &usize| card.value(other, AId::Id) == Some(id);
    let found = (0..card.nodes.len()).rev().find(has_id)?;
    (card.tag(found) == Some(EId::Path)).then_some(found)
}

pub enum Paint {
    Table(Vec<(u32, u32)>),
    Clip,
}

impl Paint {
    /// A table of n fill codes and n stroke codes.
    pub fn table(bytes: &[u8]) -> Result<Self, Trouble> {
        let (count, rest) = counted(bytes)?;
        if rest.len() != 8 * count {
            return Err(Trouble::Unsupported);
        }
        let (fills, strokes) = rest.split_at(4 * count);
        Ok(Paint::Table(codes(fills).zip(codes(strokes)).collect()))
    }

    /// The fill and stroke codes of an element, 0 for none.
    pub fn codes(&self, number: usize) -> (u32, u32) {
        match self {
            Paint::Table(table) => table.get(number).copied().unwrap_or((0, 0)),
            Paint::Clip => (0, 0),
        }
    }
}

/// A count of at most 4,096, and the bytes behind it.
fn counted(bytes: &[u8]) -> Result<(usize, &[u8]), Trouble> {
    let (count, rest) = bytes.split_first_chunk::<4>().ok_or(Trouble::Unsupported)?;
    let count = u32::from_le_bytes(*count) as usize;
    if count > 4096 { Err(Trouble::Unsupported) } else { Ok((count, rest)) }
}

fn codes(bytes: &[u8]) -> impl Iterator<Item = u32> + '_ {
    bytes.chunks_exact(4).map(|code| u32::from_le_bytes(code.try_into().unwrap()))
}

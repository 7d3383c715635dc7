//! The words of a script's line, and the values that they are read as.

use crate::parser::svgtree::{AId, EId};
use crate::trouble::Trouble;
use svgtypes::{Length, LengthUnit};

/// A word: a text in quotes, or anything else.
enum Word {
    Quoted(Vec<u8>),
    Bare(Vec<u8>),
}

/// The words of a line that are not read yet.
pub struct Words(std::collections::VecDeque<Word>);

type Read<T> = Result<T, Trouble>;

impl Words {
    pub fn of(line: &[u8]) -> Read<Self> {
        let mut words = std::collections::VecDeque::new();
        let mut rest = line;
        loop {
            let (word, after) = if rest.first() == Some(&b'"') { quoted(rest)? } else { bare(rest) };
            words.push_back(word);
            rest = match after {
                [] => return Ok(Self(words)),
                [b' ', after @ ..] => after,
                _ => return Err(Trouble::Unreadable),
            };
        }
    }

    pub fn end(&self) -> Read<()> {
        if self.0.is_empty() { Ok(()) } else { Err(Trouble::Unreadable) }
    }

    pub fn text(&mut self) -> Read<Vec<u8>> {
        match self.0.pop_front() {
            Some(Word::Quoted(text)) => Ok(text),
            _ => Err(Trouble::Unreadable),
        }
    }

    pub fn bare(&mut self) -> Read<String> {
        match self.0.pop_front() {
            Some(Word::Bare(word)) => String::from_utf8(word).map_err(|_| Trouble::Unreadable),
            _ => Err(Trouble::Unreadable),
        }
    }

    pub fn number(&mut self) -> Read<usize> {
        let word = self.bare()?;
        let digits = word.bytes().all(|byte| byte.is_ascii_digit());
        let number: Option<u32> = word.parse().ok().filter(|_| digits);
        number.map(|number| number as usize).ok_or(Trouble::Unreadable)
    }

    pub fn float(&mut self) -> Read<f32> {
        self.bare()?.parse().map_err(|_| Trouble::Unreadable)
    }

    pub fn tag(&mut self) -> Read<EId> {
        EId::from_str(&self.bare()?).ok_or(Trouble::Unreadable)
    }

    pub fn name(&mut self) -> Read<AId> {
        AId::from_str(&self.bare()?).ok_or(Trouble::Unreadable)
    }

    /// Whether a value is single, and whether it is plain.
    pub fn marks(&mut self) -> Read<(bool, bool)> {
        match self.bare()?.as_str() {
            "neither" => Ok((false, false)),
            "single" => Ok((true, false)),
            "plain" => Ok((false, true)),
            "both" => Ok((true, true)),
            _ => Err(Trouble::Unreadable),
        }
    }

    /// All words that are left, as lengths.
    pub fn lengths(&mut self) -> Read<Vec<Length>> {
        let mut lengths = Vec::new();
        while !self.0.is_empty() {
            lengths.push(length(&self.bare()?)?);
        }
        Ok(lengths)
    }
}

fn bare(rest: &[u8]) -> (Word, &[u8]) {
    let end = rest.iter().position(|&byte| byte == b' ').unwrap_or(rest.len());
    (Word::Bare(rest[..end].to_vec()), &rest[end..])
}

fn quoted(rest: &[u8]) -> Read<(Word, &[u8])> {
    let mut text = Vec::new();
    let mut rest = &rest[1..];
    loop {
        rest = match rest {
            [b'"', after @ ..] => return Ok((Word::Quoted(text), after)),
            [b'\\', b'x', high, low, after @ ..] => {
                text.push(hex(*high)? * 16 + hex(*low)?);
                after
            }
            [b'\\', escape, after @ ..] => {
                text.push(escaped(*escape)?);
                after
            }
            [b'\\'] | [] => return Err(Trouble::Unreadable),
            [byte, after @ ..] => {
                text.push(*byte);
                after
            }
        }
    }
}

fn hex(digit: u8) -> Read<u8> {
    (digit as char).to_digit(16).map(|digit| digit as u8).ok_or(Trouble::Unreadable)
}

fn escaped(escape: u8) -> Read<u8> {
    match escape {
        b'"' | b'\\' => Ok(escape),
        b'n' => Ok(b'\n'),
        b'r' => Ok(b'\r'),
        b't' => Ok(b'\t'),
        _ => Err(Trouble::Unreadable),
    }
}

const UNITS: [(&str, LengthUnit); 10] = [
    ("em", LengthUnit::Em),
    ("ex", LengthUnit::Ex),
    ("px", LengthUnit::Px),
    ("in", LengthUnit::In),
    ("cm", LengthUnit::Cm),
    ("mm", LengthUnit::Mm),
    ("pt", LengthUnit::Pt),
    ("pc", LengthUnit::Pc),
    ("%", LengthUnit::Percent),
    ("", LengthUnit::None),
];

fn length(word: &str) -> Read<Length> {
    let read = |(spelling, unit): &(&str, LengthUnit)| {
        let number: f32 = word.strip_suffix(spelling)?.parse().ok()?;
        Some(Length::new(number as f64, *unit))
    };
    UNITS.iter().find_map(read).ok_or(Trouble::Unreadable)
}

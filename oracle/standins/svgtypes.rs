//! Stands in for the crate `svgtypes`. Where that parses a value, this looks up the reading that the card has for it: each
//! value lies at an address of its own, and the address is the key.

use std::cell::RefCell;
use std::collections::HashMap;
use std::str::FromStr;

/// A value that does not read.
#[derive(Clone, Copy, Debug)]
pub struct Error;

// ---- readings

/// What a card says about a value: its lengths, the two marks, and the place of its bytes in the card.
#[derive(Clone, Debug)]
pub struct Reading {
    pub lengths: Vec<Length>,
    pub single: bool,
    pub plain: bool,
    pub place: (usize, usize),
}

thread_local! {
    static READINGS: RefCell<HashMap<usize, Reading>> = RefCell::new(HashMap::new());
}

/// Forgets all readings.
pub fn clear_readings() {
    READINGS.with_borrow_mut(HashMap::clear);
}

/// Says how the value at this address reads.
pub fn set_reading(value: &str, reading: Reading) {
    READINGS.with_borrow_mut(|readings| readings.insert(value.as_ptr() as usize, reading));
}

fn reading(value: &str) -> Option<Reading> {
    READINGS.with_borrow(|readings| readings.get(&(value.as_ptr() as usize)).cloned())
}

// ---- lengths and numbers

#[derive(Clone, Copy, PartialEq, Debug)]
pub enum LengthUnit {
    None,
    Em,
    Ex,
    Px,
    In,
    Cm,
    Mm,
    Pt,
    Pc,
    Percent,
}

#[derive(Clone, Copy, PartialEq, Debug)]
pub struct Length {
    pub number: f64,
    pub unit: LengthUnit,
}

impl Length {
    pub fn new(number: f64, unit: LengthUnit) -> Self {
        Self { number, unit }
    }

    pub fn zero() -> Self {
        Self::new(0.0, LengthUnit::None)
    }
}

impl Default for Length {
    fn default() -> Self {
        Self::zero()
    }
}

impl FromStr for Length {
    type Err = Error;

    fn from_str(value: &str) -> Result<Self, Error> {
        let reading = reading(value).filter(|reading| reading.single).ok_or(Error)?;
        Ok(reading.lengths[0])
    }
}

/// The lengths of a value.
pub struct LengthListParser(std::vec::IntoIter<Length>);

impl From<&str> for LengthListParser {
    fn from(value: &str) -> Self {
        Self(reading(value).map_or(Vec::new(), |reading| reading.lengths).into_iter())
    }
}

impl Iterator for LengthListParser {
    type Item = Result<Length, Error>;

    fn next(&mut self) -> Option<Self::Item> {
        self.0.next().map(Ok)
    }
}

/// The numbers of a value that is a list of numbers; an error for any other value.
pub struct NumberListParser(std::vec::IntoIter<Result<f64, Error>>);

impl From<&str> for NumberListParser {
    fn from(value: &str) -> Self {
        let numbers = match reading(value) {
            Some(reading) if reading.plain => reading.lengths.iter().map(|length| Ok(length.number)).collect(),
            _ => vec![Err(Error)],
        };
        Self(numbers.into_iter())
    }
}

impl Iterator for NumberListParser {
    type Item = Result<f64, Error>;

    fn next(&mut self) -> Option<Self::Item> {
        self.0.next()
    }
}

// ---- links, colours and families: values that the oracle itself has put into the tree

/// A link. The oracle writes a flow's code as the whole value, and an empty value where there is no flow.
pub struct IRI<'a>(pub &'a str);

impl<'a> IRI<'a> {
    pub fn from_str(value: &'a str) -> Result<Self, Error> {
        (!value.is_empty()).then_some(Self(value)).ok_or(Error)
    }
}

pub struct FuncIRI<'a>(pub &'a str);

impl<'a> FuncIRI<'a> {
    pub fn from_str(_: &'a str) -> Result<Self, Error> {
        Err(Error)
    }
}

#[derive(Clone, Copy, PartialEq, Debug)]
pub struct Color {
    pub red: u8,
    pub green: u8,
    pub blue: u8,
    pub alpha: u8,
}

impl Color {
    pub fn black() -> Self {
        Self { red: 0, green: 0, blue: 0, alpha: 255 }
    }
}

impl FromStr for Color {
    type Err = Error;

    fn from_str(_: &str) -> Result<Self, Error> {
        Err(Error)
    }
}

pub enum PaintFallback {
    None,
    CurrentColor,
    Color(Color),
}

/// A paint. The oracle writes a code of the card's paint as a decimal number, which becomes the four bytes of a colour.
pub enum Paint<'a> {
    None,
    Inherit,
    CurrentColor,
    Color(Color),
    FuncIRI(&'a str, Option<PaintFallback>),
    ContextFill,
    ContextStroke,
}

impl<'a> Paint<'a> {
    pub fn from_str(value: &'a str) -> Result<Self, Error> {
        if value == "none" {
            return Ok(Self::None);
        }
        let code: u32 = value.parse().map_err(|_| Error)?;
        let [alpha, red, green, blue] = code.to_be_bytes();
        Ok(Self::Color(Color { red, green, blue, alpha }))
    }
}

#[derive(Clone, PartialEq, Eq, Hash, Debug)]
pub enum FontFamily {
    Named(String),
}

/// One family whose name is the place of the value in the card; 0..0 for a value that the card does not have.
pub fn parse_font_families(value: &str) -> Result<Vec<FontFamily>, Error> {
    let (start, end) = reading(value).map_or((0, 0), |reading| reading.place);
    Ok(vec![FontFamily::Named(format!("{start}..{end}"))])
}

// ---- values that no answer depends on: nothing of them reads

macro_rules! never_reads {
    ($($name:ident { $($field:ident: $kind:ty),* })*) => {$(
        #[derive(Clone, Copy, Debug)]
        pub struct $name {
            $(pub $field: $kind,)*
        }

        impl FromStr for $name {
            type Err = Error;

            fn from_str(_: &str) -> Result<Self, Error> {
                Err(Error)
            }
        }
    )*};
}

never_reads! {
    Angle {}
    AspectRatio {}
    EnableBackground {}
    PaintOrder { order: [PaintOrderKind; 3] }
    Transform { a: f64, b: f64, c: f64, d: f64, e: f64, f: f64 }
    TransformOrigin { x_offset: Length, y_offset: Length, z_offset: Length }
    ViewBox { x: f64, y: f64, w: f64, h: f64 }
}

/// A bare number, asked only for the mitre limit of a stroke.
pub struct Number(pub f64);

impl FromStr for Number {
    type Err = Error;

    fn from_str(_: &str) -> Result<Self, Error> {
        Err(Error)
    }
}

impl Default for AspectRatio {
    fn default() -> Self {
        Self {}
    }
}

#[derive(Clone, Copy, PartialEq, Debug)]
pub enum PaintOrderKind {
    Fill,
    Stroke,
    Markers,
}

impl Default for PaintOrder {
    fn default() -> Self {
        Self { order: [PaintOrderKind::Fill, PaintOrderKind::Stroke, PaintOrderKind::Markers] }
    }
}

impl TransformOrigin {
    pub fn new(x_offset: Length, y_offset: Length, z_offset: Length) -> Self {
        Self { x_offset, y_offset, z_offset }
    }
}

//! How values are written in answers.

use crate::{BaselineShift, Color, Fill, LengthAdjust, Opacity, Paint, Stroke, TextDecorationStyle, TextFlow};
use std::fmt::Debug;

pub fn optional(number: Option<f32>) -> String {
    number.map_or("-".to_string(), |number| number.to_string())
}

pub fn yes(is_so: bool) -> &'static str {
    if is_so { "yes" } else { "no" }
}

/// The CSS keyword of a variant: `TextAfterEdge` is `text-after-edge`.
pub fn keyword(variant: impl Debug) -> String {
    let mut keyword = String::new();
    for letter in format!("{variant:?}").chars() {
        if letter.is_uppercase() && !keyword.is_empty() {
            keyword.push('-');
        }
        keyword.extend(letter.to_lowercase());
    }
    keyword
}

pub fn adjust(adjust: LengthAdjust) -> &'static str {
    match adjust {
        LengthAdjust::Spacing => "spacing",
        LengthAdjust::SpacingAndGlyphs => "spacingAndGlyphs",
    }
}

pub fn shift(shift: &BaselineShift) -> String {
    match shift {
        BaselineShift::Baseline => "baseline".to_string(),
        BaselineShift::Subscript => "sub".to_string(),
        BaselineShift::Superscript => "super".to_string(),
        BaselineShift::Number(number) => format!("number {number}"),
    }
}

/// The stage's code, which is the id of the path that the flow follows.
pub fn flow(flow: &TextFlow) -> String {
    match flow {
        TextFlow::Linear => "0".to_string(),
        TextFlow::Path(path) => path.id().to_string(),
    }
}

/// A text in quotes, with escapes.
pub fn quoted(bytes: &[u8]) -> String {
    let escaped = |&byte: &u8| match byte {
        b'"' => "\\\"".to_string(),
        b'\\' => "\\\\".to_string(),
        b'\n' => "\\n".to_string(),
        b'\r' => "\\r".to_string(),
        b'\t' => "\\t".to_string(),
        32..=126 => (byte as char).to_string(),
        _ => format!("\\x{byte:02x}"),
    };
    format!("\"{}\"", bytes.iter().map(escaped).collect::<String>())
}

/// The codes of paints: the four bytes of a colour, its alpha first. Under the clip paint black is 1.
pub struct Codes {
    pub clip: bool,
}

impl Codes {
    pub fn fill(&self, fill: Option<&Fill>) -> String {
        fill.map_or("-".to_string(), |fill| self.code(&fill.paint, fill.opacity))
    }

    pub fn stroke(&self, stroke: Option<&Stroke>) -> String {
        stroke.map_or("-".to_string(), |stroke| self.code(&stroke.paint, stroke.opacity))
    }

    pub fn decoration(&self, line: &Option<TextDecorationStyle>) -> String {
        line.as_ref().map_or("-".to_string(), |line| {
            format!("{}/{}", self.fill(line.fill.as_ref()), self.stroke(line.stroke.as_ref()))
        })
    }

    fn code(&self, paint: &Paint, opacity: Opacity) -> String {
        let Paint::Color(Color { red, green, blue }) = *paint else { unreachable!("every paint is a code") };
        if self.clip {
            assert!([red, green, blue] == [0, 0, 0] && opacity == Opacity::ONE, "clip paint is black");
            return "1".to_string();
        }
        let alpha = (opacity.get() * 255.0).round() as u8;
        u32::from_be_bytes([alpha, red, green, blue]).to_string()
    }
}

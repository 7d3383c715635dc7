//! The questions that are put to usvg, and what it answers, written as the script's answers are.

use crate::card::{Card, Kind};
use crate::parser::converter::{Cache, State};
use crate::parser::svgtree::{Document, EId};
use crate::plan::Plan;
use crate::print;
use crate::stand_ins::{Paint, Stage};
use crate::trouble::Trouble;
use crate::*;
use std::fmt::Write;
use std::sync::Arc;

pub struct Settings {
    pub dpi: f32,
    pub size: f32,
    pub width: f32,
    pub height: f32,
    pub diagonal: f32,
}

impl Settings {
    fn in_range(&self) -> bool {
        let all = [self.dpi, self.size, self.width, self.height, self.diagonal];
        all.iter().all(|number| number.is_finite() && *number > 0.0)
    }
}

fn options<'a>(settings: &Settings, drawn: &'a [bool]) -> Options<'a> {
    Options {
        dpi: settings.dpi,
        font_size: settings.size,
        drawn,
        font_family: String::new(),
        text_rendering: TextRendering::default(),
        shape_rendering: ShapeRendering::default(),
        default_size: tiny_skia_path::Size,
        font_resolver: FontResolver,
        fontdb: Arc::new(fontdb::Database),
    }
}

fn state<'a>(opt: &'a Options<'a>, width: f32, height: f32) -> State<'a> {
    State {
        parent_clip_path: None,
        parent_markers: Vec::new(),
        context_element: None,
        fe_image_link: false,
        view_box: NonZeroRect::from_xywh(0.0, 0.0, width, height).unwrap(),
        use_size: (None, None),
        opt,
    }
}

/// The numbers of the `text` elements.
pub fn texts(card: &Card) -> Vec<usize> {
    let plan = Plan::whole(card, &Stage::All, &Paint::Table(Vec::new()));
    let document = plan.document();
    let is_text = |node: &parser::svgtree::SvgNode| node.tag_name() == Some(EId::Text);
    document.descendants().filter(is_text).map(|node| node.number()).collect()
}

/// What usvg builds of a `text` element up to its layout.
fn built(document: &Document, number: usize, state: &State, cache: &mut Cache) -> Text {
    parser::text::convert(document.node(number), state, cache, &mut Group::empty());
    text::take_built().expect("usvg comes to the layout of every text")
}

/// What usvg builds of a `text` element where everything is drawn.
fn built_alone(card: &Card, number: usize, settings: &Settings) -> Result<Text, Trouble> {
    if card.tag(number) != Some(EId::Text) {
        return Err(Trouble::Unsupported);
    }
    let plan = Plan::whole(card, &Stage::All, &Paint::Table(Vec::new()));
    let document = plan.document();
    let opt = options(settings, &plan.drawn);
    let state = state(&opt, settings.width, settings.height);
    Ok(built(&document, number, &state, &mut Cache::new(opt.fontdb.clone())))
}

/// The angles of an element's characters.
pub fn rotations(card: &Card, number: usize, settings: &Settings) -> Result<Vec<f32>, Trouble> {
    Ok(built_alone(card, number, settings)?.rotate)
}

/// The writing mode of an element.
pub fn mode(card: &Card, number: usize, settings: &Settings) -> Result<&'static str, Trouble> {
    match built_alone(card, number, settings)?.writing_mode {
        WritingMode::LeftToRight => Ok("horizontal"),
        WritingMode::TopToBottom => Ok("vertical"),
    }
}

/// What a collect answers.
pub struct Collected {
    positions: Vec<[Option<f32>; 4]>,
    /// For each shown character, the number of its text.
    sources: Vec<usize>,
    chunks: Vec<TextChunk>,
}

pub fn collect(card: &Card, number: usize, settings: &Settings, stage: &Stage) -> Result<Collected, Trouble> {
    if card.tag(number) != Some(EId::Text) || !settings.in_range() {
        return Err(Trouble::Unsupported);
    }
    let plan = Plan::whole(card, stage, &Paint::Table(Vec::new()));
    let document = plan.document();
    let opt = options(settings, &plan.drawn);
    let state = state(&opt, settings.width, settings.height);
    let cache = &mut Cache::new(opt.fontdb.clone());
    let text = built(&document, number, &state, cache);
    let node = document.node(number);
    let positions = parser::text::positions(node, &state);
    let shown = parser::text::shown(node, &state, cache);
    let characters = characters(card, number);
    let shown: Vec<_> = shown.iter().map(|&character| characters[character]).collect();
    check_agreement(&text, &positions, &shown);
    let sources = shown.iter().map(|&(source, _)| source).collect();
    Ok(Collected { positions, sources, chunks: text.chunks })
}

/// What the doors say must be what usvg has built.
fn check_agreement(text: &Text, positions: &[[Option<f32>; 4]], shown: &[(usize, char)]) {
    let bits = |offsets: &[f32]| offsets.iter().map(|offset| offset.to_bits()).collect::<Vec<_>>();
    let axis = |axis: usize| positions.iter().map(|at| at[axis].unwrap_or(0.0)).collect::<Vec<_>>();
    assert_eq!(bits(&text.dx), bits(&axis(2)));
    assert_eq!(bits(&text.dy), bits(&axis(3)));
    let letters: String = shown.iter().map(|&(_, letter)| letter).collect();
    assert_eq!(letters, text.chunks.iter().map(|chunk| chunk.text.as_str()).collect::<String>());
}

/// The characters below an element, each with the number of its text.
fn characters(card: &Card, number: usize) -> Vec<(usize, char)> {
    let mut characters = Vec::new();
    for (text, node) in card.nodes.iter().enumerate() {
        if let Kind::Text(letters) = &node.kind {
            if card.above(text).any(|above| above == number) {
                characters.extend(letters.chars().map(|letter| (text, letter)));
            }
        }
    }
    characters
}

impl Collected {
    /// The entries that the four output tables get: positions, chunks, spans, text.
    pub fn needs(&self) -> [usize; 4] {
        let spans = self.chunks.iter().map(|chunk| chunk.spans.len()).sum();
        let bytes = self.chunks.iter().map(|chunk| chunk.text.len()).sum();
        [self.positions.len(), self.chunks.len(), spans, bytes]
    }

    pub fn said(&self) -> String {
        let [characters, chunks, spans, bytes] = self.needs();
        let shown = self.sources.len();
        let mut said =
            format!("collected characters {characters} shown {shown} chunks {chunks} spans {spans} bytes {bytes}");
        self.say_positions(&mut said);
        self.say_chunks(&mut said);
        self.say_spans(&mut said);
        said
    }

    fn say_positions(&self, said: &mut String) {
        for (number, at) in self.positions.iter().enumerate() {
            let [x, y, dx, dy] = at.map(print::optional);
            write!(said, "\nposition {number} {x} {y} {dx} {dy}").unwrap();
        }
    }

    fn say_chunks(&self, said: &mut String) {
        let (mut spans, mut bytes) = (0, 0);
        for (number, chunk) in self.chunks.iter().enumerate() {
            let (x, y) = (print::optional(chunk.x), print::optional(chunk.y));
            let (anchor, flow) = (print::keyword(chunk.anchor), print::flow(&chunk.text_flow));
            let (spans_end, bytes_end) = (spans + chunk.spans.len(), bytes + chunk.text.len());
            let text = print::quoted(chunk.text.as_bytes());
            write!(said, "\nchunk {number} x {x} y {y} anchor {anchor} flow {flow}").unwrap();
            write!(said, " spans {spans}..{spans_end} bytes {bytes}..{bytes_end} {text}").unwrap();
            (spans, bytes) = (spans_end, bytes_end);
        }
    }

    fn say_spans(&self, said: &mut String) {
        let (mut number, mut character) = (0, 0);
        for chunk in &self.chunks {
            for span in &chunk.spans {
                let text = &chunk.text[span.start..span.end];
                let (start, end, source) = (span.start, span.end, self.sources[character]);
                write!(said, "\nspan {number} {start}..{end} text {source} {}", print::quoted(text.as_bytes()))
                    .unwrap();
                number += 1;
                character += text.chars().count();
            }
        }
    }
}

/// The style of a text: usvg's span for it.
pub fn style(card: &Card, number: usize, settings: &Settings, paint: &Paint) -> Result<TextSpan, Trouble> {
    let is_text = matches!(card.nodes.get(number).map(|node| &node.kind), Some(Kind::Text(_)));
    if !is_text || !settings.in_range() || !card.above(number).any(|above| card.tag(above) == Some(EId::Text)) {
        return Err(Trouble::Unsupported);
    }
    // usvg computes the diagonal of its view box, so the box is a square with this diagonal.
    let side = settings.diagonal;
    if ((side * side + side * side) / 2.0).sqrt() != side {
        return Err(Trouble::Unsupported);
    }
    let (plan, parent) = Plan::way_up(card, number, paint);
    let document = plan.document();
    let opt = options(settings, &plan.drawn);
    let mut state = state(&opt, side, side);
    if let Paint::Clip = paint {
        state.parent_clip_path = Some(document.node(1));
    }
    strict_num::take_every_size(true);
    let span = parser::text::span_of(document.node(parent), &state, &mut Cache::new(opt.fontdb.clone()));
    strict_num::take_every_size(false);
    Ok(span)
}

pub fn said_style(number: usize, span: &TextSpan, paint: &Paint) -> String {
    let FontFamily::Named(family) = &span.font.families[0];
    let codes = print::Codes { clip: matches!(paint, Paint::Clip) };
    let decoration = |line| codes.decoration(line);
    let words = [
        format!("style {number} size {}", span.font_size.get()),
        format!("family {family}"),
        format!("style {}", print::keyword(span.font.style)),
        format!("stretch {}", print::keyword(span.font.stretch)),
        format!("weight {}", span.font.weight),
        format!("small-caps {}", print::yes(span.small_caps)),
        format!("kerning {}", print::yes(span.apply_kerning)),
        format!("optical {}", print::keyword(span.font_optical_sizing)),
        format!("visible {}", print::yes(span.visible)),
        format!("dominant {}", print::keyword(span.dominant_baseline)),
        format!("alignment {}", print::keyword(span.alignment_baseline)),
        format!("letter {}", span.letter_spacing),
        format!("word {}", span.word_spacing),
        format!("length {}", print::optional(span.text_length)),
        format!("adjust {}", print::adjust(span.length_adjust)),
        format!("fill {}", codes.fill(span.fill.as_ref())),
        format!("stroke {}", codes.stroke(span.stroke.as_ref())),
        format!("underline {}", decoration(&span.decoration.underline)),
        format!("overline {}", decoration(&span.decoration.overline)),
        format!("line-through {}", decoration(&span.decoration.line_through)),
        format!("shifts {}", span.baseline_shift.len()),
    ];
    let mut said = words.join(" ");
    for (number, shift) in span.baseline_shift.iter().enumerate() {
        write!(said, "\nshift {number} {}", print::shift(shift)).unwrap();
    }
    said
}

//! The oracle: reads a card script on standard input and prints what usvg 0.49.0 answers, call by call.
//!
//! The modules `parser`, `text` and `tree` are usvg's with stand-ins between them; the others are the oracle's own.
#![allow(dead_code, irrefutable_let_patterns, unused_imports)]

mod asked;
mod card;
mod parser;
mod plan;
mod print;
mod session;
mod stand_ins;
mod text;
mod tree;
mod trouble;
mod words;

pub(crate) use parser::{Error, OptionLog, Options};
pub(crate) use text::{FontResolver, GlyphId, flatten, layout};
pub(crate) use tree::*;

use std::io::{Read, Write};

fn main() {
    let mut script = Vec::new();
    std::io::stdin().read_to_end(&mut script).expect("a script on standard input");
    let mut session = session::Session::new();
    let mut said = String::new();
    for line in script.split(|&byte| byte == b'\n') {
        if !line.is_empty() && line[0] != b'#' {
            said.push_str(&session.answer(line));
            said.push('\n');
        }
    }
    said.push_str(&session.last());
    said.push('\n');
    std::io::stdout().write_all(said.as_bytes()).expect("an open standard output");
}

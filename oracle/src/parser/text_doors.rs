// Doors into usvg's text.rs: included behind it, in the same module. They call its functions and decide nothing.

/// The x, y, dx and dy of each character of an element.
pub(crate) fn positions(text_node: SvgNode, state: &converter::State) -> Vec<[Option<f32>; 4]> {
    let list = resolve_positions_list(text_node, state);
    list.iter().map(|at| [at.x, at.y, at.dx, at.dy]).collect()
}

/// The numbers of the characters that usvg puts into chunks, in its order. Each character is given its own number as x, so
/// that each begins a chunk which holds that number.
pub(crate) fn shown(text_node: SvgNode, state: &converter::State, cache: &mut converter::Cache) -> Vec<usize> {
    let count = count_chars(text_node);
    let numbered = |number| CharacterPosition { x: Some(number as f32), y: None, dx: None, dy: None };
    let list: Vec<_> = (0..count).map(numbered).collect();
    let chunks = collect_text_chunks(text_node, &list, state, cache);
    chunks.iter().map(|chunk| chunk.x.unwrap() as usize).collect()
}

/// The span that usvg makes for the only text of an element, whatever lies above that element.
pub(crate) fn span_of(parent: SvgNode, state: &converter::State, cache: &mut converter::Cache) -> TextSpan {
    let nowhere = CharacterPosition { x: None, y: None, dx: None, dy: None };
    let chunks = collect_text_chunks(parent, &[nowhere], state, cache);
    chunks[0].spans[0].clone()
}

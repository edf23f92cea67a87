
// Appended to the crate's source by build.sh, which changes nothing above: the crate's `parse`, and
// the bytes that it consumed, which the crate itself tells of a refusal only.
pub fn parse_consumed(input: &str) -> (Result<ParseResult<'_>>, usize) {
    let mut state = ParserState {
        remaining: input.as_bytes(),
        input,
        offset: 0,
        memorized_names: Vec::with_capacity(10),
        memorized_types: Vec::with_capacity(10),
    };
    let result = state.parse();
    (result, state.offset)
}

//! The wrapper over the x86-64 archive: what each call hands back, and what it leaves.
use farthingmoss::{flags, name, node_cells, read, write, Counts, Error, DEEPEST, LONGEST};

const SYMBOL: &[u8] = b"??$?DM@std@@YA?AV?$complex@M@0@ABMABV10@@Z";
const TEXT: &[u8] = b"class std::complex<float> __cdecl std::operator*<float>\
    (float const &,class std::complex<float> const &)";
const COUNTS: Counts = Counts { consumed: SYMBOL.len(), depth: 7, nodes: 24, text: TEXT.len() };
const OLD_CELL: u32 = 0xF1E2_D3C4;
const OLD_BYTE: u8 = 0xA5;

/// A table of so many cells and a text, both with a pattern that shows what a call changed.
fn buffers(cells: usize, room: usize) -> (Vec<u32>, Vec<u8>) {
    (vec![OLD_CELL; cells], vec![OLD_BYTE; room])
}

/// The nodes of a symbol, by a reading with room for all.
fn nodes(symbol: &[u8]) -> Vec<u32> {
    let (mut table, mut text) = buffers(2 * symbol.len() * node_cells(), LONGEST);
    let counts = read(symbol, 0, DEEPEST, &mut table, &mut text).expect("the symbol is read");
    table.truncate(counts.nodes * node_cells());
    table
}

#[test]
fn an_answer_leaves_nodes_and_text_and_nothing_else() {
    let (mut table, mut text) = buffers(64 * node_cells() + 11, 256);
    assert_eq!(read(SYMBOL, 0, DEEPEST, &mut table, &mut text), Ok(COUNTS));
    assert_eq!(&text[..TEXT.len()], TEXT);
    assert!(text[TEXT.len()..].iter().all(|byte| *byte == OLD_BYTE));
    assert!(table[COUNTS.nodes * node_cells()..].iter().all(|cell| *cell == OLD_CELL));
}

#[test]
fn the_counts_are_the_least_that_will_do() {
    let read = |depth: usize, nodes: usize, room: usize| {
        let (mut table, mut text) = buffers(nodes * node_cells(), room);
        read(SYMBOL, 0, depth as u32, &mut table, &mut text)
    };
    let Counts { depth, nodes, text, .. } = COUNTS;
    assert_eq!(read(depth, nodes, text), Ok(COUNTS));
    assert_eq!(read(depth - 1, nodes, text).unwrap_err().number(), 4);
    assert_eq!(read(depth, nodes - 1, text).unwrap_err().number(), 5);
    let cut = Counts { text: text - 1, ..COUNTS };
    assert_eq!(read(depth, nodes, text - 1), Err(Error::NoRoom(cut)));
}

#[test]
fn a_cut_text_is_the_beginning() {
    let (mut table, mut text) = buffers(64 * node_cells(), 256);
    let cut = read(b"?x@@3HA", 0, DEEPEST, &mut table, &mut text[..4]);
    let counts = Counts { consumed: 7, depth: 3, nodes: 5, text: 4 };
    assert_eq!(cut, Err(Error::NoRoom(counts)));
    assert_eq!(&text[..4], b"int ");
    assert!(text[4..].iter().all(|byte| *byte == OLD_BYTE));
    assert_eq!(&table[..5 * node_cells()], nodes(b"?x@@3HA"));
}

#[test]
fn a_refused_reading_leaves_zeros_and_no_text() {
    let (mut table, mut text) = buffers(64 * node_cells(), 256);
    let refused = read(b"?x@@3!A", 0, DEEPEST, &mut table, &mut text);
    assert_eq!(refused, Err(Error::NoDerivation(6)));
    let (counted, behind) = table.split_at(2 * node_cells());
    assert!(counted.iter().all(|cell| *cell == 0) && behind.iter().all(|cell| *cell == OLD_CELL));
    assert!(text.iter().all(|byte| *byte == OLD_BYTE));
}

#[test]
fn a_bad_number_is_refused_at_the_byte_that_does_not_belong() {
    let (mut table, mut text) = buffers(64 * node_cells(), 256);
    let mut refused = |symbol: &[u8]| read(symbol, 0, DEEPEST, &mut table, &mut text);
    assert_eq!(refused(b"?x@@3Y0B0@HA"), Err(Error::NoDerivation(8)));
    assert_eq!(refused(b"?x@@3Y0B"), Err(Error::NoDerivation(8)));
}

#[test]
fn an_anonymous_namespace_has_a_digit_in_its_id_or_no_id() {
    let (mut table, mut text) = buffers(64 * node_cells(), 256);
    let mut consumed = |symbol: &[u8]| {
        let answer = read(symbol, 0, DEEPEST, &mut table, &mut text);
        answer.map(|counts| counts.consumed)
    };
    assert_eq!(consumed(b"?@?A0x@@"), Err(Error::NoDerivation(6)));
    assert_eq!(consumed(b"?@?A0x0@@"), Ok(9));
    assert_eq!(consumed(b"?@?A@@"), Ok(6));
}

#[test]
fn an_rvalue_reference_closes_what_it_opens() {
    let (mut table, mut text) = buffers(64 * node_cells(), 256);
    let mut written = |symbol: &[u8]| {
        let counts = read(symbol, 0, DEEPEST, &mut table, &mut text).expect("the symbol is read");
        String::from_utf8_lossy(&text[..counts.text]).into_owned()
    };
    assert_eq!(written(b"?f@@YAX$$QA$$A6AXH@Z@Z"), "void __cdecl f(void (__cdecl &&)(int))");
    assert_eq!(written(b"?f@@YAX$$QAY02H@Z"), "void __cdecl f(int (&&)[3])");
}

/// No reading leaves one, but what a table's form asks for is as it was.
#[test]
fn a_lent_id_with_no_digit_is_well_formed() {
    const ANONYMOUS_ID: u32 = 15;
    const LENGTH: usize = 8;
    let symbol = b"?@?A0x0@@";
    let (mut nodes, mut text) = (nodes(symbol), vec![OLD_BYTE; 256]);
    let id = &mut nodes[node_cells()..];
    assert_eq!((id[0], id[LENGTH]), (ANONYMOUS_ID, 3));
    id[LENGTH] = 2;
    let counts = write(symbol, 0, DEEPEST, &nodes, &mut text).expect("the table is well formed");
    assert_eq!(&text[..counts.text], b"`anonymous namespace'::");
}

#[test]
fn refusals_before_reading_change_nothing_and_come_in_order() {
    let (mut table, mut text) = buffers(64 * node_cells(), 256);
    let mut refusal = |symbol: &[u8], flags, depth| {
        let refusal = read(symbol, flags, depth, &mut table, &mut text).unwrap_err();
        assert!(table.iter().all(|cell| *cell == OLD_CELL));
        assert!(text.iter().all(|byte| *byte == OLD_BYTE));
        refusal
    };
    assert_eq!(refusal(b"", 0, DEEPEST + 1), Error::BadCall);
    assert_eq!(refusal(b"", 1, DEEPEST), Error::BadCall);
    assert_eq!(refusal(b"", flags::KNOWN, DEEPEST), Error::NoSymbol);
    assert_eq!(refusal(&[0xC3; LONGEST + 1], 0, DEEPEST), Error::NoSymbol);
    assert_eq!(refusal("?é@@3HA".as_bytes(), 0, DEEPEST), Error::NotAscii(1));
}

#[test]
fn empty_slices_are_lent_like_others() {
    let (mut table, mut text) = buffers(64 * node_cells(), 256);
    assert_eq!(read(&[], 0, 0, &mut [], &mut []), Err(Error::NoSymbol));
    assert_eq!(read(b"?x@@3HA", 0, 0, &mut [], &mut []), Err(Error::TooDeep(0)));
    assert_eq!(read(b"?x@@3HA", 0, DEEPEST, &mut [], &mut text), Err(Error::NoNode(3)));
    let counts = Counts { consumed: 7, depth: 3, nodes: 5, text: 0 };
    assert_eq!(read(b"?x@@3HA", 0, DEEPEST, &mut table, &mut []), Err(Error::NoRoom(counts)));
    assert_eq!(write(b"?x@@3HA", 0, DEEPEST, &[], &mut []), Err(Error::BadTable));
    assert_eq!(name(b"?x@@3HA", &[], 0), Err(Error::BadTable));
    assert_eq!(name(b"", &[], u64::MAX), Err(Error::NoSymbol));
}

#[test]
fn the_writer_alone_writes_the_same() {
    let (nodes, mut text) = (nodes(SYMBOL), vec![OLD_BYTE; 256]);
    let counts = Counts { consumed: 0, ..COUNTS };
    assert_eq!(write(SYMBOL, 0, 7, &nodes, &mut text), Ok(counts));
    assert_eq!(&text[..TEXT.len()], TEXT);
    let named = write(SYMBOL, flags::NAME_ONLY, 7, &nodes, &mut text).expect("under other flags");
    assert_eq!(&text[..named.text], b"std::operator*<float>");
}

#[test]
fn the_writer_alone_refuses_and_leaves_the_text() {
    let (mut nodes, mut text) = (nodes(SYMBOL), vec![OLD_BYTE; 256]);
    assert_eq!(write(SYMBOL, 0, 6, &nodes, &mut text), Err(Error::TooDeep(0)));
    let short = &nodes[..nodes.len() - node_cells()];
    assert_eq!(write(SYMBOL, 0, 7, short, &mut text), Err(Error::BadTable));
    assert_eq!(write(b"?", 0, 7, &nodes, &mut text), Err(Error::BadTable));
    nodes[1] += 1;
    assert_eq!(write(SYMBOL, 0, 7, &nodes, &mut text), Err(Error::BadTable));
    assert!(text.iter().all(|byte| *byte == OLD_BYTE));
}

#[test]
fn a_name_is_that_very_part_of_the_symbol() {
    let (nodes, symbol) = (nodes(SYMBOL), SYMBOL.to_vec());
    let names: Vec<_> = (0..30).filter_map(|node| name(&symbol, &nodes, node).ok()).collect();
    assert_eq!(names, [&b"std"[..], b"complex"]);
    assert_eq!(names[0].as_ptr(), symbol[7..].as_ptr());
    assert_eq!(name(&symbol, &nodes, u64::MAX), Err(Error::BadTable));
}

#[test]
fn errors_have_numbers_and_messages() {
    let counts = Counts { consumed: 0, depth: 0, nodes: 0, text: 0 };
    let all = [
        Error::NoSymbol,
        Error::NotAscii(5),
        Error::NoDerivation(5),
        Error::TooDeep(5),
        Error::NoNode(5),
        Error::NoRoom(counts),
        Error::BadCall,
        Error::BadTable,
    ];
    for (place, error) in all.iter().enumerate() {
        assert_eq!(error.number(), place as u64 + 1);
        let tells_place = matches!(error.number(), 2..=5);
        assert_eq!(error.to_string().contains('5'), tells_place, "{error}");
    }
}

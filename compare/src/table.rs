//! The leaves, each with a symbol in which the crate reads it and with what the crate shows of it.
use unchecked::{Name, Operator, Type};

use crate::cases;
use crate::enums;
use crate::follow;
use crate::forms::{self, is_one_of};
use crate::inputs::Inputs;
use crate::product::Answer;
use crate::tree::{self, Seen};

pub struct Leaf {
    pub number: u32,
    pub name: &'static str,
    /// The symbol up to the place where the crate reads the leaf.
    pub prefix: &'static str,
    pub inputs: Inputs,
    /// At which offset in the bytes after the accepted leaf the crate is sure to refuse.
    pub stop: fn(&Answer, &[u8]) -> Option<usize>,
    /// What to put after the bytes that the leaf took, so that the crate shows the leaf's value.
    pub tail: fn(&Answer, &[u8]) -> &'static str,
    pub value: fn(&Seen) -> Option<u64>,
    /// Whether there is such a tail.
    pub has_value: fn(&Answer) -> bool,
    /// Inputs on which the crate reads something else, or on which the product means to differ.
    pub outside: fn(&[u8]) -> bool,
    /// Whether the crate refuses where the leaf does. If not, a refusal of the leaf means that no
    /// beginning of the input has a value.
    pub refusal_shows: bool,
    pub has_start: bool,
}

const PLAIN: Leaf = Leaf {
    number: 0,
    name: "",
    prefix: "",
    inputs: Inputs { alphabet: "", depth: 0, stems: &[], cases: Vec::new },
    stop: |_, _| None,
    tail: |_, _| "",
    value: |_| None,
    has_value: |_| true,
    outside: |_| false,
    refusal_shows: true,
    has_start: false,
};

const ENCODED_STRING: Leaf = Leaf {
    inputs: Inputs {
        alphabet: "?$AB@0159aZ!",
        depth: 3,
        stems: &["0A@", "1A@", "10", "?0A@", "2A@?$", "C@A@"],
        cases: cases::encoded_strings,
    },
    stop: |_, rest| follow::nested_name(rest, 1),
    tail: |_, _| "@9",
    outside: has_wrong_escape,
    has_start: true,
    ..PLAIN
};

const MD5_TAIL: &str = "0123456789abcdefABCDEF012345678@";
const STRING_64: &str = "EA@A@aaaaaaaaaaaaaaaaaaaaaaaaaaaaaaaaaaaaaaaaaaaaaaaaaaaaaaaaaaaaaaaa";
/// Ten types to be referred to.
const STORED_TYPES: &str = "?$a@PACPADPAEPAFPAGPAHPAIPAJPAKPAM";
const STORED_TYPES_AND_QUALIFIER: &str = "?$a@PACPADPAEPAFPAGPAHPAIPAJPAKPAM$$CA";

/// The product refuses a `?$` that is not followed by two letters A to P; the crate traps for a
/// byte below `A` and mixes the bits of one above `P`.
fn wrong_escape(bytes: &[u8]) -> bool {
    let wrong = |place| bytes.get(place).is_some_and(|byte| !matches!(byte, b'A'..=b'P'));
    bytes.starts_with(b"?$") && (wrong(2) || wrong(3))
}

fn has_wrong_escape(bytes: &[u8]) -> bool {
    (0..bytes.len()).any(|place| wrong_escape(&bytes[place..]))
}

fn guard_number(seen: &Seen) -> Option<u64> {
    match seen.symbol_type()? {
        Type::ThreadSafeStaticGuard(number) => Some(tree::bits(*number)),
        _ => None,
    }
}

pub const LEAVES: [Leaf; 27] = [
    Leaf {
        number: 0,
        name: "get",
        prefix: "??_C@_01A@",
        inputs: Inputs { alphabet: "?$aA0_@!", depth: 3, ..PLAIN.inputs },
        stop: forms::stop_after_byte,
        tail: |answer, _| match answer.value as u8 {
            b'?' => "0a",
            byte if follow::plain_character(byte) => "a",
            _ => "",
        },
        value: tree::first_byte,
        ..PLAIN
    },
    Leaf {
        number: 1,
        name: "read_digit",
        prefix: "?$TSS",
        inputs: Inputs { alphabet: "0123456789/:@Aa", depth: 2, ..PLAIN.inputs },
        stop: |_, rest| (!is_one_of(rest, "0123456789@")).then_some(0),
        tail: |_, _| "@a@@4HA",
        value: guard_number,
        ..PLAIN
    },
    Leaf {
        number: 2,
        name: "read_hex_digit",
        prefix: "??@",
        inputs: Inputs {
            alphabet: "09afAFgG@/:`",
            depth: 2,
            cases: cases::md5_names,
            ..PLAIN.inputs
        },
        stop: |_, rest| follow::hex_digits(rest, Some(31)),
        tail: |_, _| MD5_TAIL,
        value: |seen| match seen.name()? {
            Name::Md5(digits) => Some(u64::from(digits[0])),
            _ => None,
        },
        ..PLAIN
    },
    Leaf {
        number: 3,
        name: "read_string",
        prefix: "?a@?Q",
        inputs: Inputs { alphabet: "@aA0?$_", depth: 4, ..PLAIN.inputs },
        stop: |_, rest| follow::expected(rest, b'@'),
        tail: |_, _| "@@9",
        value: |seen| match seen.scope_name(0)? {
            Name::AsInterface(name) => Some(name.len() as u64),
            _ => None,
        },
        ..PLAIN
    },
    Leaf {
        number: 4,
        name: "read_number",
        prefix: "?a@@$B",
        inputs: Inputs {
            alphabet: "?@ABOPQ059a",
            depth: 3,
            stems: &["?", "B", "?C"],
            cases: || cases::words(cases::NUMBERS),
        },
        stop: |_, rest| follow::expected(rest, b'A'),
        tail: |_, _| "AA",
        value: |seen| match seen.symbol_type()? {
            Type::VCallThunk(offset, _) => Some(tree::bits(*offset)),
            _ => None,
        },
        ..PLAIN
    },
    Leaf {
        number: 5,
        name: "read_unsigned",
        prefix: "??_B@5",
        inputs: Inputs {
            alphabet: "?@ABOPQ059a",
            depth: 3,
            stems: &["?", "B", "?C"],
            cases: || cases::words(cases::NUMBERS),
        },
        stop: |_, rest| follow::symbol_type(rest),
        value: |seen| match seen.name()? {
            Name::Operator(Operator::LocalStaticGuard(scope)) => scope.map(u64::from),
            _ => None,
        },
        // Where nothing follows the marker the crate reads no number.
        outside: <[u8]>::is_empty,
        ..PLAIN
    },
    Leaf {
        number: 6,
        name: "guard_number",
        prefix: "?$TSS",
        inputs: Inputs {
            alphabet: "0123456789@A",
            depth: 3,
            stems: &["21474836", "4294967", "214748364700"],
            cases: || cases::words(cases::GUARD_NUMBERS),
        },
        stop: |_, rest| follow::nested_name(rest, 0),
        tail: |_, _| "a@@4HA",
        value: guard_number,
        ..PLAIN
    },
    Leaf {
        number: 7,
        name: "read_md5_name",
        prefix: "?a@???@",
        inputs: Inputs {
            alphabet: "09afAFgG@",
            depth: 3,
            stems: &["0123456789abcdefABCDEF01234567", cases::MD5],
            cases: cases::md5_names,
        },
        stop: |_, rest| follow::nested_name(rest, 1),
        tail: |_, _| "@9",
        value: |seen| match seen.nested()?.symbol.name {
            Name::Md5(digits) => Some(digits.len() as u64),
            _ => None,
        },
        ..PLAIN
    },
    Leaf {
        number: 8,
        name: "namespace_digits",
        prefix: "?a@?A0x",
        inputs: Inputs { alphabet: "09afAFgG@", depth: 3, cases: cases::md5_names, ..PLAIN.inputs },
        stop: |_, rest| follow::expected(rest, b'@'),
        tail: |_, _| "@@9",
        value: |seen| match seen.scope_name(0)? {
            Name::AnonymousNamespace(Some(id)) => Some(id.len() as u64 - 2),
            _ => None,
        },
        ..PLAIN
    },
    Leaf {
        number: 9,
        name: "string_character",
        prefix: "??_C@_01A@",
        inputs: Inputs {
            alphabet: "?$ABOPQ@Zaz09_!",
            depth: 3,
            stems: &["?", "?$", "?$A", "?$P"],
            cases: cases::all_escapes,
        },
        stop: |_, rest| follow::string_character(rest),
        tail: |_, _| "a",
        value: |seen| Some(u64::from(*tree::string_bytes(seen.symbol_type()?)?.first()?)),
        outside: wrong_escape,
        ..PLAIN
    },
    Leaf {
        number: 10,
        name: "narrow_string",
        prefix: "?a@???_C@_0",
        value: |seen| tree::declared_length(seen, 1),
        ..ENCODED_STRING
    },
    Leaf {
        number: 11,
        name: "wide_string",
        prefix: "?a@???_C@_1",
        value: |seen| tree::declared_length(seen, 2),
        ..ENCODED_STRING
    },
    Leaf {
        number: 12,
        name: "read_calling_conv",
        prefix: "?a@@Y",
        inputs: Inputs { alphabet: "ABCDEFGHIJXYZ@0?a", depth: 2, ..PLAIN.inputs },
        stop: |_, rest| follow::return_type(rest),
        tail: |_, _| "XXZ",
        value: |seen| match seen.symbol_type()? {
            Type::NonMemberFunction(convention, ..) => Some(*convention as u64),
            _ => None,
        },
        ..PLAIN
    },
    Leaf {
        number: 13,
        name: "read_func_class",
        prefix: "?$a@$1?b@@E",
        inputs: Inputs {
            alphabet: "ABCDEFGHIJKLMNOPQRSTUVWXYZ?@05a",
            depth: 2,
            stems: &["G", "H", "O", "P", "W", "X", "G?", "X?"],
            cases: cases::thunk_classes,
        },
        stop: |_, rest| follow::function(rest),
        tail: |_, _| "AXXZ@",
        value: |seen| match seen.template_types()?.first()? {
            Type::MemberFunctionPointer(_, class, ..) => Some(u64::from(class.bits())),
            _ => None,
        },
        ..PLAIN
    },
    Leaf {
        number: 14,
        name: "read_storage_class",
        prefix: "?a@??b@@3H",
        inputs: Inputs { alphabet: "ABCDEFGHIPQRSTUa@5?", depth: 2, ..PLAIN.inputs },
        stop: |_, rest| follow::nested_name(rest, 2),
        tail: |_, _| "@9",
        value: |seen| match &seen.nested()?.symbol_type {
            Type::Var(_, _, class) => Some(u64::from(class.bits())),
            _ => None,
        },
        ..PLAIN
    },
    Leaf {
        number: 15,
        name: "read_qualifier",
        prefix: "??_7a@@6",
        inputs: Inputs { alphabet: "ABCDEFGHIPQRSTUa@5?", depth: 2, ..PLAIN.inputs },
        stop: |_, rest| follow::nested_name(rest, 1),
        tail: |_, _| "@",
        value: |seen| match seen.symbol_type()? {
            Type::CXXVFTable(_, class) => Some(u64::from(class.bits())),
            _ => None,
        },
        ..PLAIN
    },
    Leaf {
        number: 16,
        name: "read_storage_class_for_return",
        prefix: "?a@@YA",
        inputs: Inputs { alphabet: "?ABCDEQRSTXa@0", depth: 3, stems: &["?"], ..PLAIN.inputs },
        stop: |_, rest| follow::var_type(rest, 0),
        tail: |_, _| "XXZ",
        value: |seen| match seen.symbol_type()? {
            Type::NonMemberFunction(_, _, _, returned) => match **returned {
                Type::Void(class) => Some(u64::from(class.bits())),
                _ => None,
            },
            _ => None,
        },
        ..PLAIN
    },
    Leaf {
        number: 17,
        name: "read_func_qualifiers",
        prefix: "?a@@Q",
        inputs: Inputs {
            alphabet: "EIFGHABCDQRSTa@0?",
            depth: 3,
            stems: &["EI", "EIF", "IF", "EIFG", "FH"],
            ..PLAIN.inputs
        },
        stop: |_, rest| follow::function(rest),
        tail: |_, _| "EXXZ",
        value: |seen| match seen.symbol_type()? {
            Type::MemberFunction(_, _, _, class, _) => Some(u64::from(class.bits())),
            _ => None,
        },
        // Every letter of a calling convention is a qualifier where no qualifier stands before it.
        has_value: |answer| answer.taken > 0,
        ..PLAIN
    },
    Leaf {
        number: 18,
        name: "string_width",
        prefix: "??_C@_",
        inputs: Inputs { alphabet: "012A@?Qa", depth: 3, ..PLAIN.inputs },
        stop: |_, rest| follow::number(rest),
        tail: |_, _| STRING_64,
        value: |seen| Some(tree::string_bytes(seen.symbol_type()?)?.len() as u64 / 32),
        ..PLAIN
    },
    Leaf {
        number: 19,
        name: "operator",
        prefix: "?a@@3V?",
        inputs: Inputs {
            alphabet: "0123456789ABCDEFGHIJKLMNOPQRSTUVWXYZ_$@?a",
            depth: 2,
            stems: &["_", "__", "_R", "_R0", "_R1"],
            ..PLAIN.inputs
        },
        stop: forms::stop_after_operator,
        tail: forms::tail_of_operator,
        value: |seen| match seen.symbol_type()? {
            Type::Var(class, ..) => match &**class {
                Type::Class(symbol, _) => match &symbol.name {
                    Name::Operator(operator) => enums::operator(operator),
                    _ => None,
                },
                _ => None,
            },
            _ => None,
        },
        // `?$` begins a template.
        outside: |bytes| is_one_of(bytes, "$"),
        ..PLAIN
    },
    Leaf {
        number: 20,
        name: "guard_marker",
        prefix: "??_B@",
        inputs: Inputs {
            alphabet: "45IA@?0",
            depth: 4,
            stems: &["4", "4I", "4IA", "5"],
            ..PLAIN.inputs
        },
        stop: |_, rest| if rest.is_empty() { None } else { follow::number(rest) },
        // The crate keeps nothing of the marker: that it took one of this length tells which.
        value: |seen| match seen.name()? {
            Name::Operator(Operator::LocalStaticGuard(None)) => {
                Some(u64::from(seen.answer.taken == 1))
            }
            _ => None,
        },
        ..PLAIN
    },
    Leaf {
        number: 21,
        name: "type_prefix",
        prefix: "??_R0?A",
        inputs: Inputs {
            alphabet: "$0148ABCDHIJPQSTVWYZ6@?",
            depth: 3,
            stems: &["$", "$$", "$$$", "$$B", "$$BY", "$$A", "$$A8", "$$A8@", "$$C", "W", "A", "P"],
            cases: || cases::words(cases::PREFIXED_TYPES),
        },
        stop: forms::stop_after_type_prefix,
        tail: forms::tail_of_type_prefix,
        value: tree::type_prefix,
        ..PLAIN
    },
    Leaf {
        number: 22,
        name: "stored_type",
        prefix: STORED_TYPES,
        inputs: Inputs {
            alphabet: "$C0159ABDQRSTEHa@",
            depth: 3,
            stems: &[
                "$", "$$", "$$C", "$$CA", "$$CB", "$$CC", "$$CD", "$$CE", "$$CQ", "$$CR", "$$CS",
                "$$CT",
            ],
            ..PLAIN.inputs
        },
        stop: |_, rest| follow::template_parameter(rest, 10),
        tail: |_, _| "@",
        value: tree::stored_type,
        refusal_shows: false,
        ..PLAIN
    },
    Leaf {
        number: 23,
        name: "nested_name_start",
        prefix: "?a@b@c@d@e@f@g@h@i@j@",
        inputs: Inputs {
            alphabet: "?$A0xQ19Ba@",
            depth: 4,
            stems: &["?", "??", "?$", "?A", "?A0", "?A0x", "?Q"],
            ..PLAIN.inputs
        },
        stop: forms::stop_after_name_start,
        tail: forms::tail_of_name_start,
        value: tree::nested_name_start,
        // The scope ends there.
        outside: |bytes| is_one_of(bytes, "@"),
        ..PLAIN
    },
    Leaf {
        number: 24,
        name: "symbol_start",
        prefix: "?",
        inputs: Inputs {
            alphabet: "?@$TSa0",
            depth: 4,
            stems: &["?", "?@", "$", "$T", "$TS", "$TSS"],
            ..PLAIN.inputs
        },
        stop: forms::stop_after_symbol_start,
        tail: forms::tail_of_symbol_start,
        value: tree::symbol_start,
        ..PLAIN
    },
    Leaf {
        number: 25,
        name: "symbol_type_letter",
        prefix: "?a@@",
        inputs: Inputs {
            alphabet: "0123456789ABCDEFGHIJKLMNOPQRSTUVWXYZ_$@?a",
            depth: 2,
            ..PLAIN.inputs
        },
        stop: forms::stop_after_symbol_type,
        tail: forms::tail_of_symbol_type,
        value: tree::symbol_type,
        ..PLAIN
    },
    Leaf {
        number: 26,
        name: "type_letter",
        prefix: STORED_TYPES_AND_QUALIFIER,
        inputs: Inputs {
            alphabet: "0123456789ABCDEFGHIJKLMNOPQRSTUVWXYZ_$@?a",
            depth: 2,
            stems: &["_"],
            ..PLAIN.inputs
        },
        stop: forms::stop_after_type_letter,
        tail: forms::tail_of_type_letter,
        value: tree::type_letter,
        // A digit refers to a stored type, which leaf 22 looks for first.
        outside: |bytes| is_one_of(bytes, "0123456789"),
        ..PLAIN
    },
];

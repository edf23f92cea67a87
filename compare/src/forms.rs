//! What follows a leaf that says which of several forms begins: `stop_after_*` gives the offset at
//! which the crate is sure to refuse the rest, `tail_of_*` an end with which the form is accepted.
//! The numbers are the leaf's values; the comments in `tail_of_*` say for which bytes.
use crate::follow;
use crate::product::Answer;

pub fn stop_after_byte(answer: &Answer, rest: &[u8]) -> Option<usize> {
    match answer.value as u8 {
        b'?' if is_one_of(rest, "$") || rest.first().is_some_and(u8::is_ascii_alphanumeric) => None,
        b'?' => follow::letter(rest, ""),
        byte if follow::plain_character(byte) => follow::string_character(rest),
        _ => Some(0),
    }
}

const RTTI_TYPE_DESCRIPTOR: u64 = 75;
const RTTI_BASE_CLASS_DESCRIPTOR: u64 = 76;

pub fn stop_after_operator(answer: &Answer, rest: &[u8]) -> Option<usize> {
    match answer.value {
        RTTI_TYPE_DESCRIPTOR => follow::expected(rest, b'?'),
        RTTI_BASE_CLASS_DESCRIPTOR => follow::number(rest),
        _ => follow::nested_name(rest, 1),
    }
}

pub fn tail_of_operator(answer: &Answer, _: &[u8]) -> &'static str {
    match answer.value {
        RTTI_TYPE_DESCRIPTOR => "?AH@",
        RTTI_BASE_CLASS_DESCRIPTOR => "0000@",
        _ => "@",
    }
}

pub fn stop_after_type_prefix(answer: &Answer, rest: &[u8]) -> Option<usize> {
    match answer.value {
        0 | 3 | 12 => follow::unqualified_name(rest, 0),
        1 | 2 | 10 => follow::calling_conv(rest),
        4..=6 => follow::number(rest),
        7 => follow::pointee(rest, 0),
        8 | 9 => follow::nested_name(rest, 0),
        13 => follow::qualified(rest, follow::described_type, 0),
        14 => follow::expected(rest, b'?'),
        15 => follow::described_type(rest, 0),
        _ => None,
    }
}

pub fn tail_of_type_prefix(answer: &Answer, _: &[u8]) -> &'static str {
    match answer.value {
        0 | 12 => "a@@@",      // `W4` `$$Y`
        1 | 2 | 10 => "AXXZ@", // `A6` `P6` `$$A6`
        3 => "a@@AAXXZ@",      // `P8`
        4 | 5 => "0@",         // `$0` `$D`
        6 => "00H@",           // `$$BY`
        7 => "AH@",            // `$$Q`
        11 => "BAXXZ@",        // `$$A8@@`
        13 => "BH@",           // `$$C`
        14 => "?a@@QAAXXZ@",   // `$1` `$H` `$I` `$J`
        15 => "N@",            // none
        _ => "@",              // an empty pack, `$$T`
    }
}

pub fn stop_after_name_start(answer: &Answer, rest: &[u8]) -> Option<usize> {
    match answer.value {
        32.. => follow::nested_name(rest, 10),
        2 => follow::unqualified_name(rest, 0),
        3 => follow::hex_digits(rest, None),
        4 => follow::expected(rest, b'@'),
        5 | 7 => follow::string(rest),
        6 => follow::number(rest),
        _ => None,
    }
}

pub fn tail_of_name_start(answer: &Answer, _: &[u8]) -> &'static str {
    match answer.value {
        32.. => "@9",   // a digit
        1 => "?z@@9@9", // `?` before a `?`
        3 | 4 => "@@9", // `?A0x` `?A`
        6 => "0@9",     // `?` before a number
        7 => "x@@9",    // a plain name
        _ => "z@@@9",   // `?$` `?Q`
    }
}

pub fn stop_after_symbol_start(answer: &Answer, rest: &[u8]) -> Option<usize> {
    match answer.value {
        0 => follow::hex_digits(rest, Some(32)),
        1 if rest.first().is_some_and(u8::is_ascii_digit) => None,
        1 => Some(0),
        _ => follow::unqualified_name(rest, 0),
    }
}

pub fn tail_of_symbol_start(answer: &Answer, _: &[u8]) -> &'static str {
    match answer.value {
        0 => "0123456789abcdefABCDEF0123456789@", // `?@`
        1 => "0@a@@4HA",                          // `$TSS`
        2 => "a@@",                               // `$`
        _ => "a@@9",                              // a name
    }
}

pub fn stop_after_symbol_type(answer: &Answer, rest: &[u8]) -> Option<usize> {
    match answer.value {
        0..=4 => follow::var_type(rest, 0),
        5 | 6 => follow::qualified(rest, follow::nested_name, 1),
        9 => follow::letter(rest, "01"),
        10 => follow::expected(rest, b'B'),
        11 => follow::function(rest),
        12 => follow::letter(rest, "ABCDEFGHIJKLMNOPQRSTUVWXYZ"),
        13 if !rest.is_empty() => Some(0), // no end: the crate cannot agree
        _ => None,
    }
}

pub fn tail_of_symbol_type(answer: &Answer, _: &[u8]) -> &'static str {
    match answer.value {
        0..=4 => "HA",  // variables, `0` to `4`
        5 | 6 => "A@",  // `6` `7`
        9 => "00A@a",   // `_`
        10 => "BA@AA",  // `$`
        11 => "AXXZ",   // `Y`
        12 => "QAAXXZ", // a member function, whose letter is left to read_func_class
        _ => "",        // `8`, `9`, the end
    }
}

pub fn stop_after_type_letter(answer: &Answer, rest: &[u8]) -> Option<usize> {
    match answer.value {
        0 | 11 => follow::number(rest),
        2..=4 => follow::unqualified_name(rest, 1),
        5..=10 => follow::pointee(rest, 10),
        _ => follow::template_parameter(rest, 10),
    }
}

pub fn tail_of_type_letter(answer: &Answer, _: &[u8]) -> &'static str {
    match answer.value {
        0 => "0@",       // `?`
        2..=4 => "z@@@", // `T` `U` `V`
        5..=10 => "AX@", // `A` `B` `P` `Q` `R` `S`: no stored type is a pointer to void
        11 => "00H@",    // `Y`
        _ => "@",        // a built-in type
    }
}

pub fn is_one_of(bytes: &[u8], letters: &str) -> bool {
    bytes.first().is_some_and(|byte| letters.as_bytes().contains(byte))
}

//! What the crate makes of the bytes after a leaf. Each function says at which offset in `rest` a
//! reading of the crate is sure to refuse, or `None` if it may go on: where the refusal shows,
//! there the leaf before it ended. `stored` is how many names or types can be referred to.

pub fn expected(rest: &[u8], byte: u8) -> Option<usize> {
    (rest.first() != Some(&byte)).then_some(0)
}

/// One byte out of `accepted` is read.
pub fn letter(rest: &[u8], accepted: &str) -> Option<usize> {
    match rest.first() {
        None => Some(0),
        Some(byte) if accepted.as_bytes().contains(byte) => None,
        Some(_) => Some(1),
    }
}

pub fn calling_conv(rest: &[u8]) -> Option<usize> {
    letter(rest, "ABCEGI")
}

pub fn number(rest: &[u8]) -> Option<usize> {
    let sign = usize::from(rest.starts_with(b"?"));
    let digits = &rest[sign..];
    let letters = digits.iter().take_while(|byte| matches!(byte, b'A'..=b'P')).count();
    let one_digit = digits.first().is_some_and(u8::is_ascii_digit);
    (!one_digit && digits.get(letters) != Some(&b'@')).then_some(sign)
}

/// Hex digits that must be `count` in number, if a count is given, and an `@`.
pub fn hex_digits(rest: &[u8], count: Option<usize>) -> Option<usize> {
    let digits = rest.iter().take_while(|byte| byte.is_ascii_hexdigit()).count();
    let right = count.is_none_or(|count| count == digits) && rest.get(digits) == Some(&b'@');
    (!right).then_some(digits)
}

pub fn string(rest: &[u8]) -> Option<usize> {
    (!rest.contains(&b'@')).then_some(0)
}

/// A name in a scope, or the scope's end.
pub fn nested_name(rest: &[u8], stored: u8) -> Option<usize> {
    match rest.first() {
        Some(b'?') => None,
        Some(digit @ b'0'..=b'9') => (digit - b'0' >= stored).then_some(1),
        _ => string(rest),
    }
}

pub fn unqualified_name(rest: &[u8], stored: u8) -> Option<usize> {
    const AFTER_QUESTION_MARK: &str = "0123456789ABCDEFGHIJKLMNOPQRSTUVWXYZ_$";
    match rest.first() {
        Some(b'?') => letter(&rest[1..], AFTER_QUESTION_MARK).map(|offset| 1 + offset),
        _ => nested_name(rest, stored),
    }
}

pub fn var_type(rest: &[u8], stored: u8) -> Option<usize> {
    match rest.first() {
        Some(b'$') => None,
        Some(b'W' | b'A' | b'P') if matches!(rest.get(1), Some(b'4' | b'6' | b'8')) => None,
        _ => type_letter(rest, stored),
    }
}

/// The part of a type after its prefixes.
pub fn type_letter(rest: &[u8], stored: u8) -> Option<usize> {
    match rest.first() {
        Some(digit @ b'0'..=b'9') => (digit - b'0' >= stored).then_some(1),
        Some(b'A' | b'B' | b'P' | b'Q' | b'R' | b'S') => {
            pointee(&rest[1..], stored).map(|offset| 1 + offset)
        }
        Some(b'?') => number(&rest[1..]).map(|offset| 1 + offset),
        _ => letter(rest, "TUVYXDCEFGHIJKMNO_"),
    }
}

/// The part of a type after its prefixes, and the scope of the type's descriptor.
pub fn described_type(rest: &[u8], stored: u8) -> Option<usize> {
    match letter(rest, "XDCEFGHIJKMNO") {
        None => nested_name(&rest[1..], 0).map(|offset| 1 + offset),
        Some(_) => type_letter(rest, stored),
    }
}

pub fn pointee(rest: &[u8], stored: u8) -> Option<usize> {
    match rest.first() {
        Some(b'A'..=b'H' | b'Q'..=b'T') => None,
        _ => var_type(rest, stored),
    }
}

/// The type that a function returns, behind its storage class; `@` may stand for no type.
pub fn return_type(rest: &[u8]) -> Option<usize> {
    let returned = match rest.first() {
        Some(b'?') => match letter(&rest[1..], "ABCD") {
            Some(offset) => return Some(1 + offset),
            None => 2,
        },
        _ => 0,
    };
    match rest.get(returned) {
        Some(b'@') => None,
        _ => var_type(&rest[returned..], 0).map(|offset| returned + offset),
    }
}

/// A calling convention and the type that the function returns.
pub fn function(rest: &[u8]) -> Option<usize> {
    match calling_conv(rest) {
        None => return_type(&rest[1..]).map(|offset| 1 + offset),
        refused => refused,
    }
}

/// A parameter of a template, or the end of the parameters.
pub fn template_parameter(rest: &[u8], stored: u8) -> Option<usize> {
    match rest.first() {
        None | Some(b'@' | b'Z') => None,
        _ => var_type(rest, stored),
    }
}

/// A qualifier that may be missing, and what `after` reads.
pub fn qualified(rest: &[u8], after: fn(&[u8], u8) -> Option<usize>, stored: u8) -> Option<usize> {
    match rest.first() {
        Some(b'A'..=b'D' | b'Q'..=b'T') => after(&rest[1..], stored).map(|offset| 1 + offset),
        _ => after(rest, stored),
    }
}

/// The letter of a symbol's type, which may be missing.
pub fn symbol_type(rest: &[u8]) -> Option<usize> {
    match rest.first() {
        None => None,
        Some(_) => letter(rest, "012346789ABCDEFGHIJKLMNOPQRSTUVWXYZ_$"),
    }
}

/// A character of an encoded string. After `?` any byte is taken to be one.
pub fn string_character(rest: &[u8]) -> Option<usize> {
    match rest.first() {
        Some(byte) if plain_character(*byte) || *byte == b'?' => None,
        _ => letter(rest, ""),
    }
}

pub fn plain_character(byte: u8) -> bool {
    byte.is_ascii_alphanumeric() || byte == b'_' || byte == b'$'
}

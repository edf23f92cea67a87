//! The bytes that the encoded characters of a string stand for.

/// The byte of the encoded character that begins here, and the bytes it takes.
fn character(bytes: &[u8]) -> Option<(u8, usize)> {
    match *bytes {
        [c @ (b'0'..=b'9' | b'a'..=b'z' | b'A'..=b'Z' | b'_' | b'$'), ..] => Some((c, 1)),
        [b'?', c @ b'A'..=b'Z', ..] => Some((c - b'A' + 225, 2)),
        [b'?', c @ b'a'..=b'z', ..] => Some((c - b'a' + 225, 2)),
        [b'?', c @ b'0'..=b'9', ..] => Some((b",/\\:. \n\t'-"[usize::from(c - b'0')], 2)),
        [b'?', b'$', high @ b'A'..=b'P', low @ b'A'..=b'P', ..] => {
            Some(((high - b'A') * 16 + (low - b'A'), 4))
        }
        _ => None,
    }
}

/// The bytes of all characters up to the first wrong one.
pub fn decoded(mut bytes: &[u8]) -> Vec<u8> {
    let mut text = Vec::new();
    while let Some((byte, taken)) = character(bytes) {
        text.push(byte);
        bytes = &bytes[taken..];
    }
    text
}

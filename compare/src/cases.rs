//! Boundary cases among the inputs of leaves.

pub const NUMBERS: &str =
    "0 9 ?0 ?9 ??0 @ ?@ A A@ ?A@ B@ P@ Q@ AQ@ B0@ a@ ?A ? PPPPPPP@ HPPPPPPP@ \
    ?HPPPPPPP@ IAAAAAAA@ ?IAAAAAAA@ IAAAAAAB@ ?IAAAAAAB@ PPPPPPPP@ ?PPPPPPPP@ AAAAAAAAB@ \
    BAAAAAAAA@ BPPPPPPPP@ ?BIAAAAAAA@ PPPPPPPPPPPPPPPP@ ?PPPPPPPPPPPPPPPP@ PPPPPPPPP";
pub const GUARD_NUMBERS: &str = "0@ 9@ 00@ 10@ 2147483647@ 2147483648@ 2147483650@ 4294967295@ \
    4294967296@ 4294967297@ 21474836470@ 42949672960@ 9223372036854775808@ 18446744073709551616@ \
    99999999999999999999999@ 00000000000000000001@ 1 12 1a@ 12? 99999999999 @";
pub const PREFIXED_TYPES: &str = "W4a@@@ A6AXXZ@ P6AXXZ@ P8a@@AAXXZ@ $00@ $D0@ $$BY00H@ $$QAH@ \
    $S@ $$V@ $$Z@ $$$V@ $$T@ $$A6AXXZ@ $$A8@@AAXXZ@ $$Ya@@@ $$CBH@ $1?a@@QAAXXZ@";
pub const MD5: &str = "0123456789abcdefABCDEF0123456789";

pub fn words(text: &str) -> Vec<String> {
    text.split(' ').map(String::from).collect()
}

pub fn md5_names() -> Vec<String> {
    let digits = |count| MD5.repeat(2)[..count].to_string();
    let lengths = [0, 1, 31, 32, 33, 64].map(digits);
    lengths
        .iter()
        .flat_map(|name| ["", "@", "g", "@@", "@A", "g@"].map(|end| name.to_string() + end))
        .collect()
}

pub fn thunk_classes() -> Vec<String> {
    let classes = ["G", "H", "O", "P", "W", "X", "A"];
    classes
        .iter()
        .flat_map(|class| words(NUMBERS).into_iter().map(|number| class.to_string() + &number))
        .collect()
}

/// Strings whose declared length and number of characters are near the bounds of what is kept.
pub fn encoded_strings() -> Vec<String> {
    let lengths =
        "A@ ?A@ ?0 0 1 9 BP@ CA@ CB@ DP@ EA@ EB@ HPPPPPPP@ IAAAAAAA@ PPPPPPPP@ ?CA@ BAAAAAAAB@";
    let counts = [0, 1, 2, 9, 10, 31, 32, 33, 63, 64, 65];
    let characters = counts.iter().flat_map(|count| ["a", "?0", "?$BC"].map(|c| c.repeat(*count)));
    let string = |characters: String| {
        words(lengths).into_iter().map(move |length| format!("{length}A@{characters}"))
    };
    characters.flat_map(string).chain(words(NUMBERS)).collect()
}

pub fn all_escapes() -> Vec<String> {
    let escape = |byte: u8| {
        format!("?${}{}", char::from(b'A' + (byte >> 4)), char::from(b'A' + (byte & 15)))
    };
    (0..=255).map(escape).collect()
}

//! Every letter at each place where a letter decides.

const LETTERS: &str = "?@$_0123456789ABCDEFGHIJKLMNOPQRSTUVWXYZa";

/// What stands before such a letter, and what stands behind it.
const PLACES: &[(&str, &str)] = &[
    // what a symbol begins with
    ("", "x@@3HA"),
    ("?$", "@"),
    ("?$TSS", "@x@@4HA"),
    // the type of a symbol
    ("?x@@", "HA"),
    ("?x@@$", "1AE"),
    // function classes, without and with an adjustment
    ("?f@c@@", "AEXXZ"),
    ("?f@c@@", "3AEXXZ"),
    ("?x@@3$1?f@c@@", "AXXZA"),
    // calling conventions
    ("?f@@Y", "XXZ"),
    ("?f@c@@QA", "XXZ"),
    ("?x@@3P6", "XXZA"),
    ("??_9c@@$B3A", ""),
    // classes of a function, its pointer and its result
    ("?f@c@@Q", "EXXZ"),
    ("?f@c@@QEIFG", "AXXZ"),
    ("?x@@3P8c@@", "EXXZQ1@"),
    ("?f@@YA?", "HXZ"),
    ("?x@@3P6A?", "HXZA"),
    // storage classes and qualifiers
    ("?x@@3H", ""),
    ("?x@@3P", "HA"),
    ("?x@@3PE", "HEA"),
    ("??_7c@@6", "@"),
    ("?x@@3$$C", "HA"),
    ("?x@@3Y01$$C", "HA"),
    ("??_R0?", "H@8"),
    // operators
    ("??", "c@@QAEXXZ"),
    ("??_", "c@@QAEXXZ"),
    ("??__", "c@@YAXXZ"),
    ("??_R", "c@@8"),
    // types
    ("?x@@3", "A"),
    ("?x@@3", "a@@A"),
    ("?x@@3_", "A"),
    ("?x@@3W", "a@@A"),
    ("?x@@3P", "AXXZA"),
    ("?x@@3$", "A"),
    ("?x@@3$", "?f@@YAXXZA"),
    ("?x@@3$$", "A"),
    ("?x@@3$$", "6AXXZA"),
    ("?f@@YAX", "Z"),
    ("?f@@YAXPAHPAD", "@Z"),
    ("??$f@", "@@YAXXZ"),
    // names
    ("?x@", "@3HA"),
    ("?x@?", "@@3HA"),
    ("?x@?A", "@@3HA"),
    // strings
    ("??_C@_", "1A@a"),
    ("??_C@_01A@", "a"),
    ("??_C@_01A@?", "a"),
    ("??_C@_01A@?$", "A"),
    ("??_C@_01A@?$A", ""),
];

pub fn symbols() -> impl Iterator<Item = Vec<u8>> {
    PLACES.iter().flat_map(|(before, behind)| {
        LETTERS.chars().map(move |letter| format!("{before}{letter}{behind}").into_bytes())
    })
}

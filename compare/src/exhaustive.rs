//! All short strings over the letters that matter at some place of a symbol.

/// A place of a symbol: the bytes before it, the letters that matter there, and an end with which
/// some of the strings make a whole symbol.
struct Stem(&'static str, &'static str, &'static str);

const ALL: &str = "?@$0123456789ABCDEFGHIJKLMNOPQRSTUVWXYZ_ax";
const TYPE: &str = "?@$012689ABCDEHPQVWXYZ_";
const NAME: &str = "?@$0123AQTxa_";

const STEMS: &[Stem] = &[
    Stem("", "?@$_0AHa", ""),
    Stem("?", ALL, ""),
    Stem("??", ALL, ""),
    Stem("??_", ALL, ""),
    Stem("??_", ALL, "@@9"),
    Stem("??_R0?", TYPE, "@9"),
    Stem("??_R1", "?@0ABP5", "@9"),
    Stem("??_R1", "?@0ABP5", ""),
    Stem("??_B@", "?@045IAB9H", ""),
    Stem("??__J", "?@045IAB9H", ""),
    Stem("??_C@_", "?@$01ABCDPQa", ""),
    Stem("??_C@_0", "?@$01ABCDPQa", ""),
    Stem("??_C@_02A@", "?@$0APQZaz_\x7f", ""),
    Stem("??@0123456789abcdefABCDEF012345678", "0fFgG@?", ""),
    Stem("?$", NAME, ""),
    Stem("?$a@", ALL, ""),
    Stem("?$a@", TYPE, "@@"),
    Stem("?$a@PAHPADV?$b@H@@", "0123@?$ACPHVXZ", ""),
    Stem("?$TSS", "?@01294HAa", ""),
    Stem("?$TSS0@", NAME, "@4HA"),
    Stem("?$TSS0@a@@", "?@4HA", ""),
    Stem("?$TSS0@?A0x", "0fFgG@?", "@4HA"),
    Stem("?a@", NAME, ""),
    Stem("?a@", NAME, "@@9"),
    Stem("?a@?", ALL, "@9"),
    Stem("?a@?A0x", "0fFgG@?", "@9"),
    Stem("?a@b@?$c@d@@?A0x1@?Qe@@", "0123456@?$A", "@9"),
    Stem("?a@??", ALL, "@9"),
    Stem("?a@??b@@", "?@$_03689YAHXZ1", "@9"),
    Stem("?a@@", ALL, ""),
    Stem("?a@@3", ALL, ""),
    Stem("?a@@3", TYPE, "HA"),
    Stem("?a@@3$", ALL, ""),
    Stem("?a@@3$$", ALL, ""),
    Stem("?a@@3$$C", ALL, ""),
    Stem("?a@@3P", ALL, "A"),
    Stem("?a@@3$$Q", "$APB6QE8", "6AXXZA"),
    Stem("?a@@3Y", "?@$0123ABCDHPY", ""),
    Stem("?a@@3Y0", "?@$0ABCDEHPX", "HA"),
    Stem("?a@@3W4", NAME, "@A"),
    Stem("?a@@3P6", ALL, ""),
    Stem("?a@@3P6A", TYPE, "@ZA"),
    Stem("?a@@3P8b@@", ALL, "XZA"),
    Stem("?a@@3$1", ALL, ""),
    Stem("?a@@3$1?b@@", ALL, "XZA"),
    Stem("?a@@3$$A8@@", "?@EIFGHABCDQRSTXZ", "AXXZ"),
    Stem("?a@@6", NAME, ""),
    Stem("?a@@7B", NAME, "@"),
    Stem("?a@@$", "?@$0ABCEGIZP", ""),
    Stem("?a@@_", "?@$01ABPa", ""),
    Stem("?a@@Y", ALL, ""),
    Stem("?a@@YA", TYPE, "@Z"),
    Stem("?a@@YAX", TYPE, "Z"),
    Stem("?a@@YAX$$Q", "APBQ$Y0CE", "Y02H@Z"),
    Stem("?a@@YAXPAHPADV0@", "0123@?$ACPHVXZ", "Z"),
    Stem("?a@@Q", ALL, ""),
    Stem("?a@@QAA", ALL, "XZ"),
    Stem("?a@@G", "?@0ABEGPXZ", "AAXXZ"),
    Stem("?a@@Q", "?@EIFGHABCDQRSTXZ", "AXXZ"),
];

/// The first strings over the letters, by length: string number `place`.
fn string(letters: &[u8], place: usize) -> Vec<u8> {
    let mut string = Vec::new();
    let mut rest = place;
    while rest > 0 {
        rest -= 1;
        string.push(letters[rest % letters.len()]);
        rest /= letters.len();
    }
    string
}

/// At every place the first strings, about so many symbols in all.
pub fn symbols(count: usize) -> impl Iterator<Item = Vec<u8>> {
    let strings = count / STEMS.len();
    STEMS.iter().flat_map(move |Stem(stem, letters, tail)| {
        (0..strings).map(move |place| {
            [stem.as_bytes(), &string(letters.as_bytes(), place), tail.as_bytes()].concat()
        })
    })
}

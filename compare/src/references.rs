//! Rvalue references beside references to the same types, hand-picked. The product's text of the one
//! is the crate's own text of the other, with each `&` doubled: the crate closes what a reference opens.
use crate::expected::{self, Expected};
use crate::flags::FlagWords;
use crate::limits::{CELLS, MOST_NODES};
use crate::model::Demands;
use crate::tally::Differences;
use crate::texts::Texts;

/// How the two begin.
const REFERENCE: &str = "A";
const RVALUE_REFERENCE: &str = "$$Q";

/// What they refer to: functions, arrays, pointers to these, member pointers, what has no second half.
const REFERRED: &str = "
A$$A6AXH@Z A$$A6AXXZ A$$A6APAHHD@Z A$$A6AP6AXXZH@Z A$$A6APAY02HXZ A$$A8@@BAXXZ A$$A8@@EAAXH@Z
AY02H BY02H AY112H AY02PAH AY02P6AXXZ AY01$$CBH EAY02H
AP6AXXZ AP6AHHD@Z BP6AXXZ AP6AP6AXXZXZ APAP6AXXZ APAY02H AQBY02H EAPEAY02H
AP8a@@AEXXZ AP8a@@BEHH@Z AP8a@b@@AEPAY02HXZ AY01P8a@@AEXXZ
AH BH AVa@@ APAH A_K";

/// Where they stand, at `{}`: a parameter, first and last, alone, recalled, of a pointer to a function;
/// a template's argument; what a function returns, a conversion; a variable; below a pointer and in an
/// array; in a nested symbol; in a type descriptor, which has first halves only.
const PLACES: &str = "
?f@@YAX{}@Z ?f@@YAXD{}@Z ?f@@YAX{}D@Z ?f@@YAXD{}0@Z ?f@@YAX{}ZZ ?f@a@@QBEX{}@Z ?f@@YAXP6AX{}@Z@Z
??$f@{}@@YAXXZ ??$f@H{}@@YAXXZ ?f@@YAXV?$a@{}@@@Z ?f@@YA{}XZ ?f@@YA{}H@Z ??Ba@@QAE{}XZ
?x@@3{}A ?x@@3PA{}A ?x@@3Y01{}A ?x@??f@@YAX{}@Z@3HA ??_R0?A{}@8";

/// How the product differs on a symbol under a flag word, if it does.
fn difference(symbol: &str, reference: &str, flags: u32, table: &mut [u32]) -> Option<String> {
    let Some(texts) = Texts::of(reference) else {
        return Some(format!("`{reference}` is refused by the crate"));
    };
    let text = texts.text(flags).0.own.replace('&', "&&");
    let reading = expected::reading(symbol.as_bytes(), &Demands::of(symbol.as_bytes()), MOST_NODES);
    let expected = Expected { reading, text: text.as_bytes() };
    expected.difference(symbol.as_bytes(), flags, table, text.len())
}

/// Whether the product differs on one.
pub fn differs() -> bool {
    let (mut pairs, mut different) = (0, Differences::default());
    let (mut words, mut table) = (FlagWords::new(), vec![0; MOST_NODES * CELLS]);
    for place in PLACES.split_whitespace() {
        for referred in REFERRED.split_whitespace() {
            let [symbol, reference] = [RVALUE_REFERENCE, REFERENCE]
                .map(|mark| place.replace("{}", &format!("{mark}{referred}")));
            for flags in words.next() {
                pairs += 1;
                let difference = difference(&symbol, &reference, flags, &mut table);
                difference.into_iter().for_each(|it| different.add(symbol.as_bytes().into(), it));
            }
        }
    }
    println!("text, references: {pairs} pairs have the crate's text of a reference, `&` doubled");
    different.print("text, references")
}

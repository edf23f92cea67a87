//! The symbols made to hurt.
use crate::limits::{DEEPEST, LONGEST};
use crate::towers::TOWERS;

/// A symbol and what it is.
pub struct Hostile {
    pub what: String,
    pub symbol: Vec<u8>,
    /// Whether writing it takes as long as the room and its list's length, multiplied, ask for.
    pub by_room: bool,
}

fn hostile(what: impl Into<String>, symbol: String) -> Hostile {
    assert!(symbol.len() <= LONGEST, "a symbol is too long");
    Hostile { what: what.into(), symbol: symbol.into_bytes(), by_room: false }
}

/// A template without a name, written as an alias: its parameters in brackets, and nothing more.
fn nameless(parameters: &str) -> String {
    format!("$$Y?$@{parameters}@@")
}

/// A list that is written again and again, ten times as often with each level.
fn again(list: &str, levels: usize) -> String {
    let visited = (0..levels).fold(nameless(list), |inner, _| nameless(&(inner + "000000000")));
    format!("?x@@3{visited}A")
}

/// Empty packs, each one byte, between some entries that write nothing.
fn packs(before: usize, behind: usize, packs: usize) -> String {
    let entries = |count: usize| "0".repeat(count);
    match before {
        0 => format!("$$V{}$$Y@@{}", "0".repeat(packs), "1".repeat(behind.saturating_sub(1))),
        _ => format!("$$Y@@{}$$V{}{}", entries(before - 1), "1".repeat(packs), entries(behind)),
    }
}

fn by_room(what: String, symbol: String) -> Hostile {
    Hostile { by_room: true, ..hostile(what, symbol) }
}

fn empty_packs(symbols: &mut Vec<Hostile>) {
    for (before, behind) in [(2, 1), (1, 1), (1, 0), (0, 3)] {
        for most in [950, 4000] {
            let what = format!("{most} empty packs between {before} and {behind} empty entries");
            symbols.push(by_room(what, again(&packs(before, behind, most), 3)));
        }
    }
    let list = format!("$$V{}", "0".repeat(4000));
    symbols.push(by_room("4,000 empty packs".to_string(), again(&list, 3)));
}

/// Empty packs that are written often enough to fill a large room.
pub fn filling() -> Vec<Hostile> {
    let fill = |(before, behind)| {
        let what = format!("3,980 empty packs between {before} and {behind} empty entries");
        by_room(what, again(&packs(before, behind, 3980), 5))
    };
    [(2, 1), (1, 1)].map(fill).into()
}

/// Templates that differ in one parameter between these two parts of a list, and a type that is compared with each.
fn one_differs(names: usize, before: &str, behind: &str, most: usize) -> String {
    let letters = &"HDCEFGIJK"[..names];
    let scope: String = letters.chars().map(|it| format!("?$a@{before}{it}{behind}@")).collect();
    let types: String = (1..=names).map(|name| format!("V{name}@")).collect();
    let last = format!("V{names}@");
    let head = format!("?f@{scope}@YAX{types}");
    let count = most.min((LONGEST - head.len() - "@Z".len()) / last.len());
    format!("{head}{}@Z", last.repeat(count))
}

fn equality(symbols: &mut Vec<Hostile>) {
    for (names, length) in [(8, 252), (9, 200), (7, 280), (9, 130), (5, 500), (2, 1500)] {
        let what = format!("{names} templates of {length} parameters, compared again and again");
        let symbol = one_differs(names, "", &"X".repeat(length), LONGEST);
        symbols.push(hostile(what, symbol));
    }
    // as many as are compared without links
    for length in [24, 40] {
        let what =
            format!("9 templates of {length} parameters and another, compared again and again");
        symbols.push(hostile(what, one_differs(9, &"X".repeat(length), "", LONGEST)));
    }
    let references = format!("PAX{}", "0".repeat(250));
    let what = "8 templates of 250 references, compared again and again";
    symbols.push(hostile(what, one_differs(8, "", &references, LONGEST)));
    let few = one_differs(2, "", &references, 150);
    symbols.push(hostile("2 templates of 250 references, compared in few nodes", few));
    for levels in [10, 20, 40, 60] {
        let tower = |inside: &str| {
            (0..levels).fold(inside.to_string(), |inner, _| format!("V?$a@{inner}0@@"))
        };
        let towers = [tower("PAH"), tower("PAD"), tower("PAE")].concat();
        symbols.push(hostile(
            format!("three equal towers of {levels}, each twice the last"),
            format!("?f@@YAX{towers}@Z"),
        ));
    }
}

/// A part of the longest symbol, in 4,096th parts of it.
fn part(of_4096: usize) -> usize {
    of_4096 * LONGEST / 4096
}

/// A function with these parameters, and this one as often as the symbol has room for it.
fn filled(parameters: &str, again: &str) -> String {
    let head = format!("?f@@YAX{parameters}");
    let count = (LONGEST - head.len() - "@Z".len()) / again.len();
    format!("{head}{}@Z", again.repeat(count))
}

/// A class by a template of these parameters.
fn class(name: &str, parameters: &str) -> String {
    format!("V?${name}@{parameters}@@")
}

/// A pointer to a member function of a class of that name, with these parameters.
fn member(name: char, parameters: &str) -> String {
    format!("P8{name}@@AAX{parameters}@Z")
}

/// Six member pointers over the first type, and one over the second: these two are compared for each of the six.
fn members(parameters: &str) -> (String, String) {
    let first: String = ('a'..='f').map(|name| member(name, &format!("0{parameters}"))).collect();
    let last = member('h', &format!("1{parameters}"));
    (first + &last, last)
}

/// Two lists that are equal but for one entry, the second of one node again and again; what stands above them is
/// compared for each of the types that fill the symbol.
fn two_lists(symbols: &mut Vec<Hostile>) {
    let one_node = |count: usize| format!("$$CAH{}", "0".repeat(count - 1));
    let long = part(1300);
    let lists = class("t", &format!("I{}", "H".repeat(long)))
        + &class("t", &format!("K{}", one_node(long)));
    let spelled = class("t", &format!("I{}", "H".repeat(part(1000))));
    let spelled = format!("{spelled}{}", spelled.replacen('I', "K", 1));
    let (seven, last) = members("");
    let mut push = |what: &str, symbol| symbols.push(hostile(format!("two lists, {what}"), symbol));
    push("a type over them recalled", filled(&format!("{lists}{seven}"), "$8"));
    push("one of them recalled", filled(&format!("_K{lists}"), "$2"));
    push("a type over them read again", filled(&format!("{lists}{seven}"), &last));
    push("spelled, a type over them recalled", filled(&format!("{spelled}{seven}"), "$8"));
    let (seven, last) = members(&"H".repeat(32));
    let shorter = |entry: &str| class("t", &format!("{entry}{}", "H".repeat(part(720))));
    let lists = shorter("I") + &shorter("K");
    push("long types over them read again", filled(&format!("{lists}{seven}"), &last));
}

/// Lists of equal trees, each read in a context of its own, so that no node of one is in another. What differs stands
/// behind what is compared first without links, and before what is compared first with them.
fn contexts(symbols: &mut Vec<Hostile>) {
    let inner = [
        ("a list", class("s", &"H".repeat(part(400)))),
        ("classes", "V?$s@H@@".repeat(part(50))),
        ("a tower", (0..45).fold("PAH".to_string(), |inner, _| class("s", &format!("{inner}0")))),
    ];
    let some = "H".repeat(40);
    for (what, inner) in inner {
        let types = ["D", "E", "F", "G"].map(|it| class("t", &format!("{some}{it}{inner}")));
        let over = |place: usize| member('h', &format!("{place}{some}"));
        let parameters = types.concat() + &(0..4).map(over).collect::<String>();
        let symbol = filled(&parameters, &over(3));
        symbols.push(hostile(format!("{what} in four contexts, compared again and again"), symbol));
    }
}

/// Names that are alike and stand in different contexts, in lists that refer to them again and again.
fn long_names(symbols: &mut Vec<Hostile>) {
    for (length, again) in [(1300, 28), (1500, 5), (600, 120), (100, 500)] {
        let name = "n".repeat(part(length));
        let list = |entry| class("t", &format!("V{name}@@{}{entry}", "0".repeat(again)));
        let (seven, last) = members("");
        let what = format!("names of {} bytes, {again} times in two lists", part(length));
        symbols.push(hostile(what, filled(&(list("I") + &list("K") + &seven), &last)));
    }
}

/// Towers of templates with long lists, which differ in the entry that is compared last.
fn deep_and_wide(symbols: &mut Vec<Hostile>) {
    for (levels, width) in [(60, 12), (40, 24), (12, 100), (4, 330)] {
        let tower = |inside: &str| {
            let list = "0".repeat(part(width));
            (0..levels).fold(inside.to_string(), |inner, _| class("a", &format!("{inner}{list}")))
        };
        let (seven, last) = members("");
        let what = format!("towers of {levels} lists of {}, compared again and again", part(width));
        symbols.push(hostile(what, filled(&(tower("PAH") + &tower("PAD") + &seven), &last)));
    }
}

fn texts(symbols: &mut Vec<Hostile>) {
    for levels in [20, 40, 60] {
        let tower = (0..levels).fold("PAH".to_string(), |inner, _| format!("V?$a@{inner}0@@"));
        symbols.push(hostile(
            format!("a tower of {levels} templates, each twice the last"),
            format!("?x@@3{tower}A"),
        ));
        let scope = (0..levels).fold("a@".to_string(), |scope, _| format!("???0{scope}@QAE@XZ"));
        symbols.push(hostile(format!("constructors, {levels} deep"), format!("??0{scope}@QAE@XZ")));
        let tower = (0..levels).fold("Va@@".to_string(), |inner, _| format!("V?0?$b@{inner}@@"));
        symbols.push(hostile(
            format!("constructors in parameters, {levels} deep"),
            format!("?x@@3{tower}A"),
        ));
    }
    let flat: String = "HDCEFGIJKM".chars().map(|letter| format!("PA{letter}")).collect();
    symbols.push(hostile(
        "a full memo of types, used to the end",
        format!("?f@@YAX{flat}{}@Z", "9876543210".repeat(405)),
    ));
    let flat: String = "bcdefghij".chars().map(|letter| format!("{letter}@")).collect();
    symbols.push(hostile(
        "a full memo of names, used to the end",
        format!("?a@{flat}{}@3HA", "9876543210".repeat(406)),
    ));
}

fn long(symbols: &mut Vec<Hostile>) {
    symbols.push(hostile("4,091 pointers", format!("?x@@3{}", "P".repeat(4091))));
    symbols.push(hostile("2^31-1 dimensions", format!("?x@@3YHPPPPPPP@{}HA", "0".repeat(4070))));
    symbols.push(hostile("a list of 4,084 types", format!("?f@@YAX{}@Z", "H".repeat(4084))));
    symbols
        .push(hostile("a list of 4,000 references", format!("?f@@YAXPAH{}@Z", "0".repeat(4080))));
    symbols.push(hostile("a scope of 2,000 names", format!("?x@{}@3HA", "a@".repeat(2040))));
    symbols.push(hostile("a scope of 1,000 names", format!("?x@{}@3HA", "abc@".repeat(1010))));
    symbols.push(hostile("a name of 4,090 bytes", format!("?{}@@3HA", "n".repeat(4090))));
    symbols.push(hostile("nine long names, alike to the last byte", {
        let names: String = ('a'..='z').map(|last| format!("{}{last}@", "n".repeat(150))).collect();
        format!("?x@{names}@3HA")
    }));
    symbols.push(hostile("4,000 hexadecimal digits", format!("??@{}@", "0".repeat(4090))));
    symbols.push(hostile("a number of 4,000 letters", format!("?$a@$0{}@", "A".repeat(4088))));
    symbols.push(hostile("nothing but `?`", "?".repeat(LONGEST)));
    symbols.push(hostile("nothing but `?$`", "?$".repeat(LONGEST / 2)));
}

fn deep(symbols: &mut Vec<Hostile>) {
    for (place, tower) in TOWERS.iter().enumerate() {
        for depth in DEEPEST - 1..=DEEPEST + 1 {
            let symbol = String::from_utf8(tower.of_depth(depth.into())).expect("towers are ASCII");
            symbols.push(hostile(format!("tower {place} of depth {depth}"), symbol));
        }
    }
}

/// A long symbol with a little of everything, of which every prefix is read.
pub fn long_symbol() -> Vec<u8> {
    let once = "V?$a@PAHV?$b@$$V@@P6AXH@Z$1?f@c@@QAXXZ$$BY01H$0BA@W4e@?1??g@@YAXXZ@@@";
    let count = (LONGEST - "?x@@YAX@Z".len()) / once.len();
    format!("?x@@YAX{}@Z", once.repeat(count)).into_bytes()
}

pub fn all() -> Vec<Hostile> {
    let mut symbols = Vec::new();
    empty_packs(&mut symbols);
    equality(&mut symbols);
    two_lists(&mut symbols);
    contexts(&mut symbols);
    long_names(&mut symbols);
    deep_and_wide(&mut symbols);
    texts(&mut symbols);
    long(&mut symbols);
    deep(&mut symbols);
    symbols.push(hostile(
        "a little of everything",
        String::from_utf8(long_symbol()).expect("it is ASCII"),
    ));
    symbols
}

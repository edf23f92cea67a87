//! Symbols made from the grammar's own choices. A function writes one derivation of a production
//! of `crates/grammar/specs/Grammar.antt`, by any of its alternatives.
mod types;

use crate::limits::LONGEST;
use crate::random::Random;

const DIGITS: &[u8] = b"0123456789";
const HEX: &[u8] = b"0123456789abcdefABCDEF";
const CONVENTIONS: &[u8] = b"ABCEGI";
const QUALIFIERS: &[u8] = b"ABCDQRST";
const CLASSES: &[u8] = b"ABCDEFGHQRST";
const FUNCTION_CLASSES: &[u8] = b"ABCDEFGHIJKLMNOPQRSTUVWXZ";
const WITH_ADJUSTMENT: &[u8] = b"GHOPWX";
const STATIC: &[u8] = b"CDKLST";
const OPERATORS: &[u8] = b"0123456789ABCDEFGHIJKLMNOPQRSTUVWXYZ";
const OPERATORS_BEHIND_UNDERSCORE: &[u8] = b"0123456789ACDEFGHIJKLMNOSTUVXY";
const OTHER_OPERATORS: &str = "_R2 _R3 _R4 __L __E __F __K";
/// Numbers at the bounds of 32 bits, and several spellings of small ones.
const NUMBERS: &str = "@ A@ B@ AB@ BA@ HPPPPPPP@ IAAAAAAA@ PPPPPPPP@ BAAAAAAAA@ AAAAAAAAAB@";
const GUARD_NUMBERS: &str = "0 00 7 10 2147483647 2147483648 42949672970";

type Production = fn(&mut Generator);
/// A production and how often it is taken among others.
type Choice = (usize, Production);

const SYMBOL_TYPES: &[Choice] = &[
    (3, Generator::variable),
    (3, Generator::function),
    (3, Generator::member_function),
    (1, Generator::virtual_table),
    (1, Generator::type_without_operands),
    (1, Generator::encoded_string),
    (1, Generator::virtual_call_thunk),
];
const NESTED_NAMES: &[Choice] = &[
    (3, Generator::plain_name),
    (2, Generator::stored_name),
    (2, Generator::nested_template),
    (1, Generator::anonymous_namespace),
    (1, Generator::interface),
    (1, Generator::discriminator),
    (1, Generator::parsed_name),
];

/// What a symbol is made with. Stored names and types are known by their text, which tells for the
/// most part whether a reference is in range.
pub struct Generator {
    random: Random,
    text: Vec<u8>,
    names: Vec<Vec<u8>>,
    types: Vec<Vec<u8>>,
    /// How many times a choice may still make the symbol longer.
    fuel: usize,
    /// How many plain names there are: with few of them, many names and types are equal.
    variety: usize,
    /// Whether a type rather has a type below it.
    deep: bool,
}

impl Generator {
    pub fn new(seed: u64) -> Generator {
        let random = Random::new(seed);
        let (text, names, types) = (vec![], vec![], vec![]);
        Generator { random, text, names, types, fuel: 0, variety: 1, deep: false }
    }

    /// Most symbols are short, a few as long as a symbol may be.
    pub fn symbol(&mut self) -> Vec<u8> {
        let most = self.random.pick(&[3, 6, 6, 10, 10, 20, 20, 40, 100, 1000]);
        self.fuel = self.random.below(most);
        self.variety = self.random.pick(&[1, 2, 3, 20]);
        self.deep = self.random.one_in(8);
        self.names.clear();
        self.types.clear();
        self.text.clear();
        self.parse(false);
        self.text.truncate(LONGEST);
        self.text.clone()
    }

    fn write(&mut self, text: &str) {
        self.text.extend_from_slice(text.as_bytes());
    }

    /// One of the words, with a space between two of them.
    fn write_one_of(&mut self, words: &str) {
        let place = self.random.below(words.split(' ').count());
        words.split(' ').skip(place).take(1).for_each(|word| self.write(word));
    }

    fn letter(&mut self, letters: &[u8]) {
        let letter = self.random.pick(letters);
        self.text.push(letter);
    }

    /// What a production writes, with `text` before it if it begins so that it would be misread.
    fn apart(&mut self, text: &str, misread: fn(&[u8]) -> bool, next: Production) {
        let from = self.text.len();
        next(self);
        if misread(&self.text[from..]) {
            self.text.splice(from..from, text.bytes());
        }
    }

    /// A letter that may be missing, unless what follows begins with one of them.
    fn optional(&mut self, letters: &[u8], next: Production) {
        let from = self.text.len();
        next(self);
        let first = self.text.get(from);
        if first.is_some_and(|first| letters.contains(first)) || !self.random.one_in(4) {
            let letter = self.random.pick(letters);
            self.text.insert(from, letter);
        }
    }

    fn produce(&mut self, choices: &[Choice]) {
        let mut place = self.random.below(choices.iter().map(|(weight, _)| weight).sum());
        for (weight, production) in choices {
            if place < *weight {
                return production(self);
            }
            place -= weight;
        }
    }

    /// Whether the symbol may become longer.
    fn grows(&mut self) -> bool {
        let grows = self.fuel > 0;
        self.fuel = self.fuel.saturating_sub(1);
        grows
    }

    /// How many entries a list gets.
    fn entries(&mut self) -> usize {
        let most = self.random.pick(&[1, 2, 2, 2, 4, 4, 4, 30]);
        self.random.below(most + 1)
    }

    fn number(&mut self) {
        if self.random.one_in(6) {
            self.write("?");
        }
        match self.random.below(6) {
            0 => self.write_one_of(NUMBERS),
            1 => {
                let value = self.random.below(5000);
                self.letters(value);
            }
            _ => self.letter(DIGITS),
        }
    }

    fn letters(&mut self, value: usize) {
        let digits = format!("{value:X}@").into_bytes();
        let letter = |digit| match digit {
            b'0'..=b'9' => digit - b'0' + b'A',
            b'A'..=b'F' => digit - b'A' + b'K',
            _ => digit,
        };
        self.text.extend(digits.into_iter().map(letter));
    }

    fn parse(&mut self, inner: bool) {
        self.write("?");
        match self.random.below(20) {
            0 => self.md5_name(),
            1 => {
                self.write("$");
                self.template_name();
            }
            2 => self.thread_safe_guard(),
            _ => {
                if self.name(true) {
                    self.guard_index();
                }
                // A type may be missing, but what follows an inner symbol would be taken for it.
                if inner || !self.random.one_in(20) {
                    self.produce(SYMBOL_TYPES);
                }
            }
        }
    }

    fn md5_name(&mut self) {
        self.write("?@");
        for _ in 0..32 {
            self.letter(HEX);
        }
        self.write("@");
    }

    fn thread_safe_guard(&mut self) {
        self.write("$TSS");
        self.write_one_of(GUARD_NUMBERS);
        self.write("@");
        self.nested_name();
        self.scope();
        self.write("4HA");
    }

    fn guard_index(&mut self) {
        self.write_one_of("5 4IA");
        match self.random.one_in(8) {
            true => self.number(),
            false => self.letter(DIGITS),
        }
    }

    /// Whether the name is a guard's.
    fn name(&mut self, function: bool) -> bool {
        let guard = self.unqualified_name(function);
        self.scope();
        guard
    }

    fn unqualified_name(&mut self, function: bool) -> bool {
        match self.random.below(12) {
            0 => self.stored_name(),
            1..=3 if self.grows() => self.template(!function),
            4 | 5 => return self.special_name(),
            6 if self.random.one_in(10) => {
                self.write("@");
                store(&mut self.names, b"@");
            }
            _ => self.plain_name(),
        }
        false
    }

    fn special_name(&mut self) -> bool {
        self.write("?");
        match self.random.below(8) {
            0 => {
                self.write_one_of("_B __J");
                return true;
            }
            1 => {
                self.write("_R0?");
                self.optional(CLASSES, Generator::var_type);
            }
            2 => {
                self.write("_R1");
                (0..4).for_each(|_| self.number());
            }
            3 | 4 => {
                self.write("_");
                self.letter(OPERATORS_BEHIND_UNDERSCORE);
            }
            5 => self.write_one_of(OTHER_OPERATORS),
            _ => self.letter(OPERATORS),
        }
        false
    }

    fn scope(&mut self) {
        for _ in 0..self.entries() {
            if self.grows() {
                self.nested_name();
            }
        }
        self.write("@");
    }

    fn nested_name(&mut self) {
        self.produce(NESTED_NAMES);
    }

    /// One of so many stored ones, the last more often; now and then out of range.
    fn reference(&mut self, stored: usize) -> usize {
        match self.random.below(40) {
            0 if self.random.one_in(10) => self.random.below(10),
            1..=5 => stored - 1,
            _ => self.random.below(stored),
        }
    }

    fn digit(&mut self, digit: usize) {
        self.text.push(b'0' + digit as u8);
    }

    fn stored_name(&mut self) {
        if self.names.is_empty() {
            return self.plain_name();
        }
        let place = self.reference(self.names.len());
        self.digit(place);
    }

    fn memorize_name(&mut self, from: usize) {
        store(&mut self.names, &self.text[from..]);
    }

    fn plain_text(&mut self) {
        let name = self.random.below(self.variety);
        match self.random.below(30) {
            0 => self.write("a$ ?b"),
            _ => self.text.push(b'a' + name as u8),
        }
        self.write("@");
    }

    fn plain_name(&mut self) {
        let from = self.text.len();
        self.plain_text();
        self.memorize_name(from);
    }

    fn nested_template(&mut self) {
        match self.grows() {
            true => self.template(true),
            false => self.plain_name(),
        }
    }

    fn template(&mut self, stored: bool) {
        let from = self.text.len();
        self.write("?$");
        self.template_name();
        if stored {
            self.memorize_name(from);
        }
    }

    /// A template has its own memo.
    fn template_name(&mut self) {
        let outer = (std::mem::take(&mut self.names), std::mem::take(&mut self.types));
        self.unqualified_name(false);
        self.params();
        (self.names, self.types) = outer;
    }

    fn anonymous_namespace(&mut self) {
        if self.random.one_in(3) {
            return self.write("?A@");
        }
        let from = self.text.len();
        self.write("?A0x");
        for _ in 0..self.random.below(4) {
            self.letter(HEX);
        }
        self.write("@");
        self.memorize_name(from);
    }

    fn interface(&mut self) {
        let from = self.text.len();
        self.write("?Q");
        self.plain_text();
        self.write("@");
        self.memorize_name(from);
    }

    /// A number with a sign, or with an `A` in front, would begin another name.
    fn discriminator(&mut self) {
        self.write("?");
        match self.random.one_in(4) {
            true => self.write_one_of("@ B@ BA@ PPPPPPPP@ IAAAAAAA@"),
            false => self.letter(DIGITS),
        }
    }

    fn parsed_name(&mut self) {
        self.write("?");
        self.parse(true);
    }

    fn variable(&mut self) {
        self.letter(b"01234");
        self.var_type();
        if !self.random.one_in(4) {
            self.letter(CLASSES);
        }
    }

    fn virtual_table(&mut self) {
        self.letter(b"67");
        self.optional(QUALIFIERS, Generator::scope);
    }

    fn type_without_operands(&mut self) {
        self.letter(b"89");
    }

    fn function(&mut self) {
        self.write("Y");
        self.letter(CONVENTIONS);
        self.return_type();
        self.func_params();
    }

    fn member_function(&mut self) {
        let class = self.function_class();
        if !STATIC.contains(&class) {
            self.function_qualifiers();
        }
        self.signature_of_member();
    }

    fn virtual_call_thunk(&mut self) {
        self.write("$B");
        self.number();
        self.write("A");
        self.letter(CONVENTIONS);
    }

    fn encoded_string(&mut self) {
        self.write("_");
        let wide = self.random.below(2);
        self.digit(wide);
        let length = self.random.pick(&[0, 1, 2, 5, 31, 32, 33, 64, 70]);
        self.letters(length);
        self.number();
        for _ in 0..length.min(32 * (wide + 1)) {
            self.character();
        }
    }

    fn character(&mut self) {
        match self.random.below(8) {
            0 => {
                self.write("?");
                self.letter(b"0123456789AMZamz");
            }
            1 => {
                self.write("?$");
                self.letter(b"ABCDEFGHIJKLMNOP");
                self.letter(b"ABCDEFGHIJKLMNOP");
            }
            _ => self.letter(b"az09AZ_$"),
        }
    }
}

fn store(stored: &mut Vec<Vec<u8>>, text: &[u8]) {
    if stored.len() < 10 && !stored.iter().any(|entry| entry == text) {
        stored.push(text.to_vec());
    }
}

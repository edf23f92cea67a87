//! The types among the productions.
use super::{
    store, Choice, Generator, CLASSES, CONVENTIONS, FUNCTION_CLASSES, QUALIFIERS, WITH_ADJUSTMENT,
};

const BASIC: &[u8] = b"XDCEFGHIJKMNO";
const BASIC_BEHIND_UNDERSCORE: &[u8] = b"NJKLMWQSU";
const CLASSES_WITHOUT_E: &[u8] = b"ABCDFGHQRST";

const TYPES: &[Choice] = &[
    (3, Generator::basic_type),
    (3, Generator::named_type),
    (3, Generator::pointer),
    (2, Generator::stored_type),
    (1, Generator::function_pointer),
    (1, Generator::member_function_pointer),
    (1, Generator::number_type),
    (1, Generator::array),
    (1, Generator::type_of_a_word),
    (1, Generator::function_type),
    (1, Generator::alias),
    (1, Generator::reclassed_type),
    (1, Generator::type_behind_dollar),
];
/// The types with which a symbol soon is deep.
const DEEP_TYPES: &[Choice] = &[
    (2, Generator::pointer),
    (1, Generator::named_type),
    (1, Generator::function_pointer),
    (1, Generator::member_function_pointer),
    (1, Generator::array),
    (1, Generator::function_type),
];

impl Generator {
    pub(super) fn params(&mut self) {
        for _ in 0..self.entries() {
            let from = self.text.len();
            self.var_type();
            let text = &self.text[from..];
            if text.len() > 1 {
                store(&mut self.types, text);
            }
        }
        self.write_one_of("@ @ @ @ Z");
    }

    pub(super) fn func_params(&mut self) {
        let from = self.text.len();
        match self.random.one_in(3) {
            true => self.write("X"),
            false => self.params(),
        }
        // An `X` in front of others would be the whole list.
        if self.text.len() > from + 1 && self.text[from] == b'X' {
            self.text[from] = b'H';
        }
        self.write("Z");
    }

    pub(super) fn var_type(&mut self) {
        match (self.grows(), self.deep) {
            (true, true) => self.produce(DEEP_TYPES),
            (true, false) => self.produce(TYPES),
            (false, _) if self.random.one_in(4) => self.stored_type(),
            (false, _) => self.basic_type(),
        }
    }

    fn basic_type(&mut self) {
        if self.random.one_in(3) {
            self.write("_");
            return self.letter(BASIC_BEHIND_UNDERSCORE);
        }
        self.letter(BASIC);
    }

    fn named_type(&mut self) {
        self.write_one_of("T U V W4");
        self.name(false);
    }

    fn alias(&mut self) {
        self.write("$$Y");
        self.name(true);
    }

    fn pointer(&mut self) {
        self.write_one_of("A B P Q R S $$Q");
        self.pointee();
    }

    fn pointee(&mut self) {
        if self.random.one_in(3) {
            self.write("E");
            return self.optional(CLASSES, Generator::var_type);
        }
        self.optional(CLASSES_WITHOUT_E, Generator::var_type);
    }

    fn function_pointer(&mut self) {
        self.write_one_of("A6 P6");
        self.signature();
    }

    fn function_type(&mut self) {
        if self.random.one_in(2) {
            self.write("$$A6");
        } else {
            self.write("$$A8@@");
            self.function_qualifiers();
        }
        self.signature();
    }

    fn signature(&mut self) {
        self.letter(CONVENTIONS);
        if self.random.one_in(3) {
            self.write("?");
            self.optional(CLASSES, Generator::var_type);
        } else {
            self.apart("?A", |text| text[0] == b'?', Generator::var_type);
        }
        self.func_params();
    }

    pub(super) fn function_qualifiers(&mut self) {
        for qualifiers in [&b"E"[..], b"I", b"F", b"GH"] {
            if self.random.one_in(4) {
                self.letter(qualifiers);
            }
        }
        self.qualifier();
    }

    /// A qualifier may be missing, but a convention would then be taken for one.
    fn qualifier(&mut self) {
        if !self.random.one_in(100) {
            self.letter(QUALIFIERS);
        }
    }

    fn member_function_pointer(&mut self) {
        let qualified = self.random.one_in(2);
        self.write_one_of(if qualified { "P8" } else { "$1? $H? $I? $J?" });
        self.name(true);
        if self.random.one_in(4) {
            self.write("E");
        }
        if qualified {
            self.qualifier();
        } else {
            self.apart("E", |text| text[0] == b'E', Generator::member_class);
        }
        self.signature_of_member();
    }

    pub(super) fn function_class(&mut self) -> u8 {
        let class = self.random.pick(FUNCTION_CLASSES);
        self.text.push(class);
        if WITH_ADJUSTMENT.contains(&class) {
            self.number();
        }
        class
    }

    /// Here `Y` is a class, too.
    fn member_class(&mut self) {
        if self.random.one_in(20) {
            return self.write("Y");
        }
        self.function_class();
    }

    pub(super) fn return_type(&mut self) {
        if self.random.one_in(4) {
            self.write_one_of("?A ?B ?C ?D");
            return self.var_type();
        }
        self.apart("?A", |text| text[0] == b'?', Generator::var_type);
    }

    pub(super) fn signature_of_member(&mut self) {
        self.letter(CONVENTIONS);
        match self.random.below(12) {
            0 => self.write_one_of("?A@ ?B@"),
            1 | 2 => self.write("@"),
            _ => self.return_type(),
        }
        self.func_params();
    }

    fn number_type(&mut self) {
        self.write_one_of("$0 $0 $D ?");
        self.number();
    }

    fn type_of_a_word(&mut self) {
        self.write_one_of("$S $$V $$Z $$$V $$T");
    }

    fn array(&mut self) {
        self.write_one_of("Y $$BY");
        let most = self.random.pick(&[1, 2, 3, 20]);
        let dimensions = 1 + self.random.below(most);
        match dimensions {
            1..=10 => self.digit(dimensions - 1),
            _ => self.letters(dimensions),
        }
        (0..dimensions).for_each(|_| self.number());
        if self.random.one_in(4) {
            self.write_one_of("$$CA $$CB $$CC $$CD");
            return self.var_type();
        }
        self.apart("$$CA", |text| text.starts_with(b"$$C"), Generator::var_type);
    }

    fn reclassed_type(&mut self) {
        self.write("$$C");
        self.optional(QUALIFIERS, Generator::plain_type);
    }

    /// A `$` that begins no form is passed over.
    fn type_behind_dollar(&mut self) {
        self.write("$");
        let from = self.text.len();
        self.plain_type();
        // With these it would begin one.
        if b"01DHIJS$".contains(&self.text[from]) {
            self.text.truncate(from);
            self.write("X");
        }
    }

    /// A type by its letter alone.
    fn plain_type(&mut self) {
        match self.random.below(5) {
            0 => {
                self.letter(b"TUV");
                self.name(false);
            }
            1 => {
                self.letter(b"ABPQRS");
                self.pointee();
            }
            2 => self.stored_type(),
            3 => {
                self.write("?");
                self.number();
            }
            _ => self.basic_type(),
        }
    }

    fn stored_type(&mut self) {
        if self.types.is_empty() {
            return self.basic_type();
        }
        let place = self.reference(self.types.len());
        match self.random.below(12) {
            0 if place > 1 => self.write("$"),
            1 => self.write_one_of("$$C $$CA $$CR"),
            _ => {}
        }
        self.digit(place);
    }
}

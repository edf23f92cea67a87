//! Types and lists of them.
use super::{store, Model, Node, Read, Refused, EMPTY};

impl Model<'_> {
    pub(super) fn convention_and_result(&mut self) -> Read<(u8, Node)> {
        let convention = self.convention()?;
        let class = self.return_class()?;
        let result = match self.rest().first() {
            Some(b'@') => self.part(|model| {
                model.at += 1;
                model.no_type()
            })?,
            _ => self.var_type(class)?,
        };
        Ok((convention, result))
    }

    pub(super) fn params(&mut self) -> Read<Node> {
        let mut types = EMPTY;
        while !self.at_end() && !self.consume("@") {
            if self.rest().starts_with(b"Z") {
                let variadic = self.part(|model| {
                    model.at += 1;
                    Ok(model.close("variadic", &[]))
                })?;
                self.place(&mut types, variadic);
                break;
            }
            let from = self.at;
            let entry = self.var_type(0)?;
            // A digit is one byte, too.
            if self.at - from > 1 {
                self.copied = self.copied.saturating_add(entry.weight);
                store(&mut self.types, entry);
            }
            self.place(&mut types, entry);
        }
        Ok(types)
    }

    pub(super) fn func_params(&mut self) -> Read<Node> {
        let mut types = EMPTY;
        if self.rest().starts_with(b"X") {
            let void = self.part(|model| {
                model.at += 1;
                Ok(model.close(("X", 0u32), &[]))
            })?;
            self.place(&mut types, void);
        } else {
            types = self.params()?;
        }
        self.expect("Z")?;
        Ok(types)
    }

    /// A stored type opens no part, so it is looked for first.
    fn stored_type(&mut self) -> Option<usize> {
        let from = self.at;
        if self.consume("$$C") {
            self.qualifier();
        } else if self.consume("$") && matches!(self.rest().first(), Some(b'0' | b'1')) {
            self.at = from;
        }
        let digit = self.digit();
        if digit.is_none() {
            self.at = from;
        }
        digit
    }

    pub(super) fn var_type(&mut self, class: u32) -> Read<Node> {
        let Some(digit) = self.stored_type() else {
            return self.part(|model| model.var_type_in_part(class));
        };
        let stored = *self.types.get(digit).ok_or(Refused)?;
        self.copied = self.copied.saturating_add(stored.weight);
        Ok(stored)
    }

    fn var_type_in_part(&mut self, class: u32) -> Read<Node> {
        if self.consume("W4") {
            return self.named("W4", false, class);
        }
        if self.rest().starts_with(b"A6") || self.rest().starts_with(b"P6") {
            let letter = self.get()?;
            self.get()?;
            let function = self.part(|model| model.func_type(false))?;
            let kind = if letter == b'A' { "A" } else { "P" };
            return Ok(self.close((kind, class), &[function]));
        }
        if self.consume("P8") {
            return self.member_pointer(true);
        }
        if self.consume("$") {
            return self.dollar_type(class);
        }
        self.letter_type(class)
    }

    fn dollar_type(&mut self, class: u32) -> Read<Node> {
        if self.consume("0") {
            let number = self.number()?;
            return Ok(self.close(("constant", number), &[]));
        }
        if self.consume("D") {
            let number = self.number()?;
            return Ok(self.close(("parameter", number), &[]));
        }
        if self.consume("S") || self.consume("$V") || self.consume("$Z") || self.consume("$$V") {
            return Ok(self.close("empty", &[]));
        }
        if self.consume("$T") {
            return Ok(self.close("nullptr", &[]));
        }
        if self.consume("$BY") {
            return self.array();
        }
        if self.consume("$Q") {
            return self.pointing("$$Q", class);
        }
        let qualified = self.rest().starts_with(b"$A8@@");
        if self.consume("$A6") || self.consume("$A8@@") {
            return self.func_type(qualified);
        }
        if self.consume("$Y") {
            return self.named("$$Y", true, class);
        }
        if self.consume("$C") {
            let class = self.qualifier();
            return self.letter_type(class);
        }
        if self.optional("1HIJ") != 0 {
            self.expect("?")?;
            return self.member_pointer(false);
        }
        self.letter_type(class)
    }

    fn letter_type(&mut self, class: u32) -> Read<Node> {
        let letter = self.get()?;
        match letter {
            b'?' => {
                let number = self.number()?;
                Ok(self.close(("parameter", number.wrapping_neg()), &[]))
            }
            b'T' => self.named("T", false, class),
            b'U' => self.named("U", false, class),
            b'V' => self.named("V", false, class),
            b'A' => self.pointing("A", class),
            b'B' => self.pointing("A", 2),
            b'P' => self.pointing("P", class),
            b'Q'..=b'S' => self.pointing("P", u32::from(letter - b'P')),
            b'Y' => self.array(),
            b'_' => {
                let second = self.letter("NJKLMWQSU")?;
                Ok(self.close(("basic", second, class), &[]))
            }
            _ if b"XDCEFGHIJKMNO".contains(&letter) => {
                Ok(self.close((char::from(letter).to_string().as_str(), class), &[]))
            }
            _ => Err(Refused),
        }
    }

    fn named(&mut self, kind: &str, function: bool, class: u32) -> Read<Node> {
        let (symbol, _) = self.name(function)?;
        Ok(self.close((kind, class), &[symbol]))
    }

    fn pointing(&mut self, kind: &str, class: u32) -> Read<Node> {
        let far = if self.consume("E") { 64 } else { 0 };
        let pointee_class = self.storage_class() + far;
        let pointee = self.var_type(pointee_class)?;
        Ok(self.close((kind, class), &[pointee]))
    }

    fn array(&mut self) -> Read<Node> {
        let dimensions = self.number()?;
        if dimensions <= 0 {
            return Err(Refused);
        }
        Ok(self.dimension(dimensions)?.0)
    }

    /// One dimension, whose part is open, and the class of the elements.
    fn dimension(&mut self, dimensions: i32) -> Read<(Node, u8)> {
        let length = self.number()?;
        let (inner, class) = match dimensions {
            1 => self.element()?,
            _ => self.part(|model| model.dimension(dimensions - 1))?,
        };
        Ok((self.close(("array", length, class), &[inner]), class))
    }

    fn element(&mut self) -> Read<(Node, u8)> {
        let class = match self.consume("$$C") {
            true => match self.optional("ABCD") {
                0 => return Err(Refused),
                b'C' => b'D',
                letter => letter,
            },
            false => b'A',
        };
        Ok((self.var_type(0)?, class))
    }

    fn func_type(&mut self, qualified: bool) -> Read<Node> {
        let class = if qualified { self.func_qualifiers() } else { 0 };
        let convention = self.convention()?;
        let result_class = if self.consume("?") { self.storage_class() } else { 0 };
        let result = self.var_type(result_class)?;
        let params = self.func_params()?;
        Ok(self.close(("function", convention, class), &[result, params]))
    }

    fn member_pointer(&mut self, qualified: bool) -> Read<Node> {
        let (symbol, _) = self.name(true)?;
        let far = self.consume("E");
        let (class, func_class) = match qualified {
            true => (self.qualifier(), 0),
            false => {
                let letter = self.get()?;
                (0, self.func_class(letter)?)
            }
        };
        let (convention, result) = self.convention_and_result()?;
        let params = self.func_params()?;
        let own = ("member pointer", far, class, func_class, convention);
        Ok(self.close(own, &[result, params, symbol]))
    }
}

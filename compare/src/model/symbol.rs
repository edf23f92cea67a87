//! A symbol and its own type.
use super::{Model, Node, Read, Refused, EMPTY};

impl Model<'_> {
    pub(super) fn parse(&mut self) -> Read<Node> {
        self.part(|model| {
            model.expect("?")?;
            let (symbol, kind, index) = if model.consume("?@") {
                (model.part(Self::md5_symbol)?, model.part(Self::no_type)?, None)
            } else if model.consume("$TSS") {
                let number = model.guard_number()?;
                let symbol = model.part(Self::guarded_symbol)?;
                (symbol, model.part(|model| model.guard_type(number))?, None)
            } else if model.consume("$") {
                (model.part(Self::template_symbol)?, model.part(Self::no_type)?, None)
            } else {
                let (symbol, guard) = model.name(true)?;
                let index = if guard { model.guard_index()? } else { None };
                (symbol, model.part(Self::symbol_type)?, index)
            };
            Ok(model.close(("parsed", index), &[symbol, kind]))
        })
    }

    fn md5_symbol(&mut self) -> Read<Node> {
        let name = self.part(|model| {
            let digits = model.hex_digits();
            if digits.len() != 32 || !model.consume("@") {
                return Err(Refused);
            }
            Ok(model.close(("md5", digits), &[]))
        })?;
        Ok(self.close("symbol", &[name, EMPTY]))
    }

    fn guard_number(&mut self) -> Read<u32> {
        let mut number = self.digit().ok_or(Refused)? as u32;
        while !self.consume("@") {
            let digit = self.digit().ok_or(Refused)? as u32;
            number = number.wrapping_mul(10).wrapping_add(digit);
        }
        Ok(number)
    }

    fn guarded_symbol(&mut self) -> Read<Node> {
        let name = self.nested_name()?;
        let scope = self.scope()?;
        Ok(self.close("symbol", &[name, scope]))
    }

    fn guard_type(&mut self, number: u32) -> Read<Node> {
        self.expect("4HA")?;
        Ok(self.close(("guard", number), &[]))
    }

    fn template_symbol(&mut self) -> Read<Node> {
        let name = self.part(Self::template_name)?;
        Ok(self.close("symbol", &[name, EMPTY]))
    }

    pub(super) fn no_type(&mut self) -> Read<Node> {
        Ok(self.close("none", &[]))
    }

    fn guard_index(&mut self) -> Read<Option<i32>> {
        if !self.consume("4IA") && !self.consume("5") {
            return Err(Refused);
        }
        if self.at_end() {
            return Ok(None);
        }
        let index = self.number()?;
        (index >= 0).then_some(Some(index)).ok_or(Refused)
    }

    fn symbol_type(&mut self) -> Read<Node> {
        let letter = match self.get() {
            Ok(letter) => letter,
            Err(Refused) => return self.no_type(),
        };
        match letter {
            b'0'..=b'4' => {
                let kind = self.var_type(0)?;
                let class = self.storage_class();
                Ok(self.close(("variable", letter, class), &[kind]))
            }
            b'6' | b'7' => {
                let class = self.qualifier();
                let scope = self.scope()?;
                Ok(self.close(("table", letter, class), &[scope]))
            }
            b'8' => Ok(self.close("rtti", &[])),
            b'9' => self.no_type(),
            b'Y' => {
                let convention = self.convention()?;
                let class = self.return_class()?;
                let result = self.var_type(class)?;
                let params = self.func_params()?;
                Ok(self.close(("function", convention, 0u32), &[result, params]))
            }
            b'_' => self.encoded_string(),
            b'$' => self.thunk(),
            _ => self.member_function(letter),
        }
    }

    fn encoded_string(&mut self) -> Read<Node> {
        let width = i32::from(self.letter("01")? - b'0') + 1;
        let length = self.number()?;
        self.number()?;
        let mut bytes = Vec::new();
        for _ in 0..length.min(32 * width) {
            bytes.push(self.character()?);
        }
        Ok(self.close(("string", bytes), &[]))
    }

    fn character(&mut self) -> Read<u8> {
        let byte = self.get()?;
        if byte.is_ascii_alphanumeric() || byte == b'_' || byte == b'$' {
            return Ok(byte);
        }
        if byte != b'?' {
            return Err(Refused);
        }
        match self.get()? {
            digit @ b'0'..=b'9' => Ok(b",/\\:. \n\t'-"[usize::from(digit - b'0')]),
            letter @ (b'A'..=b'Z' | b'a'..=b'z') => Ok(letter.to_ascii_lowercase() - b'a' + 225),
            b'$' => {
                let high = self.letter("ABCDEFGHIJKLMNOP")? - b'A';
                let low = self.letter("ABCDEFGHIJKLMNOP")? - b'A';
                Ok(16 * high + low)
            }
            _ => Err(Refused),
        }
    }

    fn thunk(&mut self) -> Read<Node> {
        self.expect("B")?;
        let offset = self.number()?;
        self.expect("A")?;
        let convention = self.convention()?;
        Ok(self.close(("thunk", offset, convention), &[]))
    }

    fn member_function(&mut self, letter: u8) -> Read<Node> {
        let func_class = self.func_class(letter)?;
        let class = match letter {
            b'C' | b'D' | b'K' | b'L' | b'S' | b'T' => 0,
            _ => self.func_qualifiers(),
        };
        let (convention, result) = self.convention_and_result()?;
        let params = self.func_params()?;
        Ok(self.close(("member", func_class, class, convention), &[result, params]))
    }
}

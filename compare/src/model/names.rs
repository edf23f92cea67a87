//! Names, scopes and templates.
use super::{store, Model, Node, Read, Refused, EMPTY};

impl Model<'_> {
    pub(super) fn name(&mut self, function: bool) -> Read<(Node, bool)> {
        self.part(|model| {
            let (name, guard) = model.unqualified_name(function)?;
            let scope = model.scope()?;
            Ok((model.close("symbol", &[name, scope]), guard))
        })
    }

    fn stored_name(&mut self, digit: usize) -> Read<Node> {
        let name = *self.names.get(digit).ok_or(Refused)?;
        self.copied = self.copied.saturating_add(name.weight);
        Ok(name)
    }

    fn store_name(&mut self, name: Node) {
        self.copied = self.copied.saturating_add(name.weight);
        store(&mut self.names, name);
    }

    fn unqualified_name(&mut self, function: bool) -> Read<(Node, bool)> {
        if let Some(digit) = self.digit() {
            return Ok((self.stored_name(digit)?, false));
        }
        self.part(|model| {
            if model.consume("?$") {
                let name = model.template_name()?;
                if !function {
                    model.store_name(name);
                }
                return Ok((name, false));
            }
            if model.consume("?") {
                return model.special_name();
            }
            Ok((model.plain_name()?, false))
        })
    }

    fn plain_name(&mut self) -> Read<Node> {
        let text = self.string()?;
        let name = self.close(("plain", text), &[]);
        self.store_name(name);
        Ok(name)
    }

    fn special_name(&mut self) -> Read<(Node, bool)> {
        let from = self.at;
        if self.letter("0123456789ABCDEFGHIJKLMNOPQRSTUVWXYZ_")? == b'_' {
            match self.letter("0123456789ABCDEFGHIJKLMNORSTUVXY_")? {
                b'R' => match self.letter("01234")? {
                    b'0' => return Ok((self.type_descriptor()?, false)),
                    b'1' => return Ok((self.base_class_descriptor()?, false)),
                    _ => {}
                },
                b'_' if self.optional("LEFJK") == 0 => return Err(Refused),
                _ => {}
            }
        }
        let operator = &self.symbol[from..self.at];
        Ok((self.close(("operator", operator), &[]), operator == b"_B" || operator == b"__J"))
    }

    fn type_descriptor(&mut self) -> Read<Node> {
        self.expect("?")?;
        let class = self.storage_class();
        let described = self.var_type(class)?;
        Ok(self.close(("type descriptor", class), &[described]))
    }

    fn base_class_descriptor(&mut self) -> Read<Node> {
        let numbers = [self.number()?, self.number()?, self.number()?, self.number()?];
        Ok(self.close(("base class descriptor", numbers), &[]))
    }

    pub(super) fn template_name(&mut self) -> Read<Node> {
        let outer = (std::mem::take(&mut self.names), std::mem::take(&mut self.types));
        let (name, _) = self.unqualified_name(false)?;
        let params = self.params()?;
        (self.names, self.types) = outer;
        Ok(self.close("template", &[name, params]))
    }

    pub(super) fn nested_name(&mut self) -> Read<Node> {
        match self.digit() {
            Some(digit) => self.stored_name(digit),
            None => self.part(Self::nested_name_in_part),
        }
    }

    fn nested_name_in_part(&mut self) -> Read<Node> {
        if !self.consume("?") {
            return self.plain_name();
        }
        if self.rest().starts_with(b"?") {
            let inner = self.parse()?;
            return Ok(self.close("parsed name", &[inner]));
        }
        let name = if self.consume("$") {
            self.template_name()?
        } else if self.consume("A0x") {
            let id = self.hex_digits();
            if id.is_empty() {
                return Err(Refused);
            }
            self.expect("@")?;
            self.close(("namespace", id), &[])
        } else if self.consume("A") {
            self.expect("@")?;
            return Ok(self.close("namespace", &[]));
        } else if self.consume("Q") {
            let text = self.string()?;
            self.expect("@")?;
            self.close(("interface", text), &[])
        } else {
            let number = self.number()?;
            return Ok(self.close(("discriminator", number), &[]));
        };
        self.store_name(name);
        Ok(name)
    }

    pub(super) fn scope(&mut self) -> Read<Node> {
        let mut names = EMPTY;
        while !self.consume("@") {
            let name = self.nested_name()?;
            self.place(&mut names, name);
        }
        Ok(names)
    }
}

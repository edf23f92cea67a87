//! Stand-in for the crate `itoa`: decimal text of a number, kept in a buffer that lends it out.
use std::fmt::Display;

pub struct Buffer {
    text: String,
}

impl Buffer {
    pub fn new() -> Buffer {
        Buffer { text: String::new() }
    }

    pub fn format<Number: Display>(&mut self, number: Number) -> &str {
        self.text = number.to_string();
        &self.text
    }
}

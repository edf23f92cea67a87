//! Symbols that are as deep as is asked for.
use crate::model::Demands;

/// What makes a symbol deeper: its beginning, what opens, what stands inside, what closes, its end.
pub struct Tower(&'static str, &'static str, &'static str, &'static str, &'static str);

pub const TOWERS: &[Tower] = &[
    Tower("?x@@3", "PA", "H", "", "A"),
    Tower("?x@@3", "V?$a@", "Vb@@", "@@", "A"),
    Tower("?x@", "??a@", "b@", "@3HA", "@3HA"),
    Tower("?x@@3", "P6AX", "H", "@Z", "A"),
    Tower("?f@@YA", "P6A", "H", "XZ", "XZ"),
    Tower("?x@@3", "$$QA$$A6A", "H", "XZ", "A"),
    Tower("?x@@3", "$1?f@@YAX", "H", "@Z", "A"),
    Tower("?x@@3", "Y00", "H", "", "A"),
    Tower("??_R0?A", "V?_R0?A", "H", "@", "@8"),
];

impl Tower {
    fn symbol(&self, levels: usize) -> Vec<u8> {
        let Tower(head, open, inside, close, end) = self;
        let (open, close) = (open.repeat(levels), close.repeat(levels));
        [head, open.as_str(), inside, &close, end].concat().into_bytes()
    }

    /// With this depth, or the next one that the tower has.
    pub fn of_depth(&self, depth: usize) -> Vec<u8> {
        let deep = |levels: &usize| Demands::of(&self.symbol(*levels)).counts().0 >= depth;
        self.symbol((0..=depth).find(deep).unwrap_or_else(|| panic!("{} adds no depth", self.1)))
    }
}

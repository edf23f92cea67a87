//! The product's leaves, by the one function of its static library.

#[link(name = "leaf_export", kind = "static")]
extern "C" {
    fn farthingmoss_leaf(
        leaf: u32,
        symbol: *const u8,
        len: usize,
        at: usize,
        out: *mut u64,
        out_len: usize,
    );
}

/// Numbers of an answer: the leaf accepts, the leaf refuses, there is no such leaf.
pub const ACCEPTED: u64 = 0;
pub const REFUSED: u64 = 3;
pub const NO_LEAF: u64 = 7;

#[derive(Clone, Copy, Debug, PartialEq)]
pub struct Answer {
    pub number: u64,
    pub taken: usize,
    pub value: u64,
    pub start: usize,
}

/// Calls a leaf on the bytes of `symbol` from `at` on, for the answer's words in `out`.
pub fn call(leaf: u32, symbol: &[u8], at: usize, out: &mut [u64]) {
    assert!(at <= symbol.len());
    // SAFETY: both slices live through the call, which reads and writes within their lengths.
    unsafe {
        farthingmoss_leaf(leaf, symbol.as_ptr(), symbol.len(), at, out.as_mut_ptr(), out.len());
    }
}

pub fn answer(leaf: u32, symbol: &[u8], at: usize) -> Answer {
    let mut out = [u64::MAX; 4];
    call(leaf, symbol, at, &mut out);
    let [number, taken, value, start] = out;
    Answer { number, taken: taken as usize, value, start: start as usize }
}

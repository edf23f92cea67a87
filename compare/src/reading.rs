//! The product's reader, by the one function of its static library.
use crate::limits::{DEEPEST, LONGEST};

#[link(name = "reader_export", kind = "static")]
extern "C" {
    fn farthingmoss_reading(
        symbol: *const u8,
        len: usize,
        depth: u16,
        table: *mut u32,
        table_len: usize,
        out: *mut u64,
        out_len: usize,
    );
}

#[derive(Clone, Copy, Debug, PartialEq)]
pub struct Reading {
    pub number: u64,
    pub offset: usize,
    /// The counts of an accepted symbol.
    pub depth: usize,
    pub nodes: usize,
}

impl Reading {
    /// What a caller goes by: a refusal has no counts.
    pub fn answer(&self) -> (u64, usize) {
        (self.number, self.offset)
    }
}

pub fn read(symbol: &[u8], depth: u16, table: &mut [u32]) -> Reading {
    assert!(symbol.len() <= LONGEST && depth <= DEEPEST);
    let mut out = [u64::MAX; 4];
    // SAFETY: the slices live through the call, which reads and writes within their lengths.
    unsafe {
        farthingmoss_reading(
            symbol.as_ptr(),
            symbol.len(),
            depth,
            table.as_mut_ptr(),
            table.len(),
            out.as_mut_ptr(),
            out.len(),
        );
    }
    let [number, offset, depth, nodes] = out;
    Reading { number, offset: offset as usize, depth: depth as usize, nodes: nodes as usize }
}

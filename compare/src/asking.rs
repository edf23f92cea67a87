//! The product's writer alone and its name question, by the calls of its static library.
use crate::writing::Report;

#[link(name = "farthingmoss", kind = "static")]
extern "C" {
    fn farthingmoss_node_cells() -> usize;
    fn farthingmoss_write(
        symbol: *const u8,
        symbol_len: usize,
        flags: u32,
        depth: u32,
        table: *const u32,
        table_len: usize,
        text: *mut u8,
        text_len: usize,
        report: *mut u64,
    );
    fn farthingmoss_name(
        symbol: *const u8,
        symbol_len: usize,
        table: *const u32,
        table_len: usize,
        node: u64,
        report: *mut u64,
    );
}

pub fn node_cells() -> usize {
    // SAFETY: the call takes nothing.
    unsafe { farthingmoss_node_cells() }
}

pub fn write(symbol: &[u8], flags: u32, depth: u32, table: &[u32], text: &mut [u8]) -> Report {
    // SAFETY: the slices live through the call, which reads and writes within their lengths.
    Report::of(|report| unsafe {
        farthingmoss_write(
            symbol.as_ptr(),
            symbol.len(),
            flags,
            depth,
            table.as_ptr(),
            table.len(),
            text.as_mut_ptr(),
            text.len(),
            report,
        )
    })
}

/// The last two counts of an answer are the name's start and length.
pub fn name(symbol: &[u8], table: &[u32], node: u64) -> Report {
    // SAFETY: the slices live through the call, which reads within their lengths.
    Report::of(|report| unsafe {
        farthingmoss_name(symbol.as_ptr(), symbol.len(), table.as_ptr(), table.len(), node, report)
    })
}

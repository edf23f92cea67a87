//! The product's reading and writing of a symbol, by the call of its static library.

#[link(name = "farthingmoss", kind = "static")]
extern "C" {
    fn farthingmoss_read(
        symbol: *const u8,
        symbol_len: usize,
        flags: u32,
        depth: u32,
        table: *mut u32,
        table_len: usize,
        text: *mut u8,
        text_len: usize,
        report: *mut u64,
    );
}

/// Numbers beside those of a reading: the symbol is empty or too long; the text is cut.
pub const OUTSIDE: u64 = 1;
pub const CUT: u64 = 6;

/// What stands in a report and behind it before a call.
const OLD: u64 = u64::MAX;

/// What a call reports.
#[derive(Clone, Copy, Debug, PartialEq)]
pub struct Report {
    pub number: u64,
    /// Bytes of the symbol that are consumed.
    pub offset: usize,
    pub depth: usize,
    pub nodes: usize,
    /// Bytes of the text in the buffer.
    pub text: usize,
}

impl Report {
    /// A refusal has no counts.
    pub fn refusal(number: u64, offset: usize) -> Report {
        Report { number, offset, depth: 0, nodes: 0, text: 0 }
    }

    /// What a call writes, which is handed the place of its five numbers.
    pub fn of(call: impl FnOnce(*mut u64)) -> Report {
        let mut report = [OLD; 6];
        call(report.as_mut_ptr());
        let [number, offset, depth, nodes, text, behind] = report;
        assert_eq!(behind, OLD, "a call writes behind its report");
        let [offset, depth, nodes, text] = [offset, depth, nodes, text].map(|it| it as usize);
        Report { number, offset, depth, nodes, text }
    }
}

pub fn read(symbol: &[u8], flags: u32, depth: u32, table: &mut [u32], text: &mut [u8]) -> Report {
    // SAFETY: the slices live through the call, which reads and writes within their lengths.
    Report::of(|report| unsafe {
        farthingmoss_read(
            symbol.as_ptr(),
            symbol.len(),
            flags,
            depth,
            table.as_mut_ptr(),
            table.len(),
            text.as_mut_ptr(),
            text.len(),
            report,
        )
    })
}

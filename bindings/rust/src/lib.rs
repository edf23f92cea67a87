//! The text of symbols of the Microsoft C++ compiler, by the proved calls of libfarthingmoss.a, in
//! buffers that the caller lends.
//!
//! ```
//! let mut table = vec![0; 1024 * farthingmoss::node_cells()];
//! let mut text = [0; 4096];
//! let counts = farthingmoss::read(b"?x@@3HA", 0, farthingmoss::DEEPEST, &mut table, &mut text)?;
//! assert_eq!(&text[..counts.text], b"int x");
//!
//! let nodes = &table[..counts.nodes * farthingmoss::node_cells()];
//! assert_eq!(farthingmoss::name(b"?x@@3HA", nodes, 0)?, b"x");
//! # Ok::<(), farthingmoss::Error>(())
//! ```
//!
//! No call allocates, panics, or asks for anything to be checked first: any bytes, flags and buffers
//! get an answer or an [`Error`], also slices of length 0. A table holds whole nodes of
//! [`node_cells`] cells; a shorter tail is neither read nor written. Old contents of table and text
//! never matter to [`read`]: clear nothing. What stands behind the nodes and behind the text stays
//! as it was.
use std::fmt;

#[link(name = "farthingmoss", kind = "static")]
extern "C" {
    fn farthingmoss_node_cells() -> usize;
    fn farthingmoss_read(
        symbol: *const u8,
        symbol_length: usize,
        flags: u32,
        depth: u32,
        table: *mut u32,
        table_cells: usize,
        text: *mut u8,
        text_length: usize,
        report: *mut [u64; 5],
    );
    fn farthingmoss_write(
        symbol: *const u8,
        symbol_length: usize,
        flags: u32,
        depth: u32,
        table: *const u32,
        table_cells: usize,
        text: *mut u8,
        text_length: usize,
        report: *mut [u64; 5],
    );
    fn farthingmoss_name(
        symbol: *const u8,
        symbol_length: usize,
        table: *const u32,
        table_cells: usize,
        node: u64,
        report: *mut [u64; 5],
    );
}

/// The largest depth that may be lent.
pub const DEEPEST: u32 = 200;
/// The longest symbol, in bytes. One of n bytes takes at most 2 n - 1 nodes.
pub const LONGEST: usize = 4096;

/// The flags that are known, by the names of the crate msvc-demangler; 0 writes everything.
pub mod flags {
    /// No `__cdecl` and the like.
    pub const NO_MS_KEYWORDS: u32 = 0x2;
    /// No return types.
    pub const NO_FUNCTION_RETURNS: u32 = 0x4;
    /// With [`NO_CV_THISTYPE`]: nothing of the type of `this`.
    pub const NO_MS_THISTYPE: u32 = 0x20;
    /// With [`NO_MS_THISTYPE`]: nothing of the type of `this`.
    pub const NO_CV_THISTYPE: u32 = 0x40;
    /// No `public:` and the like.
    pub const NO_ACCESS_SPECIFIERS: u32 = 0x80;
    /// No `static` and `virtual`.
    pub const NO_MEMBER_TYPE: u32 = 0x200;
    /// `__int64` and the like.
    pub const MS_TYPENAMES: u32 = 0x400;
    /// Changes nothing.
    pub const DECODE_32_BIT: u32 = 0x800;
    /// The name in its scope alone.
    pub const NAME_ONLY: u32 = 0x1000;
    /// No `class`, `struct`, `union`, `enum`.
    pub const NO_CLASS_TYPE: u32 = 0x10_0000;
    /// A space after each comma.
    pub const SPACE_AFTER_COMMA: u32 = 0x20_0000;
    /// `*` and `&` stand at the type's name.
    pub const HUG_TYPE: u32 = 0x40_0000;
    /// A space before pointers.
    pub const SPACE_BEFORE_POINTER: u32 = 0x80_0000;
    /// `__ptr64`.
    pub const WITH_PTR64: u32 = 0x100_0000;
    /// Text like that of LLVM's demangler.
    pub const LLVM: u32 = MS_TYPENAMES | SPACE_AFTER_COMMA | HUG_TYPE | SPACE_BEFORE_POINTER;
    /// All of them: any other bit is refused.
    pub const KNOWN: u32 = 0x01F0_1EE6;
}

/// What an answer took: the least depth, nodes and text that would do for it.
#[derive(Clone, Copy, Debug, PartialEq, Eq, Hash)]
pub struct Counts {
    /// Bytes of the symbol that were consumed; 0 from [`write`].
    pub consumed: usize,
    pub depth: usize,
    pub nodes: usize,
    /// Bytes of the text.
    pub text: usize,
}

/// A refusal. Offsets are in bytes of the symbol, and 0 from [`write`].
#[derive(Clone, Copy, Debug, PartialEq, Eq, Hash)]
pub enum Error {
    /// 1: the symbol is empty or longer than [`LONGEST`]. Nothing is changed.
    NoSymbol,
    /// 2: the first byte of 128 or more stands here. Nothing is changed.
    NotAscii(usize),
    /// 3: not a symbol; its reading stopped here, in a bad number at the byte that does not belong. The nodes counted
    /// by then are zeros.
    NoDerivation(usize),
    /// 4: deeper than the depth lent. The nodes counted by then are zeros; nothing from [`write`].
    TooDeep(usize),
    /// 5: the next node does not fit into the table, whose nodes counted by then are zeros.
    NoNode(usize),
    /// 6: the text buffer is full with the beginning of the text, and the table as answered. The
    /// text's count is the buffer's length; what the whole text takes is not told.
    NoRoom(Counts),
    /// 7: a depth above [`DEEPEST`], or a bit that is not in [`flags::KNOWN`]. Nothing is changed.
    BadCall,
    /// 8: not a well-formed table of this symbol, or no plain name. Nothing is changed.
    BadTable,
}

impl Error {
    /// The refusal's number in include/farthingmoss.h.
    pub fn number(&self) -> u64 {
        match self {
            Error::NoSymbol => 1,
            Error::NotAscii(_) => 2,
            Error::NoDerivation(_) => 3,
            Error::TooDeep(_) => 4,
            Error::NoNode(_) => 5,
            Error::NoRoom(_) => 6,
            Error::BadCall => 7,
            Error::BadTable => 8,
        }
    }
}

impl fmt::Display for Error {
    fn fmt(&self, f: &mut fmt::Formatter<'_>) -> fmt::Result {
        match self {
            Error::NoSymbol => write!(f, "the symbol is empty or longer than 4,096 bytes"),
            Error::NotAscii(at) => write!(f, "byte {at} of the symbol is 128 or more"),
            Error::NoDerivation(at) => write!(f, "not a symbol, at byte {at}"),
            Error::TooDeep(at) => write!(f, "deeper than the depth lent, at byte {at}"),
            Error::NoNode(at) => write!(f, "more nodes than the table holds, at byte {at}"),
            Error::NoRoom(_) => write!(f, "the text is longer than its buffer"),
            Error::BadCall => write!(f, "a depth above 200, or an unknown flag bit"),
            Error::BadTable => write!(f, "not a table of this symbol, or no such name"),
        }
    }
}

impl std::error::Error for Error {}

/// The counts of an answered report. All of them are lengths within slices, so they fit.
fn outcome(report: [u64; 5]) -> Result<Counts, Error> {
    let [number, offset, depth, nodes, text] = report.map(|value| value as usize);
    let counts = Counts { consumed: offset, depth, nodes, text };
    Err(match number {
        0 => return Ok(counts),
        1 => Error::NoSymbol,
        2 => Error::NotAscii(offset),
        3 => Error::NoDerivation(offset),
        4 => Error::TooDeep(offset),
        5 => Error::NoNode(offset),
        6 => Error::NoRoom(counts),
        7 => Error::BadCall,
        _ => Error::BadTable,
    })
}

/// How many cells of a table a node takes: 12.
pub fn node_cells() -> usize {
    // SAFETY: the call takes nothing.
    unsafe { farthingmoss_node_cells() }
}

/// Reads the symbol into the table and writes its text. The symbol may go on behind the bytes that
/// are consumed; a caller who minds compares [`Counts::consumed`] with its length.
pub fn read(
    symbol: &[u8],
    flags: u32,
    depth: u32,
    table: &mut [u32],
    text: &mut [u8],
) -> Result<Counts, Error> {
    let mut report = [0; 5];
    // SAFETY: the slices are apart and live through the call, which reads and writes within their
    // lengths; their pointers are not null, even where they are empty.
    unsafe {
        farthingmoss_read(
            symbol.as_ptr(),
            symbol.len(),
            flags,
            depth,
            table.as_mut_ptr(),
            table.len(),
            text.as_mut_ptr(),
            text.len(),
            &mut report,
        );
    }
    outcome(report)
}

/// Writes the text of the nodes that a reading of this symbol left, under any flags. The slice has
/// exactly these nodes: the last is the root. Any other slice is [`Error::BadTable`], unless it is a
/// well-formed table.
pub fn write(
    symbol: &[u8],
    flags: u32,
    depth: u32,
    nodes: &[u32],
    text: &mut [u8],
) -> Result<Counts, Error> {
    let mut report = [0; 5];
    // SAFETY: as in `read`; the call does not write to the nodes.
    unsafe {
        farthingmoss_write(
            symbol.as_ptr(),
            symbol.len(),
            flags,
            depth,
            nodes.as_ptr(),
            nodes.len(),
            text.as_mut_ptr(),
            text.len(),
            &mut report,
        );
    }
    outcome(report)
}

/// The plain name of a node, counted from 0, as that part of the symbol. The nodes are those that a
/// reading of this symbol left.
pub fn name<'a>(symbol: &'a [u8], nodes: &[u32], node: u64) -> Result<&'a [u8], Error> {
    let mut report = [0; 5];
    // SAFETY: as in `read`; the call writes to the report alone.
    unsafe {
        farthingmoss_name(
            symbol.as_ptr(),
            symbol.len(),
            nodes.as_ptr(),
            nodes.len(),
            node,
            &mut report,
        );
    }
    outcome(report)?;
    let [.., start, length] = report.map(|value| value as usize);
    Ok(&symbol[start..start + length])
}

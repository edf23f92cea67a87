//! The text of any table, by the crate's mended copy.
use mended as demangler;

#[path = "grown.rs"]
mod grown;
pub use grown::{text, Operators};

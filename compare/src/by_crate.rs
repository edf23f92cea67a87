//! The text of any table, by the crate itself.
use unchecked as demangler;

#[path = "grown.rs"]
mod grown;
pub use grown::{text, Operators};

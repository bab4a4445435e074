//! The proved archives beside the Rust: the exports, the words fed to both sides, and the parts of
//! the comparison, each a file below parts/.

pub mod arguments;
pub mod calls;
pub mod child;
pub mod cursor;
pub mod desk;
pub mod ffi;
pub mod folded;
pub mod lent;
pub mod list;
#[cfg(feature = "oracle")]
pub mod listed;
pub mod output;
pub mod parts;
pub mod places;
pub mod progress;
pub mod report;
pub mod rule;
pub mod share;
pub mod steps;
pub mod tails;
pub mod told;
pub mod tray;
pub mod words;

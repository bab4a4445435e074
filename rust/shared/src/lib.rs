//! What the tools have in common: the frame of a command line, where files are looked for, and the
//! words that document 01 names.

pub mod command;
pub mod named;
pub mod places;

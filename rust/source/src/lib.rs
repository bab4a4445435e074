//! Source.antt beside turkish.rs, the Rust that Snowball's compiler made of turkish.sbl: each of its
//! groupings, tables and routines is written as that compiler writes it, and held to the Rust.

mod command;
mod definition;
pub mod held;
pub mod kinds;
pub mod precedence;
mod reached;
mod routine;
mod tokens;
mod writer;
mod written;

#[cfg(test)]
mod edits;

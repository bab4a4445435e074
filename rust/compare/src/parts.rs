//! The parts of the comparison. A part takes the words, counts in the report, and stops at the first
//! difference.

mod batch;
mod characters;
mod check;
mod fold;
#[cfg(feature = "oracle")]
mod harmony;
mod limits;
#[cfg(feature = "oracle")]
mod literals;
#[cfg(feature = "oracle")]
mod nouns;
#[cfg(feature = "oracle")]
mod pieces;
#[cfg(feature = "oracle")]
mod program;
mod refused;
mod runs;
mod sequences;
#[cfg(feature = "libstemmer")]
mod snowball;
#[cfg(feature = "oracle")]
mod stages;

use crate::report::{Difference, Report};
use crate::words::Words;
use std::path::Path;

pub struct Part {
    pub name: &'static str,
    /// What is compared with what, for `--help`.
    pub what: &'static str,
    pub run: Run,
}

pub enum Run {
    /// On the archives.
    Words(fn(&Words, &mut Report) -> Result<(), Difference>),
    /// On the program stemlist.
    Program(fn(&Words, &Path, &mut Report) -> Result<(), Difference>),
}

pub const PARTS: &[Part] = &[
    Part {
        name: "sequences",
        what: "the UTF-8 check on every short sequence and on edges at every place, with str::from_utf8",
        run: Run::Words(sequences::run),
    },
    Part {
        name: "check",
        what: "the UTF-8 check on words, random bytes and damaged words, with str::from_utf8",
        run: Run::Words(check::run),
    },
    Part {
        name: "runs",
        what: "where plain runs end, with slice::chunks_exact and is_ascii",
        run: Run::Words(runs::run),
    },
    Part {
        name: "characters",
        what: "previous_char and next_char, with str::char_indices",
        run: Run::Words(characters::run),
    },
    Part {
        name: "limits",
        what: "eq_s and eq_s_b between inner limits, with str::starts_with and ends_with",
        run: Run::Words(limits::run),
    },
    #[cfg(feature = "oracle")]
    Part {
        name: "literals",
        what: "eq_s and eq_s_b over the whole word, with the crate's own",
        run: Run::Words(literals::run),
    },
    #[cfg(feature = "oracle")]
    Part {
        name: "syllable",
        what: "the syllable check, with the crate's own",
        run: Run::Words(stages::syllable),
    },
    #[cfg(feature = "oracle")]
    Part {
        name: "stage",
        what: "the suffix stage's text, yes or no and flag, with the crate's own",
        run: Run::Words(stages::stage),
    },
    #[cfg(feature = "oracle")]
    Part {
        name: "part",
        what: "the part that the suffix stage hands back, with the crate's text",
        run: Run::Words(stages::part),
    },
    #[cfg(feature = "oracle")]
    Part {
        name: "postlude",
        what: "the postlude's text and yes or no, with the crate's own",
        run: Run::Words(stages::postlude),
    },
    #[cfg(feature = "oracle")]
    Part {
        name: "pass",
        what: "the word pass, with the crate's stages one after the other",
        run: Run::Words(stages::pass),
    },
    #[cfg(feature = "oracle")]
    Part {
        name: "noun",
        what: "the noun stage's text and yes or no, with the crate's own",
        run: Run::Words(nouns::noun),
    },
    #[cfg(feature = "oracle")]
    Part {
        name: "whole",
        what: "the whole run's text, with the crate's own",
        run: Run::Words(nouns::whole),
    },
    #[cfg(feature = "libstemmer")]
    Part {
        name: "snowball",
        what: "the binding's stem, with Snowball's own C, and of the vocabulary with its published stems",
        run: Run::Words(snowball::run),
    },
    #[cfg(feature = "oracle")]
    Part {
        name: "marks",
        what: "the oracle's pieces of a word, by the crate's marks, with the word and the crate's stage",
        run: Run::Words(pieces::marks),
    },
    #[cfg(feature = "oracle")]
    Part {
        name: "pieces",
        what: "the pieces' kinds and offsets in any order, with the crate's marks one by one",
        run: Run::Words(pieces::buffer),
    },
    #[cfg(feature = "oracle")]
    Part {
        name: "pieces_text",
        what: "the pieces' lines in any order, with the crate's marks and how they joined",
        run: Run::Words(pieces::text),
    },
    #[cfg(feature = "oracle")]
    Part {
        name: "list",
        what: "the list of pieces for Rattle callers in any order, with the crate's marks and how they joined",
        run: Run::Words(pieces::list),
    },
    #[cfg(feature = "oracle")]
    Part {
        name: "binding",
        what: "the binding's pieces and its own joinings, told by the first letter, with the crate's marks",
        run: Run::Words(pieces::binding),
    },
    #[cfg(feature = "oracle")]
    Part {
        name: "harmony",
        what: "the suffix stage's vowels in harmony and loan candidate, with the crate's marks and groupings",
        run: Run::Words(harmony::run),
    },
    Part {
        name: "batch",
        what: "the stage of many tails behind one front, with the crate's on each joined word, or, without the crate, with the stage's own call; its refusals, with the rule",
        run: Run::Words(batch::run),
    },
    Part {
        name: "fold",
        what: "the fold's text and refusals, with its rule character by character",
        run: Run::Words(fold::run),
    },
    Part {
        name: "refused",
        what: "every call's refusals, with the rule: short outputs, long words, no text",
        run: Run::Words(refused::run),
    },
    #[cfg(feature = "oracle")]
    Part {
        name: "program",
        what: "the program stemlist's output, with the listing by the crate's stages",
        run: Run::Program(program::run),
    },
];

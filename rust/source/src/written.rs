//! What Snowball's compiler writes in Rust for a grouping and for a table of keys; routine.rs has what
//! it writes for a routine.

use crate::definition::{Declared, Grouping, Key};
use crate::reached::Results;

/// A line of Rust, and the line of Source.antt that it comes from.
pub struct Line {
    pub text: String,
    pub line: usize,
}

impl Line {
    pub fn is_comment(&self) -> bool {
        self.text.trim_start().starts_with("//")
    }
}

/// The text of one declaration.
pub struct Piece {
    pub name: String,
    /// What only its first line begins with.
    pub head: String,
    pub lines: Vec<Line>,
    /// How many letters, keys or commands it has.
    pub count: usize,
}

/// A bit for each code point from the least to the greatest.
pub fn grouping(declared: &Declared<Grouping>) -> Piece {
    let letters = &declared.value.letters;
    let (least, greatest) = declared.value.range();
    let mut bits = vec![0u8; (greatest - least) as usize / 8 + 1];
    for letter in letters.chars() {
        let place = u32::from(letter) - least;
        bits[place as usize / 8] |= 1 << (place % 8);
    }
    let head = format!("static G_{}:", declared.name);
    let line = Line {
        text: format!("{head} &'static [u8; {}] = &{bits:?};", bits.len()),
        line: declared.line,
    };
    Piece {
        name: declared.name.clone(),
        head,
        lines: vec![line],
        count: letters.chars().count(),
    }
}

/// The keys with their results; none ends in another, and none has a function.
pub fn table(declared: &Declared<Vec<Key>>, results: Results) -> Piece {
    let keys = &declared.value;
    let head = format!("static {}:", table_name(&declared.name));
    let mut lines = vec![Line {
        text: format!("{head} &'static [Among<Context>; {}] = &[", keys.len()),
        line: declared.line,
    }];
    for (number, key) in (1..).zip(keys) {
        let result = match results {
            Results::Unused => -1,
            Results::Numbers => number,
        };
        lines.push(Line {
            text: format!("    Among({}, -1, {result}, None),", quoted(&key.text)),
            line: key.line,
        });
    }
    lines.push(Line {
        text: "];".to_string(),
        line: declared.line,
    });
    Piece {
        name: declared.name.clone(),
        head,
        lines,
        count: keys.len(),
    }
}

/// A table's name as the Rust has it; groupings and routines have theirs in both.
pub fn table_name(name: &str) -> String {
    name.replace('-', "_")
}

/// A text as the Rust has it, with escapes for what is not ASCII.
pub fn quoted(text: &str) -> String {
    let mut quoted = String::from("\"");
    for letter in text.chars() {
        if letter.is_ascii() {
            quoted.push(letter);
        } else {
            quoted.push_str(&format!("\\u{{{:04X}}}", u32::from(letter)));
        }
    }
    quoted.push('"');
    quoted
}

//! What was written for Source.antt, held to turkish.rs line by line.

use crate::written::{Line, Piece};

/// Lines of turkish.rs up to an empty one: a routine, a table or a grouping.
pub struct Paragraph<'a> {
    first: usize,
    lines: Vec<&'a str>,
}

pub fn paragraphs(text: &str) -> Vec<Paragraph<'_>> {
    let lines: Vec<&str> = text.lines().collect();
    let mut first = 1;
    let paragraphs = lines.split(|line| line.is_empty()).map(|lines| {
        let paragraph = Paragraph {
            first,
            lines: lines.to_vec(),
        };
        first += lines.len() + 1;
        paragraph
    });
    paragraphs.collect()
}

/// Every piece is in turkish.rs, as it was written and in the same order; the error is a message
/// about the first that is not.
pub fn hold(pieces: &[Piece], rust: &[Paragraph]) -> Result<(), String> {
    let mut before: Option<(&Piece, usize)> = None;
    for piece in pieces {
        let begins = |paragraph: &&Paragraph| {
            let first = paragraph.lines.first();
            first.is_some_and(|line| line.starts_with(&piece.head))
        };
        let found = rust.iter().find(begins);
        let found = found.ok_or(format!("  turkish.rs has no `{}`", piece.head))?;
        same(piece, found)?;
        match before {
            Some((other, place)) if place >= found.first => {
                let (name, other) = (&piece.name, &other.name);
                return Err(format!("  turkish.rs does not have {name} after {other}"));
            }
            _ => before = Some((piece, found.first)),
        }
    }
    Ok(())
}

// Line for line; the message has the first line of both that differs.
fn same(piece: &Piece, rust: &Paragraph) -> Result<(), String> {
    let pairs = piece.lines.iter().zip(&rust.lines);
    let alike = pairs.take_while(|(one, other)| one.text == **other).count();
    let ours = piece.lines.get(alike);
    let theirs = rust.lines.get(alike);
    if ours.is_none() && theirs.is_none() {
        return Ok(());
    }
    let ours = match ours {
        Some(Line { text, line }) => format!("line {line}: {text}"),
        None => "nothing more".to_string(),
    };
    let theirs = match theirs {
        Some(text) => format!("line {}: {text}", rust.first + alike),
        None => "nothing more".to_string(),
    };
    let name = &piece.name;
    Err(format!(
        "  in           {name}\n  Source.antt  {ours}\n  turkish.rs   {theirs}"
    ))
}

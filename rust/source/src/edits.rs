//! Edits that must be noticed, each kind at every place where there is one. What is written for
//! Source.antt as it stands takes the place of turkish.rs, which need not be at hand.

use crate::held::paragraphs;
use crate::kinds::{kinds, Kind};
use shared::places;
use std::fs;

// Words of one form: where one stands, another may.
const FORMS: [&[&str]; 7] = [
    &["then", "or"],
    &["test", "not", "try", "«do»", "goto", "gopast", "backwards"],
    &[
        "⟦",
        "⟧",
        "delete",
        "set",
        "unset",
        "is_set",
        "succeed",
        "next",
        "itself",
        "strlen==limit",
    ],
    &["grouping", "outside"],
    &["among", "substring"],
    &["<-", "<+"],
    &["1", "2", "3", "4", "5"],
];

// As many others are tried for a word, those that follow it in its list: with every other one, for the
// whole of turkish.sbl, the tests would take minutes.
const OTHERS: usize = 9;

struct Sides {
    source: String,
    rust: String,
}

impl Sides {
    fn new() -> Sides {
        let source = fs::read_to_string(places::transcription()).expect("Source.antt is there");
        let kinds = kinds(&source).expect("Source.antt can be read");
        let pieces = kinds.iter().flat_map(|kind| &kind.pieces);
        let paragraphs = pieces.map(|piece| {
            let lines = piece.lines.iter().map(|line| line.text.as_str());
            lines.collect::<Vec<_>>().join("\n")
        });
        let rust = paragraphs.collect::<Vec<_>>().join("\n\n");
        let sides = Sides { source, rust };
        assert_eq!(sides.report(&sides.source), Ok(()));
        sides
    }

    fn report(&self, source: &str) -> Result<(), String> {
        held(&kinds(source)?, &self.rust)
    }

    // Every edited text is noticed, and there are some.
    fn noticed(&self, edited: Vec<String>) {
        assert!(!edited.is_empty());
        for edited in edited {
            let changed = edited.lines().find(|line| !self.source.contains(line));
            assert!(self.report(&edited).is_err(), "unnoticed: {changed:?}");
        }
    }

    // The same for edits of the lines.
    fn lines_noticed(&self, edited: impl Fn(&[&str], usize) -> Option<Vec<String>>) {
        let lines: Vec<&str> = self.source.lines().collect();
        let edits = (0..lines.len()).filter(|&at| is_code(lines[at]));
        let edits = edits.filter_map(|at| edited(&lines, at));
        self.noticed(edits.map(|lines| lines.join("\n")).collect());
    }

    // The same for putting some of these words in the place of another.
    fn words_noticed(&self, words: &[&str]) {
        let mut edited = Vec::new();
        for (number, word) in words.iter().enumerate() {
            let others = words.iter().cycle().skip(number + 1);
            let others = others.take(OTHERS.min(words.len() - 1));
            for at in self.standing(word) {
                let others = others.clone();
                edited.extend(others.map(|other| self.with(at, word.len(), other)));
            }
        }
        self.noticed(edited);
    }

    // Where a word stands by itself in a routine.
    fn standing(&self, word: &str) -> Vec<usize> {
        let found = self.source.match_indices(word).map(|(at, _)| at);
        let ends = |ch: Option<char>| ch.is_none_or(|ch| ch.is_whitespace() || "()".contains(ch));
        let alone = |at: &usize| {
            let (before, rest) = self.source.split_at(*at);
            self.line_to(*at).starts_with(' ')
                && self.is_code(*at)
                && ends(before.chars().next_back())
                && ends(rest[word.len()..].chars().next())
        };
        found.filter(alone).collect()
    }

    // Where each routine's `define` stands with its name, and both as a text.
    fn defines(&self) -> Vec<(usize, &str)> {
        let found = self.source.match_indices("define \"");
        let named = found.map(|(at, define)| {
            let name = self.source[at + define.len()..].find('"');
            let length = define.len() + name.expect("a name's end") + 1;
            (at, &self.source[at..at + length])
        });
        named.collect()
    }

    // A place's line up to it, which has no comment if the place is code.
    fn line_to(&self, at: usize) -> &str {
        self.source[..at].rsplit('\n').next().unwrap_or_default()
    }

    fn is_code(&self, at: usize) -> bool {
        !self.line_to(at).contains("--")
    }

    // The source with something else in the place of so many bytes.
    fn with(&self, at: usize, length: usize, other: &str) -> String {
        [&self.source[..at], other, &self.source[at + length..]].concat()
    }
}

fn held(kinds: &[Kind], rust: &str) -> Result<(), String> {
    let rust = paragraphs(rust);
    kinds.iter().try_for_each(|kind| kind.held(&rust).map(drop))
}

fn comments(source: &str) -> Vec<String> {
    let kinds = kinds(source).expect("the source can be read");
    let pieces = kinds.iter().flat_map(|kind| &kind.pieces);
    let lines = pieces.flat_map(|piece| &piece.lines);
    let comments = lines.filter(|line| line.is_comment());
    comments.map(|line| line.text.trim().to_string()).collect()
}

fn is_code(line: &str) -> bool {
    !line.is_empty() && !line.starts_with("--") && !line.starts_with("use ")
}

fn owned(lines: &[&str]) -> Vec<String> {
    lines.iter().map(|line| line.to_string()).collect()
}

#[test]
fn a_line_dropped() {
    Sides::new().lines_noticed(|lines, at| {
        let mut lines = owned(lines);
        lines.remove(at);
        Some(lines)
    });
}

#[test]
fn a_line_twice() {
    Sides::new().lines_noticed(|lines, at| {
        let mut lines = owned(lines);
        lines.insert(at, lines[at].clone());
        Some(lines)
    });
}

#[test]
fn two_lines_swapped() {
    let only_closes = |line: &str| line.chars().all(|ch| ch == ' ' || ch == ')');
    Sides::new().lines_noticed(|lines, at| {
        let next = (at + 1..lines.len()).find(|&next| is_code(lines[next]))?;
        if only_closes(lines[at]) && only_closes(lines[next]) {
            return None;
        }
        let mut lines = owned(lines);
        lines.swap(at, next);
        Some(lines)
    });
}

#[test]
fn a_line_number_changed_or_dropped() {
    let sides = Sides::new();
    sides.lines_noticed(|lines, at| {
        let (code, number) = lines[at].split_once("-- ")?;
        let number: usize = number.parse().expect("a number");
        let mut lines = owned(lines);
        lines[at] = format!("{code}-- {}", number + 1);
        Some(lines)
    });
    sides.lines_noticed(|lines, at| {
        let (code, _) = lines[at].split_once("-- ")?;
        let mut lines = owned(lines);
        lines[at] = code.to_string();
        Some(lines)
    });
}

#[test]
fn a_line_number_added() {
    Sides::new().lines_noticed(|lines, at| {
        let mut lines = owned(lines);
        if lines[at].contains("--") {
            return None;
        }
        lines[at] += " -- 1";
        Some(lines)
    });
}

#[test]
fn a_text_changed() {
    let sides = Sides::new();
    let quotes = sides.source.match_indices('"').skip(1).step_by(2);
    let edited = quotes.map(|(at, _)| sides.with(at, 0, "x")).collect();
    sides.noticed(edited);
}

#[test]
fn a_key_dropped() {
    let sides = Sides::new();
    let mut edited = Vec::new();
    for (end, _) in sides.source.match_indices("\" ∷ ") {
        let start = sides.source[..end].rfind('"').expect("a key's start");
        edited.push(sides.with(start, end + "\" ∷ ".len() - start, ""));
    }
    assert!(edited.len() > 12);
    sides.noticed(edited);
}

#[test]
fn a_parenthesis_dropped() {
    let sides = Sides::new();
    let mut edited = Vec::new();
    for (start, _) in sides.source.match_indices('(') {
        if !sides.is_code(start) {
            continue;
        }
        let mut depth = 0;
        let length = sides.source[start..].find(|ch| {
            depth += i32::from(ch == '(') - i32::from(ch == ')');
            depth == 0
        });
        let end = start + length.expect("the other one");
        let inside = &sides.source[start + 1..end];
        // A literal or a grouping needs them here.
        if let ["literal" | "grouping" | "outside", _] = inside.split(' ').collect::<Vec<_>>()[..] {
            continue;
        }
        let (before, after) = (&sides.source[..start], &sides.source[end + 1..]);
        edited.push([before, inside, after].concat());
    }
    sides.noticed(edited);
}

#[test]
fn a_word_for_another() {
    let sides = Sides::new();
    for words in FORMS {
        sides.words_noticed(words);
    }
}

#[test]
fn a_name_for_another() {
    let sides = Sides::new();
    let kinds = kinds(&sides.source).expect("Source.antt can be read");
    for kind in &kinds {
        let names = kind.pieces.iter().map(|piece| piece.name.as_str());
        sides.words_noticed(&names.collect::<Vec<_>>());
    }
}

#[test]
fn a_define_by_another_name() {
    let sides = Sides::new();
    let mut edited = Vec::new();
    for (at, define) in sides.defines() {
        let others = sides.defines().into_iter().map(|(_, other)| other);
        let others = others.chain(["define \"\"", "define \"x\""]);
        let others = others.filter(|&other| other != define);
        edited.extend(others.map(|other| sides.with(at, define.len(), other)));
    }
    sides.noticed(edited);
}

#[test]
fn two_defines_exchanged() {
    let sides = Sides::new();
    let mut edited = Vec::new();
    for (first, one) in sides.defines() {
        for (second, other) in sides.defines().into_iter().filter(|(at, _)| *at > first) {
            let before = &sides.source[..first];
            let between = &sides.source[first + one.len()..second];
            let after = &sides.source[second + other.len()..];
            edited.push([before, other, between, one, after].concat());
        }
    }
    sides.noticed(edited);
}

#[test]
fn a_define_left_out() {
    let sides = Sides::new();
    let defines = sides.defines().into_iter();
    let edited = defines.map(|(at, define)| sides.with(at, define.len(), ""));
    sides.noticed(edited.collect());
}

// Before any parenthesis, that of the whole routine too: its own `define`, and the first one.
#[test]
fn a_define_inside() {
    let sides = Sides::new();
    let defines = sides.defines();
    let mut edited = Vec::new();
    for (at, _) in sides.source.match_indices('(') {
        if sides.is_code(at) {
            let own = defines.iter().rfind(|(define, _)| *define < at);
            let two = own.into_iter().chain(defines.first());
            edited.extend(two.map(|(_, define)| sides.with(at, 0, &format!("{define} "))));
        }
    }
    sides.noticed(edited);
}

// The Rust's comments are the same ones in the same order.
#[test]
fn an_edit_that_leaves_the_comments() {
    let sides = Sides::new();
    let edited = [
        ("(next then grouping vowel)", "(next) then grouping vowel"),
        ("mark_ysA or mark_yken)", "mark_ysA then mark_yken)"),
        ("or mark_ysA or mark_ymUs_)", "or mark_ysA then mark_ymUs_)"),
        ("or mark_yUz or succeed)", "or mark_yUz)"),
        ("try (⟦ then mark_ymUs_)", "try (⟦) then mark_ymUs_"),
        (
            "(grouping U then (test (outside vowel)))",
            "(outside U then (test (grouping vowel)))",
        ),
        ("try (⟦ then mark_lAr))", "try (⟦) then mark_lAr)"),
        ("or mark_yU or mark_yA then", "or mark_yU then mark_yA then"),
    ];
    for (from, to) in edited {
        let edited = sides.source.replacen(from, to, 1);
        assert_eq!(comments(&edited), comments(&sides.source));
        sides.noticed(vec![edited]);
    }
}

#[test]
fn an_edit_of_the_rust() {
    let sides = Sides::new();
    let kinds = kinds(&sides.source).expect("Source.antt can be read");
    let lines: Vec<&str> = sides.rust.lines().collect();
    for at in (0..lines.len()).filter(|&at| !lines[at].is_empty()) {
        let mut dropped = lines.clone();
        dropped.remove(at);
        let mut twice = lines.clone();
        twice.insert(at, lines[at]);
        let longer = format!("{}x", lines[at]);
        let mut changed = lines.clone();
        changed[at] = &longer;
        for edited in [dropped, twice, changed] {
            assert!(held(&kinds, &edited.join("\n")).is_err(), "{}", lines[at]);
        }
    }
}

#[test]
fn a_command_under_another_name() {
    let sides = Sides::new();
    let renamed = |old: &str, new: &str| sides.source.replacen(old, new, 1);
    sides.noticed(vec![
        renamed("goto, gopast,", "goto as gopast, gopast as goto,"),
        renamed("specs.Snowball.{", "specs.Simple.Grammar.{"),
    ]);
}

// The text of the commands is the same: only where a name comes from is another.
#[test]
fn a_name_of_another_module() {
    let sides = Sides::new();
    let renamed = |old: &str, new: &str| sides.source.replacen(old, new, 1);
    sides.noticed(vec![
        renamed("Prelude.{List, ", "Prelude.{List, test, "),
        renamed("Prelude.{List, ", "Bool.{List, "),
        renamed("specs.Prelude.{List, ", "specs.{Prelude.{test}, List, "),
        renamed("Prelude.{List, [], ◌∷◌}", "Prelude"),
        renamed("String.{String}", "String.{String, next}"),
        renamed("String.{String}", "String.{String} next"),
    ]);
}

//! How Snowball's compiler writes Rust: blocks, the cursor kept and put back, and what a command does
//! that fails. Labels, and variables for the cursor, are numbered as they come.

use crate::definition::{Declared, Grouping};
use crate::reached::Direction;
use crate::tokens::Place;
use crate::written::Line;
use std::mem::replace;

pub struct Writer<'a> {
    pub groupings: &'a [Declared<Grouping>],
    pub lines: Vec<Line>,
    /// Where the command stands that is being written.
    pub place: Place,
    pub direction: Direction,
    failure: Failure,
    depth: usize,
    labels: usize,
    variables: usize,
}

/// What a command does that fails: puts the cursor back where that is wanted, and leaves.
#[derive(Clone)]
pub struct Failure {
    restore: Option<String>,
    leave: String,
}

impl Writer<'_> {
    pub fn new(groupings: &[Declared<Grouping>], place: Place, direction: Direction) -> Writer<'_> {
        Writer {
            groupings,
            lines: Vec::new(),
            place,
            direction,
            failure: Failure {
                restore: None,
                leave: "return false;".to_string(),
            },
            depth: 0,
            labels: 0,
            variables: 0,
        }
    }

    pub fn line(&mut self, text: &str) {
        self.lines.push(Line {
            text: format!("{:1$}{text}", "", 4 * self.depth),
            line: self.place.line,
        });
    }

    /// The comment of a command; turkish.rs has none without a number.
    pub fn comment(&mut self, name: &str) {
        let number = self.place.number;
        let number = number.map_or("?".to_string(), |number| number.to_string());
        self.line(&format!("// {name}, line {number}"));
    }

    pub fn block(&mut self, head: &str, inside: impl FnOnce(&mut Self)) {
        self.line(head);
        self.inside(inside);
        self.line("}");
    }

    pub fn inside(&mut self, inside: impl FnOnce(&mut Self)) {
        self.depth += 1;
        inside(self);
        self.depth -= 1;
    }

    /// A block with a label of its own, which a failure in it leaves.
    pub fn attempt(
        &mut self,
        looped: &str,
        restore: Option<String>,
        inside: impl FnOnce(&mut Self),
    ) {
        let label = self.label();
        let failure = Failure {
            restore,
            leave: format!("break 'lab{label};"),
        };
        let outer = replace(&mut self.failure, failure);
        self.block(&format!("'lab{label}: {looped} {{"), inside);
        self.failure = outer;
    }

    /// The same, left in any case.
    pub fn once(&mut self, restore: Option<String>, inside: impl FnOnce(&mut Self)) {
        self.attempt("loop", restore, |writer| {
            inside(writer);
            let leave = writer.failure.leave.clone();
            writer.line(&leave);
        });
    }

    pub fn failure(&self) -> Failure {
        self.failure.clone()
    }

    pub fn fail(&mut self, failure: Failure) {
        if let Some(restore) = failure.restore {
            self.line(&restore);
        }
        self.line(&failure.leave);
    }

    pub fn fail_if(&mut self, head: &str) {
        self.block(head, |writer| writer.fail(writer.failure()));
    }

    /// Keeps the cursor in a variable, and gives the line that puts it back.
    pub fn save(&mut self) -> String {
        let name = self.variable();
        let from = match self.direction {
            Direction::Forward => "",
            Direction::Backward => "env.limit - ",
        };
        self.line(&format!("let {name} = {from}env.cursor;"));
        format!("env.cursor = {from}{name};")
    }

    /// One character on; a failure at the limit.
    pub fn step(&mut self) {
        let (at_limit, step) = match self.direction {
            Direction::Forward => (">= env.limit", "next_char"),
            Direction::Backward => ("<= env.limit_backward", "previous_char"),
        };
        self.fail_if(&format!("if env.cursor {at_limit} {{"));
        self.line(&format!("env.{step}();"));
    }

    /// A call of the environment's method for the direction.
    pub fn call(&self, method: &str, arguments: &str) -> String {
        let end = match self.direction {
            Direction::Forward => "",
            Direction::Backward => "_b",
        };
        format!("env.{method}{end}({arguments})")
    }

    pub fn variable(&mut self) -> String {
        self.variables += 1;
        format!("v_{}", self.variables)
    }

    pub fn label(&mut self) -> usize {
        self.labels += 1;
        self.labels - 1
    }
}

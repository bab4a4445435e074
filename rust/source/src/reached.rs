//! What the stages and the whole run reach from where they are entered, and which way each routine
//! reads.

use crate::command::{Command, Node};
use crate::definition::{Declared, Definition};
use crate::tokens::wrong;
use std::collections::{BTreeMap, BTreeSet};

#[derive(Clone, Copy, PartialEq)]
pub enum Direction {
    Forward,
    Backward,
}

/// The results of a table's keys: their numbers where `substring` keeps them.
#[derive(Clone, Copy)]
pub enum Results {
    Unused,
    Numbers,
}

/// The routine that turkish.sbl offers to others: the whole run.
pub const EXTERNAL: &str = "stem";

// The stages and the whole run as Answers.antt enters them.
const STAGES: [(&str, Direction); 5] = [
    ("stem_nominal_verb_suffixes", Direction::Backward),
    ("stem_noun_suffixes", Direction::Backward),
    ("more_than_one_syllable_word", Direction::Forward),
    ("postlude", Direction::Forward),
    (EXTERNAL, Direction::Forward),
];

pub struct Reached<'a> {
    definition: &'a Definition,
    pub routines: BTreeMap<&'a str, Direction>,
    pub tables: BTreeMap<&'a str, Results>,
    groupings: BTreeSet<&'a str>,
}

impl<'a> Reached<'a> {
    /// The error is a message about what is declared and not reached, reached and not declared, or
    /// read both ways.
    pub fn new(definition: &'a Definition) -> Result<Reached<'a>, String> {
        let mut reached = Reached {
            definition,
            routines: BTreeMap::new(),
            tables: BTreeMap::new(),
            groupings: BTreeSet::new(),
        };
        for (stage, direction) in STAGES {
            reached.call(stage, direction)?;
        }
        let Reached {
            routines,
            tables,
            groupings,
            ..
        } = &reached;
        all_reached(&definition.routines, |name| routines.contains_key(name))?;
        all_reached(&definition.tables, |name| tables.contains_key(name))?;
        all_reached(&definition.groupings, |name| groupings.contains(name))?;
        Ok(reached)
    }

    fn call(&mut self, name: &str, direction: Direction) -> Result<(), String> {
        let routine = find(&self.definition.routines, name)?;
        match self.routines.insert(&routine.name, direction) {
            None => self.visit(&routine.value.body, direction),
            Some(before) if before == direction => Ok(()),
            Some(_) => Err(wrong(routine.line, "a routine that is read both ways")),
        }
    }

    fn visit(&mut self, node: &'a Node, direction: Direction) -> Result<(), String> {
        let definition = self.definition;
        let mut inside = direction;
        match &node.command {
            Command::Backwards(_) => inside = Direction::Backward,
            Command::Call(name) => self.call(name, direction)?,
            Command::Grouping(name) | Command::Outside(name) => {
                let grouping = find(&definition.groupings, name)?;
                self.groupings.insert(&grouping.name);
            }
            Command::Among(name) => {
                let table = find(&definition.tables, name)?;
                self.tables.insert(&table.name, Results::Unused);
            }
            Command::Substring(name) => {
                let table = find(&definition.tables, name)?;
                self.tables.insert(&table.name, Results::Numbers);
            }
            _ => {}
        }
        node.inside()
            .iter()
            .try_for_each(|node| self.visit(node, inside))
    }
}

/// What is declared under a name.
pub fn find<'a, T>(declared: &'a [Declared<T>], name: &str) -> Result<&'a Declared<T>, String> {
    let found = declared.iter().find(|declared| declared.name == name);
    found.ok_or(format!("Source.antt declares no {name}"))
}

fn all_reached<T>(declared: &[Declared<T>], reached: impl Fn(&str) -> bool) -> Result<(), String> {
    match declared.iter().find(|declared| !reached(&declared.name)) {
        Some(declared) => Err(wrong(declared.line, "no stage comes to this")),
        None => Ok(()),
    }
}

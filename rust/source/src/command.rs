//! The commands of a routine as a tree, and how they are read: `or` binds tighter than `then`, and a
//! word with an argument tighter than both.

use crate::tokens::{Place, Symbol, Token};

pub struct Node {
    pub command: Command,
    pub place: Place,
}

pub enum Command {
    Then(Vec<Node>),
    /// A whole chain, at its first `or`.
    Or(Vec<Node>),
    Parenthesis(Box<Node>),
    Test(Box<Node>),
    Not(Box<Node>),
    Try(Box<Node>),
    Do(Box<Node>),
    Goto(Box<Node>),
    Gopast(Box<Node>),
    Atleast(usize, Box<Node>),
    Backwards(Box<Node>),
    Case(usize, Box<Node>),
    Literal(String),
    Grouping(String),
    /// A character that is not of the grouping.
    Outside(String),
    Among(String),
    Substring(String),
    Replace(String),
    Insert(String),
    Strlen(usize),
    StrlenIsLimit,
    SliceStart,
    SliceEnd,
    Delete,
    Set,
    Unset,
    IsSet,
    Succeed,
    Next,
    /// By the routine's name, where it calls itself too.
    Call(String),
}

impl Node {
    /// The commands directly inside.
    pub fn inside(&self) -> &[Node] {
        use Command::*;
        match &self.command {
            Then(nodes) | Or(nodes) => nodes,
            Parenthesis(node)
            | Test(node)
            | Not(node)
            | Try(node)
            | Do(node)
            | Goto(node)
            | Gopast(node)
            | Atleast(_, node)
            | Backwards(node)
            | Case(_, node) => std::slice::from_ref(node),
            _ => &[],
        }
    }

    fn is_text(&self) -> bool {
        use Command::*;
        matches!(self.command, Literal(_) | Grouping(_) | Outside(_))
    }

    fn calls(&self, name: &str) -> bool {
        let called = matches!(&self.command, Command::Call(called) if called == name);
        called || self.inside().iter().any(|node| node.calls(name))
    }
}

/// Reads all of the tokens as what `define` has after a routine's name: a parenthesis, or a word without
/// an argument; that of a routine which calls itself stands in `(routine ..)`. The error is a message.
pub fn read(name: &str, tokens: &[Token]) -> Result<Node, String> {
    let inside = inside_routine(tokens);
    let mut reader = Reader {
        name,
        tokens: inside.unwrap_or(tokens),
    };
    let token = reader.take()?;
    let node = reader.atom(token)?;
    if let Some(token) = reader.tokens.first() {
        return Err(token.wrong("a routine that goes on after its commands"));
    }
    match (inside.is_some(), node.calls(name)) {
        (true, false) => Err(token.wrong("a `routine` without `itself`")),
        (false, true) => Err(token.wrong("`itself` without a `routine`")),
        _ => Ok(node),
    }
}

// What stands in `(routine ..)`.
fn inside_routine(tokens: &[Token]) -> Option<&[Token]> {
    match tokens {
        [open, word, inside @ .., close]
            if open.symbol == Symbol::Open
                && word.word() == Some("routine")
                && close.symbol == Symbol::Close =>
        {
            Some(inside)
        }
        _ => None,
    }
}

// The routine's name, and what is not yet read of it.
struct Reader<'a> {
    name: &'a str,
    tokens: &'a [Token],
}

impl<'a> Reader<'a> {
    fn sequence(&mut self) -> Result<Node, String> {
        self.chain("then", Command::Then, Reader::alternatives)
    }

    fn alternatives(&mut self) -> Result<Node, String> {
        self.chain("or", Command::Or, Reader::command)
    }

    // One or more of `part` with the word between them; the place is that of the first word.
    fn chain(
        &mut self,
        word: &str,
        all: fn(Vec<Node>) -> Command,
        part: fn(&mut Reader<'a>) -> Result<Node, String>,
    ) -> Result<Node, String> {
        let mut nodes = vec![part(self)?];
        let mut place = None;
        while let Some(token) = self.tokens.first().filter(|t| t.word() == Some(word)) {
            self.tokens = &self.tokens[1..];
            nodes.push(part(self)?);
            place.get_or_insert(token.place);
        }
        match place {
            Some(place) => Ok(Node {
                command: all(nodes),
                place,
            }),
            None => Ok(nodes.remove(0)),
        }
    }

    fn command(&mut self) -> Result<Node, String> {
        let token = self.take()?;
        let command = match token.word().unwrap_or_default() {
            "test" => Command::Test(self.argument()?),
            "not" => Command::Not(self.argument()?),
            "try" => Command::Try(self.argument()?),
            "«do»" => Command::Do(self.argument()?),
            "goto" => Command::Goto(self.argument()?),
            "gopast" => Command::Gopast(self.argument()?),
            "atleast" => Command::Atleast(self.number()?, self.argument()?),
            "backwards" => Command::Backwards(self.argument()?),
            "case" => Command::Case(self.number()?, self.argument()?),
            "literal" => Command::Literal(self.text()?),
            "grouping" => Command::Grouping(self.name()?),
            "outside" => Command::Outside(self.name()?),
            "among" => Command::Among(self.name()?),
            "substring" => Command::Substring(self.name()?),
            "<-" => Command::Replace(self.text()?),
            "<+" => Command::Insert(self.text()?),
            "strlen=" => Command::Strlen(self.number()?),
            _ => return self.atom(token),
        };
        Ok(Node {
            command,
            place: token.place,
        })
    }

    // A literal or a grouping needs its parentheses here, where turkish.sbl has none.
    fn argument(&mut self) -> Result<Box<Node>, String> {
        let token = self.take()?;
        let node = self.atom(token)?;
        match node.command {
            Command::Parenthesis(inside) if inside.is_text() => Ok(inside),
            _ => Ok(Box::new(node)),
        }
    }

    // A parenthesis, or a word without an argument.
    fn atom(&mut self, token: &Token) -> Result<Node, String> {
        let command = match &token.symbol {
            Symbol::Open => return self.parenthesis(token.place),
            Symbol::Close | Symbol::Text(_) => return Err(token.wrong("no command stands here")),
            Symbol::Word(word) => match word.as_str() {
                "⟦" => Command::SliceStart,
                "⟧" => Command::SliceEnd,
                "delete" => Command::Delete,
                "set" => Command::Set,
                "unset" => Command::Unset,
                "is_set" => Command::IsSet,
                "succeed" => Command::Succeed,
                "next" => Command::Next,
                "strlen==limit" => Command::StrlenIsLimit,
                "itself" => Command::Call(self.name.to_string()),
                "define" => return Err(token.wrong("a `define` inside a routine")),
                "routine" => return Err(token.wrong("a `routine` inside another")),
                name if name == self.name => return Err(token.wrong("not `itself`, but the name")),
                name => Command::Call(name.to_string()),
            },
        };
        Ok(Node {
            command,
            place: token.place,
        })
    }

    fn parenthesis(&mut self, place: Place) -> Result<Node, String> {
        let inside = self.sequence()?;
        let end = self.take()?;
        if end.symbol != Symbol::Close {
            return Err(end.wrong("neither `then` nor `or` nor `)` stands here"));
        }
        Ok(Node {
            command: Command::Parenthesis(Box::new(inside)),
            place,
        })
    }

    fn take(&mut self) -> Result<&'a Token, String> {
        let (first, rest) = self
            .tokens
            .split_first()
            .ok_or("Source.antt: a routine breaks off")?;
        self.tokens = rest;
        Ok(first)
    }

    fn text(&mut self) -> Result<String, String> {
        let token = self.take()?;
        match &token.symbol {
            Symbol::Text(text) => Ok(text.clone()),
            _ => Err(token.wrong("no text stands here")),
        }
    }

    fn name(&mut self) -> Result<String, String> {
        let token = self.take()?;
        let name = token.word().ok_or(token.wrong("no name stands here"))?;
        Ok(name.to_string())
    }

    fn number(&mut self) -> Result<usize, String> {
        let token = self.take()?;
        let number = token.word().and_then(|word| word.parse().ok());
        number.ok_or(token.wrong("no number stands here"))
    }
}

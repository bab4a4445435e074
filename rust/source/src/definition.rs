//! What Source.antt declares: groupings, tables of keys, and routines.

use crate::command::{self, Node};
use crate::tokens::{items, Place, Symbol, Token};

/// A declaration, and the line on which its value begins.
pub struct Declared<T> {
    pub name: String,
    pub line: usize,
    pub value: T,
}

/// The letters of a grouping, one at least.
pub struct Grouping {
    pub letters: String,
}

impl Grouping {
    /// The least and the greatest code point.
    pub fn range(&self) -> (u32, u32) {
        let letters = self.letters.chars().map(u32::from);
        let range = letters.clone().min().zip(letters.max());
        range.unwrap_or_default()
    }
}

/// A key of a table and its line.
pub struct Key {
    pub text: String,
    pub line: usize,
}

/// A routine's commands, and the lines that they stand on.
pub struct Routine {
    pub body: Node,
    pub places: Vec<Place>,
}

#[derive(Default)]
pub struct Definition {
    pub groupings: Vec<Declared<Grouping>>,
    pub tables: Vec<Declared<Vec<Key>>>,
    pub routines: Vec<Declared<Routine>>,
}

// Where names may come from, and which; every name of Snowball.antt.
const MODULES: [(&str, Option<&[&str]>); 3] = [
    ("Prim.Native.String", Some(&["String"])),
    ("Rattle.std.specs.Prelude", Some(&["List", "[]", "◌∷◌"])),
    ("Rattle.turkish.specs.Snowball", None),
];

/// Reads the whole file; what is neither imported nor one of the three is refused by a message.
pub fn read(text: &str) -> Result<Definition, String> {
    let items = items(text)?;
    let is_import = |item: &&Vec<Token>| item[0].word() == Some("use");
    for item in items.iter().filter(is_import) {
        import(item)?;
    }
    let mut items = items.iter().filter(|item| !is_import(item));
    let mut definition = Definition::default();
    while let Some(signature) = items.next() {
        let words: Vec<&str> = signature.iter().filter_map(Token::word).collect();
        let [_, "pub", name, ":", ..] = words[..] else {
            return Err(signature[0].wrong("no declaration"));
        };
        unnumbered(signature)?;
        let equation = items.next().map(Vec::as_slice).unwrap_or_default();
        match equation {
            [first, is, ..] if first.word() == Some(name) && is.word() == Some("=") => {}
            _ => return Err(signature[0].wrong("a declaration without its value")),
        }
        let declared = Equation {
            name,
            tokens: equation,
        };
        match words[..] {
            ["abbrev", _, _, _, "String"] => definition.groupings.push(declared.grouping()?),
            ["abbrev", _, _, _, "List", "String"] => definition.tables.push(declared.table()?),
            ["unfoldable", _, _, _, "Command"] => definition.routines.push(declared.routine()?),
            _ => return Err(signature[0].wrong("neither a grouping, keys nor a routine")),
        }
    }
    Ok(definition)
}

// Every name is what its module calls it: a command under another's name would be read as that. So would
// what another module calls like a command.
fn import(tokens: &[Token]) -> Result<(), String> {
    unnumbered(tokens)?;
    let words: Vec<&str> = tokens.iter().skip(1).filter_map(Token::word).collect();
    if words.contains(&"as") {
        return Err(tokens[0].wrong("a name under another"));
    }
    let text = words.join(" ");
    let parts = text.split_once(".{");
    let (module, names) = parts.unwrap_or_default();
    let known = MODULES.iter().find(|(known, _)| *known == module);
    let names = names.strip_suffix('}').filter(|names| !names.contains('{'));
    let offers = |(_, offered): &(_, Option<&[&str]>), names: &str| {
        let mut names = names.split(',').map(str::trim);
        offered.is_none_or(|offered| names.all(|name| offered.contains(&name)))
    };
    match (known, names) {
        (Some(known), Some(names)) if offers(known, names) => Ok(()),
        _ => Err(tokens[0].wrong("an import that is neither texts, lists nor commands")),
    }
}

// A name, `=`, and the value that is yet to be read.
struct Equation<'a> {
    name: &'a str,
    tokens: &'a [Token],
}

impl Equation<'_> {
    fn grouping(self) -> Result<Declared<Grouping>, String> {
        unnumbered(self.tokens)?;
        let letters = match self.value() {
            [token] => text(token)?,
            _ => String::new(),
        };
        if letters.is_empty() {
            return Err(self.tokens[0].wrong("a grouping is one text with letters"));
        }
        Ok(self.declared(Grouping { letters }))
    }

    // Texts with ∷ after each, and [] at the end.
    fn table(self) -> Result<Declared<Vec<Key>>, String> {
        unnumbered(self.tokens)?;
        let mut keys = Vec::new();
        let mut rest = self.value();
        while let [key, after, tail @ ..] = rest {
            if after.word() != Some("∷") {
                return Err(after.wrong("no ∷ after a key"));
            }
            keys.push(Key {
                text: text(key)?,
                line: key.place.line,
            });
            rest = tail;
        }
        match rest {
            [end] if end.word() == Some("[]") => Ok(self.declared(keys)),
            _ => Err(self.tokens[0].wrong("keys that do not end in []")),
        }
    }

    // `define` with its name, which is that of turkish.sbl, and its commands.
    fn routine(self) -> Result<Declared<Routine>, String> {
        let name = Symbol::Text(self.name.to_string());
        let body = match self.value() {
            [define, named, body @ ..]
                if define.word() == Some("define") && named.symbol == name =>
            {
                command::read(self.name, body)?
            }
            _ => {
                let name = self.name;
                let message = format!("a routine that does not begin with `define \"{name}\"`");
                return Err(self.tokens[0].wrong(&message));
            }
        };
        let places = self.tokens.iter().map(|token| token.place).collect();
        Ok(self.declared(Routine { body, places }))
    }

    fn value(&self) -> &[Token] {
        &self.tokens[2..]
    }

    fn declared<T>(&self, value: T) -> Declared<T> {
        Declared {
            name: self.name.to_string(),
            line: self.tokens[0].place.line,
            value,
        }
    }
}

// The Rust does not say where groupings and keys stand in turkish.sbl.
fn unnumbered(tokens: &[Token]) -> Result<(), String> {
    let numbered = |token: &&Token| token.place.number.is_some();
    match tokens.iter().find(numbered) {
        Some(token) => Err(token.wrong("a number that nothing is held to")),
        None => Ok(()),
    }
}

fn text(token: &Token) -> Result<String, String> {
    match &token.symbol {
        Symbol::Text(text) => Ok(text.clone()),
        _ => Err(token.wrong("no text stands here")),
    }
}

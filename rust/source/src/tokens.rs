//! Source.antt cut into tokens, each with its place.

/// Where a token stands: its line in Source.antt, and its line in turkish.sbl, by the closing comment.
#[derive(Clone, Copy)]
pub struct Place {
    pub line: usize,
    pub number: Option<usize>,
}

#[derive(PartialEq)]
pub enum Symbol {
    Open,
    Close,
    /// What stands in quotes.
    Text(String),
    Word(String),
}

pub struct Token {
    pub symbol: Symbol,
    pub place: Place,
}

impl Token {
    pub fn word(&self) -> Option<&str> {
        match &self.symbol {
            Symbol::Word(word) => Some(word),
            _ => None,
        }
    }

    /// A message about this place.
    pub fn wrong(&self, message: &str) -> String {
        wrong(self.place.line, message)
    }
}

/// A message about a line of Source.antt.
pub fn wrong(line: usize, message: &str) -> String {
    format!("Source.antt, line {line}: {message}")
}

/// The tokens of each item of the file: an item begins in the first column and goes on with the
/// lines that are moved in. Comments by themselves are no part of it.
pub fn items(text: &str) -> Result<Vec<Vec<Token>>, String> {
    let mut items: Vec<Vec<Token>> = Vec::new();
    for (line, text) in (1..).zip(text.lines()) {
        let (symbols, comment) = cut(text).map_err(|message| wrong(line, message))?;
        if symbols.is_empty() {
            continue;
        }
        let number = comment.map(|comment| comment.parse::<usize>());
        let number = number.transpose();
        let number = number.map_err(|_| wrong(line, "a closing comment that is no number"))?;
        let place = Place { line, number };
        let tokens = symbols.into_iter().map(|symbol| Token { symbol, place });
        if !text.starts_with(char::is_whitespace) {
            items.push(tokens.collect());
        } else if let Some(item) = items.last_mut() {
            item.extend(tokens);
        } else {
            return Err(wrong(line, "moved in under nothing"));
        }
    }
    Ok(items)
}

// The tokens of one line, and the comment that closes it.
fn cut(line: &str) -> Result<(Vec<Symbol>, Option<&str>), &'static str> {
    let mut symbols = Vec::new();
    let mut rest = line.trim_start();
    while let Some(first) = rest.chars().next() {
        let (symbol, length) = match first {
            '(' => (Symbol::Open, 1),
            ')' => (Symbol::Close, 1),
            '"' => {
                let (inside, _) = rest[1..].split_once('"').ok_or("a text without its end")?;
                // The Rust's text has escapes of its own.
                if inside.contains('\\') {
                    return Err("a backslash in a text");
                }
                (Symbol::Text(inside.to_string()), inside.len() + 2)
            }
            _ if rest.starts_with("--") => return Ok((symbols, Some(rest[2..].trim()))),
            _ => {
                let ends = |ch: char| ch.is_whitespace() || "()\"".contains(ch);
                let length = rest.find(ends).unwrap_or(rest.len());
                (Symbol::Word(rest[..length].to_string()), length)
            }
        };
        symbols.push(symbol);
        rest = rest[length..].trim_start();
    }
    Ok((symbols, None))
}

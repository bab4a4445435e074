//! What Snowball's compiler writes in Rust for a routine: of each command a comment and the code.

use crate::command::{Command, Node};
use crate::definition::{Declared, Grouping, Routine};
use crate::reached::{find, Direction, EXTERNAL};
use crate::tokens::wrong;
use crate::writer::Writer;
use crate::written::{quoted, table_name, Line, Piece};
use std::mem::replace;
use std::slice;

/// A routine that is read in a direction; the error is a message about a number in Source.antt that
/// no command has.
pub fn routine(
    declared: &Declared<Routine>,
    direction: Direction,
    groupings: &[Declared<Grouping>],
) -> Result<Piece, String> {
    let Routine { body, places } = &declared.value;
    let mut writer = Writer::new(groupings, body.place, direction);
    let external = declared.name == EXTERNAL;
    let (head, context) = match external {
        true => (format!("pub fn {EXTERNAL}("), ""),
        false => {
            let head = format!("fn r_{}(", declared.name);
            (head, ", context: &mut Context")
        }
    };
    let signature = format!("{head}env: &mut SnowballEnv{context}) -> bool {{");
    writer.block(&signature, |writer| {
        if external {
            writer.context();
        }
        if has_substring(body) {
            writer.line("let mut among_var;");
        }
        writer.write(body);
        writer.line("return true;");
    });
    let lines = writer.lines;
    let comments: Vec<&Line> = lines.iter().filter(|line| line.is_comment()).collect();
    for place in places.iter().filter(|place| place.number.is_some()) {
        if !comments.iter().any(|comment| comment.line == place.line) {
            return Err(wrong(place.line, "a number that no command has"));
        }
    }
    Ok(Piece {
        name: declared.name.clone(),
        head,
        count: comments.len(),
        lines,
    })
}

fn has_substring(node: &Node) -> bool {
    matches!(node.command, Command::Substring(_)) || node.inside().iter().any(has_substring)
}

// The name in a command's comment, where it has one.
fn name(command: &Command) -> Option<String> {
    let name = match command {
        Command::Or(_) => "or",
        Command::Parenthesis(_) => "(",
        Command::Test(_) => "test",
        Command::Not(_) => "not",
        Command::Try(_) => "try",
        Command::Do(_) => "do",
        Command::Goto(_) => "goto",
        Command::Gopast(_) => "gopast",
        Command::Atleast(..) => "atleast",
        Command::Backwards(_) => "backwards",
        Command::Literal(_) => "literal",
        Command::Among(_) => "among",
        Command::Substring(_) => "substring",
        Command::Replace(_) => "<-",
        Command::Insert(_) => "<+",
        Command::SliceStart => "[",
        Command::SliceEnd => "]",
        Command::Delete => "delete",
        Command::Set => "set continue_stemming_noun_suffixes",
        Command::Unset => "unset continue_stemming_noun_suffixes",
        Command::IsSet => "Boolean test continue_stemming_noun_suffixes",
        Command::Next => "next",
        Command::Call(name) => return Some(format!("call {name}")),
        Command::Then(_)
        | Command::Case(..)
        | Command::Grouping(_)
        | Command::Outside(_)
        | Command::Strlen(_)
        | Command::StrlenIsLimit
        | Command::Succeed => return None,
    };
    Some(name.to_string())
}

impl Writer<'_> {
    fn write(&mut self, node: &Node) {
        let outer = replace(&mut self.place, node.place);
        if let Some(name) = name(&node.command) {
            self.comment(&name);
        }
        self.code(node);
        self.place = outer;
    }

    fn code(&mut self, node: &Node) {
        match &node.command {
            Command::Then(nodes) => self.in_turn(nodes),
            Command::Or(nodes) => self.either(nodes),
            Command::Parenthesis(inside) => self.write(inside),
            Command::Test(inside) => {
                let restore = self.save();
                self.write(inside);
                self.line(&restore);
            }
            Command::Not(inside) => {
                let restore = self.save();
                let failure = self.failure();
                self.attempt("loop", None, |writer| {
                    writer.write(inside);
                    writer.fail(failure);
                });
                self.line(&restore);
            }
            Command::Try(inside) => {
                let restore = self.save();
                self.once(Some(restore), |writer| writer.write(inside));
            }
            Command::Do(inside) => {
                let restore = self.save();
                self.once(None, |writer| writer.write(inside));
                self.line(&restore);
            }
            Command::Goto(inside) => self.search(inside, true),
            Command::Gopast(inside) => self.search(inside, false),
            Command::Atleast(count, inside) => self.atleast(*count, inside),
            Command::Backwards(inside) => {
                self.line("env.limit_backward = env.cursor;");
                self.line("env.cursor = env.limit;");
                let outer = replace(&mut self.direction, Direction::Backward);
                self.write(inside);
                self.direction = outer;
                self.line("env.cursor = env.limit_backward;");
            }
            Command::Case(..) => self.cases(slice::from_ref(node)),
            Command::Literal(text) => {
                let call = self.call("eq_s", &format!("&{}", quoted(text)));
                self.fail_if(&format!("if !{call} {{"));
            }
            Command::Grouping(name) => {
                let call = self.call("in_grouping", &self.grouping(name));
                self.fail_if(&format!("if !{call} {{"));
            }
            Command::Outside(name) => {
                let call = self.call("out_grouping", &self.grouping(name));
                self.fail_if(&format!("if !{call} {{"));
            }
            Command::Among(table) => {
                let call = self.call("find_among", &format!("{}, context", table_name(table)));
                self.fail_if(&format!("if {call} == 0 {{"));
            }
            Command::Substring(table) => {
                let call = self.call("find_among", &format!("{}, context", table_name(table)));
                self.line(&format!("among_var = {call};"));
                self.fail_if("if among_var == 0 {");
            }
            Command::Replace(text) => self.slice(&format!("slice_from({})", quoted(text))),
            Command::Delete => self.slice("slice_del()"),
            Command::Insert(text) => {
                self.line("let c = env.cursor;");
                self.line("let (bra, ket) = (env.cursor, env.cursor);");
                self.line(&format!("env.insert(bra, ket, {});", quoted(text)));
                self.line("env.cursor = c;");
            }
            Command::SliceStart => self.line("env.ket = env.cursor;"),
            Command::SliceEnd => self.line("env.bra = env.cursor;"),
            Command::Set => self.line("context.b_continue_stemming_noun_suffixes = true;"),
            Command::Unset => self.line("context.b_continue_stemming_noun_suffixes = false;"),
            Command::IsSet => self.fail_if("if !context.b_continue_stemming_noun_suffixes {"),
            Command::Strlen(length) => self.line(&format!("context.i_strlen = {length};")),
            Command::StrlenIsLimit => self.fail_if("if !(context.i_strlen == env.limit){"),
            Command::Succeed => {}
            Command::Next => self.step(),
            Command::Call(name) => {
                self.fail_if(&format!("if !r_{name}(env, context) {{"));
            }
        }
    }

    // The whole run's own variables; the stages are handed them.
    fn context(&mut self) {
        self.line("let mut context = &mut Context {");
        self.inside(|writer| {
            writer.line("b_continue_stemming_noun_suffixes: false,");
            writer.line("i_strlen: 0,");
        });
        self.line("};");
    }

    // Cases that follow each other are one `if`.
    fn in_turn(&mut self, nodes: &[Node]) {
        let is_case = |node: &Node| matches!(node.command, Command::Case(..));
        for nodes in nodes.chunk_by(|one, next| is_case(one) && is_case(next)) {
            match nodes {
                [node] => self.write(node),
                cases => self.cases(cases),
            }
        }
    }

    fn cases(&mut self, cases: &[Node]) {
        self.line("if among_var == 0 {");
        self.inside(|writer| writer.fail(writer.failure()));
        for node in cases {
            if let Command::Case(number, inside) = &node.command {
                self.line(&format!("}} else if among_var == {number} {{"));
                self.inside(|writer| writer.write(inside));
            }
        }
        self.line("}");
    }

    // Each but the last in a block, which a failure leaves; then the cursor is put back.
    fn either(&mut self, nodes: &[Node]) {
        let label = self.label();
        let leave = format!("break 'lab{label};");
        self.block(&format!("'lab{label}: loop {{"), |writer| {
            let restore = writer.save();
            for (number, node) in (1..).zip(nodes) {
                let take = |writer: &mut Self| {
                    writer.write(node);
                    writer.line(&leave);
                };
                if number == nodes.len() {
                    take(writer);
                } else {
                    writer.attempt("loop", None, take);
                    writer.line(&restore);
                }
            }
        });
    }

    // `goto`, or `gopast`, of which there is only that of a literal or a grouping: it has not moved
    // where it fails, and its variable is not used.
    fn search(&mut self, inside: &Node, stays: bool) {
        let label = self.label();
        self.block(&format!("'golab{label}: loop {{"), |writer| {
            if !stays {
                writer.variable();
            }
            let restore = stays.then(|| writer.save());
            writer.attempt("loop", None, |writer| {
                writer.write(inside);
                restore.iter().for_each(|restore| writer.line(restore));
                writer.line(&format!("break 'golab{label};"));
            });
            restore.iter().for_each(|restore| writer.line(restore));
            writer.step();
        });
    }

    fn atleast(&mut self, count: usize, inside: &Node) {
        let left = self.variable();
        self.line(&format!("let mut {left} = {count};"));
        self.comment("atleast");
        let label = self.label();
        self.block(&format!("'replab{label}: loop{{"), |writer| {
            let restore = writer.save();
            writer.attempt("for _ in 0..1", None, |writer| {
                writer.write(inside);
                writer.line(&format!("{left} -= 1;"));
                writer.line(&format!("continue 'replab{label};"));
            });
            writer.line(&restore);
            writer.line(&format!("break 'replab{label};"));
        });
        self.fail_if(&format!("if {left} > 0 {{"));
    }

    // A failure of these, which there is not, would end the routine.
    fn slice(&mut self, call: &str) {
        let head = format!("if !env.{call} {{");
        self.block(&head, |writer| writer.line("return false;"));
    }

    // A grouping as an argument, with its least and its greatest code point.
    fn grouping(&self, name: &str) -> String {
        let grouping = find(self.groupings, name).map(|declared| declared.value.range());
        let (least, greatest) = grouping.unwrap_or_default();
        format!("G_{name}, {least}, {greatest}")
    }
}

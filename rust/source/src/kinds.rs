//! The three kinds of declarations, each as Rust.

use crate::definition;
use crate::held::{hold, Paragraph};
use crate::reached::Reached;
use crate::routine::routine;
use crate::written::{grouping, table, Piece};

pub struct Kind {
    pub pieces: Vec<Piece>,
    // What the pieces are, and what is counted in them.
    names: [&'static str; 2],
}

/// All that Source.antt declares; the error is a message about a place where it cannot be read.
pub fn kinds(source: &str) -> Result<[Kind; 3], String> {
    let definition = definition::read(source)?;
    let reached = Reached::new(&definition)?;
    let groupings = definition.groupings.iter().map(grouping);
    let tables = definition.tables.iter();
    let tables = tables.map(|declared| table(declared, reached.tables[declared.name.as_str()]));
    let routines = definition.routines.iter().map(|declared| {
        let direction = reached.routines[declared.name.as_str()];
        routine(declared, direction, &definition.groupings)
    });
    let routines: Result<_, _> = routines.collect();
    Ok([
        Kind {
            pieces: groupings.collect(),
            names: ["groupings", "letters"],
        },
        Kind {
            pieces: tables.collect(),
            names: ["tables", "keys"],
        },
        Kind {
            pieces: routines?,
            names: ["routines", "commands"],
        },
    ])
}

impl Kind {
    /// The counts where all of it is in the Rust, else a message about the first difference.
    pub fn held(&self, rust: &[Paragraph]) -> Result<String, String> {
        hold(&self.pieces, rust)?;
        let [pieces, counted] = self.names;
        let count: usize = self.pieces.iter().map(|piece| piece.count).sum();
        Ok(format!("{} {pieces}, {count} {counted}", self.pieces.len()))
    }

    pub fn name(&self) -> &'static str {
        self.names[0]
    }
}

#[cfg(test)]
mod tests {
    use super::kinds;
    use crate::held::paragraphs;

    const SOURCE: &str = r#"-- Short texts.
use Rattle.turkish.specs.Snowball.{Command}

abbrev pub ad : String
ad = "da"

abbrev pub A-7 : List String
A-7 = "bı" ∷ "s" ∷ []

unfoldable pub stem_nominal_verb_suffixes : Command
stem_nominal_verb_suffixes = define "stem_nominal_verb_suffixes" ( -- 3
    literal "ş" then test      -- 4
    (among A-7))               -- 5

unfoldable pub stem_suffix_chain_before_ki : Command
stem_suffix_chain_before_ki = define "stem_suffix_chain_before_ki" (routine ( -- 7
    next then try (itself)))   -- 8

unfoldable pub stem_noun_suffixes : Command
stem_noun_suffixes = define "stem_noun_suffixes" ( -- 10
    test (outside ad) then stem_suffix_chain_before_ki) -- 11

unfoldable pub more_than_one_syllable_word : Command
more_than_one_syllable_word = define "more_than_one_syllable_word" (gopast (grouping ad)) -- 13

unfoldable pub postlude : Command
postlude = define "postlude" (literal "a") -- 15

unfoldable pub stem : Command
stem = define "stem" (is_set then postlude) -- 17
"#;

    const RUST: &str = r#"static A_7: &'static [Among<Context>; 2] = &[
    Among("b\u{0131}", -1, -1, None),
    Among("s", -1, -1, None),
];

static G_ad: &'static [u8; 1] = &[9];

fn r_stem_nominal_verb_suffixes(env: &mut SnowballEnv, context: &mut Context) -> bool {
    // (, line 3
    // literal, line 4
    if !env.eq_s_b(&"\u{015F}") {
        return false;
    }
    // test, line 4
    let v_1 = env.limit - env.cursor;
    // (, line 5
    // among, line 5
    if env.find_among_b(A_7, context) == 0 {
        return false;
    }
    env.cursor = env.limit - v_1;
    return true;
}

fn r_stem_suffix_chain_before_ki(env: &mut SnowballEnv, context: &mut Context) -> bool {
    // (, line 7
    // next, line 8
    if env.cursor <= env.limit_backward {
        return false;
    }
    env.previous_char();
    // try, line 8
    let v_1 = env.limit - env.cursor;
    'lab0: loop {
        // (, line 8
        // call stem_suffix_chain_before_ki, line 8
        if !r_stem_suffix_chain_before_ki(env, context) {
            env.cursor = env.limit - v_1;
            break 'lab0;
        }
        break 'lab0;
    }
    return true;
}

fn r_stem_noun_suffixes(env: &mut SnowballEnv, context: &mut Context) -> bool {
    // (, line 10
    // test, line 11
    let v_1 = env.limit - env.cursor;
    if !env.out_grouping_b(G_ad, 97, 100) {
        return false;
    }
    env.cursor = env.limit - v_1;
    // call stem_suffix_chain_before_ki, line 11
    if !r_stem_suffix_chain_before_ki(env, context) {
        return false;
    }
    return true;
}

fn r_more_than_one_syllable_word(env: &mut SnowballEnv, context: &mut Context) -> bool {
    // (, line 13
    // gopast, line 13
    'golab0: loop {
        'lab1: loop {
            if !env.in_grouping(G_ad, 97, 100) {
                break 'lab1;
            }
            break 'golab0;
        }
        if env.cursor >= env.limit {
            return false;
        }
        env.next_char();
    }
    return true;
}

fn r_postlude(env: &mut SnowballEnv, context: &mut Context) -> bool {
    // (, line 15
    // literal, line 15
    if !env.eq_s(&"a") {
        return false;
    }
    return true;
}

pub fn stem(env: &mut SnowballEnv) -> bool {
    let mut context = &mut Context {
        b_continue_stemming_noun_suffixes: false,
        i_strlen: 0,
    };
    // (, line 17
    // Boolean test continue_stemming_noun_suffixes, line 17
    if !context.b_continue_stemming_noun_suffixes {
        return false;
    }
    // call postlude, line 17
    if !r_postlude(env, context) {
        return false;
    }
    return true;
}
"#;

    // What is said of each kind, or that the source cannot be read.
    fn said(source: &str, rust: &str) -> Vec<String> {
        let rust = paragraphs(rust);
        let said = |result: Result<String, String>| result.unwrap_or_else(|message| message);
        match kinds(source) {
            Ok(kinds) => kinds.iter().map(|kind| said(kind.held(&rust))).collect(),
            Err(message) => vec![message],
        }
    }

    #[test]
    fn short_texts_agree() {
        let counts = [
            "1 groupings, 2 letters",
            "1 tables, 2 keys",
            "6 routines, 20 commands",
        ];
        assert_eq!(said(SOURCE, RUST), counts);
    }

    #[test]
    fn the_first_difference_is_named() {
        let edited = SOURCE.replace("test ", "not ");
        let difference = "  in           stem_nominal_verb_suffixes
  Source.antt  line 12:     // not, line 4
  turkish.rs   line 14:     // test, line 4";
        assert_eq!(said(&edited, RUST)[2], difference);
        let edited = SOURCE.replace("test      -- 4", "test");
        assert!(said(&edited, RUST)[2].contains("line 12:     // literal, line ?\n"));
        let edited = RUST.replace("    return true;\n", "");
        assert!(said(SOURCE, &edited)[2].ends_with("turkish.rs   line 22: }"));
        let edited = SOURCE.replace("\"da\"", "\"de\"");
        assert!(said(&edited, RUST)[0].contains("static G_ad: &'static [u8; 1] = &[3];"));
    }

    fn unread(edited: &str, message: &str) {
        assert_eq!(said(edited, RUST), [format!("Source.antt{message}")]);
    }

    #[test]
    fn a_routine_is_one_define() {
        let without = ", line 27: a routine that does not begin with `define \"postlude\"`";
        let inside = ", line 27: a `define` inside a routine";
        let longer = ", line 27: a routine that goes on after its commands";
        let define = r#"define "postlude" (literal "a")"#;
        for (edited, message) in [
            (r#"(literal "a")"#, without),
            (r#"define "prelude" (literal "a")"#, without),
            (r#"define postlude (literal "a")"#, without),
            (r#"define "postlude" (define "postlude" (next))"#, inside),
            (r#"define "postlude" (test define)"#, inside),
            (r#"define "postlude" (literal "a") then next"#, longer),
            (r#"define "postlude""#, ": a routine breaks off"),
        ] {
            unread(&SOURCE.replace(define, edited), message);
        }
        // Its own name is that of turkish.sbl too.
        let respelled = SOURCE.replace("\nmore_than_one", "\nmore-than_one");
        unread(
            &respelled.replace("pub more_than_one", "pub more-than_one"),
            ", line 24: a routine that does not begin with `define \"more-than_one_syllable_word\"`",
        );
    }

    #[test]
    fn a_routine_that_calls_itself_says_so() {
        let chain = "(routine ( -- 7\n    next then try (itself)))";
        let without = ", line 16: `itself` without a `routine`";
        let inside = ", line 16: a `routine` inside another";
        let longer = ", line 17: a routine that goes on after its commands";
        for (edited, message) in [
            ("( -- 7\n    next then try (itself))", without),
            (
                "(test (routine ( -- 7\n    next then try (itself))))",
                inside,
            ),
            ("(routine ( -- 7\n    next) then try (itself))", longer),
            (
                "(routine ( -- 7\n    next then next))",
                ", line 16: a `routine` without `itself`",
            ),
            (
                "(routine ( -- 7\n    next then try (stem_suffix_chain_before_ki)))",
                ", line 17: not `itself`, but the name",
            ),
        ] {
            unread(&SOURCE.replace(chain, edited), message);
        }
    }

    #[test]
    fn all_is_reached_and_in_order() {
        unread(&SOURCE.replace("A-7)", "A-8)"), " declares no A-8");
        let next = SOURCE.replace("gopast (grouping ad)", "next");
        unread(
            &next.replace("test (outside ad)", "next"),
            ", line 5: no stage comes to this",
        );
        let turned = SOURCE.replace("is_set then postlude", "backwards postlude");
        unread(&turned, ", line 27: a routine that is read both ways");
        let (before, last) = RUST.split_at(RUST.find("fn r_postlude").expect("a routine"));
        let swapped = format!("{last}\n{before}");
        let order = "  turkish.rs does not have postlude after more_than_one_syllable_word";
        assert_eq!(said(SOURCE, &swapped)[2], order);
        assert_eq!(
            said(SOURCE, before)[2],
            "  turkish.rs has no `fn r_postlude(`"
        );
    }
}

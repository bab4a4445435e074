// Stands at the end of the crate's turkish module in the generated file (build.rs), where the
// private stages can be called.

/// The suffix stage: yes or no, and the flag as it leaves it. The flag is true on entry, as the
/// stage itself makes it at once.
pub fn enter_stem_nominal_verb_suffixes(env: &mut SnowballEnv) -> (bool, bool) {
    let mut context = Context {
        b_continue_stemming_noun_suffixes: true,
        i_strlen: 0,
    };
    let yes = r_stem_nominal_verb_suffixes(env, &mut context);
    (yes, context.b_continue_stemming_noun_suffixes)
}

/// The syllable check's yes or no.
pub fn enter_more_than_one_syllable_word(env: &mut SnowballEnv) -> bool {
    r_more_than_one_syllable_word(env, &mut no_context())
}

/// The noun stage's yes or no.
pub fn enter_stem_noun_suffixes(env: &mut SnowballEnv) -> bool {
    r_stem_noun_suffixes(env, &mut no_context())
}

/// The postlude's yes or no.
pub fn enter_postlude(env: &mut SnowballEnv) -> bool {
    r_postlude(env, &mut no_context())
}

/// The keys of the tables that suffix stage and postlude search, table by table.
pub fn keys() -> Vec<Vec<&'static str>> {
    let tables = MARKS.iter().filter_map(|mark| match mark.key {
        Key::Among(table) => Some(table),
        Key::Literal(_) => None,
    });
    tables.chain(Some(&A_23[..])).map(texts).collect()
}

/// The keys of the tables that the noun stage searches, table by table; it searches that of lAr too.
pub fn noun_keys() -> Vec<Vec<&'static str>> {
    let tables: [&'static [Among<Context>]; 12] = [
        A_0, A_1, A_2, A_3, A_4, A_5, A_6, A_7, A_8, A_9, A_10, A_11,
    ];
    tables.iter().map(|table| texts(table)).collect()
}

fn texts(table: &[Among<Context>]) -> Vec<&'static str> {
    table.iter().map(|among| among.0).collect()
}

/// A mark of the suffix stage: its routine, and the parts of which that is made.
pub struct Mark {
    routine: fn(&mut SnowballEnv, &mut Context) -> bool,
    routine_name: &'static str,
    /// Whether harmony is tested before the key.
    pub harmony: bool,
    key: Key,
    /// Whether the optional y follows the key.
    pub joins: bool,
}

enum Key {
    Among(&'static [Among<Context>]),
    Literal(&'static str),
}

macro_rules! mark {
    ($routine:ident, harmony: $harmony:expr, $key:expr, joins: $joins:expr) => {
        Mark {
            routine: $routine,
            routine_name: stringify!($routine),
            harmony: $harmony,
            key: $key,
            joins: $joins,
        }
    };
}

/// The marks in the order of document 01's mark tables, yken last.
pub static MARKS: [Mark; 12] = [
    mark!(r_mark_yUm, harmony: true, Key::Among(A_12), joins: true),
    mark!(r_mark_sUn, harmony: true, Key::Among(A_13), joins: false),
    mark!(r_mark_yUz, harmony: true, Key::Among(A_14), joins: true),
    mark!(r_mark_sUnUz, harmony: false, Key::Among(A_15), joins: false),
    mark!(r_mark_lAr, harmony: true, Key::Among(A_16), joins: false),
    mark!(r_mark_nUz, harmony: true, Key::Among(A_17), joins: false),
    mark!(r_mark_DUr, harmony: true, Key::Among(A_18), joins: false),
    mark!(r_mark_cAsInA, harmony: false, Key::Among(A_19), joins: false),
    mark!(r_mark_yDU, harmony: true, Key::Among(A_20), joins: true),
    mark!(r_mark_ysA, harmony: false, Key::Among(A_21), joins: true),
    mark!(r_mark_ymUs_, harmony: true, Key::Among(A_22), joins: true),
    mark!(r_mark_yken, harmony: false, Key::Literal("ken"), joins: true),
];

impl Mark {
    /// The routine's name after `r_mark_`.
    pub fn name(&self) -> &'static str {
        &self.routine_name["r_mark_".len()..]
    }

    /// The mark itself: whether it stands before the cursor, which then goes back over it.
    pub fn stands(&self, env: &mut SnowballEnv) -> bool {
        (self.routine)(env, &mut no_context())
    }

    /// Its key by itself, likewise.
    pub fn key_stands(&self, env: &mut SnowballEnv) -> bool {
        match self.key {
            Key::Among(table) => env.find_among_b(table, &mut no_context()) != 0,
            Key::Literal(text) => env.eq_s_b(text),
        }
    }
}

/// The harmony test by itself. Where it says no, the cursor may be anywhere.
pub fn harmony_stands(env: &mut SnowballEnv) -> bool {
    r_check_vowel_harmony(env, &mut no_context())
}

/// A grouping: its bits, its first and its last code point.
pub struct Grouping(&'static [u8], u32, u32);

impl Grouping {
    /// Whether one of its characters stands before the cursor, which then goes back over it.
    pub fn stands(&self, env: &mut SnowballEnv) -> bool {
        env.in_grouping_b(self.0, self.1, self.2)
    }
}

/// The vowels, line 114.
pub static VOWELS: Grouping = Grouping(G_vowel, 97, 305);

/// Each vowel with the grouping of its partners, lines 116 to 123.
pub static PARTNERS: [(&'static str, Grouping); 8] = [
    ("a", Grouping(G_vowel1, 97, 305)),
    ("e", Grouping(G_vowel2, 101, 252)),
    ("\u{131}", Grouping(G_vowel3, 97, 305)),
    ("i", Grouping(G_vowel4, 101, 105)),
    ("o", Grouping(G_vowel5, 111, 117)),
    ("\u{f6}", Grouping(G_vowel6, 246, 252)),
    ("u", Grouping(G_vowel5, 111, 117)),
    ("\u{fc}", Grouping(G_vowel6, 246, 252)),
];

/// The optional y by itself: whether a mark may join here; the cursor goes back over a y.
pub fn optional_y_stands(env: &mut SnowballEnv) -> bool {
    r_mark_suffix_with_optional_y_consonant(env, &mut no_context())
}

// A context as the whole run begins with.
fn no_context() -> Context {
    Context {
        b_continue_stemming_noun_suffixes: false,
        i_strlen: 0,
    }
}

#[cfg(test)]
mod tests {
    use super::*;
    use at_end;

    // With every vowel, so that harmony holds for each key behind it.
    const FRONT: &str = "ae\u{131}io\u{f6}u\u{fc}";

    fn keys_of(mark: &Mark) -> Vec<&'static str> {
        match mark.key {
            Key::Among(table) => texts(table),
            Key::Literal(text) => vec![text],
        }
    }

    // Where a mark ends that stands at the end of the front, a joint and a key.
    fn end(
        front: &str,
        joint: &str,
        key: &str,
        stands: impl Fn(&mut SnowballEnv) -> bool,
    ) -> Option<usize> {
        let word = [front, joint, key].concat();
        let mut env = at_end(&word);
        stands(&mut env).then_some(env.cursor)
    }

    // A routine's text in the crate's file.
    fn text_of(routine: &str) -> &'static str {
        let text = include_str!(concat!(env!("OUT_DIR"), "/snowball.rs"));
        let start = text.find(&format!("\nfn {}(", routine));
        let text = &text[start.expect("a routine of the crate")..];
        &text[..text.find("\n}\n").expect("its end")]
    }

    // sUnUz and cAsInA are in harmony with themselves, so that only the text tells.
    #[test]
    fn eight_marks_test_harmony() {
        for mark in &MARKS {
            let calls = text_of(mark.routine_name).contains("r_check_vowel_harmony(");
            assert_eq!(mark.harmony, calls, "{}", mark.name());
        }
        assert_eq!(MARKS.iter().filter(|mark| mark.harmony).count(), 8);
    }

    #[test]
    fn six_marks_ask_for_the_optional_y() {
        for mark in &MARKS {
            assert_eq!(mark.joins, mark.name().starts_with('y'), "{}", mark.name());
            for key in keys_of(mark) {
                let ends = |joint| end(FRONT, joint, key, |env| mark.stands(env));
                let n = FRONT.len();
                let (with, without) = match mark.joins {
                    true => (n, None),
                    false => (n + 1, Some(n + 2)),
                };
                assert_eq!(ends("y"), Some(with), "{} {}", mark.name(), key);
                assert_eq!(ends("by"), without, "{} {}", mark.name(), key);
                assert_eq!(ends("b"), Some(n + 1), "{} {}", mark.name(), key);
            }
        }
    }

    #[test]
    fn marks_are_made_of_their_parts() {
        let parts = |mark: &Mark, env: &mut SnowballEnv| {
            (!mark.harmony || harmony_stands(env))
                && mark.key_stands(env)
                && (!mark.joins || optional_y_stands(env))
        };
        let vowels = PARTNERS.iter().map(|&(vowel, _)| vowel);
        for front in vowels.chain(Some(FRONT)) {
            for mark in &MARKS {
                for key in MARKS.iter().flat_map(keys_of) {
                    for joint in &["", "b", "y", "by"] {
                        let whole = end(front, joint, key, |env| mark.stands(env));
                        let parts = end(front, joint, key, |env| parts(mark, env));
                        let at = (mark.name(), front, joint, key);
                        assert_eq!(whole, parts, "{:?}", at);
                    }
                }
            }
        }
    }
}

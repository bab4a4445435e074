//! The pieces that the suffix stage removes, which the crate does not tell: the branches of its
//! `r_stem_nominal_verb_suffixes` once more, with its mark routines called one by one. Whether this
//! ends as the stage itself does, the caller can see from what it leaves.

use super::{at_end, Stage};
use snowball::algorithms::turkish::{optional_y_stands, Mark, MARKS};
use snowball::SnowballEnv;

/// How a piece joined: six marks ask for a y, or for a vowel and one character.
#[derive(Clone, Copy, Debug, PartialEq)]
pub enum Joined {
    Alone,
    WithY,
    AfterVowel,
}

/// A mark that the branch taken keeps.
#[derive(Clone, Debug, PartialEq)]
pub struct Piece {
    /// The mark's number, from 1, in the order of document 01's mark tables with yken last.
    pub kind: usize,
    pub name: &'static str,
    pub joined: Joined,
    /// The offsets of the piece's first byte, of its key's and of its last, in the word.
    pub first: usize,
    pub key: usize,
    pub last: usize,
}

/// What the suffix stage leaves, and the pieces that it removes, from the word's end inward.
#[derive(Clone, Debug, PartialEq)]
pub struct Pieces<'a> {
    pub stage: Stage<'a>,
    pub list: Vec<Piece>,
}

/// The suffix stage mark by mark, entered as the stage is.
pub fn pieces(word: &str) -> Pieces<'_> {
    let mut walk = Walk {
        env: at_end(word),
        flag: true,
        kept: Vec::new(),
    };
    let yes = walk.stage();
    Pieces {
        stage: Stage {
            text: walk.env.get_current(),
            yes,
            flag: walk.flag,
        },
        list: walk.kept,
    }
}

type Branch = fn(&mut Walk) -> bool;

// In their order, with the lines of turkish.sbl.
const BRANCHES: [Branch; 6] = [
    // line 314
    |walk| walk.one_of(&["ymUs_", "yDU", "ysA", "yken"]),
    // line 316
    |walk| walk.one_of(&["cAsInA"]) && walk.person_then_past(),
    // lines 319 and 320
    |walk| {
        let stands = walk.one_of(&["lAr"]) && walk.delete();
        stands && walk.more(|walk| walk.one_of(&["DUr", "yDU", "ysA", "ymUs_"])) && walk.unset()
    },
    // line 323
    |walk| walk.one_of(&["nUz"]) && walk.one_of(&["yDU", "ysA"]),
    // line 325
    |walk| {
        let stands = walk.one_of(&["sUnUz", "yUz", "sUn", "yUm"]) && walk.delete();
        stands && walk.more(|walk| walk.one_of(&["ymUs_"]))
    },
    // line 327
    |walk| {
        let stands = walk.one_of(&["DUr"]) && walk.delete();
        stands && walk.more(|walk| walk.person_then_past())
    },
];

// The crate's state on the way, the flag, and the marks kept so far.
struct Walk<'a> {
    env: SnowballEnv<'a>,
    flag: bool,
    kept: Vec<Piece>,
}

impl Walk<'_> {
    // Lines 311 to 328.
    fn stage(&mut self) -> bool {
        self.env.ket = self.env.cursor;
        BRANCHES.iter().any(|branch| self.tried(*branch)) && self.delete()
    }

    // Lines 316 and 327: one of five marks or none, then ymUs_.
    fn person_then_past(&mut self) -> bool {
        self.tried(|walk| walk.one_of(&["sUnUz", "lAr", "yUm", "sUn", "yUz"]));
        self.one_of(&["ymUs_"])
    }

    // What may follow a deletion; if it does not, nothing is lost.
    fn more(&mut self, branch: Branch) -> bool {
        self.env.ket = self.env.cursor;
        self.tried(branch);
        true
    }

    fn delete(&mut self) -> bool {
        self.env.bra = self.env.cursor;
        self.env.slice_del()
    }

    fn unset(&mut self) -> bool {
        self.flag = false;
        true
    }

    // A branch that fails moves nothing and keeps nothing.
    fn tried(&mut self, branch: Branch) -> bool {
        let ahead = self.env.limit - self.env.cursor;
        let count = self.kept.len();
        let stands = branch(self);
        if !stands {
            self.env.cursor = self.env.limit - ahead;
            self.kept.truncate(count);
        }
        stands
    }

    // Keeps the first of these marks that stands before the cursor.
    fn one_of(&mut self, names: &[&str]) -> bool {
        let from = self.env.cursor;
        names.iter().any(|name| {
            self.env.cursor = from;
            self.keeps(name)
        })
    }

    fn keeps(&mut self, name: &str) -> bool {
        let from = self.env.cursor;
        let place = MARKS.iter().position(|mark| mark.name() == name);
        let place = place.expect("a mark's name");
        let mark = &MARKS[place];
        if !mark.stands(&mut self.env) {
            return false;
        }
        let (key, joined) = self.joint(mark, from);
        self.kept.push(Piece {
            kind: place + 1,
            name: mark.name(),
            joined,
            first: self.env.cursor,
            key,
            last: from - 1,
        });
        true
    }

    // Where the key of a mark that was just passed begins, and how it joined: the mark once more in
    // its parts, which must lead to where the mark itself did.
    fn joint(&mut self, mark: &Mark, from: usize) -> (usize, Joined) {
        let to = self.env.cursor;
        self.env.cursor = from;
        let stands = mark.key_stands(&mut self.env);
        let key = self.env.cursor;
        let stands = stands && (!mark.joins || optional_y_stands(&mut self.env));
        let same = stands && self.env.cursor == to;
        assert!(same, "{} in its parts: {}", mark.name(), self.env.current);
        let joined = match (mark.joins, to < key) {
            (false, _) => Joined::Alone,
            (true, true) => Joined::WithY,
            (true, false) => Joined::AfterVowel,
        };
        (key, joined)
    }
}

#[cfg(test)]
mod tests {
    use super::Joined::*;
    use super::*;
    use stem_nominal_verb_suffixes;

    // A word's pieces, from its end inward: name, joint, and the letters, whose key begins after a y
    // that joined it.
    fn told(word: &str) -> Vec<(&str, Joined, &str)> {
        let Pieces { stage, list } = pieces(word);
        assert_eq!(stage, stem_nominal_verb_suffixes(word), "{}", word);
        let mut end = word.len();
        for piece in &list {
            assert_eq!(piece.last + 1, end, "{}", word);
            let y = &word[piece.first..piece.key];
            assert_eq!(y == "y", piece.joined == WithY, "{}", word);
            assert!(y == "y" || y.is_empty(), "{}", word);
            end = piece.first;
        }
        assert_eq!(end, stage.text.len(), "{}", word);
        let of = |piece: &Piece| (piece.name, piece.joined, &word[piece.first..=piece.last]);
        list.iter().map(of).collect()
    }

    #[test]
    fn no_ending_has_no_pieces() {
        for word in &[
            "",
            "lar",
            "saatler",
            "ev\u{131}m",
            "evyken",
            "aken",
            "evcesine",
        ] {
            assert_eq!(told(word), [], "{}", word);
        }
    }

    #[test]
    fn every_kind_is_told_with_its_joint() {
        for &(word, name, joined, letters) in &[
            ("evim", "yUm", AfterVowel, "im"),
            ("arabay\u{131}m", "yUm", WithY, "y\u{131}m"),
            ("doktorsun", "sUn", Alone, "sun"),
            ("eviz", "yUz", AfterVowel, "iz"),
            ("arabay\u{131}z", "yUz", WithY, "y\u{131}z"),
            ("doktorsunuz", "sUnUz", Alone, "sunuz"),
            ("siniz", "sUnUz", Alone, "siniz"),
            ("evler", "lAr", Alone, "ler"),
            ("evlerdir", "DUr", Alone, "dir"),
            ("sinizdir", "DUr", Alone, "dir"),
            ("evdi", "yDU", AfterVowel, "di"),
            ("arabayd\u{131}k", "yDU", WithY, "yd\u{131}k"),
            ("evse", "ysA", AfterVowel, "se"),
            ("arabaysam", "ysA", WithY, "ysam"),
            ("evmi\u{15f}", "ymUs_", AfterVowel, "mi\u{15f}"),
            ("arabaym\u{131}\u{15f}", "ymUs_", WithY, "ym\u{131}\u{15f}"),
            ("abken", "yken", AfterVowel, "ken"),
            ("arabayken", "yken", WithY, "yken"),
        ] {
            assert_eq!(told(word), [(name, joined, letters)], "{}", word);
        }
    }

    #[test]
    fn pieces_lie_end_to_end() {
        assert_eq!(
            told("geldiniz"),
            [("nUz", Alone, "niz"), ("yDU", AfterVowel, "di")]
        );
        assert_eq!(
            told("evmi\u{15f}lerdir"),
            [
                ("DUr", Alone, "dir"),
                ("lAr", Alone, "ler"),
                ("ymUs_", AfterVowel, "mi\u{15f}"),
            ]
        );
        assert_eq!(
            told("aym\u{131}\u{15f}s\u{131}n\u{131}zcas\u{131}na"),
            [
                ("cAsInA", Alone, "cas\u{131}na"),
                ("sUnUz", Alone, "s\u{131}n\u{131}z"),
                ("ymUs_", WithY, "ym\u{131}\u{15f}"),
            ]
        );
    }

    #[test]
    fn offsets_count_bytes_and_kinds_from_one() {
        let list = pieces("aym\u{131}\u{15f}s\u{131}n\u{131}zcas\u{131}na").list;
        let numbers: Vec<_> = list.iter().map(|p| (p.kind, p.first, p.last)).collect();
        assert_eq!(numbers, [(8, 14, 20), (4, 7, 13), (11, 1, 6)]);
        assert_eq!(pieces("arabayken").list[0].kind, 12);
    }
}

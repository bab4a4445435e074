//! The pieces of a removed ending.

#[cfg(doc)]
use crate::Stage;
use crate::PIECES_ROOM;
use core::cmp::Reverse;

// The bytes in which the archive tells a piece, and how many pieces a word has at most.
const BYTES: usize = 3;
const MOST: usize = PIECES_ROOM / BYTES;

// The kinds' names in the order of their numbers.
const NAMES: [&str; 12] = [
    "yUm", "sUn", "yUz", "sUnUz", "lAr", "nUz", "DUr", "cAsInA", "yDU", "ysA", "ymUs_", "yken",
];

/// How a piece joined what stands before it.
#[derive(Clone, Copy, Debug, PartialEq, Eq, Hash)]
pub enum Joining {
    /// With a y, which is the piece's first letter.
    WithY,
    /// With no y, after a vowel and one character.
    AfterVowel,
}

/// What a piece is: a mark of turkish.sbl, where U stands for ı, i, u or ü, A for a or e, I for ı or i,
/// D for d or t. Six of the twelve tell how they joined.
#[derive(Clone, Copy, Debug, PartialEq, Eq, Hash)]
pub enum Kind {
    /// yUm: I am.
    YUm(Joining),
    /// sUn: you are, one person.
    SUn,
    /// yUz: we are.
    YUz(Joining),
    /// sUnUz: you are, several.
    SUnUz,
    /// lAr: the plural, or they are.
    LAr,
    /// nUz: you, several, after yDU or ysA.
    NUz,
    /// DUr: is.
    DUr,
    /// cAsInA: as if.
    CAsInA,
    /// yDU: was; an m, n or k after it tells the person.
    YDU(Joining),
    /// ysA: if; an m, n or k after it tells the person.
    YsA(Joining),
    /// ymUs_: is said to be.
    YmUs(Joining),
    /// yken: while.
    Yken(Joining),
}

impl Kind {
    /// The number under which the archive and its header know the kind, 1 to 12.
    #[must_use]
    pub const fn number(self) -> u8 {
        match self {
            Kind::YUm(_) => 1,
            Kind::SUn => 2,
            Kind::YUz(_) => 3,
            Kind::SUnUz => 4,
            Kind::LAr => 5,
            Kind::NUz => 6,
            Kind::DUr => 7,
            Kind::CAsInA => 8,
            Kind::YDU(_) => 9,
            Kind::YsA(_) => 10,
            Kind::YmUs(_) => 11,
            Kind::Yken(_) => 12,
        }
    }

    /// The mark's name, as the text form has it.
    #[must_use]
    pub const fn name(self) -> &'static str {
        NAMES[self.number() as usize - 1]
    }

    /// How the piece joined; none for the six kinds that ask for no y.
    #[must_use]
    pub const fn joining(self) -> Option<Joining> {
        match self {
            Kind::YUm(joining)
            | Kind::YUz(joining)
            | Kind::YDU(joining)
            | Kind::YsA(joining)
            | Kind::YmUs(joining)
            | Kind::Yken(joining) => Some(joining),
            _ => None,
        }
    }
}

// The kinds in the order of their numbers, those that may join all in one way.
pub(crate) fn all(joining: Joining) -> [Kind; 12] {
    [
        Kind::YUm(joining),
        Kind::SUn,
        Kind::YUz(joining),
        Kind::SUnUz,
        Kind::LAr,
        Kind::NUz,
        Kind::DUr,
        Kind::CAsInA,
        Kind::YDU(joining),
        Kind::YsA(joining),
        Kind::YmUs(joining),
        Kind::Yken(joining),
    ]
}

/// A piece of a word: its letters are `word[first..=last]`, with the y that joined it.
#[derive(Clone, Copy, Debug, PartialEq, Eq)]
#[must_use]
pub struct Piece {
    /// What it is, and how it joined.
    pub kind: Kind,
    /// The offset of its first byte in the word.
    pub first: usize,
    /// The offset of its last byte in the word.
    pub last: usize,
}

/// What the suffix stage removed: up to three pieces, which lie end to end from the end of the text
/// kept to the word's end.
#[derive(Clone, Copy, Debug, PartialEq, Eq)]
#[must_use]
pub struct Pieces<'a> {
    /// What is kept, as [`Stage::kept`]: the whole word where there is no piece.
    pub kept: &'a str,
    list: [Option<Piece>; MOST],
}

impl Pieces<'_> {
    /// The pieces from the word's end inward. The archive leaves their order open; they are sorted
    /// here.
    #[must_use]
    pub fn iter(&self) -> impl Iterator<Item = Piece> + '_ {
        self.list.iter().flatten().copied()
    }
}

// The first `count` pieces of a buffer, which may stand in any order there. As with refusals, only
// another edition's archive has more than there is room for.
pub(crate) fn read<'a>(
    word: &'a str,
    kept: usize,
    buffer: &[u8; PIECES_ROOM],
    count: usize,
) -> Pieces<'a> {
    assert!(
        count <= MOST,
        "libfannavy.a gives {count} pieces, and this crate knows of {MOST} at most"
    );
    let mut list = [None; MOST];
    for (entry, bytes) in list.iter_mut().zip(buffer.as_chunks().0).take(count) {
        *entry = Some(piece(word.as_bytes(), kept, *bytes));
    }
    list.sort_unstable_by_key(|piece| Reverse(piece.map(|piece: Piece| piece.first)));
    Pieces {
        kept: &word[..kept],
        list,
    }
}

// A piece from its kind and the distances of its ends from the kept text's end.
fn piece(word: &[u8], kept: usize, [kind, first, last]: [u8; BYTES]) -> Piece {
    let first = kept + usize::from(first);
    // No key begins with a y, which the library proves: a y in front is the one that joined.
    let joining = match word[first] {
        b'y' => Joining::WithY,
        _ => Joining::AfterVowel,
    };
    Piece {
        kind: known(kind, joining),
        first,
        last: kept + usize::from(last),
    }
}

// The kind of a number; here too only another edition's archive has one that is not known.
fn known(number: u8, joining: Joining) -> Kind {
    let kind = all(joining)
        .into_iter()
        .find(|kind| kind.number() == number);
    kind.unwrap_or_else(|| {
        panic!("libfannavy.a gives a piece of kind {number}, which this crate does not know")
    })
}

#[cfg(test)]
mod tests {
    use super::*;
    use std::prelude::rust_2021::*;

    #[test]
    fn numbers_and_joints_come_back() {
        for joining in [Joining::WithY, Joining::AfterVowel] {
            for (place, kind) in all(joining).into_iter().enumerate() {
                assert_eq!(usize::from(kind.number()), place + 1);
                assert_eq!(known(kind.number(), joining), kind);
                let joins = kind.name().starts_with('y').then_some(joining);
                assert_eq!(kind.joining(), joins);
            }
        }
    }

    #[test]
    #[should_panic(expected = "of kind 13")]
    fn an_unknown_kind_is_not_passed_over() {
        known(13, Joining::WithY);
    }

    #[test]
    #[should_panic(expected = "gives 4 pieces")]
    fn a_piece_too_many_is_not_passed_over() {
        let _ = read("evler", 2, &[5, 0, 2, 5, 0, 2, 5, 0, 2], MOST + 1);
    }

    #[test]
    fn any_order_is_read_alike() {
        let word = "aymışsınızcasına";
        let [one, two, three] = [[8, 13, 19], [4, 6, 12], [11, 0, 5]];
        let sorted = read(word, 1, &[8, 13, 19, 4, 6, 12, 11, 0, 5], 3);
        for order in [
            [one, three, two],
            [two, one, three],
            [two, three, one],
            [three, one, two],
            [three, two, one],
        ] {
            let buffer = order.as_flattened().try_into().expect("nine bytes");
            assert_eq!(read(word, 1, &buffer, 3), sorted);
        }
        let ends: Vec<_> = sorted.iter().map(|p| (p.first, p.last)).collect();
        assert_eq!(ends, [(14, 20), (7, 13), (1, 6)]);
    }

    #[test]
    fn entries_past_the_count_are_not_read() {
        let pieces = read("evler", 2, &[5, 0, 2, 0, 0, 0, 0, 0, 0], 1);
        assert_eq!(pieces.iter().count(), 1);
        assert_eq!(pieces.kept, "ev");
    }
}

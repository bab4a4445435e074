//! The list of a removed ending's pieces, as Rattle callers get it.

use crate::ffi::ProbeRemoved;

/// The kept text's length, and the pieces, those that are used in an order of ours.
#[derive(Clone, Copy, Debug, PartialEq)]
pub struct List {
    pub refusal: u32,
    length: usize,
    count: usize,
    entries: [Entry; 3],
}

/// A piece: its kind's number, its joining's, and the offsets of its first and its last byte.
#[derive(Clone, Copy, Debug, PartialEq, Eq, PartialOrd, Ord)]
pub struct Entry {
    pub kind: u8,
    pub joining: u8,
    pub first: usize,
    pub last: usize,
}

impl Entry {
    /// What stands in an entry that is not used, `Piece::UNUSED` of the Rattle side.
    const UNUSED: Entry = Entry {
        kind: 1,
        joining: 1,
        first: 0,
        last: 0,
    };
}

impl List {
    /// The list of these pieces, of which there are at most three.
    pub fn new(refusal: u32, length: usize, pieces: &[Entry]) -> List {
        let mut entries = [Entry::UNUSED; 3];
        entries[..pieces.len()].copy_from_slice(pieces);
        List::in_order(refusal, length, pieces.len(), entries)
    }

    fn in_order(refusal: u32, length: usize, count: usize, mut entries: [Entry; 3]) -> List {
        let used = count.min(entries.len());
        entries[..used].sort_unstable();
        List {
            refusal,
            length,
            count,
            entries,
        }
    }
}

impl From<ProbeRemoved> for List {
    fn from(flat: ProbeRemoved) -> List {
        let entries = [0, 1, 2].map(|i| Entry {
            kind: flat.kinds[i],
            joining: flat.joinings[i],
            first: flat.first[i],
            last: flat.last[i],
        });
        List::in_order(flat.refusal, flat.length, flat.count, entries)
    }
}

#[cfg(test)]
mod tests {
    use super::{Entry, List, ProbeRemoved};

    // Two pieces and an entry that is not used.
    const FLAT: ProbeRemoved = ProbeRemoved {
        refusal: 0,
        length: 2,
        count: 2,
        kinds: [7, 11, 1],
        joinings: [0, 2, 1],
        first: [6, 2, 0],
        last: [8, 5, 0],
    };

    fn expected() -> List {
        let entry = |kind, joining, first, last| Entry {
            kind,
            joining,
            first,
            last,
        };
        List::new(0, 2, &[entry(11, 2, 2, 5), entry(7, 0, 6, 8)])
    }

    #[test]
    fn pieces_may_stand_in_any_order() {
        let turned = ProbeRemoved {
            kinds: [11, 7, 1],
            joinings: [2, 0, 1],
            first: [2, 6, 0],
            last: [5, 8, 0],
            ..FLAT
        };
        assert_eq!(List::from(FLAT), expected());
        assert_eq!(List::from(turned), expected());
    }

    #[test]
    fn another_number_anywhere_is_noticed() {
        let wrong = [
            ProbeRemoved { refusal: 1, ..FLAT },
            ProbeRemoved { length: 3, ..FLAT },
            ProbeRemoved { count: 1, ..FLAT },
            ProbeRemoved { count: 3, ..FLAT },
            ProbeRemoved {
                count: usize::MAX,
                ..FLAT
            },
            ProbeRemoved {
                kinds: [11, 7, 1],
                ..FLAT
            },
            ProbeRemoved {
                kinds: [7, 11, 0],
                ..FLAT
            },
            ProbeRemoved {
                joinings: [0, 1, 1],
                ..FLAT
            },
            ProbeRemoved {
                joinings: [0, 2, 0],
                ..FLAT
            },
            ProbeRemoved {
                first: [6, 2, 1],
                ..FLAT
            },
            ProbeRemoved {
                last: [8, 4, 0],
                ..FLAT
            },
        ];
        for flat in wrong {
            assert_ne!(List::from(flat), expected(), "{flat:?}");
        }
    }
}

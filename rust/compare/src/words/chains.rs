//! Every chain of endings that a branch of the suffix stage can take, on every front of up to two
//! letters.

use super::endings::spellings;
use super::letters;
use super::Visit;

// A place in a chain: the suffixes that may stand there, in turkish.sbl's notation. A leading y may
// be left out, and the empty suffix leaves the whole place out.
type Place = &'static [&'static str];

const MUS: Place = &["ymUş"];
const DU_SA: Place = &["yDU", "yDUm", "yDUn", "yDUk", "ysA", "ysAm", "ysAn", "ysAk"];
const DUR: Place = &["DUr"];
const LAR: Place = &["lAr"];
const MIDDLE: Place = &["sUnUz", "lAr", "yUm", "sUn", "yUz", ""];

// The branches in their order, from the front to the word's end.
const BRANCHES: &[&[Place]] = &[
    &[MUS],
    &[DU_SA],
    &[&["yken"]],
    &[MUS, MIDDLE, &["cAsInA"]],
    &[&["DUr", "ymUş", ""], LAR],
    &[DU_SA, LAR],
    &[DU_SA, &["nUz"]],
    &[&["ymUş", ""], &["sUnUz", "yUz", "sUn", "yUm"]],
    &[DUR],
    &[MUS, MIDDLE, DUR],
];

/// Every chain, in every spelling, on every front.
pub fn each<E>(visit: Visit<E>) -> Result<(), E> {
    let chains = all();
    let mut word = String::new();
    letters::each(2, &mut |front| {
        for chain in &chains {
            word.clear();
            word.push_str(front);
            word.push_str(chain);
            visit(&word)?;
        }
        Ok(())
    })
}

/// The chains of all branches.
pub fn all() -> Vec<String> {
    BRANCHES.iter().flat_map(chains).collect()
}

// The chains of a branch.
fn chains(places: &&[Place]) -> Vec<String> {
    places.iter().fold(vec![String::new()], longer)
}

// Each chain with each form of one more place.
fn longer(chains: Vec<String>, place: &Place) -> Vec<String> {
    let forms = forms(place);
    chains
        .iter()
        .flat_map(|chain| forms.iter().map(move |form| format!("{chain}{form}")))
        .collect()
}

// The spellings of a place's suffixes, those of a leading y with it and without.
fn forms(place: &Place) -> Vec<String> {
    let mut forms = Vec::new();
    for suffix in *place {
        forms.extend(spellings(suffix));
        if let Some(rest) = suffix.strip_prefix('y') {
            forms.extend(spellings(rest));
        }
    }
    forms
}

#[cfg(test)]
mod tests {
    use super::*;
    #[cfg(feature = "oracle")]
    use std::collections::BTreeSet;

    #[test]
    fn chains_are_all_there() {
        let all = all();
        for chain in ["yken", "ymışsınızcasına", "müştür", "seler", "tınız", "sun"] {
            assert!(all.contains(&chain.to_string()), "{chain}");
        }
        let one = 8 + 64 + 16 + 2;
        let two = 8 * 27 * 2;
        let three = (8 + 8 + 1 + 80) * 2;
        let four = 80 * 4;
        let five = 9 * 24;
        let six = (8 * 27 + 1) * 8;
        assert_eq!(all.len(), one + two + three + four + five + six);
    }

    #[cfg(feature = "oracle")]
    #[test]
    fn every_branch_has_a_chain_that_is_taken_whole() {
        let taken = |chain: &String| {
            let kept = |word: String| oracle::stem_nominal_verb_suffixes(&word).text.len();
            let whole = |front: &&str| kept(format!("{front}{chain}")) == front.len();
            ["a", "ab", "aba"].iter().any(whole)
        };
        for branch in BRANCHES {
            assert!(chains(branch).iter().any(taken), "{branch:?}");
        }
    }

    #[cfg(feature = "oracle")]
    #[test]
    fn chains_have_all_pieces_that_a_branch_can_keep() {
        let mut kept = BTreeSet::new();
        let mut joints = BTreeSet::new();
        for chain in all() {
            for front in ["", "a", "ab"] {
                let list = oracle::pieces(&format!("{front}{chain}")).list;
                joints.extend(list.iter().map(|p| format!("{} {:?}", p.name, p.joined)));
                kept.insert(list.iter().map(|p| p.kind).collect::<Vec<_>>());
            }
        }
        // Nothing, and what each branch can keep.
        assert_eq!(kept.len(), 1 + 4 + 6 + 5 + 2 + 8 + 7);
        // Six kinds stand alone, six join in two ways.
        assert_eq!(joints.len(), 6 + 6 * 2);
    }

    #[cfg(feature = "oracle")]
    #[test]
    fn every_partner_is_found_near_and_past_another_vowel() {
        let endings = [forms(&LAR), forms(&DUR)].concat();
        let mut pairs = BTreeSet::new();
        let _: Result<(), ()> = letters::each(2, &mut |front| {
            for ending in &endings {
                let word = format!("{front}{ending}");
                let letter = |place: usize| word[place..].chars().next();
                let found = oracle::harmony(&word, &oracle::pieces(&word).list);
                pairs.extend(found.map(|h| (letter(h.last), letter(h.partner), h.loan)));
            }
            Ok(())
        });
        // a and e have four partners, the other vowels of the keys two.
        assert_eq!(pairs.len(), 2 * (2 * 4 + 4 * 2));
    }
}

//! The characters of a word and the byte places between them, as the standard library gives them.

/// A word's code points, the byte place before each and after the last, and ranges of its characters.
#[derive(Default)]
pub struct Places {
    pub places: Vec<usize>,
    pub points: Vec<u32>,
    /// Pairs of character numbers between which a record's limits are put.
    pub ranges: Vec<(usize, usize)>,
}

impl Places {
    /// Takes another word in place of the one before.
    pub fn read(&mut self, word: &str) {
        self.places.clear();
        self.points.clear();
        for (place, ch) in word.char_indices() {
            self.places.push(place);
            self.points.push(ch as u32);
        }
        self.places.push(word.len());
        self.set_ranges();
    }

    // The whole word and ranges that end inside it; in a word of up to four characters, all there
    // are.
    fn set_ranges(&mut self) {
        let last = self.points.len();
        let marks = [0, 1, last / 2, last.saturating_sub(1), last];
        self.ranges.clear();
        for (i, &from) in marks.iter().enumerate() {
            let ends = marks[i..].iter().filter(|&&to| from <= to && to <= last);
            self.ranges.extend(ends.map(|&to| (from, to)));
        }
        self.ranges.sort_unstable();
        self.ranges.dedup();
    }
}

#[cfg(test)]
mod tests {
    use super::Places;

    fn read(word: &str) -> Places {
        let mut places = Places::default();
        places.read(word);
        places
    }

    #[test]
    fn places_stand_between_characters() {
        let places = read("aı乡");
        assert_eq!(places.places, [0, 1, 3, 6]);
        assert_eq!(places.points, [0x61, 0x131, 0x4E61]);
    }

    #[test]
    fn short_words_have_every_range() {
        assert_eq!(read("").ranges, [(0, 0)]);
        assert_eq!(read("a").ranges, [(0, 0), (0, 1), (1, 1)]);
        assert_eq!(read("ab").ranges.len(), 3 * 4 / 2);
        assert_eq!(read("abc").ranges.len(), 4 * 5 / 2);
        assert_eq!(read("abcd").ranges.len(), 5 * 6 / 2);
        assert_eq!(read("abcdefgh").ranges.len(), 5 * 6 / 2);
    }
}

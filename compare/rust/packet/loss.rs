//! Stands in for the compressed loss list: the words of a report, and the walk
//! over the numbers that they name (document 01, Loss words). The words are
//! well formed.

use super::SeqNumber;

#[derive(Clone, Debug)]
pub struct CompressedLossList(pub Vec<u32>);

impl CompressedLossList {
    pub fn into_iter_decompressed(self) -> Decompressed {
        Decompressed { words: self.0.into_iter(), left: None }
    }
}

/// The numbers one by one; `left` is the rest of the range being walked: its
/// next number and how many follow that.
pub struct Decompressed {
    words: std::vec::IntoIter<u32>,
    left: Option<(SeqNumber, u32)>,
}

impl Iterator for Decompressed {
    type Item = SeqNumber;

    fn next(&mut self) -> Option<SeqNumber> {
        const RANGE: u32 = 1 << 31;
        let (number, more) = match self.left.take() {
            Some(left) => left,
            None => {
                let word = self.words.next()?;
                let number = SeqNumber::new_truncate(word);
                if word & RANGE == 0 {
                    (number, 0)
                } else {
                    let last = SeqNumber::new_truncate(self.words.next()?);
                    (number, last - number)
                }
            }
        };
        if more > 0 {
            self.left = Some((number + 1, more - 1));
        }
        Some(number)
    }
}

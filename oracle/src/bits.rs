//! Sets of small numbers, one bit a number.

#[derive(Clone, Debug, PartialEq, Eq)]
pub struct BitSet {
    words: Vec<u64>,
}

impl BitSet {
    /// The empty set of numbers below `size`.
    pub fn empty(size: usize) -> Self {
        BitSet { words: vec![0; size.div_ceil(64)] }
    }

    /// All numbers below `size`.
    pub fn full(size: usize) -> Self {
        let mut set = BitSet { words: vec![u64::MAX; size.div_ceil(64)] };
        if !size.is_multiple_of(64) {
            *set.words.last_mut().expect("size is not 0") = (1 << (size % 64)) - 1;
        }
        set
    }

    pub fn insert(&mut self, number: usize) {
        self.words[number / 64] |= 1 << (number % 64);
    }

    pub fn contains(&self, number: usize) -> bool {
        self.words[number / 64] >> (number % 64) & 1 == 1
    }

    pub fn intersect(&mut self, other: &BitSet) {
        for (word, more) in self.words.iter_mut().zip(&other.words) {
            *word &= more;
        }
    }

    /// The members in ascending order.
    pub fn iter(&self) -> impl Iterator<Item = usize> + '_ {
        self.words.iter().enumerate().flat_map(|(index, &word)| {
            let next = |w: &u64| Some(w & (w - 1)).filter(|&w| w != 0);
            let rest = std::iter::successors(Some(word).filter(|&w| w != 0), next);
            rest.map(move |w| index * 64 + w.trailing_zeros() as usize)
        })
    }
}

/// Rows become columns; `width` is the size of each given row.
pub fn transpose(rows: &[BitSet], width: usize) -> Vec<BitSet> {
    let mut columns = vec![BitSet::empty(rows.len()); width];
    for (row, set) in rows.iter().enumerate() {
        for column in set.iter() {
            columns[column].insert(row);
        }
    }
    columns
}

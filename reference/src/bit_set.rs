//! A set of class numbers, equal by members and walked upward: our stand-in for the crate of that name.

#[derive(Clone, Debug, Default)]
pub struct BitSet {
    words: Vec<u64>,
}

impl BitSet {
    pub fn with_capacity(_members: usize) -> BitSet {
        BitSet { words: Vec::new() }
    }

    pub fn insert(&mut self, member: usize) -> bool {
        let word = member / 64;
        if word >= self.words.len() {
            self.words.resize(word + 1, 0);
        }
        let bit = 1u64 << (member % 64);
        let new = self.words[word] & bit == 0;
        self.words[word] |= bit;
        new
    }

    pub fn contains(&self, member: usize) -> bool {
        self.words.get(member / 64).map_or(false, |word| word >> (member % 64) & 1 == 1)
    }

    pub fn union_with(&mut self, other: &BitSet) {
        for member in other.iter() {
            self.insert(member);
        }
    }

    pub fn iter(&self) -> impl Iterator<Item = usize> + '_ {
        (0..self.words.len() * 64).filter(move |member| self.contains(*member))
    }

    pub fn len(&self) -> usize {
        self.words.iter().map(|word| word.count_ones() as usize).sum()
    }
}

impl PartialEq for BitSet {
    fn eq(&self, other: &BitSet) -> bool {
        self.iter().eq(other.iter())
    }
}

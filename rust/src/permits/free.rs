//! Sets of workers.

/// How many workers a word has.
const WORD: u32 = u64::BITS;

/// A set of workers, with a bit for each.
pub(crate) struct WorkerSet {
    words: Vec<u64>,
}

impl WorkerSet {
    /// All workers with numbers below this.
    pub(crate) fn below(count: u32) -> WorkerSet {
        let mut set = WorkerSet { words: vec![0; count.div_ceil(WORD) as usize] };
        (0..count).for_each(|worker| set.insert(worker));
        set
    }

    pub(crate) fn insert(&mut self, worker: u32) {
        self.words[(worker / WORD) as usize] |= 1 << (worker % WORD);
    }

    pub(crate) fn remove(&mut self, worker: u32) {
        self.words[(worker / WORD) as usize] &= !(1 << (worker % WORD));
    }

    pub(crate) fn lowest(&self) -> Option<u32> {
        let place = self.words.iter().position(|word| *word != 0)?;
        Some(place as u32 * WORD + self.words[place].trailing_zeros())
    }

    /// The highest with a number below this.
    pub(crate) fn highest_below(&self, bound: u32) -> Option<u32> {
        let highest = |place: usize, word: u64| place as u32 * WORD + WORD - 1 - word.leading_zeros();
        let (whole, rest) = ((bound / WORD) as usize, bound % WORD);
        match self.words.get(whole).map_or(0, |word| word & ((1 << rest) - 1)) {
            0 => self.words[..whole].iter().rposition(|word| *word != 0).map(|place| highest(place, self.words[place])),
            part => Some(highest(whole, part)),
        }
    }
}

#[cfg(test)]
mod tests {
    use super::WorkerSet;

    #[test]
    fn the_lowest_and_the_highest_are_found_in_any_word() {
        for count in [1, 2, 63, 64, 65, 128, 4096] {
            let mut set = WorkerSet::below(count);
            assert_eq!(
                (set.lowest(), set.highest_below(count), set.highest_below(0)),
                (Some(0), Some(count - 1), None)
            );
            for worker in 0..count {
                assert_eq!(set.highest_below(worker + 1), Some(worker));
                set.remove(worker);
                assert_eq!(set.lowest(), (worker + 1 < count).then_some(worker + 1));
                assert_eq!(set.highest_below(worker + 1), None);
            }
            set.insert(count - 1);
            assert_eq!((set.lowest(), set.highest_below(count)), (Some(count - 1), Some(count - 1)));
        }
    }
}

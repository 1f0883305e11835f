//! Trees of winners, and the two of a worker.

#[derive(Clone, Copy, PartialEq, Eq, PartialOrd, Ord)]
pub struct Key {
    pub a: i128,
    pub b: i128,
    pub c: u32,
}

pub struct Tree {
    pub keys: Vec<Option<Key>>,
    pub winners: Vec<Option<u32>>,
    pub marks: Vec<bool>,
}

impl Tree {
    pub fn new(leaves: usize) -> Tree {
        Tree {
            keys: vec![None; leaves],
            winners: vec![None; 2 * leaves.next_power_of_two()],
            marks: vec![false; leaves],
        }
    }
    pub fn set(&mut self, leaf: u32, key: Option<Key>) {
        if !self.marks[leaf as usize] && key.is_none() {
            return;
        }
        self.marks[leaf as usize] = key.is_some();
        self.keys[leaf as usize] = key;
        let mut node = self.winners.len() / 2 + leaf as usize;
        let mut winner = key.map(|_| leaf);
        loop {
            if self.winners[node] == winner && winner != Some(leaf) {
                return;
            }
            self.winners[node] = winner;
            if node == 1 {
                return;
            }
            winner = match (winner, self.winners[node ^ 1]) {
                (Some(l), Some(r)) => {
                    let (x, y) = (self.keys[l as usize].unwrap(), self.keys[r as usize].unwrap());
                    Some(if (x, l) < (y, r) { l } else { r })
                }
                (l, r) => l.or(r),
            };
            node /= 2;
        }
    }
    pub fn first(&self) -> Option<(u32, Key)> {
        let leaf = self.winners[1]?;
        Some((leaf, self.keys[leaf as usize].unwrap()))
    }
}

pub struct WorkerTrees {
    pub later: Tree,
    pub eligible: Tree,
    pub noted: Vec<u32>,
    pub is_noted: Vec<bool>,
}

impl WorkerTrees {
    pub fn open(count: usize) -> WorkerTrees {
        WorkerTrees {
            later: Tree::new(count),
            eligible: Tree::new(count),
            noted: Vec::with_capacity(count),
            is_noted: vec![false; count],
        }
    }
}

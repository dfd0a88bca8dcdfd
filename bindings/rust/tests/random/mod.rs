// each file of tests uses a part
#![allow(dead_code)]

use minorder::Tables;

/// The same numbers at each run.
pub struct Random(pub u64);

impl Random {
    pub fn word(&mut self) -> u64 {
        self.0 ^= self.0 << 13;
        self.0 ^= self.0 >> 7;
        self.0 ^= self.0 << 17;
        self.0
    }

    /// A number below `most`.
    pub fn below(&mut self, most: usize) -> usize {
        usize::try_from(self.word() % most as u64).unwrap()
    }

    pub fn tables(&mut self, inputs: usize, outputs: usize) -> Tables {
        let words = outputs * (1 << inputs).max(64) / 64;
        Tables::from_words(inputs, outputs, (0..words).map(|_| self.word()).collect()).unwrap()
    }

    pub fn order(&mut self, inputs: usize) -> Vec<u8> {
        let mut order: Vec<u8> = (0..16).take(inputs).collect();
        (1..inputs).for_each(|at| order.swap(at, self.below(at + 1)));
        order
    }
}

//! Random ISRC keys and orders of them, from fixed seeds: the same for every contender and every run of the program.
use std::collections::BTreeSet;

const TAIL: u64 = 10_000_000;

/// SplitMix64: small, and good enough to spread keys.
pub struct Random(u64);

impl Random {
    pub fn new(seed: u64) -> Random {
        Random(seed)
    }

    pub fn word(&mut self) -> u64 {
        self.0 = self.0.wrapping_add(0x9e37_79b9_7f4a_7c15);
        let mut z = self.0;
        z = (z ^ (z >> 30)).wrapping_mul(0xbf58_476d_1ce4_e5b9);
        z = (z ^ (z >> 27)).wrapping_mul(0x94d0_49bb_1331_11eb);
        z ^ (z >> 31)
    }

    pub fn below(&mut self, bound: u64) -> u64 {
        ((self.word() as u128 * bound as u128) >> 64) as u64
    }

    pub fn shuffle<T>(&mut self, items: &mut [T]) {
        for i in (1..items.len()).rev() {
            items.swap(i, self.below(i as u64 + 1) as usize);
        }
    }

    /// The key of a random code: two letters, three letters or digits, seven digits.
    fn code(&mut self) -> u64 {
        let letters = (0..2).fold(0, |k, _| 36 * k + 10 + self.below(26));
        let head = (0..3).fold(letters, |k, _| 36 * k + self.below(36));
        TAIL * head + self.below(TAIL)
    }
}

/// Keys that are in the map, in the order of their insertion, and as many others that are absent.
pub struct Keys {
    pub present: Vec<u64>,
    pub absent: Vec<u64>,
}

impl Keys {
    pub fn new(random: &mut Random, present: usize, absent: usize) -> Keys {
        let mut seen = BTreeSet::new();
        let mut all = Vec::with_capacity(present + absent);
        while all.len() < present + absent {
            let key = random.code();
            if seen.insert(key) {
                all.push(key);
            }
        }
        let absent = all.split_off(present);
        Keys { present: all, absent }
    }

    /// Pairs in the order of insertion; recordings are 1, 2, ..
    pub fn pairs(&self) -> Vec<(u64, u64)> {
        self.present.iter().zip(1..).map(|(&key, recording)| (key, recording)).collect()
    }
}

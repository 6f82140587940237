//! What tests of random histories share: numbers without a pattern, and how often each answer came.

use std::collections::HashMap;

/// Numbers without a pattern, the same each time.
pub struct Random(pub u64);

impl Random {
    pub fn below(&mut self, end: usize) -> usize {
        let state = self.0.wrapping_mul(6_364_136_223_846_793_005);
        self.0 = state.wrapping_add(1_442_695_040_888_963_407);
        (self.0 >> 33) as usize % end
    }

    pub fn pick<T: Copy>(&mut self, some: &[T]) -> T {
        some[self.below(some.len())]
    }
}

/// How often each word came.
#[derive(Default)]
pub struct Tally(pub HashMap<String, usize>);

impl Tally {
    pub fn add(&mut self, word: String) {
        *self.0.entry(word).or_default() += 1;
    }

    pub fn assert_all(&self, words: &[&str], least: usize) {
        for word in words {
            let times = self.0.get(*word).copied().unwrap_or(0);
            assert!(times >= least, "{word}: {times} times only");
        }
    }
}

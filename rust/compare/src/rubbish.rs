//! Bytes that no answer may depend on.

use cases::random::Random;

const POOL: usize = 1 << 18;

/// Random bytes, made once; each use starts at another place of them.
pub struct Rubbish {
    pool: Vec<u8>,
    pub random: Random,
}

impl Rubbish {
    pub fn new(seed: u64) -> Rubbish {
        let mut random = Random::new(seed);
        let pool = (0..POOL / 8).flat_map(|_| random.word().to_le_bytes()).collect();
        Rubbish { pool, random }
    }

    /// Appends so many bytes.
    pub fn extend(&mut self, bytes: &mut Vec<u8>, count: usize) {
        let mut left = count;
        while left > 0 {
            let start = self.random.below(POOL);
            let part = left.min(POOL - start);
            bytes.extend_from_slice(&self.pool[start..start + part]);
            left -= part;
        }
    }
}

#[cfg(test)]
mod tests {
    use super::*;

    #[test]
    fn each_use_gives_other_bytes() {
        let mut rubbish = Rubbish::new(1);
        let [mut first, mut second] = [Vec::new(), Vec::new()];
        rubbish.extend(&mut first, 3 * POOL);
        rubbish.extend(&mut second, 3 * POOL);
        assert_eq!(first.len(), 3 * POOL);
        assert_ne!(first, second);
    }
}

//! Random numbers from a seed.

pub struct Random(u64);

impl Random {
    pub fn new(seed: u64, number: u64) -> Random {
        let mut random = Random(seed);
        let start = random.next() ^ number.wrapping_mul(0xD6E8_FEB8_6659_FD93);
        Random(start)
    }

    pub fn next(&mut self) -> u64 {
        self.0 = self.0.wrapping_add(0x9E37_79B9_7F4A_7C15);
        let mut z = self.0;
        z = (z ^ (z >> 30)).wrapping_mul(0xBF58_476D_1CE4_E5B9);
        z = (z ^ (z >> 27)).wrapping_mul(0x94D0_49BB_1331_11EB);
        z ^ (z >> 31)
    }

    /// From 0 to below `n`.
    pub fn below(&mut self, n: usize) -> usize {
        ((u128::from(self.next()) * n as u128) >> 64) as usize
    }

    /// Both ends belong to the range.
    pub fn from_to(&mut self, low: i128, high: i128) -> i128 {
        low + ((u128::from(self.next()) * (high - low + 1) as u128) >> 64) as i128
    }

    /// True in `percent` of 100 cases.
    pub fn chance(&mut self, percent: usize) -> bool {
        self.below(100) < percent
    }

    pub fn pick<T: Clone>(&mut self, of: &[T]) -> T {
        of[self.below(of.len())].clone()
    }

    /// One of the items, each as often as its weight says.
    pub fn weighted<T: Clone>(&mut self, of: &[(usize, T)]) -> T {
        let mut left = self.below(of.iter().map(|(weight, _)| weight).sum());
        for (weight, item) in of {
            if left < *weight {
                return item.clone();
            }
            left -= weight;
        }
        unreachable!()
    }

    /// `size` different bytes of those given, or all of them.
    pub fn some_of(&mut self, of: &[u8], size: usize) -> Vec<u8> {
        let mut left = of.to_vec();
        let mut some = Vec::new();
        while some.len() < size && !left.is_empty() {
            let at = self.below(left.len());
            some.push(left.swap_remove(at));
        }
        some
    }
}

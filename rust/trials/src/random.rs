//! Numbers from a seed (SplitMix64), the same on every machine.

pub struct Random(u64);

impl Random {
    /// A stream of its own for each seed and case.
    pub fn new(seed: u64, case: u64) -> Self {
        let mut mixed = Random(seed ^ case.wrapping_mul(0xd134_2543_de82_ef95));
        mixed.next();
        mixed
    }

    pub fn next(&mut self) -> u64 {
        self.0 = self.0.wrapping_add(0x9e37_79b9_7f4a_7c15);
        let mut z = self.0;
        z = (z ^ (z >> 30)).wrapping_mul(0xbf58_476d_1ce4_e5b9);
        z = (z ^ (z >> 27)).wrapping_mul(0x94d0_49bb_1331_11eb);
        z ^ (z >> 31)
    }

    /// From 0 to below n; 0 where n is 0.
    pub fn below(&mut self, n: u64) -> u64 {
        if n == 0 {
            0
        } else {
            self.next() % n
        }
    }

    /// From a to b, both taken in.
    pub fn within(&mut self, a: u64, b: u64) -> u64 {
        a + self.below(b - a + 1)
    }

    /// True once in n.
    pub fn once_in(&mut self, n: u64) -> bool {
        self.below(n) == 0
    }

    pub fn pick<T: Copy>(&mut self, from: &[T]) -> T {
        from[self.below(from.len() as u64) as usize]
    }

    /// True so many times in a hundred.
    pub fn percent(&mut self, n: u64) -> bool {
        self.below(100) < n
    }

    /// From a to b, both taken in.
    pub fn count(&mut self, a: usize, b: usize) -> usize {
        self.within(a as u64, b as u64) as usize
    }

    /// Half the time one of the edges, else anything from a to b.
    pub fn near(&mut self, edges: &[u64], a: u64, b: u64) -> u64 {
        if self.once_in(2) {
            self.pick(edges)
        } else {
            self.within(a, b)
        }
    }

    pub fn octets(&mut self, n: usize) -> Vec<u8> {
        (0..n).map(|_| self.next() as u8).collect()
    }
}

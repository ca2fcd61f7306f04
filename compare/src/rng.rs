//! Random numbers from a fixed seed: xorshift64*.

pub struct Rng(u64);

impl Rng {
    /// The seed must not be 0.
    pub fn new(seed: u64) -> Self {
        assert_ne!(seed, 0);
        Rng(seed)
    }

    pub fn bits(&mut self) -> u64 {
        self.0 ^= self.0 >> 12;
        self.0 ^= self.0 << 25;
        self.0 ^= self.0 >> 27;
        self.0.wrapping_mul(0x2545_F491_4F6C_DD1D)
    }

    /// From 0 to `n` − 1. The slight unevenness does no harm here.
    pub fn below(&mut self, n: usize) -> usize {
        ((u128::from(self.bits()) * n as u128) >> 64) as usize
    }

    /// From `low` to `high`, both included.
    pub fn between(&mut self, low: i32, high: i32) -> i32 {
        let span = i64::from(high) - i64::from(low) + 1;
        (i64::from(low) + self.below(span as usize) as i64) as i32
    }

    /// True once in `n`.
    pub fn once_in(&mut self, n: usize) -> bool {
        self.below(n) == 0
    }

    /// One of the list.
    pub fn pick<T: Copy>(&mut self, list: &[T]) -> T {
        list[self.below(list.len())]
    }

    /// Puts the list into another order.
    pub fn shuffle<T>(&mut self, list: &mut [T]) {
        for at in (1..list.len()).rev() {
            list.swap(at, self.below(at + 1));
        }
    }

    /// A value's size, 0 to 10,000, each order of magnitude as likely as the next.
    pub fn size(&mut self) -> i32 {
        let digits = self.below(15);
        self.below(1 << digits).min(10_000) as i32
    }

    /// Any i32.
    pub fn any(&mut self) -> i32 {
        self.bits() as i32
    }

    /// So many bytes of any kind.
    pub fn bytes(&mut self, length: usize) -> Vec<u8> {
        (0..length).map(|_| self.bits() as u8).collect()
    }
}

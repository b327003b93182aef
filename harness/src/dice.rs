//! A small source of numbers that are the same every time.

/// The source: an xorshift generator.
#[derive(Clone, Debug)]
pub struct Dice(u64);

impl Dice {
    /// Dice that go on from this number, which must not be 0.
    pub fn from(start: u64) -> Dice {
        assert!(start != 0, "from 0 only zeros follow");
        Dice(start)
    }

    /// Dice for a seed, which may be any number. The seed is mixed first, so
    /// that neighbouring seeds have nothing in common.
    pub fn seeded(seed: u64) -> Dice {
        let mut mixed = seed.wrapping_add(0x9e37_79b9_7f4a_7c15);
        mixed = (mixed ^ (mixed >> 30)).wrapping_mul(0xbf58_476d_1ce4_e5b9);
        mixed = (mixed ^ (mixed >> 27)).wrapping_mul(0x94d0_49bb_1331_11eb);
        Dice::from((mixed ^ (mixed >> 31)).max(1))
    }

    /// Any 64 bits.
    pub fn bits(&mut self) -> u64 {
        self.0 ^= self.0 << 13;
        self.0 ^= self.0 >> 7;
        self.0 ^= self.0 << 17;
        self.0
    }

    /// Any 32 bits.
    pub fn number(&mut self) -> u32 {
        (self.bits() >> 20) as u32
    }

    /// A number below `n`.
    pub fn below(&mut self, n: usize) -> usize {
        ((self.bits() >> 20) % n as u64) as usize
    }

    /// True once in `n` times.
    pub fn once_in(&mut self, n: usize) -> bool {
        self.below(n) == 0
    }

    /// One of these.
    pub fn one<T: Copy>(&mut self, of: &[T]) -> T {
        of[self.below(of.len())]
    }

    /// The numbers below `k` in some order.
    pub fn order(&mut self, k: usize) -> Vec<u8> {
        let mut order: Vec<u8> = (0..k as u8).collect();
        for i in (1..k).rev() {
            order.swap(i, self.below(i + 1));
        }
        order
    }

    /// So many bytes, about one in three not 0.
    pub fn marks(&mut self, length: usize) -> Vec<u8> {
        (0..length).map(|_| self.one(&[0, 0, 0, 0, 1, 7])).collect()
    }
}

#[cfg(test)]
mod tests {
    use super::*;

    #[test]
    fn the_same_every_time() {
        let numbers = |seed| {
            let mut dice = Dice::seeded(seed);
            [dice.bits(), dice.bits()]
        };
        assert_eq!(numbers(5), numbers(5));
        assert_ne!(numbers(5), numbers(6));
        assert_ne!(numbers(0), numbers(u64::MAX));
    }

    #[test]
    fn orders_are_orders() {
        let mut dice = Dice::seeded(1);
        for k in 1..=8 {
            let mut order = dice.order(k);
            order.sort();
            assert_eq!(order, (0..k as u8).collect::<Vec<u8>>());
        }
    }
}

//! Random numbers from a seed (splitmix64), so that a printed seed makes a case again.

/// A row of numbers that depends on the seed alone.
#[derive(Clone)]
pub struct Random(u64);

impl Random {
    /// The row of this seed.
    pub fn new(seed: u64) -> Random {
        Random(seed)
    }

    /// The row of the n-th case of a seed; neighbours have nothing in common.
    pub fn nth(seed: u64, n: u64) -> Random {
        let mut first = Random(seed);
        let mix = first.next_number();
        Random(mix ^ n.wrapping_mul(0xD134_2543_DE82_EF95))
    }

    /// The next number.
    pub fn next_number(&mut self) -> u64 {
        self.0 = self.0.wrapping_add(0x9E37_79B9_7F4A_7C15);
        let mut z = self.0;
        z = (z ^ (z >> 30)).wrapping_mul(0xBF58_476D_1CE4_E5B9);
        z = (z ^ (z >> 27)).wrapping_mul(0x94D0_49BB_1331_11EB);
        z ^ (z >> 31)
    }

    /// A number from 0 to n - 1.
    pub fn below(&mut self, n: usize) -> usize {
        (self.next_number() % n as u64) as usize
    }

    /// True so many times out of so many.
    pub fn chance(&mut self, times: usize, out_of: usize) -> bool {
        self.below(out_of) < times
    }

    /// One of these.
    pub fn pick<'a, T>(&mut self, from: &'a [T]) -> &'a T {
        &from[self.below(from.len())]
    }

    /// Any id at all.
    pub fn any_id(&mut self) -> i32 {
        self.next_number() as i32
    }

    /// Bytes without any sense for a list whose entries have so many; small values are common,
    /// and half the lists are whole.
    pub fn noise(&mut self, unit: usize) -> Vec<u8> {
        let parts = self.below(6);
        let loose = if self.chance(1, 2) { self.below(unit) } else { 0 };
        let most = *self.pick(&[2, 4, 30, 256]);
        (0..parts * unit + loose).map(|_| self.below(most) as u8).collect()
    }
}

//! A small generator of numbers (splitmix64): the same seed gives the same files on every machine.

pub struct Prng(u64);

impl Prng {
    pub fn new(seed: u64) -> Self {
        Prng(seed)
    }

    /// The numbers of file `index` of a run, independent of the files before it.
    pub fn of_file(seed: u64, index: u64) -> Self {
        let mut start = Prng::new(seed);
        let a = start.next();
        let mut own = Prng::new(a ^ index.wrapping_mul(0xD1B5_4A32_D192_ED03));
        own.next();
        own
    }

    pub fn next(&mut self) -> u64 {
        self.0 = self.0.wrapping_add(0x9E37_79B9_7F4A_7C15);
        let mut z = self.0;
        z = (z ^ (z >> 30)).wrapping_mul(0xBF58_476D_1CE4_E5B9);
        z = (z ^ (z >> 27)).wrapping_mul(0x94D0_49BB_1331_11EB);
        z ^ (z >> 31)
    }

    /// A number below `bound`; 0 if `bound` is 0.
    pub fn below(&mut self, bound: usize) -> usize {
        if bound == 0 {
            return 0;
        }
        ((self.next() >> 32) * bound as u64 >> 32) as usize
    }

    /// True in `percent` of a hundred cases.
    pub fn chance(&mut self, percent: usize) -> bool {
        self.below(100) < percent
    }

    pub fn pick<T: Copy>(&mut self, of: &[T]) -> T {
        of[self.below(of.len())]
    }

    pub fn byte(&mut self) -> u8 {
        if self.chance(40) {
            self.pick(&[0, 1, 2, 0x7F, 0x80, 0xFE, 0xFF])
        } else {
            self.next() as u8
        }
    }

    pub fn u16(&mut self) -> u16 {
        match self.below(4) {
            0 => self.pick(&[0, 1, 2, 0x7FFF, 0x8000, 0xFFFE, 0xFFFF]),
            1 => self.below(300) as u16,
            _ => self.next() as u16,
        }
    }

    pub fn u32(&mut self) -> u32 {
        match self.below(4) {
            0 => self.pick(&[0, 1, 0xFFFF, 0x1_0000, 0x7FFF_FFFF, 0x8000_0000, 0xFFFF_FFFF]),
            1 => self.below(300) as u32,
            _ => self.next() as u32,
        }
    }

    pub fn u64(&mut self) -> u64 {
        match self.below(4) {
            0 => self.pick(&[0, 1, 0xFFFF_FFFF, 1 << 32, i64::MAX as u64, 1 << 63, u64::MAX]),
            1 => self.below(1_000_000) as u64,
            _ => self.next(),
        }
    }

    pub fn bytes(&mut self, count: usize) -> Vec<u8> {
        (0..count).map(|_| self.byte()).collect()
    }
}

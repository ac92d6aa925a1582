//! Numbers from a seed (splitmix64). The same seed gives the same numbers everywhere.

pub struct Random(u64);

impl Random {
    pub fn new(seed: u64) -> Random {
        Random(seed)
    }

    fn next(&mut self) -> u64 {
        self.0 = self.0.wrapping_add(0x9E37_79B9_7F4A_7C15);
        let mut mixed = self.0;
        mixed = (mixed ^ (mixed >> 30)).wrapping_mul(0xBF58_476D_1CE4_E5B9);
        mixed = (mixed ^ (mixed >> 27)).wrapping_mul(0x94D0_49BB_1331_11EB);
        mixed ^ (mixed >> 31)
    }

    /// 0 to `limit` − 1. The slight preference of the remainder for low numbers does no harm here.
    pub fn below(&mut self, limit: usize) -> usize {
        assert!(limit > 0);
        (self.next() % limit as u64) as usize
    }

    /// Both ends included.
    pub fn between(&mut self, low: i64, high: i64) -> i64 {
        assert!(low <= high);
        low + (self.next() % (high - low + 1) as u64) as i64
    }

    pub fn count(&mut self, low: usize, high: usize) -> usize {
        low + self.below(high - low + 1)
    }

    pub fn chance(&mut self, percent: usize) -> bool {
        self.below(100) < percent
    }

    pub fn sign(&mut self) -> i64 {
        if self.chance(50) {
            1
        } else {
            -1
        }
    }

    pub fn byte(&mut self) -> u8 {
        self.below(256) as u8
    }

    pub fn pick<T: Copy>(&mut self, choices: &[T]) -> T {
        choices[self.below(choices.len())]
    }

    /// One of the choices, by percentages that add to 100.
    pub fn pick_by_percent<T: Copy>(&mut self, choices: &[(usize, T)]) -> T {
        let mut left = self.below(100);
        for (percent, choice) in choices {
            if left < *percent {
                return *choice;
            }
            left -= percent;
        }
        unreachable!("the percentages add to 100")
    }

    /// A place of a list: the first, the last or any, since faults like to hide at the ends.
    pub fn place(&mut self, length: usize) -> usize {
        match self.below(3) {
            0 => 0,
            1 => length - 1,
            _ => self.below(length),
        }
    }

    pub fn shuffle<T>(&mut self, list: &mut [T]) {
        for end in (1..list.len()).rev() {
            list.swap(end, self.below(end + 1));
        }
    }
}

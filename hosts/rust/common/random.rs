//! Random numbers from a seed (splitmix64): the same numbers on every machine.

pub struct Random {
    state: u64,
}

impl Random {
    /// The generator of one test: tests of one seed differ, and none needs those before it.
    pub fn new(seed: u64, index: u64) -> Random {
        let mut random = Random { state: seed };
        let a = random.word();
        random.state = a ^ index.wrapping_mul(0xd605_1a4c_9b4e_73a5);
        random
    }

    pub fn word(&mut self) -> u64 {
        self.state = self.state.wrapping_add(0x9e37_79b9_7f4a_7c15);
        let mut z = self.state;
        z = (z ^ (z >> 30)).wrapping_mul(0xbf58_476d_1ce4_e5b9);
        z = (z ^ (z >> 27)).wrapping_mul(0x94d0_49bb_1331_11eb);
        z ^ (z >> 31)
    }

    /// A number below `n`, which is above 0.
    pub fn below(&mut self, n: usize) -> usize {
        (self.word() % n as u64) as usize
    }

    /// Yes once in `n` times.
    pub fn once_in(&mut self, n: usize) -> bool {
        self.below(n) == 0
    }

    /// A turn's budget: none, one step, all there is, and anything between.
    pub fn budget(&mut self) -> u32 {
        match self.below(9) {
            0 => 0,
            1 => 1,
            2 => u32::MAX,
            3 => self.word() as u32,
            4 => self.of(&[1 << 8, 1 << 16, 1 << 24, 1 << 31]),
            _ => self.below(200) as u32,
        }
    }

    pub fn of<T: Copy>(&mut self, things: &[T]) -> T {
        things[self.below(things.len())]
    }
}

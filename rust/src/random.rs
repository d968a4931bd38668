//! A small seeded source of numbers (splitmix64), so that every generated run repeats.

pub struct Random {
    state: u64,
}

impl Random {
    pub fn new(seed: u64) -> Random {
        Random { state: seed }
    }

    pub fn draw(&mut self) -> u64 {
        self.state = self.state.wrapping_add(0x9E37_79B9_7F4A_7C15);
        let mut mixed = self.state;
        mixed = (mixed ^ (mixed >> 30)).wrapping_mul(0xBF58_476D_1CE4_E5B9);
        mixed = (mixed ^ (mixed >> 27)).wrapping_mul(0x94D0_49BB_1331_11EB);
        mixed ^ (mixed >> 31)
    }

    /// A number below the bound, or 0 if there is none.
    pub fn below(&mut self, bound: usize) -> usize {
        match bound {
            0 => 0,
            _ => (self.draw() % bound as u64) as usize,
        }
    }

    /// A number from low to high, both included.
    pub fn between(&mut self, low: usize, high: usize) -> usize {
        low + self.below((high + 1).saturating_sub(low))
    }

    /// True in so many of a hundred cases.
    pub fn percent(&mut self, share: usize) -> bool {
        self.below(100) < share
    }

    pub fn byte(&mut self) -> u8 {
        self.draw() as u8
    }

    /// One of the choices, of which there is at least one.
    pub fn pick<T: Copy>(&mut self, choices: &[T]) -> T {
        choices[self.below(choices.len())]
    }

    pub fn shuffle<T>(&mut self, items: &mut [T]) {
        for last in (1..items.len()).rev() {
            items.swap(last, self.below(last + 1));
        }
    }

    /// A value that is often one of those where arithmetic turns a corner.
    pub fn value(&mut self) -> u32 {
        const CORNERS: [u32; 10] = [0, 1, 2, 31, 32, 33, 65_535, 65_536, 0x8000_0000, 0xFFFF_FFFF];
        if self.percent(40) {
            self.pick(&CORNERS)
        } else {
            self.draw() as u32
        }
    }

    /// Contents for lent variables or cells.
    pub fn contents(&mut self, count: usize) -> Vec<u32> {
        (0..count).map(|_| self.value()).collect()
    }
}

//! The pseudo-random numbers: splitmix64.
//!
//! The state moves on by a fixed odd step, and each number is the state put
//! through a mixing of shifts and products. The same seed gives the same
//! numbers on every machine.

pub struct Rng {
    state: u64,
}

const STEP: u64 = 0x9E37_79B9_7F4A_7C15;

/// The mixing of splitmix64.
pub fn mix(state: u64) -> u64 {
    let mut z = state;
    z = (z ^ (z >> 30)).wrapping_mul(0xBF58_476D_1CE4_E5B9);
    z = (z ^ (z >> 27)).wrapping_mul(0x94D0_49BB_1331_11EB);
    z ^ (z >> 31)
}

impl Rng {
    pub fn new(seed: u64) -> Rng {
        Rng { state: seed }
    }

    pub fn number(&mut self) -> u64 {
        self.state = self.state.wrapping_add(STEP);
        mix(self.state)
    }

    pub fn byte(&mut self) -> u8 {
        (self.number() >> 56) as u8
    }

    /// A number from 0 to `limit` - 1; 0 if there is none.
    pub fn below(&mut self, limit: usize) -> usize {
        if limit == 0 {
            return 0;
        }
        ((self.number() >> 11) % limit as u64) as usize
    }

    /// A number from `low` to `high`, both met.
    pub fn from_to(&mut self, low: usize, high: usize) -> usize {
        low + self.below(high + 1 - low)
    }

    /// True once in so many times.
    pub fn once_in(&mut self, times: usize) -> bool {
        self.below(times) == 0
    }

    pub fn pick<T: Copy>(&mut self, choices: &[T]) -> T {
        choices[self.below(choices.len())]
    }

    pub fn bytes(&mut self, count: usize) -> Vec<u8> {
        (0..count).map(|_| self.byte()).collect()
    }

    pub fn payload(&mut self) -> [u8; 8] {
        self.number().to_be_bytes()
    }

    pub fn shuffle<T>(&mut self, things: &mut [T]) {
        for place in 0..things.len() {
            things.swap(place, self.below(things.len()));
        }
    }

    /// Parts of at most `most` each, `count` of them, that add up to `total`.
    pub fn spread(&mut self, total: usize, count: usize, most: usize) -> Vec<usize> {
        let mut parts = vec![0; count];
        for _ in 0..total {
            let mut place = self.below(count);
            while parts[place] == most {
                place = (place + 1) % count;
            }
            parts[place] += 1;
        }
        parts
    }
}

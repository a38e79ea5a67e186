//! A small seeded generator (splitmix64): the same seed gives the same case everywhere.

#[derive(Clone, Debug)]
pub struct Random(u64);

const STEP: u64 = 0x9E37_79B9_7F4A_7C15;

fn mixed(mut z: u64) -> u64 {
    z = (z ^ (z >> 30)).wrapping_mul(0xBF58_476D_1CE4_E5B9);
    z = (z ^ (z >> 27)).wrapping_mul(0x94D0_49BB_1331_11EB);
    z ^ (z >> 31)
}

impl Random {
    /// The generator of one case: each case has its own, so that it can be made alone.
    pub fn of(seed: u64, case: u64) -> Random {
        Random(mixed(mixed(seed.wrapping_add(STEP)) ^ case.wrapping_mul(STEP)))
    }

    pub fn long(&mut self) -> u64 {
        self.0 = self.0.wrapping_add(STEP);
        mixed(self.0)
    }

    pub fn word(&mut self) -> u32 {
        (self.long() >> 32) as u32
    }

    pub fn byte(&mut self) -> u8 {
        (self.long() >> 56) as u8
    }

    /// A number below `n`, which is not 0.
    pub fn below(&mut self, n: u64) -> u64 {
        ((self.long() as u128 * n as u128) >> 64) as u64
    }

    /// A number from `low` to `high`, both included.
    pub fn between(&mut self, low: i64, high: i64) -> i64 {
        low + self.below((high - low + 1) as u64) as i64
    }

    /// True in so many of a hundred.
    pub fn percent(&mut self, n: u64) -> bool {
        self.below(100) < n
    }

    /// True once in `n`.
    pub fn once_in(&mut self, n: u64) -> bool {
        self.below(n) == 0
    }

    pub fn pick<T: Copy>(&mut self, list: &[T]) -> T {
        list[self.below(list.len() as u64) as usize]
    }

    /// One of the list, or as often as each of these what `other` makes.
    pub fn pick_or<T: Copy>(&mut self, list: &[T], other: impl FnOnce(&mut Random) -> T) -> T {
        match list.get(self.below(list.len() as u64 + 1) as usize) {
            Some(n) => *n,
            None => other(self),
        }
    }

    pub fn shuffle<T>(&mut self, list: &mut [T]) {
        for k in (1..list.len()).rev() {
            list.swap(k, self.below(k as u64 + 1) as usize);
        }
    }

    /// Bytes of one kind: evenly random; only the numbers where rounding and signs turn; or all alike.
    pub fn fill(&mut self, bytes: &mut [u8]) {
        match self.below(8) {
            0 => {
                const TURNS: [u8; 8] = [0, 1, 2, 127, 128, 129, 254, 255];
                for chunk in bytes.chunks_mut(16) {
                    let mut n = self.long();
                    for b in chunk {
                        *b = TURNS[(n % 8) as usize];
                        n >>= 3;
                    }
                }
            }
            1 => {
                let all = self.byte();
                bytes.fill(all);
            }
            _ => {
                for chunk in bytes.chunks_mut(8) {
                    let n = self.long().to_le_bytes();
                    chunk.copy_from_slice(&n[..chunk.len()]);
                }
            }
        }
    }

    pub fn bytes(&mut self, length: usize) -> Vec<u8> {
        let mut bytes = vec![0; length];
        self.fill(&mut bytes);
        bytes
    }
}

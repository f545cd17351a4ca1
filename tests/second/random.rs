//! Random numbers that one seed settles on every machine, so that a difference can be brought back.

pub struct Random(u64);

impl Random {
    pub fn new(seed: u64) -> Random {
        Random(seed)
    }

    /// The generator for what concerns a whole kind: the seed of the run and the kind's name settle it.
    pub fn for_kind(seed: u64, kind: &str) -> Random {
        let mut random = Random(seed);
        for byte in kind.bytes() {
            random.0 ^= u64::from(byte);
            random.number();
        }
        random
    }

    /// The generator of one network of a kind. Its number settles it too, so one network can be made
    /// again without those before it.
    pub fn for_network(seed: u64, kind: &str, number: usize) -> Random {
        let mut random = Random::for_kind(seed, kind);
        random.0 ^= number as u64;
        random.number();
        random
    }

    /// The splitmix64 generator: a counter, well stirred.
    pub fn number(&mut self) -> u64 {
        self.0 = self.0.wrapping_add(0x9e37_79b9_7f4a_7c15);
        let mut stirred = self.0;
        stirred = (stirred ^ (stirred >> 30)).wrapping_mul(0xbf58_476d_1ce4_e5b9);
        stirred = (stirred ^ (stirred >> 27)).wrapping_mul(0x94d0_49bb_1331_11eb);
        stirred ^ (stirred >> 31)
    }

    pub fn below(&mut self, bound: usize) -> usize {
        (self.number() % bound as u64) as usize
    }

    pub fn between(&mut self, least: usize, most: usize) -> usize {
        least + self.below(most - least + 1)
    }

    pub fn coin(&mut self) -> bool {
        self.below(2) == 1
    }

    pub fn one_of<T: Copy>(&mut self, things: &[T]) -> T {
        things[self.below(things.len())]
    }

    pub fn shuffle<T>(&mut self, things: &mut [T]) {
        for last in (1..things.len()).rev() {
            let other = self.below(last + 1);
            things.swap(last, other);
        }
    }
}

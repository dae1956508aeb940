//! Numbers by splitmix64: the same at every run, and far apart for neighbouring seeds.

pub struct Numbers {
    state: u64,
}

/// One step's output of a state.
fn mixed(state: u64) -> u64 {
    let z = (state ^ (state >> 30)).wrapping_mul(0xbf58_476d_1ce4_e5b9);
    let z = (z ^ (z >> 27)).wrapping_mul(0x94d0_49bb_1331_11eb);
    z ^ (z >> 31)
}

impl Numbers {
    pub fn new(seed: u64) -> Self {
        Numbers { state: seed }
    }

    /// The numbers of a case: of an operation's name, a seed and a number.
    pub fn of_case(name: &str, seed: u64, number: u64) -> Self {
        let step = |state: u64, part: u64| mixed(state.wrapping_add(mixed(part)));
        let named = name.bytes().fold(0, |state, byte| step(state, byte.into()));
        Numbers::new(step(step(named, seed), number))
    }

    pub fn word(&mut self) -> u32 {
        self.state = self.state.wrapping_add(0x9e37_79b9_7f4a_7c15);
        (mixed(self.state) >> 32) as u32
    }

    pub fn below(&mut self, limit: u32) -> u32 {
        ((u64::from(self.word()) * u64::from(limit)) >> 32) as u32
    }

    pub fn bytes(&mut self, length: usize) -> Vec<u8> {
        (0..length).map(|_| self.word() as u8).collect()
    }
}

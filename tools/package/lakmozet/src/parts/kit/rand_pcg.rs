//! A generator of words, as the library `rand_pcg` has it.
use super::rand_core::utils::NextWord;

/// PCG with 64 bits of state and words of 32, "XSH RR".
#[derive(Clone, Debug)]
pub struct Lcg64Xsh32 {
    state: u64,
    increment: u64,
}

impl Lcg64Xsh32 {
    pub fn new(state: u64, stream: u64) -> Lcg64Xsh32 {
        let increment = stream << 1 | 1;
        let state = state.wrapping_add(increment);
        let mut words = Lcg64Xsh32 { state, increment };
        words.step();
        words
    }

    fn step(&mut self) {
        let times = self.state.wrapping_mul(6_364_136_223_846_793_005);
        self.state = times.wrapping_add(self.increment);
    }
}

impl NextWord for Lcg64Xsh32 {
    fn next_word(&mut self) -> u32 {
        let state = self.state;
        self.step();
        (((state >> 18 ^ state) >> 27) as u32).rotate_right((state >> 59) as u32)
    }
}

//! Messages drawn at random: whole ones that follow the grammar, and ways to
//! damage them. The drawing is fixed by its seed.

mod damage;
mod elements;
mod messages;

pub use damage::{damage_bytes, damage_elements};
pub use elements::{bits, generic};
pub use messages::request_message;
pub use messages::{algorithm, certificate, free_text, general_infos, general_name, message};

/// A small pseudo-random generator (SplitMix64).
pub struct Random(u64);

impl Random {
    pub fn new(seed: u64) -> Self {
        Random(seed)
    }

    pub fn draw(&mut self) -> u64 {
        self.0 = self.0.wrapping_add(0x9E37_79B9_7F4A_7C15);
        let mut mixed = self.0;
        mixed = (mixed ^ (mixed >> 30)).wrapping_mul(0xBF58_476D_1CE4_E5B9);
        mixed = (mixed ^ (mixed >> 27)).wrapping_mul(0x94D0_49BB_1331_11EB);
        mixed ^ (mixed >> 31)
    }

    /// A number below `bound`; 0 for a bound of 0.
    pub fn below(&mut self, bound: usize) -> usize {
        ((u128::from(self.draw()) * bound as u128) >> 64) as usize
    }

    pub fn byte(&mut self) -> u8 {
        self.draw() as u8
    }

    /// True once in `times`.
    pub fn once_in(&mut self, times: usize) -> bool {
        self.below(times) == 0
    }

    pub fn pick<'a, T>(&mut self, from: &'a [T]) -> &'a T {
        &from[self.below(from.len())]
    }

    pub fn bytes(&mut self, len: usize) -> Vec<u8> {
        (0..len).map(|_| self.byte()).collect()
    }

    /// Bytes of any number, mostly a few.
    pub fn filler(&mut self) -> Vec<u8> {
        let len = match self.below(64) {
            0 => 126 + self.below(4),
            1 => 254 + self.below(4),
            2 => self.below(600),
            3..=20 => self.below(40),
            _ => self.below(6),
        };
        self.bytes(len)
    }
}

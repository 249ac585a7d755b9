//! A clip that is made from a seed, so that a call can name it in a few numbers.

use crate::dice::Dice;

/// The samples of a clip with this seed, left and right in turn: 16 bits of a linear congruential
/// generator each, from -0.5 up to but not including 0.5, exact in an f32.
pub fn samples(seed: u32, frames: u64) -> Vec<f32> {
    let mut state = u64::from(seed);
    (0..2 * frames)
        .map(|_| {
            state = (state * 1_103_515_245 + 12_345) % (1 << 31);
            ((state >> 15) as f32 - 32_768.0) / 65_536.0
        })
        .collect()
}

/// What a host may write over a clip in its pool: the least and the greatest that are samples, and what is none.
const SPOILS: [f32; 13] = [
    -0.0,
    f32::from_bits(1),
    -f32::MIN_POSITIVE,
    16.0,
    -16.0,
    16.0_f32.next_up(),
    (-16.0_f32).next_down(),
    f32::MAX,
    f32::INFINITY,
    f32::NEG_INFINITY,
    f32::NAN,
    // A signalling one.
    f32::from_bits(0x7f80_0001),
    f32::from_bits(0xffff_ffff),
];

/// What is written over a clip of this seed, by places. Its first frame is left, by which tono's clips are told apart.
pub fn spoils(seed: u32, frames: u64) -> Vec<(usize, f32)> {
    let mut dice = Dice::new(u64::from(seed));
    let mut spoils = Vec::new();
    for place in 2..2 * frames as usize {
        if dice.one_in(4) {
            spoils.push((place, dice.pick(&SPOILS)));
        }
    }
    spoils
}

/// As document 01 has it: a pattern that is not finite, or above 16 in magnitude, reads as +0.0.
pub fn heard(sample: f32) -> f32 {
    if sample.abs() <= 16.0 { sample } else { 0.0 }
}

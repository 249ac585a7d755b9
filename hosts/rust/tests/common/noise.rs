/// A clip whose samples have no pattern.
pub fn noise(seed: u32, frames: usize) -> Vec<f32> {
    let mut word = seed;
    let sample = |_| {
        word = word.wrapping_mul(1_664_525).wrapping_add(1_013_904_223);
        (word >> 8) as f32 / 16_777_216.0 - 0.5
    };
    (0..2 * frames).map(sample).collect()
}

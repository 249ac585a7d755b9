//! Stands in for tono's sound documents and tempo maps. A document is a clip that is already rendered,
//! and a tempo map is one point with as many beats a second as there are frames, so that beat b is frame b.

/// A prepared clip: the two sides' samples, equally many.
#[derive(Debug, Clone)]
pub struct SoundDoc {
    pub sample_rate: u32,
    pub stereo: Treatment,
    pub left: Vec<f32>,
    pub right: Vec<f32>,
}

/// How a mono document would be spread; a prepared clip is stereo as it is.
#[derive(Debug, Clone, Copy)]
pub struct Treatment;

impl SoundDoc {
    pub fn frame_count(&self) -> usize {
        self.left.len()
    }

    /// The same clip: a prepared clip is never resampled.
    pub fn at_sample_rate(&self, rate: u32) -> SoundDoc {
        assert_eq!(self.sample_rate, rate, "the clip has another rate");
        self.clone()
    }
}

/// The one point of a tempo map.
#[derive(Debug, Clone)]
pub struct TempoPoint {
    pub beats_per_second: f64,
}

pub fn tempo_map_seconds_at(map: &[TempoPoint], beat: f64) -> f64 {
    beat / map[0].beats_per_second
}

pub fn tempo_map_beat_at_seconds(map: &[TempoPoint], seconds: f64) -> f64 {
    seconds * map[0].beats_per_second
}

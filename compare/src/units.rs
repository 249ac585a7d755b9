//! Stands in for tono's musical time. Every bar is one beat long, so that bar n is beat n, and beats
//! are kept as floats where tono keeps rationals.

#[derive(Debug, Clone, Copy, PartialEq, PartialOrd)]
pub struct Beat(f64);

impl Beat {
    pub fn new(num: i64, den: u32) -> Beat {
        Beat(num as f64 / den as f64)
    }

    pub fn zero() -> Beat {
        Beat(0.0)
    }

    pub fn to_f64(self) -> f64 {
        self.0
    }
}

/// A change of meter; there is none.
#[derive(Debug, Clone)]
pub enum MeterPoint {}

pub fn beat_at_bar(_: &[MeterPoint], _: u32, _: Option<Beat>, bar: u32) -> Beat {
    Beat(bar as f64)
}

pub fn bar_len(_: &[MeterPoint], _: u32, _: Option<Beat>, _: u32) -> Beat {
    Beat(1.0)
}

pub fn bar_count_at_beat(_: &[MeterPoint], _: u32, _: Option<Beat>, beat: Beat) -> u32 {
    beat.0.ceil() as u32
}

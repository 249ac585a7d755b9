//! Stands in for tono's compiled songs: a prepared clip, a length that may exceed its frames, and the
//! maps by which beat n, bar n and the section that is named n all are frame n.

use crate::dsl::{SoundDoc, TempoPoint};
use crate::units::{Beat, MeterPoint};
use std::convert::Infallible;

#[derive(Debug, Clone)]
pub struct Program {
    pub doc: SoundDoc,
    pub meta: ProgramMeta,
    pub estimates: ResourceEstimates,
}

#[derive(Debug, Clone)]
pub struct ProgramMeta {
    pub tempo_bpm: f32,
    pub beats_per_bar: u32,
    pub tempo_map: Vec<TempoPoint>,
    pub meter_map: Vec<MeterPoint>,
    pub pickup: Option<Beat>,
    pub sections: Sections,
    pub markers: Vec<Marker>,
}

/// The sections of every song: one at each bar, and its name is the bar's number.
#[derive(Debug, Clone)]
pub struct Sections;

pub struct Section {
    pub name: String,
    pub bar: u32,
}

#[derive(Debug, Clone)]
pub struct Marker {
    pub name: String,
    pub at: Beat,
}

#[derive(Debug, Clone)]
pub struct ResourceEstimates {
    pub frames: u64,
}

impl Sections {
    pub fn iter(&self) -> impl Iterator<Item = Section> {
        (0..=u32::MAX).map(|bar| Section {
            name: Sections::name(bar),
            bar,
        })
    }

    pub fn name(bar: u32) -> String {
        bar.to_string()
    }
}

impl Program {
    /// A song over a prepared clip, with this length in frames.
    pub fn new(doc: SoundDoc, length: u64) -> Program {
        let beats_per_second = doc.sample_rate as f64;
        Program {
            doc,
            meta: ProgramMeta {
                tempo_bpm: 60.0,
                beats_per_bar: 1,
                tempo_map: vec![TempoPoint { beats_per_second }],
                meter_map: Vec::new(),
                pickup: None,
                sections: Sections,
                markers: Vec::new(),
            },
            estimates: ResourceEstimates { frames: length },
        }
    }

    pub fn render_stereo(&self) -> (Vec<f32>, Vec<f32>) {
        (self.doc.left.clone(), self.doc.right.clone())
    }

    /// A prepared clip has nothing to be verified.
    pub fn verify(&self) -> Result<(), Infallible> {
        Ok(())
    }
}

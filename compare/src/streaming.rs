//! Stands in for tono's streaming renderer by a graph that no document has. A song therefore always
//! plays from its buffer, which is the arm that is ported.

use crate::dsl::SoundDoc;

pub enum StreamGraph {}

impl StreamGraph {
    pub fn try_from_doc(_: &SoundDoc) -> Option<StreamGraph> {
        None
    }

    pub fn is_stereo(&self) -> bool {
        match *self {}
    }

    pub fn fill(&mut self, _: &mut [f32]) {
        match *self {}
    }

    pub fn fill_stereo(&mut self, _: &mut [f32], _: &mut [f32]) {
        match *self {}
    }
}

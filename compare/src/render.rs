//! Stands in for tono's offline renderer, which here has nothing to do. The product of a prepared clip
//! is the clip's own two sides.

use crate::dsl::{SoundDoc, Treatment};

pub struct Product {
    pub stereo: Option<(Vec<f32>, Vec<f32>)>,
    pub mono: Vec<f32>,
}

pub fn render_product(doc: &SoundDoc) -> Product {
    Product {
        stereo: Some((doc.left.clone(), doc.right.clone())),
        mono: Vec::new(),
    }
}

pub fn stereoize(mono: &[f32], _: Treatment, _: u32) -> (Vec<f32>, Vec<f32>) {
    (mono.to_vec(), mono.to_vec())
}

//! Stands in for tono's signal processing, of which the runtime names the peak limiter's ceiling alone.
//! Only a streamed document is measured against it, and none is streamed here.

pub const CEIL: f32 = 1.0;

//! Reads a WAV file of stereo floats back, `heard FILE`: its rate, its frames, its peak, and the peak of every two
//! seconds.

use std::error::Error;

/// The bytes of a chunk of a RIFF file.
fn chunk<'a>(file: &'a [u8], name: &[u8; 4]) -> Option<&'a [u8]> {
    let mut rest = file.get(12..)?;
    loop {
        let length = u32::from_le_bytes(rest.get(4..8)?.try_into().ok()?) as usize;
        let body = rest.get(8..8 + length)?;
        if &rest[..4] == name {
            return Some(body);
        }
        rest = rest.get(8 + length + length % 2..)?;
    }
}

fn peak(samples: &[f32]) -> f32 {
    samples.iter().fold(0.0, |peak, x| x.abs().max(peak))
}

fn main() -> Result<(), Box<dyn Error>> {
    let path = std::env::args().nth(1).ok_or("heard FILE")?;
    let file = std::fs::read(path)?;
    let head = file.get(..12).ok_or("no WAV file")?;
    let whole = u32::from_le_bytes(head[4..8].try_into()?) as usize + 8;
    if &head[..4] != b"RIFF" || &head[8..] != b"WAVE" || whole != file.len() {
        return Err("no whole WAV file".into());
    }
    let format = chunk(&file, b"fmt ").ok_or("no format")?;
    let format = format.get(..16).ok_or("no whole format")?;
    if format[..4] != [3, 0, 2, 0] || format[12..] != [8, 0, 32, 0] {
        return Err("no stereo of 32-bit floats".into());
    }
    let rate = u32::from_le_bytes(format[4..8].try_into()?);
    let samples: Vec<f32> = chunk(&file, b"data")
        .ok_or("no samples")?
        .chunks_exact(4)
        .map(|bytes| f32::from_le_bytes([bytes[0], bytes[1], bytes[2], bytes[3]]))
        .collect();

    println!("rate   {rate}");
    println!("frames {}", samples.len() / 2);
    println!("peak   {:.6}", peak(&samples));
    for (n, part) in samples.chunks(4 * rate as usize).enumerate() {
        println!("{}:{:02}   {:.6}", n / 30, n % 30 * 2, peak(part));
    }
    Ok(())
}

//! What the tours share: the clips of three rooms and of a bell, the bars that they count in, and the file that they are
//! heard in.
//!
//! The clips are made in plain f32 steps that hosts/c/rooms.h takes in the same order, so that both make the same samples.

use std::error::Error;
use std::fs::File;
use std::io::{self, BufWriter, Write};

use threshreed::{At, ClockFrame, Command, LoopRange, Session, SongFrame};

pub const RATE: u32 = 48_000;
pub const BEAT: usize = 24_000;
pub const BAR: usize = 4 * BEAT;
pub const ROOM: usize = 4 * BAR;
pub const BLOCK: usize = 480;

// ---- the clips

/// Strikes a string at a pitch in hundredths of a Hertz, for each side at a level. What rings past the clip's end goes
/// on at its start, so that a loop has no seam.
fn strike(clip: &mut [f32], at: usize, ring: usize, pitch: u64, levels: [f32; 2]) {
    let step = ((pitch << 32) / (100 * RATE as u64)) as u32;
    let mut phase: u32 = 0;
    let mut frame = at % (clip.len() / 2);
    for i in 0..ring {
        let x = phase as f32 / 2147483648.0 - 1.0;
        let wave = 4.0 * x * (1.0 - x.abs());
        let attack = if i < 240 { i as f32 / 240.0 } else { 1.0 };
        let rest = (ring - i) as f32 / ring as f32;
        let sample = wave * (attack * (rest * rest));
        clip[2 * frame] += sample * levels[0];
        clip[2 * frame + 1] += sample * levels[1];
        phase = phase.wrapping_add(step);
        frame = (frame + 1) % (clip.len() / 2);
    }
}

/// A room of four bars: a bass note a bar, a note of its chord a beat, and two echoes of each, from side to side.
fn room(bass: u64, chord: [u64; 4], delay: usize, echo: f32) -> Vec<f32> {
    let mut clip = vec![0.0; 2 * ROOM];
    for bar in 0..4 {
        strike(&mut clip, bar * BAR, BAR, bass, [0.2, 0.2]);
    }
    for beat in 0..16 {
        let mut levels = [0.25, 0.125];
        for n in 0..3 {
            let at = beat * BEAT + n * delay;
            let pitch = chord[(beat + beat / 4) % 4];
            strike(&mut clip, at, 2 * BEAT, pitch, levels);
            levels = [levels[1] * echo, levels[0] * echo];
        }
    }
    clip
}

pub fn porch() -> Vec<f32> {
    room(13_081, [26_163, 32_963, 39_200, 49_388], 12_000, 0.4)
}

pub fn hall() -> Vec<f32> {
    room(11_000, [22_000, 26_163, 32_963, 39_200], 18_000, 0.7)
}

pub fn cellar() -> Vec<f32> {
    room(8_731, [17_461, 22_000, 26_163, 20_765], 8_000, 0.8)
}

/// A bell of one bar.
pub fn bell() -> Vec<f32> {
    let mut clip = vec![0.0; 2 * BAR];
    strike(&mut clip, 0, BAR, 65_926, [0.3, 0.3]);
    strike(&mut clip, 0, BAR / 2, 181_955, [0.15, 0.1]);
    strike(&mut clip, 0, BAR / 4, 356_000, [0.05, 0.1]);
    clip
}

// ---- the bars

/// A beat of a bar, on the session's clock.
pub fn on(bar: usize, beat: usize) -> At {
    At::Frame(ClockFrame((bar * BAR + beat * BEAT) as u64))
}

/// A bar of the song.
pub fn of_song(bar: usize) -> SongFrame {
    SongFrame((bar * BAR) as u64)
}

pub fn bars(start: usize, end: usize) -> Command {
    Command::Loop(LoopRange {
        start: of_song(start),
        end: of_song(end),
    })
}

// ---- the file

/// A stereo WAV file of 32-bit floats, for so many frames.
pub struct Wav {
    file: BufWriter<File>,
    peak: f32,
}

impl Wav {
    pub fn create(path: &str, frames: usize) -> io::Result<Wav> {
        let mut file = BufWriter::new(File::create(path)?);
        let bytes = (8 * frames) as u32;
        file.write_all(b"RIFF")?;
        file.write_all(&(50 + bytes).to_le_bytes())?;
        file.write_all(b"WAVEfmt ")?;
        file.write_all(&18u32.to_le_bytes())?;
        file.write_all(&3u16.to_le_bytes())?; // floats
        file.write_all(&2u16.to_le_bytes())?; // channels
        file.write_all(&RATE.to_le_bytes())?;
        file.write_all(&(8 * RATE).to_le_bytes())?; // bytes a second
        file.write_all(&8u16.to_le_bytes())?; // bytes a frame
        file.write_all(&32u16.to_le_bytes())?; // bits a sample
        file.write_all(&0u16.to_le_bytes())?;
        file.write_all(b"fact")?;
        file.write_all(&4u32.to_le_bytes())?;
        file.write_all(&(frames as u32).to_le_bytes())?;
        file.write_all(b"data")?;
        file.write_all(&bytes.to_le_bytes())?;
        Ok(Wav { file, peak: 0.0 })
    }

    fn write(&mut self, samples: &[f32]) -> io::Result<()> {
        for sample in samples {
            self.peak = self.peak.max(sample.abs());
            self.file.write_all(&sample.to_le_bytes())?;
        }
        Ok(())
    }

    /// Tells the peak of all that was written.
    pub fn finish(mut self) -> io::Result<f32> {
        self.file.flush()?;
        Ok(self.peak)
    }
}

/// Plays so many frames to the file, and tells their passes.
pub fn play(session: &mut Session, frames: usize, wav: &mut Wav) -> Result<u64, Box<dyn Error>> {
    let mut out = vec![0.0; 2 * frames];
    let passes = session.block(&mut out)?;
    wav.write(&out)?;
    Ok(passes)
}

//! A walk through eight rooms with a pool for two: `streaming`. Between two blocks the next room comes in, one clip at a
//! time, and the last one goes as soon as nothing holds it. It tells when, and that the walk sounds as it does with every
//! room loaded beforehand.

use std::error::Error;

use threshreed::{
    At, ClockFrame, Command, Handle, LoopRange, Mode, Refusal, Session, Song, SongFrame, Stinger,
    WORDS,
};

const RATE: u32 = 48_000;
const BLOCK: usize = 480;
const ROOMS: usize = 8;
/// The frames of a room's song, which goes round.
const SONG: usize = 36_000;
/// The frames of its bell, which rings as one leaves it.
const BELL: usize = 12_000;
/// How long one stays in a room.
const STAY: usize = 96_000;

/// How loud the score is under the guide's words. In house mode a tail is under it too, and as tono it is not.
const GAIN: f32 = 0.5;
/// The rooms that the pool has room for.
const HELD: usize = 2;

/// What waits if every room is loaded beforehand: the gain, and three commands for each room.
const QUEUE: usize = 1 + 3 * ROOMS;

// ---- the rooms

struct Room {
    song: Vec<f32>,
    bell: Vec<f32>,
}

/// A tone on both sides that dies away, of so many periods.
fn tone(frames: usize, periods: usize, loudness: f32) -> Vec<f32> {
    let frame = |i: usize| {
        let phase = (i * periods) as f32 / frames as f32;
        let left = (frames - i) as f32 / frames as f32;
        let sample = (phase * std::f32::consts::TAU).sin() * left * loudness;
        [sample, sample * 0.5]
    };
    (0..frames).flat_map(frame).collect()
}

/// Each higher than the one before it.
fn rooms() -> Vec<Room> {
    let room = |n| Room {
        song: tone(SONG, 150 + 25 * n, 0.5),
        bell: tone(BELL, 300 + 40 * n, 0.25),
    };
    (0..ROOMS).map(room).collect()
}

// ---- the walk

/// When the clips are loaded.
#[derive(Clone, Copy, PartialEq)]
enum When {
    Beforehand,
    BetweenBlocks,
}

/// What happened to a clip, and when.
struct Event {
    clock: u64,
    what: &'static str,
    clip: usize,
}

struct Walk<'a> {
    session: Session<'a>,
    rooms: &'a [Room],
    /// The clips loaded so far: each room's song, and then its bell.
    clips: Vec<Handle>,
    /// How many of them are retired.
    gone: usize,
    events: Vec<Event>,
}

impl Walk<'_> {
    /// Loads the next clip. When a room is whole, the commands wait that take us there.
    fn load(&mut self) -> Result<(), Refusal> {
        let n = self.clips.len();
        let room = &self.rooms[n / 2];
        let clip = match n % 2 {
            0 => self.session.load_song(Song::new(&room.song, RATE))?,
            _ => self.session.load_stinger(Stinger {
                samples: &room.bell,
                rate: RATE,
            })?,
        };
        self.clips.push(clip);
        self.tell("loaded", n);
        match self.clips[n / 2 * 2..] {
            [song, bell] => self.enter(n / 2, song, bell),
            _ => Ok(()),
        }
    }

    /// What waits for a room: its song on the frame in which we step in, and its bell on the one in which we leave.
    fn enter(&mut self, room: usize, song: Handle, bell: Handle) -> Result<(), Refusal> {
        let step = |n: usize| At::Frame(ClockFrame((n * STAY) as u64));
        let begin = match room {
            0 => Command::Play,
            _ => Command::Swap(song),
        };
        let (start, end) = (SongFrame(0), SongFrame(SONG as u64));
        let round = Command::Loop(LoopRange { start, end });
        self.session.submit(begin, step(room))?;
        self.session.submit(round, step(room))?;
        self.session
            .submit(Command::Stinger(bell, 0.5), step(room + 1))?;
        Ok(())
    }

    /// What is done between two blocks: clips that nothing holds any more go, the oldest first, and at most one comes.
    fn stream(&mut self) -> Result<(), Refusal> {
        while self.retire()? {}
        let held = self.clips.len() - self.gone;
        match held < 2 * HELD && self.clips.len() < 2 * self.rooms.len() {
            true => self.load(),
            false => Ok(()),
        }
    }

    /// Retires the oldest clip, if it is free. That of the song that plays never is.
    fn retire(&mut self) -> Result<bool, Refusal> {
        match self.session.retire(self.clips[self.gone]) {
            Err(Refusal::Held) => return Ok(false),
            answer => answer?,
        }
        self.tell("retired", self.gone);
        self.gone += 1;
        Ok(true)
    }

    fn tell(&mut self, what: &'static str, clip: usize) {
        let ClockFrame(clock) = self.session.clock();
        self.events.push(Event { clock, what, clip });
    }
}

/// A walk through all the rooms in blocks of so many frames: its samples, and what happened when.
fn walk(
    mode: Mode,
    rooms: &[Room],
    when: When,
    block: usize,
) -> Result<(Vec<f32>, Vec<Event>), Refusal> {
    let room_for = match when {
        When::Beforehand => rooms.len(),
        When::BetweenBlocks => HELD,
    };
    let mut queue = vec![0; QUEUE * WORDS];
    let mut pool = vec![0.0; 2 * room_for * (SONG + BELL)];
    let first = Song::new(&rooms[0].song, RATE);
    let session = Session::open_in(mode, RATE, &mut queue, &mut [], &mut pool, first)?;
    let mut walk = Walk {
        clips: vec![session.song()],
        session,
        rooms,
        gone: 0,
        events: Vec::new(),
    };
    walk.session.submit(Command::Gain(GAIN), At::Immediate)?;
    walk.load()?;
    if when == When::Beforehand {
        while walk.clips.len() < 2 * rooms.len() {
            walk.load()?;
        }
    }
    let mut out = vec![0.0; 2 * rooms.len() * STAY];
    for samples in out.chunks_mut(2 * block) {
        walk.session.block(samples)?;
        if when == When::BetweenBlocks {
            walk.stream()?;
        }
    }
    Ok((out, walk.events))
}

fn main() -> Result<(), Box<dyn Error>> {
    let rooms = rooms();
    let mode = Mode::AsTono;
    let (streamed, events) = walk(mode, &rooms, When::BetweenBlocks, BLOCK)?;
    for Event { clock, what, clip } in events {
        let part = ["song", "bell"][clip % 2];
        println!("{clock:>7}  {part} of room {} {what}", clip / 2 + 1);
    }
    let (beforehand, _) = walk(mode, &rooms, When::Beforehand, BLOCK)?;
    if !same(&streamed, &beforehand) {
        return Err("the walk sounds otherwise with every room loaded beforehand".into());
    }
    println!(
        "{:>7}  the walk ends, and sounds as with every room loaded beforehand",
        streamed.len() / 2
    );
    Ok(())
}

/// Bit for bit.
fn same(one: &[f32], other: &[f32]) -> bool {
    let bits = |x: &f32| x.to_bits();
    one.iter().map(bits).eq(other.iter().map(bits))
}

#[cfg(test)]
mod tests {
    use super::*;

    /// The frames of a swap's tail.
    const TAIL: usize = 1_024;

    const BLOCKS: [usize; 5] = [37, 480, 512, 4_096, 40_000];

    #[test]
    fn sounds_as_with_every_room_loaded_beforehand() {
        let rooms = rooms();
        for mode in [Mode::AsTono, Mode::House] {
            let (beforehand, _) = walk(mode, &rooms, When::Beforehand, BLOCK).unwrap();
            for block in BLOCKS {
                let (streamed, _) = walk(mode, &rooms, When::BetweenBlocks, block).unwrap();
                assert!(same(&streamed, &beforehand), "in blocks of {block}");
            }
        }
    }

    /// Each room is heard to its end, and its tail otherwise in each mode.
    #[test]
    fn every_room_sounds() {
        let rooms = rooms();
        let [tono, house] = [Mode::AsTono, Mode::House]
            .map(|mode| walk(mode, &rooms, When::BetweenBlocks, BLOCK).unwrap().0);
        for (n, room) in rooms.iter().enumerate() {
            let end = 2 * (n + 1) * STAY;
            let last = 2 * ((STAY - 1) % SONG);
            let heard = [room.song[last] * GAIN, room.song[last + 1] * GAIN];
            for out in [&tono, &house] {
                assert!(same(&out[end - 2..end], &heard), "room {n}");
            }
            let tail = end..(end + 2 * TAIL).min(tono.len());
            let alike = same(&tono[tail.clone()], &house[tail]);
            assert_eq!(alike, n + 1 == ROOMS, "the tail of room {n}");
        }
    }

    /// At most one clip comes between two blocks, and each goes at the first block's end at which its tail or its ringing
    /// is over.
    #[test]
    fn comes_a_clip_at_a_time_and_goes_when_it_is_free() {
        let rooms = rooms();
        for block in BLOCKS {
            let (_, events) = walk(Mode::AsTono, &rooms, When::BetweenBlocks, block).unwrap();
            let of = |what| events.iter().filter(move |x| x.what == what);
            assert!(of("loaded").is_sorted_by(|x, y| x.clock < y.clock));
            assert_eq!(of("loaded").count(), 2 * ROOMS - 1);
            assert_eq!(of("retired").count(), 2 * (ROOMS - 1));
            for event in of("retired") {
                let over = (event.clip / 2 + 1) * STAY + [TAIL, BELL][event.clip % 2];
                assert_eq!(event.clock as usize, over.next_multiple_of(block));
            }
        }
    }
}

//! The domain of the comparison, as far as a block can leave it: the song and the tail are never read
//! with a cursor past their clip's end, and whenever the song's own end stops it, its cursor has reached
//! the clip's end. A playhead is carried ahead of our session, frame by frame, to find how far a block
//! may go. Where it ends is compared with our session, so that a playhead that strays is seen.

use threshreed::raw::{Handle, Session};

use crate::ours::{Ours, Row};
use crate::script::{kind, state};

/// The frames that a swap's tail sounds.
const TAIL: u32 = 1024;

/// Whether a loop fits a song of this length.
pub fn fits(start: u64, end: u64, extent: u64) -> bool {
    start < end && end <= extent
}

/// As much of a session as decides where the song and the tail read, and how often its loop has come round.
#[derive(Clone, Copy, Debug, PartialEq)]
struct Playhead {
    state: u32,
    position: u64,
    cursor: u64,
    looped: Option<(u64, u64)>,
    laps: u64,
    /// The passes made on the way.
    passes: u64,
    song: Handle,
    tail: Option<Tail>,
}

#[derive(Clone, Copy, Debug, PartialEq)]
struct Tail {
    cursor: u64,
    song: Handle,
    remaining: u32,
}

/// A block that stays in the domain, and where the playhead stands after it.
pub struct Walk {
    pub frames: usize,
    end: Playhead,
}

impl Walk {
    /// The longest block, of at most these frames, that stays in the domain.
    pub fn ahead(ours: &Ours, wanted: usize) -> Walk {
        let mut playhead = Playhead::of(&ours.session);
        let mut end = playhead;
        let mut waiting = ours.waiting().peekable();
        for made in 0..=wanted {
            let clock = ours.session.clock + made as u64;
            let mut due = 0;
            while let Some(row) = waiting.next_if(|row| row[0] <= clock) {
                playhead.execute(ours, row);
                due += 1;
                // A block ends with one command, if one is due.
                if due == 1 && made > 0 {
                    end = playhead;
                }
            }
            let frame = playhead.frame(ours);
            if made == wanted || frame.is_none() {
                return Walk { frames: made, end };
            }
            playhead = frame.expect("the frame stays in the domain");
            end = playhead;
        }
        unreachable!("the last round returns")
    }

    /// Panics unless our session stands where the walk ended, and our block answered as many passes.
    pub fn check(&self, session: &Session, passes: u64) {
        let end = Playhead {
            passes,
            ..Playhead::of(session)
        };
        assert_eq!(self.end, end, "the playhead strayed");
    }
}

impl Playhead {
    fn of(session: &Session) -> Playhead {
        let looped = session.looped;
        let tail = session.tail;
        Playhead {
            state: session.state,
            position: session.position,
            cursor: session.cursor,
            looped: (looped.set == 1).then_some((looped.start, looped.end)),
            laps: session.laps,
            passes: 0,
            song: session.song,
            tail: (tail.sounding == 1).then_some(Tail {
                cursor: tail.cursor,
                song: tail.song,
                remaining: tail.weight.remaining,
            }),
        }
    }

    /// The song's and the tail's part of one frame; none if it leaves the domain.
    fn frame(mut self, ours: &Ours) -> Option<Playhead> {
        if self.state == state::PLAYING {
            let song = ours.clip(self.song);
            if let Some((start, end)) = self.looped
                && self.position >= end
            {
                self.position = start + (self.position - start) % (end - start);
                self.cursor = start;
                self.pass();
            }
            if self.cursor > song.frames {
                return None;
            }
            self.cursor = (self.cursor + 1).min(song.frames);
            self.position += 1;
            match self.looped {
                Some((start, end)) if self.position == end => {
                    self.position = start;
                    self.cursor = start;
                    self.pass();
                }
                None if self.position >= song.extent => {
                    self.position = song.extent;
                    self.state = state::STOPPED;
                    if self.cursor != song.frames {
                        return None;
                    }
                }
                _ => {}
            }
        }
        if let Some(tail) = &mut self.tail {
            let frames = ours.clip(tail.song).frames;
            if tail.cursor > frames {
                return None;
            }
            tail.cursor = (tail.cursor + 1).min(frames);
            tail.remaining -= 1;
            if tail.remaining == 0 {
                self.tail = None;
            }
        }
        Some(self)
    }

    /// From the loop's end to its start.
    fn pass(&mut self) {
        self.laps += 1;
        self.passes += 1;
    }

    /// Another loop, or none.
    fn set_loop(&mut self, looped: Option<(u64, u64)>) {
        self.looped = looped;
        self.laps = 0;
    }

    fn execute(&mut self, ours: &Ours, row: &Row) {
        let extent = ours.clip(self.song).extent;
        let [_, _, kind, first, second] = *row;
        match kind as u32 {
            kind::PLAY => self.state = state::PLAYING,
            kind::PAUSE => self.state = state::PAUSED,
            kind::STOP => {
                self.state = state::STOPPED;
                self.position = 0;
                self.cursor = 0;
            }
            kind::SEEK | kind::TRANSITION => {
                self.position = first.min(extent);
                self.cursor = first;
            }
            kind::LOOP if fits(first, second, extent) => {
                self.set_loop(Some((first, second)));
            }
            kind::CLEAR_LOOP => self.set_loop(None),
            kind::SWAP => {
                self.tail = Some(Tail {
                    cursor: self.cursor,
                    song: self.song,
                    remaining: TAIL,
                });
                self.song = Handle {
                    slot: (first >> 32) as u32,
                    serial: first as u32,
                };
                self.state = state::PLAYING;
                self.position = 0;
                self.cursor = 0;
                self.set_loop(None);
            }
            _ => {}
        }
    }
}

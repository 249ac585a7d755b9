//! A ring between a session and an audio callback: frames are made ahead of time, and the callback takes them.

use core::cell::RefCell;
use core::ops::{Deref, DerefMut};

use crate::raw;
use crate::refusal::Refusal;
use crate::session::Session;

/// A ring over a store of so many samples (3 to 65,536; each call refuses another size as
/// [`BadRing`](Refusal::BadRing)), which a static can hold. One sample always stays empty, so that (SAMPLES - 1) / 2
/// frames may wait.
///
/// On one thread [`split`](Ring::split) gives each side its own half:
///
/// ```
/// use threshreed::{At, Command, Ring, Song, Stores};
///
/// let room: Vec<f32> = (0..2 * 480).map(|i| i as f32 / 960.0).collect();
/// let (mut stores, mut ring) = (Stores::<8, 0, 480>::new(), Ring::<1_025>::new());
/// let session = stores.open(48_000, Song::new(&room, 48_000))?;
/// let (mut pump, mut callback) = ring.split(session);
/// pump.submit(Command::Play, At::Immediate)?;
/// assert_eq!(pump.pump(400)?.frames, 400);
///
/// let mut out = [9.0; 2 * 480];
/// assert_eq!(callback.drain(&mut out)?, 400); // and then silence
/// assert_eq!((&out[..800], &out[800..]), (&room[..800], &[0.0; 160][..]));
/// # Ok::<(), threshreed::Refusal>(())
/// ```
///
/// # Two threads
///
/// Nothing here orders what two threads read and write, so that the compiler lets neither half go to another thread. A
/// host whose callback has a thread of its own must add one lock around the whole ring, and make each of both calls
/// under it. The callback then waits as long as a pump takes. The session stays outside, with who pumps:
///
/// ```
/// use std::sync::Mutex;
/// use std::thread;
/// use threshreed::{At, Command, Ring, Song, Stores};
///
/// static RING: Mutex<Ring<1_025>> = Mutex::new(Ring::new());
///
/// let mut stores = Stores::<8, 0, 480>::new();
/// let mut session = stores.open(48_000, Song::new(&[0.5; 2 * 480], 48_000))?;
/// session.submit(Command::Play, At::Immediate)?;
/// RING.lock()?.pump(&mut session, 400)?;
///
/// let callback = thread::spawn(|| {
///     let mut out = [9.0; 2 * 100];
///     RING.lock().unwrap().drain(&mut out).map(|_| out)
/// });
/// assert_eq!(callback.join().unwrap()?, [0.5; 2 * 100]);
/// # Ok::<(), Box<dyn std::error::Error>>(())
/// ```
pub struct Ring<const SAMPLES: usize>(RefCell<Samples<[f32; SAMPLES]>>);

/// What both halves see of a ring.
type Shared = RefCell<Samples<[f32]>>;

struct Samples<Store: ?Sized> {
    places: raw::Ring,
    store: Store,
}

impl<const SAMPLES: usize> Ring<SAMPLES> {
    /// An empty ring.
    pub const fn new() -> Self {
        Ring(RefCell::new(Samples {
            places: raw::Ring { head: 0, tail: 0 },
            store: [0.0; SAMPLES],
        }))
    }

    /// The side that makes frames, with its session, and the side that takes them. What waits in the ring stays.
    pub fn split<'r, 's>(&'r mut self, session: Session<'s>) -> (Pump<'r, 's>, Callback<'r>) {
        let ring: &'r Shared = &self.0;
        (Pump { session, ring }, Callback { ring })
    }

    /// Makes frames of a session as a block does, straight into the store: those asked for, held to half the free
    /// samples. None are made into a full ring, which is no refusal. A refused pump leaves the ring as it was.
    pub fn pump(&mut self, session: &mut Session<'_>, frames: usize) -> Result<Pumped, Refusal> {
        self.samples().pump(session, frames)
    }

    /// Fills a callback's block and answers how many frames it took. Up to them it is what was pumped, in order, and
    /// from them on silence: a frame that does not wait as a whole, and an odd last sample. A refused drain leaves `out`
    /// as it was.
    pub fn drain(&mut self, out: &mut [f32]) -> Result<usize, Refusal> {
        self.samples().drain(out)
    }

    /// How many frames wait.
    pub fn held(&self) -> usize {
        let ring: &Shared = &self.0;
        ring.borrow().held()
    }

    fn samples(&mut self) -> &mut Samples<[f32]> {
        self.0.get_mut()
    }
}

impl<const SAMPLES: usize> Default for Ring<SAMPLES> {
    fn default() -> Self {
        Ring::new()
    }
}

impl Samples<[f32]> {
    fn pump(&mut self, session: &mut Session<'_>, frames: usize) -> Result<Pumped, Refusal> {
        let pumped = session.pump(self.places, &mut self.store, frames);
        self.places = pumped.ring;
        Refusal::check(pumped.refusal)?;
        Ok(Pumped {
            frames: pumped.frames,
            passes: pumped.passes,
        })
    }

    fn drain(&mut self, out: &mut [f32]) -> Result<usize, Refusal> {
        let drained = raw::drain(self.places, &self.store, out);
        self.places = drained.ring;
        Refusal::check(drained.refusal)?;
        Ok(drained.frames)
    }

    fn held(&self) -> usize {
        let raw::Ring { head, tail } = self.places;
        let samples = match tail < head {
            true => self.store.len() - head + tail,
            false => tail - head,
        };
        samples / 2
    }
}

/// What a pump did: the frames that it made, and how many times the playhead passed from a loop's end to its start in
/// them.
#[derive(Clone, Copy, Debug, PartialEq, Eq)]
pub struct Pumped {
    pub frames: usize,
    pub passes: u64,
}

/// The side of a [`Ring`] that makes frames. It derefs to its session for every other call; a block that is made there
/// goes past the ring.
///
/// It stays on its thread:
///
/// ```compile_fail,E0277
/// use threshreed::{Ring, Song, Stores};
///
/// let (mut stores, mut ring) = (Stores::<8, 0, 4>::new(), Ring::<9>::new());
/// let session = stores.open(48_000, Song::new(&[0.5; 2], 48_000)).unwrap();
/// let (mut pump, _) = ring.split(session);
/// std::thread::scope(|threads| {
///     threads.spawn(move || pump.pump(4).is_ok());
/// });
/// ```
pub struct Pump<'r, 's> {
    session: Session<'s>,
    ring: &'r Shared,
}

// A half borrows the ring for one call of the library, which calls nobody: no borrow meets another.

impl Pump<'_, '_> {
    /// As [`Ring::pump`].
    pub fn pump(&mut self, frames: usize) -> Result<Pumped, Refusal> {
        self.ring.borrow_mut().pump(&mut self.session, frames)
    }

    /// How many frames wait.
    pub fn held(&self) -> usize {
        self.ring.borrow().held()
    }
}

impl<'s> Deref for Pump<'_, 's> {
    type Target = Session<'s>;

    fn deref(&self) -> &Session<'s> {
        &self.session
    }
}

impl<'s> DerefMut for Pump<'_, 's> {
    fn deref_mut(&mut self) -> &mut Session<'s> {
        &mut self.session
    }
}

/// The side of a [`Ring`] that takes frames, for an audio callback. It needs no session.
///
/// It stays on its thread; see [`Ring`] for a callback that has another:
///
/// ```compile_fail,E0277
/// use threshreed::{Ring, Song, Stores};
///
/// let (mut stores, mut ring) = (Stores::<8, 0, 4>::new(), Ring::<9>::new());
/// let session = stores.open(48_000, Song::new(&[0.5; 2], 48_000)).unwrap();
/// let (_, mut callback) = ring.split(session);
/// std::thread::scope(|threads| {
///     threads.spawn(move || callback.drain(&mut [0.0; 2]).is_ok());
/// });
/// ```
pub struct Callback<'r> {
    ring: &'r Shared,
}

impl Callback<'_> {
    /// As [`Ring::drain`].
    pub fn drain(&mut self, out: &mut [f32]) -> Result<usize, Refusal> {
        self.ring.borrow_mut().drain(out)
    }

    /// How many frames wait.
    pub fn held(&self) -> usize {
        self.ring.borrow().held()
    }
}

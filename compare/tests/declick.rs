//! Document 02's Q-4: the declick comes from the rate by whole numbers, and has as many frames as before.

use compare::runtime::ramp::Tween;
use compare::script::{NOW, STINGER, kind, mode, plain};
use threshreed::raw::{self, Command, Settings};

/// The frames of a stinger's declick in a session of this rate, through the static library.
fn declick(rate: u32) -> u32 {
    let settings = Settings {
        rate,
        mode: mode::AS_TONO,
        queue: 1,
        capture: 0,
        pool: 4,
    };
    let (mut queue, mut pool) = ([0; 5], [0.0; 8]);
    let clip = [0.0; 4];
    let opened = raw::open(settings, &queue, &[], &mut pool, &clip, rate, 2);
    let loaded = raw::load(
        opened.session,
        &queue,
        &[],
        &mut pool,
        &clip,
        STINGER,
        0,
        rate,
    );
    let stinger = Command {
        clip: loaded.handle,
        ..plain(kind::STINGER)
    };
    let submitted = raw::submit(loaded.session, &mut queue, &mut [], stinger, NOW);
    let made = raw::block(submitted.session, &queue, &[], &pool, &mut [0.0; 2]);
    assert_eq!(made.session.counters.fired, 1);
    // The block's frame was the first of them.
    made.session.voices.table[0].gain.remaining + 1
}

/// 'Answers stay as they are for all rates from 8,000 to 192,000.'
#[test]
fn the_declick_is_tonos_at_every_rate() {
    let rates = 8_000..=192_000;
    for rate in rates.clone() {
        let ours = Tween::frames(declick(rate));
        let theirs = Tween::ms(2.0, rate);
        assert_eq!(format!("{ours:?}"), format!("{theirs:?}"), "at {rate}");
    }
    println!("{} rates, no difference", rates.count());
}

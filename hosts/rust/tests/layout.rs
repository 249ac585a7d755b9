//! The C header says of every struct and of every refusal what this crate says.

use std::fmt::{Debug, Display};
use std::mem::{offset_of, size_of};

use threshreed::{DryRunRefusal, Refusal, TourFault, raw};

const HEADER: &str = include_str!("../../c/threshreed.h");

/// The header's lines that begin with one of these, in their order.
fn lines(starts: &[&str]) -> Vec<String> {
    HEADER
        .lines()
        .map(|line| line.trim_end_matches('\\').trim().to_string())
        .filter(|line| starts.iter().any(|start| line.starts_with(start)))
        .collect()
}

/// The asserts of every struct named, of its size and of each of its fields. One that is left out does not compile.
macro_rules! asserts {
    ($($name:ident { $($field:ident),* })*) => {{
        $({
            fn _every_field(x: raw::$name) {
                let raw::$name { $($field: _),* } = x;
            }
        })*
        vec![$(
            format!("THRESHREED_SIZE({}, {});", stringify!($name), size_of::<raw::$name>()),
            $(format!(
                "THRESHREED_OFFSET({}, {}, {});",
                stringify!($name), stringify!($field), offset_of!(raw::$name, $field)
            ),)*
        )*]
    }};
}

#[test]
fn the_header_asserts_the_layout_of_the_raw_types() {
    let expected = asserts! {
        Settings { rate, mode, queue, capture, pool }
        Handle { slot, serial }
        Ramp { value, target, step, remaining }
        Clip { serial, kind, extent, start, frames, rate }
        Loop { set, start, end }
        Tail { sounding, song, cursor, weight }
        Voice { handle, head, gain }
        Voices { table, count }
        Counters { executed, swaps, fired }
        Session {
            settings, used, last, clips, clock, state, position, cursor, looped, laps, song, master, tail, voices,
            counters, queued, number, deepest, dropped, capturing, captured
        }
        Command { kind, gain, clip, frame, end }
        At { kind, frame }
        Snapshot { position, state, gain, looped }
        Report { taken, full, skipped }
        Metrics { rendered, executed, dropped, deepest, swaps, fired }
        Ring { head, tail }
        Answered { refusal, session }
        Loaded { refusal, handle, session }
        Submitted { refusal, number, session }
        Blocked { refusal, passes, session }
        Pumped { refusal, frames, passes, ring, session }
        Drained { refusal, frames, ring }
        Replayed { refusal, report, session }
        Stopped { refusal, copied, session }
        Snapped { refusal, snapshot, session }
        Metered { refusal, metrics, session }
        Tour { refusal, count, place }
        Salvage { refusal, kept, bytes, ranges }
        DryRun {
            refusal, place, commands, taken, executed, queued, clock, song, state, position, looped, laps
        }
    };
    assert_eq!(expected, lines(&["THRESHREED_SIZE(", "THRESHREED_OFFSET("]));
    assert_eq!(size_of::<raw::Session>(), 2_040);
}

/// `1, NotWellFormed` with its words as the header writes it.
fn row(number: u32, refusal: impl Debug + Display) -> (u32, String) {
    let mut name = String::new();
    for letter in format!("{refusal:?}").chars() {
        if letter.is_uppercase() && !name.is_empty() {
            name.push('_');
        }
        name.push(letter.to_ascii_uppercase());
    }
    (number, format!("X({number}, {name}, \"{refusal}\")"))
}

#[test]
fn the_header_has_the_numbers_and_the_words_of_the_refusals() {
    let faults = TourFault::ALL.map(|x| row(x.number(), x));
    let of_dry_runs = [DryRunRefusal::BadClips, DryRunRefusal::LongTour];
    let mut rows = Refusal::ALL.map(|x| row(x.number(), x)).to_vec();
    rows.extend(faults);
    rows.extend(of_dry_runs.map(|x| row(x.number(), x)));
    rows.sort();
    let expected: Vec<String> = rows.into_iter().map(|(_, line)| line).collect();
    assert_eq!(expected, lines(&["X("]));
}

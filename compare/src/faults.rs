//! Faults that `build.rs` plants into a copy of tono's files when `TONO_FAULT` names one, to show that the
//! comparison sees them. A fault replaces single tokens of an item: nothing of tono stands here but names.

pub struct Fault {
    pub name: &'static str,
    pub edits: &'static [Edit],
}

/// The `nth` place of a token in an item of a file, from 1, and what stands there instead.
pub struct Edit {
    pub file: &'static str,
    /// The words that begin the item: a function, a constant or an implementation.
    pub item: &'static str,
    pub token: &'static str,
    pub nth: usize,
    pub new: &'static str,
}

const fn edit(
    file: &'static str,
    item: &'static str,
    token: &'static str,
    new: &'static str,
) -> Edit {
    Edit {
        file,
        item,
        token,
        nth: 1,
        new,
    }
}

const fn second(
    file: &'static str,
    item: &'static str,
    token: &'static str,
    new: &'static str,
) -> Edit {
    Edit {
        nth: 2,
        ..edit(file, item, token, new)
    }
}

const FILL: &str = "impl AudioSource for Performance";

pub const FAULTS: &[Fault] = &[
    // Document 01's traps. The fourth, a handle that is only checked when it is scheduled, the Rust
    // cannot have; a swap whose song is not found when it is due comes nearest.
    Fault {
        name: "all-due-at-a-block-end",
        edits: &[second(
            "performance",
            FILL,
            "stamped",
            "stamped); while let Some(next) = self.queue.pop_due(self.clock) { self.execute(next); } drop(()",
        )],
    },
    Fault {
        name: "rule-a-sends-both-to-one-place",
        edits: &[edit(
            "performance",
            "fn render_slice",
            "start as",
            "self.transport.position_frames() as",
        )],
    },
    Fault {
        name: "tail-times-master",
        edits: &[edit(
            "performance",
            "fn render_slice",
            "weight.tick",
            "g * weight.tick",
        )],
    },
    Fault {
        name: "replayed-swap-by-its-old-number",
        edits: &[edit(
            "performance",
            "fn replay",
            "insert(seq",
            "insert(c.seq",
        )],
    },
    // Blocks and the queue.
    Fault {
        name: "none-due-at-a-block-end",
        edits: &[edit("performance", FILL, "<=", "<")],
    },
    Fault {
        name: "ties-turned-round",
        edits: &[edit("timeline", "fn push", "e.seq", "seq + 1")],
    },
    Fault {
        name: "deepest-not-raised",
        edits: &[edit("performance", "fn enqueue", "max(", "min(")],
    },
    Fault {
        name: "dropped-not-counted",
        edits: &[edit("performance", "fn require_queue_room", "+= 1", "+= 0")],
    },
    Fault {
        name: "replay-raises-the-deepest-depth",
        edits: &[edit(
            "performance",
            "fn replay",
            "let seq",
            "let deep = self.queue.len() + 1; self.metrics.queue_depth_max = self.metrics.queue_depth_max.max(deep); let seq",
        )],
    },
    Fault {
        name: "full-replay-ends-at-once",
        edits: &[edit("performance", "fn replay", "continue", "break")],
    },
    Fault {
        name: "older-transition-stays-queued",
        edits: &[edit(
            "performance",
            "fn transition_to_section",
            "|c| !",
            "|c| true || !",
        )],
    },
    Fault {
        name: "older-transition-stays-captured",
        edits: &[edit(
            "performance",
            "fn transition_to_section",
            "!replaced",
            "true || !replaced",
        )],
    },
    Fault {
        name: "time-at-the-position-waits-a-round",
        edits: &[edit(
            "performance",
            "fn deadline_for_transport_frame",
            ">=",
            ">",
        )],
    },
    // The transport.
    Fault {
        name: "seek-not-clamped",
        edits: &[edit(
            "transport",
            "fn seek_frame",
            "self.length_frames",
            "u64::MAX",
        )],
    },
    Fault {
        name: "loop-wraps-one-frame-late",
        edits: &[
            edit("transport", "fn advance", "pos >= end", "pos > end"),
            edit(
                "performance",
                "fn render_slice",
                "end.saturating",
                "(end + 1).saturating",
            ),
        ],
    },
    Fault {
        name: "song-stops-one-frame-late",
        edits: &[edit("transport", "fn advance", "pos >= self", "pos > self")],
    },
    Fault {
        name: "stop-clears-the-loop",
        edits: &[edit(
            "transport",
            "fn stop",
            "= 0",
            "= 0; self.loop_range = None",
        )],
    },
    Fault {
        name: "swap-keeps-the-loop",
        edits: &[
            edit(
                "performance",
                "fn execute",
                "mut weight",
                "kept = self.transport.loop_range(); let mut weight",
            ),
            second(
                "performance",
                "fn execute",
                "transport.play()",
                "transport.play(); if let Some((start, end)) = kept { self.transport.set_loop_frames(start, end); }",
            ),
        ],
    },
    // The passes, with the same sound. The first two go past the transport that counts.
    Fault {
        name: "rule-a-tells-no-pass",
        edits: &[edit(
            "performance",
            "fn render_slice",
            "self.transport.advance",
            "(*self.transport).advance",
        )],
    },
    Fault {
        name: "rule-b-tells-no-pass",
        edits: &[second(
            "performance",
            "fn render_slice",
            "self.transport.advance",
            "(*self.transport).advance",
        )],
    },
    Fault {
        name: "song-end-tells-a-pass",
        edits: &[second(
            "transport",
            "fn advance",
            "wrapped: false",
            "wrapped: true",
        )],
    },
    // Sound.
    Fault {
        name: "gain-ramp-of-255",
        edits: &[edit("performance", "const GAIN_RAMP_FRAMES", "256", "255")],
    },
    Fault {
        name: "tail-of-1023",
        edits: &[edit(
            "performance",
            "const SWAP_FADE_FRAMES",
            "1024",
            "1023",
        )],
    },
    Fault {
        name: "weight-read-before-its-tick",
        edits: &[edit(
            "performance",
            "fn render_slice",
            "weight.tick",
            "weight.value(); weight.tick",
        )],
    },
    Fault {
        name: "tail-pauses",
        edits: &[edit(
            "performance",
            "fn render_slice",
            "is_some()",
            "is_some() && self.transport.is_playing()",
        )],
    },
    Fault {
        name: "voices-in-reverse-order",
        edits: &[edit("performance", "fn execute", "push(", "insert(0, ")],
    },
    Fault {
        name: "declick-of-1-ms",
        edits: &[edit("performance", "fn execute", "ms(2.0", "ms(1.0")],
    },
    Fault {
        name: "ride-starts-at-1",
        edits: &[edit("ramp", "fn set", "- self.value", "- 1.0")],
    },
    // Snapshots. Only ones that were never taken meet the last: no loop that is submitted is senseless.
    Fault {
        name: "snapshot-of-the-value",
        edits: &[edit("performance", "fn snapshot", "target()", "value()")],
    },
    Fault {
        name: "unset-loop-of-a-snapshot-clears",
        edits: &[edit(
            "performance",
            "fn apply_snapshot",
            "self.transport.set_loop",
            "self.transport.clear_loop(); self.transport.set_loop",
        )],
    },
    Fault {
        name: "senseless-loop-of-a-snapshot-is-set",
        edits: &[edit(
            "transport",
            "fn set_loop_frames",
            "start >= end",
            "false",
        )],
    },
    // The ring.
    Fault {
        name: "odd-last-sample-takes-half-a-frame",
        edits: &[edit(
            "ring",
            "impl AudioSource for Renderer",
            "frame.fill(0.0)",
            "frame.fill_with(|| self.ring.pop().unwrap_or(0.0))",
        )],
    },
    Fault {
        name: "pump-held-to-the-free-samples",
        edits: &[edit("ring", "fn pump", "free() / 2", "free()")],
    },
];

/// The source of one of tono's files with the edits of a fault that concern it; none if none does.
pub fn planted(fault: &Fault, file: &str, source: &str) -> Option<String> {
    let mut text = None;
    for edit in fault.edits.iter().filter(|edit| edit.file == file) {
        text = Some(replaced(text.as_deref().unwrap_or(source), edit));
    }
    text
}

fn replaced(source: &str, edit: &Edit) -> String {
    let begin = source.find(edit.item).expect("the file has the item");
    let end = begin + item_length(&source[begin..]);
    let mut places = source[begin..end].match_indices(edit.token);
    let (place, _) = places.nth(edit.nth - 1).expect("the item has the token");
    let place = begin + place;
    let after = place + edit.token.len();
    source[..place].to_string() + edit.new + &source[after..]
}

/// An item ends with its semicolon, or with the brace that closes its first one.
fn item_length(text: &str) -> usize {
    let mut depth = 0;
    for (place, letter) in text.char_indices() {
        match letter {
            '{' => depth += 1,
            '}' => depth -= 1,
            ';' => {}
            _ => continue,
        }
        if depth == 0 {
            return place + 1;
        }
    }
    panic!("the item has no end")
}

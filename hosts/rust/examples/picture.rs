//! Draws what a dry run tells: reads the sheet that `planner` prints from standard input and writes a picture in SVG to
//! standard output, `planner CLIPS TOUR BLOCKS | picture >tour.svg`.
//!
//! A lane for each song has its time from left to right, by colour whether it plays, plays in a loop, is paused or is
//! stopped. Swaps go from lane to lane, a stinger stands over the song that it sounds with, and each command has its words
//! below, in as many rows as are needed for none to cover another. It is made of the clips and the rows alone: the
//! commands tell the state, and a song stops where its position comes to its length.

use std::fmt::Write;
use std::io::{self, Read};
use std::process::ExitCode;

// ---- the sheet

/// What is read of a sheet.
struct Sheet {
    /// Its first line.
    title: String,
    rate: u64,
    frames: u64,
    songs: Vec<Song>,
    rows: Vec<Row>,
}

struct Song {
    slot: u64,
    rate: u64,
    length: u64,
}

/// An executed command.
struct Row {
    clock: u64,
    /// The clock in minutes, seconds and frames, as the sheet has it.
    time: String,
    words: String,
    command: Command,
    from: u64,
    to: u64,
    /// The laps before it.
    laps: u64,
}

/// What a command is to the picture.
#[derive(Clone, Copy, PartialEq)]
enum Command {
    Play,
    Pause,
    Stop,
    Loop(u64, u64),
    ClearLoop,
    Swap(u64),
    Stinger,
    /// A seek, a transition or a gain.
    Other,
}

/// A number, its digits in groups of three.
fn number(word: &str) -> Option<u64> {
    word.replace(',', "").parse().ok()
}

fn command(words: &[&str]) -> Option<Command> {
    Some(match words {
        ["play"] => Command::Play,
        ["pause"] => Command::Pause,
        ["stop"] => Command::Stop,
        ["loop", start, "to", end] => Command::Loop(number(start)?, number(end)?),
        ["clear", "loop"] => Command::ClearLoop,
        ["swap", "to", "slot", slot] => Command::Swap(number(slot)?),
        ["stinger", "slot", slot, "at", _, ..] => number(slot).map(|_| Command::Stinger)?,
        ["seek" | "transition", "to", frame] => number(frame).map(|_| Command::Other)?,
        ["gain", _, ..] => Command::Other,
        _ => return None,
    })
}

/// Rate and frames of the first line: `dry run, as tono, 48,000 frames a second, 5,760,000 frames = 2:00.00000`.
fn head(line: &str) -> Option<(u64, u64)> {
    let mut parts = line.strip_prefix("dry run, ")?.split(", ").skip(1);
    let rate = number(parts.next()?.strip_suffix(" frames a second")?)?;
    let frames = number(parts.next()?.split_once(" frames = ")?.0)?;
    (rate > 0).then_some((rate, frames))
}

/// A line of the clips: slot, serial, kind, rate, frames and length. A stinger is no song.
fn clip(line: &str) -> Option<Option<Song>> {
    match line.split_whitespace().collect::<Vec<_>>()[..] {
        [slot, _, "song", rate, _, length] => {
            let (slot, rate, length) = (number(slot)?, number(rate)?, number(length)?);
            (rate > 0).then_some(Some(Song { slot, rate, length }))
        }
        [_, _, "stinger", _, _, _] => Some(None),
        _ => None,
    }
}

/// A line of the rows: clock, time, record, the command's words, from, to, laps and then.
fn row(line: &str) -> Option<Row> {
    let words: Vec<&str> = line.split_whitespace().collect();
    let [clock, time, _, middle @ .., from, to, laps, _] = &words[..] else {
        return None;
    };
    Some(Row {
        clock: number(clock)?,
        time: time.to_string(),
        words: middle.join(" "),
        command: command(middle)?,
        from: number(from)?,
        to: number(to)?,
        laps: number(laps)?,
    })
}

/// Reads a sheet, or says what is wrong with it.
fn read(text: &str) -> Result<Sheet, String> {
    let mut lines = (1..).zip(text.lines());
    let wrong = |n: usize, what: &str| Err(format!("line {n}: {what}"));
    let title = text.lines().next().unwrap_or_default();
    let Some((rate, frames)) = head(title) else {
        return wrong(1, "not the head of a dry run");
    };
    let (mut songs, mut rows) = (Vec::<Song>::new(), Vec::<Row>::new());

    if !lines.any(|(_, line)| line.starts_with("slot serial kind ")) {
        return Err("no clips in it".into());
    }
    for (n, line) in lines.by_ref().take_while(|x| !x.1.is_empty()) {
        match clip(line) {
            Some(song) => songs.extend(song),
            None => return wrong(n, "not a clip"),
        }
    }
    if songs.is_empty() {
        return Err("no song in it".into());
    }
    if !lines.any(|(_, line)| line.trim_start().starts_with("clock ")) {
        return Err("no rows in it".into());
    }
    for (n, line) in lines.by_ref().take_while(|x| !x.1.is_empty()) {
        let Some(row) = row(line) else {
            return wrong(n, "not a row");
        };
        let before = rows.last().map_or(0, |row| row.clock);
        if !(before..=frames).contains(&row.clock) {
            return wrong(n, "a clock frame out of order");
        }
        match row.command {
            Command::Swap(slot) if songs.iter().all(|song| song.slot != slot) => {
                return wrong(n, "a swap to what is no song");
            }
            _ => rows.push(row),
        }
    }
    let executed = format!("executed {}, ", rows.len());
    if !lines.any(|(_, line)| line.starts_with(&executed)) {
        return Err("not a whole sheet".into());
    }
    Ok(Sheet {
        title: title.to_string(),
        rate,
        frames,
        songs,
        rows,
    })
}

// ---- what the songs do

#[derive(Clone, Copy, Debug, PartialEq)]
enum State {
    Playing,
    Looping,
    Paused,
    Stopped,
}

impl State {
    const ALL: [State; 4] = [
        State::Playing,
        State::Looping,
        State::Paused,
        State::Stopped,
    ];

    fn words(self) -> &'static str {
        match self {
            State::Playing => "playing",
            State::Looping => "in a loop",
            State::Paused => "paused",
            State::Stopped => "stopped",
        }
    }

    fn colour(self) -> &'static str {
        match self {
            State::Playing => "#4fae7f",
            State::Looping => "#3f78c9",
            State::Paused => "#e8bd55",
            State::Stopped => "#d4d7db",
        }
    }
}

/// A stretch of clock frames in which nothing changes for a song.
#[derive(Clone, Debug, PartialEq)]
struct Span {
    song: usize,
    state: State,
    from: u64,
    to: u64,
    /// Which row set the loop, if it is in one.
    looped: Option<usize>,
    /// The laps where it ends, if it is in a loop and a command tells them.
    laps: Option<u64>,
}

impl Sheet {
    fn song(&self, slot: u64) -> usize {
        let mut songs = self.songs.iter();
        songs.position(|song| song.slot == slot).unwrap_or(0)
    }

    /// Which song each command finds playing, and the spans of all songs in order.
    fn spans(&self) -> (Vec<usize>, Vec<Span>) {
        let (mut song, mut state, mut looped) = (0, State::Stopped, None);
        let (mut clock, mut position) = (0, 0);
        let (mut found, mut spans) = (Vec::new(), Vec::new());
        for n in 0..=self.rows.len() {
            // Up to the command, or to the end.
            let row = self.rows.get(n);
            let to = row.map_or(self.frames, |row| row.clock);
            let left = self.songs[song].length.saturating_sub(position).max(1);
            if state == State::Playing && looped.is_none() && left <= to - clock {
                add(&mut spans, song, state, looped, clock, clock + left);
                (state, clock) = (State::Stopped, clock + left);
            }
            add(&mut spans, song, state, looped, clock, to);
            let Some(row) = row else { break };
            if let Some(last) = spans.last_mut().filter(|x| x.state == State::Looping) {
                last.laps = Some(row.laps);
            }

            found.push(song);
            (clock, position) = (to, row.to);
            match row.command {
                Command::Play => state = State::Playing,
                Command::Pause => state = State::Paused,
                Command::Stop => state = State::Stopped,
                Command::Loop(start, end) if start < end && end <= self.songs[song].length => {
                    looped = Some(n);
                }
                Command::ClearLoop => looped = None,
                Command::Swap(slot) => {
                    (song, state, looped) = (self.song(slot), State::Playing, None);
                }
                Command::Loop(..) | Command::Stinger | Command::Other => {}
            }
        }
        (found, spans)
    }
}

/// Adds some frames, to the last span if they are like it.
fn add(
    spans: &mut Vec<Span>,
    song: usize,
    state: State,
    looped: Option<usize>,
    from: u64,
    to: u64,
) {
    let looped = looped.filter(|_| state == State::Playing);
    let state = if looped.is_some() {
        State::Looping
    } else {
        state
    };
    match spans.last_mut() {
        _ if from == to => {}
        Some(x) if (x.song, x.state, x.looped) == (song, state, looped) => x.to = to,
        _ => spans.push(Span {
            song,
            state,
            from,
            to,
            looped,
            laps: None,
        }),
    }
}

// ---- the layout, in pixels

const FONT: f64 = 11.0;
/// Where the time begins, how wide it is at least, and what is kept free behind it.
const LEFT: f64 = 96.0;
const WIDTH: f64 = 1_080.0;
const RIGHT: f64 = 24.0;
/// Where the lanes begin; the height of a lane, and of the bar in it.
const TOP: f64 = 84.0;
const LANE: f64 = 46.0;
const BAR: f64 = 24.0;
/// The height of a row of labels, and the free space beside a label.
const LABEL: f64 = 16.0;
const GAP: f64 = 4.0;

/// How wide a text is at most, in any of the usual fonts without serifs.
fn width(text: &str) -> f64 {
    let letter = |x| match x {
        'i' | 'j' | 'l' | ' ' | '.' | ',' | ':' | '-' => 0.38,
        'f' | 'r' | 't' => 0.44,
        'm' | 'w' | 'M' | 'W' => 1.0,
        _ => 0.66,
    };
    text.chars().map(letter).sum::<f64>() * FONT
}

/// A label: its left end, its width, and in which row.
#[derive(Clone, Copy)]
struct Place {
    x: f64,
    width: f64,
    row: usize,
}

impl Place {
    fn covers(&self, other: &Place) -> bool {
        let [a, b] = [self, other];
        a.row == b.row && a.x < b.x + b.width + GAP && b.x < a.x + a.width + GAP
    }
}

/// Puts each label beside its line, on the right, or on the left where the picture ends, in the first row where it covers
/// none that is placed.
fn places(labels: &[(f64, &str)], right: f64) -> Vec<Place> {
    let mut placed: Vec<Place> = Vec::new();
    for (at, words) in labels {
        let width = width(words);
        let fits = at + GAP + width <= right;
        let x = if fits { at + GAP } else { at - GAP - width };
        let mut row = 0;
        while placed.iter().any(|y| Place { x, width, row }.covers(y)) {
            row += 1;
        }
        placed.push(Place { x, width, row });
    }
    placed
}

/// Seconds between the marks of the time: so many that the marks stand well apart.
fn step(seconds: f64, width: f64) -> u64 {
    let steps = [1, 2, 5, 10, 15, 30, 60, 120, 300, 600, 1_200, 1_800, 3_600];
    let is_apart = |step: &u64| *step as f64 / seconds * width >= 64.0;
    let hours = (1..=40).map(|n| 3_600 << n);
    let mut steps = steps.into_iter().chain(hours);
    steps.find(is_apart).unwrap_or(u64::MAX)
}

fn minutes(seconds: u64) -> String {
    format!("{}:{:02}", seconds / 60, seconds % 60)
}

fn grouped(n: u64) -> String {
    let digits = n.to_string();
    let groups = digits.as_bytes().rchunks(3).rev();
    let groups: Vec<_> = groups.map(String::from_utf8_lossy).collect();
    groups.join(",")
}

fn escaped(text: &str) -> String {
    let text = text.replace('&', "&amp;").replace('<', "&lt;");
    text.replace('>', "&gt;")
}

// ---- the drawing

const INK: &str = "#2b2f36";
const FAINT: &str = "#8a919b";
const STINGER: &str = "#b8357f";

/// Where things stand in the picture of a sheet.
struct Layout<'s> {
    sheet: &'s Sheet,
    /// How wide the time is.
    wide: f64,
}

impl<'s> Layout<'s> {
    /// With many commands it is wider, so that their labels need no more than a few rows.
    fn of(sheet: &'s Sheet) -> Self {
        let labels: f64 = sheet.rows.iter().map(|row| width(&row.words)).sum();
        let wide = WIDTH.max(labels / 5.0);
        Layout { sheet, wide }
    }

    /// The picture's width.
    fn full(&self) -> f64 {
        LEFT + self.wide + RIGHT
    }

    fn at(&self, clock: u64) -> f64 {
        LEFT + self.wide * (clock as f64 / self.sheet.frames.max(1) as f64)
    }

    /// The upper edge of a song's bar.
    fn bar(&self, song: usize) -> f64 {
        TOP + LANE * song as f64 + LANE - BAR - 4.0
    }

    /// The lower end of the lanes.
    fn bottom(&self) -> f64 {
        TOP + LANE * self.sheet.songs.len() as f64 + 6.0
    }

    /// The upper edge of a row of labels.
    fn labels(&self, row: usize) -> f64 {
        self.bottom() + 12.0 + LABEL * row as f64
    }

    /// The place of each command's label.
    fn places(&self) -> Vec<Place> {
        let rows = self.sheet.rows.iter();
        let labels: Vec<(f64, &str)> = rows.map(|x| (self.at(x.clock), &x.words[..])).collect();
        places(&labels, self.full() - GAP)
    }
}

/// The elements of a picture, one on a line.
#[derive(Default)]
struct Picture(String);

impl Picture {
    fn put(&mut self, element: std::fmt::Arguments) {
        // Writing to a string does not fail.
        let _ = writeln!(self.0, "{element}");
    }

    fn text(&mut self, [x, y]: [f64; 2], anchor: &str, colour: &str, words: &str) {
        let words = escaped(words);
        self.put(format_args!(
            r#"<text x="{x:.1}" y="{y:.1}" text-anchor="{anchor}" fill="{colour}">{words}</text>"#
        ));
    }

    /// A line downwards or upwards.
    fn line(&mut self, x: f64, [from, to]: [f64; 2], width: f64, colour: &str) {
        self.put(format_args!(
            r#"<path d="M{x:.1} {from:.1}V{to:.1}" stroke="{colour}" stroke-width="{width}"/>"#
        ));
    }

    /// A rectangle, with words for who points at it.
    fn bar(&mut self, [x, y]: [f64; 2], [width, height]: [f64; 2], colour: &str, words: &str) {
        let words = escaped(words);
        self.put(format_args!(
            r#"<rect x="{x:.1}" y="{y:.1}" width="{width:.1}" height="{height:.1}" fill="{colour}"><title>{words}</title></rect>"#
        ));
    }

    /// A small triangle with its tip here, and its back so far above it.
    fn tip(&mut self, [x, y]: [f64; 2], above: f64, colour: &str, words: &str) {
        let words = escaped(words);
        let (left, right, back) = (x - 4.5, x + 4.5, y - above);
        self.put(format_args!(
            r#"<path d="M{x:.1} {y:.1}L{left:.1} {back:.1}H{right:.1}Z" fill="{colour}"><title>{words}</title></path>"#
        ));
    }

    fn legend(&mut self, y: f64) {
        let mut x = LEFT;
        for state in State::ALL {
            self.bar([x, y - 9.0], [18.0, 11.0], state.colour(), state.words());
            self.text([x + 24.0, y], "start", INK, state.words());
            x += 24.0 + width(state.words()) + 14.0;
        }
        self.line(x + 5.0, [y - 10.0, y - 4.0], 1.5, INK);
        for (words, colour) in [("swap", INK), ("stinger", STINGER)] {
            self.tip([x + 5.0, y + 1.0], 8.0, colour, words);
            self.text([x + 15.0, y], "start", INK, words);
            x += 15.0 + width(words) + 14.0;
        }
    }

    /// A lane for each song, with its slot and its length.
    fn lanes(&mut self, layout: &Layout) {
        for (n, song) in layout.sheet.songs.iter().enumerate() {
            let (y, slot) = (layout.bar(n), format!("slot {}", song.slot));
            self.bar([LEFT, y], [layout.wide, BAR], "#f3f4f6", &slot);
            self.text([LEFT - 10.0, y + 11.0], "end", INK, &slot);
            let length = minutes(song.length / song.rate);
            self.text([LEFT - 10.0, y + 23.0], "end", FAINT, &length);
        }
    }

    /// The minutes above the lanes.
    fn time(&mut self, layout: &Layout) {
        let Sheet { rate, frames, .. } = *layout.sheet;
        let seconds = frames as f64 / rate as f64;
        let step = step(seconds.max(1.0), layout.wide);
        for n in 0..=frames / rate / step {
            let x = layout.at(n * step * rate);
            self.line(x, [TOP - 6.0, layout.bottom()], 1.0, "#dfe2e6");
            self.text([x, TOP - 11.0], "middle", FAINT, &minutes(n * step));
        }
    }

    /// What the songs do, and how often a loop came round where there is room to say it.
    fn spans(&mut self, layout: &Layout, spans: &[Span]) {
        for span in spans {
            let [x, end] = [span.from, span.to].map(|clock| layout.at(clock));
            // A little is left free, so that two loops are told apart.
            let (y, wide) = (layout.bar(span.song), (end - x - 0.8).max(0.7));
            let [from, to] = [span.from, span.to].map(grouped);
            let words = format!("{} from {from} to {to}", span.state.words());
            self.bar([x, y], [wide, BAR], span.state.colour(), &words);
            let laps = match span.laps {
                None => continue,
                Some(1) => "1 lap".to_string(),
                Some(n) => format!("{} laps", grouped(n)),
            };
            if width(&laps) + 2.0 * GAP < wide {
                self.text([x + wide / 2.0, y + 16.0], "middle", "#fff", &laps);
            }
        }
    }

    /// The swaps and the stingers. A stinger stands over the song that it finds.
    fn marks(&mut self, layout: &Layout, found: &[usize]) {
        for (row, &song) in layout.sheet.rows.iter().zip(found) {
            let x = layout.at(row.clock);
            let words = format!("{}: {}", row.time, row.words);
            match row.command {
                Command::Stinger => self.tip([x, layout.bar(song)], 8.0, STINGER, &words),
                Command::Swap(slot) => {
                    // From the middle of the one bar to that of the other; to the same song it comes from above.
                    let songs = [song, layout.sheet.song(slot)];
                    let [from, to] = songs.map(|song| layout.bar(song) + BAR / 2.0);
                    let from = if from == to { to - BAR } else { from };
                    let above = if from < to { 8.0 } else { -8.0 };
                    self.line(x, [from, to - above], 1.5, INK);
                    self.tip([x, to], above, INK, &words);
                }
                _ => {}
            }
        }
    }

    /// A line from each command to its label.
    fn leaders(&mut self, layout: &Layout, places: &[Place]) {
        for (row, place) in layout.sheet.rows.iter().zip(places) {
            let (x, end) = (layout.at(row.clock), layout.labels(place.row) + LABEL - 4.0);
            self.line(x, [TOP, end], 0.7, "#a4aab3");
        }
    }

    /// The words of each command. They interrupt what lines there are behind them.
    fn labels(&mut self, layout: &Layout, places: &[Place]) {
        for (row, place) in layout.sheet.rows.iter().zip(places) {
            let y = layout.labels(place.row);
            let [from, to] = [row.from, row.to].map(grouped);
            let words = format!("{}: {from} to {to}", row.time);
            let size = [place.width + 4.0, LABEL - 2.0];
            self.bar([place.x - 2.0, y], size, "#fff", &words);
            let is_stinger = row.command == Command::Stinger;
            let colour = if is_stinger { STINGER } else { INK };
            self.text([place.x, y + LABEL - 5.0], "start", colour, &row.words);
        }
    }
}

/// The picture of a sheet.
fn picture(sheet: &Sheet) -> String {
    let layout = Layout::of(sheet);
    let (found, spans) = sheet.spans();
    let places = layout.places();
    let rows = places.iter().map(|place| place.row + 1).max();
    let (full, height) = (layout.full(), layout.labels(rows.unwrap_or(0)) + 8.0);

    let mut picture = Picture::default();
    picture.put(format_args!(
        r#"<svg xmlns="http://www.w3.org/2000/svg" width="{full:.0}" height="{height:.0}" font-family="sans-serif" font-size="{FONT}">"#
    ));
    picture.put(format_args!(
        r#"<rect width="100%" height="100%" fill="white"/>"#
    ));
    picture.put(format_args!(
        r#"<text x="{LEFT}" y="24" fill="{INK}" font-size="14">{}</text>"#,
        escaped(&sheet.title)
    ));
    picture.legend(46.0);
    picture.lanes(&layout);
    picture.time(&layout);
    picture.leaders(&layout, &places);
    picture.spans(&layout, &spans);
    picture.marks(&layout, &found);
    picture.labels(&layout, &places);
    picture.put(format_args!("</svg>"));
    picture.0
}

fn main() -> ExitCode {
    let mut text = String::new();
    let read = match io::stdin().read_to_string(&mut text) {
        Ok(_) => read(&text),
        Err(error) => Err(error.to_string()),
    };
    match read {
        Ok(sheet) => {
            print!("{}", picture(&sheet));
            ExitCode::SUCCESS
        }
        Err(what) => {
            eprintln!("picture: {what}");
            ExitCode::FAILURE
        }
    }
}

#[cfg(test)]
mod tests {
    use super::*;

    const SAMPLE: &str = "\
dry run, as tono, 48,000 frames a second, 5,760,000 frames = 2:00.00000

slot serial kind     rate    frames     length
   0      1 song     48000 2,880,000  2,880,000
   4      2 song     48000 1,440,000  1,440,000
   7      3 stinger  48000    24,000          -
   9      5 song     44100   441,000    441,000

records 12, taken 9, skipped 3
  record 4 for frame 500,000: stinger slot 7 at 20.0: 14, stinger gain above 16
  record 6 for frame 2,400,000: swap to slot 9: 13, recorded at 44,100
  record 9 for frame 2,500,000: loop 5,000 to 5,000: 22, start not below end

        clock       time record command                             from          to  laps  then
            0 0:00.00000      1 play                                   0           0     0     0
      480,000 0:10.00000      2 loop 96,000 to 192,000           480,000     480,000     0     0
      500,000 0:10.20000      3 stinger slot 7 at 0.75           116,000     116,000     1     1
    1,200,000 0:25.00000      5 gain 0.25                        144,000     144,000     8     8
    2,400,000 0:50.00000      7 swap to slot 4                    96,000           0    21     0
    2,448,000 0:51.00000      8 loop 48,000 to 96,000             48,000      48,000     0     0
    4,320,000 1:30.00000     10 clear loop                        48,000      48,000    39     0
    4,560,000 1:35.00000     11 transition to 1,200,000          288,000   1,200,000     0     0

at 5,760,000: slot 4, stopped at 1,440,000, no loop
executed 8, still queued 1
";

    /// A sheet of one song of a hundred frames, its rate 100, with these commands: clock, words, position after.
    fn sheet(frames: u64, commands: &[(u64, &str, u64)]) -> Sheet {
        let mut text =
            format!("dry run, house, 100 frames a second, {frames} frames = 0:00.00\n\n");
        text +=
            "slot serial kind rate frames length\n3 1 song 100 100 100\n\nrecords\n\nclock time\n";
        for (clock, words, to) in commands {
            text += &format!("{clock} 0:00.00 1 {words} 0 {to} 0 0\n");
        }
        text += &format!(
            "\nat the end\nexecuted {}, still queued 0\n",
            commands.len()
        );
        read(&text).unwrap()
    }

    /// Song, state, first and last clock frame.
    fn told(sheet: &Sheet) -> Vec<(usize, State, u64, u64)> {
        let spans = sheet.spans().1;
        let spans = spans.iter().map(|x| (x.song, x.state, x.from, x.to));
        spans.collect()
    }

    use State::*;

    #[test]
    fn the_sample() {
        let sheet = read(SAMPLE).unwrap();
        let slots: Vec<u64> = sheet.songs.iter().map(|song| song.slot).collect();
        assert_eq!((slots, sheet.rows.len()), (vec![0, 4, 9], 8));
        assert_eq!((sheet.rate, sheet.frames), (48_000, 5_760_000));
        let expected = [
            (0, Playing, 0, 480_000),
            (0, Looping, 480_000, 2_400_000),
            (1, Playing, 2_400_000, 2_448_000),
            (1, Looping, 2_448_000, 4_320_000),
            (1, Playing, 4_320_000, 4_800_000),
            (1, Stopped, 4_800_000, 5_760_000),
        ];
        assert_eq!(told(&sheet), expected);
        let (found, spans) = sheet.spans();
        assert_eq!(found, [0, 0, 0, 0, 0, 1, 1, 1]);
        let laps: Vec<Option<u64>> = spans.iter().map(|x| x.laps).collect();
        assert_eq!(laps, [None, Some(21), None, Some(39), None, None]);
        let drawn = picture(&sheet);
        for row in &sheet.rows {
            assert!(drawn.contains(&format!(">{}</text>", row.words)));
        }
        for words in ["slot 0", "slot 4", "slot 9", "2:00", "21 laps", "39 laps"] {
            assert!(drawn.contains(&format!(">{words}</text>")), "{words}");
        }
    }

    #[test]
    fn what_the_commands_tell() {
        // It stops at its length, plays on for a frame from there, and in a loop does not stop.
        let commands = [
            (0, "play", 0),
            (150, "play", 100),
            (200, "loop 0 to 100", 100),
        ];
        let expected = [
            (0, Playing, 0, 100),
            (0, Stopped, 100, 150),
            (0, Playing, 150, 151),
            (0, Stopped, 151, 300),
        ];
        assert_eq!(told(&sheet(300, &commands)), expected);
        let commands = [(0, "loop 5 to 100", 0), (10, "play", 0), (900, "pause", 7)];
        let expected = [
            (0, Stopped, 0, 10),
            (0, Looping, 10, 900),
            (0, Paused, 900, 1_000),
        ];
        assert_eq!(told(&sheet(1_000, &commands)), expected);
        // A loop past its length is not set; a loop that is set again is another; a swap clears it.
        let commands = [
            (0, "play", 0),
            (1, "loop 5 to 101", 1),
            (2, "loop 5 to 6", 2),
            (9, "loop 5 to 6", 5),
            (20, "gain 0.5", 5),
            (30, "swap to slot 3", 0),
            (40, "stop", 0),
        ];
        let expected = [
            (0, Playing, 0, 2),
            (0, Looping, 2, 9),
            (0, Looping, 9, 30),
            (0, Playing, 30, 40),
            (0, Stopped, 40, 50),
        ];
        assert_eq!(told(&sheet(50, &commands)), expected);
        assert_eq!(told(&sheet(0, &[])), []);
        assert!(picture(&sheet(0, &[])).ends_with("</svg>\n"));
    }

    /// Up to 256 commands, apart and together, at the picture's ends too.
    #[test]
    fn no_label_covers_another() {
        let words = ["play", "transition to 1,200,000", "loop 96,000 to 192,000"];
        for commands in [1, 8, 40, 256] {
            for apart in [0, 1, 7, 100] {
                let command = |n: u64| (n * apart, words[n as usize % 3], 0);
                let commands: Vec<_> = (0..commands).map(command).collect();
                let sheet = sheet(255 * 100, &commands);
                let at = |row: &Row| LEFT + row.clock as f64 / 20.0;
                let labels = sheet.rows.iter().map(|row| (at(row), &row.words[..]));
                let labels: Vec<_> = labels.collect();
                let right = LEFT + 255.0 * 100.0 / 20.0;
                let places = places(&labels, right);
                for (n, place) in places.iter().enumerate() {
                    let ends = [place.x, place.x + place.width];
                    assert!(ends[0] > 0.0 && ends[1] <= right);
                    assert!(!places[..n].iter().any(|other| other.covers(place)));
                }
                assert!(picture(&sheet).len() > 1_000);
            }
        }
    }

    #[test]
    fn the_marks_of_the_time_stand_apart() {
        for seconds in [1.0, 59.0, 600.0, 7_200.0, 1e9, 1e15] {
            let step = step(seconds, WIDTH) as f64;
            assert!(step / seconds * WIDTH >= 64.0);
            assert!(seconds / step < 20.0);
        }
        assert_eq!(
            (minutes(59), minutes(7_205)),
            ("0:59".into(), "120:05".into())
        );
        assert_eq!(
            (grouped(999), grouped(1_000_000)),
            ("999".into(), "1,000,000".into())
        );
    }

    #[test]
    fn what_is_no_sheet() {
        let refused = |text: &str, words: &str| {
            let said = read(text).err().expect(words);
            assert_eq!(said, words);
        };
        let changed = |from: &str, to: &str| {
            assert!(SAMPLE.contains(from));
            SAMPLE.replacen(from, to, 1)
        };
        refused("", "line 1: not the head of a dry run");
        refused(
            "refused: more than 256 commands",
            "line 1: not the head of a dry run",
        );
        refused(
            &changed("48,000 frames", "0 frames"),
            "line 1: not the head of a dry run",
        );
        refused(
            &changed("5,760,000", "many"),
            "line 1: not the head of a dry run",
        );
        refused(&changed("slot serial", "slots"), "no clips in it");
        refused(&changed("2 song ", "2 sing "), "line 5: not a clip");
        refused(&changed("  1,440,000", "          -"), "line 5: not a clip");
        refused(&changed("        clock", "o'clock"), "no rows in it");
        refused(&changed("clear loop", "clear out"), "line 21: not a row");
        refused(&changed("play   ", "       "), "line 15: not a row");
        refused(
            &changed("1,200,000 0:25", "5,760,001 0:25"),
            "line 18: a clock frame out of order",
        );
        refused(
            &changed("  4,320,000 1:30", "  2,447,999 1:30"),
            "line 21: a clock frame out of order",
        );
        refused(
            &changed("7 swap to slot 4", "7 swap to slot 7"),
            "line 19: a swap to what is no song",
        );
        refused(&changed("executed 8", "executed 9"), "not a whole sheet");
        let cut = SAMPLE.find("    4,320,000").unwrap();
        refused(&SAMPLE[..cut], "not a whole sheet");
    }
}

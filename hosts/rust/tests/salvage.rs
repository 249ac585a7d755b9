//! What is salvaged of damaged tours, beside a salvage of the tests' own: of a file cut at every byte, of one with every
//! byte changed and why commands are lost by it, and of a hundred thousand files by dice.

#[path = "common/damage.rs"]
mod damage;
#[path = "common/dice.rs"]
mod dice;
#[path = "common/format.rs"]
mod format;
#[path = "common/met.rs"]
mod met;
#[path = "common/remains.rs"]
mod remains;

use dice::Dice;
use format::{Handles, Record, command, count, field, version};
use met::Met;
use remains::{DROPPED, KEPT, PASSED, Remains, command_number};
use threshreed::TourFault::{self, *};
use threshreed::{
    Mark, Range, TourPlace, TourRefusal, WORDS, raw, salvage, salvage_bytes, salvage_words,
};

/// The most commands that a file may have.
const MOST: usize = 4_096;

/// A different handle for each clip byte.
fn all_listed() -> Handles {
    std::array::from_fn(|byte| (byte as u64) << 32 | (byte + 1) as u64)
}

// ---- the call, in the midst of what is not lent

const GUARD: usize = 8;
const BYTE: u8 = 0x99;
const WORD: u64 = 0x9999_9999_9999_9999;

/// Salvages into an output of so many bytes and a list of so many words. A refused call writes nothing, and none writes
/// behind its file or its ranges.
fn salvaged(file: &[u8], bytes: usize, words: usize) -> Result<Remains, TourFault> {
    let mut out = vec![BYTE; GUARD + bytes + GUARD];
    let mut list = vec![WORD; GUARD + words + GUARD];
    let answered = raw::salvage(
        file,
        &mut out[GUARD..GUARD + bytes],
        &mut list[GUARD..GUARD + words],
    );
    let written = GUARD..GUARD + answered.bytes;
    let listed = GUARD..GUARD + 3 * answered.ranges;
    assert!(answered.bytes <= bytes && 3 * answered.ranges <= words);
    assert!(out[..GUARD].iter().all(|x| *x == BYTE));
    assert!(out[written.end..].iter().all(|x| *x == BYTE));
    assert!(list[..GUARD].iter().all(|x| *x == WORD));
    assert!(list[listed.end..].iter().all(|x| *x == WORD));
    if answered.refusal == 0 {
        let ranges = list[listed].chunks_exact(3);
        return Ok(Remains {
            kept: answered.kept,
            file: out[written].to_vec(),
            ranges: ranges.map(|x| x.try_into().unwrap()).collect(),
        });
    }
    let (refusal, none) = (answered.refusal, 0);
    let refused = raw::Salvage {
        refusal,
        kept: none,
        bytes: none,
        ranges: none,
    };
    assert_eq!(answered, refused);
    let mut faults = TourFault::ALL.into_iter();
    let fault = faults.find(|x| x.number() == refusal);
    Err(fault.expect("the number is a fault's"))
}

/// Salvages with as much room as is always enough, beside the tests' own.
fn with_room(file: &[u8]) -> Remains {
    let answer = salvaged(file, salvage_bytes(file.len()), salvage_words(file.len()));
    let expected = remains::salvage(file, usize::MAX, usize::MAX);
    assert_eq!(answer, expected, "{file:?}");
    let remains = answer.expect("it has no more than 4,096 commands");
    assert_promised(file, &remains);
    remains
}

/// The part of the file in which a range lies.
fn part<'f>(file: &'f [u8], [_, from, to]: &[u64; 3]) -> &'f [u8] {
    &file[*from as usize..*to as usize]
}

/// The ranges cover the file once and in order; what is kept is the fresh file's; that is read, and salvaged as it is.
fn assert_promised(file: &[u8], remains: &Remains) {
    let mut covered = 0;
    for [_, from, to] in &remains.ranges {
        assert!(*from == covered && from < to, "{file:?}");
        covered = *to;
    }
    assert_eq!(covered, file.len() as u64);
    let dropped = |x: &[u64; 3]| x[0] == DROPPED;
    let pairs = remains.ranges.windows(2);
    assert!(!pairs.into_iter().any(|x| dropped(&x[0]) && dropped(&x[1])));

    let kept = remains.ranges.iter().filter(|x| x[0] == KEPT);
    let kept: Vec<&[u8]> = kept.map(|range| part(file, range)).collect();
    let fresh = [version(), kept.concat(), count(kept.len())].concat();
    assert_eq!((kept.len(), &fresh), (remains.kept, &remains.file));

    let clips = all_listed();
    let mut records = vec![[0; WORDS]; remains.kept];
    let read = raw::read_tour(&clips, &fresh, records.as_flattened_mut());
    assert_eq!((read.refusal, read.count), (0, remains.kept), "{file:?}");
    assert_eq!(format::read(&clips, &fresh, kept.len()), Ok(records));

    let again = salvaged(&fresh, fresh.len(), 3 * (2 + kept.len())).unwrap();
    assert_eq!((again.kept, &again.file), (remains.kept, &fresh));
    assert_eq!(again.ranges.len(), 2 + kept.len());
}

// ---- refusals, and how much room is enough

fn play(number: u64) -> Vec<u8> {
    command(&all_listed(), &[7, number, 1, 0, 0])
}

/// In their order: more than 4,096 commands, the output, the list.
#[test]
fn refusals() {
    let two = [version(), play(5), vec![9], play(6), count(2)].concat();
    assert_eq!(with_room(&two).ranges.len(), 5);
    for bytes in 40..60 {
        for words in 0..20 {
            let expected = match (bytes, words) {
                (..50, _) => Some(OutputTooShort),
                (_, ..15) => Some(RecordsTooShort),
                _ => None,
            };
            assert_eq!(salvaged(&two, bytes, words).err(), expected);
        }
    }
    let mut many: Vec<Vec<u8>> = (0..=MOST as u64).map(play).collect();
    let bytes = 20 * MOST + 10;
    for (bytes, words) in [(0, 0), (bytes + 20, 0), (bytes + 20, 3 * MOST + 3)] {
        assert_eq!(salvaged(&many.concat(), bytes, words), Err(TooMany));
    }
    // One of them does not rise.
    many[7] = many[6].clone();
    let kept = salvaged(&many.concat(), bytes, 3 * MOST + 3).unwrap();
    assert_eq!((kept.kept, kept.file.len()), (MOST, bytes));
    many.remove(7);
    assert_eq!(with_room(&many.concat()).file.len(), bytes);
    assert_eq!(salvaged(&many.concat(), bytes - 1, 0), Err(OutputTooShort));
    assert_eq!(
        salvaged(&many.concat(), bytes, 3 * MOST - 1),
        Err(RecordsTooShort)
    );
}

/// Two in four bytes, and one more in what is left: of all files of a zero and a tag that is skipped.
#[test]
fn the_most_ranges() {
    for length in 0..=12 {
        let file = |bits: u32| (0..length).map(|n| (bits >> n & 1) as u8 * 128).collect();
        let files = (0..1 << length).map(file);
        let most = files
            .map(|file: Vec<u8>| with_room(&file).ranges.len())
            .max();
        let expected = length / 4 * 2 + (length % 4).min(1);
        assert_eq!(most, Some(expected), "{length}");
        let room = salvage_words(length) / 3;
        assert!(room == expected || room == expected + 1 && length % 4 == 3);
    }
    let turns = [0, 128, 0, 0].repeat(10_000);
    assert_eq!(
        3 * with_room(&turns).ranges.len(),
        salvage_words(turns.len())
    );
    assert_eq!(with_room(&play(5)).file.len(), salvage_bytes(20));
    assert_eq!(salvage_bytes(usize::MAX), usize::MAX);
    assert_eq!(salvage_words(usize::MAX), usize::MAX);
}

// ---- by the safe call

#[test]
fn what_a_host_is_told() {
    let file = [version(), play(5), vec![9, 9], play(4), count(2)].concat();
    let (mut out, mut list) = ([9; 30], [9; 12]);
    let refused = |fault| {
        let place = TourPlace::Nowhere;
        Err(TourRefusal { fault, place })
    };
    assert_eq!(
        salvage(&file, &mut out[1..], &mut list),
        refused(OutputTooShort)
    );
    assert_eq!(
        salvage(&file, &mut out, &mut list[1..]),
        refused(RecordsTooShort)
    );
    assert_eq!((out, list), ([9; 30], [9; 12]));
    let many: Vec<Vec<u8>> = (0..=MOST as u64).map(play).collect();
    let many = salvage(&many.concat(), &mut [], &mut []).unwrap_err();
    assert_eq!(many.to_string(), "more than 4,096 commands");

    let salvaged = salvage(&file, &mut out, &mut list).unwrap();
    assert_eq!(salvaged.kept, 1);
    assert_eq!(salvaged.file, [version(), play(5), count(1)].concat());
    let ranges = [
        (Mark::Passed, 0, 5),
        (Mark::Kept, 5, 25),
        (Mark::Dropped, 25, 47),
        (Mark::Passed, 47, 52),
    ];
    let ranges = ranges.map(|(mark, from, to)| Range { mark, from, to });
    assert_eq!(salvaged.ranges().len(), 4);
    assert!(salvaged.ranges().eq(ranges));

    let none = salvage(&[], &mut out, &mut []).unwrap();
    assert_eq!((none.kept, none.ranges().len()), (0, 0));
    assert_eq!(none.file, [version(), count(0)].concat());
}

// ---- a file of two hundred commands

/// The records and the fields of a file with commands of every kind. At the end of two of them another field seems to
/// begin, which is seen where they are damaged: a command that takes its number from the next one's frame and its kind
/// from that one's number, and a last field.
fn every_kind() -> (Vec<Record>, Vec<Vec<u8>>) {
    let mut dice = Dice(0x9E37_79B9_7F4A_7C15);
    let clips = all_listed();
    let numbers = (0..200).map(|n| 40 + 3 * n);
    let mut records: Vec<Record> = numbers.map(|n| dice.record(&clips, n)).collect();
    records[157][2..].copy_from_slice(&[6, 7, 0x1102]);
    records[158][0] = 600;
    records[100][2..].copy_from_slice(&[8, 0x0002_0300, 0]);
    assert!((1..=10).all(|kind| records.iter().any(|x| x[2] == kind)));
    let commands = records.iter().map(|x| command(&clips, x)).collect();
    let fields = [vec![version()], commands, vec![count(records.len())]].concat();
    (records, fields)
}

#[test]
fn cut_at_every_byte() {
    let (records, fields) = every_kind();
    let file = fields.concat();
    let clips = all_listed();
    let (mut whole, mut end) = (0, fields[0].len());
    for cut in 0..=file.len() {
        if whole < records.len() && cut == end + fields[1 + whole].len() {
            end = cut;
            whole += 1;
        }
        let remains = with_room(&file[..cut]);
        // Every whole command, and nothing else.
        assert_eq!(
            Ok(remains.file),
            format::write(&clips, &records[..whole], usize::MAX)
        );
    }
    assert_eq!(whole, records.len());
    let bytes = file.len();
    println!("{:>7}  cuts of a file of {bytes} bytes", bytes + 1);
}

/// What a changed byte loses: how many times, how many commands, and how many of them at most at a time.
#[derive(Default)]
struct Lost {
    times: usize,
    commands: usize,
    most: usize,
}

impl Lost {
    fn count(&mut self, commands: usize) {
        self.times += usize::from(commands > 0);
        self.commands += commands;
        self.most = self.most.max(commands);
    }

    fn tell(&self, why: &str) {
        let Lost {
            times,
            commands,
            most,
        } = self;
        println!("{commands:>7}  {why}, in {times} changes, at most {most} at a time");
        assert!(*times > 0, "{why}");
    }
}

/// Why a command is lost that stands in the file as it was. It is decided by the ranges alone.
enum Why {
    /// Its number is not above that of a false command before it.
    ShutOut,
    /// Else a false command begins before it and covers its first byte.
    UnderCommand,
    /// Or a false first or last field does.
    UnderEnds,
    /// Or a false field that is skipped.
    UnderSkipped,
}

const WHYS: [&str; 4] = [
    "shut out by a false number",
    "under a false command",
    "under a false first or last field",
    "under a false skippable field",
];

#[test]
fn every_byte_changed() {
    let (_, fields) = every_kind();
    let mut file = fields.concat();
    let mut end = 0;
    let place = |field: &Vec<u8>| {
        let from = end;
        end += field.len() as u64;
        [from, end]
    };
    let places: Vec<[u64; 2]> = fields.iter().map(place).collect();
    let commands = &places[1..places.len() - 1];

    let (mut changes, mut as_they_were, mut altered, mut false_kept) = (0, 0, 0, 0);
    let mut itself = Lost::default();
    let mut lost: [Lost; 4] = Default::default();
    for place in 0..file.len() {
        let was = file[place];
        let mut values: Vec<u8> = (0..8).map(|bit| was ^ 1 << bit).collect();
        values.extend([0, 1, 2, 3, 17, 128, 255]);
        values.sort();
        values.dedup();
        values.retain(|x| *x != was);
        for value in values {
            file[place] = value;
            let remains = with_room(&file);
            let (mut counts, mut own) = ([0; 4], 0);
            for &[from, to] in commands {
                let at = remains.ranges.partition_point(|x| x[1] <= from) - 1;
                let is_kept = remains.ranges[at] == [KEPT, from, to];
                let is_changed = (from..to).contains(&(place as u64));
                match (is_kept, is_changed) {
                    (true, true) => altered += 1,
                    (true, false) => {}
                    (false, true) => own += 1,
                    (false, false) => {
                        let why = why_lost(&file, &remains.ranges[..=at], from);
                        counts[why as usize] += 1;
                    }
                }
            }
            let kept = remains.ranges.iter().filter(|x| x[0] == KEPT);
            false_kept += kept.filter(|x| !commands.contains(&[x[1], x[2]])).count();
            changes += 1;
            as_they_were += usize::from(counts == [0; 4]);
            itself.count(own);
            lost.iter_mut().zip(counts).for_each(|(x, n)| x.count(n));
        }
        file[place] = was;
    }
    let bytes = file.len();
    println!("{changes:>7}  changes of one byte in a file of {bytes} bytes");
    println!("{as_they_were:>7}  that lose no command but the changed one");
    println!("{altered:>7}  changed commands kept as they are");
    itself.tell("changed commands lost");
    println!("{false_kept:>7}  false commands kept where none stood");
    for (lost, why) in lost.iter().zip(WHYS) {
        lost.tell(&format!("others lost {why}"));
    }
}

/// Why a command is lost that begins at a byte, the last of these ranges being the one over that.
fn why_lost(file: &[u8], ranges: &[[u64; 3]], from: u64) -> Why {
    let (over, before) = ranges.split_last().unwrap();
    let last = before.iter().rfind(|x| x[0] == KEPT);
    let number = command_number(&file[from as usize..]);
    if last.is_some_and(|x| command_number(part(file, x)) >= number) {
        return Why::ShutOut;
    }
    assert!(over[0] != DROPPED && over[1] < from);
    match part(file, over)[0] {
        2 => Why::UnderCommand,
        1 | 3 => Why::UnderEnds,
        _ => Why::UnderSkipped,
    }
}

// ---- by dice

impl Dice {
    /// A field that a file may have, or one that is damaged.
    fn any_field(&mut self) -> Vec<u8> {
        let clips = all_listed();
        let number = self.below(60);
        let field = match self.below(8) {
            0 => version(),
            1 => count(self.place(300)),
            2 => self.skipped(),
            // Fields in a field, and frames in which others seem to begin.
            3 => {
                let inner = [self.any_field(), self.any_field()].concat();
                field(128 + self.below(128) as u8, &inner)
            }
            4 => {
                let mut head = || self.of(&[0x0100_0201, 0x80, 0x0203, 0x1102]);
                command(&clips, &[head(), number, 6, head(), head()])
            }
            _ => {
                let record = self.record(&clips, number);
                command(&clips, &record)
            }
        };
        let mut fields = vec![field];
        if self.one_in(3) {
            self.damage_fields(&mut fields);
        }
        fields.concat()
    }

    /// Takes some bytes out, puts any in, or puts some again at the end.
    fn damage_run(&mut self, file: &mut Vec<u8>) {
        let from = self.place(file.len() + 1);
        let to = from + self.place(file.len() - from + 1).min(40);
        match self.below(3) {
            0 => drop(file.drain(from..to)),
            1 => {
                let any: Vec<u8> = (from..to).map(|_| self.word() as u8).collect();
                file.splice(from..from, any);
            }
            _ => file.extend_from_within(from..to),
        }
    }

    /// Bytes in no order, fields true and false, or a file that was good once; and then some damage.
    fn any_file(&mut self, large: &[Vec<u8>]) -> Vec<u8> {
        let length = self.place(200);
        let mut file: Vec<u8> = match self.below(4) {
            0 => (0..length).map(|_| self.word() as u8).collect(),
            1 => {
                let few = [0, 0, 0, 1, 2, 3, 17, 128, 255];
                (0..length).map(|_| self.of(&few)).collect()
            }
            2 if self.one_in(128) => large.concat(),
            2 => self.file(&all_listed(), large),
            _ => (0..length / 8).flat_map(|_| self.any_field()).collect(),
        };
        for _ in 0..self.of(&[0, 0, 1, 2, 6]) {
            match self.one_in(2) {
                true => self.damage_bytes(&mut file),
                false => self.damage_run(&mut file),
            }
        }
        file
    }

    /// As much room as is needed, or a little more; now and then less.
    fn room(&mut self, needed: usize) -> usize {
        match self.below(8) {
            0 => self.place(needed),
            1 => needed.saturating_sub(1),
            _ => needed + self.place(3),
        }
    }
}

#[test]
fn damaged_files() {
    let mut dice = Dice(0x2545_F491_4F6C_DD1D);
    let many = MOST + 20;
    let plays = (0..many as u64).map(play).collect();
    let large = [vec![version()], plays, vec![count(many)]].concat();
    let mut met = Met::new();
    let mut done = [0; 4];
    for _ in 0..100_000 {
        let file = dice.any_file(&large);
        let needed = match remains::salvage(&file, usize::MAX, usize::MAX) {
            Ok(remains) => [remains.file.len(), 3 * remains.ranges.len()],
            Err(_) => [0, 0],
        };
        let [bytes, words] = needed.map(|x| dice.room(x));
        let answer = salvaged(&file, bytes, words);
        let expected = remains::salvage(&file, bytes, words);
        assert_eq!(answer, expected, "{bytes} {words} {file:?}");
        met.count(answer.as_ref().err().copied());
        if let Ok(remains) = answer {
            assert!(remains.file.len() <= salvage_bytes(file.len()));
            assert!(3 * remains.ranges.len() <= salvage_words(file.len()));
            assert_promised(&file, &remains);
            let ranges = remains.ranges.iter();
            ranges.for_each(|range| done[range[0] as usize] += 1);
        }
    }
    met.tell(&[TooMany, RecordsTooShort, OutputTooShort]);
    for (what, name) in [
        (KEPT, "kept"),
        (PASSED, "passed over"),
        (DROPPED, "dropped"),
    ] {
        println!("{:>7}  ranges {name}", done[what as usize]);
    }
}

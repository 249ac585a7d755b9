//! Tours in files: each refusal by its number and its place, the order of refusals, there and back, and a hundred thousand
//! damaged files and lists of records beside a reader and a writer of the tests' own.

#[path = "common/damage.rs"]
mod damage;
#[path = "common/dice.rs"]
mod dice;
#[path = "common/format.rs"]
mod format;
#[path = "common/met.rs"]
mod met;

use dice::Dice;
use format::{Handles, Record, count, field, version};
use met::Met;
use threshreed::TourFault::{self, *};
use threshreed::{
    At, Command, Refusal, Session, Song, Stinger, Stores, TourPlace, TourRefusal, WORDS, raw,
    read_tour, tour_bytes, write_tour,
};

/// The most commands that a file may have.
const MOST: usize = 4_096;

/// What a call answers: what it made, or a fault and its place.
type Answer<T> = Result<T, (TourFault, usize)>;

// ---- the calls, in the midst of what is not lent

const GUARD: usize = 8;

/// Makes a call on a store of so many elements, and gives what it wrote: at the store's front, so many times `each` as the
/// answer counts. A refused one writes nothing, and none writes behind that.
fn lent<T: Copy + PartialEq>(
    length: usize,
    fill: T,
    each: usize,
    call: impl FnOnce(&mut [T]) -> raw::Tour,
) -> Answer<Vec<T>> {
    let mut store = vec![fill; GUARD + length + GUARD];
    let answered = call(&mut store[GUARD..GUARD + length]);
    let written = GUARD..GUARD + answered.count * each;
    assert!(written.end <= GUARD + length);
    assert!(store[..GUARD].iter().all(|x| *x == fill));
    assert!(store[written.end..].iter().all(|x| *x == fill));
    if answered.refusal == 0 {
        assert_eq!(answered.place, 0);
        return Ok(store[written].to_vec());
    }
    assert_eq!(answered.count, 0);
    let mut faults = TourFault::ALL.into_iter();
    let fault = faults.find(|x| x.number() == answered.refusal);
    Err((fault.expect("the number is a fault's"), answered.place))
}

fn fault<T>(answer: &Answer<T>) -> Option<TourFault> {
    answer.as_ref().err().map(|(fault, _)| *fault)
}

/// Reads into a list of so many words.
fn read(clips: &Handles, file: &[u8], words: usize) -> Answer<Vec<Record>> {
    let fill = 0x9999_9999_9999_9999;
    let list = lent(words, fill, WORDS, |list| raw::read_tour(clips, file, list))?;
    let records = list.chunks_exact(WORDS);
    Ok(records.map(|x| x.try_into().unwrap()).collect())
}

/// Writes to an output of so many bytes.
fn write(clips: &Handles, records: &[u64], bytes: usize) -> Answer<Vec<u8>> {
    lent(bytes, 0x99, 1, |out| raw::write_tour(clips, records, out))
}

// ---- small files and few records

/// A clip that is listed, and one that is not.
const BELL: u64 = 30 << 32 | 7;
const OTHER: u64 = 31 << 32 | 7;

/// The bell as byte 3, and at 4 a slot without a serial.
fn bell_alone() -> Handles {
    let mut clips = [0; 32];
    clips[3] = BELL;
    clips[4] = 30 << 32;
    clips
}

/// The bell as byte 3 and as byte 31.
fn bell_twice() -> Handles {
    let mut clips = bell_alone();
    clips[31] = BELL;
    clips
}

fn play(number: u64) -> Vec<u8> {
    of_kind(number, 1, &[])
}

/// A swap to a clip byte.
fn swap(number: u64, clip: u8) -> Vec<u8> {
    of_kind(number, 9, &[clip])
}

/// A command due at frame 7, with whatever it carries.
fn of_kind(number: u64, kind: u8, carried: &[u8]) -> Vec<u8> {
    let body = [&7u64.to_le_bytes(), &number.to_le_bytes()[..], &[kind]];
    field(2, &[&body.concat(), carried].concat())
}

/// A field that is skipped, or that is not.
fn tagged(tag: u8) -> Vec<u8> {
    field(tag, &[])
}

const V: &[u8] = &[1, 2, 0, 1, 0];
const E0: &[u8] = &[3, 2, 0, 0, 0];
const E1: &[u8] = &[3, 2, 0, 1, 0];
const E2: &[u8] = &[3, 2, 0, 2, 0];

/// How many records a reader with room for many finds in these fields.
fn counted(clips: &Handles, fields: &[impl AsRef<[u8]>]) -> Answer<usize> {
    let fields: Vec<&[u8]> = fields.iter().map(AsRef::as_ref).collect();
    read(clips, &fields.concat(), MOST * WORDS).map(|records| records.len())
}

fn taken(records: usize, fields: &[&[u8]]) {
    let answer = counted(&bell_alone(), fields);
    assert_eq!(answer, Ok(records), "{fields:?}");
}

fn refused(fault: TourFault, place: usize, fields: &[&[u8]]) {
    let answer = counted(&bell_alone(), fields);
    assert_eq!(answer, Err((fault, place)), "{fields:?}");
    // A handle that is listed twice comes first.
    let answer = counted(&bell_twice(), fields);
    assert_eq!(answer, Err((ListedTwice, 0)), "{fields:?}");
}

#[test]
fn small_files() {
    taken(0, &[V, E0]);
    refused(CutShort, 0, &[]);
    refused(CutShort, 0, &[&[9]]);
    refused(CutShort, 5, &[V]);
    refused(CutShort, 25, &[V, &play(5)]);
    refused(CutShort, 25, &[V, &play(5), &[3]]);
    refused(WrongFirstTag, 0, &[&tagged(9)]);
    refused(WrongFirstTag, 0, &[E0]);
    refused(WrongFirstTag, 0, &[&tagged(128), E0]);
    refused(WrongFirstTag, 0, &[&field(128, &play(5)), E1]);
    refused(UnknownTag, 5, &[V, V]);
    refused(UnknownTag, 5, &[V, &tagged(0), E0]);
    refused(UnknownTag, 5, &[V, &tagged(4), E0]);
    refused(UnknownTag, 5, &[V, &tagged(127), E0]);
    refused(OtherVersion, 0, &[&field(1, &[2, 0])]);
    refused(OtherVersion, 0, &[&field(1, &[1, 1]), E0]);
    refused(WrongLength, 0, &[&field(1, &[1, 0, 0])]);
    refused(WrongLength, 0, &[&field(1, &[1]), E0]);
    refused(WrongLength, 5, &[V, &field(3, &[0])]);
    refused(WrongLength, 5, &[V, &field(3, &[0, 0, 0])]);
    refused(WrongLength, 5, &[V, &field(2, &[1; 16]), E1]);
    refused(WrongLength, 5, &[V, &field(2, &[1; 18]), E1]);
    taken(1, &[V, &field(2, &[1; 17]), E1]);
    refused(UnknownKind, 5, &[V, &of_kind(1, 11, &[]), E1]);
    refused(UnknownKind, 5, &[V, &of_kind(1, 0, &[0]), E1]);
    refused(UnknownKind, 5, &[V, &of_kind(1, 255, &[0; 99]), E1]);
    taken(1, &[V, &swap(1, 3), E1]);
    for clip in [0, 2, 4, 31, 32, 35, 255] {
        refused(NotListed, 5, &[V, &swap(1, clip), E1]);
        refused(NotListed, 5, &[V, &of_kind(1, 10, &[clip, 0, 0, 0, 0]), E1]);
    }
    refused(NotRising, 25, &[V, &play(5), &play(5), E2]);
    refused(NotRising, 25, &[V, &play(5), &play(4), E2]);
    refused(NotRising, 25, &[V, &play(u64::MAX), &play(0), E2]);
    refused(NotRising, 28, &[V, &play(5), &tagged(200), &play(5), E2]);
    taken(2, &[V, &play(5), &tagged(200), &play(6), E2]);
    taken(2, &[V, &play(0), &play(u64::MAX), E2]);
    refused(WrongCount, 5, &[V, E1]);
    refused(WrongCount, 25, &[V, &play(5), E0]);
    refused(WrongCount, 25, &[V, &play(5), E2]);
    refused(BytesAfterEnd, 5, &[V, E0, &[0]]);
    refused(BytesAfterEnd, 5, &[V, E0, &tagged(128)]);
    // A count in the middle.
    refused(BytesAfterEnd, 5, &[V, E0, E0]);
    refused(BytesAfterEnd, 5, &[V, E0, &play(5), E1]);
    refused(WrongCount, 5, &[V, E1, &play(5), E1]);
    refused(WrongLength, 5, &[V, &field(3, &[0]), &play(5), E1]);
    // What is skipped, with nothing in it and with the most.
    taken(0, &[V, &tagged(128), E0]);
    taken(0, &[V, &tagged(255), E0]);
    taken(1, &[V, &field(255, &[3; 65_535]), &play(0), E1]);
    taken(1, &[V, &play(0), &field(128, &[2; 65_535]), E1]);
    refused(CutShort, 5, &[V, &field(128, &[2; 65_535])[..65_537]]);
}

/// What each kind carries, and nothing else. A clip byte is 31 at most.
#[test]
fn each_kind_has_its_length() {
    let mut clips = [0; 32];
    clips[31] = BELL;
    for (kind, bytes) in (1..).zip([0, 0, 0, 8, 8, 16, 0, 4, 1, 5]) {
        for length in 0..20 {
            let fields = [version(), of_kind(1, kind, &vec![31; length]), count(1)];
            let expected = match length == bytes {
                true => Ok(1),
                false => Err((WrongLength, 5)),
            };
            assert_eq!(counted(&clips, &fields), expected, "kind {kind}");
        }
    }
}

/// Faults of one field, each seen when those before it have gone; and an earlier field's before a later one's.
#[test]
fn the_order_of_faults_in_a_file() {
    // The first field.
    refused(CutShort, 0, &[&[9, 2]]);
    refused(CutShort, 0, &[&[1, 9, 0, 2]]);
    refused(WrongFirstTag, 0, &[&field(2, &[7; 9])]);
    refused(WrongFirstTag, 0, &[&field(3, &[7; 9])]);
    refused(WrongLength, 0, &[&field(1, &[2, 0, 0])]);
    // One in the middle: a tag that is none, a version again.
    refused(CutShort, 5, &[V, &[9, 1, 0]]);
    refused(CutShort, 5, &[V, &[2, 9, 0, 1]]);
    refused(CutShort, 5, &[V, &[3, 3, 0, 1, 0]]);
    refused(UnknownTag, 5, &[V, &field(1, &[7; 9])]);
    // A command, the one before it having number 5.
    refused(WrongLength, 25, &[V, &play(5), &field(2, &[0; 16])]);
    refused(WrongLength, 25, &[V, &play(5), &of_kind(5, 9, &[4, 0])]);
    refused(UnknownKind, 25, &[V, &play(5), &of_kind(5, 11, &[4])]);
    refused(NotListed, 25, &[V, &play(5), &swap(5, 4)]);
    refused(NotRising, 25, &[V, &play(5), &swap(5, 3)]);
    // The last field.
    refused(WrongLength, 5, &[V, &field(3, &[1]), &[0]]);
    refused(WrongCount, 5, &[V, E1, &[0]]);
    // Two fields.
    refused(OtherVersion, 0, &[&field(1, &[2, 0]), &[9]]);
    refused(NotListed, 5, &[V, &swap(1, 4), &[9]]);
    refused(NotListed, 5, &[V, &swap(1, 4), &swap(1, 4), E2]);
    refused(NotRising, 25, &[V, &play(5), &play(5), &swap(6, 4), E1]);
    refused(WrongCount, 5, &[V, E1, &tagged(9)]);
    refused(BytesAfterEnd, 5, &[V, E0, &tagged(9)]);
    // The list comes last.
    let short = |fields: &[&[u8]]| read(&bell_alone(), &fields.concat(), WORDS - 1);
    assert_eq!(short(&[V, &play(5), E2]), Err((WrongCount, 25)));
    assert_eq!(short(&[V, &play(5), E1, E1]), Err((BytesAfterEnd, 25)));
    assert_eq!(short(&[V, &play(5), E1]), Err((RecordsTooShort, 0)));
    assert_eq!(short(&[V, E0]), Ok(vec![]));
}

/// A file of so many plays.
fn plays(commands: usize) -> Vec<Vec<u8>> {
    let numbers = 0..commands as u64;
    let mut fields = vec![version()];
    fields.extend(numbers.map(play));
    fields.push(count(commands));
    fields
}

#[test]
fn as_many_commands_as_may_be_read() {
    let clips = bell_alone();
    let last = 5 + 20 * MOST;
    assert_eq!(counted(&clips, &plays(MOST)), Ok(MOST));
    assert_eq!(counted(&clips, &plays(MOST + 1)), Err((TooMany, last)));
    // Before it the other faults of that command, behind it those of later fields, the list's among them.
    let with = |field: Vec<u8>| {
        let mut fields = plays(MOST + 1);
        fields[MOST + 1] = field;
        counted(&clips, &fields)
    };
    assert_eq!(with(play(MOST as u64 - 1)), Err((NotRising, last)));
    assert_eq!(with(swap(MOST as u64, 4)), Err((NotListed, last)));
    assert_eq!(with(tagged(9)), Err((UnknownTag, last)));
    assert_eq!(with(tagged(128)), Err((WrongCount, last + 3)));
    let one_more = [&plays(MOST + 1)[..MOST + 2], &[tagged(9)]].concat();
    assert_eq!(counted(&clips, &one_more), Err((TooMany, last)));
    assert_eq!(read(&clips, &one_more.concat(), 0), Err((TooMany, last)));
}

#[test]
fn as_many_records_as_the_list_has_room_for() {
    let file = plays(3).concat();
    for words in 0..4 * WORDS {
        let answer = read(&bell_alone(), &file, words).map(|records| records.len());
        let expected = match words / WORDS {
            3 => Ok(3),
            _ => Err((RecordsTooShort, 0)),
        };
        assert_eq!(answer, expected, "{words} words");
    }
    let file = plays(MOST).concat();
    let short = read(&bell_alone(), &file, MOST * WORDS - 1);
    assert_eq!(short, Err((RecordsTooShort, 0)));
}

/// A record of every kind, as a capture has it.
const KINDS: [Record; 10] = [
    [9, 0, 1, 0, 0],
    [8, 1, 2, 0, 0],
    [7, 2, 3, 0, 0],
    [7, 5, 4, u64::MAX, 0],
    [u64::MAX, 6, 5, 1, 0],
    [0, 7, 6, 5, 5],
    [0, 8, 7, 0, 0],
    [0, 9, 8, 0x7F80_0001, 0],
    [0, 10, 9, BELL, 0],
    [0, u64::MAX, 10, BELL, 0xFFFF_FFFF],
];

#[test]
fn the_bytes_of_each_kind() {
    let clips = bell_alone();
    let file = write(&clips, KINDS.as_flattened(), tour_bytes(10)).unwrap();
    let mut expected = vec![1, 2, 0, 1, 0];
    for ([frame, number, kind, ..], carried) in KINDS.iter().zip([
        vec![],
        vec![],
        vec![],
        vec![255; 8],
        vec![1, 0, 0, 0, 0, 0, 0, 0],
        vec![5, 0, 0, 0, 0, 0, 0, 0, 5, 0, 0, 0, 0, 0, 0, 0],
        vec![],
        vec![1, 0, 0x80, 0x7F],
        vec![3],
        vec![3, 255, 255, 255, 255],
    ]) {
        expected.extend([2, 17 + carried.len() as u8, 0]);
        expected.extend(frame.to_le_bytes());
        expected.extend(number.to_le_bytes());
        expected.push(*kind as u8);
        expected.extend(carried);
    }
    expected.extend([3, 2, 0, 10, 0]);
    assert_eq!(file, expected);
    assert_eq!(read(&clips, &file, 10 * WORDS), Ok(KINDS.to_vec()));
}

/// Faults of one record, each seen when those before it have gone; and an earlier record's before a later one's.
#[test]
fn the_order_of_faults_in_records() {
    let clips = bell_alone();
    let number = |records: &[Record]| write(&clips, records.as_flattened(), 0);
    let good = [0, 5, 1, 0, 0];
    for (records, answer) in [
        (vec![[0, 5, 0, 0, 0]], (UnreadableRecord, 0)),
        (vec![[0, 5, 11, 0, 0]], (UnreadableRecord, 0)),
        (vec![[0, 5, 1 << 32 | 1, 0, 0]], (UnreadableRecord, 0)),
        (vec![good, [0, 5, 11, OTHER, 0]], (UnreadableRecord, 1)),
        (vec![good, [0, 5, 8, 1 << 32, 0]], (UnreadableRecord, 1)),
        (
            vec![good, [0, 5, 10, OTHER, 1 << 32]],
            (UnreadableRecord, 1),
        ),
        (vec![good, [0, 5, 10, OTHER, 0]], (NotListed, 1)),
        (vec![good, [0, 5, 9, OTHER, 1 << 32]], (NotListed, 1)),
        // None is no clip, also where it is listed.
        (vec![good, [0, 5, 9, 0, 0]], (NotListed, 1)),
        (vec![good, [0, 5, 9, 30 << 32, 0]], (NotListed, 1)),
        (vec![good, [0, 5, 10, BELL, 0]], (NotRising, 1)),
        (vec![good, [0, 4, 1, 0, 0]], (NotRising, 1)),
        (vec![good, good, [0, 9, 0, 0, 0]], (NotRising, 1)),
        (vec![[0, 5, 9, OTHER, 0], [0, 5, 0, 0, 0]], (NotListed, 0)),
        (vec![good], (OutputTooShort, 0)),
        (vec![], (OutputTooShort, 0)),
    ] {
        assert_eq!(number(&records), Err(answer), "{records:?}");
        let twice = write(&bell_twice(), records.as_flattened(), 0);
        assert_eq!(twice, Err((ListedTwice, 0)));
    }
    // Too many come behind every record's own.
    let mut many: Vec<Record> = (0..5_000).map(|n| [0, n, 6, 0, 0]).collect();
    assert_eq!(number(&many), Err((TooMany, 0)));
    many[4_999][2] = 0;
    assert_eq!(number(&many), Err((UnreadableRecord, 4_999)));
}

#[test]
fn as_many_commands_as_may_be_written() {
    let clips = bell_alone();
    let loops = |commands: usize| -> Vec<Record> {
        let numbers = 0..commands as u64;
        numbers.map(|n| [0, n, 6, 0, 0]).collect()
    };
    let bytes = tour_bytes(MOST);
    let file = write(&clips, loops(MOST).as_flattened(), bytes).unwrap();
    assert_eq!(file.len(), bytes);
    assert_eq!(read(&clips, &file, MOST * WORDS), Ok(loops(MOST)));
    let short = write(&clips, loops(MOST).as_flattened(), bytes - 1);
    assert_eq!(short, Err((OutputTooShort, 0)));
    let many = write(&clips, loops(MOST + 1).as_flattened(), bytes + 36);
    assert_eq!(many, Err((TooMany, 0)));
    // A remainder is not looked at.
    let words = &loops(MOST + 1).as_flattened()[..MOST * WORDS + 4].to_vec();
    assert_eq!(write(&clips, words, bytes), Ok(file));
    assert_eq!(
        write(&clips, &[1; 4], 10),
        Ok([version(), count(0)].concat())
    );
    assert_eq!(write(&clips, &[], 9), Err((OutputTooShort, 0)));
}

// ---- by the safe calls

const RATE: u32 = 48_000;

type Small = Stores<8, 8, 8>;

fn open(stores: &mut Small) -> Session<'_> {
    let song = Song::new(&[0.5, -0.5, 0.25, 0.25], RATE);
    stores.open(RATE, song).unwrap()
}

fn bell() -> Stinger<'static> {
    Stinger {
        samples: &[0.125; 2],
        rate: RATE,
    }
}

/// The serials of a session's clips may be others than those of the one that is saved.
#[test]
fn a_tour_is_read_to_the_clips_of_the_session_that_plays_it() {
    let (mut stores, mut others) = (Small::new(), Small::new());
    let mut session = open(&mut stores);
    let first = session.load_stinger(bell()).unwrap();
    session.start_capture().unwrap();
    let ring = Command::Stinger(first, 0.5);
    session.submit(ring, At::Immediate).unwrap();
    // A running capture holds what it names.
    assert_eq!(session.retire(first), Err(Refusal::Held));
    let mut list = [0; WORDS];
    assert_eq!(session.stop_capture(&mut list), Ok(1));
    let mut file = [0; tour_bytes(1)];
    let length = write_tour(&session.clips(), &list, &mut file).unwrap();

    let mut other = open(&mut others);
    let gone = other.load_stinger(bell()).unwrap();
    other.retire(gone).unwrap();
    assert_eq!(other.clips()[1], None);
    let second = other.load_stinger(bell()).unwrap();
    assert_eq!(other.clips()[..3], [Some(other.song()), Some(second), None]);
    assert_ne!(first, second);
    let mut again = [0; WORDS];
    let read = read_tour(&other.clips(), &file[..length], &mut again);
    assert_eq!((read, again[3]), (Ok(1), list[3] + 1));
    assert_eq!(other.replay(&again).unwrap().taken, 1);
    assert_eq!(other.replay(&list).unwrap().taken, 0);
}

#[test]
fn a_refusal_says_what_and_where() {
    let mut stores = Small::new();
    let mut session = open(&mut stores);
    let bell = session.load_stinger(bell()).unwrap();
    let [listed, mut twice] = [session.clips(), session.clips()];
    twice[31] = Some(bell);
    let word = 1 << 32 | 2;
    let two = [KINDS[0], [0, 7, 9, word, 0]];
    let (mut out, mut list) = ([9; tour_bytes(2)], [9; 2 * WORDS]);

    let mut refusals = vec![
        write_tour(&twice, two.as_flattened(), &mut out),
        write_tour(&[None; 32], two.as_flattened(), &mut out),
        write_tour(&listed, &[0; 3 * WORDS], &mut out),
        write_tour(&listed, two.as_flattened(), &mut out[..50]),
    ];
    assert_eq!(out, [9; tour_bytes(2)]);
    let length = write_tour(&listed, two.as_flattened(), &mut out).unwrap();
    assert_eq!(length, 10 + 20 + 21);
    refusals.extend([
        read_tour(&twice, &out[..length], &mut list),
        read_tour(&[None; 32], &out[..length], &mut list),
        read_tour(&listed, &out, &mut list),
        read_tour(&listed, &out[..length], &mut list[1..]),
    ]);
    assert_eq!(list, [9; 2 * WORDS]);
    assert_eq!(read_tour(&listed, &out[..length], &mut list), Ok(2));
    assert_eq!(list, *two.as_flattened());

    let said: Vec<String> = refusals
        .iter()
        .map(|x| x.unwrap_err().to_string())
        .collect();
    let expected = [
        "handle listed twice",
        "clip not listed, at record 1",
        "record unreadable, at record 0",
        "output for a tour's file too short",
        "handle listed twice",
        "clip not listed, at byte 25",
        "bytes after the end, at byte 46",
        "list for a tour's records or ranges too short",
    ];
    assert_eq!(said, expected);
    let refused = TourRefusal {
        fault: NotListed,
        place: TourPlace::Byte(25),
    };
    assert_eq!(refusals[5], Err(refused));
    assert_eq!(tour_bytes(usize::MAX), usize::MAX);
}

// ---- by dice

impl Dice {
    /// None, some or all are listed, and now and then one of them twice. Some of those that are none have a slot.
    fn clips(&mut self) -> Handles {
        let full = self.below(4);
        let mut clips = [0; 32];
        for (place, clip) in clips.iter_mut().enumerate() {
            *clip = (self.below(40) << 32) * self.below(2);
            if self.below(3) < full {
                *clip = self.below(40) << 32 | (place + 1) as u64;
            }
        }
        if self.one_in(40) {
            let [from, to] = [self.place(32), self.place(32)];
            clips[to] = clips[from];
        }
        clips
    }
}

fn plain(record: &Record) -> Record {
    let used = 3 + format::carried(record[2]).unwrap().len();
    let mut plain = *record;
    plain[used..].fill(0);
    plain
}

#[test]
fn damaged_files() {
    let mut dice = Dice(0x9E37_79B9_7F4A_7C15);
    let large = plays(MOST + 1);
    let mut met = Met::new();
    for _ in 0..100_000 {
        let mut clips = dice.clips();
        let file = dice.file(&clips, &large);
        if dice.one_in(4) {
            clips[dice.place(32)] = 0;
        }
        let commands = file.len() / 20;
        let words = match dice.below(8) {
            0 => dice.place(30),
            _ => commands.min(MOST) * WORDS + dice.place(WORDS),
        };
        let answer = read(&clips, &file, words);
        let expected = format::read(&clips, &file, words / WORDS);
        assert_eq!(answer, expected, "{clips:?} {words} {file:?}");
        met.count(fault(&answer));
        match answer {
            Err((_, place)) => assert!(place <= file.len()),
            // What was read is written as the same file, but for what was skipped.
            Ok(records) => {
                let written = write(&clips, records.as_flattened(), file.len());
                assert_eq!(written, Ok(without_skipped(&file)));
            }
        }
    }
    met.tell(&TourFault::ALL[..13]);
}

/// A good file without its fields of tags 128 to 255.
fn without_skipped(file: &[u8]) -> Vec<u8> {
    let (mut kept, mut rest) = (Vec::new(), file);
    while let [tag, low, high, ..] = *rest {
        let (field, behind) = rest.split_at(3 + usize::from(u16::from_le_bytes([low, high])));
        if tag < 128 {
            kept.extend(field);
        }
        rest = behind;
    }
    kept
}

#[test]
fn records_of_any_words() {
    let mut dice = Dice(0x2545_F491_4F6C_DD1D);
    let large: Vec<Record> = (0..MOST as u64 + 1).map(|n| [7, n, 6, 1, 2]).collect();
    let mut met = Met::new();
    for _ in 0..100_000 {
        let clips = dice.clips();
        let mut records = match dice.one_in(256) {
            true => large[dice.place(2)..].to_vec(),
            false => dice.records(&clips),
        };
        for _ in 0..dice.below(6) / 3 {
            let place = dice.place(records.len());
            if let Some(record) = records.get_mut(place) {
                let word = dice.of(&[1, 1, 2, 3, 4]);
                record[word] = match dice.below(3) {
                    0 => record[word] | 1 << 32,
                    1 => dice.below(12),
                    _ => dice.count(),
                };
            }
        }
        let mut words = records.as_flattened().to_vec();
        words.extend([9; WORDS - 1][..dice.place(WORDS)].iter());
        let room = match dice.below(8) {
            0 => dice.place(300),
            _ => tour_bytes(records.len()),
        };
        let answer = write(&clips, &words, room);
        let expected = format::write(&clips, &records, room);
        assert_eq!(answer, expected, "{clips:?} {room} {records:?}");
        met.count(fault(&answer));
        // What was written is read as the same records, but for the words that a kind does not use.
        if let Ok(file) = answer {
            let again: Vec<Record> = records.iter().map(plain).collect();
            assert_eq!(read(&clips, &file, words.len()), Ok(again));
        }
    }
    met.tell(&[
        ListedTwice,
        NotListed,
        NotRising,
        TooMany,
        UnreadableRecord,
        OutputTooShort,
    ]);
}

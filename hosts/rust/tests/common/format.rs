//! A tour's file by its description: every fault of every field or record is looked for, one after the other, and the
//! least of those found is the answer.

use threshreed::TourFault::{self, *};
use threshreed::WORDS;

/// A handle for each clip byte, slot * 2^32 + serial.
pub type Handles = [u64; 32];

pub type Record = [u64; WORDS];

/// What a kind carries, in the order of the file and of a record's last words.
#[derive(Clone, Copy, PartialEq)]
pub enum Part {
    Frame,
    Gain,
    Clip,
}

use Part::*;

pub fn carried(kind: u64) -> Option<&'static [Part]> {
    match kind {
        1 | 2 | 3 | 7 => Some(&[]),
        4 | 5 => Some(&[Frame]),
        6 => Some(&[Frame, Frame]),
        8 => Some(&[Gain]),
        9 => Some(&[Clip]),
        10 => Some(&[Clip, Gain]),
        _ => None,
    }
}

impl Part {
    pub fn bytes(self) -> usize {
        match self {
            Frame => 8,
            Gain => 4,
            Clip => 1,
        }
    }
}

fn is_none(handle: u64) -> bool {
    handle as u32 == 0
}

/// Whether a handle is listed twice.
fn twice(clips: &Handles) -> bool {
    let mut listed: Vec<u64> = clips.iter().copied().filter(|x| !is_none(*x)).collect();
    listed.sort();
    listed.windows(2).any(|pair| pair[0] == pair[1])
}

/// A number in its bytes, the lowest first.
pub fn number(bytes: &[u8]) -> u64 {
    let digits = bytes.iter().rev();
    digits.fold(0, |n, byte| n * 256 + u64::from(*byte))
}

// ---- the reader

/// What begins at a byte of the file: a field, or as much of it as there is.
struct Field<'f> {
    first: usize,
    bytes: &'f [u8],
    /// How many commands stand before it.
    commands: usize,
}

impl<'f> Field<'f> {
    fn tag(&self) -> u8 {
        self.bytes[0]
    }

    fn body(&self) -> &'f [u8] {
        self.bytes.get(3..).unwrap_or_default()
    }

    /// Some bytes of the body, or as many of them as there are.
    fn part(&self, from: usize, bytes: usize) -> &'f [u8] {
        let rest = self.body().get(from..).unwrap_or_default();
        &rest[..bytes.min(rest.len())]
    }

    fn is_whole(&self) -> bool {
        self.bytes.len() >= 3 && self.body().len() as u64 == number(&self.bytes[1..3])
    }

    fn command_number(&self) -> u64 {
        number(self.part(8, 8))
    }

    fn kind(&self) -> Option<u64> {
        self.body().get(16).map(|&kind| u64::from(kind))
    }

    /// What a command of its kind carries.
    fn carried(&self) -> Option<&'static [Part]> {
        self.kind().and_then(carried)
    }

    fn has_wrong_length(&self) -> bool {
        let length = self.body().len();
        match self.tag() {
            1 | 3 => length != 2,
            2 if length < 17 => true,
            2 => self.carried().is_some_and(|parts| {
                let bytes: usize = parts.iter().map(|part| part.bytes()).sum();
                length != 17 + bytes
            }),
            _ => false,
        }
    }

    fn record(&self, clips: &Handles) -> Record {
        let kind = self.kind().expect("it has a kind");
        let mut record = [number(self.part(0, 8)), self.command_number(), kind, 0, 0];
        let mut from = 17;
        for (part, word) in carried(kind).unwrap().iter().zip(&mut record[3..]) {
            let value = number(self.part(from, part.bytes()));
            *word = match part {
                Clip => clips[value as usize],
                _ => value,
            };
            from += part.bytes();
        }
        record
    }
}

fn fields(file: &[u8]) -> Vec<Field<'_>> {
    let (mut fields, mut first, mut commands) = (Vec::new(), 0, 0);
    while first < file.len() {
        let rest = &file[first..];
        let length = rest.get(1..3).map_or(0, |bytes| number(bytes) as usize);
        let bytes = &rest[..rest.len().min(3 + length)];
        fields.push(Field {
            first,
            bytes,
            commands,
        });
        first += bytes.len();
        commands += usize::from(bytes[0] == 2);
    }
    fields
}

/// The records of a file, if there is room for so many; else the fault and its place.
pub fn read(clips: &Handles, file: &[u8], room: usize) -> Result<Vec<Record>, (TourFault, usize)> {
    if twice(clips) {
        return Err((ListedTwice, 0));
    }
    let fields = fields(file);
    let commands: Vec<&Field> = fields.iter().filter(|x| x.tag() == 2).collect();
    let listed = |byte: &u8| clips.get(*byte as usize).is_some_and(|x| !is_none(*x));

    let mut faults = Vec::new();
    let mut find = |fault: TourFault, is_faulty: &dyn Fn(&Field) -> bool| {
        let faulty = fields.iter().filter(|x| is_faulty(x));
        faults.extend(faulty.map(|x| (x.first, fault)));
    };
    find(CutShort, &|x| !x.is_whole());
    find(WrongFirstTag, &|x| x.first == 0 && x.tag() != 1);
    find(UnknownTag, &|x| {
        x.first > 0 && matches!(x.tag(), 0 | 1 | 4..=127)
    });
    find(WrongLength, &|x| x.has_wrong_length());
    find(OtherVersion, &|x| x.tag() == 1 && number(x.part(0, 2)) != 1);
    find(UnknownKind, &|x| x.tag() == 2 && x.carried().is_none());
    find(NotListed, &|x| {
        let names = x.carried().is_some_and(|parts| parts.contains(&Clip));
        x.tag() == 2 && names && !x.body().get(17).is_some_and(listed)
    });
    find(NotRising, &|x| {
        let before = x.commands.checked_sub(1).map(|n| commands[n]);
        x.tag() == 2 && before.is_some_and(|y| y.command_number() >= x.command_number())
    });
    find(TooMany, &|x| x.tag() == 2 && x.commands >= 4_096);
    find(WrongCount, &|x| {
        x.tag() == 3 && number(x.part(0, 2)) != x.commands as u64
    });
    find(BytesAfterEnd, &|x| {
        x.tag() == 3 && x.first + x.bytes.len() < file.len()
    });
    // The last field is not there.
    if fields.last().is_none_or(|x| x.tag() != 3) {
        faults.push((file.len(), CutShort));
    }

    let least = |(first, fault): &(usize, TourFault)| (*first, fault.number());
    if let Some((first, fault)) = faults.into_iter().min_by_key(least) {
        return Err((fault, first));
    }
    if commands.len() > room {
        return Err((RecordsTooShort, 0));
    }
    Ok(commands.iter().map(|x| x.record(clips)).collect())
}

// ---- the writer

pub fn field(tag: u8, body: &[u8]) -> Vec<u8> {
    let length = (body.len() as u16).to_le_bytes();
    [&[tag], &length[..], body].concat()
}

pub fn version() -> Vec<u8> {
    field(1, &[1, 0])
}

pub fn count(commands: usize) -> Vec<u8> {
    field(3, &(commands as u16).to_le_bytes())
}

/// The command of a readable record whose clip, if it names one, is listed.
pub fn command(clips: &Handles, record: &Record) -> Vec<u8> {
    let [frame, number, kind, ..] = *record;
    let mut body = [frame.to_le_bytes(), number.to_le_bytes()].concat();
    body.push(kind as u8);
    for (part, word) in carried(kind).unwrap().iter().zip(&record[3..]) {
        let place = || clips.iter().position(|x| x == word).unwrap() as u64;
        let value = if *part == Clip { place() } else { *word };
        body.extend(&value.to_le_bytes()[..part.bytes()]);
    }
    field(2, &body)
}

/// The file of some records, if there is room for its bytes; else the fault and its place.
pub fn write(
    clips: &Handles,
    records: &[Record],
    room: usize,
) -> Result<Vec<u8>, (TourFault, usize)> {
    if twice(clips) {
        return Err((ListedTwice, 0));
    }
    let parts = |record: &Record, wanted| {
        let parts = carried(record[2]).unwrap_or_default().iter();
        let words = parts.zip(record[3..].to_vec());
        words.filter(move |x| *x.0 == wanted).map(|x| x.1)
    };
    let mut faults = Vec::new();
    let order = [UnreadableRecord, NotListed, NotRising];
    for (n, record) in records.iter().enumerate() {
        let wide = parts(record, Gain).any(|gain| gain > u64::from(u32::MAX));
        let listed = |clip| !is_none(clip) && clips.contains(&clip);
        let holds = [
            carried(record[2]).is_none() || wide,
            parts(record, Clip).any(|clip| !listed(clip)),
            n > 0 && records[n - 1][1] >= record[1],
        ];
        faults.extend((0..3).filter(|&i| holds[i]).map(|i| (n, i)));
    }
    if let Some((n, i)) = faults.into_iter().min() {
        return Err((order[i], n));
    }
    if records.len() > 4_096 {
        return Err((TooMany, 0));
    }
    let commands = records.iter().map(|record| command(clips, record));
    let file = [version(), commands.collect::<Vec<_>>().concat()].concat();
    let file = [file, count(records.len())].concat();
    if file.len() > room {
        return Err((OutputTooShort, 0));
    }
    Ok(file)
}

//! Records and files of tours by dice, good ones and damaged ones.

use crate::dice::Dice;
use crate::format::{Handles, Part, Record, carried, command, count, field, version};

impl Dice {
    pub fn of<T: Clone>(&mut self, list: &[T]) -> T {
        list[self.place(list.len())].clone()
    }

    /// One place of so many; 0 of none.
    pub fn place(&mut self, length: usize) -> usize {
        self.below(length.max(1) as u64) as usize
    }

    pub fn one_in(&mut self, n: u64) -> bool {
        self.below(n) == 0
    }

    /// Mostly small, now and then anything.
    pub fn count(&mut self) -> u64 {
        match self.below(8) {
            0 => self.word(),
            _ => self.below(300),
        }
    }

    /// A record that can be written, but for a clip where none is listed, and some words that its kind does not use.
    pub fn record(&mut self, clips: &Handles, number: u64) -> Record {
        let listed: Vec<u64> = clips.iter().copied().filter(|x| *x as u32 != 0).collect();
        let kind = match listed.len() {
            0 => self.of(&[1, 2, 3, 4, 5, 6, 7, 8]),
            _ => 1 + self.below(10),
        };
        let mut record = [self.count(), number, kind, self.count(), self.count()];
        for (part, word) in carried(kind).unwrap().iter().zip(&mut record[3..]) {
            match part {
                Part::Frame => {}
                Part::Gain => *word = u64::from(self.word() as u32),
                Part::Clip => *word = self.of(&listed),
            }
        }
        record
    }

    /// Such records, their numbers rising.
    pub fn records(&mut self, clips: &Handles) -> Vec<Record> {
        let most = self.of(&[1, 4, 4, 12, 60]);
        let mut number = self.count() / 2;
        let mut next = || {
            let steps = self.of(&[1, 1, 9, 1 << 40]);
            number += 1 + self.below(steps);
            number
        };
        let numbers: Vec<u64> = (0..most).map(|_| next()).collect();
        let length = self.place(most + 1);
        let numbers = numbers[..length].iter();
        numbers.map(|n| self.record(clips, *n)).collect()
    }

    pub fn skipped(&mut self) -> Vec<u8> {
        let length = match self.below(60) {
            0 => 65_535,
            _ => self.below(6),
        };
        let body: Vec<u8> = (0..length).map(|_| self.below(4) as u8).collect();
        field(128 + self.below(128) as u8, &body)
    }

    /// Damages some field: changes its tag, length, kind, number, clip or count, or puts it elsewhere.
    pub fn damage_fields(&mut self, fields: &mut Vec<Vec<u8>>) {
        if fields.is_empty() {
            return;
        }
        let [at, to] = [self.place(fields.len()), self.place(fields.len())];
        let tag = fields[at][0];
        match self.below(14) {
            0 => fields[at][0] = self.of(&[0, 1, 2, 3, 4, 127, 128, 255]),
            // A length that the body does not have, and a body of another length.
            1 => fields[at][1] = fields[at][1].wrapping_add(self.of(&[1, 255, 20, 200])),
            2 => fields[at][2] = self.below(3) as u8,
            3 => {
                let mut body = fields[at][3..].to_vec();
                body.resize(self.place(40), 1);
                fields[at] = field(tag, &body);
            }
            4 => fields.swap(at, to),
            5 => {
                let moved = fields.remove(at);
                fields.insert(to, moved);
            }
            6 => fields.insert(to, fields[at].clone()),
            7 => drop(fields.remove(at)),
            8 => fields.insert(at, self.skipped()),
            9 => fields.push(self.skipped()),
            // Of a command or of the first and the last field, what counts there.
            10 if tag == 2 && fields[at].len() > 19 => fields[at][19] = self.below(13) as u8,
            11 if tag == 2 && fields[at].len() > 20 => fields[at][20] = self.below(40) as u8,
            12 if tag == 2 && fields[at].len() > 18 => {
                let number = self.of(&[0, 1, 5, self.0 / 2, u64::MAX]);
                fields[at][11..19].copy_from_slice(&number.to_le_bytes());
            }
            _ if fields[at].len() > 4 => fields[at][3 + self.place(2)] ^= 1 << self.below(8),
            _ => {}
        }
    }

    /// Damages some byte.
    pub fn damage_bytes(&mut self, file: &mut Vec<u8>) {
        let [at, to] = [self.place(file.len()), self.place(file.len())];
        match self.below(7) {
            0 if !file.is_empty() => file[at] ^= 1 << self.below(8),
            1 if !file.is_empty() => file[at] = self.word() as u8,
            2 if !file.is_empty() => drop(file.remove(at)),
            3 if !file.is_empty() => file.swap(at, to),
            4 if !file.is_empty() => file.insert(to, file[at]),
            5 => file.truncate(at),
            _ => file.push(self.of(&[0, 1, 2, 3, 128])),
        }
    }

    /// A file that was good once, or that never was one.
    pub fn file(&mut self, clips: &Handles, large: &[Vec<u8>]) -> Vec<u8> {
        if self.one_in(50) {
            let length = self.place(40);
            return (0..length).map(|_| self.word() as u8).collect();
        }
        let mut fields = match self.one_in(128) {
            true => large.to_vec(),
            false => {
                let records = self.records(clips);
                let commands = records.iter().map(|x| command(clips, x)).collect();
                [vec![version()], commands, vec![count(records.len())]].concat()
            }
        };
        while self.one_in(3) {
            let place = 1 + self.place(fields.len() - 1);
            fields.insert(place, self.skipped());
        }
        for _ in 0..self.below(3) {
            self.damage_fields(&mut fields);
        }
        let mut file = fields.concat();
        for _ in 0..self.below(6) / 4 {
            self.damage_bytes(&mut file);
        }
        file
    }
}

//! Document 01, "The batch": the keys and links of each file (refusals 7 and 8), the signs permitted by place (9), the order in which the refusals 1 to 11
//! of a batch are tried, and the counts of a batch that is accepted; `trips.rs` has 10 and 11. Plain and slow: every key of every file stands in a map before the first record is judged.

use std::collections::HashMap;

use crate::fields::{first_fault as fault_of_file, value};
use crate::format::{Reader, FIELDS, LONGEST, TOO_LONG};
use crate::trips;

pub const WRONG_VERSION: u64 = 4;
pub const KEY_USED: u64 = 7;
pub const LINK_TO_NOTHING: u64 = 8;
pub const SIGN_NOT_PERMITTED: u64 = 9;

const ZASTAVKY: u64 = 2;
const PEVNYKOD: u64 = 3;
const DOPRAVCI: u64 = 4;
const LINKY: u64 = 5;
const SPOJE: u64 = 6;
const ZASLINKY: u64 = 7;
const ZASSPOJE: u64 = 8;
const MISTENKY: u64 = 13;

/// The thirteen files.
pub type Bytes = Vec<Vec<u8>>;

/// The fields of each file's key; none where a file has no key.
const KEYS: [&[usize]; 13] = [&[], &[1], &[1], &[1], &[1], &[1, 2], &[1, 2], &[1, 2, 3], &[1, 2], &[1, 2, 3], &[], &[], &[]];

/// A link: the fields that name a record of file `to` by its key, and the field that is reported.
#[derive(Clone)]
pub struct Tie {
    pub by: Vec<usize>,
    pub to: u64,
    pub at: usize,
}

/// The links of a file, by rising field.
pub fn ties(file: u64) -> Vec<Tie> {
    let one = |at: usize, to: u64| vec![Tie { by: vec![at], to, at }];
    let two = |by: [usize; 2], to: u64| vec![Tie { by: by.to_vec(), to, at: by[1] }];
    let codes = |from: usize, to: usize| (from..=to).flat_map(|at| one(at, PEVNYKOD)).collect::<Vec<Tie>>();
    match file {
        2 => codes(7, 12),
        5 => one(3, DOPRAVCI),
        6 => [one(1, LINKY), codes(3, 12)].concat(),
        7 => [one(1, LINKY), one(4, ZASTAVKY), codes(5, 7)].concat(),
        8 => [two([1, 2], SPOJE), two([1, 3], ZASLINKY), one(4, ZASTAVKY), codes(6, 7)].concat(),
        9 | 12 => one(1, LINKY),
        10 => two([1, 2], SPOJE),
        11 => [two([1, 2], SPOJE), one(3, DOPRAVCI), codes(4, 9)].concat(),
        13 => [one(1, LINKY), two([1, 2], SPOJE)].concat(),
        _ => Vec::new(),
    }
}

pub fn permitted(file: u64, sign: u8) -> bool {
    let signs: &[u8] = match file {
        2 => b"@%Wwx~}v",
        6 => b"X+1234567R#@%I{[Os",
        7 => b"()x\xa7$",
        8 => b"()x\xa7",
        11 => b"X+1234567",
        _ => b"",
    };
    signs.contains(&sign)
}

pub type Texts<'a> = Vec<&'a [u8]>;

fn numbers(record: &Texts, fields: &[usize]) -> Vec<u64> {
    fields.iter().map(|&f| value(record[f - 1])).collect()
}

pub fn records_of(file: u64, bytes: &[u8]) -> Vec<Texts<'_>> {
    let mut places = Vec::new();
    crate::format::judge_each(FIELDS[file as usize - 1], bytes, |start, length| places.push(&bytes[start..start + length]));
    places.chunks(FIELDS[file as usize - 1]).map(|c| c.to_vec()).collect()
}

pub fn too_long(lengths: impl Iterator<Item = u64>) -> Option<[u64; 5]> {
    (1..).zip(lengths).find(|&(_, length)| length > LONGEST as u64).map(|(file, _)| [TOO_LONG, file, 0, 0, 0])
}

fn version(file: &[u8]) -> Option<[u64; 5]> {
    match &records_of(1, file)[..] {
        [one] if one[0] == b"1.8" => None,
        [_] => Some([WRONG_VERSION, 1, 1, 1, 0]),
        _ => Some([WRONG_VERSION, 1, 0, 0, 0]),
    }
}

/// The first of the refusals 1 to 6, in the batch's order.
fn before_keys(batch: &Bytes) -> Option<[u64; 5]> {
    let refused = |words: [u64; 5]| if words[0] != 0 { Some(words) } else { None };
    let bytes_of = |file: u64| &batch[file as usize - 1][..];
    let legal = |file: u64| {
        let [number, of_file, record, field, offset, _] = Reader::new(file, bytes_of(file)).records();
        refused([number, of_file, record, field, offset])
    };
    too_long(batch.iter().map(|b| b.len() as u64))
        .or_else(|| (1..=13).find_map(legal))
        .or_else(|| version(bytes_of(1)))
        .or_else(|| (2..=13).find_map(|file| refused(fault_of_file(file, bytes_of(file)))))
}

/// Keys, links and signs of a batch that has none of the refusals 1 to 6.
struct Judge<'a> {
    files: Vec<Vec<Texts<'a>>>,
    /// For each file the first record with each key.
    first: Vec<HashMap<Vec<u64>, usize>>,
}

impl<'a> Judge<'a> {
    fn new(batch: &'a Bytes) -> Judge<'a> {
        let files: Vec<Vec<Texts>> = (1..=13).map(|file| records_of(file, &batch[file as usize - 1])).collect();
        let mut first = vec![HashMap::new(); 13];
        for (file, records) in files.iter().enumerate() {
            for (r, record) in records.iter().enumerate() {
                first[file].entry(numbers(record, KEYS[file])).or_insert(r);
            }
        }
        Judge { files, first }
    }

    fn found(&self, tie: &Tie, record: &Texts) -> Option<usize> {
        self.first[tie.to as usize - 1].get(&numbers(record, &tie.by)).copied()
    }

    /// The sign of a code that is there.
    fn sign(&self, record: &Texts, field: usize) -> Option<u8> {
        self.found(&Tie { by: vec![field], to: PEVNYKOD, at: field }, record).map(|r| self.files[PEVNYKOD as usize - 1][r][1][0])
    }

    fn at_field(&self, file: u64, record: &Texts, tie: &Tie) -> Option<u64> {
        let empty_code = tie.to == PEVNYKOD && record[tie.at - 1].is_empty();
        let every_trip = file == MISTENKY && tie.to == SPOJE && value(record[1]) == 0;
        if empty_code || every_trip {
            return None;
        }
        if self.found(tie, record).is_none() {
            return Some(LINK_TO_NOTHING);
        }
        if tie.to != PEVNYKOD {
            return None;
        }
        let sign = self.sign(record, tie.at);
        let unlike = file == ZASSPOJE && tie.at == 7 && !record[5].is_empty() && sign != self.sign(record, 6);
        if !permitted(file, sign.unwrap()) || unlike {
            return Some(SIGN_NOT_PERMITTED);
        }
        None
    }

    fn first_fault(&self) -> Option<[u64; 5]> {
        for file in 2..=13 {
            let ties = ties(file);
            let key = KEYS[file as usize - 1];
            for (r, record) in self.files[file as usize - 1].iter().enumerate() {
                let place = r as u64 + 1;
                if !key.is_empty() && self.first[file as usize - 1][&numbers(record, key)] < r {
                    return Some([KEY_USED, file, place, 0, 0]);
                }
                for tie in &ties {
                    if let Some(number) = self.at_field(file, record, tie) {
                        return Some([number, file, place, tie.at as u64, 0]);
                    }
                }
            }
        }
        None
    }
}

/// The first of the refusals 1 to 11: number, file, record, field, offset.
pub fn first_fault(batch: &Bytes) -> [u64; 5] {
    let of_trips = || trips::first_fault(&trips::trips(batch));
    before_keys(batch).or_else(|| Judge::new(batch).first_fault()).or_else(of_trips).unwrap_or([0; 5])
}

/// A verdict on a batch: the first fault, then the counts.
pub type Verdict = [u64; 9];

/// "The counts are the records of files 2, 5, 6 and 8"; they are given where there is no fault, and are 0 with one.
pub fn verdict(batch: &Bytes, fault: [u64; 5]) -> Verdict {
    let [number, file, record, field, offset] = fault;
    let count = |file: u64| if number == 0 { records_of(file, &batch[file as usize - 1]).len() as u64 } else { 0 };
    [number, file, record, field, offset, count(ZASTAVKY), count(LINKY), count(SPOJE), count(ZASSPOJE)]
}

/// For each of the files 2 to 10, record by record, the key and the offset at which the record begins. None for a batch with one of the refusals 1 to 6.
pub fn keys_and_places(batch: &Bytes) -> Option<Vec<Vec<(Vec<u64>, u32)>>> {
    if before_keys(batch).is_some() {
        return None;
    }
    let of_file = |file: u64| {
        let bytes = &batch[file as usize - 1];
        let reader = Reader::new(file, bytes);
        let begins = |r: usize| reader.stretch(r as u64 + 1, 1)[5] as u32 - 1;
        records_of(file, bytes).iter().enumerate().map(|(r, record)| (numbers(record, KEYS[file as usize - 1]), begins(r))).collect()
    };
    Some((2..=10).map(of_file).collect())
}

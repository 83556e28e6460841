//! What slovdrim_order answers and writes, and what there is in a batch that this depends on.

use crate::batch_faults::Words;
use crate::batches::KEY_FIELDS;
use crate::fields::name_of;
use crate::format::NO_ROOM;
use crate::hints::{rises, Part};
use crate::links::{keys_and_places, records_of, Bytes};

/// What a batch is to answer: one of the refusals 1 to 6, or its order, which needs room.
pub enum Meant {
    Refused(Words),
    InOrder(Vec<u32>),
}

impl Meant {
    /// `fault`: the batch's first; `order`: the right one, if there is none of 1 to 6.
    pub fn of(fault: Words, order: Option<Vec<u32>>) -> Meant {
        assert_eq!((1..=6).contains(&fault[0]), order.is_none(), "the model on a batch with the fault {:?}", fault);
        order.map_or(Meant::Refused(fault), Meant::InOrder)
    }

    /// Number, file, record, field, offset, how many were written; then what the list holds.
    pub fn answer(&self, list: &[u32]) -> ([u64; 6], Vec<u32>) {
        match self {
            Meant::Refused([number, file, record, field, offset]) => ([*number, *file, *record, *field, *offset, 0], list.to_vec()),
            Meant::InOrder(order) if order.len() > list.len() => ([NO_ROOM, 0, 0, 0, 0, 0], list.to_vec()),
            Meant::InOrder(order) => ([0, 0, 0, 0, 0, order.len() as u64], [order, &list[order.len()..]].concat()),
        }
    }

    /// Rooms to ask with, each by its name.
    pub fn rooms(&self) -> Vec<(&'static str, usize)> {
        match self {
            Meant::Refused(_) => vec![("no room", 0), ("some room", 7), ("much room", 400)],
            Meant::InOrder(order) if order.is_empty() => vec![("nothing to write, no room", 0), ("nothing to write, room", 1), ("nothing to write, much room", 64)],
            Meant::InOrder(order) => {
                let n = order.len();
                vec![("exact", n), ("one more", n + 1), ("much more", 2 * n + 101), ("one too few", n - 1), ("none", 0)]
            }
        }
    }
}

/// The numbers that each room can be answered with.
pub const ROOMS: [(&str, &[u64]); 11] = [
    ("exact", &[0]),
    ("one more", &[0]),
    ("much more", &[0]),
    ("one too few", &[22]),
    ("none", &[22]),
    ("nothing to write, no room", &[0]),
    ("nothing to write, room", &[0]),
    ("nothing to write, much room", &[0]),
    ("no room", &[1, 2, 3, 4, 5, 6]),
    ("some room", &[1, 2, 3, 4, 5, 6]),
    ("much room", &[1, 2, 3, 4, 5, 6]),
];

/// Files whose keys can be written in several ways: carriers and lines have all their digits.
fn varies(file: u64) -> bool {
    file != 4 && file != 5
}

/// What is to be told apart of a file's keys, in words that a file's name follows.
const ALONE: &str = "the only file that doesn't rise";
const EQUAL_NEIGHBOURS: &str = "never falls, but equal neighbours";
const EQUAL_APART: &str = "equal keys, apart";
const EQUAL_THRICE: &str = "equal keys, three of them";
const EQUAL_OTHERWISE: &str = "equal keys, written otherwise";
const RISES_BY_VALUE: &str = "rises by value, not as written";
const RISES_AS_WRITTEN: &str = "rises as written, not by value";
const FALLS_FIRST: &str = "falls in the first number";
const FALLS_LATER: [&str; 2] = ["falls in the second number", "falls in the third number"];
const FALLS_WHILE_FIRST_RISES: &str = "rises, though a later number falls";

const SIZES: [(&str, usize); 6] = [("2", 2), ("3", 3), ("4", 4), ("5 to 31", 31), ("32 to 999", 999), ("1000 and more", usize::MAX)];

/// The things that one file's keys show. `texts`: the keys as they are written.
fn of_file(file: u64, part: &Part, texts: &[Vec<&[u8]>]) -> Vec<String> {
    let keys: Vec<&Vec<u64>> = part.iter().map(|(key, _)| key).collect();
    let steps = || keys.windows(2).map(|w| (w[0], w[1]));
    let as_written = texts.windows(2).all(|w| w[0] < w[1]);
    let alike = |key: &Vec<u64>| (0..keys.len()).filter(|&r| keys[r] == key).collect::<Vec<usize>>();
    let groups: Vec<Vec<usize>> = if rises(part) { Vec::new() } else { keys.iter().map(|key| alike(key)).filter(|g| g.len() > 1).collect() };
    let falls_in = |k: usize| steps().any(|(a, b)| k < a.len() && a[..k] == b[..k] && a[k] > b[k]);
    let mut all = vec![
        (EQUAL_NEIGHBOURS, !groups.is_empty() && steps().all(|(a, b)| a <= b)),
        (EQUAL_APART, groups.iter().any(|g| g.windows(2).any(|w| w[1] > w[0] + 1))),
        (EQUAL_THRICE, groups.iter().any(|g| g.len() > 2)),
        (EQUAL_OTHERWISE, groups.iter().any(|g| g.iter().any(|&r| texts[r] != texts[g[0]]))),
        (RISES_BY_VALUE, rises(part) && !as_written),
        (RISES_AS_WRITTEN, !rises(part) && as_written),
        (FALLS_FIRST, falls_in(0)),
        (FALLS_WHILE_FIRST_RISES, rises(part) && steps().any(|(a, b)| a[1..].iter().zip(&b[1..]).any(|(x, y)| x > y))),
    ];
    all.extend([1, 2].map(|k| (FALLS_LATER[k - 1], falls_in(k))));
    let mut words: Vec<String> = all.iter().filter(|(_, met)| *met).map(|(what, _)| format!("{}: {}", what, name_of(file))).collect();
    match keys.len() {
        n @ 0..=1 => words.push(format!("files of so many records: {}", n)),
        n if !rises(part) => words.push(format!("records of a file in order: {}", SIZES.iter().find(|(_, most)| n <= *most).unwrap().0)),
        _ => (),
    }
    words
}

/// What a batch shows; nothing if it has one of the refusals 1 to 6.
pub fn shown(batch: &Bytes) -> Vec<String> {
    let parts = match keys_and_places(batch) {
        Some(parts) => parts,
        None => return Vec::new(),
    };
    let mut all = Vec::new();
    for (file, part) in (2..).zip(&parts) {
        let records = records_of(file, &batch[file as usize - 1]);
        let texts: Vec<Vec<&[u8]>> = records.iter().map(|r| r[..KEY_FIELDS[file as usize]].to_vec()).collect();
        all.extend(of_file(file, part, &texts));
    }
    let falling: Vec<u64> = (2..).zip(&parts).filter(|(_, p)| !rises(p)).map(|(file, _)| file).collect();
    all.push(format!("files that don't rise: {}", falling.len()));
    if let [one] = falling[..] {
        all.push(format!("{}: {}", ALONE, name_of(one)));
    }
    all
}

/// All that a run must have met of it.
pub fn all_shown() -> Vec<String> {
    let mut all: Vec<String> = (0..=9).map(|n| format!("files that don't rise: {}", n)).collect();
    all.extend([0, 1].map(|n| format!("files of so many records: {}", n)));
    all.extend(SIZES.map(|(size, _)| format!("records of a file in order: {}", size)));
    for file in 2..=10 {
        let numbers = KEY_FIELDS[file as usize];
        let mut words = vec![ALONE, EQUAL_NEIGHBOURS, EQUAL_APART, EQUAL_THRICE, FALLS_FIRST];
        words.extend(&FALLS_LATER[..numbers - 1]);
        if numbers > 1 {
            words.push(FALLS_WHILE_FIRST_RISES);
        }
        if varies(file) {
            words.extend([EQUAL_OTHERWISE, RISES_BY_VALUE, RISES_AS_WRITTEN]);
        }
        all.extend(words.iter().map(|w| format!("{}: {}", w, name_of(file))));
    }
    all
}

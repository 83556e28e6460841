//! Whole batches by seed: valid, damaged once and twice, with bytes changed, with files missing, with a file too long. What a batch is to answer is known from how
//! it was made; where bytes were changed at random or several files are missing, the model alone says it.

use crate::asker::reasons;
use crate::batch_faults::{broken, dangling, day_fault, fault, field_fault, field_fault_with, files_for, linked_fields, rule_fault, same_key, sign_fault, signed, stop_fault, Fault, Words, FINE};
use crate::batch_pairs::pair;
use crate::batch_questions::without_file;
use crate::batches::{code_fields, signs_for, Batch, Sizes, KEY_FIELDS, ORDERS, SMALL};
use crate::damage::breaks;
use crate::fields::{fields_of_file, name_of};
use crate::format::FIELDS;
use crate::generator::{damaged, Random};
use crate::hints::right;
use crate::links::{first_fault, Bytes};
use crate::maker::Maker;
use crate::trip_faults::{day_breaks, STOP_DAMAGE};
use crate::trips::FIRST_LEAVES;

pub struct Case {
    pub batch: Bytes,
    /// A file that is so many zero bytes instead.
    pub huge: Option<(u64, u64)>,
    pub want: Words,
    /// What it was made for.
    pub ways: Vec<String>,
    /// The right hint of the batch before it was damaged.
    pub before: Vec<u32>,
}

pub type Each<'a> = &'a mut dyn FnMut(Case);

impl Case {
    pub fn of(b: &Batch, faults: &[&Fault], way: &str) -> Case {
        let (batch, huge, want) = broken(b, faults);
        Case { batch, huge, want, ways: vec![way.to_string()], before: right(&b.bytes()).unwrap() }
    }

    /// Bytes as they are; what follows is left to the model.
    fn as_it_falls(batch: Bytes, b: &Batch, way: &str) -> Case {
        let want = first_fault(&batch);
        Case { batch, huge: None, want, ways: vec![way.to_string()], before: right(&b.bytes()).unwrap() }
    }
}

/// Sizes of a batch: the usual ones, few trips with many stops, or any.
fn sizes(r: &mut Random) -> Sizes {
    let mut sizes = SMALL;
    match r.below(3) {
        0 => (),
        1 => {
            sizes[6] = 4;
            sizes[7] = 29;
            sizes[8] = 20 + r.below(12);
            sizes[10] = 8;
        }
        _ => {
            let (lines, trips, along) = (1 + r.below(6), 1 + r.below(12), 2 + r.below(6));
            let trip_stops = 2 * trips + r.below((along - 2) * trips + 1);
            sizes = [0, 1, 3 + r.below(10), 37, 3 + r.below(5), 2 + lines, trips, 2 + along * lines.min(3), trip_stops, 1 + r.below(6), 1 + r.below(3 * trips), 1, 2, 3];
        }
    }
    sizes
}

/// A batch that stands.
pub fn standing(m: &mut Maker) -> Batch {
    let (sizes, order) = (sizes(&mut m.r), ORDERS[m.r.below(5)]);
    Batch::arranged(m, &sizes, order)
}

pub fn valid(m: &mut Maker, count: usize, each: Each) {
    for _ in 0..count {
        let b = standing(m);
        each(Case::of(&b, &[], "batches: valid"));
    }
}

/// A record of a file: the first, the last, or another.
fn row(r: &mut Random, b: &Batch, file: u64) -> usize {
    let count = b.count(file);
    [0, count - 1, r.below(count)][r.below(3)]
}

/// A batch with one fault, put in where there is a way to it.
fn with_one(m: &mut Maker, make: &dyn Fn(&mut Maker, &Batch) -> Option<Fault>) -> Case {
    loop {
        let b = standing(m);
        if let Some(f) = make(m, &b) {
            return Case::of(&b, &[&f], "batches: damaged once");
        }
    }
}

/// The same, of a fault that breaks one rule alone.
fn with_one_alone(m: &mut Maker, make: &dyn Fn(&mut Maker, &Batch) -> Option<Fault>) -> Case {
    loop {
        let case = with_one(m, make);
        if reasons(&case.batch, case.want).len() == 1 {
            return case;
        }
    }
}

/// One fault: each number 2 to 11, each field and each rule, so many times each.
pub fn damaged_once(m: &mut Maker, rounds: usize, each: Each) {
    for round in 0..rounds {
        for number in [2, 3, 4, 7] {
            for file in files_for(number) {
                each(with_one(m, &|m, b| fault(m, b, number, file, None)));
            }
        }
        of_fields(m, round, each);
        of_links(m, each);
        for file in files_for(6) {
            for set in 0..breaks(file).len() {
                each(with_one_alone(m, &|m, b| {
                    let at = row(&mut m.r, b, file);
                    Some(rule_fault(b, file, at, set))
                }));
            }
        }
        of_trips(m, each);
    }
}

/// 5 at each field: in the first round each that is required is empty, and none later.
fn of_fields(m: &mut Maker, round: usize, each: Each) {
    for file in 2..=13 {
        for field in 1..=FIELDS[file as usize - 1] {
            let empty = round == 0 && fields_of_file(file)[field - 1].required;
            each(with_one(m, &|m, b| {
                let at = row(&mut m.r, b, file);
                let other = field_fault(m, b, file, at, field);
                let given = matches!(&other, Fault::Edits { edits, .. } if !edits[0].1.is_empty());
                if empty {
                    Some(field_fault_with(file, at, field, b""))
                } else {
                    Some(other).filter(|_| given)
                }
            }));
        }
    }
}

/// 8 at each linked field, 9 at each code, and for two different signs in Zasspoje; a key twice near and far.
fn of_links(m: &mut Maker, each: Each) {
    for file in 2..=13 {
        for field in linked_fields(file) {
            each(with_one(m, &|m, b| {
                let at = row(&mut m.r, b, file);
                Some(dangling(&mut m.r, b, file, at, field))
            }));
        }
        for field in code_fields(file) {
            each(with_one(m, &|m, b| {
                let at = row(&mut m.r, b, file);
                Some(sign_fault(&mut m.r, b, file, at, field))
            }));
        }
        if KEY_FIELDS[file as usize] > 0 {
            each(with_one(m, &|m, b| {
                let last = b.count(file) - 1;
                let free = [0, last].into_iter().find(|&at| b.free(file, at)).filter(|_| last > 0)?;
                let alike = m.r.one_in(2);
                Some(same_key(&mut m.r, b, file, free, if free == 0 { last } else { 0 }, alike))
            }));
        }
    }
    each(with_one(m, &|m, b| {
        let (at, sign) = (row(&mut m.r, b, 8), m.r.pick(&signs_for(8)));
        Some(signed(&mut m.r, b, 8, at, 6, sign)).filter(|f| matches!(f, Fault::Edits { want, .. } if *want != FINE))
    }));
}

/// 10 and 11, each rule alone; the one of 11 that never is alone beside another.
fn of_trips(m: &mut Maker, each: Each) {
    for way in day_breaks() {
        each(with_one_alone(m, &|m, b| {
            let at = row(&mut m.r, b, 6);
            day_fault(m, b, at, way)
        }));
    }
    for (_, name, damage) in STOP_DAMAGE {
        let make = |m: &mut Maker, b: &Batch| {
            let at = row(&mut m.r, b, 6);
            stop_fault(m, b, at, damage)
        };
        each(if name == FIRST_LEAVES { with_one(m, &make) } else { with_one_alone(m, &make) });
    }
}

/// Two faults, of every two numbers: the earlier in the fixed order is named.
pub fn damaged_twice(m: &mut Maker, rounds: usize, numbers: std::ops::RangeInclusive<u64>, each: Each) {
    for _ in 0..rounds {
        for one in numbers.clone() {
            for two in numbers.clone().filter(|two| !((one == 1 && *two == 1) || (one == 4 && *two == 4))) {
                let (b, first, second) = loop {
                    let b = standing(m);
                    if let Some((first, second)) = pair(m, &b, one, two) {
                        break (b, first, second);
                    }
                };
                let mut case = Case::of(&b, &[&first, &second], "batches: damaged twice");
                case.ways.push(format!("of two faults the earlier: {}", case.want[0]));
                each(case);
            }
        }
    }
}

/// Bytes changed at random, in one file or two.
pub fn damaged_bytes(m: &mut Maker, count: usize, each: Each) {
    for i in 0..count {
        let b = standing(m);
        let mut bytes = b.bytes();
        for _ in 0..1 + i % 2 {
            let file = m.r.below(13);
            bytes[file] = damaged(&mut m.r, &bytes[file]);
        }
        each(Case::as_it_falls(bytes, &b, "batches: bytes damaged"));
    }
}

/// Each file missing, and each beside some others; all of them.
pub fn missing(m: &mut Maker, rounds: usize, each: Each) {
    for _ in 0..rounds {
        for file in 1..=13 {
            let b = standing(m);
            let (left, want) = without_file(&b, file);
            let ways = vec!["batches: files missing".to_string(), format!("missing alone: {}", name_of(file))];
            each(Case { batch: left.bytes(), huge: None, want, ways, before: right(&b.bytes()).unwrap() });
            let mut bytes = left.bytes();
            for _ in 0..1 + m.r.below(4) {
                bytes[m.r.below(13)].clear();
            }
            each(Case::as_it_falls(bytes, &b, "batches: files missing"));
        }
    }
    let nothing = vec![Vec::new(); 13];
    each(Case { batch: nothing, huge: None, want: [4, 1, 0, 0, 0], ways: vec!["batches: files missing".to_string(), "missing alone: all".to_string()], before: Vec::new() });
}

/// Each file too long, beside others that may have faults of their own.
pub fn too_long(m: &mut Maker, rounds: usize, each: Each) {
    for _ in 0..rounds {
        for file in 1..=13 {
            each(with_one(m, &|m, b| fault(m, b, 1, file, None)));
        }
    }
}

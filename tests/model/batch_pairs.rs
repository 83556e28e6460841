//! Two faults in one batch: the order of the refusals 1 to 11.

use crate::asker::{Asked, Asker};
use crate::batch_faults::{apart, fault, files_for, rank, Fault, Words};
use crate::batches::{Batch, ORDERS, SMALL};
use crate::format::{ENDS_INSIDE, NOT_LEGAL, TOO_LONG};
use crate::link::Link;
use crate::links::WRONG_VERSION;
use crate::maker::Maker;

fn row_of(fault: &Fault) -> Option<usize> {
    match fault {
        Fault::Edits { want, .. } => Some(want[2] as usize - 1),
        Fault::Byte { row, .. } => Some(*row),
        _ => None,
    }
}

fn relation(first: &Words, second: &Words) -> &'static str {
    let same_stage = rank(first)[0] == rank(second)[0];
    match second[1].cmp(&first[1]) {
        std::cmp::Ordering::Less => "earlier file",
        std::cmp::Ordering::Greater => "later file",
        _ if !same_stage => "same file",
        _ if first[2] == second[2] => "same record",
        _ => "later record",
    }
}

/// Two refusals of one batch, the one that is answered first, and how they stand to each other.
type Pair = (u64, u64, &'static str);

fn pair_name((first, second, relation): Pair) -> String {
    format!("{} before {}, {}", first, second, relation)
}

/// The refusal that a fault leads to, but for the offset.
fn refusal(fault: &Fault) -> Words {
    match fault {
        Fault::Edits { want, .. } => *want,
        Fault::Version(_) => [WRONG_VERSION, 1, 0, 0, 0],
        Fault::Byte { file, .. } => [NOT_LEGAL, *file, 0, 0, 0],
        Fault::Cut { file, .. } => [ENDS_INSIDE, *file, 0, 0, 0],
        Fault::Huge { file, .. } => [TOO_LONG, *file, 0, 0, 0],
    }
}

fn pair_of(one: &Fault, other: &Fault) -> Pair {
    let mut both = [refusal(one), refusal(other)];
    both.sort_by_key(rank);
    (both[0][0], both[1][0], relation(&both[0], &both[1]))
}

/// A fault of each of two numbers, in one record, in one file or anywhere, where they leave each other alone.
pub fn pair(m: &mut Maker, b: &Batch, one: u64, two: u64) -> Option<(Fault, Fault)> {
    let files = files_for(one);
    let file = files[m.r.below(files.len())];
    let first = fault(m, b, one, file, None)?;
    // in the same record if there is a way, in the same file, or anywhere
    let files = files_for(two);
    let near = m.r.below(3);
    let second = if near < 2 && files.contains(&file) {
        fault(m, b, two, file, if near == 0 { row_of(&first) } else { None })
    } else {
        let other = files[m.r.below(files.len())];
        fault(m, b, two, other, None)
    }?;
    if apart(&first, &second) {
        Some((first, second))
    } else {
        None
    }
}

/// How often each pair is asked.
const EACH: usize = 5;

/// Two faults of this pair in a batch; none if it gives no way to them, as far as it was tried.
fn find(m: &mut Maker, b: &Batch, wanted: Pair) -> Option<(Fault, Fault)> {
    let (first, second, _) = wanted;
    for i in 0..40 {
        let (one, two) = if i % 2 == 0 { (first, second) } else { (second, first) };
        match pair(m, b, one, two) {
            Some((one, other)) if pair_of(&one, &other) == wanted => return Some((one, other)),
            _ => (),
        }
    }
    None
}

/// Two faults in one batch, of all numbers and in all places to each other.
pub fn two_faults(link: &mut Link) {
    let mut m = Maker::new(63);
    let mut a = Asker::new(link, 42);
    for wanted in pairs() {
        // every hint where trips are refused, and where equal keys stand behind another fault
        let asked = if wanted.0 >= 10 || (wanted.0 > 7 && wanted.1 == 7) { Asked::All } else { Asked::Some(3) };
        for i in 0..EACH {
            // what is never found is never met, and the run says so
            for _ in 0..200 {
                let b = Batch::arranged(&mut m, &SMALL, ORDERS[i % 5]);
                if let Some((one, other)) = find(&mut m, &b, wanted) {
                    a.ask_faults(&b, &[&one, &other], None, &[pair_name(wanted)], asked);
                    break;
                }
            }
        }
    }
}

pub fn pair_names() -> Vec<String> {
    pairs().into_iter().map(pair_name).collect()
}

/// Every pair of refusals that can stand in one batch, the one that is answered first, in every way of standing to each other.
fn pairs() -> Vec<Pair> {
    let stage = |n: u64| rank(&[n, 2, 1, 1, 0])[0];
    let mut all = Vec::new();
    for first in 1..=11u64 {
        for second in 1..=11u64 {
            let relations: &[&'static str] = match (first, second) {
                _ if stage(first) > stage(second) => &[],
                (1, 1) => &["later file"],
                (4, 4) => &[],
                (1, 4) => &["earlier file"],
                (2 | 3, 4) => &["earlier file", "same file"],
                (6, 10 | 11) => &["earlier file", "later file"],
                (10, 11) => &["same record", "later record"],
                (10 | 11, _) => &["later record"],
                (4, _) => &["later file"],
                (1, _) => &["earlier file", "later file"],
                (2 | 3, 2 | 3) => &["later file"],
                (5, 5 | 6) | (7, 8 | 9) | (8 | 9, 8 | 9) => &["same record", "later record", "later file"],
                _ if stage(first) == stage(second) => &["later record", "later file"],
                _ => &["earlier file", "same file", "later file"],
            };
            all.extend(relations.iter().map(|r| (first, second, *r)));
        }
    }
    all
}

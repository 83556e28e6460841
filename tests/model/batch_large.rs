//! Batches with large files, with the longest, and with some that are too long.

use std::sync::Arc;

use crate::asker::{way, Asked, Asker};
use crate::batch_faults::{dangling, fault, key_used, linked_fields, to_nothing, FINE};
use crate::batches::{code_fields, line_text, Batch, Order, Sizes, KEY_FIELDS, ORDERS, SMALL};
use crate::fields::name_of;
use crate::format::{writing, LONGEST};
use crate::hints::KINDS;
use crate::link::{Call, Link};
use crate::links::verdict;
use crate::maker::Maker;

fn large_sizes(file: usize, count: usize) -> Sizes {
    let mut sizes = SMALL;
    sizes[file] = count;
    if file == 8 {
        // stops enough for the trips
        let each = (1..).find(|n| 3 * n * n >= count).unwrap();
        sizes[6] = 3 * each + 4;
        sizes[7] = 3 * each + 4;
    }
    sizes
}

/// One file is large: as it stands, a key twice far apart and side by side, then a link to nothing and a sign not permitted in its last record.
fn one_large(a: &mut Asker, m: &mut Maker, file: u64, count: usize, order: Order, rising: Asked, otherwise: Asked) {
    let b = Batch::arranged(m, &large_sizes(file as usize, count), order);
    let (last, name) = (b.count(file) - 1, name_of(file));
    let asked = if order == Order::Rising { rising } else { otherwise };
    a.ask_batch(&b, FINE, &[format!("{}: large, it stands", name)], asked);
    if KEY_FIELDS[file as usize] > 0 {
        for from in [0, last] {
            let mut more = b.clone();
            let copy = b.files[file as usize][from].clone();
            more.files[file as usize].push(copy);
            a.ask_batch(&more, key_used(file, last + 1), &[format!("{}: large, its last key is an earlier one's", name)], otherwise);
        }
    }
    let fields = linked_fields(file);
    if !fields.is_empty() {
        let field = fields[m.r.below(fields.len())];
        let f = dangling(&mut m.r, &b, file, last, field);
        a.ask_faults(&b, &[&f], None, &[format!("{}: large, the last link to nothing", name)], asked);
    }
    if !code_fields(file).is_empty() {
        let f = fault(m, &b, 9, file, Some(last)).unwrap();
        a.ask_faults(&b, &[&f], None, &[format!("{}: large, the last sign not permitted", name)], asked);
    }
    a.link.flush();
}

/// Large files. Without a right hint a file that doesn't rise may be searched from its beginning for each record, so those are less large.
pub fn large_files(link: &mut Link) {
    let mut m = Maker::new(43);
    let mut a = Asker::new(link, 43);
    for file in 2..=13 {
        one_large(&mut a, &mut m, file, 1500, Order::Rising, Asked::Some(1), Asked::Right);
        one_large(&mut a, &mut m, file, 1500, Order::Shuffled, Asked::Right, Asked::Right);
        one_large(&mut a, &mut m, file, 250, ORDERS[file as usize % 5], Asked::Some(3), Asked::Some(1));
    }
    for order in [Order::Rising, Order::Shuffled, Order::Falling] {
        let sizes = [0, 1, 800, 800, 800, 800, 800, 800, 1600, 800, 800, 800, 800, 800];
        let b = Batch::arranged(&mut m, &sizes, order);
        a.ask_batch(&b, FINE, &way("all files large"), if order == Order::Rising { Asked::Some(1) } else { Asked::Right });
        a.link.flush();
    }
}

/// Udaje of exactly so many bytes, its keys rising.
pub fn udaje_of_length(line: u64, length: usize) -> Vec<u8> {
    let record = |n: usize, text: usize| writing(&[vec![line_text(line), format!("{:09}", n).into_bytes(), vec![0xec; text]]]);
    let (around, full) = (record(0, 0).len(), record(0, 254).len());
    let mut bytes = Vec::with_capacity(length);
    let mut n = 0;
    while length - bytes.len() > 2 * full {
        bytes.extend(record(n, 254));
        n += 1;
    }
    let half = (length - bytes.len()) / 2;
    bytes.extend(record(n, half - around));
    bytes.extend(record(n + 1, length - bytes.len() - around));
    assert_eq!(bytes.len(), length);
    bytes
}

/// The longest file, files that are too long, and the longest list.
pub fn longest(link: &mut Link) {
    let mut m = Maker::new(44);
    let mut a = Asker::new(link, 44);
    let b = Batch::arranged(&mut m, &SMALL, Order::Rising);
    let line = *b.known.lines.iter().min().unwrap();
    let mut bytes = b.bytes();
    bytes[8] = udaje_of_length(line, LONGEST);
    let records = bytes[8].iter().filter(|&&b| b == b'\n').count();
    let last = bytes[8][..LONGEST - 1].iter().rposition(|&b| b == b'\n').unwrap() + 1;
    a.ask(bytes.clone(), FINE, &way("the longest file"), &[], Asked::Some(0));
    let mut other = bytes.clone();
    // a greater line, so that the keys still rise
    let unknown = (line..1_000_000).find(|&l| !(0..b.count(5)).any(|r| b.key(5, r) == [l])).unwrap();
    other[8][last + 1..last + 7].copy_from_slice(&line_text(unknown));
    a.ask(other.clone(), to_nothing(9, records - 1, 1), &way("the longest file"), &[], Asked::Some(0));
    other = bytes.clone();
    other[8][last + 10..last + 19].copy_from_slice(b"000000000");
    a.ask(other, key_used(9, records - 1), &way("the longest file"), &[], Asked::Right);
    bytes[8] = udaje_of_length(line, LONGEST + 1);
    a.ask(bytes.clone(), [1, 9, 0, 0, 0], &way("a file too long by one"), &[], Asked::Some(0));
    for (file, want) in [(4, 4), (12, 9)] {
        a.ask_huge(bytes.clone(), (file, 1 << 32), [1, want, 0, 0, 0], &way("1 before 1, later file"), &[]);
    }
    for file in 1..=13 {
        for length in [LONGEST as u64 + 1, 1 << 32, (1 << 32) + 8, (1 << 33) + 1] {
            a.ask_huge(b.bytes(), (file, length), [1, file, 0, 0, 0], &way("a file far too long"), &[0, 1, 2]);
        }
    }
    let b = Batch::arranged(&mut m, &SMALL, Order::Shuffled);
    let hint: Vec<u32> = (0..4_000_000).map(|_| m.r.below(3000) as u32).collect();
    a.lend(&b.bytes());
    a.lend_hint(&hint);
    a.link.letter(b'k');
    let words = verdict(&b.bytes(), FINE);
    a.link.expect(Call::Check { batch: Arc::new(b.bytes()), huge: None, hint: Arc::new(hint), kind: KINDS[9], ways: Arc::new(Vec::new()) }, &words);
}

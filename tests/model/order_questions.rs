//! The questions on the order of a batch. Where a batch was made here, its order is known from its records too, and the model has to say the same before the
//! library is asked.

use std::sync::Arc;

use crate::asker::Asker;
use crate::batch_faults::{broken, edit, fault, files_for, same_key, Fault};
use crate::batch_met::Met;
use crate::batches::{number, shuffle, written, written_for, Batch, Order, KEY_FIELDS, SMALL};
use crate::faults::sample;
use crate::format::{writing, Record};
use crate::generator::Random;
use crate::hints::{right, OWN};
use crate::link::{Link, Report};
use crate::links::{first_fault, verdict, Bytes};
use crate::maker::Maker;
use crate::order::{all_shown, shown, Meant, ROOMS};

/// Which rooms a batch is asked with.
#[derive(Clone, Copy, PartialEq, Eq)]
enum Rooms {
    /// All of them, with every placing.
    Each,
    /// All of them, each with one placing.
    ByTurns,
    /// What is needed.
    Exact,
}

/// The order of a batch as its records say it: of those that are left the least key, and of equal ones the first, is taken again and again.
fn by_records(b: &Batch) -> Vec<u32> {
    let mut all = Vec::new();
    for file in 2..=10 {
        let keys: Vec<Vec<u64>> = (0..b.count(file)).map(|row| b.key(file, row)).collect();
        let length = |row: usize| writing(&[b.texts(file, row).clone()]).len() as u32;
        let begins: Vec<u32> = (0..keys.len()).scan(0, |at, row| Some(std::mem::replace(at, *at + length(row)))).collect();
        if (1..keys.len()).all(|row| keys[row - 1] < keys[row]) {
            continue;
        }
        let mut left: Vec<usize> = (0..keys.len()).collect();
        while !left.is_empty() {
            let least = (0..left.len()).fold(0, |best, i| if keys[left[i]] < keys[left[best]] { i } else { best });
            all.push(begins[left.remove(least)]);
        }
    }
    all
}

/// Asks for the order of a batch, and with `own` for the check with the order that the library makes.
fn ask(a: &mut Asker, bytes: Bytes, rooms: Rooms, own: bool, way: &str) {
    a.lend(&bytes);
    let fault = first_fault(&bytes);
    let (meant, words) = (Meant::of(fault, right(&bytes)), verdict(&bytes, fault));
    let batch = Arc::new(bytes);
    let mut ways = shown(&batch);
    ways.extend([format!("batches: {}", way), format!("batches by what the check says: {}", fault[0])]);
    let count = if rooms == Rooms::Exact { 1 } else { usize::MAX };
    for room in meant.rooms().into_iter().take(count) {
        if rooms == Rooms::Each {
            ways.push(format!("the list at its end, its address by 8: {}", if room.1 % 2 == 0 { 0 } else { 4 }));
        }
        a.order(&batch, &meant, room, rooms == Rooms::Each, std::mem::take(&mut ways));
    }
    if let (Meant::InOrder(order), true) = (&meant, own) {
        a.check_in_order(&batch, &words, order.len() + order.len() % 3);
    }
}

fn ask_batch(a: &mut Asker, b: &Batch, rooms: Rooms, own: bool, way: &str) {
    let bytes = b.bytes();
    assert_eq!(right(&bytes), Some(by_records(b)), "the model on the order of a batch: {}", way);
    ask(a, bytes, rooms, own, way);
}

fn texts(fields: &[&str]) -> Record {
    fields.iter().map(|t| t.as_bytes().to_vec()).collect()
}

/// A stop, 38 bytes with the key, the town and the state left out.
fn stop(key: &str) -> Record {
    texts(&[key, "A", "", "", "", "SK", "", "", "", "", "", ""])
}

/// A time code, 29 bytes with its three numbers left out.
fn time_code(key: &[&str]) -> Record {
    texts(&[key, &["10", "5", "", "", ""]].concat())
}

fn only(files: &[(usize, Vec<Record>)]) -> Bytes {
    let mut bytes = vec![Vec::new(); 13];
    bytes[0] = writing(&[texts(&["1.8"])]);
    files.iter().for_each(|(file, records)| bytes[file - 1] = writing(records));
    bytes
}

/// Orders that were worked out by hand.
pub fn small_facts(link: &mut Link) {
    let mut a = Asker::new(link, 91);
    let lists = only(&[
        (2, vec![stop("10"), stop("9"), stop("010")]),
        (3, vec![texts(&["00002", "X", ""]), texts(&["1", "+", ""]), texts(&["2", "1", ""])]),
        (9, vec![texts(&["000001", "2", "t"]), texts(&["000001", "10", "t"])]),
        (10, vec![time_code(&["000001", "1", "2"]), time_code(&["000001", "1", "1"])]),
    ]);
    assert_eq!(right(&lists), Some(vec![43, 0, 85, 17, 0, 30, 37, 0]), "the model on an order by hand");
    ask(&mut a, lists, Rooms::Each, true, "by hand");
    let rising = only(&[(2, vec![stop("0"), stop("001"), stop("2")]), (4, Vec::new())]);
    assert_eq!(right(&rising), Some(Vec::new()), "the model on an order by hand");
    ask(&mut a, rising, Rooms::Each, true, "by hand");
    ask(&mut a, only(&[]), Rooms::Each, true, "VerzeJDF alone");
    ask(&mut a, vec![Vec::new(); 13], Rooms::Each, true, "nothing at all");
}

/// The samples, as they are and with the records of each file in the other direction.
pub fn samples(link: &mut Link) {
    let mut a = Asker::new(link, 92);
    let folders = ["good".to_string()].into_iter().chain((2..=11).map(|n| format!("refusal-{}", n)));
    for folder in folders {
        let bytes: Bytes = (1..=13).map(|file| sample(&format!("samples/{}", folder), file)).collect();
        ask(&mut a, bytes.clone(), Rooms::Each, true, "the samples");
        let turned = |b: &Vec<u8>| b.split_inclusive(|&c| c == b'\n').rev().collect::<Vec<&[u8]>>().concat();
        ask(&mut a, bytes.iter().map(turned).collect(), Rooms::Each, true, "the samples, turned");
    }
}

/// Every list of so many of these.
fn every_list(of: usize, length: usize) -> Vec<Vec<usize>> {
    (0..length).fold(vec![Vec::new()], |all, _| all.iter().flat_map(|list| (0..of).map(move |i| [&list[..], &[i]].concat())).collect())
}

/// Few records in every order: up to five stops with keys that are different, and with two or three that are; up to four time codes whose keys differ in one number.
pub fn few_records(link: &mut Link) {
    let mut a = Asker::new(link, 93);
    let mut r = Random::new(93);
    for length in 1..=5 {
        for list in every_list(length, length) {
            let different = (0..length).all(|i| list.contains(&i));
            if !different && list.iter().any(|&i| i > 2) {
                continue;
            }
            let records = list.iter().map(|&i| stop(&String::from_utf8(written(&mut r, [9, 10, 11, 100, 101][i], 9)).unwrap())).collect();
            ask(&mut a, only(&[(2, records)]), Rooms::Exact, length < 4, "few stops in every order");
        }
    }
    let keys = [["000001", "1", "1"], ["000001", "1", "12"], ["000001", "2", "01"], ["000002", "1", "1"]];
    for length in 2..=4 {
        for list in every_list(4, length) {
            let records = list.iter().map(|&i| time_code(&keys[i])).collect();
            ask(&mut a, only(&[(10, records)]), Rooms::Exact, length < 3, "few time codes in every order");
        }
    }
}

/// A batch whose files rise but for these, which fall, or else stand in one of the other ways and may rise by chance.
fn with_files(m: &mut Maker, files: &[u64], all_fall: bool) -> Batch {
    let mut b = Batch::arranged(m, &SMALL, Order::Rising);
    for &file in files {
        let order = if all_fall { Order::Falling } else { [Order::Falling, Order::Shuffled, Order::Nearly][m.r.below(3)] };
        b.arrange_file(&mut m.r, file, order);
    }
    b
}

/// No file that doesn't rise, each alone, so many of them, and all nine.
pub fn which_files(link: &mut Link) {
    let mut m = Maker::new(94);
    let mut a = Asker::new(link, 94);
    for turn in 0..3 {
        let b = with_files(&mut m, &[], true);
        ask_batch(&mut a, &b, Rooms::Each, true, "rising keys");
        for file in 2..=10 {
            let b = with_files(&mut m, &[file], turn == 0);
            ask_batch(&mut a, &b, if turn == 0 { Rooms::Each } else { Rooms::ByTurns }, turn == 1, "one file in another order");
        }
    }
    for turn in 0..16 {
        let mut files: Vec<u64> = (2..=10).collect();
        shuffle(&mut m.r, &mut files);
        files.truncate(2 + turn % 8);
        let b = with_files(&mut m, &files, turn < 8);
        ask_batch(&mut a, &b, Rooms::ByTurns, turn < 8, "several files in another order");
    }
    for order in [Order::Falling, Order::Shuffled] {
        let b = Batch::arranged(&mut m, &SMALL, order);
        ask_batch(&mut a, &b, Rooms::Each, true, "all files in another order");
    }
}

/// Record `row` gets the key of record `like`, written anew.
fn give_key(m: &mut Maker, b: &mut Batch, file: u64, row: usize, like: usize) {
    for field in 1..=KEY_FIELDS[file as usize] {
        let n = number(&b.texts(file, like)[field - 1]);
        b.files[file as usize][row].texts[field - 1] = written_for(&mut m.r, file, field, n);
    }
}

/// A key twice and more often, side by side and apart, in files that rise otherwise and in such as don't: the records of one key by offset.
pub fn equal_keys(link: &mut Link) {
    let mut m = Maker::new(95);
    let mut a = Asker::new(link, 95);
    for file in 2..=10 {
        for turn in 0..6 {
            let mut b = Batch::arranged(&mut m, &SMALL, if turn < 4 { Order::Rising } else { Order::Shuffled });
            let last = b.count(file) - 1;
            match turn {
                0 => give_key(&mut m, &mut b, file, 1, 0),
                1 => give_key(&mut m, &mut b, file, last, last - 1),
                2 => give_key(&mut m, &mut b, file, last, 0),
                3 | 4 => (1..=last).for_each(|row| give_key(&mut m, &mut b, file, row, 0)),
                _ => [1, last].iter().for_each(|&row| give_key(&mut m, &mut b, file, row, 0)),
            }
            ask_batch(&mut a, &b, if turn == 0 { Rooms::Each } else { Rooms::ByTurns }, turn % 2 == 0, "equal keys in one file");
        }
    }
    for order in [Order::Rising, Order::Shuffled] {
        let mut b = Batch::arranged(&mut m, &SMALL, order);
        for file in 2..=10 {
            let count = b.count(file);
            (1..count).filter(|row| row % 2 == 1).for_each(|row| give_key(&mut m, &mut b, file, row, row - 1));
        }
        ask_batch(&mut a, &b, Rooms::Each, true, "equal keys in all files");
    }
}

/// Keys whose digits are otherwise in order than their values, either way round.
pub fn as_written(link: &mut Link) {
    let mut m = Maker::new(96);
    let mut a = Asker::new(link, 96);
    for file in [2, 3, 6, 7, 8, 9, 10] {
        for (numbers, falls) in [(&["9", "10", "0011", "100"][..], false), (&["10", "100", "11", "9"], true), (&["001", "01", "1"], true), (&["1", "01"], true)] {
            let mut b = Batch::arranged(&mut m, &SMALL, Order::Rising);
            let rows = &mut b.files[file as usize];
            rows.truncate(numbers.len());
            let last = KEY_FIELDS[file as usize];
            let line = rows[0].texts.clone();
            for (row, n) in rows.iter_mut().zip(numbers) {
                row.texts[..last - 1].clone_from_slice(&line[..last - 1]);
                row.texts[last - 1] = n.as_bytes().to_vec();
            }
            assert_eq!(right(&b.bytes()).map(|o| o.is_empty()), Some(!falls), "the model on keys as they are written");
            ask_batch(&mut a, &b, Rooms::ByTurns, true, "keys by value and as written");
        }
    }
}

/// Batches with each of 1 to 6: refused, whatever room there is. With each of 7 to 11: put in order, as far as their keys go.
pub fn refused(link: &mut Link) {
    let mut m = Maker::new(97);
    let mut a = Asker::new(link, 97);
    for number in 1..=11 {
        let files = files_for(number);
        for turn in 0..files.len().clamp(4, 9) {
            let (b, f) = loop {
                let b = Batch::arranged(&mut m, &SMALL, [Order::Shuffled, Order::Falling, Order::Rising][turn % 3]);
                if let Some(f) = fault(&mut m, &b, number, files[turn % files.len()], None) {
                    break (b, f);
                }
            };
            ask_fault(&mut a, &b, &f, turn);
        }
    }
}

fn ask_fault(a: &mut Asker, b: &Batch, f: &Fault, turn: usize) {
    let (bytes, huge, want) = broken(b, &[f]);
    let rooms = if turn < 2 { Rooms::Each } else { Rooms::ByTurns };
    match huge {
        Some(huge) => {
            let (meant, batch) = (Meant::of(want, None), Arc::new(bytes));
            let mut ways = vec![format!("batches by what the check says: {}", want[0])];
            a.lend(&batch);
            for room in meant.rooms() {
                a.order_huge(&batch, huge, &meant, room, std::mem::take(&mut ways));
            }
        }
        None => {
            assert_eq!(first_fault(&bytes), want, "the model on a batch with one fault");
            ask(a, bytes, rooms, true, "one fault");
        }
    }
}

/// Large files in another order: one of them, and one whose keys are there twice.
pub fn large(link: &mut Link) {
    let mut m = Maker::new(98);
    let mut a = Asker::new(link, 98);
    let mut sizes = SMALL;
    sizes[9] = 2000;
    sizes[2] = 1200;
    let mut b = Batch::arranged(&mut m, &sizes, Order::Shuffled);
    ask_batch(&mut a, &b, Rooms::ByTurns, true, "large files");
    b.arrange_file(&mut m.r, 2, Order::Falling);
    b.arrange_file(&mut m.r, 9, Order::Rising);
    for row in 0..200 {
        let f = same_key(&mut m.r, &b, 9, 1999 - row, row * 3, false);
        edit(&mut b, &f);
    }
    ask_batch(&mut a, &b, Rooms::Exact, true, "large files");
}

/// What a run must have met besides numbers and rooms.
fn ways() -> Vec<String> {
    let mut all = all_shown();
    let made = [
        "by hand", "VerzeJDF alone", "nothing at all", "the samples", "the samples, turned", "few stops in every order", "few time codes in every order", "rising keys",
        "one file in another order", "several files in another order", "all files in another order", "equal keys in one file", "equal keys in all files",
        "keys by value and as written", "one fault", "large files",
    ];
    all.extend(made.map(|way| format!("batches: {}", way)));
    all.extend((0..=11).map(|n| format!("batches by what the check says: {}", n)));
    all.extend([0, 4].map(|n| format!("the list at its end, its address by 8: {}", n)));
    all
}

/// How often each number of slovdrim_order was met, and how often the check was asked with what it wrote.
pub fn by_number(met: &mut Met, report: &Report) {
    let of = |number: u64| report.tally.iter().filter(|((call, n, _), _)| *call == "slovdrim_order" && *n == number).map(|(_, n)| n).sum::<u64>();
    met.line("slovdrim_order by number", (0..=6).chain([22]).map(|n| (n.to_string(), of(n))).collect());
    let own = report.tally.iter().filter(|((_, _, kind), _)| *kind == OWN).map(|(_, n)| n).sum();
    met.line("slovdrim_check_hinted with the order of slovdrim_order,", vec![("calls".to_string(), own)]);
}

/// Prints how often each number, each room with each number that it can have, and each thing that a batch shows was met.
pub fn told(report: &mut Report) {
    let mut met = Met::default();
    by_number(&mut met, report);
    let checked = |number: u64| report.tally.get(&("slovdrim_check_hinted", number, OWN)).copied().unwrap_or(0);
    met.line("the same by number", [0, 7, 8, 9, 10, 11].map(|n| (n.to_string(), checked(n))).to_vec());
    for (room, numbers) in ROOMS {
        let of = |number: u64| report.tally.get(&("slovdrim_order", number, room)).copied().unwrap_or(0);
        met.line(&format!("slovdrim_order, room: {}, by number", room), numbers.iter().map(|&n| (n.to_string(), of(n))).collect());
    }
    met.ways(report, ways());
    met.finish(report);
}

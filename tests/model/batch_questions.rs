//! The questions on the check, as to keys, links and signs: batches that stand, then faults put in on purpose, one by one.

use crate::asker::{way, Asked, Asker};
use crate::batch_faults::{dangling, key_used, linked_fields, not_permitted, of_trip, plain_links, same_key, signed, to_nothing, with_sign, Fault, Words, FINE};
use crate::batches::{code_fields, line_text, number, signs_for, written, written_for, Batch, Order, Row, KEY_FIELDS, ORDERS, SMALL};
use crate::fields::{name_of, SIGNS};
use crate::format::{writing, ENDS_INSIDE, NOT_LEGAL};
use crate::hints::right;
use crate::link::Link;
use crate::links::{first_fault, Bytes, WRONG_VERSION};
use crate::maker::Maker;
use crate::trips::STOP_RULES;

/// First, last or another record of so many.
fn places(m: &mut Maker, count: usize) -> [usize; 3] {
    [0, m.r.below(count), count - 1]
}

pub fn samples(link: &mut Link) {
    let mut a = Asker::new(link, 31);
    let bytes: Bytes = (1..=13).map(|file| crate::faults::sample("samples/good", file)).collect();
    a.ask(bytes, FINE, &way("the samples"), &[], Asked::All);
}

pub fn standing(link: &mut Link) {
    let mut m = Maker::new(32);
    let mut a = Asker::new(link, 32);
    let nothing = Batch { files: vec![Vec::new(); 14], known: Default::default(), plans: Vec::new() };
    a.ask_batch(&nothing, [WRONG_VERSION, 1, 0, 0, 0], &way("nothing at all"), Asked::All);
    for i in 0..80 {
        let order = ORDERS[i % 5];
        let b = Batch::arranged(&mut m, &SMALL, order);
        a.ask_batch(&b, FINE, &way("it stands"), Asked::All);
    }
    // Down from the last file: what is left stands, since nothing links to what was taken away, but for Pevnykod at last; and trips need their stops.
    for order in ORDERS {
        let mut b = Batch::arranged(&mut m, &SMALL, order);
        for file in [13, 12, 11, 10, 9, 8, 7, 6, 5, 4] {
            b.files[file].clear();
            let (want, name) = if file == 8 || file == 7 { (of_trip(STOP_RULES, 0), "trips without stops") } else { (FINE, "it stands") };
            a.ask_batch(&b, want, &way(name), Asked::Some(3));
        }
        b.files[2].clear();
        a.ask_batch(&b, FINE, &way("it stands"), Asked::Some(3));
        b.files[3].clear();
        a.ask_batch(&b, FINE, &way("VerzeJDF alone"), Asked::Some(3));
    }
}

/// The first link to a file that is empty.
fn first_link_to(b: &Batch, target: u64) -> Words {
    for file in 2..=13 {
        for row in 0..b.count(file) {
            for field in linked_fields(file) {
                let text = &b.texts(file, row)[field - 1];
                let to = plain_links(file).iter().find(|l| l.0 == field).map_or(3, |l| l.1);
                let every_trip = file == 13 && field == 2 && text.iter().all(|&d| d == b'0');
                if to == target && !text.is_empty() && !every_trip {
                    return to_nothing(file, row, field);
                }
            }
        }
    }
    FINE
}

/// A batch without one of its files, and what follows.
pub fn without_file(b: &Batch, file: u64) -> (Batch, Words) {
    let mut left = b.clone();
    left.files[file as usize].clear();
    let want = match file {
        1 => [WRONG_VERSION, 1, 0, 0, 0],
        8 => of_trip(STOP_RULES, 0),
        _ => first_link_to(&left, file),
    };
    (left, want)
}

pub fn missing_files(link: &mut Link) {
    let mut m = Maker::new(33);
    let mut a = Asker::new(link, 33);
    for order in ORDERS {
        for file in 1..=13 {
            let b = Batch::arranged(&mut m, &SMALL, order);
            let (left, want) = without_file(&b, file);
            a.ask_batch(&left, want, &way("a file is missing"), Asked::Some(4));
        }
    }
}

pub fn versions(link: &mut Link) {
    let mut m = Maker::new(34);
    let mut a = Asker::new(link, 34);
    let texts: [&[u8]; 19] = [
        b"", b"1", b"1.", b"1.7", b"1.9", b"1.80", b"1.8 ", b" 1.8", b"01.8", b"1,8", b"1.8\"", b"\"1.8", b"\"1.8\"", b"1.81", b"11.8", b"2.8", b"1.8.", b"1 8", b"8.1",
    ];
    for t in texts {
        let b = Batch::arranged(&mut m, &SMALL, Order::Mixed);
        a.ask_faults(&b, &[&Fault::Version(vec![t.to_vec()])], Some([WRONG_VERSION, 1, 1, 1, 0]), &way("VerzeJDF: another text"), Asked::Some(4));
    }
    for count in [0, 2, 3, 200] {
        for t in [&b"1.8"[..], b"1.7"] {
            let b = Batch::arranged(&mut m, &SMALL, Order::Mixed);
            let way = if count == 0 { "VerzeJDF: no record" } else { "VerzeJDF: several records" };
            a.ask_faults(&b, &[&Fault::Version(vec![t.to_vec(); count])], Some([WRONG_VERSION, 1, 0, 0, 0]), &[way.to_string()], Asked::Some(4));
        }
    }
    // bytes that aren't legal come before the version, also its own
    for t in [&b"1.8"[..], b"1.7", b""] {
        let b = Batch::arranged(&mut m, &SMALL, Order::Mixed);
        let whole = writing(&[vec![t.to_vec()]]);
        for end in 1..whole.len() {
            let mut bytes = b.bytes();
            bytes[0].truncate(0);
            bytes[0].extend(&whole[..end]);
            a.ask(bytes.clone(), [ENDS_INSIDE, 1, 0, 0, end as u64], &way("3 before 4, same file"), &[], Asked::Some(4));
            bytes[0].push(0x81);
            a.ask(bytes, [NOT_LEGAL, 1, 0, 0, end as u64], &way("2 before 4, same file"), &[], Asked::Some(4));
        }
    }
}

/// A key twice, in every file that has keys.
pub fn keys(link: &mut Link) {
    let mut m = Maker::new(35);
    let mut a = Asker::new(link, 35);
    for file in 2..=10 {
        for i in 0..30 {
            let b = Batch::arranged(&mut m, &SMALL, ORDERS[i % 5]);
            let count = b.count(file);
            let free: Vec<usize> = (0..count).filter(|&row| b.free(file, row)).collect();
            let row = free[m.r.below(free.len())];
            let (like, name) = match i / 5 % 3 {
                0 => (if row + 1 < count && (row == 0 || m.r.one_in(2)) { row + 1 } else { row - 1 }, "near"),
                1 => (if row < count / 2 { count - 1 } else { 0 }, "far"),
                _ => ((row + 1 + m.r.below(count - 1)) % count, "anywhere"),
            };
            let alike = m.r.one_in(3);
            let f = same_key(&mut m.r, &b, file, row, like, alike);
            let written = if alike { "written as it was" } else { "written anew" };
            let ways: Vec<String> = [name, written].iter().map(|w| format!("{}: a key twice, {}", name_of(file), w)).collect();
            a.ask_faults(&b, &[&f], None, &ways, Asked::Some(6));
        }
        // one record more, a copy of another, at every place: the copy is refused, or the record that it stands before
        let b = Batch::arranged(&mut m, &SMALL, Order::Mixed);
        for to in 0..=b.count(file) {
            let mut more = b.clone();
            let from = m.r.below(b.count(file));
            let mut copy = b.files[file as usize][from].clone();
            for field in 1..=KEY_FIELDS[file as usize] {
                let n = number(&copy.texts[field - 1]);
                copy.texts[field - 1] = written_for(&mut m.r, file, field, n);
            }
            more.files[file as usize].insert(to, copy);
            let later = if to <= from { from + 1 } else { to };
            a.ask_batch(&more, key_used(file, later), &[format!("{}: a record more", name_of(file))], Asked::Some(3));
        }
        // only one number of the key is another record's: no fault
        for field in 2..=KEY_FIELDS[file as usize] {
            for i in 0..5 {
                let mut b = Batch::arranged(&mut m, &SMALL, ORDERS[i]);
                let mut want = FINE;
                if file == 6 {
                    // one trip more, which has no stops
                    let (from, to) = (m.r.below(b.count(6)), m.r.below(b.count(6) + 1));
                    let copy = Row { needed: false, ..b.files[6][from].clone() };
                    b.files[6].insert(to, copy);
                    want = of_trip(STOP_RULES, to);
                }
                let row = b.files[file as usize].iter().position(|r| !r.needed).unwrap();
                let keys: Vec<Vec<u64>> = (0..b.count(file)).map(|r| b.key(file, r)).collect();
                let own = keys[row].clone();
                let other = keys.iter().map(|k| k[field - 1]).find(|&n| {
                    let mut k = own.clone();
                    k[field - 1] = n;
                    !keys.contains(&k)
                });
                if let (Some(n), true) = (other, file != 8 && (file != 10 || field == 3)) {
                    b.files[file as usize][row].texts[field - 1] = written(&mut m.r, n, 9);
                    a.ask_batch(&b, want, &way("half a key twice"), Asked::Some(5));
                }
            }
        }
    }
}

/// A link to nothing, in every linked field of every file: in the first record, the last and another.
pub fn links(link: &mut Link) {
    let mut m = Maker::new(36);
    let mut a = Asker::new(link, 36);
    for file in 2..=13 {
        for field in linked_fields(file) {
            for i in 0..5 {
                for which in 0..3 {
                    let b = Batch::arranged(&mut m, &SMALL, ORDERS[i]);
                    let row = places(&mut m, b.count(file))[which];
                    let f = dangling(&mut m.r, &b, file, row, field);
                    let name = format!("{}: a link to nothing in the {} record", name_of(file), ["first", "middle", "last"][which]);
                    a.ask_faults(&b, &[&f], None, &[name], Asked::Some(4));
                }
            }
        }
    }
}

/// Codes: none at all, 0 there and 0 missing, 0 written in every way.
pub fn codes(link: &mut Link) {
    let mut m = Maker::new(37);
    let mut a = Asker::new(link, 37);
    for file in [2, 6, 7, 8, 11] {
        for field in code_fields(file) {
            for digits in 0..=5 {
                let mut b = loop {
                    let b = Batch::arranged(&mut m, &SMALL, ORDERS[digits % 5]);
                    if (0..b.count(3)).all(|row| b.key(3, row) != [0]) {
                        break b;
                    }
                };
                let at = m.r.below(b.count(file));
                b.files[file as usize][at].texts[field - 1] = vec![b'0'; digits];
                if digits == 0 {
                    a.ask_batch(&b, FINE, &[format!("{} {}: an empty code", name_of(file), field)], Asked::Some(2));
                    continue;
                }
                a.ask_batch(&b, to_nothing(file, at, field), &[format!("{} {}: code 0, not there", name_of(file), field)], Asked::Some(2));
                // a code that nobody needs becomes 0
                let row = b.files[3].iter().position(|r| !r.needed).unwrap();
                b.files[3][row].texts[0] = vec![b'0'; 1 + m.r.below(5)];
                let sign = m.r.pick(&signs_for(file));
                b.files[3][row].texts[1] = vec![sign];
                if file == 8 {
                    b.files[8][at].texts[12 - field] = Vec::new();
                }
                a.ask_batch(&b, with_sign(&b, file, at, sign), &[format!("{} {}: code 0, there", name_of(file), field)], Asked::Some(2));
            }
        }
        // no record has a code
        let mut b = Batch::arranged(&mut m, &SMALL, Order::Mixed);
        for row in &mut b.files[file as usize] {
            code_fields(file).iter().for_each(|f| row.texts[f - 1].clear());
        }
        a.ask_batch(&b, FINE, &way("no codes at all"), Asked::All);
    }
}

/// Every sign in every code field of every file; in Zasspoje every two signs.
pub fn signs(link: &mut Link) {
    let mut m = Maker::new(38);
    let mut a = Asker::new(link, 38);
    for file in [2, 6, 7, 8, 11] {
        for field in code_fields(file) {
            for (i, &sign) in SIGNS.iter().enumerate() {
                let b = Batch::arranged(&mut m, &SMALL, ORDERS[i % 5]);
                let row = places(&mut m, b.count(file))[i % 3];
                let f = signed(&mut m.r, &b, file, row, field, sign);
                let stands = if signs_for(file).contains(&sign) { "permitted" } else { "not permitted" };
                a.ask_faults(&b, &[&f], None, &[format!("{} {}: a sign {}", name_of(file), field, stands)], Asked::Some(3));
            }
        }
    }
    two_signs(&mut a, &mut m);
}

/// Every two signs in a record of Zasspoje; one sign that is permitted by each two numbers that have it.
fn two_signs(a: &mut Asker, m: &mut Maker) {
    let permitted = signs_for(8);
    for (i, &first) in SIGNS.iter().enumerate() {
        let whole = Batch::arranged(m, &SMALL, ORDERS[i % 5]);
        for &second in SIGNS {
            let mut numbers = vec![(whole.known.code(&mut m.r, first), whole.known.code(&mut m.r, second))];
            if first == second && permitted.contains(&first) {
                let all: Vec<u64> = whole.known.codes.iter().filter(|c| c.1 == first).map(|c| c.0).collect();
                numbers = all.iter().flat_map(|&one| all.iter().map(move |&other| (one, other))).collect();
            }
            for (one, other) in numbers {
                let mut b = whole.clone();
                let row = m.r.below(b.count(8));
                b.files[8][row].texts[5] = written(&mut m.r, one, 5);
                b.files[8][row].texts[6] = written(&mut m.r, other, 5);
                let (want, name) = if !permitted.contains(&first) {
                    (not_permitted(8, row, 6), "Zasspoje: the first sign not permitted")
                } else if !permitted.contains(&second) {
                    (not_permitted(8, row, 7), "Zasspoje: the second sign not permitted")
                } else if first != second {
                    (not_permitted(8, row, 7), "Zasspoje: two different signs")
                } else if one != other {
                    (FINE, "Zasspoje: one sign by two numbers")
                } else {
                    (FINE, "Zasspoje: one number twice")
                };
                let asked = if permitted.contains(&first) && permitted.contains(&second) { Asked::Some(5) } else { Asked::Some(0) };
                a.ask_batch(&b, want, &way(name), asked);
            }
        }
    }
}

/// A code number twice in Pevnykod, with different signs: the first record has the sign, and a sign not permitted in Zastavky comes before the key.
pub fn codes_twice(link: &mut Link) {
    let mut m = Maker::new(39);
    let mut a = Asker::new(link, 39);
    for i in 0..120 {
        let mut b = Batch::arranged(&mut m, &SMALL, ORDERS[i % 5]);
        let good = m.r.pick(&signs_for(2));
        let others: Vec<u8> = SIGNS.iter().copied().filter(|s| !signs_for(2).contains(s)).collect();
        let bad = m.r.pick(&others);
        let code = b.known.code(&mut m.r, good);
        let home = (0..b.count(3)).find(|&r| b.key(3, r) == [code]).unwrap();
        let row = m.r.below(b.count(2));
        let field = 7 + m.r.below(6);
        // no other stop has this code
        for stop in &mut b.files[2] {
            for f in 7..=12 {
                if !stop.texts[f - 1].is_empty() && number(&stop.texts[f - 1]) == code {
                    stop.texts[f - 1].clear();
                }
            }
        }
        let used = i % 3 > 0;
        if used {
            b.files[2][row].texts[field - 1] = written(&mut m.r, code, 5);
        }
        let before = i % 2 == 0;
        let to = if before { m.r.below(home + 1) } else { home + 1 + m.r.below(b.count(3) - home) };
        let mut second = b.files[3][home].clone();
        second.texts[0] = written(&mut m.r, code, 5);
        second.texts[1] = vec![bad];
        b.files[3].insert(to, second);
        let (want, name) = match (used, before) {
            (true, true) => (not_permitted(2, row, field), "a code twice: Zastavky's 9 by the first record"),
            (true, false) => (key_used(3, to), "a code twice: Pevnykod's 7, the first record permitted"),
            (false, _) => (key_used(3, if before { home + 1 } else { to }), "a code twice: Pevnykod's 7, used by no stop"),
        };
        a.ask_batch(&b, want, &way(name), Asked::Some(5));
    }
}

pub fn seats(link: &mut Link) {
    let mut m = Maker::new(40);
    let mut a = Asker::new(link, 40);
    for i in 0..40 {
        let b = Batch::arranged(&mut m, &SMALL, ORDERS[i % 5]);
        let row = m.r.below(b.count(13));
        let lines: Vec<u64> = (0..b.count(5)).map(|r| b.key(5, r)[0]).collect();
        let unknown = (0..1_000_000).rev().find(|l| !lines.contains(l)).unwrap();
        let line = lines[m.r.below(lines.len())];
        let set = |line: u64, trip: Vec<u8>| {
            let mut c = b.clone();
            c.files[13][row].texts[0] = line_text(line);
            c.files[13][row].texts[1] = trip;
            c
        };
        let zeros = vec![b'0'; 1 + i % 9];
        a.ask_batch(&set(line, zeros.clone()), FINE, &way("Mistenky: trip 0"), Asked::Some(3));
        a.ask_batch(&set(unknown, zeros), to_nothing(13, row, 1), &way("Mistenky: trip 0 of an unknown line"), Asked::Some(3));
        let (own, trip) = b.known.trips[m.r.below(b.known.trips.len())];
        if trip != 0 {
            let text = written(&mut m.r, trip, 9);
            a.ask_batch(&set(own, text.clone()), FINE, &way("Mistenky: a trip"), Asked::Some(3));
            a.ask_batch(&set(unknown, text.clone()), to_nothing(13, row, 1), &way("Mistenky: a trip of an unknown line"), Asked::Some(3));
            if let Some(&other) = lines.iter().find(|&&l| !(0..b.count(6)).any(|r| b.key(6, r) == [l, trip])) {
                a.ask_batch(&set(other, text), to_nothing(13, row, 2), &way("Mistenky: another line's trip"), Asked::Some(3));
            }
        }
    }
}

/// Digits changed anywhere: what follows is left to the model.
pub fn as_they_fall(link: &mut Link) {
    let mut m = Maker::new(41);
    let mut a = Asker::new(link, 41);
    for i in 0..300 {
        let b = Batch::arranged(&mut m, &SMALL, ORDERS[i % 5]);
        let before = right(&b.bytes()).unwrap();
        let mut bytes = b.bytes();
        for _ in 0..1 + m.r.below(3) {
            let file = 1 + m.r.below(12);
            let at: Vec<usize> = (0..bytes[file].len()).filter(|&i| bytes[file][i].is_ascii_digit()).collect();
            if !at.is_empty() {
                bytes[file][at[m.r.below(at.len())]] = m.r.pick(b"0123456789");
            }
        }
        let want = first_fault(&bytes);
        a.ask(bytes, want, &way("digits as they fall"), &before, Asked::Some(3));
    }
}

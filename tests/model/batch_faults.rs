//! Faults that are put into a batch that stands, each with the refusal and the place that follow from how it was made.

use std::collections::BTreeSet;

use crate::batches::{code_fields, ico_text, line_text, number, signs_for, written, written_for, Batch, KEY_FIELDS};
use crate::damage::{break_field, breaks};
use crate::fields::{NOT_OF_ITS_KIND, RULE_BROKEN, SIGNS};
use crate::format::{ENDS_INSIDE, FIELDS, NOT_LEGAL, TOO_LONG};
use crate::generator::Random;
use crate::links::{Bytes, KEY_USED, LINK_TO_NOTHING, SIGN_NOT_PERMITTED, WRONG_VERSION};
use crate::maker::Maker;
use crate::plans::{any_mark, coded, is_day_sign};
use crate::trip_faults::{day_breaks, other_mark, Damage, DayBreak, STOP_DAMAGE};
use crate::trips::{DAY_RULES, STOP_RULES};

pub type Words = [u64; 5];

pub const FINE: Words = [0; 5];

/// A field of a batch: file, record from 0, field from 1.
pub type Cell = (u64, usize, usize);

#[derive(Clone)]
pub enum Fault {
    /// New texts for some fields. `leans_on`: fields that must stay as they are, or the fault is none.
    Edits { edits: Vec<(Cell, Vec<u8>)>, leans_on: Vec<Cell>, want: Words },
    /// The records of VerzeJDF.
    Version(Vec<Vec<u8>>),
    /// A byte at the beginning of a record that can't stand there.
    Byte { file: u64, row: usize },
    /// The last so many bytes cut off: 1 to 3.
    Cut { file: u64, bytes: usize },
    /// Zero bytes in place of the file, so many that it is too long.
    Huge { file: u64, length: u64 },
}

pub fn key_used(file: u64, row: usize) -> Words {
    [KEY_USED, file, row as u64 + 1, 0, 0]
}

pub fn to_nothing(file: u64, row: usize, field: usize) -> Words {
    [LINK_TO_NOTHING, file, row as u64 + 1, field as u64, 0]
}

pub fn not_permitted(file: u64, row: usize, field: usize) -> Words {
    [SIGN_NOT_PERMITTED, file, row as u64 + 1, field as u64, 0]
}

/// Refusals 10 and 11 of the trip in this record of Spoje.
pub fn of_trip(number: u64, row: usize) -> Words {
    [number, 6, row as u64 + 1, 0, 0]
}

/// Which of two refusals comes first: the stage, then the place.
pub fn rank(want: &Words) -> [u64; 4] {
    let [number, file, record, field, _] = *want;
    match number {
        1 => [1, file, 0, 0],
        2 | 3 => [2, file, 0, 0],
        4 => [3, 0, 0, 0],
        5 => [4, file, record, field],
        6 => [4, file, record, 100],
        7 => [5, file, record, 0],
        8 => [5, file, record, 2 * field],
        9 => [5, file, record, 2 * field + 1],
        _ => [6, file, record, number],
    }
}

/// The links of each file by reported field, and the file that each goes to; the fields of codes are apart.
pub fn plain_links(file: u64) -> Vec<(usize, u64)> {
    match file {
        5 => vec![(3, 4)],
        6 | 9 | 12 => vec![(1, 5)],
        7 => vec![(1, 5), (4, 2)],
        8 => vec![(2, 6), (3, 7), (4, 2)],
        10 => vec![(2, 6)],
        11 => vec![(2, 6), (3, 4)],
        13 => vec![(1, 5), (2, 6)],
        _ => Vec::new(),
    }
}

/// All linked fields of a file.
pub fn linked_fields(file: u64) -> Vec<usize> {
    let mut all: Vec<usize> = plain_links(file).iter().map(|l| l.0).chain(code_fields(file)).collect();
    all.sort();
    all
}

fn first_numbers(b: &Batch, file: u64) -> BTreeSet<u64> {
    (0..b.count(file)).map(|row| b.key(file, row)[0]).collect()
}

/// A number below `end` that isn't in a set: near one that is, or any.
fn missing(r: &mut Random, there: &BTreeSet<u64>, end: u64) -> u64 {
    let all: Vec<u64> = there.iter().copied().collect();
    loop {
        let near = if all.is_empty() { 0 } else { all[r.below(all.len())] };
        let n = match r.below(8) {
            0 => near + 1,
            1 => near.saturating_sub(1),
            2 => near * 10,
            3 => near / 10,
            4 => near + 65_536,
            5 => near % 65_536,
            6 => [0, 1, end - 1][r.below(3)],
            _ => r.below(end as usize) as u64,
        };
        if n < end && !there.contains(&n) {
            return n;
        }
    }
}

/// A number that no record of `to` has together with this line; one that another line has, if there is one.
fn missing_under(r: &mut Random, b: &Batch, to: u64, line: u64) -> u64 {
    let keys: Vec<Vec<u64>> = (0..b.count(to)).map(|row| b.key(to, row)).collect();
    let own: BTreeSet<u64> = keys.iter().filter(|k| k[0] == line).map(|k| k[1]).collect();
    let of_others: Vec<u64> = keys.iter().map(|k| k[1]).filter(|n| !own.contains(n)).collect();
    // 0 would be no trip of Mistenky
    let own: BTreeSet<u64> = own.into_iter().chain([0]).collect();
    let of_others: Vec<u64> = of_others.into_iter().filter(|&n| n > 0).collect();
    if !of_others.is_empty() && !r.one_in(3) {
        of_others[r.below(of_others.len())]
    } else {
        missing(r, &own, 1_000_000_000)
    }
}

/// A link to nothing in one field of one record.
pub fn dangling(r: &mut Random, b: &Batch, file: u64, row: usize, field: usize) -> Fault {
    let cell = |f: usize| (file, row, f);
    let want = to_nothing(file, row, field);
    let one = |text: Vec<u8>| Fault::Edits { edits: vec![(cell(field), text)], leans_on: Vec::new(), want };
    if code_fields(file).contains(&field) {
        let n = missing(r, &first_numbers(b, 3), 100_000);
        return one(written(r, n, 5));
    }
    let line = if file == 5 { 0 } else { number(&b.texts(file, row)[0]) };
    match plain_links(file).iter().find(|l| l.0 == field).unwrap().1 {
        2 => {
            let n = missing(r, &first_numbers(b, 2), 1_000_000_000);
            one(written(r, n, 9))
        }
        4 => one(ico_text(missing(r, &first_numbers(b, 4), 100_000_000))),
        5 => one(line_text(missing(r, &first_numbers(b, 5), 1_000_000))),
        to if to == 6 && file != 13 && r.one_in(3) => {
            // the line instead of the trip: one that isn't there at all, or one that is there but not with this trip
            let trip = number(&b.texts(file, row)[1]);
            let with_it: BTreeSet<u64> = (0..b.count(6)).map(|t| b.key(6, t)).filter(|k| k[1] == trip).map(|k| k[0]).collect();
            let lines: Vec<u64> = first_numbers(b, 5).into_iter().filter(|l| !with_it.contains(l)).collect();
            let other = if lines.is_empty() || r.one_in(2) { missing(r, &first_numbers(b, 5), 1_000_000) } else { lines[r.below(lines.len())] };
            Fault::Edits { edits: vec![(cell(1), line_text(other))], leans_on: vec![cell(2)], want }
        }
        to => {
            let n = missing_under(r, b, to, line);
            Fault::Edits { edits: vec![(cell(field), written(r, n, 9))], leans_on: vec![cell(1)], want }
        }
    }
}

/// Record `row`, which nobody needs before the key is tried, gets the key of record `like`. The later of the two is refused.
pub fn same_key(r: &mut Random, b: &Batch, file: u64, row: usize, like: usize, alike: bool) -> Fault {
    let fields = KEY_FIELDS[file as usize];
    let mut edits: Vec<(Cell, Vec<u8>)> = Vec::new();
    for field in 1..=fields {
        let text = &b.texts(file, like)[field - 1];
        edits.push(((file, row, field), if alike { text.clone() } else { written_for(r, file, field, number(text)) }));
    }
    if file == 3 && row < like {
        edits.push(((3, row, 2), b.texts(3, like)[1].clone()));
    }
    Fault::Edits { edits, leans_on: (1..=fields).map(|f| (file, like, f)).collect(), want: key_used(file, row.max(like)) }
}

/// What a permitted sign in a record leads to: a day sign can't stand beside type 3.
pub fn with_sign(b: &Batch, file: u64, row: usize, sign: u8) -> Words {
    if file == 6 && is_day_sign(sign) && b.has_type(b.key(6, row)[0], b.key(6, row)[1], b'3') {
        of_trip(DAY_RULES, row)
    } else {
        FINE
    }
}

/// A code with this sign in one field; permitted or not.
pub fn signed(r: &mut Random, b: &Batch, file: u64, row: usize, field: usize, sign: u8) -> Fault {
    let stands = signs_for(file).contains(&sign);
    let mut edits = vec![((file, row, field), b.known.code_text(r, sign))];
    let mut want = if stands { with_sign(b, file, row, sign) } else { not_permitted(file, row, field) };
    if file == 8 {
        let other = 13 - field;
        let (text, other_sign) = match r.below(3) {
            0 => (Vec::new(), None),
            1 if field == 6 || stands => (b.known.code_text(r, sign), Some(sign)),
            _ => {
                let s = r.pick(&signs_for(8));
                (b.known.code_text(r, s), Some(s))
            }
        };
        if stands && other_sign.map_or(false, |s| s != sign) {
            want = not_permitted(8, row, 7);
        }
        edits.push(((8, row, other), text));
    }
    Fault::Edits { edits, leans_on: Vec::new(), want }
}

/// Two of a trip's Caskody records, and for a day sign its Spoje record, break a day rule. None for a trip that hasn't two.
pub fn day_fault(m: &mut Maker, b: &Batch, row: usize, way: DayBreak) -> Option<Fault> {
    let key = b.key(6, row);
    let rows = b.rows_of_trip(10, key[0], key[1]);
    if rows.len() < 2 {
        return None;
    }
    let [one, other] = way.kinds(&mut m.r);
    let mark = any_mark(&mut m.r);
    let other_mark = if other == 0 { other_mark(&mut m.r, &mark) } else { mark.clone() };
    let mut edits = Vec::new();
    for (at, kind, mark) in [(rows[0], one, mark), (rows[1], if other == 0 { one } else { other }, other_mark)] {
        let days = m.days.len() - 1;
        let record = coded(&mut m.r, kind, &mark, (0, days));
        let texts = m.coded_texts(&record);
        edits.extend((4..).zip(texts).map(|(field, text)| ((10, at, field), text)));
    }
    if let DayBreak::ThreeWith(sign) = way {
        edits.push(((6, row, 3 + m.r.below(10)), b.known.code_text(&mut m.r, sign)));
    }
    let leans_on = vec![(6, row, 1), (6, row, 2), (10, rows[0], 1), (10, rows[0], 2), (10, rows[1], 1), (10, rows[1], 2)];
    Some(Fault::Edits { edits, leans_on, want: of_trip(DAY_RULES, row) })
}

/// A trip's Zasspoje records break a stop rule. None for a trip whose stops give no room for it.
pub fn stop_fault(m: &mut Maker, b: &Batch, row: usize, damage: Damage) -> Option<Fault> {
    let key = b.key(6, row);
    let plan = b.plans.iter().find(|p| p.line == key[0] && p.number == key[1])?;
    let mut halts = plan.halts.clone();
    damage(&mut m.r, &mut halts)?;
    let mut edits = Vec::new();
    let mut leans_on = vec![(6, row, 1), (6, row, 2)];
    for at in b.rows_of_trip(8, key[0], key[1]) {
        let tariff = b.key(8, at)[2];
        let h = halts.iter().find(|h| h.tariff == tariff)?;
        edits.extend((8..).zip(m.halt_texts(h)).map(|(field, text)| ((8, at, field), text)));
        leans_on.extend([(8, at, 1), (8, at, 2), (8, at, 3)]);
    }
    Some(Fault::Edits { edits, leans_on, want: of_trip(STOP_RULES, row) })
}

fn differing(b: &Batch, file: u64, row: usize, now: &[Vec<u8>]) -> Vec<(Cell, Vec<u8>)> {
    let before = b.texts(file, row);
    (1..=before.len()).filter(|&f| before[f - 1] != now[f - 1]).map(|f| ((file, row, f), now[f - 1].clone())).collect()
}

/// A text that isn't of its field's kind.
pub fn field_fault(m: &mut Maker, b: &Batch, file: u64, row: usize, field: usize) -> Fault {
    let mut now = b.texts(file, row).clone();
    break_field(m, file, &mut now, field);
    field_fault_with(file, row, field, &now[field - 1])
}

/// The same with this text.
pub fn field_fault_with(file: u64, row: usize, field: usize, text: &[u8]) -> Fault {
    Fault::Edits { edits: vec![((file, row, field), text.to_vec())], leans_on: Vec::new(), want: [NOT_OF_ITS_KIND, file, row as u64 + 1, field as u64, 0] }
}

/// A rule inside a record, broken by one of the sets of `breaks`.
pub fn rule_fault(b: &Batch, file: u64, row: usize, set: usize) -> Fault {
    let mut now = b.texts(file, row).clone();
    for &(field, text) in breaks(file)[set] {
        now[field - 1] = text.to_vec();
    }
    let leans_on = breaks(file).iter().flat_map(|set| set.iter()).map(|&(f, _)| (file, row, f)).collect();
    Fault::Edits { edits: differing(b, file, row, &now), leans_on, want: [RULE_BROKEN, file, row as u64 + 1, 0, 0] }
}

/// A code whose sign can't stand in this field.
pub fn sign_fault(r: &mut Random, b: &Batch, file: u64, row: usize, field: usize) -> Fault {
    let others: Vec<u8> = SIGNS.iter().copied().filter(|s| !signs_for(file).contains(s)).collect();
    let sign = r.pick(&others);
    Fault::Edits { edits: vec![((file, row, field), b.known.code_text(r, sign))], leans_on: Vec::new(), want: not_permitted(file, row, field) }
}

/// Files in which a fault of this number can be.
pub fn files_for(number: u64) -> Vec<u64> {
    match number {
        1..=3 => (1..=13).collect(),
        4 => vec![1],
        5 => (2..=13).collect(),
        6 => (2..=13).filter(|&f| !breaks(f).is_empty()).collect(),
        7 => (2..=10).collect(),
        8 => vec![2, 5, 6, 7, 8, 9, 10, 11, 12, 13],
        9 => vec![2, 6, 7, 8, 11],
        _ => vec![6],
    }
}

/// A fault of this number in this file, in this record if there is a way.
pub fn fault(m: &mut Maker, b: &Batch, number: u64, file: u64, row: Option<usize>) -> Option<Fault> {
    let count = b.count(file);
    if count == 0 && number > 1 && number != 4 {
        return None;
    }
    let at = row.filter(|&r| r < count).unwrap_or_else(|| m.r.below(count.max(1)));
    Some(match number {
        1 => Fault::Huge { file, length: [1 << 24, 1 << 32, (1 << 32) + 8][m.r.below(3)] },
        2 => Fault::Byte { file, row: at },
        3 => Fault::Cut { file, bytes: 1 + m.r.below(3) },
        4 => {
            let all: [&[&[u8]]; 8] = [&[], &[b"1.8", b"1.8"], &[b"1.7"], &[b"1.80"], &[b""], &[b" 1.8"], &[b"1.8", b"1.7"], &[b"1"]];
            Fault::Version(all[m.r.below(8)].iter().map(|t| t.to_vec()).collect())
        }
        5 => {
            let field = 1 + m.r.below(FIELDS[file as usize - 1]);
            field_fault(m, b, file, at, field)
        }
        6 => rule_fault(b, file, at, m.r.below(breaks(file).len())),
        7 => {
            let pairs: Vec<(usize, usize)> = (0..count)
                .flat_map(|i| (0..count).map(move |j| (i, j)))
                .filter(|&(i, j)| i != j && b.free(file, i) && (row.is_none() || i.max(j) == at))
                .collect();
            if pairs.is_empty() {
                return None;
            }
            let (i, j) = pairs[m.r.below(pairs.len())];
            let alike = m.r.one_in(2);
            same_key(&mut m.r, b, file, i, j, alike)
        }
        8 => {
            let fields = linked_fields(file);
            let field = fields[m.r.below(fields.len())];
            dangling(&mut m.r, b, file, at, field)
        }
        10 => {
            let all = day_breaks();
            let way = all[m.r.below(all.len())];
            return day_fault(m, b, at, way);
        }
        11 => {
            let damage = STOP_DAMAGE[m.r.below(STOP_DAMAGE.len())].2;
            return stop_fault(m, b, at, damage);
        }
        _ => {
            let fields = code_fields(file);
            let field = fields[m.r.below(fields.len())];
            sign_fault(&mut m.r, b, file, at, field)
        }
    })
}

/// Whether two faults leave each other alone.
pub fn apart(a: &Fault, b: &Fault) -> bool {
    let whole = |f: &Fault| match f {
        Fault::Edits { .. } => None,
        Fault::Version(_) => Some(1),
        Fault::Byte { file, .. } | Fault::Cut { file, .. } | Fault::Huge { file, .. } => Some(*file),
    };
    match (a, b) {
        // of three records with one key it is the second that is refused
        (Fault::Edits { leans_on: la, want: [KEY_USED, ..], .. }, Fault::Edits { leans_on: lb, want: [KEY_USED, ..], .. }) if la == lb => false,
        (Fault::Edits { edits: ea, leans_on: la, .. }, Fault::Edits { edits: eb, leans_on: lb, .. }) => {
            let edited = |edits: &[(Cell, Vec<u8>)], cell: &Cell| edits.iter().any(|e| e.0 == *cell);
            !eb.iter().map(|e| &e.0).chain(lb).any(|c| edited(ea, c)) && !la.iter().any(|c| edited(eb, c))
        }
        (Fault::Huge { file, .. }, Fault::Edits { edits, .. }) | (Fault::Edits { edits, .. }, Fault::Huge { file, .. }) => edits.iter().all(|e| e.0 .0 != *file),
        // the driver can make one file huge
        (Fault::Huge { .. }, Fault::Huge { .. }) => false,
        _ => whole(a).is_none() || whole(a) != whole(b),
    }
}

pub fn edit(b: &mut Batch, fault: &Fault) {
    match fault {
        Fault::Edits { edits, .. } => {
            for ((file, row, field), text) in edits {
                b.files[*file as usize][*row].texts[field - 1] = text.clone();
            }
        }
        Fault::Version(texts) => {
            let row = b.files[1][0].clone();
            b.files[1] = texts.iter().map(|t| crate::batches::Row { texts: vec![t.clone()], ..row.clone() }).collect();
        }
        _ => (),
    }
}

/// A batch with some faults in it: its bytes, the file that is huge, and the first of the faults, which decides.
pub fn broken(batch: &Batch, faults: &[&Fault]) -> (Bytes, Option<(u64, u64)>, Words) {
    let mut edited = batch.clone();
    faults.iter().for_each(|f| edit(&mut edited, f));
    let mut bytes = edited.bytes();
    let all: Vec<Words> = faults.iter().map(|f| finish(&mut bytes, f)).collect();
    let huge = faults.iter().find_map(|f| if let Fault::Huge { file, length } = f { Some((*file, *length)) } else { None });
    (bytes, huge, all.into_iter().filter(|w| *w != FINE).min_by_key(rank).unwrap_or(FINE))
}

/// What the fault alone leads to; bytes that are damaged are damaged now.
pub fn finish(bytes: &mut Bytes, fault: &Fault) -> Words {
    match fault {
        Fault::Edits { want, .. } => *want,
        Fault::Version(texts) if texts.len() == 1 => [WRONG_VERSION, 1, 1, 1, 0],
        Fault::Version(_) => [WRONG_VERSION, 1, 0, 0, 0],
        Fault::Byte { file, row } => {
            let of_file = &mut bytes[*file as usize - 1];
            // LF stands at the end of a record and nowhere else
            let ends: Vec<usize> = (0..of_file.len()).filter(|&i| of_file[i] == b'\n').collect();
            let at = if *row == 0 { 0 } else { ends[*row - 1] + 1 };
            of_file[at] = b'x';
            [NOT_LEGAL, *file, 0, 0, at as u64]
        }
        Fault::Cut { file, bytes: n } => {
            let of_file = &mut bytes[*file as usize - 1];
            of_file.truncate(of_file.len() - n);
            [ENDS_INSIDE, *file, 0, 0, of_file.len() as u64]
        }
        Fault::Huge { file, .. } => [TOO_LONG, *file, 0, 0, 0],
    }
}

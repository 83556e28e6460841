//! The questions on the fields of a file: legal records of every file, then faults put in on purpose, one by one and in pairs. Where a
//! fault was put is what the model has to say too, before the library is asked.

use std::sync::Arc;

use crate::calendar::Calendar;
use crate::damage::{break_field, break_rule, breaks, damages, edges, WAYS};
use crate::fields::{fields_of_file, first_fault, name_of, rule_names, Kind, NOT_OF_ITS_KIND, RULE_BROKEN};
use crate::format::{permitted_byte, writing, ENDS_INSIDE, FIELDS, LONGEST, NOT_LEGAL, NO_SUCH, TOO_LONG};
use crate::generator::{any_text, damaged, text};
use crate::link::{Aim, Call, Link, Report};
use crate::maker::{put, Maker};
use crate::rules::rule_aims;

pub const FINE: [u64; 5] = [0; 5];

/// All ways in which two faults stand in one file.
const PAIRS: [&str; 9] = [
    "5 before a later record's 5",
    "5 before a later record's 6",
    "6 before a later record's 5",
    "6 before a later record's 6",
    "5 before the same record's 6",
    "5 before the same record's later 5",
    "3 before an earlier record's 6",
    "2 before an earlier record's 5",
    "3 before an earlier record's 5",
];

pub fn at_field(file: u64, record: usize, field: usize) -> [u64; 5] {
    [NOT_OF_ITS_KIND, file, record as u64, field as u64, 0]
}

pub fn at_record(file: u64, record: usize) -> [u64; 5] {
    [RULE_BROKEN, file, record as u64, 0, 0]
}

/// What the model says is expected.
pub fn ask_model(link: &mut Link, file: u64, bytes: Vec<u8>, aims: Vec<Aim>) {
    let words = first_fault(file, &bytes);
    link.letter(b'L');
    link.bytes(&bytes);
    link.letter(b'F');
    link.word(file);
    link.expect(Call::Fields { file, bytes: Arc::new(bytes), aims }, &words);
}

/// What the maker of the bytes says is expected, and the model must say it too.
pub fn ask(link: &mut Link, file: u64, bytes: Vec<u8>, aims: Vec<Aim>, want: [u64; 5]) {
    assert_eq!(first_fault(file, &bytes), want, "the model on file {} {}", file, String::from_utf8_lossy(&bytes[..bytes.len().min(2000)]));
    ask_model(link, file, bytes, aims);
}

/// P7 and P12, as document 01 gives them, in the fields of a file.
pub fn small_facts(link: &mut Link) {
    let mut m = Maker::new(11);
    for (date, want) in [(b"29022000", FINE), (b"29021900", at_field(5, 1, 9))] {
        let mut linka = m.legal(5);
        put(5, &mut linka, 9, date);
        linka[9] = b"31122099".to_vec();
        ask(link, 5, writing(&[linka]), vec![Aim::Field(9)], want);
    }
    println!("P7: asked");
    for (time, stands) in [(b"0000", true), (b"2359", true), (b"2360", false), (b"2400", false)] {
        for field in [9, 10] {
            let mut stop = m.legal(8);
            put(8, &mut stop, field, time);
            ask(link, 8, writing(&[stop]), vec![Aim::Field(field as u64)], if stands { FINE } else { at_field(8, 1, field) });
        }
    }
    println!("P12: asked");
}

/// No records, one, several, of each file; numbers that name no file.
pub fn legal_files(link: &mut Link) {
    let mut m = Maker::new(12);
    for file in 1..=13 {
        ask(link, file, Vec::new(), Vec::new(), FINE);
        for i in 0..600 {
            let count = if i % 100 == 0 { 200 } else { 1 + m.r.below(5) };
            let records = m.legals(file, count);
            let aims = if count == 1 { rule_aims(file, &records[0]) } else { Vec::new() };
            ask(link, file, writing(&records), aims, FINE);
        }
    }
    for t in [&b""[..], b"1.8", b"1.7", b"1.80", b" ", b"|", &[b'x'; 3000]] {
        ask(link, 1, writing(&[vec![t.to_vec()]]), Vec::new(), FINE);
        ask(link, 1, writing(&[vec![t.to_vec()], vec![b"1.8".to_vec()]]), Vec::new(), FINE);
    }
    for file in [0, 14, 15, 256, 257, 258, 264, (1 << 32) + 8, 1 << 63, u64::MAX - 7, u64::MAX] {
        for bytes in [Vec::new(), writing(&m.legals(8, 2)), b"no file at all".to_vec()] {
            ask(link, file, bytes, Vec::new(), [NO_SUCH, 0, 0, 0, 0]);
        }
    }
}

/// Every field at the edges of its kind, then damaged in every way.
pub fn every_field(link: &mut Link) {
    let mut m = Maker::new(13);
    for file in 2..=13 {
        for (i, field) in fields_of_file(file).into_iter().enumerate() {
            let number = i + 1;
            for text in edges(file, number, field) {
                let (count, at) = m.place();
                let mut records = m.legals(file, count);
                put(file, &mut records[at - 1], number, &text);
                ask(link, file, writing(&records), vec![Aim::Field(number as u64)], FINE);
            }
            for again in 0..2 {
                for (way, text) in damages(&mut m, field) {
                    let (count, at) = if again == 0 { (1, 1) } else { m.place() };
                    let mut records = m.legals(file, count);
                    records[at - 1][i] = text;
                    ask(link, file, writing(&records), vec![Aim::Field(number as u64), Aim::Way(way)], at_field(file, at, number));
                }
            }
        }
    }
}

/// Every byte that a text may hold, in place of every byte of every field that is no text.
pub fn every_byte(link: &mut Link) {
    let mut m = Maker::new(14);
    for file in 2..=13 {
        for (i, field) in fields_of_file(file).into_iter().enumerate() {
            if matches!(field.kind, Kind::Text(_)) {
                continue;
            }
            let digits_only = matches!(field.kind, Kind::Digits(..) | Kind::Date);
            let good = match field.kind {
                Kind::Digits(_, to) => m.digits(to),
                _ => m.given(field),
            };
            let mut record = m.legal(file);
            put(file, &mut record, i + 1, &good);
            for at in 0..good.len() {
                for b in (0..=255).filter(|&b| permitted_byte(b)) {
                    record[i] = good.clone();
                    record[i][at] = b;
                    let bytes = writing(&[record.clone()]);
                    if digits_only && !b.is_ascii_digit() {
                        ask(link, file, bytes, vec![Aim::Field(i as u64 + 1)], at_field(file, 1, i + 1));
                    } else {
                        ask_model(link, file, bytes, Vec::new());
                    }
                }
            }
        }
    }
}

/// Dates and times by their digits. Which are real is asked of the calendar that was written down day by day.
pub fn dates_and_times(link: &mut Link) {
    let mut m = Maker::new(15);
    let calendar = Calendar::new();
    let mut date_in = |link: &mut Link, file: u64, field: usize, day: u64, month: u64, year: u64| {
        let mut record = m.legal(file);
        put(file, &mut record, field, format!("{:02}{:02}{:04}", day, month, year).as_bytes());
        // the field before it, where the same date was put, would be the first to be refused
        let first = if (file, field) == (5, 8) || (file, field) == (5, 10) || (file, field) == (10, 7) || (file, field) == (11, 13) { field - 1 } else { field };
        let real = calendar.day(day, month, year)[0] == 0;
        ask(link, file, writing(&[record]), vec![Aim::Field(first as u64)], if real { FINE } else { at_field(file, 1, first) });
    };
    for year in [1900, 2000, 2001] {
        for month in 0..=99 {
            for day in 0..=99 {
                date_in(link, 5, 7, day, month, year);
            }
        }
    }
    for year in 0..=9999 {
        date_in(link, 5, 9, 29, 2, year);
        date_in(link, 5, 7, 31, 12, year);
    }
    for (file, field) in [(5, 7), (5, 8), (5, 9), (5, 10), (10, 6), (10, 7), (11, 12), (11, 13)] {
        for year in [1899, 1900, 1904, 1999, 2000, 2096, 2099, 2100] {
            for month in 0..=13 {
                for day in [0, 1, 27, 28, 29, 30, 31, 32] {
                    date_in(link, file, field, day, month, year);
                }
            }
        }
    }
    for field in [9, 10] {
        for hour in 0..100 {
            for minute in 0..100 {
                let mut record = m.legal(8);
                put(8, &mut record, field, format!("{:02}{:02}", hour, minute).as_bytes());
                let stands = hour <= 23 && minute <= 59;
                ask(link, 8, writing(&[record]), vec![Aim::Field(field as u64)], if stands { FINE } else { at_field(8, 1, field) });
            }
        }
    }
}

/// A fault and where it stands: its record, and the field for 5 or one past the last for 6, so that places compare in the order of the refusals.
#[derive(Clone, Copy, PartialEq, Eq, PartialOrd, Ord)]
struct Place {
    record: usize,
    field: usize,
}

/// Two faults in one file: the record decides, then 5 before 6, then the field.
pub fn two_faults(link: &mut Link) {
    let mut m = Maker::new(17);
    for i in 0..24_000 {
        let file = 2 + i % 12;
        let n = FIELDS[file as usize - 1];
        let count = 1 + m.r.below(5);
        let mut records = m.legals(file, count);
        let has_rules = !breaks(file).is_empty();
        let mut places: Vec<Place> = (0..2)
            .map(|_| Place { record: 1 + m.r.below(count), field: if has_rules && m.r.one_in(2) { n + 1 } else { 1 + m.r.below(n) } })
            .collect();
        places.sort();
        // rules first: a field damaged afterwards stays damaged
        for p in places.iter().rev() {
            let record = &mut records[p.record - 1];
            if p.field > n {
                break_rule(&mut m, file, record);
            } else {
                break_field(&mut m, file, record, p.field);
            }
        }
        let (first, second) = (places[0], places[1]);
        let pair = match (first.field > n, second.field > n, first.record == second.record) {
            (false, false, false) => Some(PAIRS[0]),
            (false, true, false) => Some(PAIRS[1]),
            (true, false, false) => Some(PAIRS[2]),
            (true, true, false) => Some(PAIRS[3]),
            (false, true, true) => Some(PAIRS[4]),
            (false, false, true) if first.field < second.field => Some(PAIRS[5]),
            _ => None,
        };
        let want = if first.field > n { at_record(file, first.record) } else { at_field(file, first.record, first.field) };
        ask(link, file, writing(&records), pair.map(Aim::Way).into_iter().collect(), want);
    }
}

/// Bytes that aren't legal come before any field, wherever they stand.
pub fn bytes_before_fields(link: &mut Link) {
    let mut m = Maker::new(18);
    for i in 0..2600 {
        let file = 1 + i % 13;
        let n = FIELDS[file as usize - 1];
        let count = 1 + m.r.below(4);
        let mut records = m.legals(file, count);
        let ways = if file == 1 {
            (Vec::new(), Vec::new())
        } else if !breaks(file).is_empty() && m.r.one_in(2) {
            break_rule(&mut m, file, &mut records[0]);
            (vec![Aim::Way(PAIRS[6])], Vec::new())
        } else {
            let field = 1 + m.r.below(n);
            break_field(&mut m, file, &mut records[0], field);
            (vec![Aim::Way(PAIRS[8])], vec![Aim::Way(PAIRS[7])])
        };
        let bytes = writing(&records);
        let end = bytes.len() - 1 - m.r.below(3);
        ask(link, file, bytes[..end].to_vec(), ways.0, [ENDS_INSIDE, file, 0, 0, end as u64]);
        let mut other = bytes.clone();
        let last = bytes.len() - 1;
        other[last] = b'x';
        ask(link, file, other, ways.1, [NOT_LEGAL, file, 0, 0, last as u64]);
    }
    // Damage anywhere, and texts of all sorts in place of one: here the model alone says what comes.
    for i in 0..20_000 {
        let file = 1 + i % 13;
        let count = m.r.below(5);
        let records = m.legals(file, count);
        let bytes = damaged(&mut m.r, &writing(&records));
        ask_model(link, file, bytes, Vec::new());
    }
    for i in 0..20_000 {
        let file = 1 + i % 13;
        let count = 1 + m.r.below(3);
        let mut records = m.legals(file, count);
        let (at, field) = (m.r.below(count), m.r.below(FIELDS[file as usize - 1]));
        records[at][field] = text(&mut m.r, 12);
        ask_model(link, file, writing(&records), Vec::new());
    }
    for i in 0..5000 {
        let bytes = any_text(&mut m.r, 40);
        ask_model(link, 1 + i % 13, bytes, Vec::new());
    }
}

/// Udaje of exactly so many bytes, all its fields of their kinds.
fn udaje_of_length(length: usize) -> Vec<u8> {
    let record = |text: usize| writing(&[vec![b"790123".to_vec(), b"1".to_vec(), vec![0xec; text]]]);
    let around = record(0).len();
    let full = record(254);
    let mut bytes = Vec::with_capacity(length);
    while length - bytes.len() > 2 * full.len() {
        bytes.extend(&full);
    }
    let half = (length - bytes.len()) / 2;
    bytes.extend(record(half - around));
    bytes.extend(record(length - bytes.len() - around));
    assert_eq!(bytes.len(), length);
    bytes
}

/// Many records, with the fault in the last; every date of the calendar in one file; around the longest file.
pub fn long_files(link: &mut Link) {
    let mut m = Maker::new(19);
    let ask_long = |link: &mut Link, file: u64, bytes: &[u8], want: [u64; 5]| {
        assert_eq!(first_fault(file, bytes), want, "the model on a long file {}", file);
        link.letter(b'L');
        link.bytes(bytes);
        link.letter(b'F');
        link.word(file);
        // a report shows the beginning of the bytes: enough to know which of these files it was
        link.expect(Call::Fields { file, bytes: Arc::new(bytes[..500].to_vec()), aims: Vec::new() }, &want);
        link.flush();
    };
    for file in 2..=13 {
        let mut records = m.legals(file, 3000);
        ask_long(link, file, &writing(&records), FINE);
        if !breaks(file).is_empty() {
            let last = records[2999].clone();
            break_rule(&mut m, file, &mut records[2999]);
            ask_long(link, file, &writing(&records), at_record(file, 3000));
            records[2999] = last;
        }
        let field = FIELDS[file as usize - 1];
        break_field(&mut m, file, &mut records[2999], field);
        ask_long(link, file, &writing(&records), at_field(file, 3000, field));
    }
    let mut all = Vec::new();
    for day in 0..m.days.len() {
        let mut record = m.legal(5);
        let date = m.written(day);
        put(5, &mut record, 9, &date);
        all.push(record);
    }
    let many = all.len();
    ask_long(link, 5, &writing(&all), FINE);
    all[many - 1][9] = b"30122099".to_vec();
    ask_long(link, 5, &writing(&all), at_record(5, many));

    let longest = udaje_of_length(LONGEST);
    ask_long(link, 9, &longest, FINE);
    let mut other = longest.clone();
    let last = longest[..LONGEST - 1].iter().rposition(|&b| b == b'\n').unwrap() + 1;
    other[last + 3] = b'x';
    let records = longest.iter().filter(|&&b| b == b'\n').count();
    ask_long(link, 9, &other, at_field(9, records, 1));
    let too_long = udaje_of_length(LONGEST + 1);
    link.letter(b'L');
    link.bytes(&too_long);
    let shown = Arc::new(too_long[..500].to_vec());
    for file in 0..=14 {
        link.letter(b'F');
        link.word(file);
        let words = if (1..=13).contains(&file) { [TOO_LONG, file, 0, 0, 0] } else { [NO_SUCH, 0, 0, 0, 0] };
        assert_eq!(first_fault(file, &too_long), words);
        link.expect(Call::Fields { file, bytes: shown.clone(), aims: Vec::new() }, &words);
    }
    for length in [1 << 24, 1 << 32, (1 << 32) + 8] {
        for file in 0..=14 {
            let words = if (1..=13).contains(&file) { [TOO_LONG, file, 0, 0, 0] } else { [NO_SUCH, 0, 0, 0, 0] };
            link.letter(b'E');
            link.word(file);
            link.word(length);
            link.expect(Call::HugeFields { file, length }, &words);
        }
    }
}

pub fn sample(folder: &str, file: u64) -> Vec<u8> {
    let path = format!("{}/{}.txt", folder, name_of(file));
    std::fs::read(&path).unwrap_or_else(|e| panic!("{}: {}", path, e))
}

/// Whether the model accepts every file of a folder; says which it doesn't.
pub fn samples_stand(folder: &str) -> bool {
    let mut all = true;
    for file in 1..=13 {
        let words = first_fault(file, &sample(folder, file));
        if words != FINE {
            println!("{}/{}.txt: number {} file {} record {} field {} at {}", folder, name_of(file), words[0], words[1], words[2], words[3], words[4]);
            all = false;
        }
    }
    all
}

pub fn samples(link: &mut Link) {
    for file in 1..=13 {
        ask(link, file, sample("samples/good", file), Vec::new(), FINE);
    }
}

/// Every number that a file must have met.
fn numbers(file: u64) -> Vec<u64> {
    let mut all = vec![0, TOO_LONG, NOT_LEGAL, ENDS_INSIDE];
    if file > 1 {
        all.push(NOT_OF_ITS_KIND);
    }
    if !rule_names(file).is_empty() {
        all.push(RULE_BROKEN);
    }
    all
}

/// Prints how often each file met each number, each field and rule its refusal and none, and each way of damage its refusal; what was never met is a
/// fault of the run, unless differences have kept it from being met.
pub fn told(report: &mut Report) {
    let tally = |number: u64, name: &'static str| report.tally.get(&("slovdrim_fields", number, name)).copied().unwrap_or(0);
    let count = |file: u64, number: u64, aim: Aim| report.aims.get(&(file, number, aim)).copied().unwrap_or(0);
    let over_all = |aim: Aim| report.aims.iter().filter(|((_, _, a), _)| *a == aim).map(|(_, n)| n).sum::<u64>();
    let mut never = Vec::new();
    println!("  no such file: 20: {}", tally(NO_SUCH, ""));
    if tally(NO_SUCH, "") == 0 {
        never.push("20".to_string());
    }
    for file in 1..=13 {
        let line: Vec<String> = numbers(file).iter().map(|&n| format!("{}: {}", n, tally(n, name_of(file)))).collect();
        println!("  {:<9} {}", name_of(file), line.join(", "));
        never.extend(numbers(file).iter().filter(|&&n| tally(n, name_of(file)) == 0).map(|n| format!("{} {}", name_of(file), n)));
    }
    for file in 2..=13 {
        let fields = FIELDS[file as usize - 1] as u64;
        for (number, what) in [(NOT_OF_ITS_KIND, "5 at field"), (0, "0 with an edge at field")] {
            let counts: Vec<u64> = (1..=fields).map(|f| count(file, number, Aim::Field(f))).collect();
            let line: Vec<String> = counts.iter().enumerate().map(|(i, n)| format!("{}: {}", i + 1, n)).collect();
            println!("  {:<9} {} {}", name_of(file), what, line.join(", "));
            never.extend(counts.iter().enumerate().filter(|(_, &n)| n == 0).map(|(i, _)| format!("{} {} {}", name_of(file), what, i + 1)));
        }
        for rule in rule_names(file) {
            let (broken, kept) = (count(file, RULE_BROKEN, Aim::Rule(rule)), count(file, 0, Aim::Rule(rule)));
            println!("  {:<9} {}: 6 for it alone {}, 0 with it kept {}", name_of(file), rule, broken, kept);
            if broken == 0 || kept == 0 {
                never.push(format!("{} {}: broken {}, kept {}", name_of(file), rule, broken, kept));
            }
        }
    }
    for way in WAYS.iter().chain(&PAIRS) {
        let n = over_all(Aim::Way(way));
        println!("  {:<44} {:>8}", way, n);
        if n == 0 {
            never.push(way.to_string());
        }
    }
    if report.differences > 0 {
        return;
    }
    for n in never {
        report.differs(&format!("never met: {}", n));
    }
}

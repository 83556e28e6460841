//! What a field may just hold and what it can't, written out kind by kind; and what breaks the rules inside a record.

use crate::fields::{fields_of_file, Field, Kind};
use crate::format::{permitted_byte, Record};
use crate::maker::Maker;

/// All ways in which one field is damaged; a run must meet each.
pub const WAYS: [&str; 21] = [
    "empty though required",
    "a digit too many",
    "a digit too few",
    "far too many digits",
    "another byte among digits",
    "blanks and signs beside digits",
    "| or < where it can't stand",
    "a text too long by one",
    "a text far too long",
    "another byte than the choices",
    "a choice with a byte more",
    "not a real date",
    "a year outside 1900-2099",
    "a date of another form",
    "not a time",
    "a time of another form",
    "| or < with a byte more",
    "29 February of no leap year",
    "31 of a short month",
    "2400",
    "2360",
];

/// Dates in rising order. Compared as they are written, they would stand otherwise.
pub const RISING: [&[u8]; 18] = [
    b"01011900", b"31011900", b"01021900", b"28021900", b"01031900", b"31121999", b"01012000", b"29022000", b"01032000", b"30112000", b"01122000", b"31012001",
    b"01022001", b"10062001", b"31122001", b"01012002", b"30122099", b"31122099",
];

pub const SHORT_MONTHS: [&[u8]; 4] = [b"31042001", b"31062001", b"31092001", b"31112001"];

/// Texts at the edges of what a field may hold.
pub fn edges(file: u64, number: usize, field: Field) -> Vec<Vec<u8>> {
    let mut all: Vec<Vec<u8>> = Vec::new();
    let mut add = |t: &[u8]| all.push(t.to_vec());
    if !field.required {
        add(b"");
    }
    match field.kind {
        _ if (file, number) == (10, 4) => [&b"O"[..], b"m", b"M", b"[", b"p", b"10", b"19", b"20", b"45", b"70", b"79"].iter().for_each(|t| add(t)),
        Kind::Digits(from, to) => {
            for length in from..=to {
                add(&vec![b'0'; length]);
                add(&vec![b'9'; length]);
                add(&b"012345678"[..length]);
                add(&b"987654321"[..length]);
                add(&[&vec![b'0'; length - 1][..], b"1"].concat());
            }
        }
        Kind::Text(most) => {
            for b in (0..=255).filter(|&b| permitted_byte(b)) {
                add(&[b]);
            }
            for b in *b"a \",|0\xec\x9a\xff\x80" {
                if b != b',' || most > 1 {
                    add(&vec![b; most]);
                    add(&vec![b; most - 1 + (most == 1) as usize]);
                }
            }
        }
        Kind::OneOf(choices) => choices.iter().for_each(|&c| add(&[c])),
        Kind::Date => {
            RISING.iter().for_each(|t| add(t));
            [&b"29021904"[..], b"29022000", b"29022096", b"28022001", b"30042001", b"30062001", b"30092001", b"30112001", b"31032001", b"31052001", b"31072001"]
                .iter()
                .for_each(|t| add(t));
            [&b"31082001"[..], b"31102001", b"31122001", b"12122012", b"11111911"].iter().for_each(|t| add(t));
        }
        Kind::Time => [&b"0000"[..], b"2359", b"0059", b"2300", b"1959", b"0959", b"1000", b"2000", b"|", b"<"].iter().for_each(|t| add(t)),
    }
    all
}

/// Texts that a field can't hold, each with the way in which it was made.
pub fn damages(m: &mut Maker, field: Field) -> Vec<(&'static str, Vec<u8>)> {
    let mut all: Vec<(&'static str, Vec<u8>)> = Vec::new();
    let good = m.given(field);
    let mut add = |way: &'static str, t: &[u8]| all.push((way, t.to_vec()));
    if field.required {
        add("empty though required", b"");
    }
    let among = |t: &[u8], add: &mut dyn FnMut(&'static str, &[u8])| {
        for at in 0..t.len() {
            for b in *b"/:aOl -+.,\"|<\xa0\xa7\xb2\xb9" {
                let mut other = t.to_vec();
                other[at] = b;
                add("another byte among digits", &other);
            }
        }
    };
    match field.kind {
        Kind::Digits(from, to) => {
            for d in [&b"0000000000"[..], b"1234567890", b"9999999999"] {
                add("a digit too many", &d[..to + 1]);
                if from > 1 {
                    add("a digit too few", &d[..from - 1]);
                    add("a digit too few", &d[..1]);
                }
            }
            for length in [20, 255, 256, 256 + to, 300] {
                add("far too many digits", &vec![b'0'; length]);
            }
            add("far too many digits", b"4294967297");
            add("far too many digits", b"18446744073709551617");
            for length in from..=to {
                among(&b"190528364"[..length], &mut add);
            }
            let full = &b"123456789"[..to];
            for beside in [&b" "[..], b"-", b"+", b"\""] {
                add("blanks and signs beside digits", &[beside, full].concat());
                add("blanks and signs beside digits", &[full, beside].concat());
                add("blanks and signs beside digits", &[beside, &full[1..]].concat());
                add("blanks and signs beside digits", &vec![beside[0]; to]);
            }
            add("| or < where it can't stand", b"|");
            add("| or < where it can't stand", b"<");
        }
        Kind::Text(most) => {
            for b in *b"a \"|0\xec\xff" {
                add("a text too long by one", &vec![b; most + 1]);
            }
            let long = [&vec![b' '; most][..], b"\""].concat();
            add("a text too long by one", &long);
            for length in [most + 2, 256, 257, 256 + most, 2 * most, 700, 65_537] {
                if length > most + 1 {
                    add("a text far too long", &vec![b'q'; length]);
                }
            }
        }
        Kind::OneOf(choices) => {
            for b in (0..=255).filter(|b| permitted_byte(*b) && !choices.contains(b)) {
                add(if b == b'|' || b == b'<' { "| or < where it can't stand" } else { "another byte than the choices" }, &[b]);
            }
            for &c in choices {
                for other in [b'0', b' ', c, b'"', choices[0]] {
                    add("a choice with a byte more", &[other, c]);
                    add("a choice with a byte more", &[c, other]);
                }
                add("a choice with a byte more", &vec![c; 257]);
            }
        }
        Kind::Date => {
            for t in [&b"29021900"[..], b"29022001", b"29021999", b"29022098"] {
                add("29 February of no leap year", t);
            }
            for t in SHORT_MONTHS {
                add("31 of a short month", t);
            }
            for t in [&b"30022000"[..], b"31022004", b"32012001", b"00012001", b"01002001", b"01132001", b"00000000", b"99999999", b"31132001", b"12312001", b"01992001"] {
                add("not a real date", t);
            }
            for t in [&b"31121899"[..], b"01012100", b"29022100", b"01010000", b"01019999", b"01011000", b"29021600", b"29022400", b"01013000"] {
                add("a year outside 1900-2099", t);
            }
            for t in [&b"20010610"[..], b"2001-06-10", b"10.6.2001", b"10062001 ", b" 10062001", b"1006200", b"100620010", b"0062001", b"100601", b"1", b"10", b" 1062001"] {
                add("a date of another form", t);
            }
            add("a date of another form", b"010120011");
            add("a date of another form", b"0010062001");
            add("| or < where it can't stand", b"|");
            add("| or < where it can't stand", b"<");
            among(b"10062001", &mut add);
            among(&good, &mut add);
        }
        Kind::Time => {
            add("2400", b"2400");
            add("2360", b"2360");
            for t in [&b"0060"[..], b"9999", b"2459", b"2500", b"3000", b"0099", b"1260", b"0160", b"4000", b"2401"] {
                add("not a time", t);
            }
            for t in [&b"600"[..], b"06:00", b"06000", b"00600", b" 600", b"600 ", b"0600 ", b"6", b"12", b" ", b"06001", b"0", b"000", b"00000", b"06.0", b">", b"-"] {
                add("a time of another form", t);
            }
            for t in [&b"||"[..], b"<<", b"|<", b"<|", b" |", b"| ", b"<0600", b"|0600", b"0600|", b"||||", b"<<<<", b"|060", b"060<", b"\"|"] {
                add("| or < with a byte more", t);
            }
            among(b"0600", &mut add);
            among(b"2359", &mut add);
        }
    }
    all
}

/// Sets of fields that break a rule of their file, whatever else the record holds.
pub fn breaks(file: u64) -> &'static [&'static [(usize, &'static [u8])]] {
    match file {
        2 => &[&[(5, b""), (6, b"CZ")]],
        4 => &[&[(4, b"2"), (5, b"")]],
        5 => &[&[(7, b"02012001"), (8, b"01012001")], &[(9, b"01022001"), (10, b"31012001")]],
        8 => &[
            &[(8, b""), (9, b""), (10, b"0600")],
            &[(8, b"7"), (9, b""), (10, b"<")],
            &[(8, b"7"), (9, b"|"), (10, b"")],
            &[(8, b"7"), (9, b""), (10, b"")],
            &[(8, b"7"), (9, b"0600"), (10, b"|")],
            &[(8, b"7"), (9, b"<"), (10, b"0600")],
        ],
        10 => &[
            &[(4, b"m"), (5, b""), (6, b""), (7, b"01012001")],
            &[(4, b"10"), (5, b"4"), (6, b"02012001"), (7, b"01012001")],
            &[(4, b"80"), (5, b"5"), (6, b""), (7, b"")],
            &[(4, b"79"), (5, b""), (6, b""), (7, b"")],
            &[(4, b"10"), (5, b"1"), (6, b""), (7, b"")],
            &[(4, b"10"), (5, b"3"), (6, b"01012001"), (7, b"01012001")],
            &[(4, b"10"), (5, b"6"), (6, b"01012001"), (7, b"")],
            &[(4, b"10"), (5, b"7"), (6, b"01012001"), (7, b"")],
        ],
        11 => &[
            &[(12, b""), (13, b"01012001")],
            &[(12, b"02012001"), (13, b"01012001")],
            &[(4, b""), (5, b""), (6, b""), (7, b""), (8, b""), (9, b""), (10, b""), (12, b""), (13, b"")],
        ],
        _ => &[],
    }
}

pub fn break_rule(m: &mut Maker, file: u64, record: &mut Record) {
    let all = breaks(file);
    for &(field, text) in all[m.r.below(all.len())] {
        record[field - 1] = text.to_vec();
    }
}

pub fn break_field(m: &mut Maker, file: u64, record: &mut Record, number: usize) {
    let all = damages(m, fields_of_file(file)[number - 1]);
    record[number - 1] = all[m.r.below(all.len())].1.clone();
}

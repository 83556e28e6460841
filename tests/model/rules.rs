//! The questions on the rules inside a record.

use crate::damage::RISING;
use crate::faults::{ask, ask_model, at_record, FINE};
use crate::fields::{fields_of_file, rule_names, rules};
use crate::format::{permitted_byte, permitted_text, writing, Record};
use crate::link::{Aim, Link};
use crate::maker::Maker;

/// The rules that a record is counted for: the one it breaks, if that is one alone; or all that it keeps.
pub fn rule_aims(file: u64, record: &Record) -> Vec<Aim> {
    let texts: Vec<&[u8]> = record.iter().map(|t| &t[..]).collect();
    let said = rules(file, &texts);
    let which = |what: bool| rule_names(file).iter().zip(&said).filter(|(_, &s)| s == Some(what)).map(|(n, _)| Aim::Rule(n)).collect::<Vec<Aim>>();
    let broken = which(false);
    match broken.len() {
        0 => which(true),
        1 => broken,
        _ => Vec::new(),
    }
}

/// A record with these fields set, among others that stand; it keeps its rules or it doesn't.
fn ask_rule(link: &mut Link, m: &mut Maker, file: u64, sets: &[(usize, &[u8])], keeps: bool) {
    let (count, at) = m.place();
    let mut records = m.legals(file, count);
    for &(field, text) in sets {
        records[at - 1][field - 1] = text.to_vec();
    }
    let aims = rule_aims(file, &records[at - 1]);
    ask(link, file, writing(&records), aims, if keeps { FINE } else { at_record(file, at) });
}

/// Each rule, kept and broken. Whether it is kept is written out here case by case.
pub fn every_rule(link: &mut Link) {
    let m = &mut Maker::new(16);
    for _ in 0..20 {
        for state in [&b"CZ"[..], b"cz", b"Cz", b"cZ", b"CZ ", b" CZ", b"CZE", b"C", b"Z", b"ZC", b"SK", b"A"] {
            for district in [&b""[..], b" ", b"T", b"TR", b"CZ", b"TRE"] {
                ask_rule(link, m, 2, &[(5, district), (6, state)], !(state == b"CZ" && district == b""));
            }
        }
        for kind in [&b"1"[..], b"2"] {
            for name in [&b""[..], b" ", b"J", b"Josef \xd8\xedha", &[b'J'; 254]] {
                ask_rule(link, m, 4, &[(4, kind), (5, name)], !(kind == b"2" && name == b""));
            }
        }
    }
    for (i, from) in RISING.iter().enumerate() {
        for (k, to) in RISING.iter().enumerate() {
            let rising = i <= k;
            let (a, z) = (RISING[3], RISING[9]);
            ask_rule(link, m, 5, &[(7, from), (8, to), (9, a), (10, z)], rising);
            ask_rule(link, m, 5, &[(7, b""), (8, b""), (9, from), (10, to)], rising);
            ask_rule(link, m, 5, &[(7, z), (8, b""), (9, from), (10, to)], rising);
            ask_rule(link, m, 5, &[(7, b""), (8, a), (9, from), (10, to)], rising);
            // the licence and the validity have no rule between them
            ask_rule(link, m, 5, &[(7, z), (8, z), (9, from), (10, to)], rising);
            ask_rule(link, m, 5, &[(7, z), (8, a), (9, from), (10, to)], false);
            ask_rule(link, m, 10, &[(4, b"10"), (5, b"1"), (6, from), (7, to)], rising);
            ask_rule(link, m, 10, &[(4, b"79"), (5, b"8"), (6, from), (7, to)], rising);
            ask_rule(link, m, 10, &[(4, b"O"), (5, b""), (6, from), (7, to)], rising);
            ask_rule(link, m, 10, &[(4, &b"OmM[p"[i % 5..i % 5 + 1]), (5, b""), (6, b""), (7, to)], false);
            ask_rule(link, m, 11, &[(4, b"1"), (12, from), (13, to)], rising);
            ask_rule(link, m, 11, &[(4, b"1"), (12, b""), (13, to)], false);
            ask_rule(link, m, 11, &[(4, b""), (5, b""), (6, b""), (7, b""), (8, b""), (9, b""), (10, b""), (12, from), (13, to)], rising);
        }
    }
    stop_rules(link, m);
    time_code_rules(link, m);
    carrier_rules(link, m);
}

fn stop_rules(link: &mut Link, m: &mut Maker) {
    // T stands for a time
    let together = [("", ""), ("T", ""), ("", "T"), ("T", "T"), ("", "|"), ("|", "|"), ("", "<"), ("<", "<")];
    let shape = |t: &[u8]| match t {
        b"" => "",
        b"|" => "|",
        b"<" => "<",
        _ => "T",
    };
    let times = [&b""[..], b"0000", b"0700", b"2359", b"|", b"<"];
    for _ in 0..8 {
        for arrival in times {
            for departure in times {
                for kilometres in [&b""[..], b"0", b"000000000", b"12"] {
                    let (a, d) = (shape(arrival), shape(departure));
                    let asked = a == "T" || d == "T" || a == "|" || d == "|";
                    let keeps = together.contains(&(a, d)) && asked == !kilometres.is_empty();
                    ask_rule(link, m, 8, &[(8, kilometres), (9, arrival), (10, departure)], keeps);
                }
            }
        }
    }
}

fn time_code_rules(link: &mut Link, m: &mut Maker) {
    // from-date alone, both, neither, for each type in turn; the first is for no type
    let (one_or_both, one, both, neither) = ((true, true, false), (true, false, false), (false, true, false), (false, false, true));
    let dates = [(true, true, true), one_or_both, one, one, one_or_both, neither, neither, both, both];
    let marks = [
        &b"O"[..], b"m", b"M", b"[", b"p", b"10", b"11", b"45", b"70", b"79", b"00", b"09", b"80", b"99", b"1", b"9", b"o", b"P", b"]", b"1O", b"O1",
        b"Om", b"O ", b" O", b" 1", b"1 ", b"+1", b"-1", b"7:", b"1/", b"/0", b":0", b"0", b"X",
    ];
    let type_of = |t: usize| if t == 0 { &b""[..] } else { &b"12345678"[t - 1..t] };
    let days = [None, Some(3), Some(8), Some(11)];
    for t in 0..9 {
        let (from_alone, both, neither) = dates[t];
        for from in days {
            for to in days {
                let dated = match (from, to) {
                    (None, None) => neither,
                    (Some(_), None) => from_alone,
                    (Some(f), Some(t)) => both && f <= t,
                    (None, Some(_)) => false,
                };
                for mark in marks {
                    let marked = if t == 0 { b"OmM[p".windows(1).any(|w| w == mark) } else { [&b"10"[..], b"11", b"45", b"70", b"79"].contains(&mark) };
                    let date = |d: Option<usize>| d.map_or(&b""[..], |i| RISING[i]);
                    ask_rule(link, m, 10, &[(4, mark), (5, type_of(t)), (6, date(from)), (7, date(to))], dated && marked);
                }
            }
        }
    }
    for t in [0, 5] {
        for number in 0..100 {
            ask_rule(link, m, 10, &[(4, format!("{:02}", number).as_bytes()), (5, type_of(t)), (6, b""), (7, b"")], t == 5 && (10..80).contains(&number));
        }
        for b in (0..=255).filter(|&b| permitted_byte(b)) {
            ask_rule(link, m, 10, &[(4, &[b]), (5, type_of(t)), (6, b""), (7, b"")], t == 0 && [b'O', b'm', b'M', b'[', b'p'].contains(&b));
            for other in *b"1O70\"" {
                if !permitted_text(&[b, other]) || !permitted_text(&[other, b]) {
                    continue;
                }
                let numbered = |a: u8, z: u8| t == 5 && (b'1'..=b'7').contains(&a) && z.is_ascii_digit();
                ask_rule(link, m, 10, &[(4, &[b, other]), (5, type_of(t)), (6, b""), (7, b"")], numbered(b, other));
                ask_rule(link, m, 10, &[(4, &[other, b]), (5, type_of(t)), (6, b""), (7, b"")], numbered(other, b));
            }
        }
    }
}

fn carrier_rules(link: &mut Link, m: &mut Maker) {
    let periods = [
        (&b""[..], &b""[..], true),
        (b"01072001", b"", true),
        (b"01072001", b"31082001", true),
        (b"", b"31082001", false),
        (b"01092001", b"31082001", false),
    ];
    for codes in 0..64 {
        for kind in [&b""[..], b"5", b"6"] {
            for reserve in [&b""[..], b"x"] {
                for (from, to, dated) in periods {
                    let code = |i: usize| if codes >> i & 1 == 1 { &b"0"[..] } else { b"" };
                    let some = codes != 0 || kind != b"" || from != b"";
                    let mut sets: Vec<(usize, &[u8])> = (0..6).map(|i| (4 + i, code(i))).collect();
                    sets.extend([(10, kind), (11, reserve), (12, from), (13, to)]);
                    for _ in 0..if some { 1 } else { 20 } {
                        ask_rule(link, m, 11, &sets, some && dated);
                    }
                }
            }
        }
    }
}

/// Fields all of their kinds, with no thought for the rules: the model alone says which stand.
pub fn rules_as_they_fall(link: &mut Link) {
    let mut m = Maker::new(20);
    for i in 0..24_000 {
        let file = [2, 4, 5, 8, 10, 11][i % 6];
        let count = 1 + m.r.below(3);
        let mut records = m.legals(file, count);
        let at = m.r.below(count);
        for (k, field) in fields_of_file(file).into_iter().enumerate() {
            records[at][k] = match (file, k + 1) {
                (2, 6) if m.r.one_in(2) => b"CZ".to_vec(),
                (8, 9) | (8, 10) if m.r.one_in(2) => vec![m.r.pick(b"|<")],
                (10, 4) => match m.r.below(4) {
                    0 => m.given(field),
                    1 => vec![m.r.pick(b"OmM[p")],
                    _ => (8 + m.r.below(74)).to_string().into_bytes(),
                },
                (10, 5) if m.r.one_in(2) => m.given(field),
                (11, 4..=10) if !m.r.one_in(8) => Vec::new(),
                _ => m.any(field),
            };
        }
        let aims = if count == 1 { rule_aims(file, &records[0]) } else { Vec::new() };
        ask_model(link, file, writing(&records), aims);
    }
}

//! What decided an answer at the counter, and what a run on sales and names must have met.

use crate::batch_met::Met;
use crate::hints::KINDS;
use crate::link::{Counts, Report};
use crate::plans::{Halt, Plan};
use crate::sales::Question;
use crate::trips::Moment;

/// So many batches at least.
const BATCHES: u64 = 300;

pub fn one_more(counts: &mut Counts, what: String) {
    *counts.entry(what).or_insert(0) += 1;
}

fn is_time(moment: Moment) -> bool {
    matches!(moment, Moment::At(_))
}

/// Which file gives a stop this sign.
fn source(h: &Halt, sign: u8) -> Option<&'static str> {
    if h.own.contains(&sign) {
        Some("Zasspoje")
    } else if h.own.is_empty() && h.of_line.contains(&sign) {
        Some("Zaslinky")
    } else if sign == b'$' && h.of_line.contains(&sign) {
        Some("Zaslinky beside another of Zasspoje")
    } else {
        None
    }
}

/// What stands in the time fields.
fn times(h: &Halt) -> &'static str {
    match (h.arrival, h.departure) {
        (Moment::At(_), Moment::At(_)) => "arrival and departure",
        (Moment::At(_), _) => "an arrival alone",
        (_, Moment::At(_)) => "a departure alone",
        (_, Moment::Bar) => "|",
        (_, Moment::Angle) => "<",
        _ => "nothing",
    }
}

/// Why nobody gets on (`(`) or off (`)`) there.
fn closed(h: &Halt, sign: u8) -> Vec<String> {
    let open = is_time(h.departure) || (sign == b')' && is_time(h.arrival));
    let mut all: Vec<String> = if open { Vec::new() } else { vec![times(h).to_string()] };
    for s in [sign, b'$'] {
        all.extend(source(h, s).map(|file| format!("{} of {}", s as char, file)));
    }
    all
}

/// What a ticket was sold in spite of.
fn sold_though(counts: &mut Counts, first: &Halt, second: &Halt) {
    let put_aside = |h: &Halt, sign: u8| !h.own.is_empty() && !h.own.contains(&sign) && h.of_line.contains(&sign);
    for (what, met) in [
        (") at the first stop", source(first, b')').is_some()),
        ("( at the second stop", source(second, b'(').is_some()),
        ("x at the first stop", source(first, b'x').is_some()),
        ("x at the second stop", source(second, b'x').is_some()),
        ("\u{a7} at the first stop of Zasspoje", source(first, 0xa7) == Some("Zasspoje")),
        ("\u{a7} at the first stop of Zaslinky", source(first, 0xa7) == Some("Zaslinky")),
        ("\u{a7} at the second stop of Zasspoje", source(second, 0xa7) == Some("Zasspoje")),
        ("\u{a7} at the second stop of Zaslinky", source(second, 0xa7) == Some("Zaslinky")),
        ("( of Zaslinky put aside at the first stop", put_aside(first, b'(')),
        (") of Zaslinky put aside at the second stop", put_aside(second, b')')),
        ("\u{a7} of Zaslinky put aside at the first stop, at the second it counts", put_aside(first, 0xa7) && source(second, 0xa7).is_some()),
        ("\u{a7} of Zaslinky put aside at the second stop, at the first it counts", put_aside(second, 0xa7) && source(first, 0xa7).is_some()),
    ] {
        if met {
            one_more(counts, format!("sold though: {}", what));
        }
    }
    one_more(counts, format!("sold, the first stop has: {}", times(first)));
    one_more(counts, format!("sold, the second stop has: {}", times(second)));
}

fn parity(number: u64) -> &'static str {
    if number == 0 {
        "0"
    } else {
        ["even", "odd"][number as usize % 2]
    }
}

/// What a sale of an accepted batch met: the refusals that apply, the first of which is the answer.
pub fn count_sale(counts: &mut Counts, applying: &[u64], plan: Option<&Plan>, q: &Question) {
    let answer = applying.first().copied().unwrap_or(0);
    one_more(counts, format!("a sale's answer: {}", answer));
    if applying.len() == 1 {
        one_more(counts, format!("a refusal alone: {}", answer));
    }
    for other in applying.iter().skip(1) {
        one_more(counts, format!("refusals at once: {} over {}", answer, other));
    }
    let plan = match plan {
        Some(plan) => plan,
        None => return,
    };
    let at = |tariff: u64| plan.halts.iter().find(|h| h.tariff == tariff);
    let (first, second) = (at(q[5]), at(q[6]));
    match (answer, first, second) {
        (14, None, None) if q[5] == q[6] => one_more(counts, "14 by: both stops, one number".to_string()),
        (14, None, None) => one_more(counts, "14 by: both stops".to_string()),
        (14, None, _) => one_more(counts, "14 by: the first stop".to_string()),
        (14, _, None) => one_more(counts, "14 by: the second stop".to_string()),
        (16, ..) => one_more(counts, format!("16 on a trip of number: {}, {}", parity(plan.number), if q[5] == q[6] { "a stop twice" } else { "two stops" })),
        (17, Some(first), _) => of_one(counts, 17, &closed(first, b'(')),
        (18, _, Some(second)) => of_one(counts, 18, &closed(second, b')')),
        (19, Some(first), Some(second)) => one_more(counts, format!("19 by: {} and {}", source(first, 0xa7).unwrap(), source(second, 0xa7).unwrap())),
        (0, Some(first), Some(second)) => {
            one_more(counts, format!("sold on a trip of number: {}", parity(plan.number)));
            sold_though(counts, first, second);
        }
        _ => (),
    }
}

/// A reason for a refusal, if it is the only one.
fn of_one(counts: &mut Counts, number: u64, reasons: &[String]) {
    if let [one] = reasons {
        one_more(counts, format!("{} alone by: {}", number, one));
    }
}

pub fn count_name(counts: &mut Counts, words: &[u64; 6]) {
    one_more(counts, format!("a name's answer: {}", words[0]));
    if words[0] == 24 {
        one_more(counts, format!("24 with how many: {}", if words[5] > 4 { "more".to_string() } else { words[5].to_string() }));
    }
}

/// Every two refusals that can apply at once, as far as the later means something where the earlier applies.
fn at_once() -> Vec<(u64, u64)> {
    let mut all: Vec<(u64, u64)> = (12..=19).flat_map(|a| (a + 1..=19).map(move |b| (a, b))).collect();
    // a date that isn't real is no day on which a trip doesn't run; a trip that isn't there has no stops, and one stop that is missing no sign
    let without = [(12, 15), (13, 17), (13, 18), (13, 19), (14, 19)];
    all.retain(|pair| !without.contains(pair));
    all
}

/// What a run must have met besides numbers and hints.
fn ways() -> Vec<String> {
    let mut all: Vec<String> = Vec::new();
    all.extend((12..=19).chain([0]).map(|n| format!("a sale's answer: {}", n)));
    all.extend([0, 23, 24].map(|n| format!("a name's answer: {}", n)));
    all.extend((0..=11).map(|n| format!("batches: {}", n)));
    all.extend((12..=19).map(|n| format!("a refusal alone: {}", n)));
    all.extend(at_once().iter().map(|(a, b)| format!("refusals at once: {} over {}", a, b)));
    all.extend(["the first stop", "the second stop", "both stops", "both stops, one number"].map(|w| format!("14 by: {}", w)));
    for n in ["odd", "even", "0"] {
        all.extend(["a stop twice", "two stops"].map(|w| format!("16 on a trip of number: {}, {}", n, w)));
        all.push(format!("sold on a trip of number: {}", n));
    }
    let dollar = ["$ of Zaslinky", "$ of Zaslinky beside another of Zasspoje"];
    all.extend(["an arrival alone", "|", "<", "nothing", "( of Zasspoje", "( of Zaslinky"].iter().chain(&dollar).map(|w| format!("17 alone by: {}", w)));
    all.extend(["|", "<", "nothing", ") of Zasspoje", ") of Zaslinky"].iter().chain(&dollar).map(|w| format!("18 alone by: {}", w)));
    for first in ["Zasspoje", "Zaslinky"] {
        all.extend(["Zasspoje", "Zaslinky"].map(|second| format!("19 by: {} and {}", first, second)));
    }
    all.extend([") at the first stop", "( at the second stop", "x at the first stop", "x at the second stop"].map(|w| format!("sold though: {}", w)));
    for stop in ["first", "second"] {
        all.extend(["Zasspoje", "Zaslinky"].map(|file| format!("sold though: \u{a7} at the {} stop of {}", stop, file)));
    }
    all.extend(["( of Zaslinky put aside at the first stop", ") of Zaslinky put aside at the second stop"].map(|w| format!("sold though: {}", w)));
    all.extend([("first", "second"), ("second", "first")].map(|(a, b)| format!("sold though: \u{a7} of Zaslinky put aside at the {} stop, at the {} it counts", a, b)));
    all.extend(["a departure alone", "arrival and departure"].map(|w| format!("sold, the first stop has: {}", w)));
    all.extend(["an arrival alone", "a departure alone", "arrival and departure"].map(|w| format!("sold, the second stop has: {}", w)));
    all.extend(["2", "3", "more"].map(|n| format!("24 with how many: {}", n)));
    all.extend(["exact", "one too few", "two too few", "none", "more"].map(|w| format!("room for the answers: {}", w)));
    all.extend((0..=6).map(|n| format!("numbers after the last question: {}", n)));
    all.extend([0, 1, 2, 3, 9, 3000].map(|n| format!("questions of one call: {}", n)));
    all
}

/// Prints how often each number of each call, each two refusals at once and each kind of hint was met.
pub fn told(report: &mut Report) {
    let mut met = Met::default();
    let calls = |call: &str, number: u64| report.tally.iter().filter(|((c, n, _), _)| *c == call && *n == number).map(|(_, n)| n).sum::<u64>();
    let of_sale: Vec<u64> = (12..=19).collect();
    for (call, own) in [("slovdrim_sale", &of_sale[..]), ("slovdrim_sale_hinted", &of_sale), ("slovdrim_sales", &[22]), ("slovdrim_stop", &[23, 24]), ("slovdrim_stop_hinted", &[23, 24])] {
        let counts = (0..=11).chain(own.iter().copied()).map(|n| (n.to_string(), calls(call, n))).collect();
        met.line(&format!("{} by number", call), counts);
    }
    for call in ["slovdrim_sale_hinted", "slovdrim_sales", "slovdrim_stop_hinted"] {
        let of_kind = |kind: &str| report.tally.iter().filter(|((c, _, k), _)| *c == call && *k == kind).map(|(_, n)| n).sum::<u64>();
        // equal keys are refused, so that few batches have a hint of that kind
        let counts = KINDS[1..].iter().filter(|&&kind| kind != KINDS[12]).map(|&kind| (kind.to_string(), of_kind(kind))).collect();
        met.line(&format!("{}, hint:", call), counts);
    }
    let asked: u64 = (0..=11).map(|n| report.ways.get(&format!("batches: {}", n)).copied().unwrap_or(0)).sum();
    println!("  {} batches", asked);
    met.ways(report, ways());
    if asked < BATCHES && report.differences == 0 {
        report.differs(&format!("{} batches are fewer than {}", asked, BATCHES));
    }
    met.finish(report);
}

//! What decided an answer on a trip, and what a run on trips must have met.

use crate::batch_met::{batches, Met};
use crate::calendar::Calendar;
use crate::hints::KINDS;
use crate::link::Report;
use crate::plans::combinations;
use crate::trip_faults::{day_breaks, STOP_DAMAGE};
use crate::trip_questions::{shown, NEARLY, ONE_MARK};
use crate::trips::{day_rule_names, runs, Moment, Trip, DAY_SIGNS, FIRST_LEAVES, STOP_RULE_NAMES};

/// What the answer on a day hangs on: each type of Caskody record, each day sign, holidays and validity, if without it the answer were another.
pub fn decided_by(trip: &Trip, c: &Calendar, day: u64, holidays: &[u64]) -> Vec<String> {
    let now = runs(trip, c, day, holidays);
    let word = if now { "runs" } else { "doesn't run" };
    let mut ways = Vec::new();
    let mut without = |name: String, change: &dyn Fn(&mut Trip)| {
        let mut other = trip.clone();
        other.stops.clear();
        change(&mut other);
        if runs(&other, c, day, holidays) != now {
            ways.push(format!("{} decides: {}", name, word));
        }
    };
    for kind in b'1'..=b'8' {
        if trip.typed.iter().any(|t| t.kind == kind) {
            without(format!("type {}", kind as char), &|t| t.typed.retain(|t| t.kind != kind));
        }
    }
    for &sign in DAY_SIGNS.iter().filter(|s| trip.signs.contains(s)) {
        without(format!("sign {}", sign as char), &|t| t.signs.retain(|&s| s != sign));
    }
    without("validity".to_string(), &|t| t.valid = ((1900, 1, 1), (2099, 12, 31)));
    if runs(trip, c, day, &[]) != now {
        ways.push(format!("holidays decide: {}", word));
    }
    for kind in b'1'..=b'8' {
        if trip.typed.iter().any(|t| t.kind == kind) {
            ways.push(format!("a trip with type {}: {}", kind as char, word));
        }
    }
    ways
}

/// What of a stop the answer shows.
pub fn told_of_stop(trip: &Trip, nth: usize, words: &[u64; 14]) -> Vec<String> {
    let stop = &trip.stops[nth - 1];
    let times = match (stop.arrival, stop.departure) {
        (Moment::At(_), Moment::At(_)) => "arrival and departure",
        (Moment::At(_), _) => "arrival",
        (_, Moment::At(_)) => "departure",
        (_, Moment::Bar) => "|",
        (_, Moment::Angle) => "<",
        _ => "nothing",
    };
    let parity = if trip.number == 0 { "0" } else { ["even", "odd"][trip.number as usize % 2] };
    let mut ways = vec![format!("times of a stop: {}", times), format!("stops of a trip, its number: {}", parity)];
    let bits = (0..5).filter(|bit| words[11] >> bit & 1 == 1);
    ways.extend(bits.map(|bit| format!("signs of a stop: {}", BITS[bit])));
    if words[11] == 0 {
        ways.push("signs of a stop: none".to_string());
    }
    ways
}

const BITS: [&str; 5] = ["1 (", "2 )", "4 x", "8 \u{a7}", "16 $"];

/// What a run must have met besides numbers and hints.
fn ways() -> Vec<String> {
    let mut all: Vec<String> = ["P11", "it stands", "it stands, with all its files", "validity decides: doesn't run", "holidays decide: runs", "holidays decide: doesn't run"]
        .iter()
        .map(|w| w.to_string())
        .collect();
    all.extend(combinations().iter().map(|kinds| format!("types that go together: {}", shown(kinds))));
    all.extend(day_breaks().iter().map(|b| format!("days broken: {}", b.name())));
    for (name, _, _) in STOP_DAMAGE {
        all.extend([format!("stops broken: {}", name), format!("stops broken, odd trip: {}", name), format!("stops broken, even trip: {}", name)]);
    }
    all.extend(day_rule_names().iter().map(|name| format!("10 alone: {}", name)));
    all.extend(STOP_RULE_NAMES.iter().filter(|&&n| n != FIRST_LEAVES).map(|name| format!("11 alone: {}", name)));
    all.push(format!("11 beside others: {}", FIRST_LEAVES));
    // type 2 lets a trip run, the others keep it from running
    all.extend((1..=8).map(|kind| format!("type {} decides: {}", kind, if kind == 2 { "runs" } else { "doesn't run" })));
    all.extend((1..=8).flat_map(|kind| ["runs", "doesn't run"].map(|word| format!("a trip with type {}: {}", kind, word))));
    all.extend(DAY_SIGNS.iter().flat_map(|&s| ["runs", "doesn't run"].map(|word| format!("sign {} decides: {}", s as char, word))));
    all.extend(["arrival and departure", "arrival", "departure", "|", "<", "nothing"].iter().map(|w| format!("times of a stop: {}", w)));
    all.extend(["0", "even", "odd"].iter().map(|w| format!("stops of a trip, its number: {}", w)));
    all.extend(BITS.iter().chain(&["none"]).map(|w| format!("signs of a stop: {}", w)));
    let two = ["10 and 11 of one trip", "one number of two trips", "10 of a trip, 11 of a later one", "11 of a trip, 10 of a later one"];
    all.extend(two.iter().chain(&["one trip broken", "no trip broken"]).map(|w| format!("several broken: {}", w)));
    all.extend(NEARLY.iter().map(|(name, _)| format!("nearly broken: {}", name)));
    all.push(ONE_MARK.to_string());
    all.extend(["days, it stands", "days, refused", "stops, it stands", "stops, refused"].iter().map(|w| format!("as they fall: {}", w)));
    all.extend(["0", "10", "11"].iter().map(|w| format!("large trips: {}", w)));
    all
}

/// Prints how often each number of each call, each rule of 10 and 11, each type, sign and kind of hint was met.
pub fn told(report: &mut Report) {
    let mut met = Met::default();
    met.line("batches by number", [0, 10, 11].iter().map(|&n| (n.to_string(), batches(report, n, None, None))).collect());
    let calls = |call: &str, number: u64| report.tally.iter().filter(|((c, n, _), _)| *c == call && *n == number).map(|(_, n)| n).sum::<u64>();
    for (call, own) in [("slovdrim_runs", [12, 13]), ("slovdrim_trip_stop", [13, 20])] {
        let counts = (0..=11).chain(own).map(|n| (n.to_string(), calls(call, n))).collect();
        met.line(&format!("{} by number", call), counts);
    }
    for (call, detail) in [("slovdrim_runs", ["runs", "doesn't run"]), ("slovdrim_trip_stop", ["the last", "another"])] {
        let of = |d: &'static str| report.tally.get(&(call, 0, d)).copied().unwrap_or(0);
        met.line(&format!("{} with 0", call), detail.iter().map(|&d| (d.to_string(), of(d))).collect());
    }
    // the last kind is of batches that were damaged after they were made
    met.hints(report, &KINDS[..17], &[0, 10, 11]);
    met.ways(report, ways());
    met.finish(report);
}

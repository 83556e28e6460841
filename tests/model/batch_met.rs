//! What a run on batches must have met.

use std::collections::BTreeMap;

use crate::batch_faults::{files_for, linked_fields};
use crate::batch_pairs::pair_names;
use crate::batches::{code_fields, KEY_FIELDS};
use crate::fields::name_of;
use crate::hints::KINDS;
use crate::link::Report;
use crate::order_questions::by_number;

/// What a run must have met besides numbers, places and hints.
fn ways() -> Vec<String> {
    let mut all: Vec<String> = [
        "the samples", "nothing at all", "it stands", "trips without stops", "VerzeJDF alone", "a file is missing", "VerzeJDF: another text", "VerzeJDF: no record", "VerzeJDF: several records",
        "half a key twice", "no codes at all", "Zasspoje: the first sign not permitted", "Zasspoje: the second sign not permitted", "Zasspoje: two different signs",
        "Zasspoje: one sign by two numbers", "Zasspoje: one number twice", "a code twice: Zastavky's 9 by the first record",
        "a code twice: Pevnykod's 7, the first record permitted", "a code twice: Pevnykod's 7, used by no stop", "Mistenky: trip 0", "Mistenky: trip 0 of an unknown line",
        "Mistenky: a trip", "Mistenky: a trip of an unknown line", "Mistenky: another line's trip", "digits as they fall", "the longest file", "a file too long by one",
        "a file far too long", "1 before 1, later file",
    ]
    .iter()
    .map(|w| w.to_string())
    .collect();
    for file in 2..=13 {
        let name = name_of(file);
        if KEY_FIELDS[file as usize] > 0 {
            all.extend(["near", "far", "anywhere", "written as it was", "written anew"].iter().map(|w| format!("{}: a key twice, {}", name, w)));
            all.push(format!("{}: a record more", name));
            all.push(format!("{}: large, its last key is an earlier one's", name));
        }
        if !linked_fields(file).is_empty() {
            all.extend(["first", "middle", "last"].iter().map(|w| format!("{}: a link to nothing in the {} record", name, w)));
            all.push(format!("{}: large, the last link to nothing", name));
        }
        for field in code_fields(file) {
            let of_a_code = ["an empty code", "code 0, not there", "code 0, there", "a sign permitted", "a sign not permitted"];
            all.extend(of_a_code.iter().map(|w| format!("{} {}: {}", name, field, w)));
        }
        if !code_fields(file).is_empty() {
            all.push(format!("{}: large, the last sign not permitted", name));
        }
        all.push(format!("{}: large, it stands", name));
    }
    all.extend(pair_names());
    all
}

/// Prints what was met, a line for each kind of thing, and keeps what never was.
#[derive(Default)]
pub struct Met {
    never: Vec<String>,
}

impl Met {
    pub fn line(&mut self, what: &str, counts: Vec<(String, u64)>) {
        let words: Vec<String> = counts.iter().map(|(name, n)| format!("{}: {}", name, n)).collect();
        println!("  {} {}", what, words.join(", "));
        self.never.extend(counts.iter().filter(|(_, n)| *n == 0).map(|(name, _)| format!("{} {}", what, name)));
    }

    /// How often each of these kinds of hint was met with each of these numbers.
    pub fn hints(&mut self, report: &Report, kinds: &[&'static str], numbers: &[u64]) {
        for &kind in kinds {
            let calls = |n: u64| ["slovdrim_check", "slovdrim_check_hinted"].iter().map(|c| report.tally.get(&(*c, n, kind)).copied().unwrap_or(0)).sum::<u64>();
            // keys that are equal are refused, so no batch of that kind stands
            let numbers = numbers.iter().filter(|&&n| kind != KINDS[12] || [7, 8, 9].contains(&n));
            let counts: Vec<(String, u64)> = numbers.map(|&n| (n.to_string(), calls(n))).collect();
            if !counts.is_empty() {
                self.line(&format!("calls, hint: {}:", kind), counts);
            }
        }
    }

    /// How often each way was met; those of the list must have been.
    pub fn ways(&mut self, report: &Report, ways: Vec<String>) {
        let mut all: BTreeMap<String, u64> = ways.into_iter().map(|w| (w, 0)).collect();
        for (w, n) in &report.ways {
            *all.entry(w.clone()).or_insert(0) += n;
        }
        // a line for all that begins alike
        let mut lines: BTreeMap<&str, Vec<String>> = BTreeMap::new();
        for (w, n) in &all {
            let (begin, rest) = w.split_once(": ").or_else(|| w.split_once(", ")).unwrap_or(("other batches", w));
            lines.entry(begin).or_default().push(format!("{} {}", rest, n));
        }
        for (begin, rest) in lines {
            println!("  {}: {}", begin, rest.join("; "));
        }
        self.never.extend(all.into_iter().filter(|(_, n)| *n == 0).map(|(w, _)| w));
    }

    /// What was never met is a fault of the run, unless differences have kept it from being met.
    pub fn finish(self, report: &mut Report) {
        if report.differences > 0 {
            return;
        }
        for n in self.never {
            report.differs(&format!("never met: {}", n));
        }
    }
}

/// How many batches were answered with this number, in this file and at this field if they are given.
pub fn batches(report: &Report, number: u64, file: Option<u64>, field: Option<u64>) -> u64 {
    let fits = |(n, f, g): &(u64, u64, u64)| *n == number && file.map_or(true, |x| x == *f) && field.map_or(true, |x| x == *g);
    report.places.iter().filter(|(place, _)| fits(place)).map(|(_, c)| c).sum()
}

/// How often each file's 5 and 7 were met, 8 at each linked field and 9 at each field of a code.
pub fn places(met: &mut Met, report: &Report) {
    for number in [5, 7] {
        let counts = files_for(number).iter().map(|&f| (name_of(f).to_string(), batches(report, number, Some(f), None))).collect();
        met.line(&format!("batches with {} by file", number), counts);
    }
    for (number, fields) in [(8, linked_fields as fn(u64) -> Vec<usize>), (9, code_fields)] {
        for file in files_for(number) {
            let counts = fields(file).iter().map(|&f| (f.to_string(), batches(report, number, Some(file), Some(f as u64)))).collect();
            met.line(&format!("batches with {} in {} at field", number, name_of(file)), counts);
        }
    }
}

/// Prints how often each number, each file's 7, each field's 8 and 9, each kind of hint and each way of damage was met.
pub fn told(report: &mut Report) {
    let mut met = Met::default();
    met.line("batches by number", (0..=11).map(|n| (n.to_string(), batches(report, n, None, None))).collect());
    places(&mut met, report);
    met.hints(report, &KINDS, &[0, 7, 8, 9, 10, 11]);
    by_number(&mut met, report);
    met.ways(report, ways());
    met.finish(report);
}

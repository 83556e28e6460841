//! The check of whole batches by seed, by the plain call and with hints, and what a run of it must have met.

use crate::asker::{Asked, Asker};
use crate::batch_met::{batches, places, Met};
use crate::cases::{self, Case, Each};
use crate::fields::{fields_of_file, kind_names, name_of, rule_names};
use crate::link::{Link, Report};
use crate::maker::Maker;
use crate::order_questions::by_number;
use crate::trips::{day_rule_names, FIRST_LEAVES, STOP_RULE_NAMES};

/// So many batches at least.
const BATCHES: u64 = 2000;

/// Asks each of these: the plain call, no hint, the right one and a wrong one.
fn ask_each(link: &mut Link, seed: u64, make: impl FnOnce(&mut Maker, Each)) {
    let mut a = Asker::new(link, seed);
    make(&mut Maker::new(seed), &mut |case: Case| match case.huge {
        Some(huge) => a.ask_huge(case.batch, huge, case.want, &case.ways, &case.before),
        None => a.ask(case.batch, case.want, &case.ways, &case.before, Asked::Some(1)),
    });
}

pub fn valid(link: &mut Link) {
    ask_each(link, 71, |m, each| cases::valid(m, 300, each));
}

pub fn damaged_once(link: &mut Link) {
    ask_each(link, 72, |m, each| cases::damaged_once(m, 4, each));
}

pub fn damaged_twice(link: &mut Link) {
    ask_each(link, 73, |m, each| cases::damaged_twice(m, 4, 1..=11, each));
}

pub fn damaged_bytes(link: &mut Link) {
    ask_each(link, 74, |m, each| cases::damaged_bytes(m, 350, each));
}

pub fn missing(link: &mut Link) {
    ask_each(link, 75, |m, each| cases::missing(m, 5, each));
}

pub fn too_long(link: &mut Link) {
    ask_each(link, 76, |m, each| cases::too_long(m, 3, each));
}

/// What whole batches must have met besides numbers and places. Numbers from 2 on: a file that is too long can't be damaged otherwise.
pub fn ways() -> Vec<String> {
    let mut all: Vec<String> = ["valid", "damaged once", "damaged twice", "bytes damaged", "files missing"].iter().map(|w| format!("batches: {}", w)).collect();
    all.extend((1..=13).map(|file| format!("missing alone: {}", name_of(file))));
    all.push("missing alone: all".to_string());
    all.extend((2..=11).map(|number| format!("of two faults the earlier: {}", number)));
    for file in 2..=13 {
        for (field, kind) in fields_of_file(file).into_iter().zip(kind_names(file)) {
            all.push(format!("5 by kind: {}", kind));
            if field.required {
                all.push(format!("5 by kind, empty though required: {}", kind));
            }
        }
        all.extend(rule_names(file).iter().map(|rule| format!("6 alone: {}, {}", name_of(file), rule)));
    }
    all.extend(day_rule_names().iter().map(|name| format!("10 alone: {}", name)));
    all.extend(STOP_RULE_NAMES.iter().filter(|&&n| n != FIRST_LEAVES).map(|name| format!("11 alone: {}", name)));
    all.push(format!("11 beside others: {}", FIRST_LEAVES));
    all
}

pub fn told(report: &mut Report) {
    let mut met = Met::default();
    let asked: u64 = report.places.values().sum();
    println!("  {} batches", asked);
    met.line("batches by number", (0..=11).map(|n| (n.to_string(), batches(report, n, None, None))).collect());
    places(&mut met, report);
    by_number(&mut met, report);
    let mut wanted = ways();
    wanted.push("of two faults the earlier: 1".to_string());
    met.ways(report, wanted);
    if asked < BATCHES && report.differences == 0 {
        report.differs(&format!("{} batches are fewer than {}", asked, BATCHES));
    }
    met.finish(report);
}

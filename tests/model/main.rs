//! An independent implementation of document 01, "The batch", "Bytes of a file", "Fields", "Days", "A trip's stops" and the sale, and its comparison with the library.
//!
//!     model compare files|days|fields|links|order|trips|whole|sales DRIVER ARGUMENTS..   ask the driver everything and compare
//!     model program FOLDER PROGRAM ARGUMENTS..                                           run the check program on batches in this folder, which it makes, and compare
//!     model almanac                                                                      every day of the model's own calendar, a line each
//!     model samples FOLDER                                                               whether the model accepts each file of a batch, read by itself
//!
//! SLOVDRIM_SEED is a number that all batches and files by seed begin from; 0 if it isn't set.
//!
//! It was written from document 01 and the tables of document 000 alone. It needs nothing but Rust's standard library.

mod asker;
mod batch_faults;
mod batch_large;
mod batch_met;
mod batch_pairs;
mod batch_questions;
mod batches;
mod calendar;
mod cases;
mod damage;
mod days;
mod faults;
mod fields;
mod files;
mod format;
mod generator;
mod hints;
mod link;
mod links;
mod maker;
mod order;
mod order_questions;
mod plans;
mod program;
mod rules;
mod sale_met;
mod sale_questions;
mod sales;
mod sweep;
mod trip_faults;
mod trip_met;
mod trip_questions;
mod trips;
mod whole;

use std::time::Instant;

use calendar::Calendar;
use link::{Link, Report};

/// Each answer and each refusal that a run must have met: the call, the number, and what is told apart within it.
const FILES_MET: &[(&str, u64, &str)] = &[
    ("slovdrim_records", 0, "no records"),
    ("slovdrim_records", 0, "records"),
    ("slovdrim_records", 1, ""),
    ("slovdrim_records", 2, ""),
    ("slovdrim_records", 3, ""),
    ("slovdrim_records", 20, ""),
    ("slovdrim_stretch", 0, "a text"),
    ("slovdrim_stretch", 0, "an empty text"),
    ("slovdrim_stretch", 1, ""),
    ("slovdrim_stretch", 2, ""),
    ("slovdrim_stretch", 3, ""),
    ("slovdrim_stretch", 20, "file"),
    ("slovdrim_stretch", 20, "record or field"),
    ("slovdrim_write", 0, "a field before others"),
    ("slovdrim_write", 0, "a last field"),
    ("slovdrim_write", 20, "file"),
    ("slovdrim_write", 20, "field"),
    ("slovdrim_write", 21, ""),
    ("slovdrim_write", 22, ""),
    ("rewriting", 0, ""),
    ("rewriting", 22, ""),
    ("swept slovdrim_records", 0, ""),
    ("swept slovdrim_records", 2, ""),
    ("swept slovdrim_records", 3, ""),
    ("swept slovdrim_stretch", 0, ""),
    ("swept slovdrim_stretch", 2, ""),
    ("swept slovdrim_stretch", 3, ""),
    ("swept slovdrim_stretch", 20, ""),
];

const DAYS_MET: &[(&str, u64, &str)] = &[
    ("slovdrim_day", 0, ""),
    ("slovdrim_day", 12, ""),
    ("slovdrim_date", 0, ""),
    ("slovdrim_date", 12, ""),
    ("slovdrim_weekday", 0, "Mon"),
    ("slovdrim_weekday", 0, "Tue"),
    ("slovdrim_weekday", 0, "Wed"),
    ("slovdrim_weekday", 0, "Thu"),
    ("slovdrim_weekday", 0, "Fri"),
    ("slovdrim_weekday", 0, "Sat"),
    ("slovdrim_weekday", 0, "Sun"),
    ("slovdrim_weekday", 12, ""),
    ("slovdrim_week", 0, "odd"),
    ("slovdrim_week", 0, "even"),
    ("slovdrim_week", 12, ""),
    ("slovdrim_holiday", 0, "yes"),
    ("slovdrim_holiday", 0, "no"),
    ("slovdrim_holiday", 12, ""),
    ("slovdrim_fits", 0, "X yes"),
    ("slovdrim_fits", 0, "X no"),
    ("slovdrim_fits", 0, "+ yes"),
    ("slovdrim_fits", 0, "+ no"),
    ("slovdrim_fits", 0, "1-7 yes"),
    ("slovdrim_fits", 0, "1-7 no"),
    ("slovdrim_fits", 0, "no day sign"),
    ("slovdrim_fits", 12, ""),
];

/// The sweeps: file 1 to 11 bytes, file 3 to 16, or to as many as SLOVDRIM_SWEEP says; a record of file 3 has 11 at least.
fn sweeps() -> [(u64, usize, usize, usize); 2] {
    let longest = match std::env::var("SLOVDRIM_SWEEP") {
        Ok(text) => text.parse().expect("SLOVDRIM_SWEEP is a number of bytes"),
        Err(_) => 16,
    };
    [(1, 11, 11, 2), (3, longest, 12, 6)]
}

fn step(report: &mut Report, command: &[String], name: &str, ask: impl FnOnce(&mut Link)) {
    let began = Instant::now();
    let mut link = Link::start(command);
    ask(&mut link);
    let part = link.finish();
    println!("{}: {} compared, {:.1} s", name, part.comparisons, began.elapsed().as_secs_f64());
    report.add(part);
}

fn compare_files(command: &[String]) -> Report {
    let mut report = Report::default();
    let began = Instant::now();
    println!("the model beside itself: {} strings, {:.1} s", files::self_check(), began.elapsed().as_secs_f64());
    step(&mut report, command, "small facts", |l| {
        files::version(l);
        files::small_facts(l);
    });
    step(&mut report, command, "odd file, record and field numbers", files::odd_numbers);
    step(&mut report, command, "legal files with every single change", files::single_changes);
    step(&mut report, command, "random files and damage", files::random_files);
    step(&mut report, command, "files around the longest", files::long_files);
    step(&mut report, command, "the writer", files::writer);
    step(&mut report, command, "rewriting", files::rewriting);
    if report.differences > 0 {
        println!("the sweeps are left out, since there are differences already");
        return report;
    }
    for (file, longest, stretches_to, parts) in sweeps() {
        let name = format!("every beginning and one byte more, file {} to {} bytes", file, longest);
        step(&mut report, command, &name, |l| sweep::sweep(l, file, longest, stretches_to, parts));
    }
    for s in std::mem::take(&mut report.sweeps).iter().take(3) {
        report.add(sweep::closer(command, s));
    }
    report
}

fn compare_days(command: &[String]) -> Report {
    let mut report = Report::default();
    let calendar = Calendar::new();
    step(&mut report, command, "small facts", |l| days::small_facts(l, &calendar));
    step(&mut report, command, "every day", |l| days::every_day(l, &calendar));
    step(&mut report, command, "dates, real and not", |l| days::dates(l, &calendar));
    step(&mut report, command, "holidays and signs", |l| days::holidays(l, &calendar));
    report
}

fn compare_fields(command: &[String]) -> Report {
    let mut report = Report::default();
    step(&mut report, command, "small facts", faults::small_facts);
    step(&mut report, command, "samples", faults::samples);
    step(&mut report, command, "legal files", faults::legal_files);
    step(&mut report, command, "every field at its edges and damaged", faults::every_field);
    step(&mut report, command, "every byte of every field", faults::every_byte);
    step(&mut report, command, "dates and times", faults::dates_and_times);
    step(&mut report, command, "every rule", rules::every_rule);
    step(&mut report, command, "rules as they fall", rules::rules_as_they_fall);
    step(&mut report, command, "two faults", faults::two_faults);
    step(&mut report, command, "bytes before fields", faults::bytes_before_fields);
    step(&mut report, command, "long files", faults::long_files);
    report
}

fn compare_trips(command: &[String]) -> Report {
    let mut report = Report::default();
    step(&mut report, command, "small facts", trip_questions::small_facts);
    step(&mut report, command, "samples", trip_questions::samples);
    step(&mut report, command, "days that go together", trip_questions::permitted_days);
    step(&mut report, command, "every day rule", trip_questions::day_rules);
    step(&mut report, command, "every stop rule", trip_questions::stop_rules);
    step(&mut report, command, "several trips broken", trip_questions::several_broken);
    step(&mut report, command, "nearly broken", trip_questions::near_misses);
    step(&mut report, command, "one mark on several trips", trip_questions::one_mark);
    step(&mut report, command, "stops", trip_questions::stops);
    step(&mut report, command, "no such trip, day or stop", trip_questions::no_such);
    step(&mut report, command, "refused batches", trip_questions::refused);
    step(&mut report, command, "days and times as they fall", trip_questions::as_they_fall);
    step(&mut report, command, "large trips", trip_questions::large_trips);
    report
}

fn compare_links(command: &[String]) -> Report {
    let mut report = Report::default();
    step(&mut report, command, "samples", batch_questions::samples);
    step(&mut report, command, "batches that stand", batch_questions::standing);
    step(&mut report, command, "missing files", batch_questions::missing_files);
    step(&mut report, command, "versions", batch_questions::versions);
    step(&mut report, command, "keys", batch_questions::keys);
    step(&mut report, command, "links", batch_questions::links);
    step(&mut report, command, "codes", batch_questions::codes);
    step(&mut report, command, "signs", batch_questions::signs);
    step(&mut report, command, "a code twice", batch_questions::codes_twice);
    step(&mut report, command, "seat tickets", batch_questions::seats);
    step(&mut report, command, "digits as they fall", batch_questions::as_they_fall);
    step(&mut report, command, "two faults", batch_pairs::two_faults);
    step(&mut report, command, "large files", batch_large::large_files);
    step(&mut report, command, "the longest file and list", batch_large::longest);
    report
}

fn compare_order(command: &[String]) -> Report {
    let mut report = Report::default();
    step(&mut report, command, "small facts", order_questions::small_facts);
    step(&mut report, command, "samples", order_questions::samples);
    step(&mut report, command, "few records", order_questions::few_records);
    step(&mut report, command, "which files", order_questions::which_files);
    step(&mut report, command, "equal keys", order_questions::equal_keys);
    step(&mut report, command, "keys as written", order_questions::as_written);
    step(&mut report, command, "batches with a fault", order_questions::refused);
    step(&mut report, command, "large files", order_questions::large);
    report
}

fn compare_whole(command: &[String]) -> Report {
    let mut report = Report::default();
    step(&mut report, command, "valid", whole::valid);
    step(&mut report, command, "damaged once", whole::damaged_once);
    step(&mut report, command, "damaged twice", whole::damaged_twice);
    step(&mut report, command, "bytes damaged", whole::damaged_bytes);
    step(&mut report, command, "files missing", whole::missing);
    step(&mut report, command, "a file too long", whole::too_long);
    report
}

fn compare_sales(command: &[String]) -> Report {
    let mut report = Report::default();
    step(&mut report, command, "small facts", sale_questions::small_facts);
    step(&mut report, command, "samples", sale_questions::samples);
    step(&mut report, command, "every two stops", sale_questions::pairs);
    step(&mut report, command, "every two signs", sale_questions::signs);
    step(&mut report, command, "all days of a year", sale_questions::years);
    step(&mut report, command, "dates, real and not", sale_questions::unreal_dates);
    step(&mut report, command, "numbers far out", sale_questions::far_numbers);
    step(&mut report, command, "lists of questions", sale_questions::lists);
    step(&mut report, command, "refused batches", sale_questions::refused);
    step(&mut report, command, "batches with all their files", sale_questions::whole);
    step(&mut report, command, "names", sale_questions::names);
    report
}

/// Prints how often each answer was met; one that never was is a fault of the run, unless differences have kept it from being met.
fn told(report: &mut Report, met: &'static [(&'static str, u64, &'static str)], weeks: bool) {
    for key in met {
        report.tally.entry(*key).or_insert(0);
    }
    for ((call, number, detail), n) in &report.tally {
        println!("  {:<24} {:>2} {:<22} {:>11}", call, number, detail, n);
    }
    if report.differences > 0 {
        return;
    }
    let never: Vec<String> = report.tally.iter().filter(|(_, &n)| n == 0).map(|((call, number, detail), _)| format!("{} {} {}", call, number, detail)).collect();
    for n in never {
        report.differs(&format!("never met: {}", n));
    }
    if weeks {
        for week in 1..=53 {
            if !report.weeks.contains_key(&week) {
                report.differs(&format!("never met: week {}", week));
            }
        }
        println!("  {} different week numbers, the rarest {} times", report.weeks.len(), report.weeks.values().min().unwrap_or(&0));
    }
}

fn main() {
    let arguments: Vec<String> = std::env::args().skip(1).collect();
    let words: Vec<&str> = arguments.iter().map(|a| a.as_str()).collect();
    let seed = generator::take_seed();
    if matches!(words[..], ["compare" | "program", ..]) {
        println!("seed {}", seed);
    }
    let mut report = match words[..] {
        ["almanac"] => {
            for (i, d) in Calendar::new().days.iter().enumerate() {
                println!("{} {} {} {} {} {}", i, d.day, d.month, d.year, d.weekday, d.week);
            }
            return;
        }
        ["compare", "files", _, ..] => {
            let mut report = compare_files(&arguments[2..]);
            told(&mut report, FILES_MET, false);
            report
        }
        ["compare", "days", _, ..] => {
            let mut report = compare_days(&arguments[2..]);
            told(&mut report, DAYS_MET, true);
            report
        }
        ["compare", "fields", _, ..] => {
            let mut report = compare_fields(&arguments[2..]);
            faults::told(&mut report);
            report
        }
        ["compare", "links", _, ..] => {
            let mut report = compare_links(&arguments[2..]);
            batch_met::told(&mut report);
            report
        }
        ["compare", "order", _, ..] => {
            let mut report = compare_order(&arguments[2..]);
            order_questions::told(&mut report);
            report
        }
        ["compare", "trips", _, ..] => {
            let mut report = compare_trips(&arguments[2..]);
            trip_met::told(&mut report);
            report
        }
        ["compare", "whole", _, ..] => {
            let mut report = compare_whole(&arguments[2..]);
            whole::told(&mut report);
            report
        }
        ["compare", "sales", _, ..] => {
            let mut report = compare_sales(&arguments[2..]);
            sale_met::told(&mut report);
            report
        }
        ["program", folder, _, ..] => {
            let mut report = program::compare(folder, &arguments[2..]);
            program::told(&mut report);
            report
        }
        ["samples", folder] => {
            if !faults::samples_stand(folder) {
                std::process::exit(1);
            }
            println!("{}: the model accepts all 13 files, each by itself", folder);
            return;
        }
        _ => {
            eprintln!("model compare files|days|fields|links|order|trips|whole|sales DRIVER ARGUMENTS.. | model program FOLDER PROGRAM ARGUMENTS.. | model almanac | model samples FOLDER");
            std::process::exit(2);
        }
    };
    if report.comparisons == 0 {
        report.differs("nothing was compared");
    }
    println!("{} comparisons, {} differences", report.comparisons, report.differences);
    if report.differences > 0 {
        std::process::exit(1);
    }
}

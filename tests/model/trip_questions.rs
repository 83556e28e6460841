//! The questions on trips: whether their days and stops are refused, on which days they run, and what each of their stops is. What a batch's trips were meant to be
//! is known from their plans, and the model has to say the same before the library is asked.

use std::collections::BTreeSet;
use std::sync::Arc;

use crate::asker::{way, Asked, Asker};
use crate::batch_faults::{edit, fault, files_for, finish, of_trip, Words, FINE};
use crate::batches::{shuffle, Batch, Order, ORDERS, SMALL};
use crate::calendar::Calendar;
use crate::format::LONGEST;
use crate::generator::Random;
use crate::link::{Call, Link};
use crate::links::{first_fault, Bytes};
use crate::maker::Maker;
use crate::plans::{any_mark, codes_of, coded, combinations, halt, is_day_sign, line_signs, own_signs, timetable, turn, Coded, Halt, Plan};
use crate::trip_faults::{day_breaks, other_mark, DayBreak, STOP_DAMAGE};
use crate::trip_met::{decided_by, told_of_stop};
use crate::trips::{runs, Answers, Moment, DAY_RULES, STOP_RULES};

/// Asks about the trips of one batch after the other.
struct Desk<'a> {
    a: Asker<'a>,
    m: Maker,
    c: Calendar,
    holidays: Arc<Vec<u64>>,
    batch: Arc<Bytes>,
    answers: Answers,
}

impl<'a> Desk<'a> {
    fn new(link: &'a mut Link, seed: u64) -> Desk<'a> {
        let nothing = vec![Vec::new(); 13];
        let answers = Answers::new(&nothing);
        Desk { a: Asker::new(link, seed), m: Maker::new(seed), c: Calendar::new(), holidays: Arc::new(Vec::new()), batch: Arc::new(nothing), answers }
    }

    /// The check of a batch, which the questions that follow are about.
    fn check(&mut self, b: &Batch, want: Words, ways: &[String], asked: Asked) {
        self.a.ask_batch(b, want, ways, asked);
        self.lay(b.bytes());
    }

    /// A batch to be asked about, without its check.
    fn lay(&mut self, bytes: Bytes) {
        self.a.lend(&bytes);
        self.answers = Answers::new(&bytes);
        self.batch = Arc::new(bytes);
    }

    fn lend_holidays(&mut self, list: Vec<u64>) {
        self.a.link.letter(b'l');
        self.a.link.word(list.len() as u64);
        list.iter().for_each(|&h| self.a.link.word(h));
        self.holidays = Arc::new(list);
    }

    fn expect_runs(&mut self, line: u64, trip: u64, day: u64) {
        let words = self.answers.runs(&self.c, line, trip, day, &self.holidays);
        let found = self.answers.find(line, trip).filter(|_| words[0] == 0);
        let ways = found.map_or(Vec::new(), |t| decided_by(t, &self.c, day, &self.holidays));
        self.a.link.expect(Call::Runs { batch: self.batch.clone(), line, trip, day, holidays: self.holidays.clone(), ways }, &words);
    }

    /// One day, with every placing of what is lent.
    fn ask_day(&mut self, line: u64, trip: u64, day: u64) {
        self.a.link.letter(b'r');
        [line, trip, day].iter().for_each(|&w| self.a.link.word(w));
        self.expect_runs(line, trip, day);
    }

    /// Many days, the placings by turns.
    fn ask_days(&mut self, line: u64, trip: u64, days: &[u64]) {
        self.a.link.letter(b'y');
        [line, trip, days.len() as u64].iter().for_each(|&w| self.a.link.word(w));
        for &day in days {
            self.a.link.word(day);
            self.expect_runs(line, trip, day);
        }
    }

    /// The same of a plan, whose own calendar the model has to agree with.
    fn ask_plan_days(&mut self, plan: &Plan, days: &[u64]) {
        let painted = plan.painted(&self.c.days, &self.holidays);
        let trip = self.answers.find(plan.line, plan.number).expect("the batch stands and has the trip");
        for &day in days.iter().filter(|&&d| d < painted.len() as u64) {
            assert_eq!(runs(trip, &self.c, day, &self.holidays), painted[day as usize], "the model on day {} of line {} trip {}", day, plan.line, plan.number);
        }
        self.ask_days(plan.line, plan.number, days);
    }

    fn ask_stop(&mut self, line: u64, trip: u64, nth: u64) {
        self.a.link.letter(b's');
        [line, trip, nth].iter().for_each(|&w| self.a.link.word(w));
        let words = self.answers.stop(line, trip, nth);
        let ways = self.answers.find(line, trip).filter(|_| words[0] == 0).map_or(Vec::new(), |t| told_of_stop(t, nth as usize, &words));
        self.a.link.expect(Call::TripStop { batch: self.batch.clone(), line, trip, nth, ways }, &words);
    }

    /// Every stop of a plan, and the numbers beside.
    fn ask_plan_stops(&mut self, plan: &Plan) {
        for nth in 1..=plan.halts.len() {
            assert_eq!(self.answers.stop(plan.line, plan.number, nth as u64), plan.stop_words(nth), "the model on stop {} of line {} trip {}", nth, plan.line, plan.number);
        }
        for nth in 0..=plan.halts.len() as u64 + 1 {
            self.ask_stop(plan.line, plan.number, nth);
        }
    }

    fn order(&mut self, i: usize) -> Order {
        ORDERS[i % 5]
    }

    fn batch_of(&mut self, plans: Vec<Plan>, i: usize) -> Batch {
        let mut b = Batch::of_plans(&mut self.m, plans);
        let order = self.order(i);
        b.arrange(&mut self.m.r, order);
        b
    }
}

/// The first and the last day of a year: those at the ends of the calendar, with 53 weeks and around them, leap years and others.
pub fn year(m: &mut Maker, i: usize) -> (usize, usize) {
    let years = [2004, 2001, 2005, 1900, 2000, 2099, 2009, 1901 + m.r.below(198) as u64];
    let wanted = years[i % 8];
    let of_year = |d: &crate::calendar::Day| d.year == wanted;
    (m.days.iter().position(of_year).unwrap(), m.days.iter().rposition(of_year).unwrap())
}

/// A year, a part of it, or a day of it.
fn within(r: &mut Random, days: (usize, usize)) -> (usize, usize) {
    let from = days.0 + r.below(days.1 - days.0 + 1);
    match r.below(9) {
        0 => (from, from),
        1 => (from, from + r.below(days.1 - from + 1)),
        2 => (days.0, from),
        _ => days,
    }
}

/// So many different numbers, small and large.
fn numbers(r: &mut Random, count: usize, end: usize) -> Vec<u64> {
    let mut all = BTreeSet::new();
    while all.len() < count {
        all.insert(if r.one_in(2) { r.below(2 * count + 2) } else { r.below(end) } as u64);
    }
    let mut all: Vec<u64> = all.into_iter().collect();
    shuffle(r, &mut all);
    all
}

/// Trips that stand, on two lines that share their numbers: 0, odd ones and even ones. Each has so many stops, with a timetable and no days.
pub fn plans(m: &mut Maker, count: usize, stops: usize, days: (usize, usize)) -> Vec<Plan> {
    let (lines, places) = (numbers(&mut m.r, 2, 1_000_000), numbers(&mut m.r, 3, 1_000_000_000));
    let mut trips = numbers(&mut m.r, count, 1_000_000_000);
    if m.r.one_in(3) && !trips.contains(&0) {
        trips[0] = 0;
    }
    let valid: Vec<(usize, usize)> = lines.iter().map(|_| within(&mut m.r, days)).collect();
    let end = if m.r.one_in(2) { 20 * stops } else { 1_000_000_000 };
    let tariffs = numbers(&mut m.r, stops, end);
    let along: Vec<Vec<Vec<u8>>> = lines.iter().map(|_| tariffs.iter().map(|_| line_signs(&mut m.r)).collect()).collect();
    let mut all = Vec::new();
    for i in 0..count {
        let at = i % 2;
        let mut halts: Vec<Halt> = Vec::new();
        for (k, &tariff) in tariffs.iter().enumerate() {
            let place = places[m.r.below(places.len())];
            halts.push(halt(tariff, place, own_signs(&mut m.r), along[at][k].clone()));
        }
        let number = trips[i / 2];
        turn(number, &mut halts);
        timetable(&mut m.r, &mut halts);
        all.push(Plan { line: lines[at], number, valid: valid[at], signs: Vec::new(), codes: Vec::new(), halts });
    }
    all
}

/// A few of the stops are enough, so that some are missing.
pub fn fewer(r: &mut Random, plan: &mut Plan, left: usize) {
    while plan.halts.len() > left {
        let at = r.below(plan.halts.len());
        plan.halts.remove(at);
    }
    timetable(r, &mut plan.halts);
}

const NOT_OF_DAYS: &[u8] = b"R#@%I{[Os";

/// Day signs that a trip may have, and others among them.
pub fn some_signs(r: &mut Random, i: usize) -> Vec<u8> {
    let weekday = b'1' + (i % 7) as u8;
    let mut signs = match i % 6 {
        0 => Vec::new(),
        1 => vec![b'X'],
        2 => vec![b'+'],
        3 => vec![weekday],
        4 => vec![b'X', b'+'],
        _ => vec![weekday, r.pick(b"X+1234567"), r.pick(b"67+")],
    };
    (0..r.below(3)).for_each(|_| signs.push(r.pick(NOT_OF_DAYS)));
    signs
}

/// Lists of holidays: none, some days, as many again with numbers that are no days, and all days.
pub fn some_holidays(r: &mut Random, days: (usize, usize), i: usize) -> Vec<u64> {
    let any = |r: &mut Random| (days.0 + r.below(days.1 - days.0 + 1)) as u64;
    match i % 4 {
        0 => Vec::new(),
        1 => (0..14).map(|_| any(r)).collect(),
        2 => (0..30).map(|k| if k % 3 == 0 { (1 << 32) + any(r) } else { any(r) }).chain([u64::MAX, 73_049, 73_048, 0, 0]).collect(),
        _ => (days.0 as u64..=days.1 as u64).rev().collect(),
    }
}

/// Days of a plan that tell something: at its dates, at its line's, at the holidays, and any of the year.
pub fn telling_days(r: &mut Random, plan: &Plan, days: (usize, usize), holidays: &[u64]) -> Vec<u64> {
    let dates = plan.codes.iter().flat_map(|c| [c.from, c.to]).flatten().chain([plan.valid.0, plan.valid.1]);
    let mut all: BTreeSet<u64> = dates.flat_map(|d| [d as u64, d as u64 + 1, (d as u64).saturating_sub(1)]).collect();
    all.extend(holidays.iter().take(6).flat_map(|&h| [h, h.wrapping_add(1)]));
    all.extend((0..16).map(|_| (days.0 + r.below(days.1 - days.0 + 1)) as u64));
    all.extend([0, 73_048, 73_049, u64::MAX]);
    all.into_iter().collect()
}

/// A year and some days before and after it.
pub fn around(days: (usize, usize)) -> Vec<u64> {
    (days.0.saturating_sub(8) as u64..=days.1 as u64 + 8).collect()
}

/// The small fact of document 01 that concerns trips, as it gives it.
pub fn small_facts(link: &mut Link) {
    let mut d = Desk::new(link, 51);
    for (other, want) in [(b'5', FINE), (b'7', of_trip(DAY_RULES, 0))] {
        let days = year(&mut d.m, 1);
        let mut all = plans(&mut d.m, 1, 2, days);
        let mark = any_mark(&mut d.m.r);
        all[0].codes = vec![coded(&mut d.m.r, b'1', &mark, days), coded(&mut d.m.r, other, &mark, days)];
        let b = d.batch_of(all.clone(), 0);
        d.check(&b, want, &way("P11"), Asked::All);
        d.ask_days(all[0].line, all[0].number, &around(days)[..20]);
    }
    println!("P11: asked");
}

/// The samples: every trip, every stop, and some weeks of days.
pub fn samples(link: &mut Link) {
    let mut d = Desk::new(link, 52);
    d.lay((1..=13).map(|file| crate::faults::sample("samples/good", file)).collect());
    d.lend_holidays(vec![37_075, 37_076, 37_161, 37_191, 37_248, 37_249]);
    assert_eq!(d.answers.fault, FINE, "the model on the samples");
    let trips = d.answers.trips.clone();
    for t in &trips {
        d.ask_days(t.line, t.number, &(37_040..37_260).step_by(3).collect::<Vec<u64>>());
        (0..=t.stops.len() as u64 + 1).for_each(|nth| d.ask_stop(t.line, t.number, nth));
    }
}

/// A trip for each set of types, each with one of six choices of day signs.
fn of_sets(d: &mut Desk, i: usize, sets: &[(Vec<u8>, usize)], days: (usize, usize)) -> Vec<Plan> {
    let mut all = plans(&mut d.m, sets.len(), 3, days);
    for (plan, (kinds, k)) in all.iter_mut().zip(sets) {
        plan.signs = some_signs(&mut d.m.r, i + k);
        plan.signs.retain(|&s| !is_day_sign(s) || !kinds.contains(&b'3'));
        let count = kinds.len() + d.m.r.below(3);
        let of_codes = if d.m.r.one_in(2) { plan.valid } else { days };
        plan.codes = codes_of(&mut d.m.r, kinds, count, of_codes);
        fewer(&mut d.m.r, plan, 2);
    }
    all
}

/// The days of a trip with several lists of holidays: those that tell something, and if so wanted the whole year.
fn ask_lists(d: &mut Desk, i: usize, plan: &Plan, days: (usize, usize), whole: bool) {
    for j in 0..3 {
        let list = some_holidays(&mut d.m.r, days, i + j);
        let telling = telling_days(&mut d.m.r, plan, days, &list);
        d.lend_holidays(list);
        if j > 0 {
            d.ask_plan_days(plan, &telling);
        } else if whole {
            d.ask_plan_days(plan, &around(days));
        }
    }
    let day = days.0 as u64 + d.m.r.below(300) as u64;
    d.ask_day(plan.line, plan.number, day);
}

/// Every permitted set of types, with day signs and without.
pub fn permitted_days(link: &mut Link) {
    let mut d = Desk::new(link, 53);
    let mut sets: Vec<(Vec<u8>, usize)> = combinations().into_iter().flat_map(|kinds| (0..6).map(move |i| (kinds.clone(), i))).collect();
    shuffle(&mut d.m.r, &mut sets);
    for (i, three) in sets.chunks(3).enumerate() {
        let days = year(&mut d.m, i);
        let all = of_sets(&mut d, i, three, days);
        let b = d.batch_of(all.clone(), i);
        let ways: Vec<String> = three.iter().map(|(kinds, _)| format!("types that go together: {}", shown(kinds))).collect();
        d.check(&b, FINE, &ways, Asked::Some(2));
        for (k, plan) in all.iter().enumerate() {
            ask_lists(&mut d, i + k, plan, days, k == i % 3);
        }
    }
}

/// The types of a set in words.
pub fn shown(kinds: &[u8]) -> String {
    let mut sorted = kinds.to_vec();
    sorted.sort();
    if sorted.is_empty() {
        "none".to_string()
    } else {
        String::from_utf8(sorted).unwrap()
    }
}

/// One trip of some, the others stand: its row in the batch, and the batch.
fn with_one(d: &mut Desk, i: usize, all: Vec<Plan>, broken: usize) -> (Batch, usize) {
    let (line, number) = (all[broken].line, all[broken].number);
    let b = d.batch_of(all, i);
    let row = b.row_of_trip(line, number);
    (b, row)
}

/// Some trips of different days that stand.
pub fn varied(m: &mut Maker, count: usize, stops: usize) -> Vec<Plan> {
    let i = m.r.below(1000);
    let days = year(m, i);
    let mut all = plans(m, count, stops, days);
    let sets = combinations();
    for plan in &mut all {
        let kinds = &sets[m.r.below(sets.len())];
        plan.codes = codes_of(&mut m.r, kinds, kinds.len(), days);
        plan.signs = some_signs(&mut m.r, i);
        plan.signs.retain(|&s| !is_day_sign(s) || !kinds.contains(&b'3'));
    }
    all
}

/// Each way to break a day rule, in one trip of some.
pub fn day_rules(link: &mut Link) {
    let mut d = Desk::new(link, 54);
    for round in 0..5 {
        for way in day_breaks() {
            let mut all = varied(&mut d.m, 4, 3);
            let at = d.m.r.below(4);
            way.put(&mut d.m.r, &mut all[at]);
            let trip = (all[at].line, all[at].number);
            let (b, row) = with_one(&mut d, round, all, at);
            d.check(&b, of_trip(DAY_RULES, row), &[format!("days broken: {}", way.name())], Asked::All);
            d.ask_day(trip.0, trip.1, 37_000);
            d.ask_stop(trip.0, trip.1, 1);
        }
    }
}

/// Each way to break a stop rule, in one trip of some.
pub fn stop_rules(link: &mut Link) {
    let mut d = Desk::new(link, 55);
    for round in 0..10 {
        for (name, _, damage) in STOP_DAMAGE {
            let (mut all, at) = loop {
                let stops = 3 + d.m.r.below(5);
                let mut all = varied(&mut d.m, 3, stops);
                let at = d.m.r.below(3);
                // odd and even trips by turns
                if all[at].number % 2 == round as u64 % 2 && damage(&mut d.m.r, &mut all[at].halts).is_some() {
                    break (all, at);
                }
            };
            // the others needn't have all the stops
            (0..3).filter(|&k| k != at).for_each(|k| fewer(&mut d.m.r, &mut all[k], 2));
            let trip = (all[at].line, all[at].number);
            let odd = if trip.1 % 2 == 1 { "odd" } else { "even" };
            let (b, row) = with_one(&mut d, round, all, at);
            let ways = [format!("stops broken: {}", name), format!("stops broken, {} trip: {}", odd, name)];
            d.check(&b, of_trip(STOP_RULES, row), &ways, Asked::All);
            d.ask_day(trip.0, trip.1, 37_000);
            d.ask_stop(trip.0, trip.1, 1);
        }
    }
}

/// The order of trips, and of 10 and 11 in a trip: several are broken.
pub fn several_broken(link: &mut Link) {
    let mut d = Desk::new(link, 56);
    for i in 0..120 {
        let mut all = varied(&mut d.m, 4, 5);
        let breaks = day_breaks();
        let mut wanted: Vec<(u64, u64, u64)> = Vec::new();
        for plan in &mut all {
            let (days, stops) = (d.m.r.one_in(3), d.m.r.one_in(3));
            if days {
                breaks[d.m.r.below(breaks.len())].put(&mut d.m.r, plan);
                wanted.push((plan.line, plan.number, DAY_RULES));
            }
            if stops && STOP_DAMAGE[d.m.r.below(STOP_DAMAGE.len())].2(&mut d.m.r, &mut plan.halts).is_some() {
                wanted.push((plan.line, plan.number, STOP_RULES));
            }
        }
        let b = d.batch_of(all, i);
        let mut refusals: Vec<Words> = wanted.iter().map(|&(line, number, refusal)| of_trip(refusal, b.row_of_trip(line, number))).collect();
        refusals.sort_by_key(|w| (w[2], w[0]));
        let want = refusals.first().copied().unwrap_or(FINE);
        let name = match refusals[..] {
            [one, other, ..] if one[2] == other[2] => "10 and 11 of one trip",
            [one, other, ..] if one[0] == other[0] => "one number of two trips",
            [[DAY_RULES, ..], _, ..] => "10 of a trip, 11 of a later one",
            [_, _, ..] => "11 of a trip, 10 of a later one",
            [_] => "one trip broken",
            [] => "no trip broken",
        };
        d.check(&b, want, &[format!("several broken: {}", name)], Asked::Some(4));
    }
}

pub type Change = fn(&mut Random, &mut Plan);

/// What looks like a fault and is none.
pub const NEARLY: [(&str, Change); 14] = [
    ("all times equal", |_, p| each_time(p, |_| 600)),
    ("all times 0000", |_, p| each_time(p, |_| 0)),
    ("all times 2359", |_, p| each_time(p, |_| 1439)),
    ("all kilometres 0", |_, p| p.halts.iter_mut().filter_map(|h| h.kilometre.as_mut()).for_each(|k| *k = 0)),
    ("the last with a departure too", |_, p| {
        let last = p.halts.iter().rposition(|h| h.arrival != Moment::Empty).unwrap();
        p.halts[last].departure = p.halts[last].arrival;
    }),
    ("no record between", |r, p| fewer(r, p, 2)),
    ("all between passed", |r, p| all_between(r, p, Moment::Bar)),
    ("all between avoided", |r, p| all_between(r, p, Moment::Angle)),
    ("several records of one type", |r, p| {
        let kind = r.pick(b"12345678");
        p.signs.clear();
        p.codes = codes_of(r, &[kind, kind, kind], 3, p.valid);
    }),
    ("typeless beside type 3", |r, p| {
        p.signs.clear();
        p.codes = codes_of(r, &[b'3'], 1, p.valid);
        p.codes.push(coded(r, 0, b"", p.valid));
        p.codes.insert(0, coded(r, 0, b"", p.valid));
    }),
    ("a sign not of days beside type 3", |r, p| {
        p.codes = codes_of(r, &[b'3'], 2, p.valid);
        p.signs = NOT_OF_DAYS.to_vec();
    }),
    ("types 1 and 5", |r, p| p.codes = codes_of(r, b"15", 2, p.valid)),
    ("types 1 and 6", |r, p| p.codes = codes_of(r, b"16", 2, p.valid)),
    ("typeless records of all marks", |_, p| p.codes = b"OmM[p".iter().map(|&mark| Coded { kind: 0, mark: vec![mark], from: None, to: None }).collect()),
];

fn each_time(plan: &mut Plan, change: fn(u64) -> u64) {
    for h in &mut plan.halts {
        for m in [&mut h.arrival, &mut h.departure] {
            if let Moment::At(t) = *m {
                *m = Moment::At(change(t));
            }
        }
    }
}

/// The first and the last have times, all others this sign.
fn all_between(r: &mut Random, plan: &mut Plan, sign: Moment) {
    let last = plan.halts.len() - 1;
    let kilometre = 1 + r.below(50) as u64;
    for (i, h) in plan.halts.iter_mut().enumerate() {
        let (arrival, departure) = if i == 0 {
            (Moment::Empty, Moment::At(700))
        } else if i == last {
            (Moment::At(700), Moment::Empty)
        } else {
            (if r.one_in(2) { sign } else { Moment::Empty }, sign)
        };
        h.arrival = arrival;
        h.departure = departure;
        h.kilometre = Some(if i == 0 { 0 } else { kilometre });
        if departure == Moment::Angle {
            h.kilometre = None;
        }
    }
}

/// What is nearly a fault; and of these trips every stop.
pub fn near_misses(link: &mut Link) {
    let mut d = Desk::new(link, 57);
    for round in 0..5 {
        for (name, change) in NEARLY {
            let mut all = varied(&mut d.m, 3, 4);
            let at = d.m.r.below(3);
            change(&mut d.m.r, &mut all[at]);
            let b = d.batch_of(all.clone(), round);
            d.check(&b, FINE, &[format!("nearly broken: {}", name)], Asked::All);
            d.lend_holidays(vec![37_000]);
            d.ask_plan_stops(&all[at]);
            let telling = telling_days(&mut d.m.r, &all[at], all[at].valid, &[37_000]);
            d.ask_plan_days(&all[at], &telling);
        }
    }
}

/// The way of a batch whose trips all bear one mark.
pub const ONE_MARK: &str = "one mark, another meaning on each trip";

/// Trips of a line whose codes all bear one mark and mean something else on each: document 01 leaves it out that this is a fault.
pub fn one_mark(link: &mut Link) {
    let mut d = Desk::new(link, 64);
    for i in 0..10 {
        let mut all = varied(&mut d.m, 4, 3);
        let mark = any_mark(&mut d.m.r);
        for (plan, kinds) in all.iter_mut().zip([&b"1"[..], b"24", b"3", b"6"]) {
            plan.codes = codes_of(&mut d.m.r, kinds, kinds.len() + 1, plan.valid);
            plan.codes.iter_mut().filter(|c| c.kind != 0).for_each(|c| c.mark = mark.clone());
            plan.signs.retain(|&s| !is_day_sign(s));
        }
        let b = d.batch_of(all.clone(), i);
        d.check(&b, FINE, &way(ONE_MARK), Asked::Some(2));
        d.lend_holidays(Vec::new());
        for plan in &all {
            let telling = telling_days(&mut d.m.r, plan, plan.valid, &[]);
            d.ask_plan_days(plan, &telling[..telling.len().min(12)]);
        }
    }
}

/// Every stop of many trips, also of batches with all their files.
pub fn stops(link: &mut Link) {
    let mut d = Desk::new(link, 58);
    for i in 0..50 {
        let count = 2 + d.m.r.below(6);
        let mut all = varied(&mut d.m, 4, count);
        let left = 2 + d.m.r.below(count - 1);
        fewer(&mut d.m.r, &mut all[i % 4], left);
        let b = d.batch_of(all.clone(), i);
        d.check(&b, FINE, &way("it stands"), Asked::Some(1));
        all.iter().for_each(|plan| d.ask_plan_stops(plan));
    }
    for i in 0..10 {
        let order = d.order(i);
        let b = Batch::arranged(&mut d.m, &SMALL, order);
        d.check(&b, FINE, &way("it stands, with all its files"), Asked::Some(1));
        d.lend_holidays(vec![5, 73_048, 37_000]);
        for plan in &b.plans {
            d.ask_plan_stops(plan);
            let telling = telling_days(&mut d.m.r, plan, plan.valid, &[5, 37_000]);
            d.ask_plan_days(plan, &telling[..telling.len().min(12)]);
        }
    }
}

/// Numbers whose lower bits are those of another.
pub fn far_from(n: u64) -> [u64; 6] {
    [n ^ 1, n + (1 << 32), n + (1 << 63), n + 1_000_000_000, u64::MAX, u64::MAX - n]
}

/// Trips, days and stops that aren't there.
pub fn no_such(link: &mut Link) {
    let mut d = Desk::new(link, 59);
    for i in 0..8 {
        let all = varied(&mut d.m, 5, 3);
        let b = d.batch_of(all.clone(), i);
        d.check(&b, FINE, &way("it stands"), Asked::Some(1));
        for plan in &all {
            let (line, trip) = (plan.line, plan.number);
            d.ask_day(trip, line, 37_000);
            d.ask_stop(trip, line, 1);
            for far in far_from(line).into_iter().chain([0]) {
                d.ask_day(far, trip, 37_000);
                d.ask_stop(far, trip, 1);
            }
            for far in far_from(trip).into_iter().chain([0]) {
                d.ask_day(line, far, 37_000);
                d.ask_stop(line, far, 1);
                // 13 before 20, 12 before 13
                d.ask_stop(line, far, 0);
                d.ask_day(line, far, 73_049);
            }
            for nth in 1..=3 {
                far_from(nth).into_iter().for_each(|far| d.ask_stop(line, trip, far));
            }
            for day in [73_047, 73_048, 73_049, 1 << 16, 1 << 32, (1 << 32) + plan.valid.0 as u64, 1 << 63, u64::MAX] {
                d.ask_day(line, trip, day);
            }
        }
    }
}

/// Batches that are refused: the refusal is all that is answered, whatever is asked.
pub fn refused(link: &mut Link) {
    let mut d = Desk::new(link, 60);
    for i in 0..110 {
        let order = d.order(i);
        let b = Batch::arranged(&mut d.m, &SMALL, order);
        let number = (2 + i % 10) as u64;
        let files = files_for(number);
        let file = files[d.m.r.below(files.len())];
        let mut broken = b.clone();
        let found = match fault(&mut d.m, &b, number, file, None) {
            Some(f) => f,
            None => continue,
        };
        edit(&mut broken, &found);
        let mut bytes = broken.bytes();
        let want = finish(&mut bytes, &found);
        assert_eq!(first_fault(&bytes), want, "the model on a batch made for refusal {}", number);
        d.lay(bytes);
        ask_refused(&mut d, &b);
    }
    let b = Batch::arranged(&mut d.m, &SMALL, Order::Rising);
    let mut bytes = b.bytes();
    bytes[11] = vec![b'x'; LONGEST + 1];
    d.lay(bytes);
    ask_refused(&mut d, &b);
}

fn ask_refused(d: &mut Desk, b: &Batch) {
    let (line, trip) = b.known.trips[d.m.r.below(b.known.trips.len())];
    d.ask_day(line, trip, 37_000);
    d.ask_day(line, trip, 73_049);
    d.ask_day(u64::MAX, trip, u64::MAX);
    d.ask_stop(line, trip, 1);
    d.ask_stop(line, trip, 0);
    d.ask_stop(line, u64::MAX, u64::MAX);
}

/// Any types and marks and signs, any times: what follows is left to the model.
pub fn as_they_fall(link: &mut Link) {
    let mut d = Desk::new(link, 61);
    for i in 0..400 {
        let stops = 2 + d.m.r.below(3);
        let mut all = varied(&mut d.m, 2, stops);
        if i % 2 == 0 {
            all.iter_mut().for_each(|plan| codes_as_they_fall(&mut d.m.r, plan));
        } else {
            times_as_they_fall(&mut d.m.r, &mut all[i / 2 % 2]);
        }
        let b = d.batch_of(all.clone(), i);
        let want = first_fault(&b.bytes());
        let name = if i % 2 == 0 { "days" } else { "stops" };
        d.check(&b, want, &[format!("as they fall: {}, {}", name, if want == FINE { "it stands" } else { "refused" })], Asked::Some(1));
        if want == FINE {
            for plan in &all {
                d.ask_plan_stops(plan);
                let telling = telling_days(&mut d.m.r, plan, plan.valid, &[]);
                d.lend_holidays(Vec::new());
                d.ask_plan_days(plan, &telling[..telling.len().min(10)]);
            }
        }
    }
}

fn codes_as_they_fall(r: &mut Random, plan: &mut Plan) {
    let mark = any_mark(r);
    plan.codes.clear();
    for _ in 0..r.below(4) {
        let (kind, other) = (if r.one_in(6) { 0 } else { r.pick(b"12345678") }, any_mark(r));
        let mark = if r.one_in(9) { &other } else { &mark };
        plan.codes.push(coded(r, kind, mark, plan.valid));
    }
    plan.signs = (0..r.below(2)).map(|_| r.pick(b"X+1234567R#")).collect();
}

fn times_as_they_fall(r: &mut Random, plan: &mut Plan) {
    let last = plan.halts.len() - 1;
    for (i, h) in plan.halts.iter_mut().enumerate() {
        let any = |r: &mut Random, from: usize| Moment::At((10 * i + from + r.below(7)) as u64);
        let (arrival, departure) = (any(r, 0), any(r, 5));
        // what may stand there is likely to
        let shape = if r.one_in(3) { 9 } else { [3, 6, 1][(i > 0) as usize + (i == last) as usize] };
        let (a, d) = match if shape == 9 { r.below(10) } else { shape } {
            0 => (Moment::Empty, Moment::Empty),
            1 | 2 => (arrival, Moment::Empty),
            3..=5 => (Moment::Empty, departure),
            6 | 7 => (arrival, departure),
            8 => (Moment::Empty, Moment::Bar),
            _ => (Moment::Angle, Moment::Angle),
        };
        h.arrival = a;
        h.departure = d;
        let near = if i == 0 && !r.one_in(4) { 0 } else { 3 * i as u64 + r.below(5) as u64 };
        h.kilometre = if d == Moment::Angle || (a, d) == (Moment::Empty, Moment::Empty) { None } else { Some(near) };
    }
}

/// The check of trips with many stops and codes, one of them broken or none.
fn check_large(d: &mut Desk, order: Order, all: Vec<Plan>, refusal: u64, at: usize) {
    let (line, number) = (all[at].line, all[at].number);
    let mut b = Batch::of_plans(&mut d.m, all);
    b.arrange(&mut d.m.r, order);
    let want = if refusal == 0 { FINE } else { of_trip(refusal, b.row_of_trip(line, number)) };
    let asked = if order == Order::Rising { Asked::Some(1) } else { Asked::Right };
    d.check(&b, want, &[format!("large trips: {}", refusal)], asked);
    d.a.link.flush();
}

/// Another mark in the last of its codes, types that don't go together, a last time that falls.
fn break_large(d: &mut Desk, order: Order, all: &[Plan]) {
    let mut broken = all.to_vec();
    let mark = other_mark(&mut d.m.r, &all[2].codes[0].mark);
    broken[2].codes.push(coded(&mut d.m.r, b'1', &mark, all[2].valid));
    check_large(d, order, broken, DAY_RULES, 2);
    let mut broken = all.to_vec();
    DayBreak::Types(b'1', b'7').put(&mut d.m.r, &mut broken[1]);
    check_large(d, order, broken, DAY_RULES, 1);
    let mut broken = all.to_vec();
    let (_, _, falls) = STOP_DAMAGE.into_iter().find(|(name, _, _)| *name == "the last time before that of the record before").unwrap();
    while falls(&mut d.m.r, &mut broken[1].halts).is_none() {
        timetable(&mut d.m.r, &mut broken[1].halts);
    }
    check_large(d, order, broken, STOP_RULES, 1);
}

/// Trips with many stops and many codes. A question has no hint, so those in files that don't rise are less large.
pub fn large_trips(link: &mut Link) {
    let mut d = Desk::new(link, 62);
    for (i, order) in [Order::Rising, Order::Shuffled, Order::Falling].into_iter().enumerate() {
        let days = year(&mut d.m, i);
        let (stops, codes) = if order == Order::Rising { (150, 60) } else { (60, 25) };
        let mut all = plans(&mut d.m, 3, stops, days);
        for plan in &mut all {
            plan.codes = codes_of(&mut d.m.r, b"124", codes, days);
        }
        check_large(&mut d, order, all.clone(), 0, 0);
        for plan in &all[i..=i] {
            let nth = stops as u64;
            [1, 2, nth / 2, nth - 1, nth, nth + 1].into_iter().for_each(|nth| d.ask_stop(plan.line, plan.number, nth));
            let telling = telling_days(&mut d.m.r, plan, days, &[]);
            d.ask_plan_days(plan, &telling[..8]);
        }
        break_large(&mut d, order, &all);
    }
}

//! Document 01, "Days" and "A trip's stops": the day rules (refusal 10), the stop rules (11), the days on which a trip runs, and its stops with their minutes
//! and signs. Plain and slow: a trip is put together from all files first, then each rule is tried on it by itself.

use std::collections::HashMap;

use crate::calendar::{Calendar, NOT_REAL};
use crate::fields::value;
use crate::format::NO_SUCH;
use crate::links::{records_of, Bytes, Texts};

pub const DAY_RULES: u64 = 10;
pub const STOP_RULES: u64 = 11;
pub const NO_SUCH_TRIP: u64 = 13;

const PEVNYKOD: u64 = 3;
const LINKY: u64 = 5;
const SPOJE: u64 = 6;
const ZASLINKY: u64 = 7;
const ZASSPOJE: u64 = 8;
const CASKODY: u64 = 10;

pub const DAY_SIGNS: &[u8] = b"X+1234567";

/// Year, month, day: in this order they compare as dates do.
pub type Date = (u64, u64, u64);

/// A Caskody record with a type.
#[derive(Clone)]
pub struct Typed {
    pub kind: u8,
    pub mark: Vec<u8>,
    pub from: Option<Date>,
    pub to: Option<Date>,
}

/// What a time field holds; a time is its minute of the day.
#[derive(Clone, Copy, PartialEq, Eq, Debug)]
pub enum Moment {
    Empty,
    Bar,
    Angle,
    At(u64),
}

/// A Zasspoje record.
#[derive(Clone)]
pub struct Stop {
    pub tariff: u64,
    pub stop: u64,
    pub kilometre: Option<u64>,
    pub arrival: Moment,
    pub departure: Moment,
    pub signs: Vec<u8>,
}

#[derive(Clone)]
pub struct Trip {
    pub line: u64,
    pub number: u64,
    /// Those of its Spoje codes.
    pub signs: Vec<u8>,
    pub typed: Vec<Typed>,
    /// The line's first and last day.
    pub valid: (Date, Date),
    /// In travel order.
    pub stops: Vec<Stop>,
}

fn date(text: &[u8]) -> Date {
    (value(&text[4..]), value(&text[2..4]), value(&text[..2]))
}

fn date_if_given(text: &[u8]) -> Option<Date> {
    if text.is_empty() {
        None
    } else {
        Some(date(text))
    }
}

/// "Time field: HHMM, 0000-2359, or `|`, `<`, or empty".
fn moment(text: &[u8]) -> Moment {
    match text {
        b"" => Moment::Empty,
        b"|" => Moment::Bar,
        b"<" => Moment::Angle,
        _ => Moment::At(60 * value(&text[..2]) + value(&text[2..])),
    }
}

/// All records of a batch, and the sign of each code number.
struct Records<'a> {
    files: Vec<Vec<Texts<'a>>>,
    signs: HashMap<u64, u8>,
}

impl<'a> Records<'a> {
    fn new(batch: &'a Bytes) -> Records<'a> {
        let files: Vec<Vec<Texts>> = (1..=13).map(|file| records_of(file, &batch[file as usize - 1])).collect();
        let signs = files[PEVNYKOD as usize - 1].iter().map(|r| (value(r[0]), r[1][0])).collect();
        Records { files, signs }
    }

    fn of(&self, file: u64) -> &[Texts<'a>] {
        &self.files[file as usize - 1]
    }

    /// The signs of some code fields. An empty code has none.
    fn signs(&self, codes: &[&[u8]]) -> Vec<u8> {
        codes.iter().filter(|c| !c.is_empty()).map(|c| self.signs[&value(c)]).collect()
    }

    /// The records of a file by the values of their first two fields.
    fn by_two(&self, file: u64) -> HashMap<(u64, u64), Vec<&Texts<'a>>> {
        let mut all: HashMap<(u64, u64), Vec<&Texts>> = HashMap::new();
        for record in self.of(file) {
            all.entry((value(record[0]), value(record[1]))).or_default().push(record);
        }
        all
    }

    /// "A trip's stop has the signs of its Zasspoje codes, or if it has none, those of Zaslinky; a `$` in Zaslinky always counts."
    fn signs_of_stop(&self, own: &Texts, of_line: &Texts) -> Vec<u8> {
        let mut signs = self.signs(&own[5..7]);
        let defaults = self.signs(&of_line[4..7]);
        if signs.is_empty() {
            return defaults;
        }
        if defaults.contains(&b'$') {
            signs.push(b'$');
        }
        signs
    }

    fn stop(&self, own: &Texts, of_line: &Texts) -> Stop {
        Stop {
            tariff: value(own[2]),
            stop: value(own[3]),
            kilometre: if own[7].is_empty() { None } else { Some(value(own[7])) },
            arrival: moment(own[8]),
            departure: moment(own[9]),
            signs: self.signs_of_stop(own, of_line),
        }
    }
}

/// "Travel order is rising tariff number for an odd trip number, falling for an even one".
fn in_travel_order(number: u64, mut stops: Vec<Stop>) -> Vec<Stop> {
    stops.sort_by_key(|s| s.tariff);
    if number % 2 == 0 {
        stops.reverse();
    }
    stops
}

fn typed(record: &Texts) -> Typed {
    Typed { kind: record[4][0], mark: record[3].to_vec(), from: date_if_given(record[5]), to: date_if_given(record[6]) }
}

/// The trips of a batch that has none of the refusals 1 to 9, in Spoje order.
pub fn trips(batch: &Bytes) -> Vec<Trip> {
    let records = Records::new(batch);
    let lines: HashMap<u64, (Date, Date)> = records.of(LINKY).iter().map(|r| (value(r[0]), (date(r[8]), date(r[9])))).collect();
    let (of_lines, own, coded) = (records.by_two(ZASLINKY), records.by_two(ZASSPOJE), records.by_two(CASKODY));
    let none = Vec::new();
    let mut all = Vec::new();
    for record in records.of(SPOJE) {
        let (line, number) = (value(record[0]), value(record[1]));
        let of_trip = own.get(&(line, number)).unwrap_or(&none);
        let stops = of_trip.iter().map(|s| records.stop(s, of_lines[&(line, value(s[2]))][0])).collect();
        let codes = coded.get(&(line, number)).unwrap_or(&none);
        let typed = codes.iter().filter(|c| !c[4].is_empty()).map(|c| typed(c)).collect();
        let signs = records.signs(&record[2..12]);
        all.push(Trip { line, number, signs, typed, valid: lines[&line], stops: in_travel_order(number, stops) });
    }
    all
}

impl Trip {
    fn has(&self, kind: u8) -> bool {
        self.typed.iter().any(|t| t.kind == kind)
    }

    fn day_signs(&self) -> Vec<u8> {
        self.signs.iter().copied().filter(|s| DAY_SIGNS.contains(s)).collect()
    }
}

fn both(one: u8, other: u8) -> String {
    format!("types {} and {}", one as char, other as char)
}

fn three_with(sign: u8) -> String {
    format!("type 3 with {}", sign as char)
}

/// "Two different types out of 5, 6, 7, 8; type 1 with 7 or 8; type 3 with another type".
fn forbidden_pairs() -> Vec<(u8, u8)> {
    let mut all = Vec::new();
    for one in *b"5678" {
        all.extend(b"5678".iter().filter(|&&other| other > one).map(|&other| (one, other)));
    }
    all.extend([(b'1', b'7'), (b'1', b'8')]);
    all.extend(b"1245678".iter().map(|&other| (b'3', other)));
    all
}

/// Every way to meet refusal 10, by name.
pub fn day_rule_names() -> Vec<String> {
    let pairs = forbidden_pairs().into_iter().map(|(one, other)| both(one, other));
    let signs = DAY_SIGNS.iter().map(|&s| three_with(s));
    ["two different marks".to_string()].into_iter().chain(pairs).chain(signs).collect()
}

/// Refusal 10: "a trip whose typed records bear two different marks; two different types out of 5, 6, 7, 8; type 1 with 7 or 8; type 3 with another type or with
/// a day sign". All that the trip meets, by name; the trip is refused if there is one.
pub fn day_rules_broken(trip: &Trip) -> Vec<String> {
    let mut broken = Vec::new();
    if trip.typed.iter().any(|t| t.mark != trip.typed[0].mark) {
        broken.push("two different marks".to_string());
    }
    broken.extend(forbidden_pairs().into_iter().filter(|&(one, other)| trip.has(one) && trip.has(other)).map(|(one, other)| both(one, other)));
    if trip.has(b'3') {
        broken.extend(DAY_SIGNS.iter().filter(|s| trip.signs.contains(s)).map(|&s| three_with(s)));
    }
    broken
}

pub const TOO_FEW: &str = "fewer than two records with a time";
pub const FIRST_LEAVES: &str = "the first has no departure";
pub const FIRST_ARRIVES: &str = "the first has an arrival";
pub const FIRST_KILOMETRE: &str = "the first isn't at kilometre 0";
pub const LAST_ARRIVES: &str = "the last has no arrival";
pub const EMPTY_BETWEEN: &str = "an empty record between";
pub const NO_DEPARTURE: &str = "a time between without a departure";
pub const BAR_BEFORE: &str = "| before the first";
pub const ANGLE_BEFORE: &str = "< before the first";
pub const BAR_BEHIND: &str = "| behind the last";
pub const ANGLE_BEHIND: &str = "< behind the last";
pub const FALLS_BETWEEN: &str = "times fall from record to record";
pub const FALLS_INSIDE: &str = "an arrival after its departure";
pub const KILOMETRES_FALL: &str = "kilometres fall from a time to a time";
pub const KILOMETRES_AT_BAR: &str = "kilometres fall at a |";
pub const KILOMETRES_BEHIND_BAR: &str = "kilometres fall behind a |";

/// Every way to meet refusal 11. A first record with a time and no departure has an arrival, so that the second never is alone.
pub const STOP_RULE_NAMES: [&str; 16] = [
    TOO_FEW, FIRST_LEAVES, FIRST_ARRIVES, FIRST_KILOMETRE, LAST_ARRIVES, EMPTY_BETWEEN, NO_DEPARTURE, BAR_BEFORE, ANGLE_BEFORE, BAR_BEHIND, ANGLE_BEHIND, FALLS_BETWEEN,
    FALLS_INSIDE, KILOMETRES_FALL, KILOMETRES_AT_BAR, KILOMETRES_BEHIND_BAR,
];

impl Moment {
    fn is_time(self) -> bool {
        matches!(self, Moment::At(_))
    }
}

impl Stop {
    fn has_time(&self) -> bool {
        self.arrival.is_time() || self.departure.is_time()
    }

    fn passed(&self) -> bool {
        self.departure == Moment::Bar || self.arrival == Moment::Bar
    }

    fn avoided(&self) -> bool {
        self.departure == Moment::Angle || self.arrival == Moment::Angle
    }
}

/// "The first such has a departure, no arrival, kilometre 0. The last has an arrival."
fn ends_broken(first: &Stop, last: &Stop) -> Vec<&'static str> {
    let mut broken = Vec::new();
    if !first.departure.is_time() {
        broken.push(FIRST_LEAVES);
    }
    if first.arrival.is_time() {
        broken.push(FIRST_ARRIVES);
    }
    if first.kilometre != Some(0) {
        broken.push(FIRST_KILOMETRE);
    }
    if !last.arrival.is_time() {
        broken.push(LAST_ARRIVES);
    }
    broken
}

/// "Between them no record has both time fields empty, one with a time has a departure".
fn between_broken(stop: &Stop) -> Option<&'static str> {
    if stop.arrival == Moment::Empty && stop.departure == Moment::Empty {
        Some(EMPTY_BETWEEN)
    } else if stop.has_time() && !stop.departure.is_time() {
        Some(NO_DEPARTURE)
    } else {
        None
    }
}

/// "and only there may `|` and `<` stand": not before the first and not behind the last.
fn outside_broken(stop: &Stop, before: bool) -> Option<&'static str> {
    match (stop.passed(), stop.avoided(), before) {
        (true, _, true) => Some(BAR_BEFORE),
        (true, _, false) => Some(BAR_BEHIND),
        (_, true, true) => Some(ANGLE_BEFORE),
        (_, true, false) => Some(ANGLE_BEHIND),
        _ => None,
    }
}

/// "Times, arrival before departure, never fall".
fn times_broken(stops: &[Stop]) -> Vec<&'static str> {
    let mut times: Vec<(usize, u64)> = Vec::new();
    for (i, stop) in stops.iter().enumerate() {
        for moment in [stop.arrival, stop.departure] {
            if let Moment::At(minute) = moment {
                times.push((i, minute));
            }
        }
    }
    let falls = times.windows(2).filter(|w| w[1].1 < w[0].1);
    falls.map(|w| if w[0].0 == w[1].0 { FALLS_INSIDE } else { FALLS_BETWEEN }).collect()
}

/// "kilometres never fall"; those of `|` records count.
fn kilometres_broken(stops: &[Stop]) -> Vec<&'static str> {
    let given: Vec<(u64, bool)> = stops.iter().filter_map(|s| s.kilometre.map(|k| (k, s.passed()))).collect();
    let falls = given.windows(2).filter(|w| w[1].0 < w[0].0);
    falls
        .map(|w| match (w[0].1, w[1].1) {
            (_, true) => KILOMETRES_AT_BAR,
            (true, false) => KILOMETRES_BEHIND_BAR,
            _ => KILOMETRES_FALL,
        })
        .collect()
}

/// Refusal 11: all of its ways that the trip meets; the trip is refused if there is one. "At least two records have a time."
pub fn stop_rules_broken(trip: &Trip) -> Vec<&'static str> {
    let stops = &trip.stops;
    let timed: Vec<usize> = (0..stops.len()).filter(|&i| stops[i].has_time()).collect();
    if timed.len() < 2 {
        return vec![TOO_FEW];
    }
    let (first, last) = (timed[0], timed[timed.len() - 1]);
    let mut broken = ends_broken(&stops[first], &stops[last]);
    broken.extend(stops[first + 1..last].iter().filter_map(between_broken));
    broken.extend(stops[..first].iter().filter_map(|s| outside_broken(s, true)));
    broken.extend(stops[last + 1..].iter().filter_map(|s| outside_broken(s, false)));
    broken.extend(times_broken(stops));
    broken.extend(kilometres_broken(stops));
    broken.sort();
    broken.dedup();
    broken
}

/// "then trips in Spoje order, 10 before 11", trip by trip.
pub fn first_fault(trips: &[Trip]) -> Option<[u64; 5]> {
    for (trip, record) in trips.iter().zip(1..) {
        if !day_rules_broken(trip).is_empty() {
            return Some([DAY_RULES, SPOJE, record, 0, 0]);
        }
        if !stop_rules_broken(trip).is_empty() {
            return Some([STOP_RULES, SPOJE, record, 0, 0]);
        }
    }
    None
}

/// "A period with no to-date is one day."
fn holds(period: &Typed, day: Date) -> bool {
    let from = period.from.expect("a period has a from-date");
    from <= day && day <= period.to.unwrap_or(from)
}

/// "A trip runs on day d exactly if d is within its line's validity and: where it has type 3 records, d is one of their dates; otherwise no type 4 period holds d,
/// and either d is a type 2 date, or all of these hold".
pub fn runs(trip: &Trip, c: &Calendar, number: u64, holidays: &[u64]) -> bool {
    let day = c.days[number as usize];
    let today = (day.year, day.month, day.day);
    let held = |kind: u8| trip.typed.iter().any(|t| t.kind == kind && holds(t, today));
    if today < trip.valid.0 || trip.valid.1 < today {
        return false;
    }
    if trip.has(b'3') {
        return held(b'3');
    }
    if held(b'4') {
        return false;
    }
    held(b'2') || runs_by_rule(trip, c, number, holidays, held)
}

/// "it has no day sign or one that fits d; it has no type 1 record or one whose period holds d; it has no type 5 (6, 7, 8) record or the week of d is odd (even,
/// odd, even), and for 7 and 8 one such period holds d".
fn runs_by_rule(trip: &Trip, c: &Calendar, number: u64, holidays: &[u64], held: impl Fn(u8) -> bool) -> bool {
    let signs = trip.day_signs();
    let odd = c.week(number)[2] == 1;
    let sign_fits = signs.is_empty() || signs.iter().any(|&s| c.fits(s, number, holidays)[1] == 1);
    let in_period = !trip.has(b'1') || held(b'1');
    let odd_weeks = (!trip.has(b'5') || odd) && (!trip.has(b'7') || (odd && held(b'7')));
    let even_weeks = (!trip.has(b'6') || !odd) && (!trip.has(b'8') || (!odd && held(b'8')));
    sign_fits && in_period && odd_weeks && even_weeks
}

/// The signs of a stop as one number.
fn sum_of(signs: &[u8]) -> u64 {
    [(b'(', 1), (b')', 2), (b'x', 4), (0xa7, 8), (b'$', 16)].iter().filter(|(sign, _)| signs.contains(sign)).map(|(_, n)| n).sum()
}

fn given_minute(moment: Moment) -> [u64; 2] {
    match moment {
        Moment::At(minute) => [1, minute],
        _ => [0, 0],
    }
}

/// What can be asked of a batch beside the check.
pub struct Answers {
    pub fault: [u64; 5],
    pub trips: Vec<Trip>,
}

impl Answers {
    pub fn new(batch: &Bytes) -> Answers {
        let fault = crate::links::first_fault(batch);
        Answers { fault, trips: if fault[0] == 0 { trips(batch) } else { Vec::new() } }
    }

    pub fn find(&self, line: u64, trip: u64) -> Option<&Trip> {
        self.trips.iter().find(|t| t.line == line && t.number == trip)
    }

    /// number, file, record, field, offset, runs
    pub fn runs(&self, c: &Calendar, line: u64, trip: u64, day: u64, holidays: &[u64]) -> [u64; 6] {
        let [number, file, record, field, offset] = self.fault;
        if number != 0 {
            return [number, file, record, field, offset, 0];
        }
        if c.get(day).is_none() {
            return [NOT_REAL, 0, 0, 0, 0, 0];
        }
        match self.find(line, trip) {
            None => [NO_SUCH_TRIP, 0, 0, 0, 0, 0],
            Some(t) => [0, 0, 0, 0, 0, runs(t, c, day, holidays) as u64],
        }
    }

    /// number, file, record, field, offset, tariff, stop, arrives, arrival, departs, departure, signs, last, stops
    pub fn stop(&self, line: u64, trip: u64, nth: u64) -> [u64; 14] {
        let refused = |[number, file, record, field, offset]: [u64; 5]| [number, file, record, field, offset, 0, 0, 0, 0, 0, 0, 0, 0, 0];
        if self.fault[0] != 0 {
            return refused(self.fault);
        }
        let stops = match self.find(line, trip) {
            None => return refused([NO_SUCH_TRIP, 0, 0, 0, 0]),
            Some(t) => &t.stops,
        };
        if nth < 1 || nth > stops.len() as u64 {
            return refused([NO_SUCH, 0, 0, 0, 0]);
        }
        let at = nth as usize - 1;
        let s = &stops[at];
        let last = s.has_time() && !stops[at + 1..].iter().any(Stop::has_time);
        let ([arrives, arrival], [departs, departure]) = (given_minute(s.arrival), given_minute(s.departure));
        [0, 0, 0, 0, 0, s.tariff, s.stop, arrives, arrival, departs, departure, sum_of(&s.signs), last as u64, stops.len() as u64]
    }
}

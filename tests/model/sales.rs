//! Document 01, the sale and the stop's name: the refusals 12 to 19, 23 and 24, and the answers. Plain and slow: each refusal is tried by itself on a trip that is put
//! together from all files, and the first that applies is named.

use crate::calendar::{Calendar, NOT_REAL};
use crate::fields::value;
use crate::format::NO_ROOM;
use crate::links::{records_of, Bytes};
use crate::trips::{runs, Answers, Moment, Stop, Trip, NO_SUCH_TRIP};

pub const NO_SUCH_TARIFF: u64 = 14;
pub const DOES_NOT_RUN: u64 = 15;
pub const NOT_BEFORE: u64 = 16;
pub const NO_DEPARTURE: u64 = 17;
pub const NO_ARRIVAL: u64 = 18;
pub const BOTH_CLOSED: u64 = 19;
pub const NO_SUCH_NAME: u64 = 23;
pub const SEVERAL_NAMED: u64 = 24;

/// "A sale is asked by line, trip, day, month, year and two tariff numbers, any numbers at all."
pub type Question = [u64; 7];

/// Town, part and place.
pub type Name = [Vec<u8>; 3];

fn minute(moment: Moment) -> Option<u64> {
    match moment {
        Moment::At(minute) => Some(minute),
        _ => None,
    }
}

/// "first stop: no departure time, or `(` or `$`".
fn refuses_to_board(stop: &Stop) -> bool {
    minute(stop.departure).is_none() || stop.signs.contains(&b'(') || stop.signs.contains(&b'$')
}

/// "second stop: no time, or `)` or `$`".
fn refuses_to_alight(stop: &Stop) -> bool {
    let no_time = minute(stop.arrival).is_none() && minute(stop.departure).is_none();
    no_time || stop.signs.contains(&b')') || stop.signs.contains(&b'$')
}

/// The stop with a tariff number, and its place in travel order.
fn stop_of(trip: &Trip, tariff: u64) -> Option<(usize, &Stop)> {
    trip.stops.iter().enumerate().find(|(_, s)| s.tariff == tariff)
}

/// Of a trip that isn't there: what else a reader may find wrong with the question. It has no such records, is of a line that isn't valid then, and goes from a
/// stop to itself.
fn beside_no_trip(a: &Answers, c: &Calendar, q: &Question) -> Vec<u64> {
    let [line, _, day, month, year, from, to] = *q;
    let somewhere = |tariff: u64| a.trips.iter().any(|t| stop_of(t, tariff).is_some());
    let valid = a.trips.iter().any(|t| t.line == line && t.valid.0 <= (year, month, day) && (year, month, day) <= t.valid.1);
    let real = c.day(day, month, year)[0] == 0;
    let tried = [(NO_SUCH_TARIFF, !somewhere(from) || !somewhere(to)), (DOES_NOT_RUN, real && !valid), (NOT_BEFORE, from == to)];
    tried.into_iter().filter(|t| t.1).map(|t| t.0).collect()
}

/// Those of the refusals 12 to 19 that apply, in their order. Each is tried as far as it means something without the others.
pub fn applying(a: &Answers, c: &Calendar, q: &Question, holidays: &[u64]) -> Vec<u64> {
    let [line, number, day, month, year, from, to] = *q;
    let [not_real, today] = c.day(day, month, year);
    let mut all = if not_real == 0 { Vec::new() } else { vec![NOT_REAL] };
    let trip = match a.find(line, number) {
        Some(trip) => trip,
        None => {
            all.push(NO_SUCH_TRIP);
            all.extend(beside_no_trip(a, c, q));
            return all;
        }
    };
    let (first, second) = (stop_of(trip, from), stop_of(trip, to));
    if first.is_none() || second.is_none() {
        all.push(NO_SUCH_TARIFF);
    }
    if not_real == 0 && !runs(trip, c, today, holidays) {
        all.push(DOES_NOT_RUN);
    }
    let before = match (first, second) {
        (Some((here, _)), Some((there, _))) => here < there,
        _ if number % 2 == 1 => from < to,
        _ => to < from,
    };
    if !before {
        all.push(NOT_BEFORE);
    }
    if first.map_or(false, |(_, s)| refuses_to_board(s)) {
        all.push(NO_DEPARTURE);
    }
    if second.map_or(false, |(_, s)| refuses_to_alight(s)) {
        all.push(NO_ARRIVAL);
    }
    let closed = |stop: Option<(usize, &Stop)>| stop.map_or(false, |(_, s)| s.signs.contains(&0xa7));
    if closed(first) && closed(second) {
        all.push(BOTH_CLOSED);
    }
    all
}

/// number, departure, arrival: "departure at the first stop; arrival at the second, or its departure if no arrival is given". Of a batch that is accepted.
pub fn sale(a: &Answers, c: &Calendar, q: &Question, holidays: &[u64]) -> [u64; 3] {
    if let Some(&number) = applying(a, c, q, holidays).first() {
        return [number, 0, 0];
    }
    let trip = a.find(q[0], q[1]).expect("a trip that a ticket is sold for");
    let ((_, first), (_, second)) = (stop_of(trip, q[5]).unwrap(), stop_of(trip, q[6]).unwrap());
    [0, minute(first.departure).unwrap(), minute(second.arrival).or(minute(second.departure)).unwrap()]
}

/// number, file, record, field, offset, departure, arrival: "A question on a batch that isn't accepted gives that batch's refusal".
pub fn sale_words(a: &Answers, c: &Calendar, q: &Question, holidays: &[u64]) -> [u64; 7] {
    let [number, file, record, field, offset] = a.fault;
    if number != 0 {
        return [number, file, record, field, offset, 0, 0];
    }
    let [number, departure, arrival] = sale(a, c, q, holidays);
    [number, 0, 0, 0, 0, departure, arrival]
}

/// The whole questions of a list.
pub fn questions(asked: &[u64]) -> Vec<Question> {
    asked.chunks_exact(7).map(|q| q.try_into().unwrap()).collect()
}

/// number, file, record, field, offset, answered; and what the list holds afterwards.
pub fn sales_words(a: &Answers, c: &Calendar, asked: &[u64], holidays: &[u64], list: &[u64]) -> ([u64; 6], Vec<u64>) {
    let (mut after, all) = (list.to_vec(), questions(asked));
    let [number, file, record, field, offset] = a.fault;
    if number != 0 {
        return ([number, file, record, field, offset, 0], after);
    }
    if list.len() < 3 * all.len() {
        return ([NO_ROOM, 0, 0, 0, 0, 0], after);
    }
    for (q, place) in all.iter().zip(after.chunks_exact_mut(3)) {
        place.copy_from_slice(&sale(a, c, q, holidays));
    }
    ([0, 0, 0, 0, 0, all.len() as u64], after)
}

/// number, file, record, field, offset, value: "the number of the one stop whose three name fields equal them byte for byte", or how many there are.
pub fn stop_words(a: &Answers, batch: &Bytes, name: &Name) -> [u64; 6] {
    let [number, file, record, field, offset] = a.fault;
    if number != 0 {
        return [number, file, record, field, offset, 0];
    }
    let stops = records_of(2, &batch[1]);
    let named: Vec<u64> = stops.iter().filter(|s| s[1..4] == [&name[0][..], &name[1][..], &name[2][..]]).map(|s| value(s[0])).collect();
    match named[..] {
        [] => [NO_SUCH_NAME, 0, 0, 0, 0, 0],
        [stop] => [0, 0, 0, 0, 0, stop],
        _ => [SEVERAL_NAMED, 0, 0, 0, 0, named.len() as u64],
    }
}

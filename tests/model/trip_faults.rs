//! What is wrong with a trip's days or stops, put into a plan that stands: each fault alone, by the name that the model has for it.

use crate::generator::Random;
use crate::plans::{any_mark, coded, is_day_sign, Halt, Plan};
use crate::trips::{
    Moment, ANGLE_BEFORE, ANGLE_BEHIND, BAR_BEFORE, BAR_BEHIND, EMPTY_BETWEEN, FALLS_BETWEEN, FALLS_INSIDE, FIRST_ARRIVES, FIRST_KILOMETRE, FIRST_LEAVES, KILOMETRES_AT_BAR,
    KILOMETRES_BEHIND_BAR, KILOMETRES_FALL, LAST_ARRIVES, NO_DEPARTURE, TOO_FEW,
};

/// What breaks the day rules.
#[derive(Clone, Copy)]
pub enum DayBreak {
    Marks,
    Types(u8, u8),
    ThreeWith(u8),
}

pub fn day_breaks() -> Vec<DayBreak> {
    let pairs = ["56", "57", "58", "67", "68", "78", "17", "18", "31", "32", "34", "35", "36", "37", "38"];
    let types = pairs.iter().map(|p| DayBreak::Types(p.as_bytes()[0], p.as_bytes()[1]));
    let signs = b"X+1234567".iter().map(|&s| DayBreak::ThreeWith(s));
    [DayBreak::Marks].into_iter().chain(types).chain(signs).collect()
}

impl DayBreak {
    pub fn name(self) -> String {
        match self {
            DayBreak::Marks => "two different marks".to_string(),
            DayBreak::Types(one, other) => format!("types {} and {}", one as char, other as char),
            DayBreak::ThreeWith(sign) => format!("type 3 with {}", sign as char),
        }
    }

    /// The types of the records that break it.
    pub fn kinds(self, r: &mut Random) -> [u8; 2] {
        match self {
            DayBreak::Marks => [r.pick(b"12456"), 0],
            DayBreak::Types(one, other) => [one, other],
            DayBreak::ThreeWith(_) => [b'3', b'3'],
        }
    }

    /// New days for a plan that break this rule and no other.
    pub fn put(self, r: &mut Random, plan: &mut Plan) {
        let (mark, days) = (any_mark(r), plan.valid);
        let [one, other] = self.kinds(r);
        let other = if other == 0 { one } else { other };
        plan.codes = [one, other].iter().map(|&kind| coded(r, kind, &mark, days)).collect();
        // what may stand beside them, and records without a type
        let beside: Vec<u8> = if one == b'3' { vec![0] } else { vec![0, one, other, b'2', b'4'] };
        for _ in 0..r.below(4) {
            let kind = r.pick(&beside);
            let at = r.below(plan.codes.len() + 1);
            plan.codes.insert(at, coded(r, kind, &mark, days));
        }
        if one == b'3' {
            plan.signs.retain(|&s| !is_day_sign(s));
        }
        match self {
            DayBreak::Marks => {
                let typed: Vec<usize> = (0..plan.codes.len()).filter(|&i| plan.codes[i].kind != 0).collect();
                plan.codes[typed[r.below(typed.len())]].mark = other_mark(r, &mark);
            }
            DayBreak::ThreeWith(sign) => plan.signs.insert(r.below(plan.signs.len() + 1), sign),
            DayBreak::Types(..) => (),
        }
    }
}

/// Another mark, often one that differs in one digit.
pub fn other_mark(r: &mut Random, mark: &[u8]) -> Vec<u8> {
    loop {
        let mut other = any_mark(r);
        if r.one_in(2) {
            other[1] = mark[1];
        } else if r.one_in(2) {
            other[0] = mark[0];
        }
        if other != mark {
            return other;
        }
    }
}

fn minute(m: Moment) -> Option<u64> {
    match m {
        Moment::At(t) => Some(t),
        _ => None,
    }
}

fn first_time(h: &Halt) -> Option<u64> {
    minute(h.arrival).or(minute(h.departure))
}

fn last_time(h: &Halt) -> Option<u64> {
    minute(h.departure).or(minute(h.arrival))
}

fn timed(halts: &[Halt]) -> Vec<usize> {
    (0..halts.len()).filter(|&i| first_time(&halts[i]).is_some()).collect()
}

fn ends(halts: &[Halt]) -> (usize, usize) {
    let all = timed(halts);
    (all[0], all[all.len() - 1])
}

fn clear(h: &mut Halt) {
    h.kilometre = None;
    h.arrival = Moment::Empty;
    h.departure = Moment::Empty;
}

fn one_of(r: &mut Random, all: &[usize]) -> Option<usize> {
    if all.is_empty() {
        None
    } else {
        Some(all[r.below(all.len())])
    }
}

/// A number below `end`, often the last one.
fn under(r: &mut Random, end: u64) -> u64 {
    if r.one_in(2) {
        end - 1
    } else {
        r.below(end as usize) as u64
    }
}

/// Changes the halts of a trip that stands so that one rule is broken; None where they give no way to it.
pub type Damage = fn(&mut Random, &mut [Halt]) -> Option<()>;

/// Each way to break a stop rule, with the model's name for what is broken.
pub const STOP_DAMAGE: [(&str, &str, Damage); 21] = [
    ("no record with a time", TOO_FEW, no_time),
    ("one record with a time", TOO_FEW, one_time),
    ("one record with two times", TOO_FEW, two_times_in_one),
    ("the first with an arrival too", FIRST_ARRIVES, first_arrives),
    ("the first with an arrival only", FIRST_LEAVES, first_without_departure),
    ("the first beyond kilometre 0", FIRST_KILOMETRE, first_beyond_0),
    ("the last with a departure only", LAST_ARRIVES, last_without_arrival),
    ("an empty record between", EMPTY_BETWEEN, empty_between),
    ("an arrival only between", NO_DEPARTURE, no_departure),
    ("| before the first", BAR_BEFORE, |r, h| outside(r, h, Moment::Bar, true)),
    ("< before the first", ANGLE_BEFORE, |r, h| outside(r, h, Moment::Angle, true)),
    ("| behind the last", BAR_BEHIND, |r, h| outside(r, h, Moment::Bar, false)),
    ("< behind the last", ANGLE_BEHIND, |r, h| outside(r, h, Moment::Angle, false)),
    ("a time before that of the record before", FALLS_BETWEEN, |r, h| time_falls(r, h, false)),
    ("the last time before that of the record before", FALLS_BETWEEN, |r, h| time_falls(r, h, true)),
    ("an arrival after its departure", FALLS_INSIDE, |r, h| falls_inside(r, h, false)),
    ("the last with an arrival after its departure", FALLS_INSIDE, |r, h| falls_inside(r, h, true)),
    ("kilometres fall from a time to a time", KILOMETRES_FALL, |r, h| kilometres_fall(r, h, false, false)),
    ("kilometres fall at a |", KILOMETRES_AT_BAR, |r, h| kilometres_fall(r, h, false, true)),
    ("kilometres fall from | to |", KILOMETRES_AT_BAR, |r, h| kilometres_fall(r, h, true, true)),
    ("kilometres fall behind a |", KILOMETRES_BEHIND_BAR, |r, h| kilometres_fall(r, h, true, false)),
];

fn no_time(_: &mut Random, halts: &mut [Halt]) -> Option<()> {
    halts.iter_mut().for_each(clear);
    Some(())
}

fn one_time(r: &mut Random, halts: &mut [Halt]) -> Option<()> {
    let left = one_of(r, &timed(halts))?;
    (0..halts.len()).filter(|&i| i != left).for_each(|i| clear(&mut halts[i]));
    Some(())
}

fn two_times_in_one(r: &mut Random, halts: &mut [Halt]) -> Option<()> {
    one_time(r, halts)?;
    let left = timed(halts)[0];
    let time = Moment::At(first_time(&halts[left])?);
    halts[left].arrival = time;
    halts[left].departure = time;
    Some(())
}

fn first_arrives(r: &mut Random, halts: &mut [Halt]) -> Option<()> {
    let first = &mut halts[ends(halts).0];
    let departure = minute(first.departure)?;
    first.arrival = Moment::At(under(r, departure + 1));
    Some(())
}

fn first_without_departure(_: &mut Random, halts: &mut [Halt]) -> Option<()> {
    let first = &mut halts[ends(halts).0];
    std::mem::swap(&mut first.arrival, &mut first.departure);
    Some(())
}

fn first_beyond_0(r: &mut Random, halts: &mut [Halt]) -> Option<()> {
    let greatest = halts.iter().filter_map(|h| h.kilometre).max()?;
    let more = if r.one_in(2) { 1 } else { 1 + r.below(1000) as u64 };
    if greatest + more > 999_999_999 {
        return None;
    }
    halts.iter_mut().filter_map(|h| h.kilometre.as_mut()).for_each(|k| *k += more);
    Some(())
}

fn last_without_arrival(_: &mut Random, halts: &mut [Halt]) -> Option<()> {
    let last = &mut halts[ends(halts).1];
    if last.departure == Moment::Empty {
        last.departure = last.arrival;
    }
    last.arrival = Moment::Empty;
    Some(())
}

fn empty_between(r: &mut Random, halts: &mut [Halt]) -> Option<()> {
    let (first, last) = ends(halts);
    let at = one_of(r, &(first + 1..last).collect::<Vec<usize>>())?;
    clear(&mut halts[at]);
    Some(())
}

fn no_departure(r: &mut Random, halts: &mut [Halt]) -> Option<()> {
    let all = timed(halts);
    let at = one_of(r, &all[1..all.len() - 1])?;
    if halts[at].arrival == Moment::Empty {
        halts[at].arrival = halts[at].departure;
    }
    halts[at].departure = Moment::Empty;
    Some(())
}

fn outside(r: &mut Random, halts: &mut [Halt], sign: Moment, before: bool) -> Option<()> {
    let (first, last) = ends(halts);
    let places: Vec<usize> = if before { (0..first).collect() } else { (last + 1..halts.len()).collect() };
    let at = one_of(r, &places)?;
    halts[at].departure = sign;
    halts[at].arrival = if r.one_in(2) { sign } else { Moment::Empty };
    if sign == Moment::Bar {
        halts[at].kilometre = if before { Some(0) } else { halts[last].kilometre };
    }
    Some(())
}

/// The first time of a record becomes less than the last time of the record before that has one.
fn time_falls(r: &mut Random, halts: &mut [Halt], at_last: bool) -> Option<()> {
    let all = timed(halts);
    let may_fall = |i: usize| last_time(&halts[all[i - 1]]) > Some(0) && (!at_last || i + 1 == all.len());
    let i = one_of(r, &(1..all.len()).filter(|&i| may_fall(i)).collect::<Vec<usize>>())?;
    let time = Moment::At(under(r, last_time(&halts[all[i - 1]])?));
    let h = &mut halts[all[i]];
    if h.arrival == Moment::Empty {
        h.departure = time;
    } else {
        h.arrival = time;
    }
    Some(())
}

fn falls_inside(r: &mut Random, halts: &mut [Halt], at_last: bool) -> Option<()> {
    let last = ends(halts).1;
    let with_both = |i: usize| minute(halts[i].arrival).is_some() && minute(halts[i].departure).map_or(false, |d| d < 1439);
    let places: Vec<usize> = (0..halts.len()).filter(|&i| with_both(i) && (i == last) == at_last).collect();
    let h = &mut halts[one_of(r, &places)?];
    let departure = minute(h.departure)?;
    h.arrival = Moment::At(1439 - under(r, 1439 - departure));
    Some(())
}

/// The kilometre of a record becomes less than that of the record before that has one; either is a `|` record or one with a time.
fn kilometres_fall(r: &mut Random, halts: &mut [Halt], from_bar: bool, to_bar: bool) -> Option<()> {
    let given: Vec<usize> = (0..halts.len()).filter(|&i| halts[i].kilometre.is_some()).collect();
    let bar = |i: usize| halts[i].departure == Moment::Bar;
    let fits = |w: &&[usize]| halts[w[0]].kilometre > Some(0) && bar(w[0]) == from_bar && bar(w[1]) == to_bar;
    let pairs: Vec<[usize; 2]> = given.windows(2).filter(fits).map(|w| [w[0], w[1]]).collect();
    if pairs.is_empty() {
        return None;
    }
    let [before, at] = pairs[r.below(pairs.len())];
    halts[at].kilometre = Some(under(r, halts[before].kilometre?));
    Some(())
}

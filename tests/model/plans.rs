//! Trips as they are meant before they are written into a batch. A plan knows by itself, without the model's judgement, on which days it runs and what each of its
//! stops is to answer.

use crate::calendar::Day;
use crate::generator::Random;
use crate::maker::Maker;
use crate::trips::Moment;

/// A Caskody record. Days are numbers of the calendar; `kind` is 0 where it has no type.
#[derive(Clone)]
pub struct Coded {
    pub kind: u8,
    pub mark: Vec<u8>,
    pub from: Option<usize>,
    pub to: Option<usize>,
}

/// A Zasspoje record, with the signs of its own codes and of those that Zaslinky has for it.
#[derive(Clone)]
pub struct Halt {
    pub tariff: u64,
    pub stop: u64,
    pub kilometre: Option<u64>,
    pub arrival: Moment,
    pub departure: Moment,
    pub own: Vec<u8>,
    pub of_line: Vec<u8>,
}

#[derive(Clone)]
pub struct Plan {
    pub line: u64,
    pub number: u64,
    /// The line's first and last day.
    pub valid: (usize, usize),
    /// To be put into its Spoje codes.
    pub signs: Vec<u8>,
    pub codes: Vec<Coded>,
    /// In travel order.
    pub halts: Vec<Halt>,
}

/// Every set of types that a trip may have.
pub fn combinations() -> Vec<Vec<u8>> {
    let with_weeks: [&[u8]; 8] = [b"", b"1", b"5", b"6", b"7", b"8", b"15", b"16"];
    let beside: [&[u8]; 4] = [b"", b"2", b"4", b"24"];
    let mut all: Vec<Vec<u8>> = with_weeks.iter().flat_map(|w| beside.iter().map(move |b| [*w, *b].concat())).collect();
    all.push(b"3".to_vec());
    all
}

pub fn is_day_sign(sign: u8) -> bool {
    sign == b'X' || sign == b'+' || (b'1'..=b'7').contains(&sign)
}

pub fn any_mark(r: &mut Random) -> Vec<u8> {
    (10 + r.below(70)).to_string().into_bytes()
}

/// A record of a type, with dates out of a stretch of days.
pub fn coded(r: &mut Random, kind: u8, mark: &[u8], days: (usize, usize)) -> Coded {
    let from = days.0 + r.below(days.1 - days.0 + 1);
    let to = match r.below(4) {
        0 => from,
        1 => days.1,
        _ => (from + r.below(60)).min(days.1),
    };
    let (from, to) = match kind {
        b'1' | b'4' => (Some(from), if r.one_in(3) { None } else { Some(to) }),
        b'2' | b'3' => (Some(from), None),
        b'5' | b'6' => (None, None),
        b'7' | b'8' => (Some(from), Some(to)),
        _ => (if r.one_in(2) { Some(from) } else { None }, None),
    };
    let mark = if kind == 0 { vec![r.pick(b"OmM[p")] } else { mark.to_vec() };
    Coded { kind, mark, from, to }
}

/// So many records of the types of a set, each at least once, and of none; all with one mark.
pub fn codes_of(r: &mut Random, kinds: &[u8], count: usize, days: (usize, usize)) -> Vec<Coded> {
    let mark = any_mark(r);
    let mut all: Vec<Coded> = kinds.iter().map(|&kind| coded(r, kind, &mark, days)).collect();
    while all.len() < count {
        let kind = if kinds.is_empty() || r.one_in(4) { 0 } else { r.pick(kinds) };
        all.push(coded(r, kind, &mark, days));
    }
    all
}

fn minutes(r: &mut Random, count: usize) -> Vec<u64> {
    let base = [0, 1437, r.below(1437)][r.below(3)];
    let close = r.one_in(2);
    let mut all: Vec<u64> = (0..count).map(|_| if close { base + r.below(3) } else { r.below(1440) } as u64).collect();
    all.sort();
    all
}

fn kilometres(r: &mut Random, count: usize) -> Vec<u64> {
    let end = [3, 120, 1_000_000_000][r.below(3)];
    let mut all: Vec<u64> = (0..count).map(|_| r.below(end) as u64).collect();
    all.sort();
    all
}

/// The first and the last stop with a time, out of so many.
fn ends(r: &mut Random, count: usize) -> (usize, usize) {
    if r.one_in(2) {
        return (0, count - 1);
    }
    let first = r.below(count - 1);
    (first, first + 1 + r.below(count - 1 - first))
}

/// What stands between the first and the last stop.
fn between(r: &mut Random, arrival: Moment, departure: Moment) -> (Moment, Moment) {
    match r.below(9) {
        0..=2 => (Moment::Empty, departure),
        3..=4 => (arrival, departure),
        5 => (Moment::Empty, Moment::Bar),
        6 => (Moment::Bar, Moment::Bar),
        7 => (Moment::Empty, Moment::Angle),
        _ => (Moment::Angle, Moment::Angle),
    }
}

/// Times and kilometres that stand, for at least two halts in travel order. Equal ones are common.
pub fn timetable(r: &mut Random, halts: &mut [Halt]) {
    let (first, last) = ends(r, halts.len());
    let (minutes, kilometres) = (minutes(r, 2 * halts.len()), kilometres(r, halts.len()));
    for (i, h) in halts.iter_mut().enumerate() {
        let (arrival, departure) = (Moment::At(minutes[2 * i]), Moment::At(minutes[2 * i + 1]));
        let (a, d) = if i < first || i > last {
            (Moment::Empty, Moment::Empty)
        } else if i == first {
            (Moment::Empty, departure)
        } else if i == last {
            (arrival, if r.one_in(3) { departure } else { Moment::Empty })
        } else {
            between(r, arrival, departure)
        };
        h.arrival = a;
        h.departure = d;
        h.kilometre = if i == first { Some(0) } else { Some(kilometres[i]) };
        if d == Moment::Angle || (a, d) == (Moment::Empty, Moment::Empty) {
            h.kilometre = None;
        }
    }
}

/// A halt without times.
pub fn halt(tariff: u64, stop: u64, own: Vec<u8>, of_line: Vec<u8>) -> Halt {
    Halt { tariff, stop, kilometre: None, arrival: Moment::Empty, departure: Moment::Empty, own, of_line }
}

/// The codes of a Zasspoje record: none, one, or two with the same sign.
pub fn own_signs(r: &mut Random) -> Vec<u8> {
    let sign = r.pick(b"()x\xa7");
    vec![sign; [0, 0, 0, 1, 1, 2][r.below(6)]]
}

/// Up to three signs of a Zaslinky record.
pub fn line_signs(r: &mut Random) -> Vec<u8> {
    (0..[0, 0, 1, 1, 2, 3][r.below(6)]).map(|_| r.pick(b"()x\xa7$$")).collect()
}

/// Puts halts into the order in which a trip of this number goes along them.
pub fn turn(number: u64, halts: &mut [Halt]) {
    if number % 2 == 1 {
        halts.sort_by_key(|h| h.tariff);
    } else {
        halts.sort_by_key(|h| std::cmp::Reverse(h.tariff));
    }
}

impl Plan {
    fn of_kind(&self, kind: u8) -> impl Iterator<Item = &Coded> + '_ {
        self.codes.iter().filter(move |c| c.kind == kind)
    }

    /// The days on which it runs, painted over the whole calendar one rule after the other.
    pub fn painted(&self, days: &[Day], holidays: &[u64]) -> Vec<bool> {
        let mut painted = vec![self.of_kind(b'3').next().is_none(); days.len()];
        self.clear_by_sign(&mut painted, days, holidays);
        self.clear_by_week(&mut painted, days);
        for kind in *b"178" {
            self.clear_outside_periods(&mut painted, kind);
        }
        for c in self.of_kind(b'2').chain(self.of_kind(b'3')) {
            painted[c.from.unwrap()] = true;
        }
        for c in self.of_kind(b'4') {
            let from = c.from.unwrap();
            painted[from..=c.to.unwrap_or(from)].iter_mut().for_each(|p| *p = false);
        }
        painted[..self.valid.0].iter_mut().for_each(|p| *p = false);
        painted[self.valid.1 + 1..].iter_mut().for_each(|p| *p = false);
        painted
    }

    fn clear_by_sign(&self, painted: &mut [bool], days: &[Day], holidays: &[u64]) {
        if !self.signs.iter().any(|&s| is_day_sign(s)) {
            return;
        }
        let mut may: Vec<bool> = days.iter().map(|d| self.signs.contains(&(b'0' + d.weekday as u8))).collect();
        let mut free = vec![false; days.len()];
        holidays.iter().filter(|&&h| h < days.len() as u64).for_each(|&h| free[h as usize] = true);
        for (i, d) in days.iter().enumerate() {
            let working = d.weekday < 6 && !free[i];
            let feast = d.weekday == 7 || free[i];
            may[i] |= (working && self.signs.contains(&b'X')) || (feast && self.signs.contains(&b'+'));
        }
        painted.iter_mut().zip(may).for_each(|(p, m)| *p &= m);
    }

    fn clear_by_week(&self, painted: &mut [bool], days: &[Day]) {
        for (kinds, left) in [(b"57", 1), (b"68", 0)] {
            if self.codes.iter().any(|c| kinds.contains(&c.kind)) {
                painted.iter_mut().zip(days).for_each(|(p, d)| *p &= d.week % 2 == left);
            }
        }
    }

    fn clear_outside_periods(&self, painted: &mut [bool], kind: u8) {
        if self.of_kind(kind).next().is_none() {
            return;
        }
        let mut held = vec![false; painted.len()];
        for c in self.of_kind(kind) {
            let from = c.from.unwrap();
            held[from..=c.to.unwrap_or(from)].iter_mut().for_each(|h| *h = true);
        }
        painted.iter_mut().zip(held).for_each(|(p, h)| *p &= h);
    }

    /// What the answer on the nth stop is to be, of a plan that stands.
    pub fn stop_words(&self, nth: usize) -> [u64; 14] {
        let h = &self.halts[nth - 1];
        let minute = |m: Moment| if let Moment::At(t) = m { (1, t) } else { (0, 0) };
        let ((arrives, arrival), (departs, departure)) = (minute(h.arrival), minute(h.departure));
        let timed = |h: &Halt| minute(h.arrival).0 + minute(h.departure).0 > 0;
        let last = self.halts.iter().rposition(timed) == Some(nth - 1);
        let signs = if h.own.is_empty() { &h.of_line } else { &h.own };
        let mut sum = 0;
        for (bit, sign) in b"()x\xa7$".iter().enumerate() {
            let counts = signs.contains(sign) || (*sign == b'$' && h.of_line.contains(sign));
            sum += (counts as u64) << bit;
        }
        [0, 0, 0, 0, 0, h.tariff, h.stop, arrives, arrival, departs, departure, sum, last as u64, self.halts.len() as u64]
    }

    /// What a sale on a real day is to answer, of a plan that stands and runs then or doesn't: number, departure, arrival.
    pub fn sale_words(&self, runs: bool, from: u64, to: u64) -> [u64; 3] {
        let place = |tariff: u64| self.halts.iter().position(|h| h.tariff == tariff);
        let (first, second) = match (place(from), place(to)) {
            (Some(first), Some(second)) => (first, second),
            _ => return [14, 0, 0],
        };
        if !runs {
            return [15, 0, 0];
        }
        if first >= second {
            return [16, 0, 0];
        }
        let [.., departs, departure, leaving, _, _] = self.stop_words(first + 1);
        let [.., arrives, arrival, departs_again, later, reaching, _, _] = self.stop_words(second + 1);
        // ( is 1, ) is 2, 0xa7 is 8, $ is 16
        match (departs, leaving & 17, arrives + departs_again, reaching & 18, leaving & reaching & 8) {
            (0, ..) => [17, 0, 0],
            (_, closed, ..) if closed != 0 => [17, 0, 0],
            (_, _, 0, ..) => [18, 0, 0],
            (_, _, _, closed, _) if closed != 0 => [18, 0, 0],
            (_, _, _, _, 8) => [19, 0, 0],
            _ => [0, departure, if arrives == 1 { arrival } else { later }],
        }
    }
}

impl Maker {
    /// The fields 4 to 7 of a Caskody record.
    pub fn coded_texts(&self, c: &Coded) -> [Vec<u8>; 4] {
        let kind = if c.kind == 0 { Vec::new() } else { vec![c.kind] };
        let date = |day: Option<usize>| day.map_or(Vec::new(), |d| self.written(d));
        [c.mark.clone(), kind, date(c.from), date(c.to)]
    }

    /// The fields 8 to 10 of a Zasspoje record.
    pub fn halt_texts(&mut self, h: &Halt) -> [Vec<u8>; 3] {
        let moment = |m: Moment| match m {
            Moment::Empty => Vec::new(),
            Moment::Bar => b"|".to_vec(),
            Moment::Angle => b"<".to_vec(),
            Moment::At(t) => format!("{:02}{:02}", t / 60, t % 60).into_bytes(),
        };
        let kilometre = h.kilometre.map_or(Vec::new(), |k| crate::batches::written(&mut self.r, k, 9));
        [kilometre, moment(h.arrival), moment(h.departure)]
    }
}

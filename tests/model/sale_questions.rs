//! The questions at the counter: may a ticket be sold, and which stop has a name. What a batch's trips and stops were meant to be is known from how they were made, and
//! the model has to say the same before the library is asked.

use std::collections::{BTreeSet, HashMap};
use std::sync::Arc;

use crate::asker::Asker;
use crate::batch_faults::{edit, fault, files_for, finish};
use crate::batches::{number, Batch, Order, ORDERS, SMALL};
use crate::calendar::{days_in, Calendar};
use crate::cases;
use crate::format::LONGEST;
use crate::generator::Random;
use crate::hints::{right, wrong, EMPTY, PLAIN, RIGHT};
use crate::link::{Call, Counts, Hint, Link};
use crate::links::{first_fault, Bytes};
use crate::maker::Maker;
use crate::plans::{codes_of, combinations, halt, is_day_sign, timetable, turn, Halt, Plan};
use crate::sale_met::{count_name, count_sale, one_more};
use crate::sales::{applying, questions, sale, sale_words, sales_words, stop_words, Name, Question};
use crate::trip_questions::{around, far_from, fewer, plans, some_holidays, some_signs, telling_days, varied, year};
use crate::trips::{Answers, Moment};

/// A stop of a batch as it was meant: its number and its name.
type Named = (u64, Name);

/// Asks about one batch after the other.
struct Counter<'a> {
    a: Asker<'a>,
    m: Maker,
    c: Calendar,
    holidays: Arc<Vec<u64>>,
    batch: Arc<Bytes>,
    answers: Answers,
    /// What the batch was made of; nothing where only the model knows.
    plans: Vec<Plan>,
    stops: Vec<Named>,
    /// The days of each plan, with the holidays of now.
    painted: HashMap<(u64, u64), Vec<bool>>,
    hints: Vec<Hint>,
    turn: usize,
    /// What is counted with the next call.
    counts: Counts,
}

impl<'a> Counter<'a> {
    fn new(link: &'a mut Link, seed: u64) -> Counter<'a> {
        let nothing = vec![Vec::new(); 13];
        let answers = Answers::new(&nothing);
        Counter {
            a: Asker::new(link, seed),
            m: Maker::new(seed),
            c: Calendar::new(),
            holidays: Arc::new(Vec::new()),
            batch: Arc::new(nothing),
            answers,
            plans: Vec::new(),
            stops: Vec::new(),
            painted: HashMap::new(),
            hints: Vec::new(),
            turn: 0,
            counts: Counts::new(),
        }
    }

    /// A batch to be asked about. `before`: the right hint of the batch before it was damaged.
    fn lay_bytes(&mut self, bytes: Bytes, before: &[u32]) {
        self.a.lend(&bytes);
        self.answers = Answers::new(&bytes);
        let good = right(&bytes).filter(|h| !h.is_empty());
        let mut hints: Vec<(&'static str, Vec<u32>)> = good.into_iter().map(|h| (RIGHT, h)).collect();
        hints.push((EMPTY, Vec::new()));
        hints.extend(wrong(&mut self.m.r, &bytes, before).into_iter().take(3));
        self.hints = hints.into_iter().map(|(kind, hint)| (kind, Arc::new(hint))).collect();
        self.batch = Arc::new(bytes);
        self.plans.clear();
        self.stops.clear();
        self.painted.clear();
        one_more(&mut self.counts, format!("batches: {}", self.answers.fault[0]));
    }

    /// A batch that stands, and what it was made of.
    fn lay(&mut self, b: &Batch) {
        let bytes = b.bytes();
        let before = right(&bytes).unwrap();
        self.lay_bytes(bytes, &before);
        assert_eq!(self.answers.fault, [0; 5], "the model on a batch that stands");
        self.plans = b.plans.clone();
        let name = |t: &[Vec<u8>]| -> Name { [t[1].clone(), t[2].clone(), t[3].clone()] };
        self.stops = (0..b.count(2)).map(|row| (number(&b.texts(2, row)[0]), name(b.texts(2, row)))).collect();
    }

    fn lay_plans(&mut self, plans: Vec<Plan>, i: usize) {
        let mut b = Batch::of_plans(&mut self.m, plans);
        b.arrange(&mut self.m.r, ORDERS[i % 5]);
        self.lay(&b);
    }

    fn lend_holidays(&mut self, list: Vec<u64>) {
        self.a.link.letter(b'l');
        self.a.link.word(list.len() as u64);
        list.iter().for_each(|&h| self.a.link.word(h));
        self.holidays = Arc::new(list);
        self.painted.clear();
    }

    /// A hint of the batch, one after the other; it is lent.
    fn hint(&mut self) -> Hint {
        self.turn += 1;
        let hint = self.hints[self.turn % self.hints.len()].clone();
        self.a.lend_hint(&hint.1);
        hint
    }

    /// The days of a plan with the holidays of now.
    fn days_of(&mut self, plan: &Plan) -> &[bool] {
        let (days, holidays) = (&self.c.days, &self.holidays);
        self.painted.entry((plan.line, plan.number)).or_insert_with(|| plan.painted(days, holidays))
    }

    /// What a sale is to answer, by the plans alone; none where only the model knows.
    fn meant(&mut self, q: &Question) -> Option<[u64; 3]> {
        let [line, trip, day, month, year, from, to] = *q;
        if self.plans.is_empty() {
            return None;
        }
        if !(1900..2100).contains(&year) || !(1..=12).contains(&month) || day == 0 || day > days_in(month, year) {
            return Some([12, 0, 0]);
        }
        let plan = match self.plans.iter().find(|p| p.line == line && p.number == trip) {
            Some(plan) => plan.clone(),
            None => return Some([13, 0, 0]),
        };
        let today = self.c.day(day, month, year)[1] as usize;
        let runs = self.days_of(&plan)[today];
        Some(plan.sale_words(runs, from, to))
    }

    /// Holds the model to the plans, and counts what the question was about.
    fn hold(&mut self, q: &Question, counts: &mut Counts) {
        if self.answers.fault[0] != 0 {
            return;
        }
        let words = sale(&self.answers, &self.c, q, &self.holidays);
        if let Some(meant) = self.meant(q) {
            assert_eq!(words, meant, "the model on the sale {:?}", q);
        }
        let plan = self.plans.iter().find(|p| p.line == q[0] && p.number == q[1]);
        count_sale(counts, &applying(&self.answers, &self.c, q, &self.holidays), plan, q);
    }

    fn expect_sale(&mut self, q: &Question, hint: Hint) {
        let mut counts = std::mem::take(&mut self.counts);
        self.hold(q, &mut counts);
        q.iter().for_each(|&w| self.a.link.word(w));
        let words = sale_words(&self.answers, &self.c, q, &self.holidays);
        self.a.link.expect(Call::Sale { batch: self.batch.clone(), hint, holidays: self.holidays.clone(), question: *q, counts }, &words);
    }

    /// One sale: the plain call with every placing, and the hinted one.
    fn ask(&mut self, q: Question) {
        self.a.link.letter(b'q');
        self.expect_sale(&q, (PLAIN, Arc::new(Vec::new())));
        let hint = self.hint();
        self.a.link.letter(b'Q');
        self.expect_sale(&q, hint);
    }

    /// Many sales, with room for so many numbers. `each_placing`: every placing, otherwise one.
    fn ask_list(&mut self, asked: Vec<u64>, room: usize, each_placing: bool) {
        let hint = self.hint();
        let mut counts = std::mem::take(&mut self.counts);
        if room >= 3 * (asked.len() / 7) {
            questions(&asked).iter().for_each(|q| self.hold(q, &mut counts));
        }
        let list: Vec<u64> = (0..room).map(|_| self.m.r.next()).collect();
        let (words, after) = sales_words(&self.answers, &self.c, &asked, &self.holidays, &list);
        self.a.link.letter(if each_placing { b'u' } else { b'U' });
        for numbers in [&asked, &list] {
            self.a.link.word(numbers.len() as u64);
            numbers.iter().for_each(|&n| self.a.link.word(n));
        }
        let buffer = after.iter().flat_map(|n| n.to_le_bytes()).collect();
        let call = Call::Sales { batch: self.batch.clone(), hint, holidays: self.holidays.clone(), asked: Arc::new(asked), room, counts };
        self.a.link.expect_buffer(call, &words, buffer);
    }

    /// Many sales with room for all, and some more or none.
    fn ask_many(&mut self, all: &[Question]) {
        let more = [0, 1, 3, 8][self.m.r.below(4)];
        self.ask_list(all.concat(), 3 * all.len() + more, false);
    }

    fn expect_stop(&mut self, name: &Name, hint: Hint) {
        let mut counts = std::mem::take(&mut self.counts);
        let words = stop_words(&self.answers, &self.batch, name);
        if self.answers.fault[0] == 0 {
            let named: Vec<u64> = self.stops.iter().filter(|s| s.1 == *name).map(|s| s.0).collect();
            let meant = if named.len() == 1 { [0, 0, 0, 0, 0, named[0]] } else { [if named.is_empty() { 23 } else { 24 }, 0, 0, 0, 0, named.len() as u64] };
            assert_eq!(words, meant, "the model on the name {:?}", name);
            count_name(&mut counts, &words);
        }
        name.iter().for_each(|part| self.a.link.bytes(part));
        self.a.link.expect(Call::StopName { batch: self.batch.clone(), hint, name: name.clone(), counts }, &words);
    }

    /// One name: the plain call with every placing, and the hinted one.
    fn ask_name(&mut self, name: &Name) {
        self.a.link.letter(b'n');
        self.expect_stop(name, (PLAIN, Arc::new(Vec::new())));
        let hint = self.hint();
        self.a.link.letter(b'N');
        self.expect_stop(name, hint);
    }

    fn note(&mut self, what: &str) {
        one_more(&mut self.counts, what.to_string());
    }

    /// Day, month and year of a day number.
    fn date(&self, day: usize) -> [u64; 3] {
        let d = self.c.days[day];
        [d.day, d.month, d.year]
    }
}

fn asked(line: u64, trip: u64, date: [u64; 3], from: u64, to: u64) -> Question {
    [line, trip, date[0], date[1], date[2], from, to]
}

fn timed(mut h: Halt, arrival: Moment, departure: Moment, kilometre: Option<u64>) -> Halt {
    h.arrival = arrival;
    h.departure = departure;
    h.kilometre = kilometre;
    h
}

/// Two trips of one line by hand, there and back: 3 goes on working days of 2001, 4 every day.
fn by_hand() -> Vec<Plan> {
    let (at, none) = (Moment::At, Moment::Empty);
    let along = |tariff: u64, own: &[u8], of_line: &[u8]| halt(tariff, 500 + tariff, own.to_vec(), of_line.to_vec());
    let there = vec![
        timed(along(1, b"", b""), none, at(360), Some(0)),
        timed(along(2, b"(", b""), none, at(370), Some(2)),
        timed(along(3, b"", b")"), at(380), at(385), Some(5)),
        timed(along(4, b"", b""), none, Moment::Bar, Some(6)),
        timed(along(5, b"\xa7", b""), none, at(400), Some(7)),
        timed(along(6, b"", b"\xa7"), none, at(410), Some(9)),
        timed(along(7, b"x", b"$"), none, at(420), Some(11)),
        timed(along(8, b"", b""), none, Moment::Angle, None),
        timed(along(9, b"", b""), at(450), none, Some(15)),
        timed(along(10, b"", b""), none, none, None),
    ];
    let back = vec![
        timed(along(9, b"", b""), none, at(480), Some(0)),
        timed(along(6, b"x", b"\xa7"), none, at(500), Some(5)),
        timed(along(5, b"\xa7", b""), at(505), at(510), Some(8)),
        timed(along(2, b"", b""), at(530), at(530), Some(9)),
    ];
    let plan = |number: u64, signs: &[u8], halts: Vec<Halt>| Plan { line: 100, number, valid: (36_890, 37_254), signs: signs.to_vec(), codes: Vec::new(), halts };
    vec![plan(3, b"X", there), plan(4, b"", back)]
}

/// Sales whose answers were worked out by hand: trip, day, month, year, from, to, and what follows. 11 June 2001 is a Monday.
const BY_HAND: [([u64; 6], [u64; 3]); 44] = [
    ([3, 11, 6, 2001, 1, 2], [0, 360, 370]),
    ([3, 11, 6, 2001, 1, 3], [18, 0, 0]),
    ([3, 11, 6, 2001, 2, 5], [17, 0, 0]),
    ([3, 11, 6, 2001, 2, 3], [17, 0, 0]),
    ([3, 11, 6, 2001, 3, 5], [0, 385, 400]),
    ([3, 11, 6, 2001, 1, 4], [18, 0, 0]),
    ([3, 11, 6, 2001, 4, 5], [17, 0, 0]),
    ([3, 11, 6, 2001, 1, 5], [0, 360, 400]),
    ([3, 11, 6, 2001, 1, 6], [0, 360, 410]),
    ([3, 11, 6, 2001, 5, 6], [19, 0, 0]),
    ([3, 11, 6, 2001, 5, 9], [0, 400, 450]),
    ([3, 11, 6, 2001, 6, 9], [0, 410, 450]),
    ([3, 11, 6, 2001, 1, 7], [18, 0, 0]),
    ([3, 11, 6, 2001, 7, 9], [17, 0, 0]),
    ([3, 11, 6, 2001, 1, 8], [18, 0, 0]),
    ([3, 11, 6, 2001, 8, 9], [17, 0, 0]),
    ([3, 11, 6, 2001, 1, 9], [0, 360, 450]),
    ([3, 11, 6, 2001, 1, 10], [18, 0, 0]),
    ([3, 11, 6, 2001, 9, 10], [17, 0, 0]),
    ([3, 11, 6, 2001, 10, 1], [16, 0, 0]),
    ([3, 11, 6, 2001, 9, 1], [16, 0, 0]),
    ([3, 11, 6, 2001, 6, 5], [16, 0, 0]),
    ([3, 11, 6, 2001, 1, 1], [16, 0, 0]),
    ([3, 11, 6, 2001, 1, 11], [14, 0, 0]),
    ([3, 11, 6, 2001, 11, 1], [14, 0, 0]),
    ([3, 11, 6, 2001, 0, 0], [14, 0, 0]),
    ([3, 10, 6, 2001, 1, 2], [15, 0, 0]),
    ([3, 10, 6, 2001, 1, 11], [14, 0, 0]),
    ([3, 10, 6, 2001, 2, 2], [15, 0, 0]),
    ([3, 29, 12, 2000, 1, 2], [15, 0, 0]),
    ([3, 1, 1, 2001, 1, 2], [0, 360, 370]),
    ([3, 31, 12, 2001, 1, 2], [0, 360, 370]),
    ([3, 1, 1, 2002, 1, 2], [15, 0, 0]),
    ([3, 12, 6, 2001, 1, 2], [15, 0, 0]),
    ([3, 29, 2, 2001, 1, 2], [12, 0, 0]),
    ([3, 31, 6, 2001, 1, 2], [12, 0, 0]),
    ([5, 31, 6, 2001, 1, 2], [12, 0, 0]),
    ([5, 11, 6, 2001, 1, 2], [13, 0, 0]),
    ([4, 10, 6, 2001, 9, 6], [0, 480, 500]),
    ([4, 10, 6, 2001, 6, 5], [0, 500, 505]),
    ([4, 10, 6, 2001, 5, 2], [0, 510, 530]),
    ([4, 10, 6, 2001, 2, 5], [16, 0, 0]),
    ([4, 10, 6, 2001, 9, 2], [0, 480, 530]),
    ([4, 10, 6, 2001, 9, 3], [14, 0, 0]),
];

pub fn small_facts(link: &mut Link) {
    let mut d = Counter::new(link, 81);
    for i in 0..5 {
        d.lay_plans(by_hand(), i);
        // a Tuesday
        d.lend_holidays(vec![37_052]);
        let mut all = Vec::new();
        for ([trip, day, month, year, from, to], want) in BY_HAND {
            let q = asked(100, trip, [day, month, year], from, to);
            assert_eq!(sale(&d.answers, &d.c, &q, &d.holidays), want, "the model on {:?}", q);
            all.push(q);
            d.note("asked: by hand");
            d.ask(q);
        }
        d.ask_many(&all);
    }
    println!("{} sales by hand: asked", BY_HAND.len());
}

/// Every two stops of every trip of the samples, on some days.
pub fn samples(link: &mut Link) {
    let mut d = Counter::new(link, 82);
    let bytes: Bytes = (1..=13).map(|file| crate::faults::sample("samples/good", file)).collect();
    d.lay_bytes(bytes, &[]);
    d.lend_holidays(vec![37_075, 37_076, 37_161, 37_191, 37_248, 37_249]);
    let trips = d.answers.trips.clone();
    let mut all = Vec::new();
    for t in &trips {
        for day in [36_900, 37_050, 37_051, 37_076, 37_100] {
            for from in &t.stops {
                all.extend(t.stops.iter().map(|to| asked(t.line, t.number, d.date(day), from.tariff, to.tariff)));
            }
        }
    }
    for part in all.chunks(200) {
        d.ask_many(part);
        d.ask(part[0]);
    }
}

/// A day on which a trip runs, and one on which it doesn't, if there are such.
fn two_days(d: &mut Counter, plan: &Plan) -> Vec<usize> {
    let start = d.m.r.below(plan.valid.1 - plan.valid.0 + 1);
    let painted = d.days_of(plan).to_vec();
    let near: Vec<usize> = (plan.valid.0 + start..=plan.valid.1).chain(plan.valid.0..plan.valid.0 + start).collect();
    let runs = near.iter().copied().find(|&day| painted[day]);
    let outside = if plan.valid.0 > 0 { plan.valid.0 - 1 } else { plan.valid.1 + 1 };
    let beside = near.iter().copied().chain([outside]).find(|&day| painted.get(day) == Some(&false));
    runs.into_iter().chain(beside).collect()
}

/// Tariff numbers that a trip doesn't have: of the line's other trips, near its own, and such as agree with one in the lower bits.
fn missing_tariffs(d: &mut Counter, plan: &Plan) -> Vec<u64> {
    let own: BTreeSet<u64> = plan.halts.iter().map(|h| h.tariff).collect();
    let others = d.plans.iter().flat_map(|p| p.halts.iter().map(|h| h.tariff));
    let mut all: Vec<u64> = others.filter(|t| !own.contains(t)).take(2).collect();
    let one = *own.iter().nth(d.m.r.below(own.len())).unwrap();
    let far = far_from(one);
    all.extend([far[d.m.r.below(far.len())], one + (1 << 32)].into_iter().filter(|t| !own.contains(t)));
    all
}

/// A date that isn't real.
fn unreal(r: &mut Random) -> [u64; 3] {
    let all = [[29, 2, 2001], [31, 4, 2001], [0, 5, 2001], [11, 0, 2001], [11, 13, 2001], [11, 6, 2100], [11, 6, 1899]];
    all[r.below(all.len())]
}

/// Every two of a trip's tariff numbers and of some that it doesn't have, on days that it runs and days that it doesn't, and on a date that isn't real.
fn every_pair(d: &mut Counter, plan: &Plan) -> Vec<Question> {
    let mut tariffs: Vec<u64> = plan.halts.iter().map(|h| h.tariff).collect();
    tariffs.extend(missing_tariffs(d, plan));
    let days = two_days(d, plan);
    let mut dates: Vec<[u64; 3]> = days.iter().map(|&day| d.date(day)).collect();
    dates.push(unreal(&mut d.m.r));
    let mut all = Vec::new();
    for (i, &date) in dates.iter().enumerate() {
        for &from in &tariffs {
            for &to in &tariffs {
                // most on a day that it runs
                if i == 0 || d.m.r.one_in(3) {
                    all.push(asked(plan.line, plan.number, date, from, to));
                }
                if d.m.r.one_in(12) {
                    all.push(asked(plan.line, plan.number ^ 1, date, from, to));
                }
            }
        }
    }
    all
}

/// Some of the questions as calls of their own: those that come first, and one of each number.
fn ask_some_alone(d: &mut Counter, all: &[Question], most: usize) {
    let mut seen = BTreeSet::new();
    let mut left = most;
    for q in all {
        let first = sale(&d.answers, &d.c, q, &d.holidays)[0];
        if left > 0 && seen.insert(first) {
            left -= 1;
            d.ask(*q);
        }
    }
}

/// Every two stops of trips of small batches.
pub fn pairs(link: &mut Link) {
    let mut d = Counter::new(link, 83);
    for i in 0..170 {
        let stops = 2 + d.m.r.below(5);
        let mut all = varied(&mut d.m, 3, stops);
        let left = 2 + d.m.r.below(stops - 1);
        fewer(&mut d.m.r, &mut all[i % 3], left);
        d.lay_plans(all.clone(), i);
        let list = some_holidays(&mut d.m.r, all[0].valid, i);
        d.lend_holidays(list);
        let mut asked = Vec::new();
        for plan in &all {
            asked.extend(every_pair(&mut d, plan));
        }
        d.note("asked: every two stops");
        d.ask_many(&asked);
        ask_some_alone(&mut d, &asked, 4);
    }
}

/// Every way in which Zasspoje and Zaslinky can give a stop its signs: one sign or none of its own, and up to two of the line's.
fn sign_choices() -> Vec<(Vec<u8>, Vec<u8>)> {
    let own: [&[u8]; 6] = [b"", b"(", b")", b"x", b"\xa7", b"\xa7\xa7"];
    let of_line: [&[u8]; 9] = [b"", b"(", b")", b"x", b"\xa7", b"$", b"\xa7$", b"(\xa7", b")\xa7"];
    own.iter().flat_map(|o| of_line.iter().map(move |l| (o.to_vec(), l.to_vec()))).collect()
}

/// A trip along all these stops.
fn along(m: &mut Maker, number: u64, choices: &[(Vec<u8>, Vec<u8>)]) -> Plan {
    let tariff = |i: usize| 3 * i as u64 + 1;
    let mut halts: Vec<Halt> = choices.iter().enumerate().map(|(i, (own, of_line))| halt(tariff(i), 7, own.clone(), of_line.clone())).collect();
    turn(number, &mut halts);
    timetable(&mut m.r, &mut halts);
    Plan { line: 400, number, valid: (37_000, 37_400), signs: Vec::new(), codes: Vec::new(), halts }
}

/// Times at every stop, an arrival before the departure.
fn all_timed(halts: &mut [Halt]) {
    let last = halts.len() - 1;
    for (i, h) in halts.iter_mut().enumerate() {
        let minute = 10 * i as u64;
        h.arrival = if i > 0 { Moment::At(minute + 3) } else { Moment::Empty };
        h.departure = if i < last { Moment::At(minute + 5) } else { Moment::Empty };
        h.kilometre = Some(i as u64);
    }
}

/// Every sign at the first stop with every sign at the second, from either file, with times at all stops and with times as they fall.
pub fn signs(link: &mut Link) {
    let mut d = Counter::new(link, 84);
    d.lend_holidays(Vec::new());
    for i in 0..8 {
        let mut choices = sign_choices();
        crate::batches::shuffle(&mut d.m.r, &mut choices);
        // the stops at the ends have no signs, so that all others are between
        let whole = i < 2;
        if whole {
            choices.insert(0, (Vec::new(), Vec::new()));
            choices.push((Vec::new(), Vec::new()));
        } else {
            choices.truncate(18);
        }
        let mut plan = along(&mut d.m, 5 + i as u64, &choices);
        if whole {
            all_timed(&mut plan.halts);
        }
        d.lay_plans(vec![plan.clone()], i);
        let date = d.date(37_100);
        let mut all = Vec::new();
        for (k, from) in plan.halts.iter().enumerate() {
            for (n, to) in plan.halts.iter().enumerate() {
                if k < n || d.m.r.one_in(9) {
                    all.push(asked(plan.line, plan.number, date, from.tariff, to.tariff));
                }
            }
        }
        d.note("asked: every two choices of signs");
        d.ask_many(&all);
        ask_some_alone(&mut d, &all, 6);
    }
}

/// A pair of stops that a ticket is sold for, if there is one.
fn sold_pair(plan: &Plan) -> Option<(u64, u64)> {
    let pairs = plan.halts.iter().flat_map(|a| plan.halts.iter().map(move |b| (a.tariff, b.tariff)));
    pairs.into_iter().find(|&(from, to)| plan.sale_words(true, from, to)[0] == 0)
}

/// Trips with all sets of types and signs of days that have a pair of stops to be sold.
fn of_sets(d: &mut Counter, i: usize, days: (usize, usize)) -> Vec<Plan> {
    let sets = combinations();
    let mut all = plans(&mut d.m, 2, 4, days);
    for (k, plan) in all.iter_mut().enumerate() {
        let kinds = &sets[(2 * i + k) % sets.len()];
        plan.signs = some_signs(&mut d.m.r, i + k);
        plan.signs.retain(|&s| !is_day_sign(s) || !kinds.contains(&b'3'));
        plan.codes = codes_of(&mut d.m.r, kinds, kinds.len() + 1, days);
        plan.valid = if k == 0 { days } else { plan.valid };
        while sold_pair(plan).is_none() {
            plan.halts.iter_mut().for_each(|h| h.own = vec![b'x']);
            plan.halts.iter_mut().for_each(|h| h.of_line.retain(|&s| s != b'$'));
            timetable(&mut d.m.r, &mut plan.halts);
        }
    }
    all
}

/// All days of a year, and some around it.
pub fn years(link: &mut Link) {
    let mut d = Counter::new(link, 85);
    for i in 0..33 {
        let days = year(&mut d.m, i);
        let all = of_sets(&mut d, i, days);
        d.lay_plans(all.clone(), i);
        for (k, plan) in all.iter().enumerate() {
            let list = some_holidays(&mut d.m.r, days, i + k);
            d.lend_holidays(list);
            let (from, to) = sold_pair(plan).unwrap();
            let of_year: Vec<usize> = around(days).into_iter().map(|day| day as usize).filter(|&day| day < d.c.days.len()).collect();
            let mut asks: Vec<Question> = Vec::new();
            for &day in of_year.iter().filter(|&&day| k == 0 || day % 5 == 0) {
                asks.push(asked(plan.line, plan.number, d.date(day), from, to));
                if day % 13 == 0 {
                    asks.push(asked(plan.line, plan.number, d.date(day), to, from));
                }
            }
            if k == 0 {
                d.note("asked: all days of a year");
            }
            d.ask_many(&asks);
            if i == 7 && k == 0 {
                d.note("asked: all days of a year, a call each");
                asks.into_iter().for_each(|q| d.ask(q));
            } else {
                let telling = telling_days(&mut d.m.r, plan, days, &d.holidays.clone());
                let real = telling.into_iter().filter(|&day| day <= 73_048);
                for day in real.take(4).collect::<Vec<u64>>() {
                    let q = asked(plan.line, plan.number, d.date(day as usize), from, to);
                    d.ask(q);
                }
            }
        }
    }
}

const HIGH: u64 = 1 << 32;

/// Dates that aren't real, some of which agree with a real one in the lower bits, and real ones beside them.
fn dates() -> Vec<[u64; 3]> {
    let mut all = vec![
        [1, 1, 1900], [31, 12, 2099], [28, 2, 1900], [29, 2, 2000], [29, 2, 1900], [29, 2, 2100], [30, 2, 2000], [29, 2, 2001], [31, 4, 2001], [31, 6, 2001], [31, 9, 2001], [31, 11, 2001],
        [32, 1, 2001], [32, 12, 2001], [0, 1, 2001], [1, 0, 2001], [1, 13, 2001], [0, 0, 0], [u64::MAX, u64::MAX, u64::MAX],
    ];
    for year in [0, 1, 99, 1899, 2100, 2400, HIGH + 2001, (1 << 63) + 2001, u64::MAX, u64::MAX - 100] {
        all.push([11, 6, year]);
    }
    for far in [HIGH, 1 << 63, 256, 65_536] {
        all.extend([[11 + far, 6, 2001], [11, 6 + far, 2001], [11, 6, 2001 + far], [far, 6, 2001], [11, far, 2001]]);
    }
    all
}

pub fn unreal_dates(link: &mut Link) {
    let mut d = Counter::new(link, 86);
    for i in 0..6 {
        let mut all = by_hand();
        if i > 0 {
            all = varied(&mut d.m, 2, 3);
            all.iter_mut().for_each(|p| p.valid = (0, 73_048));
        }
        d.lay_plans(all.clone(), i);
        d.lend_holidays(vec![0, 37_050]);
        for plan in &all {
            let (first, last) = (plan.halts[0].tariff, plan.halts[plan.halts.len() - 1].tariff);
            let asks: Vec<Question> = dates().into_iter().map(|date| asked(plan.line, plan.number, date, first, last)).collect();
            d.note("asked: dates that aren't real");
            d.ask_many(&asks);
            if plan.number == all[0].number {
                asks.iter().for_each(|&q| d.ask(q));
            }
            // 12 before all others
            let asks: Vec<Question> = dates().into_iter().flat_map(|date| [(last, first), (first, first), (first, last + HIGH)].map(|(a, b)| asked(plan.line, plan.number, date, a, b))).collect();
            d.ask_many(&asks);
        }
    }
}

/// Lines, trips and tariff numbers that aren't there, and such as agree with one in the lower bits.
pub fn far_numbers(link: &mut Link) {
    let mut d = Counter::new(link, 87);
    for i in 0..10 {
        let all = varied(&mut d.m, 3, 4);
        d.lay_plans(all.clone(), i);
        d.lend_holidays(Vec::new());
        for (k, plan) in all.iter().enumerate() {
            let (line, trip) = (plan.line, plan.number);
            let (first, last) = (plan.halts[0].tariff, plan.halts[plan.halts.len() - 1].tariff);
            let mut asks = Vec::new();
            for day in two_days(&mut d, plan) {
                let date = d.date(day);
                asks.push(asked(trip, line, date, first, last));
                asks.extend(far_from(line).into_iter().chain([0]).map(|far| asked(far, trip, date, first, last)));
                asks.extend(far_from(trip).into_iter().chain([0]).map(|far| asked(line, far, date, first, last)));
                for far in far_from(first).into_iter().chain(far_from(last)).chain([0]) {
                    asks.extend([(far, last), (first, far), (far, far), (last, far)].map(|(from, to)| asked(line, trip, date, from, to)));
                }
                asks.extend(far_from(line).map(|far| asked(far, far, date, far, far)));
            }
            asks.push([u64::MAX; 7]);
            asks.push([0; 7]);
            d.note("asked: numbers far out");
            d.ask_many(&asks);
            if k == 0 {
                asks.iter().step_by(5).for_each(|&q| d.ask(q));
            }
        }
    }
}

/// The list's room, exact, too small by one and by more, and larger; numbers after the last question; no question at all.
pub fn lists(link: &mut Link) {
    let mut d = Counter::new(link, 88);
    for i in 0..20 {
        let all = varied(&mut d.m, 2, 3);
        d.lay_plans(all.clone(), i);
        let list = some_holidays(&mut d.m.r, all[0].valid, i);
        d.lend_holidays(list);
        let asks: Vec<u64> = all.iter().flat_map(|plan| every_pair(&mut d, plan)).flatten().collect();
        for count in [0, 1, 2, 3, 9] {
            for over in [0, 1, 6, 1 + d.m.r.below(6)] {
                let from = 7 * d.m.r.below(asks.len() / 7 - count);
                let mut asked = asks[from..from + 7 * count].to_vec();
                asked.extend((0..over).map(|k| asks[k]));
                let exact = 3 * count;
                for (what, room) in [("exact", Some(exact)), ("one too few", exact.checked_sub(1)), ("two too few", exact.checked_sub(2)), ("none", Some(0)), ("more", Some(exact + 1 + d.m.r.below(9)))] {
                    if let Some(room) = room {
                        d.note(&format!("room for the answers: {}", what));
                        d.note(&format!("numbers after the last question: {}", over));
                        d.note(&format!("questions of one call: {}", count));
                        d.ask_list(asked.clone(), room, true);
                    }
                }
            }
        }
    }
    many_questions(&mut d);
}

/// More questions than one page of memory holds, with room for all and for all but one number.
fn many_questions(d: &mut Counter) {
    d.lay_plans(by_hand(), 2);
    d.lend_holidays(Vec::new());
    let one = asked(100, 4, [10, 6, 2001], 9, 5);
    let many: Vec<u64> = (0..3000).flat_map(|i| if i % 7 == 0 { asked(100, 3, [11, 6, 2001], i % 11, 9) } else { one }).collect();
    for room in [9000, 8999, 9001] {
        d.note("questions of one call: 3000");
        d.ask_list(many.clone(), room, false);
    }
}

/// Batches that are refused: the refusal is all that is answered, whatever is asked, and no list changes.
pub fn refused(link: &mut Link) {
    let mut d = Counter::new(link, 89);
    for i in 0..60 {
        let refusal = (2 + i % 10) as u64;
        let files = files_for(refusal);
        let file = files[d.m.r.below(files.len())];
        let (b, found) = loop {
            let b = Batch::arranged(&mut d.m, &SMALL, ORDERS[i % 5]);
            if let Some(found) = fault(&mut d.m, &b, refusal, file, None) {
                break (b, found);
            }
        };
        let mut broken = b.clone();
        edit(&mut broken, &found);
        let mut bytes = broken.bytes();
        let want = finish(&mut bytes, &found);
        assert_eq!(first_fault(&bytes), want, "the model on a batch made for refusal {}", refusal);
        d.lay_bytes(bytes, &right(&b.bytes()).unwrap());
        ask_refused(&mut d, &b);
    }
    let b = Batch::arranged(&mut d.m, &SMALL, Order::Rising);
    let mut bytes = b.bytes();
    bytes[11] = vec![b'x'; LONGEST + 1];
    d.lay_bytes(bytes, &[]);
    ask_refused(&mut d, &b);
}

fn ask_refused(d: &mut Counter, b: &Batch) {
    let plan = b.plans[d.m.r.below(b.plans.len())].clone();
    let (first, last) = (plan.halts[0].tariff, plan.halts[plan.halts.len() - 1].tariff);
    let good = asked(plan.line, plan.number, d.date(plan.valid.0), first, last);
    let all = [good, asked(plan.line, plan.number, [0, 13, 1899], last, last), [u64::MAX; 7], asked(u64::MAX, plan.number, d.date(5), first, 0)];
    all.into_iter().for_each(|q| d.ask(q));
    // also where the list has no room: the batch comes first
    for room in [12, 15, 11, 0] {
        d.ask_list(all.concat(), room, room == 11);
    }
    d.ask_list(Vec::new(), 3, false);
    let texts = b.texts(2, d.m.r.below(b.count(2)));
    let name = [texts[1].clone(), texts[2].clone(), texts[3].clone()];
    d.ask_name(&name);
    d.ask_name(&[Vec::new(), b"nowhere".to_vec(), Vec::new()]);
}

/// Whole batches by seed, with all their files and of any sizes: some sales and names of each.
pub fn whole(link: &mut Link) {
    let mut d = Counter::new(link, 90);
    for i in 0..60 {
        let b = cases::standing(&mut d.m);
        d.lay(&b);
        let mut asks = Vec::new();
        for plan in b.plans.iter().take(4) {
            let list = some_holidays(&mut d.m.r, plan.valid, i);
            d.lend_holidays(list);
            let of_plan = every_pair(&mut d, plan);
            asks.extend(of_plan.into_iter().filter(|_| d.m.r.one_in(2)).take(60));
        }
        d.note("asked: batches with all their files");
        d.ask_many(&asks);
        ask_some_alone(&mut d, &asks, 3);
        let stops = d.stops.clone();
        stops.iter().take(4).for_each(|s| d.ask_name(&s.1));
    }
}

/// Names that are near each other: in CP1250, with blanks, in other letters, cut, with parts that stand elsewhere.
fn near_names() -> Vec<[&'static [u8]; 3]> {
    vec![
        [b"T\xf8eb\xed\xe8", b"", b"aut.n\xe1dr."],
        [b"T\xf8eb\xed\xe8 ", b"", b"aut.n\xe1dr."],
        [b"T\xf8eb\xed\xe8", b" ", b"aut.n\xe1dr."],
        [b"T\xf8eb\xed\xe8", b"", b"aut.n\xe1dr. "],
        [b"T\xd8EB\xcd\xc8", b"", b"aut.n\xe1dr."],
        [b"t\xf8eb\xed\xe8", b"", b"aut.n\xe1dr."],
        [b"Trebic", b"", b"aut.n\xe1dr."],
        [b"T\xf8eb\xed", b"", b"aut.n\xe1dr."],
        [b"T\xf8eb\xed\xe8", b"", b"aut.n\xe1dr"],
        [b"T\xf8eb\xed\xe8", b"", b""],
        [b"T\xf8eb\xed\xe8", b"aut.n\xe1dr.", b""],
        [b"aut.n\xe1dr.", b"", b"T\xf8eb\xed\xe8"],
        [b"T\xf8eb\xed\xe8a", b"ut.n\xe1dr.", b""],
        [b"T\xf8eb\xed\xe8,,aut.n\xe1dr.", b"", b""],
        [b"A", b"B", b"C"],
        [b"A", b"C", b"B"],
        [b"AB", b"C", b""],
        [b"A", b"", b"BC"],
        [b"A", b"BC", b""],
        [b"ABC", b"", b""],
        [b"Ko\x9eichovice", b"", b"U \"l\xedpy\" 3"],
        [b"Ko\x9eichovice", b"", b"U l\xedpy 3"],
        [b"Slavi\xe8ky", b"Poz\xef\xe1t\xedn", b"n\xe1ves; doln\xed"],
        [b"\xa7", b"$", b"x"],
    ]
}

fn name_of(parts: [&[u8]; 3]) -> Name {
    parts.map(|part| part.to_vec())
}

/// What is near a name: a blank more in each part and less, other letters, cut at either end, emptied, parts in other places, bytes that no field holds.
fn near(name: &Name) -> Vec<Name> {
    let mut all = Vec::new();
    for part in 0..3 {
        let mut change = |to: Vec<u8>| {
            let mut other = name.clone();
            other[part] = to;
            all.push(other);
        };
        let old = &name[part];
        change([&old[..], b" "].concat());
        change([b" ", &old[..]].concat());
        change([&old[..], b"\0"].concat());
        change([&old[..], &old[..]].concat());
        change(old.iter().map(|b| b.to_ascii_uppercase()).collect());
        change(old.iter().map(|b| b ^ 0x20).collect());
        change(old[..old.len().saturating_sub(1)].to_vec());
        change(old.get(1..).unwrap_or(&[]).to_vec());
        change(Vec::new());
        change(old.iter().flat_map(|&b| if b < 128 { vec![b] } else { vec![0xc5, b & 0xbf] }).collect());
        change([b"\"", &old[..], b"\""].concat());
    }
    let [town, part, place] = name.clone();
    for parts in [[&part, &town, &place], [&town, &place, &part], [&place, &part, &town], [&town, &town, &town]] {
        all.push(parts.map(|p| p.clone()));
    }
    all.push([[&town[..], &part[..]].concat(), Vec::new(), place.clone()]);
    all.push([town.clone(), [&part[..], &place[..]].concat(), Vec::new()]);
    all.push([[&town[..], b"\",\"", &part[..], b"\",\"", &place[..]].concat(), Vec::new(), Vec::new()]);
    all
}

/// A batch whose stops have these names: with all its files, or with no trips.
fn named(d: &mut Counter, i: usize, names: &[Name]) -> Batch {
    let mut sizes = SMALL;
    sizes[2] = names.len();
    let mut b = if i % 5 == 0 { Batch::make(&mut d.m, &sizes) } else { Batch::of_stops(&mut d.m, names.len()) };
    for (row, name) in b.files[2].iter_mut().zip(names) {
        row.texts[1..4].clone_from_slice(name);
    }
    b.arrange(&mut d.m.r, ORDERS[i % 5]);
    b
}

/// Stops by name: names that are near each other, and such as several stops have.
pub fn names(link: &mut Link) {
    let mut d = Counter::new(link, 91);
    let pool = near_names();
    for i in 0..40 {
        let mut names: Vec<Name> = pool.iter().map(|&n| name_of(n)).collect();
        crate::batches::shuffle(&mut d.m.r, &mut names);
        names.truncate(4 + d.m.r.below(20));
        // some names twice, three times, or of all stops
        for (times, every) in [(1, 2), (2, 3)] {
            if i % every == 0 {
                let again = names[d.m.r.below(names.len())].clone();
                (0..times).for_each(|_| names.push(again.clone()));
            }
        }
        if i % 20 == 19 {
            let one = names[0].clone();
            names.iter_mut().for_each(|n| *n = one.clone());
        }
        let b = named(&mut d, i, &names);
        d.lay(&b);
        d.note("asked: names");
        let mut asks = names.clone();
        asks.sort();
        asks.dedup();
        asks.extend(pool.iter().step_by(3).map(|&n| name_of(n)));
        let one = names[d.m.r.below(names.len())].clone();
        asks.extend(near(&one).into_iter().filter(|_| d.m.r.one_in(4)));
        // parts of several stops
        asks.extend((0..3).map(|_| [0, 1, 2].map(|part: usize| names[d.m.r.below(names.len())][part].clone())));
        asks.push([Vec::new(), Vec::new(), Vec::new()]);
        asks.iter().for_each(|n| d.ask_name(n));
    }
    texts(&mut d);
}

/// Names as texts fall, the longest that a field may hold, and longer ones than any file.
fn texts(d: &mut Counter) {
    for i in 0..20 {
        let mut names: Vec<Name> = Vec::new();
        for _ in 0..5 {
            let lengths = [[48, 48, 48], [1, 0, 1], [1 + d.m.r.below(5), d.m.r.below(5), d.m.r.below(5)]][d.m.r.below(3)];
            names.push(lengths.map(|length| d.m.text(length)));
        }
        let b = named(d, i, &names);
        d.lay(&b);
        d.note("asked: names as texts fall");
        for name in &names {
            d.ask_name(name);
            let other = d.m.r.below(3);
            let mut unlike = name.clone();
            match unlike[other].last_mut() {
                Some(last) => *last ^= 1,
                None => unlike[other].push(b'a'),
            }
            d.ask_name(&unlike);
        }
        let long = [vec![b'a'; 70_000], d.m.text(3), d.batch[1].clone()];
        d.ask_name(&long);
    }
}

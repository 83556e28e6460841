//! Batches that stand, by seed: every key once, every link met, every sign permitted, every trip with days and stops that go together. They are made so and not
//! picked out, so that the model's own judgement has no part in it.

use std::collections::{BTreeMap, BTreeSet};

use crate::fields::SIGNS;
use crate::format::{writing, Record, FIELDS};
use crate::generator::Random;
use crate::maker::Maker;
use crate::plans::{codes_of, combinations, halt, is_day_sign, line_signs, own_signs, timetable, turn, Halt, Plan};

/// A record, and whether a link of another record needs it.
#[derive(Clone)]
pub struct Row {
    pub texts: Record,
    pub needed: bool,
}

/// The records that a link may be put to, by their numbers. Others of their files are there that no link needs.
#[derive(Clone, Default)]
pub struct Known {
    pub codes: Vec<(u64, u8)>,
    pub stops: Vec<u64>,
    pub carriers: Vec<u64>,
    pub lines: Vec<u64>,
    pub trips: Vec<(u64, u64)>,
    pub line_stops: Vec<(u64, u64)>,
    /// The first and the last day of each line, and the signs of each line's stops.
    validity: BTreeMap<u64, (usize, usize)>,
    defaults: BTreeMap<(u64, u64), Vec<u8>>,
}

#[derive(Clone)]
pub struct Batch {
    /// By file number; the first is none.
    pub files: Vec<Vec<Row>>,
    pub known: Known,
    /// What each trip was meant to be.
    pub plans: Vec<Plan>,
}

/// How many records each file has, by file number. There are two of Zasspoje at least for each trip.
pub type Sizes = [usize; 14];

pub const SMALL: Sizes = [0, 1, 6, 37, 4, 5, 8, 12, 20, 5, 12, 4, 3, 5];

/// How many fields make the key of each file: always its first ones.
pub const KEY_FIELDS: Sizes = [0, 0, 1, 1, 1, 1, 2, 2, 3, 2, 3, 0, 0, 0];

/// Of the files 2 to 5 and 7 so many records are needed by nobody. A trip that nobody needs would have no stops and couldn't stand.
const SPARE: usize = 2;

/// The ways in which the records of a file can stand.
#[derive(Clone, Copy, PartialEq, Eq)]
pub enum Order {
    Rising,
    Falling,
    Shuffled,
    /// Rising but for one record.
    Nearly,
    /// Each file in a way of its own.
    Mixed,
}

pub const ORDERS: [Order; 5] = [Order::Rising, Order::Falling, Order::Shuffled, Order::Nearly, Order::Mixed];

pub fn number(text: &[u8]) -> u64 {
    std::str::from_utf8(text).unwrap().parse().unwrap()
}

/// A number with leading zeros or without, to so many digits.
pub fn written(r: &mut Random, number: u64, longest: usize) -> Vec<u8> {
    let width = if r.one_in(2) { 1 } else { 1 + r.below(longest) };
    format!("{:0width$}", number, width = width).into_bytes()
}

pub fn line_text(line: u64) -> Vec<u8> {
    format!("{:06}", line).into_bytes()
}

pub fn ico_text(carrier: u64) -> Vec<u8> {
    format!("{:08}", carrier).into_bytes()
}

/// A number of one field, as that field may hold it: the files that keep such numbers as keys say which.
pub fn written_for(r: &mut Random, file: u64, field: usize, number: u64) -> Vec<u8> {
    match (file, field) {
        (4, 1) | (5, 3) | (11, 3) => ico_text(number),
        (5..=13, 1) => line_text(number),
        (3, 1) => written(r, number, 5),
        _ if code_fields(file).contains(&field) => written(r, number, 5),
        _ => written(r, number, 9),
    }
}

pub fn code_fields(file: u64) -> Vec<usize> {
    match file {
        2 => vec![7, 8, 9, 10, 11, 12],
        6 => vec![3, 4, 5, 6, 7, 8, 9, 10, 11, 12],
        7 => vec![5, 6, 7],
        8 => vec![6, 7],
        11 => vec![4, 5, 6, 7, 8, 9],
        _ => Vec::new(),
    }
}

/// The signs that a file's code fields may have.
pub fn signs_for(file: u64) -> Vec<u8> {
    let apart: &[&[u8]] = match file {
        2 => &[b"@", b"%", b"W", b"w", b"x", b"~", b"}", b"v"],
        6 => &[b"X", b"+", b"1", b"2", b"3", b"4", b"5", b"6", b"7", b"R", b"#", b"@", b"%", b"I", b"{", b"[", b"O", b"s"],
        7 => &[b"(", b")", b"x", &[0xa7], b"$"],
        8 => &[b"(", b")", b"x", &[0xa7]],
        11 => &[b"X", b"+", b"1", b"2", b"3", b"4", b"5", b"6", b"7"],
        _ => &[],
    };
    apart.concat()
}

/// So many different numbers below `end`: those at the edges of digits and of bits, small ones, and any.
fn different(r: &mut Random, count: usize, end: u64) -> Vec<u64> {
    let telling = [0, 1, 2, 3, 9, 10, 11, 12, 21, 99, 100, 101, 110, 111, 112, 255, 256, 999, 1000, 65_535, 65_536, 65_537, 1 << 20, (1 << 20) + 1, 1 << 24, 1 << 29, end - 1];
    let mut seen = BTreeSet::new();
    let mut all = Vec::new();
    while all.len() < count {
        let n = match r.below(3) {
            0 => telling[r.below(telling.len())],
            1 => r.below(2 * count + 4) as u64,
            _ => r.below(end as usize) as u64,
        };
        if n < end && seen.insert(n) {
            all.push(n);
        }
    }
    all
}

/// So many different pairs of a line and a number: the lines in turn, the numbers from one list, so that lines have many of them in common.
fn under_lines(r: &mut Random, lines: &[u64], count: usize, end: u64) -> Vec<(u64, u64)> {
    let each = (count + lines.len() - 1) / lines.len();
    let numbers = different(r, each + 2, end);
    let mut all = Vec::new();
    for &line in lines {
        let mut own = numbers.clone();
        shuffle(r, &mut own);
        all.extend(own[..each].iter().map(|&n| (line, n)));
    }
    // the lines in turn, so that what is cut off isn't all of one line
    let mut turn: Vec<(u64, u64)> = (0..each).flat_map(|i| (0..lines.len()).map(move |l| l * each + i)).map(|i| all[i]).collect();
    turn.truncate(count);
    turn
}

pub fn shuffle<T>(r: &mut Random, all: &mut [T]) {
    for i in (1..all.len()).rev() {
        all.swap(i, r.below(i + 1));
    }
}

impl Known {
    fn one<T: Copy>(r: &mut Random, from: &[T]) -> T {
        from[r.below(from.len())]
    }

    /// A code number with this sign.
    pub fn code(&self, r: &mut Random, sign: u8) -> u64 {
        let all: Vec<u64> = self.codes.iter().filter(|(_, s)| *s == sign).map(|(n, _)| *n).collect();
        Known::one(r, &all)
    }

    pub fn code_text(&self, r: &mut Random, sign: u8) -> Vec<u8> {
        let code = self.code(r, sign);
        written(r, code, 5)
    }
}

impl Batch {
    pub fn make(m: &mut Maker, sizes: &Sizes) -> Batch {
        let mut b = Batch::of_nothing();
        b.lists(m, sizes);
        b.lines(m, sizes);
        b.trips(m, sizes);
        b.the_rest(m, sizes);
        b
    }

    /// VerzeJDF alone.
    fn of_nothing() -> Batch {
        let mut b = Batch { files: vec![Vec::new(); 14], known: Known::default(), plans: Vec::new() };
        b.files[1].push(Row { texts: vec![b"1.8".to_vec()], needed: false });
        b
    }

    fn add(&mut self, m: &mut Maker, file: u64, needed: bool, numbers: &[(usize, u64)]) {
        let mut texts = m.legal(file);
        for field in code_fields(file) {
            let sign = m.r.pick(&signs_for(file));
            texts[field - 1] = if m.r.one_in(2) { Vec::new() } else { self.known.code_text(&mut m.r, sign) };
        }
        // one of code, type and from-date is given, whatever becomes of the codes
        if file == 11 && texts[11].is_empty() {
            texts[9] = vec![m.r.pick(b"56")];
        }
        for &(field, number) in numbers {
            texts[field - 1] = written_for(&mut m.r, file, field, number);
        }
        self.files[file as usize].push(Row { texts, needed });
    }

    /// Codes, stops and carriers.
    fn lists(&mut self, m: &mut Maker, sizes: &Sizes) {
        let codes = different(&mut m.r, sizes[3], 100_000);
        for (i, &n) in codes.iter().enumerate() {
            // every sign, those of Zasspoje twice, then any
            let sign = *SIGNS.iter().chain(b"()x\xa7").nth(i).unwrap_or(&m.r.pick(SIGNS));
            let needed = i + SPARE < codes.len();
            if needed {
                self.known.codes.push((n, sign));
            }
            self.add(m, 3, needed, &[(1, n)]);
            self.files[3][i].texts[1] = vec![sign];
        }
        let stops = different(&mut m.r, sizes[2], 1_000_000_000);
        for (i, &n) in stops.iter().enumerate() {
            self.add(m, 2, i + SPARE < stops.len(), &[(1, n)]);
        }
        self.known.stops = stops[..stops.len() - SPARE].to_vec();
        let carriers = different(&mut m.r, sizes[4], 100_000_000);
        for (i, &n) in carriers.iter().enumerate() {
            self.add(m, 4, i + SPARE < carriers.len(), &[(1, n)]);
        }
        self.known.carriers = carriers[..carriers.len() - SPARE].to_vec();
    }

    fn lines(&mut self, m: &mut Maker, sizes: &Sizes) {
        let lines = different(&mut m.r, sizes[5], 1_000_000);
        for (i, &n) in lines.iter().enumerate() {
            let carrier = Known::one(&mut m.r, &self.known.carriers);
            self.add(m, 5, i + SPARE < lines.len(), &[(1, n), (3, carrier)]);
            let (from, to) = m.span();
            self.files[5][i].texts[8] = m.written(from);
            self.files[5][i].texts[9] = m.written(to);
            self.known.validity.insert(n, (from, to));
        }
        self.known.lines = lines[..lines.len() - SPARE].to_vec();
        let line_stops = under_lines(&mut m.r, &self.busy(), sizes[7], 1_000_000_000);
        for (i, &(line, n)) in line_stops.iter().enumerate() {
            let stop = Known::one(&mut m.r, &self.known.stops);
            self.add(m, 7, i + SPARE < line_stops.len(), &[(1, line), (2, n), (4, stop)]);
            let signs = line_signs(&mut m.r);
            self.put_codes(m, 7, i, &signs);
            self.known.defaults.insert((line, n), signs);
        }
        self.known.line_stops = line_stops[..line_stops.len() - SPARE].to_vec();
    }

    /// Few lines have all the trips, so that a trip has many stops to be put to.
    fn busy(&self) -> Vec<u64> {
        self.known.lines[..self.known.lines.len().min(3)].to_vec()
    }

    /// Codes with these signs into the code fields of a record, in any of them; the others are left empty.
    fn put_codes(&mut self, m: &mut Maker, file: u64, row: usize, signs: &[u8]) {
        let mut fields = code_fields(file);
        shuffle(&mut m.r, &mut fields);
        for (i, field) in fields.into_iter().enumerate() {
            self.files[file as usize][row].texts[field - 1] = signs.get(i).map_or(Vec::new(), |&s| self.known.code_text(&mut m.r, s));
        }
    }

    /// How many stops each trip has: two at least, and so many in all, if its line has them.
    fn shares(&self, r: &mut Random, trips: &[(u64, u64)], total: usize) -> Vec<usize> {
        let of_line = |line: u64| self.known.line_stops.iter().filter(|s| s.0 == line).count();
        let most: BTreeMap<u64, usize> = self.busy().into_iter().map(|l| (l, of_line(l))).collect();
        assert!(most.values().all(|&n| n >= 2) && trips.iter().map(|t| most[&t.0]).sum::<usize>() >= total, "a line has too few stops");
        let mut shares = vec![2; trips.len()];
        let mut left = total.saturating_sub(2 * trips.len());
        while left > 0 {
            let i = r.below(trips.len());
            if shares[i] < most[&trips[i].0] {
                shares[i] += 1;
                left -= 1;
            }
        }
        shares
    }

    fn trips(&mut self, m: &mut Maker, sizes: &Sizes) {
        let trips = under_lines(&mut m.r, &self.busy(), sizes[6], 1_000_000_000);
        let shares = self.shares(&mut m.r, &trips, sizes[8]);
        let each = sizes[10] / trips.len() + 1;
        for (i, &(line, number)) in trips.iter().enumerate() {
            let codes = each.min(sizes[10].saturating_sub(i * each));
            let plan = self.plan(m, line, number, codes, shares[i]);
            self.write_plan(m, plan, false);
        }
        self.known.trips = trips;
    }

    /// A trip that stands, with so many Caskody records and so many stops of its line.
    fn plan(&self, m: &mut Maker, line: u64, number: u64, codes: usize, stops: usize) -> Plan {
        let valid = self.known.validity[&line];
        let sets: Vec<Vec<u8>> = combinations().into_iter().filter(|c| c.len() <= codes).collect();
        let kinds = &sets[m.r.below(sets.len())];
        let days = if m.r.one_in(2) { valid } else { (0, m.days.len() - 1) };
        let may_have: Vec<u8> = signs_for(6).into_iter().filter(|&s| !is_day_sign(s) || !kinds.contains(&b'3')).collect();
        let signs = (0..m.r.below(6)).map(|_| m.r.pick(&may_have)).collect();
        let mut tariffs: Vec<u64> = self.known.line_stops.iter().filter(|s| s.0 == line).map(|s| s.1).collect();
        shuffle(&mut m.r, &mut tariffs);
        let mut halts: Vec<Halt> = Vec::new();
        for &tariff in &tariffs[..stops] {
            let stop = Known::one(&mut m.r, &self.known.stops);
            halts.push(halt(tariff, stop, own_signs(&mut m.r), self.known.defaults[&(line, tariff)].clone()));
        }
        turn(number, &mut halts);
        timetable(&mut m.r, &mut halts);
        Plan { line, number, valid, signs, codes: codes_of(&mut m.r, kinds, codes, days), halts }
    }

    /// A record to begin with: its fields as they fall, or all empty.
    fn blank(m: &mut Maker, file: u64, empty: bool) -> Row {
        Row { texts: if empty { vec![Vec::new(); FIELDS[file as usize - 1]] } else { m.legal(file) }, needed: file == 6 }
    }

    fn write_row(&mut self, m: &mut Maker, file: u64, empty: bool, numbers: &[u64], signs: &[u8]) -> &mut Record {
        let mut row = Batch::blank(m, file, empty);
        for (field, &n) in (1..).zip(numbers) {
            row.texts[field - 1] = written_for(&mut m.r, file, field, n);
        }
        self.files[file as usize].push(row);
        let last = self.files[file as usize].len() - 1;
        self.put_codes(m, file, last, signs);
        &mut self.files[file as usize][last].texts
    }

    /// The records of a trip in Spoje, Caskody and Zasspoje.
    fn write_plan(&mut self, m: &mut Maker, plan: Plan, empty: bool) {
        self.write_row(m, 6, empty, &[plan.line, plan.number], &plan.signs);
        for (i, c) in plan.codes.iter().enumerate() {
            let texts = m.coded_texts(c);
            let record = self.write_row(m, 10, empty, &[plan.line, plan.number, i as u64 * 7 + plan.number % 3], &[]);
            record[3..7].clone_from_slice(&texts);
        }
        for h in &plan.halts {
            let texts = m.halt_texts(h);
            let record = self.write_row(m, 8, empty, &[plan.line, plan.number, h.tariff, h.stop], &h.own);
            record[7..10].clone_from_slice(&texts);
        }
        self.plans.push(plan);
    }

    /// The least batch that holds these trips, with one carrier and short texts. Every sign that a trip or a stop may have is there.
    pub fn of_plans(m: &mut Maker, plans: Vec<Plan>) -> Batch {
        let mut b = Batch::of_nothing();
        let used: BTreeSet<u8> = plans.iter().flat_map(|p| p.signs.iter().chain(p.halts.iter().flat_map(|h| h.own.iter().chain(&h.of_line)))).copied().collect();
        let codes = different(&mut m.r, used.len(), 100_000);
        for (n, sign) in codes.into_iter().zip(used) {
            b.write_row(m, 3, true, &[n], &[])[1] = vec![sign];
            b.known.codes.push((n, sign));
        }
        b.stops_of_plans(m, &plans);
        b.lines_of_plans(m, &plans);
        for plan in plans {
            b.known.trips.push((plan.line, plan.number));
            b.write_plan(m, plan, true);
        }
        b
    }

    /// So many stops, and nothing else that a batch needn't have.
    pub fn of_stops(m: &mut Maker, count: usize) -> Batch {
        let mut b = Batch::of_nothing();
        b.known.stops = different(&mut m.r, count, 1_000_000_000);
        b.write_stops(m);
        b
    }

    /// The records of the stops that are known.
    fn write_stops(&mut self, m: &mut Maker) {
        for stop in self.known.stops.clone() {
            let record = self.write_row(m, 2, true, &[stop], &[]);
            record[1] = b"A".to_vec();
            record[5] = b"SK".to_vec();
        }
    }

    fn stops_of_plans(&mut self, m: &mut Maker, plans: &[Plan]) {
        let stops: BTreeSet<u64> = plans.iter().flat_map(|p| p.halts.iter().map(|h| h.stop)).collect();
        self.known.stops = stops.into_iter().collect();
        self.write_stops(m);
        // what Zaslinky says of the stop itself isn't the trip's
        let halts: BTreeMap<(u64, u64), &Halt> = plans.iter().flat_map(|p| p.halts.iter().map(move |h| ((p.line, h.tariff), h))).collect();
        for ((line, tariff), h) in halts {
            let stop = Known::one(&mut m.r, &self.known.stops);
            let stop = written_for(&mut m.r, 7, 4, stop);
            self.write_row(m, 7, true, &[line, tariff], &h.of_line)[3] = stop;
        }
    }

    fn lines_of_plans(&mut self, m: &mut Maker, plans: &[Plan]) {
        let record = self.write_row(m, 4, true, &[7], &[]);
        for (field, text) in [(3, b"D"), (4, b"1"), (6, b"S"), (7, b"T")] {
            record[field - 1] = text.to_vec();
        }
        let lines: BTreeMap<u64, (usize, usize)> = plans.iter().map(|p| (p.line, p.valid)).collect();
        for (&line, &(from, to)) in &lines {
            let texts = [b"L".to_vec(), ico_text(7), b"V".to_vec()];
            let dates = [m.written(from), m.written(to)];
            let record = self.write_row(m, 5, true, &[line], &[]);
            record[1..4].clone_from_slice(&texts);
            record[8..10].clone_from_slice(&dates);
        }
        self.known.lines = lines.into_keys().collect();
    }

    /// Where a trip stands in Spoje.
    pub fn row_of_trip(&self, line: u64, number: u64) -> usize {
        (0..self.count(6)).find(|&row| self.key(6, row) == [line, number]).expect("the batch has the trip")
    }

    /// Where the records of a trip stand in a file whose first two fields name it.
    pub fn rows_of_trip(&self, file: u64, line: u64, number: u64) -> Vec<usize> {
        (0..self.count(file)).filter(|&row| self.key(file, row)[..2] == [line, number]).collect()
    }

    /// Whether one of the trip's Caskody records has this type.
    pub fn has_type(&self, line: u64, number: u64, kind: u8) -> bool {
        self.rows_of_trip(10, line, number).into_iter().any(|row| self.texts(10, row)[4] == [kind])
    }

    /// Whether a record may lose its key without a fault that shows before the key's own: it is not needed, or by later files alone.
    pub fn free(&self, file: u64, row: usize) -> bool {
        file == 6 || !self.files[file as usize][row].needed
    }

    fn the_rest(&mut self, m: &mut Maker, sizes: &Sizes) {
        let known = self.known.clone();
        for (line, n) in under_lines(&mut m.r, &known.lines, sizes[9], 1_000_000_000) {
            self.add(m, 9, false, &[(1, line), (2, n)]);
        }
        for _ in 0..sizes[11] {
            let ((line, trip), carrier) = (Known::one(&mut m.r, &known.trips), Known::one(&mut m.r, &known.carriers));
            self.add(m, 11, false, &[(1, line), (2, trip), (3, carrier)]);
        }
        for _ in 0..sizes[12] {
            let line = Known::one(&mut m.r, &known.lines);
            self.add(m, 12, false, &[(1, line)]);
        }
        for i in 0..sizes[13] {
            let (line, trip) = if i % 2 == 0 { (Known::one(&mut m.r, &known.lines), 0) } else { Known::one(&mut m.r, &known.trips) };
            self.add(m, 13, false, &[(1, line), (2, trip)]);
        }
    }

    pub fn key(&self, file: u64, row: usize) -> Vec<u64> {
        self.files[file as usize][row].texts[..KEY_FIELDS[file as usize]].iter().map(|t| number(t)).collect()
    }

    pub fn arrange_file(&mut self, r: &mut Random, file: u64, order: Order) {
        let rows = &mut self.files[file as usize];
        shuffle(r, rows);
        if order == Order::Shuffled || KEY_FIELDS[file as usize] == 0 {
            return;
        }
        let keys = KEY_FIELDS[file as usize];
        rows.sort_by_key(|row| row.texts[..keys].iter().map(|t| number(t)).collect::<Vec<u64>>());
        match order {
            Order::Falling => rows.reverse(),
            Order::Nearly if rows.len() > 1 => {
                let from = r.below(rows.len());
                let row = rows.remove(from);
                let to = r.below(rows.len() + 1);
                rows.insert(to, row);
            }
            _ => (),
        }
    }

    /// Puts the records of each file into an order; what a batch holds doesn't change by it.
    pub fn arrange(&mut self, r: &mut Random, order: Order) {
        for file in 2..=13 {
            let own = if order == Order::Mixed { ORDERS[r.below(4)] } else { order };
            self.arrange_file(r, file, own);
        }
    }

    pub fn arranged(m: &mut Maker, sizes: &Sizes, order: Order) -> Batch {
        let mut b = Batch::make(m, sizes);
        b.arrange(&mut m.r, order);
        b
    }

    pub fn bytes(&self) -> Vec<Vec<u8>> {
        self.files[1..].iter().map(|rows| writing(&rows.iter().map(|row| row.texts.clone()).collect::<Vec<Record>>())).collect()
    }

    pub fn texts(&self, file: u64, row: usize) -> &Record {
        &self.files[file as usize][row].texts
    }

    pub fn count(&self, file: u64) -> usize {
        self.files[file as usize].len()
    }
}

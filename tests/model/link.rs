//! The talk with the driver: requests go out in one thread, answers are read and compared in another. tests/README.md has the protocol.

use std::collections::BTreeMap;
use std::fmt::Write as _;
use std::io::{BufReader, Read, Write};
use std::process::{Child, ChildStdin, Command, Stdio};
use std::sync::mpsc::{sync_channel, Receiver, SyncSender};
use std::sync::Arc;
use std::thread::JoinHandle;

use crate::fields::name_of;
use crate::hints::PLAIN;
use crate::links::Bytes;
use crate::sales::{Name, Question};
use crate::sweep::{Swept, NUMBERS};

/// A call of the library, as it is named in a report.
#[derive(Clone)]
pub enum Call {
    Version,
    Records { file: u64, bytes: Arc<Vec<u8>> },
    Stretch { file: u64, bytes: Arc<Vec<u8>>, record: u64, field: u64 },
    HugeRecords { file: u64, length: u64 },
    HugeStretch { file: u64, length: u64 },
    Write { file: u64, field: u64, text: Vec<u8>, buffer: Arc<Vec<u8>>, place: u64 },
    Rewrite { file: u64, bytes: Arc<Vec<u8>>, place: u64, length: usize },
    Sweep(Swept),
    Day(u64, u64, u64),
    Date(u64),
    Weekday(u64),
    Week(u64),
    Holiday { number: u64, holidays: Arc<Vec<u64>> },
    Fits { sign: u64, number: u64, holidays: Arc<Vec<u64>> },
    Fields { file: u64, bytes: Arc<Vec<u8>>, aims: Vec<Aim> },
    HugeFields { file: u64, length: u64 },
    /// `huge`: a file that is so many zero bytes instead. `kind`: of the hint. `ways`: what the batch was made for.
    Check { batch: Arc<Bytes>, huge: Option<(u64, u64)>, hint: Arc<Vec<u32>>, kind: &'static str, ways: Arc<Vec<String>> },
    /// `list`: what it held before; `room`: how it is to what is written. `ways`: what there is in the batch.
    Order { batch: Arc<Bytes>, huge: Option<(u64, u64)>, list: Arc<Vec<u32>>, room: &'static str, ways: Vec<String> },
    /// `ways`: what decided the answer.
    Runs { batch: Arc<Bytes>, line: u64, trip: u64, day: u64, holidays: Arc<Vec<u64>>, ways: Vec<String> },
    TripStop { batch: Arc<Bytes>, line: u64, trip: u64, nth: u64, ways: Vec<String> },
    /// `hint`: its kind and numbers; PLAIN for the plain call. `counts`: how often each thing was asked for.
    Sale { batch: Arc<Bytes>, hint: Hint, holidays: Arc<Vec<u64>>, question: Question, counts: Counts },
    Sales { batch: Arc<Bytes>, hint: Hint, holidays: Arc<Vec<u64>>, asked: Arc<Vec<u64>>, room: usize, counts: Counts },
    StopName { batch: Arc<Bytes>, hint: Hint, name: Name, counts: Counts },
}

pub type Hint = (&'static str, Arc<Vec<u32>>);
pub type Counts = BTreeMap<String, u64>;

/// What a question on the fields of a file was made for; the run counts how often each met each number.
#[derive(Clone, Copy, PartialEq, Eq, PartialOrd, Ord)]
pub enum Aim {
    /// A field's own fault, or a text at the edge of what the field may hold.
    Field(u64),
    /// A rule inside a record, broken or kept.
    Rule(&'static str),
    /// A way of damage, or of putting two faults into a file.
    Way(&'static str),
}

/// What the model expects: numbers, and for the writer the whole buffer too.
pub struct Awaited {
    pub call: Call,
    pub words: Vec<u64>,
    pub buffer: Option<Vec<u8>>,
}

/// How often each call came back with each number; the last part tells apart what a number alone doesn't.
pub type Tally = BTreeMap<(&'static str, u64, &'static str), u64>;

#[derive(Default)]
pub struct Report {
    pub comparisons: u64,
    pub differences: u64,
    pub tally: Tally,
    /// By week number.
    pub weeks: BTreeMap<u64, u64>,
    /// By file, number and aim.
    pub aims: BTreeMap<(u64, u64, Aim), u64>,
    /// Of whole batches, each counted once: by number, file and field.
    pub places: BTreeMap<(u64, u64, u64), u64>,
    /// Of whole batches, each counted once, by what it was made for; of questions on trips, by what decided them.
    pub ways: BTreeMap<String, u64>,
    /// Sweeps whose digests differ, to be looked at more closely.
    pub sweeps: Vec<Swept>,
}

const SHOWN: u64 = 20;

impl Report {
    pub fn add(&mut self, other: Report) {
        self.comparisons += other.comparisons;
        self.differences += other.differences;
        for (key, n) in other.tally {
            *self.tally.entry(key).or_insert(0) += n;
        }
        for (week, n) in other.weeks {
            *self.weeks.entry(week).or_insert(0) += n;
        }
        for (key, n) in other.aims {
            *self.aims.entry(key).or_insert(0) += n;
        }
        for (key, n) in other.places {
            *self.places.entry(key).or_insert(0) += n;
        }
        for (key, n) in other.ways {
            *self.ways.entry(key).or_insert(0) += n;
        }
        self.sweeps.extend(other.sweeps);
    }

    pub fn differs(&mut self, what: &str) {
        self.differences += 1;
        if self.differences <= SHOWN {
            println!("DIFFERENCE {}", what);
        } else if self.differences == SHOWN + 1 {
            println!("further differences are only counted");
        }
    }
}

fn hex(bytes: &[u8]) -> String {
    let mut s = String::new();
    for b in bytes.iter().take(400) {
        write!(s, "{:02x}", b).unwrap();
    }
    if bytes.len() > 400 {
        write!(s, ".. ({} bytes)", bytes.len()).unwrap();
    }
    if s.is_empty() {
        s.push_str("(no bytes)");
    }
    s
}

/// The files of a batch, a line each.
pub fn told_files(batch: &Bytes, huge: Option<(u64, u64)>) -> String {
    let mut s = String::new();
    for (file, bytes) in (1..).zip(batch.iter()) {
        match huge {
            Some((f, length)) if f == file => write!(s, "\n  file {} {} zero bytes", file, length).unwrap(),
            _ => write!(s, "\n  file {} {}", file, hex(bytes)).unwrap(),
        }
    }
    s
}

impl Call {
    fn name(&self) -> &'static str {
        match self {
            Call::Version => "slovdrim_version",
            Call::Records { .. } | Call::HugeRecords { .. } => "slovdrim_records",
            Call::Stretch { .. } | Call::HugeStretch { .. } => "slovdrim_stretch",
            Call::Write { .. } => "slovdrim_write",
            Call::Rewrite { .. } => "rewriting",
            Call::Sweep(_) => "sweep",
            Call::Day(..) => "slovdrim_day",
            Call::Date(_) => "slovdrim_date",
            Call::Weekday(_) => "slovdrim_weekday",
            Call::Week(_) => "slovdrim_week",
            Call::Holiday { .. } => "slovdrim_holiday",
            Call::Fits { .. } => "slovdrim_fits",
            Call::Fields { .. } | Call::HugeFields { .. } => "slovdrim_fields",
            Call::Check { kind, .. } if *kind == PLAIN => "slovdrim_check",
            Call::Check { .. } => "slovdrim_check_hinted",
            Call::Order { .. } => "slovdrim_order",
            Call::Runs { .. } => "slovdrim_runs",
            Call::TripStop { .. } => "slovdrim_trip_stop",
            Call::Sale { hint, .. } if hint.0 == PLAIN => "slovdrim_sale",
            Call::Sale { .. } => "slovdrim_sale_hinted",
            Call::Sales { .. } => "slovdrim_sales",
            Call::StopName { hint, .. } if hint.0 == PLAIN => "slovdrim_stop",
            Call::StopName { .. } => "slovdrim_stop_hinted",
        }
    }

    fn told(&self) -> String {
        let name = self.name();
        match self {
            Call::Version => name.to_string(),
            Call::Records { file, bytes } | Call::Fields { file, bytes, .. } => format!("{} file {} bytes {}", name, file, hex(bytes)),
            Call::Stretch { file, bytes, record, field } => format!("{} file {} record {} field {} bytes {}", name, file, record, field, hex(bytes)),
            Call::HugeRecords { file, length } | Call::HugeStretch { file, length } | Call::HugeFields { file, length } => format!("{} file {} of {} zero bytes", name, file, length),
            Call::Write { file, field, text, buffer, place } => {
                format!("{} file {} field {} place {} text {} buffer {}", name, file, field, place, hex(text), hex(buffer))
            }
            Call::Rewrite { file, bytes, place, length } => format!("{} file {} from place {} in a buffer of {}: {}", name, file, place, length, hex(bytes)),
            Call::Sweep(s) => format!("{} file {} from {}", name, s.file, hex(&s.beginning)),
            Call::Day(d, m, y) => format!("{} {} {} {}", name, d, m, y),
            Call::Date(n) | Call::Weekday(n) | Call::Week(n) => format!("{} {}", name, n),
            Call::Holiday { number, holidays } => format!("{} {} in {:?}", name, number, &holidays[..holidays.len().min(50)]),
            Call::Fits { sign, number, holidays } => format!("{} sign {:02x} day {} in {:?}", name, sign, number, &holidays[..holidays.len().min(50)]),
            Call::Check { batch, huge, hint, kind, ways } => {
                let begin = format!("{}, made for {:?}, hint: {}, {} numbers {:?}", name, ways, kind, hint.len(), &hint[..hint.len().min(200)]);
                begin + &told_files(batch, *huge)
            }
            Call::Order { batch, huge, list, room, ways } => format!("{}, room for {}, {}; {:?}", name, list.len(), room, ways) + &told_files(batch, *huge),
            Call::Runs { batch, line, trip, day, holidays, .. } => {
                let begin = format!("{} line {} trip {} day {} in {:?}", name, line, trip, day, &holidays[..holidays.len().min(50)]);
                begin + &told_files(batch, None)
            }
            Call::TripStop { batch, line, trip, nth, .. } => format!("{} line {} trip {} stop {}", name, line, trip, nth) + &told_files(batch, None),
            Call::Sale { batch, hint, holidays, question, .. } => {
                let begin = format!("{} {:?} in {:?}, hint: {} {:?}", name, question, &holidays[..holidays.len().min(50)], hint.0, &hint.1[..hint.1.len().min(200)]);
                begin + &told_files(batch, None)
            }
            Call::Sales { batch, hint, holidays, asked, room, .. } => {
                let begin = format!("{} {} numbers, room for {}, in {:?}, hint: {}", name, asked.len(), room, &holidays[..holidays.len().min(50)], hint.0);
                let asked: Vec<String> = asked.chunks(7).take(12).map(|q| format!("\n  asked {:?}", q)).collect();
                begin + &asked.concat() + &told_files(batch, None)
            }
            Call::StopName { batch, hint, name: asked, .. } => {
                let begin = format!("{} {} | {} | {}, hint: {} {:?}", name, hex(&asked[0]), hex(&asked[1]), hex(&asked[2]), hint.0, &hint.1[..hint.1.len().min(200)]);
                begin + &told_files(batch, None)
            }
        }
    }

    /// Of a list of answers: the first question that was answered otherwise. Of a list of offsets: the first that is another.
    fn first_unlike(&self, held: &[u8], wanted: &[u8]) -> String {
        if let Call::Order { .. } = self {
            let offset = |bytes: &[u8], i: usize| u32::from_le_bytes(bytes[4 * i..4 * i + 4].try_into().unwrap());
            let unlike = (0..held.len() / 4).find(|&i| offset(held, i) != offset(wanted, i));
            return unlike.map_or(String::new(), |i| format!("\n  number {} of the list: library {}, model {}", i + 1, offset(held, i), offset(wanted, i)));
        }
        let words = |bytes: &[u8]| bytes.chunks_exact(8).map(|w| u64::from_le_bytes(w.try_into().unwrap())).collect::<Vec<u64>>();
        let (held, wanted) = (words(held), words(wanted));
        match self {
            Call::Sales { asked, .. } => (0..held.len() / 3).find(|i| held[3 * i..3 * i + 3] != wanted[3 * i..3 * i + 3]).map_or(String::new(), |i| {
                let question = asked.chunks_exact(7).nth(i).unwrap_or(&[]);
                format!("\n  question {} {:?}\n  library {:?}\n  model   {:?}", i, question, &held[3 * i..3 * i + 3], &wanted[3 * i..3 * i + 3])
            }),
            _ => String::new(),
        }
    }

    /// What is counted of a question on a batch; of a check, once for the plain call and all its hints.
    fn ways(&self) -> &[String] {
        match self {
            Call::Check { kind: PLAIN, ways, .. } => ways,
            Call::Order { ways, .. } | Call::Runs { ways, .. } | Call::TripStop { ways, .. } => ways,
            _ => &[],
        }
    }

    /// The same where one call asks for much.
    fn counts(&self) -> Option<&Counts> {
        match self {
            Call::Sale { counts, .. } | Call::Sales { counts, .. } | Call::StopName { counts, .. } => Some(counts),
            _ => None,
        }
    }

    /// How many answers are compared: of many sales each, and the call's own.
    fn answers(&self, words: &[u64]) -> u64 {
        match self {
            Call::Sales { .. } => 1 + words[5],
            _ => 1,
        }
    }

    /// What is to be told apart among the answers with one number.
    fn detail(&self, words: &[u64]) -> &'static str {
        let yes = words[1] != 0;
        match (self, words[0]) {
            (Call::Fields { file, .. } | Call::HugeFields { file, .. }, _) if (1..=13).contains(file) => name_of(*file),
            (Call::Check { kind, .. }, _) => kind,
            (Call::Order { room, .. }, _) => room,
            (Call::Sale { hint, .. } | Call::Sales { hint, .. } | Call::StopName { hint, .. }, _) => hint.0,
            (Call::Runs { .. }, 0) => ["doesn't run", "runs"][(words[5] != 0) as usize],
            (Call::TripStop { .. }, 0) if words[12] != 0 => "the last",
            (Call::TripStop { .. }, 0) => "another",
            (Call::Records { .. }, 0) if words[5] == 0 => "no records",
            (Call::Records { .. }, 0) => "records",
            (Call::Stretch { .. }, 0) if words[6] == 0 => "an empty text",
            (Call::Stretch { .. }, 0) => "a text",
            (Call::Stretch { file, .. }, 20) if !(1..=13).contains(file) => "file",
            (Call::Stretch { .. }, 20) => "record or field",
            (Call::Write { file, .. }, 20) if !(1..=13).contains(file) => "file",
            (Call::Write { .. }, 20) => "field",
            (Call::Write { place, text, .. }, 0) if words[1] - place == text.len() as u64 + 5 => "a last field",
            (Call::Write { .. }, 0) => "a field before others",
            (Call::Weekday(_), 0) => ["?", "Mon", "Tue", "Wed", "Thu", "Fri", "Sat", "Sun"][words[1].min(7) as usize],
            (Call::Week(_), 0) => ["even", "odd", "?"][words[2].min(2) as usize],
            (Call::Holiday { .. }, 0) => ["no", "yes"][yes as usize],
            (Call::Fits { sign, .. }, 0) => match (*sign as u8, yes) {
                (b'X', true) => "X yes",
                (b'X', false) => "X no",
                (b'+', true) => "+ yes",
                (b'+', false) => "+ no",
                (b'1'..=b'7', true) => "1-7 yes",
                (b'1'..=b'7', false) => "1-7 no",
                (_, true) => "no day sign, yes",
                (_, false) => "no day sign",
            },
            _ => "",
        }
    }
}

/// Reads answers and compares them until no more are expected.
struct Checker {
    from_driver: BufReader<std::process::ChildStdout>,
    report: Report,
}

impl Checker {
    fn word(&mut self) -> std::io::Result<u64> {
        let mut b = [0; 8];
        self.from_driver.read_exact(&mut b)?;
        Ok(u64::from_le_bytes(b))
    }

    fn words(&mut self, n: usize) -> std::io::Result<Vec<u64>> {
        (0..n).map(|_| self.word()).collect()
    }

    fn check(&mut self, a: &Awaited) -> std::io::Result<()> {
        let words = self.words(a.words.len())?;
        match &a.call {
            Call::Sweep(s) => return Ok(self.check_sweep(s, &words, &a.words)),
            Call::Version => (),
            Call::Rewrite { .. } => (),
            _ => {
                let differing = self.word()?;
                if differing != 0 {
                    let other = if a.buffer.is_none() { self.words(a.words.len())? } else { Vec::new() };
                    let what = format!("of placing {} (other answer or bytes beside it {:?}, first {:?}): {}", differing, other, words, a.call.told());
                    self.report.differs(&what);
                }
            }
        }
        let mut same = words == a.words;
        let mut held = Vec::new();
        if let Some(buffer) = &a.buffer {
            held = vec![0; buffer.len()];
            self.from_driver.read_exact(&mut held)?;
            same &= held == *buffer;
        }
        self.report.comparisons += a.call.answers(&a.words);
        if !same {
            let mut what = format!("{}\n  library {:?}\n  model   {:?}", a.call.told(), words, a.words);
            if let Some(buffer) = &a.buffer {
                what += &a.call.first_unlike(&held, buffer);
                write!(what, "\n  library left {}\n  model left   {}", hex(&held), hex(buffer)).unwrap();
            }
            self.report.differs(&what);
        } else if words.len() > 1 {
            *self.report.tally.entry((a.call.name(), words[0], a.call.detail(&words))).or_insert(0) += 1;
            if matches!(a.call, Call::Week(_)) && words[0] == 0 {
                *self.report.weeks.entry(words[1]).or_insert(0) += 1;
            }
            if let Call::Fields { file, aims, .. } = &a.call {
                for aim in aims {
                    *self.report.aims.entry((*file, words[0], *aim)).or_insert(0) += 1;
                }
            }
            if let Call::Check { kind: PLAIN, .. } = &a.call {
                *self.report.places.entry((words[0], words[1], words[3])).or_insert(0) += 1;
            }
            for way in a.call.ways() {
                *self.report.ways.entry(way.clone()).or_insert(0) += 1;
            }
            for (way, n) in a.call.counts().into_iter().flatten() {
                *self.report.ways.entry(way.clone()).or_insert(0) += n;
            }
        }
        Ok(())
    }

    fn check_sweep(&mut self, s: &Swept, words: &[u64], want: &[u64]) {
        if words != want {
            self.report.sweeps.push(s.clone());
            return;
        }
        for (i, &n) in words[1..].iter().enumerate().filter(|(_, &n)| n > 0) {
            let call = if i < NUMBERS { "swept slovdrim_records" } else { "swept slovdrim_stretch" };
            *self.report.tally.entry((call, (i % NUMBERS) as u64, "")).or_insert(0) += n;
            self.report.comparisons += n;
        }
    }

    fn run(mut self, expected: Receiver<Vec<Awaited>>) -> Report {
        for batch in expected {
            for a in &batch {
                if self.check(a).is_err() {
                    self.report.differs(&format!("the driver ended; it had not yet answered {}", a.call.told()));
                    return self.report;
                }
            }
        }
        self.report
    }
}

pub struct Link {
    driver: Child,
    to_driver: Option<ChildStdin>,
    to_checker: Option<SyncSender<Vec<Awaited>>>,
    checker: JoinHandle<Report>,
    requests: Vec<u8>,
    awaited: Vec<Awaited>,
    broken: bool,
}

impl Link {
    pub fn start(command: &[String]) -> Link {
        let mut driver = Command::new(&command[0]).args(&command[1..]).stdin(Stdio::piped()).stdout(Stdio::piped()).spawn().expect("the driver starts");
        let from_driver = BufReader::with_capacity(1 << 16, driver.stdout.take().unwrap());
        let to_driver = driver.stdin.take();
        let (to_checker, expected) = sync_channel(64);
        let checker = std::thread::spawn(move || Checker { from_driver, report: Report::default() }.run(expected));
        Link { driver, to_driver, to_checker: Some(to_checker), checker, requests: Vec::new(), awaited: Vec::new(), broken: false }
    }

    pub fn letter(&mut self, letter: u8) {
        if self.requests.len() > 1 << 16 || self.awaited.len() > 4096 {
            self.flush();
        }
        self.requests.push(letter);
    }

    pub fn word(&mut self, w: u64) {
        self.requests.extend(w.to_le_bytes());
    }

    /// The length and the bytes.
    pub fn bytes(&mut self, bytes: &[u8]) {
        self.word(bytes.len() as u64);
        self.requests.extend(bytes);
    }

    /// Their count and the numbers, 32 bits each.
    pub fn numbers(&mut self, numbers: &[u32]) {
        self.word(numbers.len() as u64);
        numbers.iter().for_each(|n| self.requests.extend(n.to_le_bytes()));
    }

    pub fn expect(&mut self, call: Call, words: &[u64]) {
        self.awaited.push(Awaited { call, words: words.to_vec(), buffer: None });
    }

    pub fn expect_buffer(&mut self, call: Call, words: &[u64], buffer: Vec<u8>) {
        self.awaited.push(Awaited { call, words: words.to_vec(), buffer: Some(buffer) });
    }

    /// The checker hears what to expect before the driver is asked: so it can always read on, and neither side waits for the other for ever.
    pub fn flush(&mut self) {
        let expected = std::mem::take(&mut self.awaited);
        let heard = self.to_checker.as_ref().unwrap().send(expected).is_ok();
        let asked = heard && self.to_driver.as_mut().unwrap().write_all(&self.requests).is_ok();
        self.broken |= !asked;
        self.requests.clear();
    }

    pub fn finish(mut self) -> Report {
        self.flush();
        drop(self.to_driver.take());
        drop(self.to_checker.take());
        let mut report = self.checker.join().expect("the checker ends");
        let status = self.driver.wait().expect("the driver ends");
        if !status.success() || self.broken {
            report.differs(&format!("the driver ended with {}", status));
        }
        report
    }
}

//! The check program: batches written as files into a folder, the program run there, and its line, its exit status and its standard error compared with what the
//! model makes.

use std::fs;
use std::os::unix::fs::{symlink, PermissionsExt};
use std::path::PathBuf;
use std::process::{Command, Stdio};

use crate::batch_faults::{key_used, to_nothing, Words, FINE};
use crate::batch_large::udaje_of_length;
use crate::batch_met::{batches, places, Met};
use crate::batches::{line_text, Batch};
use crate::cases::{self, Case};
use crate::fields::{name_of, NOT_OF_ITS_KIND};
use crate::format::{writing, ENDS_INSIDE, LONGEST, NOT_LEGAL};
use crate::link::{told_files, Report};
use crate::links::{first_fault, verdict, Bytes, WRONG_VERSION};
use crate::maker::Maker;
use crate::trip_questions::plans;

/// "61,440 bytes together at most".
const MOST: usize = 61_440;

/// So many batches at least.
const BATCHES: u64 = 300;

/// What the program is to write on standard output.
fn told_of(batch: &Bytes, fault: Words) -> String {
    if batch.iter().map(|b| b.len()).sum::<usize>() > MOST {
        return "TOO LARGE\n".to_string();
    }
    let [number, file, record, field, offset, stops, lines, trips, trip_stops] = verdict(batch, fault);
    if number == 0 {
        format!("ACCEPTED stops {} lines {} trips {} trip stops {}\n", stops, lines, trips, trip_stops)
    } else {
        format!("REFUSED {} file {} record {} field {} at {}\n", number, file, record, field, offset)
    }
}

/// The folder that the program reads.
struct Folder<'a> {
    path: PathBuf,
    /// What the program is run by, before its own command.
    before: Vec<String>,
    command: &'a [String],
    report: Report,
    /// An empty file and a missing one are the same: by turns.
    empty: bool,
}

struct Run {
    line: Vec<u8>,
    message: Vec<u8>,
    status: Option<i32>,
}

impl Folder<'_> {
    fn place(&self, file: u64) -> PathBuf {
        self.path.join(format!("{}.txt", name_of(file)))
    }

    fn clear(&self) {
        let _ = fs::remove_dir_all(&self.path);
        fs::create_dir_all(&self.path).expect("the folder can be made");
    }

    fn lay(&mut self, batch: &Bytes) {
        self.clear();
        for (file, bytes) in (1..).zip(batch) {
            self.empty = !self.empty;
            if !bytes.is_empty() || self.empty {
                fs::write(self.place(file), bytes).expect("the folder can be written to");
            }
        }
    }

    fn run(&self) -> Run {
        let words = [&self.before[..], self.command].concat();
        let out = Command::new(&words[0]).args(&words[1..]).current_dir(&self.path).stdin(Stdio::null()).output().expect("the program starts");
        Run { line: out.stdout, message: out.stderr, status: out.status.code() }
    }

    fn differs(&mut self, batch: &Bytes, ways: &[String], run: &Run, wanted: &str) {
        let shown = |bytes: &[u8]| String::from_utf8_lossy(&bytes[..bytes.len().min(400)]).into_owned();
        let told = format!("program, made for {:?}\n  program {:?} {:?} {:?}\n  model   {}", ways, shown(&run.line), shown(&run.message), run.status, wanted);
        self.report.differs(&(told + &told_files(batch, None)));
    }

    fn counted(&mut self, ways: &[String]) {
        for way in ways {
            *self.report.ways.entry(way.clone()).or_insert(0) += 1;
        }
    }

    /// The folder as it is holds this batch.
    fn ask_laid(&mut self, batch: &Bytes, fault: Words, ways: &[String]) {
        let line = told_of(batch, fault);
        let run = self.run();
        self.report.comparisons += 1;
        if run.line != line.as_bytes() || !run.message.is_empty() || run.status != Some(0) {
            self.differs(batch, ways, &run, &format!("{:?} \"\" Some(0)", line));
        } else {
            let place = if line.starts_with('T') { (99, 0, 0) } else { (fault[0], fault[1], fault[3]) };
            *self.report.places.entry(place).or_insert(0) += 1;
            self.counted(ways);
        }
    }

    fn ask(&mut self, batch: &Bytes, fault: Words, ways: &[String]) {
        assert_eq!(first_fault(batch), fault, "the model on a batch made for {:?}", ways);
        self.lay(batch);
        self.ask_laid(batch, fault, ways);
    }

    fn ask_case(&mut self, case: Case) {
        let ways = [&case.ways[..], &crate::asker::reasons(&case.batch, case.want)].concat();
        self.ask(&case.batch, case.want, &ways);
    }

    /// The folder has something that can't be read: a message and no line. Its status is 0: the line alone is the verdict.
    fn ask_error(&mut self, batch: &Bytes, way: String) {
        let run = self.run();
        self.report.comparisons += 1;
        if !run.line.is_empty() || run.message.is_empty() || run.status != Some(0) {
            self.differs(batch, &[way], &run, "\"\", a message, Some(0)");
        } else {
            self.counted(&[way]);
        }
    }
}

fn way(text: &str) -> Vec<String> {
    vec![text.to_string()]
}

/// A batch that stands whose Udaje fills it up to so many bytes; and its line in Udaje.
fn filled(m: &mut Maker, total: usize) -> (Batch, Bytes, u64) {
    let b = cases::standing(m);
    let line = *b.known.lines.iter().min().unwrap();
    let mut bytes = b.bytes();
    bytes[8].clear();
    let others: usize = bytes.iter().map(|b| b.len()).sum();
    bytes[8] = udaje_of_length(line, total - others);
    (b, bytes, line)
}

/// Batches at the limit and beyond, accepted and refused, with places far from the beginning.
fn sizes(f: &mut Folder, m: &mut Maker) {
    for total in [MOST - 1, MOST, MOST + 1, MOST + 2, 65_535, 65_536, 65_537, 100_000, 2 * MOST] {
        let (_, bytes, _) = filled(m, total);
        f.ask(&bytes, FINE, &way(if total > MOST { "sizes: too large" } else { "sizes: accepted at the limit" }));
    }
    for total in [MOST, MOST + 1] {
        let (b, mut bytes, _) = filled(m, total);
        let (records, length) = (bytes[8].iter().filter(|&&b| b == b'\n').count(), bytes[8].len());
        let last = bytes[8][..length - 1].iter().rposition(|&b| b == b'\n').unwrap() + 1;
        let unknown = (0..1_000_000).rev().find(|&l| !(0..b.count(5)).any(|r| b.key(5, r) == [l])).unwrap();
        let whole = bytes[8].clone();
        bytes[8][last + 1..last + 7].copy_from_slice(&line_text(unknown));
        let to_nothing = to_nothing(9, records - 1, 1);
        f.ask(&bytes, to_nothing, &way("sizes: refused at the limit"));
        bytes[8] = whole;
        bytes[8][last] = b'x';
        f.ask(&bytes, [NOT_LEGAL, 9, 0, 0, last as u64], &way("sizes: refused at the limit"));
        bytes[8][last] = b'"';
        bytes[8][length - 1] = b'"';
        f.ask(&bytes, [NOT_LEGAL, 9, 0, 0, length as u64 - 1], &way("sizes: refused at the limit"));
        bytes[8].pop();
        f.ask(&bytes, [ENDS_INSIDE, 9, 0, 0, length as u64 - 1], &way("sizes: refused at the limit"));
    }
    // the bytes of one file after the other reach the limit and pass it, alone and beside the others
    for file in 1..=13 {
        for (alone, total) in [(true, MOST), (true, MOST + 1), (false, MOST), (false, MOST + 1)] {
            let mut bytes = if alone { vec![Vec::new(); 13] } else { cases::standing(m).bytes() };
            bytes[file - 1].clear();
            let others: usize = bytes.iter().map(|b| b.len()).sum();
            bytes[file - 1] = vec![b'x'; total - others];
            f.ask(&bytes, [NOT_LEGAL, file as u64, 0, 0, 0], &[format!("sizes, {} bytes by: {}", total, name_of(file as u64))]);
        }
    }
    f.ask(&vec![vec![b'x'; 4726]; 13], [NOT_LEGAL, 1, 0, 0, 0], &way("sizes: all files alike"));
    f.ask(&vec![vec![b'x'; 4727]; 13], [NOT_LEGAL, 1, 0, 0, 0], &way("sizes: all files alike"));
    f.ask(&vec![vec![b'x'; MOST]; 13], [NOT_LEGAL, 1, 0, 0, 0], &way("sizes: all files alike"));
    let mut long = vec![Vec::new(); 13];
    long[12] = vec![b'x'; LONGEST + 1];
    f.ask(&long, [1, 13, 0, 0, 0], &way("sizes: too large"));
}

fn version() -> Vec<u8> {
    writing(&[vec![b"1.8".to_vec()]])
}

/// So many stops and nothing else.
fn stops(count: usize) -> Bytes {
    let text = |t: &str| t.as_bytes().to_vec();
    let record = |n: usize| [vec![n.to_string().into_bytes(), text("A"), text(""), text(""), text(""), text("SK")], vec![text(""); 6]].concat();
    let mut batch = vec![Vec::new(); 13];
    batch[0] = version();
    batch[1] = writing(&(1..=count).map(record).collect::<Vec<Vec<Vec<u8>>>>());
    batch
}

/// Numbers of one digit to four, with zeros among them, as counts and as places.
fn digits(f: &mut Folder, m: &mut Maker) {
    for count in [0, 1, 9, 10, 11, 99, 100, 101, 110, 200, 999, 1000, 1001, 1010, 1100, 1234] {
        f.ask(&stops(count), FINE, &way("digits: stops"));
        if count > 1 {
            let mut twice = stops(count);
            let first = b"\"000000001\"";
            let last = twice[1][..twice[1].len() - 1].iter().rposition(|&b| b == b'\n').unwrap() + 1;
            let number = count.to_string().len();
            twice[1].splice(last..last + number + 2, first.iter().copied());
            f.ask(&twice, key_used(2, count - 1), &way("digits: records"));
            let mut field = stops(count);
            let end = field[1].len();
            field[1].splice(end - 4..end - 4, *b"x");
            f.ask(&field, [NOT_OF_ITS_KIND, 2, count as u64, 12, 0], &way("digits: records"));
        }
    }
    for count in [1, 9, 10, 11, 40, 99, 100, 101] {
        let all = plans(m, count, if count < 50 { 5 } else { 3 }, (36_889, 37_253));
        let b = Batch::of_plans(m, all);
        f.ask(&b.bytes(), FINE, &way("digits: trips and trip stops"));
    }
}

/// Files that aren't there, and such as only seem to be.
fn absent(f: &mut Folder, m: &mut Maker) {
    let nothing = vec![Vec::new(); 13];
    f.clear();
    f.ask_laid(&nothing, [WRONG_VERSION, 1, 0, 0, 0], &way("absent: all files"));
    for file in 1..=13 {
        let b = cases::standing(m);
        let (left, want) = crate::batch_questions::without_file(&b, file);
        let (bytes, gone) = (left.bytes(), b.bytes()[file as usize - 1].clone());
        f.lay(&bytes);
        let _ = fs::remove_file(f.place(file));
        let name = name_of(file);
        for other in [name.to_string(), format!("{}.txt", name.to_lowercase()), format!("{}.TXT", name), format!("{}.txt~", name), format!("x{}.txt", name)] {
            fs::write(f.path.join(other), &gone).expect("the folder can be written to");
        }
        f.ask_laid(&bytes, want, &[format!("absent, others of like names: {}", name)]);
    }
    // a link to the file is the file
    for file in [1, 6, 13] {
        let bytes = cases::standing(m).bytes();
        f.lay(&bytes);
        fs::rename(f.place(file), f.path.join("elsewhere")).expect("the folder can be written to");
        symlink("elsewhere", f.place(file)).expect("a link can be made");
        f.ask_laid(&bytes, FINE, &way("absent: a link to it is there"));
    }
}

/// Whether a file that nobody may read is read all the same, as by root.
fn reads_all(f: &Folder) -> bool {
    f.clear();
    let path = f.place(1);
    fs::write(&path, version()).expect("the folder can be written to");
    fs::set_permissions(&path, fs::Permissions::from_mode(0)).expect("the mode can be set");
    fs::read(&path).is_ok()
}

/// A file that is there and can't be read: a folder, a link to itself, one that nobody may read.
fn errors(f: &mut Folder, m: &mut Maker) {
    for file in 1..=13 {
        for broken in [false, true] {
            let mut bytes = cases::standing(m).bytes();
            bytes[file as usize - 1].clear();
            if broken {
                bytes[m.r.below(13)].push(b'x');
            }
            f.lay(&bytes);
            let _ = fs::remove_file(f.place(file));
            fs::create_dir(f.place(file)).expect("the folder can be written to");
            f.ask_error(&bytes, format!("error, a folder: {}", name_of(file)));
        }
        let bytes = cases::standing(m).bytes();
        f.lay(&bytes);
        let _ = fs::remove_file(f.place(file));
        symlink(format!("{}.txt", name_of(file)), f.place(file)).expect("a link can be made");
        f.ask_error(&bytes, format!("error, a link to itself: {}", name_of(file)));
        let bytes = cases::standing(m).bytes();
        f.lay(&bytes);
        let _ = fs::remove_file(f.place(file));
        symlink("nothing.txt", f.place(file)).expect("a link can be made");
        f.ask_error(&bytes, format!("error, a link to nothing: {}", name_of(file)));
    }
    // Root may read whatever it likes, but not without these two rights.
    if reads_all(f) {
        f.before = ["setpriv", "--bounding-set=-dac_override,-dac_read_search"].map(String::from).to_vec();
    }
    for file in 1..=13 {
        let bytes = cases::standing(m).bytes();
        f.lay(&bytes);
        fs::set_permissions(f.place(file), fs::Permissions::from_mode(0)).expect("the mode can be set");
        f.ask_error(&bytes, format!("error, not to be read: {}", name_of(file)));
    }
    f.before.clear();
}

pub fn compare(folder: &str, command: &[String]) -> Report {
    if PathBuf::from(folder).exists() {
        eprintln!("{} is there already, and what it holds would be lost", folder);
        std::process::exit(2);
    }
    let mut f = Folder { path: PathBuf::from(folder), before: Vec::new(), command, report: Report::default(), empty: false };
    let mut m = Maker::new(77);
    let began = std::time::Instant::now();
    let samples: Bytes = (1..=13).map(|file| crate::faults::sample("samples/good", file)).collect();
    f.ask(&samples, FINE, &way("the samples"));
    let small = |case: Case, f: &mut Folder| {
        if case.batch.iter().map(|b| b.len()).sum::<usize>() <= MOST {
            f.ask_case(case);
        }
    };
    cases::valid(&mut m, 40, &mut |case| small(case, &mut f));
    cases::damaged_once(&mut m, 2, &mut |case| small(case, &mut f));
    cases::damaged_twice(&mut m, 1, 2..=11, &mut |case| small(case, &mut f));
    cases::damaged_bytes(&mut m, 40, &mut |case| small(case, &mut f));
    cases::missing(&mut m, 1, &mut |case| small(case, &mut f));
    println!("whole batches: {} compared, {:.1} s", f.report.comparisons, began.elapsed().as_secs_f64());
    let steps: [(&str, fn(&mut Folder, &mut Maker)); 4] = [("sizes", sizes), ("digits", digits), ("files that aren't there", absent), ("files that can't be read", errors)];
    for (name, step) in steps {
        let (began, before) = (std::time::Instant::now(), f.report.comparisons);
        step(&mut f, &mut m);
        println!("{}: {} compared, {:.1} s", name, f.report.comparisons - before, began.elapsed().as_secs_f64());
    }
    fs::remove_dir_all(&f.path).expect("the folder can be removed");
    f.report
}

pub fn told(report: &mut Report) {
    let mut met = Met::default();
    let asked: u64 = report.places.values().sum();
    println!("  {} batches", asked);
    let by_number = [0].into_iter().chain(2..=11).map(|n| (n.to_string(), batches(report, n, None, None)));
    met.line("batches by number", by_number.chain([("TOO LARGE".to_string(), batches(report, 99, None, None))]).collect());
    places(&mut met, report);
    let mut wanted = crate::whole::ways();
    wanted.push("the samples".to_string());
    wanted.extend(["accepted at the limit", "refused at the limit", "too large", "all files alike"].iter().map(|w| format!("sizes: {}", w)));
    wanted.extend(["stops", "records", "trips and trip stops"].iter().map(|w| format!("digits: {}", w)));
    wanted.extend(["all files", "a link to it is there"].iter().map(|w| format!("absent: {}", w)));
    for file in 1..=13 {
        let name = name_of(file);
        wanted.extend([MOST, MOST + 1].iter().map(|total| format!("sizes, {} bytes by: {}", total, name)));
        let unread = ["error, a folder", "error, a link to itself", "error, a link to nothing", "error, not to be read"];
        wanted.extend(["absent, others of like names"].iter().chain(&unread).map(|w| format!("{}: {}", w, name)));
    }
    met.ways(report, wanted);
    if asked < BATCHES && report.differences == 0 {
        report.differs(&format!("{} batches are fewer than {}", asked, BATCHES));
    }
    met.finish(report);
}

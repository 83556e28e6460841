//! Sweeps: every string that begins with a given one and is, but for its last byte, the beginning of a legal file, over a small alphabet. There are
//! hundreds of millions of them, so both sides fold their answers into a digest, in the same order; where two digests differ, `closer`
//! finds the first string that is to blame.

use std::sync::Arc;

use crate::format::{judge, Judged, Reader, FIELDS};
use crate::link::{Call, Link, Report};

/// Numbers that a call can come back with are below this; it is the width of the driver's own tally.
pub const NUMBERS: usize = 25;

pub const ALPHABET: [u8; 7] = [b'"', b',', b';', b'\r', b'\n', b'a', 0x81];

#[derive(Clone)]
pub struct Swept {
    pub file: u64,
    pub beginning: Vec<u8>,
    pub longest: usize,
    /// Up to this length a refused string is also asked for a stretch.
    pub stretches_to: usize,
}

struct Folded {
    digest: u64,
    records: [u64; NUMBERS],
    stretch: [u64; NUMBERS],
}

impl Folded {
    fn fold(&mut self, words: &[u64]) {
        for w in words {
            self.digest = (self.digest.rotate_left(5) ^ w).wrapping_mul(0x9e37_79b9_7f4a_7c15);
        }
    }

    fn stretch(&mut self, words: [u64; 7]) {
        self.stretch[words[0] as usize] += 1;
        self.fold(&words);
    }
}

fn fields(s: &Swept) -> usize {
    FIELDS[s.file as usize - 1]
}

/// `text` with one byte more, for each byte; then on from each that is a beginning.
fn from(s: &Swept, text: &mut Vec<u8>, out: &mut Folded) {
    let n = fields(s);
    let mut goes_on = [false; ALPHABET.len()];
    text.push(0);
    for (i, &b) in ALPHABET.iter().enumerate() {
        *text.last_mut().unwrap() = b;
        let words = match judge(n, text) {
            Judged::Legal { records } => [0, 0, 0, 0, 0, records as u64],
            Judged::NotLegal { at } => [2, s.file, 0, 0, at as u64, 0],
            Judged::EndsInside => [3, s.file, 0, 0, text.len() as u64, 0],
        };
        out.records[words[0] as usize] += 1;
        out.fold(&words);
        goes_on[i] = words[0] != 2;
        if words[0] == 0 {
            let reader = Reader::new(s.file, text);
            for record in 0..=words[5] + 1 {
                for field in 0..=n as u64 + 1 {
                    out.stretch(reader.stretch(record, field));
                }
            }
        } else if text.len() <= s.stretches_to {
            out.stretch([words[0], words[1], 0, 0, words[4], 0, 0]);
        }
    }
    if text.len() < s.longest {
        for (i, &b) in ALPHABET.iter().enumerate() {
            if goes_on[i] {
                *text.last_mut().unwrap() = b;
                from(s, text, out);
            }
        }
    }
    text.pop();
}

fn expected(s: &Swept) -> Vec<u64> {
    let mut out = Folded { digest: 0, records: [0; NUMBERS], stretch: [0; NUMBERS] };
    from(s, &mut s.beginning.clone(), &mut out);
    let mut words = vec![out.digest];
    words.extend(out.records);
    words.extend(out.stretch);
    words
}

fn ask(link: &mut Link, s: &Swept) {
    link.letter(b'G');
    link.word(s.file);
    link.word(fields(s) as u64);
    link.word(s.longest as u64);
    link.word(s.stretches_to as u64);
    link.bytes(&ALPHABET);
    link.bytes(&s.beginning);
    link.expect(Call::Sweep(s.clone()), &expected(s));
    link.flush();
}

/// Asks for the sweep in parts, one for each beginning of `parts` bytes, so that both sides work at the same time.
pub fn sweep(link: &mut Link, file: u64, longest: usize, stretches_to: usize, parts: usize) {
    let n = FIELDS[file as usize - 1];
    let mut beginnings: Vec<Vec<u8>> = vec![Vec::new()];
    for length in 1..=parts {
        // what is shorter than the parts' beginnings, each string on its own
        for b in beginnings.clone() {
            ask(link, &Swept { file, beginning: b, longest: length, stretches_to });
        }
        beginnings = beginnings
            .iter()
            .flat_map(|b| ALPHABET.iter().map(move |&x| [&b[..], &[x]].concat()))
            .filter(|b| !matches!(judge(n, b), Judged::NotLegal { .. }))
            .collect();
    }
    for beginning in beginnings {
        ask(link, &Swept { file, beginning, longest, stretches_to });
    }
}

/// Goes down from a sweep whose digests differ to a string whose answers do.
pub fn closer(command: &[String], s: &Swept) -> Report {
    let mut report = Report::default();
    let mut next = Some(s.clone());
    while let Some(s) = next.take() {
        let mut link = Link::start(command);
        for b in ALPHABET {
            let bytes = [&s.beginning[..], &[b]].concat();
            crate::files::whole(&mut link, s.file, &Arc::new(bytes));
        }
        let direct = link.finish();
        let found = direct.differences > 0;
        report.add(direct);
        if found {
            return report;
        }
        for b in ALPHABET {
            let beginning = [&s.beginning[..], &[b]].concat();
            if next.is_none() && beginning.len() < s.longest && !matches!(judge(fields(&s), &beginning), Judged::NotLegal { .. }) {
                let part = Swept { beginning, ..s.clone() };
                let mut link = Link::start(command);
                ask(&mut link, &part);
                if !link.finish().sweeps.is_empty() {
                    next = Some(part);
                }
            }
        }
    }
    report.differs(&format!("a sweep of file {} from {:02x?} that no single string explains", s.file, s.beginning));
    report
}

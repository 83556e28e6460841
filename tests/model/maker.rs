//! Records that stand, by seed: each field of its kind, each rule kept. They are made so and not picked out, so that the model's own judgement has no part in it.

use crate::calendar::{Calendar, Day};
use crate::fields::{fields_of_file, Field, Kind};
use crate::format::{permitted_text, Record};
use crate::generator::{text, Random};

/// Makes records that stand.
pub struct Maker {
    pub r: Random,
    pub days: Vec<Day>,
}

impl Maker {
    pub fn new(seed: u64) -> Maker {
        Maker { r: Random::new(seed), days: Calendar::new().days }
    }

    pub fn digits(&mut self, length: usize) -> Vec<u8> {
        match self.r.below(6) {
            0 => vec![b'0'; length],
            1 => vec![b'9'; length],
            2 => (0..length).map(|i| if i + 1 < length { b'0' } else { b'7' }).collect(),
            _ => (0..length).map(|_| self.r.pick(b"0123456789")).collect(),
        }
    }

    pub fn text(&mut self, length: usize) -> Vec<u8> {
        let mut t: Vec<u8> = Vec::new();
        while t.len() < length {
            let b = match self.r.below(5) {
                0 => self.r.pick(b" \",;|<.-/\xa7\xa0"),
                1 => self.r.pick(b"\xec\x9a\xe8\xf8\x9e\xfd\xe1\xed\xe9\xf9\xfa\xf3\xf2\x9d\xcc\x8a\xc8\xd8\x8e\xff\x80"),
                2 => self.r.pick(b"0123456789"),
                _ => self.r.pick(b"abcdefghijklmnopqrstuvwxyzABCDEFGHIJKLMNOPQRSTUVWXYZ"),
            };
            t.push(b);
            if !permitted_text(&t[t.len().saturating_sub(2)..]) {
                t.pop();
            }
        }
        t
    }

    /// Day, month and year as a field has them.
    pub fn written(&self, day: usize) -> Vec<u8> {
        let d = self.days[day];
        format!("{:02}{:02}{}", d.day, d.month, d.year).into_bytes()
    }

    /// Two days, the first not after the second.
    pub fn span(&mut self) -> (usize, usize) {
        let from = self.r.below(self.days.len());
        let to = match self.r.below(4) {
            0 => from,
            1 => self.days.len() - 1,
            _ => (from + self.r.below(500)).min(self.days.len() - 1),
        };
        (from, to)
    }

    /// Two dates, the first not after the second.
    pub fn period(&mut self) -> (Vec<u8>, Vec<u8>) {
        let (from, to) = self.span();
        (self.written(from), self.written(to))
    }

    pub fn given(&mut self, field: Field) -> Vec<u8> {
        match field.kind {
            Kind::Digits(from, to) => {
                let length = if self.r.one_in(3) { to } else { from + self.r.below(to - from + 1) };
                self.digits(length)
            }
            Kind::Text(most) => {
                let length = if self.r.one_in(12) { most } else { 1 + self.r.below(most.min(12)) };
                self.text(length)
            }
            Kind::OneOf(choices) => vec![self.r.pick(choices)],
            Kind::Date => self.period().0,
            Kind::Time => match self.r.below(5) {
                0 => b"0000".to_vec(),
                1 => b"2359".to_vec(),
                _ => format!("{:02}{:02}", self.r.below(24), self.r.below(60)).into_bytes(),
            },
        }
    }

    pub fn any(&mut self, field: Field) -> Vec<u8> {
        if !field.required && self.r.one_in(2) {
            Vec::new()
        } else {
            self.given(field)
        }
    }

    /// A record whose fields are all of their kinds and which keeps its rules.
    pub fn legal(&mut self, file: u64) -> Record {
        if file == 1 {
            return vec![text(&mut self.r, 9)];
        }
        let fields = fields_of_file(file);
        let mut record: Record = fields.iter().map(|&f| self.any(f)).collect();
        let mut set = |n: usize, text: &[u8]| record[n - 1] = text.to_vec();
        match file {
            2 => {
                let given = self.given(fields[4]);
                match self.r.below(4) {
                    0 => set(6, b"SK"),
                    1 => set(6, b"A"),
                    _ => {
                        set(6, b"CZ");
                        set(5, &given);
                    }
                }
            }
            4 => {
                if self.r.one_in(2) {
                    set(4, b"1");
                } else {
                    let given = self.given(fields[4]);
                    set(4, b"2");
                    set(5, &given);
                }
            }
            5 => {
                let (licence, validity) = (self.period(), self.period());
                let which = self.r.below(4);
                set(7, if which & 1 == 0 { &licence.0 } else { b"" });
                set(8, if which & 2 == 0 { &licence.1 } else { b"" });
                set(9, &validity.0);
                set(10, &validity.1);
            }
            8 => {
                let (kilometres, arrival, departure) = (self.given(fields[7]), self.given(fields[8]), self.given(fields[9]));
                let (k, a, d): (&[u8], &[u8], &[u8]) = match self.r.below(8) {
                    0 => (b"", b"", b""),
                    1 => (&kilometres, &arrival, b""),
                    2 => (&kilometres, b"", &departure),
                    3 => (&kilometres, &arrival, &departure),
                    4 => (&kilometres, b"", b"|"),
                    5 => (&kilometres, b"|", b"|"),
                    6 => (b"", b"", b"<"),
                    _ => (b"", b"<", b"<"),
                };
                set(8, k);
                set(9, a);
                set(10, d);
            }
            10 => {
                let (from, to) = self.period();
                let typed = self.r.below(9);
                let mark = if typed == 0 { vec![self.r.pick(b"OmM[p")] } else { (10 + self.r.below(70)).to_string().into_bytes() };
                let dates = match typed {
                    0 => self.r.below(3),
                    1 | 4 => 1 + self.r.below(2),
                    2 | 3 => 1,
                    5 | 6 => 0,
                    _ => 2,
                };
                set(4, &mark);
                set(5, if typed == 0 { &[] } else { &b"12345678"[typed - 1..typed] });
                set(6, if dates >= 1 { &from } else { b"" });
                set(7, if dates == 2 { &to } else { b"" });
            }
            11 => {
                let (from, to) = self.period();
                let dates = self.r.below(3);
                set(12, if dates >= 1 { &from } else { b"" });
                set(13, if dates == 2 { &to } else { b"" });
                if dates == 0 {
                    let code = self.given(fields[3]);
                    let at = 4 + self.r.below(7);
                    set(at, if at == 10 { b"5" } else { &code });
                }
            }
            _ => (),
        }
        record
    }

    pub fn legals(&mut self, file: u64, count: usize) -> Vec<Record> {
        (0..count).map(|_| self.legal(file)).collect()
    }

    /// How many records a file has that is made around one of them, and which it is.
    pub fn place(&mut self) -> (usize, usize) {
        let count = 1 + self.r.below(4);
        (count, 1 + self.r.below(count))
    }
}

/// Puts a text of its kind into a field, and into the fields that a rule ties to it what keeps the rule.
pub fn put(file: u64, record: &mut Record, field: usize, text: &[u8]) {
    let empty = text.is_empty();
    let mut set = |n: usize, t: &[u8]| record[n - 1] = t.to_vec();
    set(field, text);
    match (file, field) {
        (2, 5) => set(6, if empty { b"A" } else { b"CZ" }),
        (2, 6) => set(5, b"TR"),
        (4, 4) => set(5, b"J. Novak"),
        (4, 5) => set(4, if empty { b"1" } else { b"2" }),
        (5, 7) | (5, 9) => set(field + 1, text),
        (5, 8) | (5, 10) => set(field - 1, text),
        (8, 8) => {
            set(9, b"");
            set(10, if empty { b"" } else { b"0600" });
        }
        (8, 9) => {
            set(10, if text == b"|" || text == b"<" { text } else { b"0600" });
            set(8, if text == b"<" { b"" } else { b"15" });
        }
        (8, 10) => {
            set(9, if empty { b"0600" } else { b"" });
            set(8, if text == b"<" { b"" } else { b"15" });
        }
        (10, 4) => {
            set(5, if text.len() == 2 { b"5" } else { b"" });
            set(6, b"");
            set(7, b"");
        }
        (10, 5) => {
            set(4, if empty { b"m" } else { b"33" });
            set(6, if text == b"5" || text == b"6" { b"" } else { b"24122001" });
            set(7, if text == b"7" || text == b"8" { b"02012002" } else { b"" });
        }
        (10, 6) | (10, 7) => {
            set(4, b"p");
            set(5, b"");
            set(13 - field, text);
        }
        (11, 4..=10) => {
            set(12, b"01072001");
            set(13, b"");
        }
        (11, 12) | (11, 13) => {
            set(10, b"6");
            set(25 - field, text);
        }
        _ => (),
    }
}

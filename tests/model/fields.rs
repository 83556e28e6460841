//! Document 01, "Fields": what each field of files 2 to 13 may hold (refusal 5), and what the fields of a record must be to each other (refusal 6).
//! The table is document 000's, file by file and field by field; where document 01 says otherwise, it goes before.

use crate::calendar::days_in;
use crate::format::{Reader, FIELDS};

pub const NOT_OF_ITS_KIND: u64 = 5;
pub const RULE_BROKEN: u64 = 6;

/// A word for each field. `?`: it may be empty. `textN`: to N bytes. `of:` and the bytes of which it is one. A last `*N`: so many of them.
const TABLE: [(&str, &str); 13] = [
    ("VerzeJDF", ""),
    ("Zastavky", "number text48 text48? text48? text3? text3 code?*6"),
    ("Pevnykod", "code sign text254?"),
    ("Dopravci", "ico text14? text254 of:12 text254? text254 text48 text48?*4"),
    ("Linky", "line text254 ico of:ABMNPVWZ three? text48? date?*2 date*2"),
    ("Spoje", "line number code?*10"),
    ("Zaslinky", "line number text254? number code?*3"),
    ("Zasspoje", "line number*3 text48? code?*2 number? time?*2"),
    ("Udaje", "line number text254"),
    ("Caskody", "line number*2 text2 of:12345678? date?*2 text254?"),
    ("Altdop", "line number ico code?*6 of:56? text254? date?*2"),
    ("Altlinky", "line text20 text3"),
    ("Mistenky", "line number text254"),
];

/// The thirty signs of Pevnykod.
pub const SIGNS: &[u8] = b"X+1234567R#|<@%Wwx~I()${}[Ovs\xa7";

#[derive(Clone, Copy, PartialEq, Eq, Debug)]
pub enum Kind {
    /// From so many digits to so many.
    Digits(usize, usize),
    /// To so many bytes.
    Text(usize),
    OneOf(&'static [u8]),
    Date,
    Time,
}

#[derive(Clone, Copy, Debug)]
pub struct Field {
    pub kind: Kind,
    pub required: bool,
}

fn field_of(word: &'static str) -> Field {
    let (name, required) = match word.strip_suffix('?') {
        Some(name) => (name, false),
        None => (word, true),
    };
    let kind = match name {
        "number" => Kind::Digits(1, 9),
        "code" => Kind::Digits(1, 5),
        "line" => Kind::Digits(6, 6),
        "ico" => Kind::Digits(8, 8),
        "three" => Kind::Digits(3, 3),
        "sign" => Kind::OneOf(SIGNS),
        "date" => Kind::Date,
        "time" => Kind::Time,
        _ => match (name.strip_prefix("of:"), name.strip_prefix("text")) {
            (Some(choices), _) => Kind::OneOf(choices.as_bytes()),
            (_, Some(most)) => Kind::Text(most.parse().unwrap()),
            _ => panic!("{} is no kind", word),
        },
    };
    Field { kind, required }
}

pub fn name_of(file: u64) -> &'static str {
    TABLE[file as usize - 1].0
}

/// The table's word for each field of a file's records, 2 to 13.
fn words_of(file: u64) -> Vec<&'static str> {
    let mut words = Vec::new();
    for word in TABLE[file as usize - 1].1.split(' ') {
        let (kind, times) = word.split_once('*').unwrap_or((word, "1"));
        words.extend(vec![kind; times.parse().unwrap()]);
    }
    assert_eq!(words.len(), FIELDS[file as usize - 1], "the model's table of file {}", file);
    words
}

/// The fields of a file's records, 2 to 13.
pub fn fields_of_file(file: u64) -> Vec<Field> {
    words_of(file).into_iter().map(field_of).collect()
}

/// The kind of each field by the table's name for it, whether it is required or not.
pub fn kind_names(file: u64) -> Vec<&'static str> {
    words_of(file).into_iter().map(|word| word.trim_end_matches('?')).collect()
}

fn all_digits(text: &[u8]) -> bool {
    text.iter().all(|b| b.is_ascii_digit())
}

pub fn value(digits: &[u8]) -> u64 {
    digits.iter().fold(0, |n, d| 10 * n + (d - b'0') as u64)
}

fn is_date(text: &[u8]) -> bool {
    if text.len() != 8 || !all_digits(text) {
        return false;
    }
    let (day, month, year) = (value(&text[..2]), value(&text[2..4]), value(&text[4..]));
    (1900..=2099).contains(&year) && (1..=12).contains(&month) && day >= 1 && day <= days_in(month, year)
}

/// HHMM; `|` and `<` are no times, though a time field may hold them.
fn is_time(text: &[u8]) -> bool {
    text.len() == 4 && all_digits(text) && value(&text[..2]) < 24 && value(&text[2..]) < 60
}

pub fn admits(field: Field, text: &[u8]) -> bool {
    if text.is_empty() {
        return !field.required;
    }
    match field.kind {
        Kind::Digits(from, to) => (from..=to).contains(&text.len()) && all_digits(text),
        Kind::Text(most) => text.len() <= most,
        Kind::OneOf(choices) => text.len() == 1 && choices.contains(&text[0]),
        Kind::Date => is_date(text),
        Kind::Time => text == b"|" || text == b"<" || is_time(text),
    }
}

/// The rules of each file by name. What they say of a record is in `rules`, in the same order.
pub fn rule_names(file: u64) -> &'static [&'static str] {
    match file {
        2 => &["district given if state is CZ"],
        4 => &["person's name given if kind is 2"],
        5 => &["licence from-date not after to-date", "validity from-date not after to-date"],
        8 => &["arrival and departure go together", "kilometres exactly with a time or |"],
        10 => &[
            "to-date needs a from-date",
            "to-date not before from-date",
            "with a type the mark is 10-79",
            "without a type the mark is O m M [ p",
            "types 1 and 4 need a from-date",
            "types 2 and 3 need a from-date and no to-date",
            "types 5 and 6 have neither date",
            "types 7 and 8 have both dates",
        ],
        11 => &["to-date needs a from-date", "to-date not before from-date", "a code, a type or a from-date"],
        _ => &[],
    }
}

/// For each rule of the file: whether this record, its fields all of their kinds, keeps it; nothing where the rule doesn't speak of such a record.
pub fn rules(file: u64, record: &[&[u8]]) -> Vec<Option<bool>> {
    let field = |n: usize| record[n - 1];
    let given = |n: usize| !field(n).is_empty();
    // year, month, day, so that they compare as bytes do
    let ordered = |from: usize, to: usize| {
        let turned = |n: usize| [&field(n)[4..], &field(n)[2..4], &field(n)[..2]].concat();
        turned(from) <= turned(to)
    };
    let if_so = |premise: bool, rule: &dyn Fn() -> bool| if premise { Some(rule()) } else { None };
    match file {
        2 => vec![if_so(field(6) == b"CZ", &|| given(5))],
        4 => vec![if_so(field(4) == b"2", &|| given(5))],
        5 => vec![if_so(given(7) && given(8), &|| ordered(7, 8)), Some(ordered(9, 10))],
        8 => {
            let (arrival, departure) = (field(9), field(10));
            let together = match departure {
                b"" => arrival.is_empty() || is_time(arrival),
                b"|" => arrival.is_empty() || arrival == b"|",
                b"<" => arrival.is_empty() || arrival == b"<",
                _ => arrival.is_empty() || is_time(arrival),
            };
            let counts = |t: &[u8]| is_time(t) || t == b"|";
            vec![Some(together), Some(given(8) == (counts(arrival) || counts(departure)))]
        }
        10 => {
            let (mark, from, to) = (field(4), given(6), given(7));
            let of = |types: &[u8]| given(5) && types.contains(&field(5)[0]);
            vec![
                if_so(to, &|| from),
                if_so(from && to, &|| ordered(6, 7)),
                if_so(given(5), &|| mark.len() == 2 && all_digits(mark) && (10..=79).contains(&value(mark))),
                if_so(!given(5), &|| mark.len() == 1 && b"OmM[p".contains(&mark[0])),
                if_so(of(b"14"), &|| from),
                if_so(of(b"23"), &|| from && !to),
                if_so(of(b"56"), &|| !from && !to),
                if_so(of(b"78"), &|| from && to),
            ]
        }
        11 => vec![
            if_so(given(13), &|| given(12)),
            if_so(given(12) && given(13), &|| ordered(12, 13)),
            Some((4..=9).any(given) || given(10) || given(12)),
        ],
        _ => Vec::new(),
    }
}

/// The first fault inside one file, read by itself: number, file, record, field, offset.
pub fn first_fault(file: u64, bytes: &[u8]) -> [u64; 5] {
    let reader = Reader::new(file, bytes);
    let [number, of_file, record, field, offset, _] = reader.records();
    if number != 0 || file == 1 {
        return [number, of_file, record, field, offset];
    }
    let fields = fields_of_file(file);
    let texts: Vec<&[u8]> = reader.texts(bytes).collect();
    for (r, record) in texts.chunks(fields.len()).enumerate() {
        if let Some(f) = (0..fields.len()).find(|&f| !admits(fields[f], record[f])) {
            return [NOT_OF_ITS_KIND, file, r as u64 + 1, f as u64 + 1, 0];
        }
        if rules(file, record).contains(&Some(false)) {
            return [RULE_BROKEN, file, r as u64 + 1, 0, 0];
        }
    }
    [0; 5]
}

//! Document 01, "Bytes of a file", twice over.
//!
//! First by definition: which lists of records have these bytes as their writing (`readings`), and which bytes some legal file begins with
//! (`viable`). That is plain and slow. Then directly, field by field, for bytes of any length (`judge`). `agreement` holds the two together.

/// Fields of a record in each of the thirteen files.
pub const FIELDS: [usize; 13] = [1, 12, 3, 11, 10, 12, 7, 10, 3, 8, 13, 3, 3];

pub const LONGEST: usize = 16_777_215;

pub const NO_SUCH: u64 = 20;
pub const TOO_LONG: u64 = 1;
pub const NOT_LEGAL: u64 = 2;
pub const ENDS_INSIDE: u64 = 3;
pub const NOT_PERMITTED: u64 = 21;
pub const NO_ROOM: u64 = 22;

pub fn fields_of(file: u64) -> Option<usize> {
    if (1..=13).contains(&file) {
        Some(FIELDS[file as usize - 1])
    } else {
        None
    }
}

pub fn permitted_byte(b: u8) -> bool {
    let defined = ![0x81, 0x83, 0x88, 0x90, 0x98].contains(&b);
    (32..=126).contains(&b) || (b >= 128 && defined)
}

/// A quote and what follows it, if that pair can't stand inside a text.
fn ends_a_text(pair: &[u8]) -> bool {
    pair == b"\"," || pair == b"\";"
}

pub fn permitted_text(text: &[u8]) -> bool {
    text.iter().all(|&b| permitted_byte(b)) && !text.windows(2).any(ends_a_text)
}

pub type Record = Vec<Vec<u8>>;

pub fn writing_of_field(text: &[u8], last: bool) -> Vec<u8> {
    let after: &[u8] = if last { b"\";\r\n" } else { b"\"," };
    [b"\"", text, after].concat()
}

pub fn writing(records: &[Record]) -> Vec<u8> {
    let mut bytes = Vec::new();
    for record in records {
        for (k, text) in record.iter().enumerate() {
            bytes.extend(writing_of_field(text, k + 1 == record.len()));
        }
    }
    bytes
}

/// Every list of permitted records of `n` fields whose writing is `bytes`: each quote is tried as the end of each text.
pub fn readings(n: usize, bytes: &[u8]) -> Vec<Vec<Record>> {
    let mut found = Vec::new();
    read_on(n, bytes, &mut Vec::new(), &mut found);
    found
}

fn read_on(n: usize, rest: &[u8], texts: &mut Vec<Vec<u8>>, found: &mut Vec<Vec<Record>>) {
    let field = texts.len() % n;
    if rest.is_empty() && field == 0 {
        found.push(texts.chunks(n).map(|c| c.to_vec()).collect());
    }
    if rest.first() != Some(&b'"') {
        return;
    }
    let after: &[u8] = if field + 1 == n { b"\";\r\n" } else { b"\"," };
    for end in 1..rest.len() {
        if rest[end..].starts_with(after) && permitted_text(&rest[1..end]) {
            texts.push(rest[1..end].to_vec());
            read_on(n, &rest[end + after.len()..], texts, found);
            texts.pop();
        }
    }
}

/// Whether some legal file begins with `beginning`. If one does, then one does that goes on with what is left of a record of empty texts, since
/// wherever a record is left off, it can be ended so.
pub fn viable(n: usize, beginning: &[u8]) -> bool {
    let empty = writing(&[vec![Vec::new(); n]]);
    (0..=empty.len()).any(|i| !readings(n, &[beginning, &empty[i..]].concat()).is_empty())
}

#[derive(Clone, Copy, PartialEq, Eq, Debug)]
pub enum Judged {
    Legal { records: usize },
    NotLegal { at: usize },
    EndsInside,
}

/// The judgement by definition, and the texts if there is a reading.
pub fn judge_by_definition(n: usize, bytes: &[u8]) -> (Judged, Vec<Record>) {
    let mut all = readings(n, bytes);
    assert!(all.len() <= 1, "two readings of {:02x?}", bytes);
    if let Some(one) = all.pop() {
        return (Judged::Legal { records: one.len() }, one);
    }
    let longest = (0..=bytes.len()).filter(|&k| viable(n, &bytes[..k])).max().unwrap();
    if longest == bytes.len() {
        (Judged::EndsInside, Vec::new())
    } else {
        (Judged::NotLegal { at: longest }, Vec::new())
    }
}

/// Where a text that begins at `from` is left, if it is: at the first pair of quote and comma or semicolon.
fn end_of_text(bytes: &[u8], from: usize) -> Option<usize> {
    bytes[from..].windows(2).position(ends_a_text).map(|i| from + i)
}

/// The judgement field by field. `each` is told where each text stands, before it is known whether the file is legal to its end.
pub fn judge_each(n: usize, bytes: &[u8], mut each: impl FnMut(usize, usize)) -> Judged {
    let mut at = 0;
    let mut field = 0;
    let mut records = 0;
    loop {
        if at == bytes.len() {
            return if field == 0 { Judged::Legal { records } } else { Judged::EndsInside };
        }
        if bytes[at] != b'"' {
            return Judged::NotLegal { at };
        }
        let end = end_of_text(bytes, at + 1);
        let text = &bytes[at + 1..end.unwrap_or(bytes.len())];
        if let Some(bad) = text.iter().position(|&b| !permitted_byte(b)) {
            return Judged::NotLegal { at: at + 1 + bad };
        }
        let end = match end {
            Some(end) => end,
            None => return Judged::EndsInside,
        };
        field += 1;
        let ending: &[u8] = if field == n { b";\r\n" } else { b"," };
        let there = &bytes[end + 1..bytes.len().min(end + 1 + ending.len())];
        if let Some(bad) = there.iter().zip(ending).position(|(a, b)| a != b) {
            return Judged::NotLegal { at: end + 1 + bad };
        }
        if there.len() < ending.len() {
            return Judged::EndsInside;
        }
        each(at + 1, end - at - 1);
        at = end + 1 + ending.len();
        if field == n {
            field = 0;
            records += 1;
        }
    }
}

pub fn judge(n: usize, bytes: &[u8]) -> Judged {
    judge_each(n, bytes, |_, _| ())
}

/// Fails if the two ways of judging differ on these bytes.
pub fn agreement(n: usize, bytes: &[u8]) {
    let (by_definition, records) = judge_by_definition(n, bytes);
    let mut places = Vec::new();
    let direct = judge_each(n, bytes, |start, length| places.push((start, length)));
    assert_eq!(direct, by_definition, "the model differs from itself on {:02x?}", bytes);
    if let Judged::Legal { .. } = direct {
        let texts: Vec<Vec<u8>> = places.iter().map(|&(s, l)| bytes[s..s + l].to_vec()).collect();
        assert_eq!(texts, records.concat(), "the model cuts {:02x?} in two ways", bytes);
    }
}

/// What the reader knows of a file number and bytes; it answers every question on them.
pub struct Reader {
    file: u64,
    fields: Option<usize>,
    length: usize,
    judged: Judged,
    places: Vec<(usize, usize)>,
}

impl Reader {
    pub fn new(file: u64, bytes: &[u8]) -> Reader {
        let fields = fields_of(file);
        let mut places = Vec::new();
        let judged = match fields {
            Some(n) if bytes.len() <= LONGEST => judge_each(n, bytes, |start, length| places.push((start, length))),
            _ => Judged::EndsInside,
        };
        Reader { file, fields, length: bytes.len(), judged, places }
    }

    /// number, file, record, field, offset
    fn refusal(&self) -> [u64; 5] {
        if self.fields.is_none() {
            [NO_SUCH, 0, 0, 0, 0]
        } else if self.length > LONGEST {
            [TOO_LONG, self.file, 0, 0, 0]
        } else {
            match self.judged {
                Judged::Legal { .. } => [0; 5],
                Judged::NotLegal { at } => [NOT_LEGAL, self.file, 0, 0, at as u64],
                Judged::EndsInside => [ENDS_INSIDE, self.file, 0, 0, self.length as u64],
            }
        }
    }

    pub fn count(&self) -> Option<usize> {
        match (self.refusal()[0], self.judged) {
            (0, Judged::Legal { records }) => Some(records),
            _ => None,
        }
    }

    pub fn records(&self) -> [u64; 6] {
        let [number, file, record, field, offset] = self.refusal();
        [number, file, record, field, offset, self.count().unwrap_or(0) as u64]
    }

    pub fn stretch(&self, r: u64, f: u64) -> [u64; 7] {
        let [number, file, record, field, offset] = self.refusal();
        let (records, n) = match (self.count(), self.fields) {
            (Some(records), Some(n)) => (records as u64, n as u64),
            _ => return [number, file, record, field, offset, 0, 0],
        };
        if r < 1 || r > records || f < 1 || f > n {
            return [NO_SUCH, 0, 0, 0, 0, 0, 0];
        }
        let (start, length) = self.places[((r - 1) * n + (f - 1)) as usize];
        [0, 0, 0, 0, 0, start as u64, length as u64]
    }

    pub fn texts<'a>(&'a self, bytes: &'a [u8]) -> impl Iterator<Item = &'a [u8]> + 'a {
        self.places.iter().map(move |&(start, length)| &bytes[start..start + length])
    }
}

/// The writer: number and place after, and the buffer as it is left.
pub fn write(file: u64, field: u64, text: &[u8], buffer: &mut [u8], place: u64) -> [u64; 2] {
    let last = match fields_of(file) {
        Some(n) if (1..=n as u64).contains(&field) => field == n as u64,
        _ => return [NO_SUCH, 0],
    };
    if !permitted_text(text) {
        return [NOT_PERMITTED, 0];
    }
    let written = writing_of_field(text, last);
    if place as u128 + written.len() as u128 > buffer.len() as u128 {
        return [NO_ROOM, 0];
    }
    let place = place as usize;
    buffer[place..place + written.len()].copy_from_slice(&written);
    [0, (place + written.len()) as u64]
}

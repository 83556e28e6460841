//! The questions on the bytes of files: count, stretches, writer.

use std::sync::Arc;

use crate::format::{agreement, fields_of, judge, permitted_text, write, writing, Judged, Reader, FIELDS, LONGEST};
use crate::generator::{any_text, damaged, records, text, Random, TELLING};
use crate::link::{Call, Link};
use crate::sweep::ALPHABET;

const END: u64 = u64::MAX;

fn load(link: &mut Link, bytes: &[u8]) {
    link.letter(b'L');
    link.bytes(bytes);
}

fn ask_records(link: &mut Link, reader: &Reader, file: u64, bytes: &Arc<Vec<u8>>) {
    link.letter(b'R');
    link.word(file);
    link.expect(Call::Records { file, bytes: bytes.clone() }, &reader.records());
}

fn ask_stretches(link: &mut Link, reader: &Reader, file: u64, bytes: &Arc<Vec<u8>>, which: &[(u64, u64)]) {
    link.letter(b'S');
    link.word(file);
    link.word(which.len() as u64);
    for &(record, field) in which {
        link.word(record);
        link.word(field);
        link.expect(Call::Stretch { file, bytes: bytes.clone(), record, field }, &reader.stretch(record, field));
    }
}

/// All that can be asked of these bytes as this file: the count, every stretch, and the numbers around them that name none.
pub fn whole(link: &mut Link, file: u64, bytes: &Arc<Vec<u8>>) {
    let reader = Reader::new(file, bytes);
    load(link, bytes);
    ask_records(link, &reader, file, bytes);
    let mut which = vec![(1, 1), (END, 1), (0, 0)];
    if let Some(count) = reader.count() {
        let n = fields_of(file).unwrap() as u64;
        for record in 0..=count as u64 + 1 {
            for field in 0..=n + 1 {
                which.push((record, field));
            }
        }
        which.extend([(END, END), (1, END), (1 << 32, 1), ((1 << 32) + 1, 1), (1, (1 << 32) + 1), (1, 257), (257, 1), (1 << 63, 1 << 63)]);
    }
    ask_stretches(link, &reader, file, bytes, &which);
}

fn named(link: &mut Link, name: &str, file: u64, bytes: &[u8], count: [u64; 6], stretch: Option<[u64; 7]>) {
    let bytes = Arc::new(bytes.to_vec());
    let reader = Reader::new(file, &bytes);
    assert_eq!(reader.records(), count, "the model on {}", name);
    whole(link, file, &bytes);
    if let Some(want) = stretch {
        assert_eq!(reader.stretch(1, 1), want, "the model on {}", name);
    }
    println!("{}: file {}, {} bytes: asked", name, file, bytes.len());
}

/// The small facts of document 01 that concern files, as it gives them, and the text of its first slip.
pub fn small_facts(link: &mut Link) {
    named(link, "P1", 9, b"", [0; 6], None);
    named(link, "P2", 1, b"\"1.8\";\r\n", [0, 0, 0, 0, 0, 1], Some([0, 0, 0, 0, 0, 1, 3]));
    named(link, "P3", 1, b"\"1.8\";\r", [3, 1, 0, 0, 7, 0], None);
    named(link, "P4", 1, b"\"1.8\",", [2, 1, 0, 0, 5, 0], None);
    named(link, "P5", 1, b"\"\"\";\r\n", [0, 0, 0, 0, 0, 1], Some([0, 0, 0, 0, 0, 1, 1]));
    named(link, "P6", 9, b"\"000123\";", [2, 9, 0, 0, 8, 0], None);
    named(link, "quotes inside a text", 1, b"\"U \"l\xedpy\" 3\";\r\n", [0, 0, 0, 0, 0, 1], Some([0, 0, 0, 0, 0, 1, 10]));
}

/// The model beside itself: the direct judgement and the one by definition, on every short string and on damaged files. Gives how many.
pub fn self_check() -> u64 {
    let mut count = 0;
    for (n, longest) in [(1, 8), (2, 8), (3, 8)] {
        let mut level: Vec<Vec<u8>> = vec![Vec::new()];
        for _ in 0..=longest {
            for s in &level {
                agreement(n, s);
                count += 1;
            }
            level = level
                .iter()
                .filter(|s| !matches!(judge(n, s), Judged::NotLegal { .. }))
                .flat_map(|s| ALPHABET.iter().map(move |&b| [&s[..], &[b]].concat()))
                .collect();
        }
    }
    let mut r = Random::new(1);
    for i in 0..4000 {
        let n = FIELDS[i % 13];
        let many = r.below(3);
        let legal = writing(&records(&mut r, n, many, 2));
        if legal.len() < 60 {
            agreement(n, &legal);
            agreement(n, &damaged(&mut r, &legal));
            count += 2;
        }
    }
    count
}

pub fn odd_numbers(link: &mut Link) {
    let legal = Arc::new(b"\"a\",\"\",\"b\";\r\n\"c\",\"d\",\"\";\r\n".to_vec());
    let broken = Arc::new(b"\"a\",\"\",".to_vec());
    let empty = Arc::new(Vec::new());
    for file in (0..=20).chain([255, 256, 257, 259, (1 << 32) + 3, 1 << 63, END - 12, END]) {
        for bytes in [&legal, &broken, &empty] {
            whole(link, file, bytes);
        }
    }
}

/// Legal files of none to three records, as they are and with every single change: each byte to others, left out, put in, and cut off there.
pub fn single_changes(link: &mut Link) {
    let mut r = Random::new(2);
    for file in 1..=13 {
        let n = FIELDS[file as usize - 1];
        for (count, longest) in [(0, 0), (1, 0), (1, 3), (2, 0), (2, 3), (3, 2), (3, 5)] {
            let legal = writing(&records(&mut r, n, count, longest));
            whole(link, file, &Arc::new(legal.clone()));
            let all: Vec<u8> = (0..=255).collect();
            let bytes: &[u8] = if legal.len() <= 40 { &all } else { &TELLING };
            for at in 0..=legal.len() {
                whole(link, file, &Arc::new(legal[..at].to_vec()));
                for &b in bytes {
                    let mut more = legal.clone();
                    more.insert(at, b);
                    whole(link, file, &Arc::new(more));
                    if at < legal.len() && legal[at] != b {
                        let mut other = legal.clone();
                        other[at] = b;
                        whole(link, file, &Arc::new(other));
                    }
                }
                if at < legal.len() {
                    let mut fewer = legal.clone();
                    fewer.remove(at);
                    whole(link, file, &Arc::new(fewer));
                }
            }
        }
    }
}

pub fn random_files(link: &mut Link) {
    let mut r = Random::new(3);
    for i in 0..30_000 {
        let file = 1 + i % 13;
        let n = FIELDS[file as usize - 1];
        let (many, longest) = if r.one_in(50) { (60, 30) } else { (6, 8) };
        let count = r.below(many);
        let legal = writing(&records(&mut r, n, count, longest));
        if i % 4 == 0 {
            whole(link, file, &Arc::new(legal));
        } else {
            whole(link, file, &Arc::new(damaged(&mut r, &legal)));
        }
    }
    // Files that are no files: any bytes, and texts with the bytes that matter.
    for i in 0..20_000 {
        let file = 1 + i % 13;
        whole(link, file, &Arc::new(any_text(&mut r, 40)));
    }
}

/// A legal file of exactly so many bytes.
fn of_length(r: &mut Random, file: u64, length: usize) -> Vec<u8> {
    let n = FIELDS[file as usize - 1];
    let mut bytes = Vec::with_capacity(length + 4096);
    if n > 1 {
        while bytes.len() + 4096 < length {
            bytes.extend(writing(&records(r, n, 1, 6)));
        }
    }
    let mut last = records(r, n, 1, 3);
    let short = writing(&last).len();
    last[0][n - 1].splice(0..0, vec![b'z'; length - bytes.len() - short]);
    bytes.extend(writing(&last));
    assert!(bytes.len() == length && !matches!(judge(n, &bytes), Judged::NotLegal { .. }));
    bytes
}

/// Around the longest file. Each stretch is a pass over all its bytes, so only some are asked for.
pub fn long_files(link: &mut Link) {
    let mut r = Random::new(4);
    let ask = |link: &mut Link, file: u64, bytes: Vec<u8>, few: bool| {
        let reader = Reader::new(file, &bytes);
        load(link, &bytes);
        // a report shows the beginning of the bytes and their number: enough to know which of these files it was
        let shown = Arc::new(bytes[..500].to_vec());
        ask_records(link, &reader, file, &shown);
        let count = reader.count().unwrap_or(0) as u64;
        let n = fields_of(file).unwrap_or(1) as u64;
        let all = [(1, 1), (count, n), (count + 1, 1), (count / 2 + 1, n / 2 + 1), (count / 3 + 1, 1), (count, n + 1), (0, 1)];
        ask_stretches(link, &reader, file, &shown, if few { &all[..1] } else { &all });
        link.flush();
    };
    for file in [1, 8] {
        let longest = of_length(&mut r, file, LONGEST);
        ask(link, file, longest.clone(), false);
        let mut other = longest.clone();
        other[LONGEST - 1] = b'\r';
        ask(link, file, other, true);
        other = longest.clone();
        other[LONGEST / 2] = 0x98;
        ask(link, file, other, true);
        ask(link, file, longest[..LONGEST - 1].to_vec(), true);
        let too_long = of_length(&mut r, file, LONGEST + 1);
        ask(link, file, too_long.clone(), true);
        ask(link, 14, too_long, true);
    }
    ask(link, 3, vec![0; LONGEST + 1], true);
    ask(link, 0, vec![0; LONGEST + 1], true);
    // Lengths whose lower half, read alone, would pass.
    for length in [1 << 24, 1 << 32, (1 << 32) + 8, (1 << 33) + 1] {
        for file in [0, 1, 13, 14] {
            let number = if fields_of(file).is_some() { 1 } else { 20 };
            let place = if number == 1 { file } else { 0 };
            link.letter(b'H');
            link.word(file);
            link.word(length);
            link.expect(Call::HugeRecords { file, length }, &[number, place, 0, 0, 0, 0]);
            link.expect(Call::HugeStretch { file, length }, &[number, place, 0, 0, 0, 0, 0]);
        }
    }
}

fn ask_write(link: &mut Link, file: u64, field: u64, text: &[u8], buffer: &Arc<Vec<u8>>, place: u64) {
    let mut after = buffer.to_vec();
    let words = write(file, field, text, &mut after, place);
    link.letter(b'W');
    link.word(file);
    link.word(field);
    link.word(place);
    link.bytes(text);
    link.bytes(buffer);
    link.expect_buffer(Call::Write { file, field, text: text.to_vec(), buffer: buffer.clone(), place }, &words, after);
}

fn any_buffer(r: &mut Random, length: usize) -> Arc<Vec<u8>> {
    Arc::new((0..length).map(|_| r.byte()).collect())
}

/// One text with buffers that have just room, one byte less and more, and all kinds of places.
fn write_around(link: &mut Link, r: &mut Random, file: u64, field: u64, text: &[u8]) {
    let need = text.len() as u64 + if fields_of(file) == Some(field as usize) { 5 } else { 3 };
    for before in [0, 1, 9] {
        for after in [0, 1, 8] {
            let buffer = any_buffer(r, (before + need + after) as usize);
            ask_write(link, file, field, text, &buffer, before);
        }
        let short = any_buffer(r, (before + need - 1) as usize);
        ask_write(link, file, field, text, &short, before);
    }
    let buffer = any_buffer(r, need as usize + 10);
    let length = buffer.len() as u64;
    let far = [10, 11, length - 1, length, length + 1, END, END - 1, END - need, END - need + 1, END - need + 2, 1 << 63, 1 << 32, (1 << 32) + 1];
    for place in far {
        ask_write(link, file, field, text, &buffer, place);
    }
    ask_write(link, file, field, text, &Arc::new(Vec::new()), 0);
}

fn all_strings(longest: usize) -> Vec<Vec<u8>> {
    let mut all: Vec<Vec<u8>> = vec![Vec::new()];
    let mut level = all.clone();
    for _ in 0..longest {
        level = level.iter().flat_map(|s| ALPHABET.iter().map(move |&b| [&s[..], &[b]].concat())).collect();
        all.extend(level.clone());
    }
    all
}

pub fn writer(link: &mut Link) {
    let mut r = Random::new(5);
    for file in (0..=15).chain([257, (1 << 32) + 1, END]) {
        let n = fields_of(file).unwrap_or(3) as u64;
        for field in (0..=n + 2).chain([256 + n, (1 << 32) + n, END]) {
            for text in [&b""[..], b"a", b"\"", b"U \"l\xedpy\" 3", b"a\",b", b"\x81", b"\r\n", b"\";"] {
                write_around(link, &mut r, file, field, text);
            }
        }
    }
    for (i, text) in all_strings(4).iter().enumerate() {
        let file = 1 + (i % 13) as u64;
        let n = FIELDS[i % 13];
        let buffer = any_buffer(&mut r, 30);
        ask_write(link, file, 1 + r.below(n) as u64, text, &buffer, 7);
        ask_write(link, file, n as u64, text, &buffer, 30 - text.len() as u64 - 5);
    }
    for b in 0..=255 {
        let buffer = any_buffer(&mut r, 20);
        for text in [&[b][..], &[b'"', b], &[b, b'"'], &[b'a', b'"', b, b'a'], &[b'a', b'a', b], &[b, b'a', b'a']] {
            ask_write(link, 3, 2, text, &buffer, 3);
            ask_write(link, 3, 3, text, &buffer, 3);
            ask_write(link, 3, 3, text, &buffer, 18);
        }
    }
    for i in 0..20_000 {
        let file = 1 + i % 13;
        let field = 1 + r.below(FIELDS[file as usize - 1]) as u64;
        let longest = if r.one_in(100) { 3000 } else { 40 };
        let t = if r.one_in(3) { any_text(&mut r, longest) } else { text(&mut r, longest) };
        let spare = r.below(40);
        let buffer = any_buffer(&mut r, t.len() + spare);
        let place = r.below(spare + 3) as u64;
        ask_write(link, file, field, &t, &buffer, place);
    }
    // A long text whose fault is its last byte, or the pair of its last two.
    for end in [&b"a"[..], b"\"", b"\",", b"\";", b"\x90", b"\n"] {
        let t = [&vec![b'q'; 5000][..], end].concat();
        let buffer = any_buffer(&mut r, 5100);
        ask_write(link, 2, 12, &t, &buffer, 50);
        assert_eq!(permitted_text(&t), end == b"a" || end == b"\"");
    }
}

/// Legal files read and written again field by field, from any place in a buffer with room, and in some with too little.
pub fn rewriting(link: &mut Link) {
    let mut r = Random::new(6);
    for i in 0..2600 {
        let file = 1 + i % 13;
        let n = FIELDS[file as usize - 1];
        let count = if i >= 2587 { 150 } else { r.below(12) };
        let bytes = Arc::new(writing(&records(&mut r, n, count, 8)));
        let place = r.below(50) as u64;
        let spare = if r.one_in(8) && bytes.len() > 20 { 0 } else { 20 + r.below(30) };
        let buffer = any_buffer(&mut r, place as usize + bytes.len() + spare - if spare == 0 { 1 + bytes.len() / 3 } else { 0 });
        let mut after = buffer.to_vec();
        let mut words = [0, place];
        let reader = Reader::new(file, &bytes);
        for (k, t) in reader.texts(&bytes).enumerate() {
            if words[0] == 0 {
                words = write(file, 1 + (k % n) as u64, t, &mut after, words[1]);
            }
        }
        if spare > 0 {
            let end = place as usize + bytes.len();
            assert!(words == [0, end as u64] && after[place as usize..end] == bytes[..] && after[end..] == buffer[end..], "the model rewrites a file");
        }
        load(link, &bytes);
        link.letter(b'A');
        link.word(file);
        link.word(n as u64);
        link.word(place);
        link.bytes(&buffer);
        link.expect_buffer(Call::Rewrite { file, bytes: bytes.clone(), place, length: buffer.len() }, &words, after);
    }
}

pub fn version(link: &mut Link) {
    link.letter(b'V');
    link.expect(Call::Version, &[4]);
}

//! Asks the driver about a batch: what a fault leads to is known from how it was made, and the model has to say it too, before the library is asked.

use std::sync::Arc;

use crate::batch_faults::{broken, Fault, Words, FINE};
use crate::batches::Batch;
use crate::fields::{kind_names, name_of, rule_names, rules, NOT_OF_ITS_KIND, RULE_BROKEN};
use crate::generator::Random;
use crate::hints::{right, wrong, EMPTY, KINDS, OWN, PLAIN, RIGHT};
use crate::link::{Call, Link};
use crate::links::{first_fault, records_of, too_long, verdict, Bytes, Verdict};
use crate::order::Meant;
use crate::trips::{day_rules_broken, stop_rules_broken, trips, DAY_RULES, STOP_RULES};

/// Which hints a batch is asked with.
#[derive(Clone, Copy, PartialEq, Eq)]
pub enum Asked {
    /// None, the right one, every kind of wrong one.
    All,
    /// None, the right one, so many wrong ones.
    Some(usize),
    /// The right one alone: a batch that would take too long without.
    Right,
}

/// Of so many batches one is put in order too, unless it is of so many bytes or more.
const IN_ORDER: usize = 12;
const TOO_MUCH: usize = 500_000;

pub struct Asker<'a> {
    pub link: &'a mut Link,
    /// What the driver has of each file.
    lent: Vec<Vec<u8>>,
    r: Random,
    /// What lists hold before they are written to.
    lists: Random,
    turn: usize,
}

impl<'a> Asker<'a> {
    pub fn new(link: &'a mut Link, seed: u64) -> Asker<'a> {
        Asker { link, lent: vec![Vec::new(); 13], r: Random::new(seed), lists: Random::new(!seed), turn: 0 }
    }

    pub fn lend(&mut self, batch: &Bytes) {
        for (i, bytes) in batch.iter().enumerate() {
            if self.lent[i] != *bytes {
                self.link.letter(b'B');
                self.link.word(i as u64 + 1);
                self.link.bytes(bytes);
                self.lent[i] = bytes.clone();
            }
        }
    }

    pub fn lend_hint(&mut self, hint: &[u32]) {
        self.link.letter(b'O');
        self.link.numbers(hint);
    }

    /// `before`: the right hint of the batch before it was damaged.
    pub fn ask(&mut self, batch: Bytes, want: Words, ways: &[String], before: &[u32], asked: Asked) {
        assert_eq!(first_fault(&batch), want, "the model on a batch made for {:?}: {}", ways, shown(&batch));
        self.lend(&batch);
        let good = right(&batch);
        let mut hints: Vec<(&'static str, Vec<u32>)> = good.iter().filter(|h| !h.is_empty()).map(|h| (RIGHT, h.clone())).collect();
        if asked != Asked::Right || hints.is_empty() {
            let mut others = wrong(&mut self.r, &batch, before);
            if let Asked::Some(n) = asked {
                others.truncate(n);
            }
            hints.extend([(PLAIN, Vec::new()), (EMPTY, Vec::new())].into_iter().chain(others));
        }
        let (ways, words) = ([ways, &reasons(&batch, want)].concat(), verdict(&batch, want));
        let (batch, ways) = (Arc::new(batch), Arc::new(ways));
        for (kind, hint) in hints {
            if kind == PLAIN {
                self.link.letter(b'K');
            } else {
                self.lend_hint(&hint);
                self.link.letter(b'k');
            }
            self.link.expect(Call::Check { batch: batch.clone(), huge: None, hint: Arc::new(hint), kind, ways: ways.clone() }, &words);
        }
        self.order_by_turns(&batch, &Meant::of(want, good), words);
    }

    /// The order of a batch that is lent, into a list of so many numbers; with every placing, or with one by turns.
    pub fn order(&mut self, batch: &Arc<Bytes>, meant: &Meant, room: (&'static str, usize), each_placing: bool, ways: Vec<String>) {
        self.link.letter(if each_placing { b'p' } else { b'P' });
        self.expect_order(batch, None, meant, room, ways);
    }

    /// The same where one file is so many zero bytes instead.
    pub fn order_huge(&mut self, batch: &Arc<Bytes>, huge: (u64, u64), meant: &Meant, room: (&'static str, usize), ways: Vec<String>) {
        self.link.letter(b'm');
        self.link.word(huge.0);
        self.link.word(huge.1);
        self.expect_order(batch, Some(huge), meant, room, ways);
    }

    fn expect_order(&mut self, batch: &Arc<Bytes>, huge: Option<(u64, u64)>, meant: &Meant, (room, count): (&'static str, usize), ways: Vec<String>) {
        let list: Vec<u32> = (0..count).map(|_| self.lists.next() as u32).collect();
        let (words, after) = meant.answer(&list);
        self.link.numbers(&list);
        let bytes = after.iter().flat_map(|n| n.to_le_bytes()).collect();
        self.link.expect_buffer(Call::Order { batch: batch.clone(), huge, list: Arc::new(list), room, ways }, &words, bytes);
    }

    /// The check of a batch that is lent with the order that the library makes of it itself, in room for so many numbers.
    pub fn check_in_order(&mut self, batch: &Arc<Bytes>, words: &Verdict, room: usize) {
        self.link.letter(b'c');
        self.link.word(room as u64);
        self.link.expect(Call::Check { batch: batch.clone(), huge: None, hint: Arc::new(Vec::new()), kind: OWN, ways: Arc::new(Vec::new()) }, words);
    }

    fn order_by_turns(&mut self, batch: &Arc<Bytes>, meant: &Meant, words: Verdict) {
        self.turn += 1;
        if self.turn % IN_ORDER != 1 || batch.iter().map(|b| b.len()).sum::<usize>() >= TOO_MUCH {
            return;
        }
        let (turn, rooms) = (self.turn / IN_ORDER, meant.rooms());
        for i in [2 * turn, 2 * turn + 1] {
            self.order(batch, meant, rooms[i % rooms.len()], false, Vec::new());
        }
        if let (Meant::InOrder(order), 0) = (meant, turn % 3) {
            self.check_in_order(batch, &words, order.len() + turn % 2);
        }
    }

    /// One file is so many zero bytes instead.
    pub fn ask_huge(&mut self, batch: Bytes, huge: (u64, u64), want: Words, ways: &[String], hint: &[u32]) {
        let lengths = (1..).zip(batch.iter()).map(|(file, b)| if file == huge.0 { huge.1 } else { b.len() as u64 });
        assert_eq!(too_long(lengths), Some(want), "the model on a batch made for {:?}", ways);
        self.lend(&batch);
        self.lend_hint(hint);
        self.link.letter(b'M');
        self.link.word(huge.0);
        self.link.word(huge.1);
        let words = verdict(&batch, want);
        let (batch, ways) = (Arc::new(batch), Arc::new(ways.to_vec()));
        for kind in [PLAIN, KINDS[17]] {
            self.link.expect(Call::Check { batch: batch.clone(), huge: Some(huge), hint: Arc::new(hint.to_vec()), kind, ways: ways.clone() }, &words);
        }
        self.turn += 1;
        if self.turn % IN_ORDER == 1 {
            self.order_huge(&batch, huge, &Meant::of(want, None), ("some room", 7), Vec::new());
        }
    }

    /// A batch with some faults in it, the first of which decides.
    pub fn ask_faults(&mut self, batch: &Batch, faults: &[&Fault], want: Option<Words>, ways: &[String], asked: Asked) {
        let (bytes, huge, first) = broken(batch, faults);
        let (want, before) = (want.unwrap_or(first), right(&batch.bytes()).unwrap());
        match huge {
            Some(huge) => self.ask_huge(bytes, huge, want, ways, &before),
            None => self.ask(bytes, want, ways, &before, asked),
        }
    }

    /// A batch as it is.
    pub fn ask_batch(&mut self, batch: &Batch, want: Words, ways: &[String], asked: Asked) {
        let bytes = batch.bytes();
        if want == FINE {
            let counts: Vec<u64> = [2, 5, 6, 8].iter().map(|&file| batch.count(file) as u64).collect();
            assert_eq!(verdict(&bytes, FINE)[5..], counts[..], "the model's counts on a batch made for {:?}", ways);
        }
        let before = right(&bytes).unwrap_or_default();
        self.ask(bytes, want, ways, &before, asked);
    }
}

/// What the model finds wrong with a field, a record or a trip that is refused, for the run to count; of rules, whether one is alone or beside others.
pub fn reasons(batch: &Bytes, want: Words) -> Vec<String> {
    let [number, file, record, field, _] = want;
    let in_record = |file: u64| records_of(file, &batch[file as usize - 1]).swap_remove(record as usize - 1);
    let trip = || trips(batch).swap_remove(record as usize - 1);
    let broken: Vec<String> = match number {
        NOT_OF_ITS_KIND => {
            let empty = in_record(file)[field as usize - 1].is_empty();
            return vec![format!("5 by kind{}: {}", if empty { ", empty though required" } else { "" }, kind_names(file)[field as usize - 1])];
        }
        RULE_BROKEN => rules(file, &in_record(file)).iter().zip(rule_names(file)).filter(|(kept, _)| **kept == Some(false)).map(|(_, name)| format!("{}, {}", name_of(file), name)).collect(),
        DAY_RULES => day_rules_broken(&trip()),
        STOP_RULES => stop_rules_broken(&trip()).iter().map(|s| s.to_string()).collect(),
        _ => Vec::new(),
    };
    let alone = if broken.len() == 1 { "alone" } else { "beside others" };
    broken.iter().map(|b| format!("{} {}: {}", number, alone, b)).collect()
}

fn shown(batch: &Bytes) -> String {
    batch.iter().map(|b| String::from_utf8_lossy(&b[..b.len().min(3000)]).into_owned()).collect::<Vec<String>>().join("--\n")
}

pub fn way(text: &str) -> Vec<String> {
    vec![text.to_string()]
}

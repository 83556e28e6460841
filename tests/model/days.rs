//! The questions on days.

use std::sync::Arc;

use crate::calendar::Calendar;
use crate::generator::Random;
use crate::link::{Call, Link};

fn ask_day(link: &mut Link, c: &Calendar, day: u64, month: u64, year: u64) {
    link.letter(b'd');
    link.word(day);
    link.word(month);
    link.word(year);
    link.expect(Call::Day(day, month, year), &c.day(day, month, year));
}

fn ask_number(link: &mut Link, c: &Calendar, number: u64) {
    link.letter(b't');
    link.word(number);
    link.expect(Call::Date(number), &c.date(number));
    link.expect(Call::Weekday(number), &c.weekday(number));
    link.expect(Call::Week(number), &c.week(number));
}

fn lend_holidays(link: &mut Link, holidays: &[u64]) {
    link.letter(b'l');
    link.word(holidays.len() as u64);
    for &h in holidays {
        link.word(h);
    }
}

fn ask_holiday(link: &mut Link, c: &Calendar, number: u64, holidays: &Arc<Vec<u64>>) {
    link.letter(b'h');
    link.word(number);
    link.expect(Call::Holiday { number, holidays: holidays.clone() }, &c.holiday(number, holidays));
}

fn ask_fits(link: &mut Link, c: &Calendar, sign: u8, number: u64, holidays: &Arc<Vec<u64>>) {
    let sign = sign as u64;
    link.letter(b'f');
    link.word(sign);
    link.word(number);
    link.expect(Call::Fits { sign, number, holidays: holidays.clone() }, &c.fits(sign as u8, number, holidays));
}

/// Day numbers past the calendar, among them those whose lower bits would be in it.
const PAST: [u64; 10] = [73_049, 73_050, 73_055, 100_000, 1 << 31, 1 << 32, (1 << 32) + 37_050, 1 << 63, u64::MAX - 1, u64::MAX];

/// The small facts of document 01 that concern days, as it gives them.
pub fn small_facts(link: &mut Link, c: &Calendar) {
    let number = |d, m, y| c.day(d, m, y)[1];
    assert!(c.day(29, 2, 2000)[0] == 0 && c.day(29, 2, 1900) == [12, 0], "the model on P7");
    ask_day(link, c, 29, 2, 2000);
    ask_day(link, c, 29, 2, 1900);
    assert!(c.day(10, 6, 2001) == [0, 37_050] && c.weekday(37_050) == [0, 7], "the model on P8");
    ask_day(link, c, 10, 6, 2001);
    ask_number(link, c, 37_050);
    let december = number(30, 12, 2001);
    assert!(c.week(december)[1] == 52 && c.week(december + 1)[1] == 1, "the model on P9");
    ask_number(link, c, december);
    ask_number(link, c, december + 1);
    let january = number(1, 1, 2005);
    assert!(c.week(january) == [0, 53, 1] && c.week(january + 2) == [0, 1, 1], "the model on P10");
    ask_number(link, c, january);
    ask_number(link, c, january + 2);
    println!("P7, P8, P9, P10: asked");
}

pub fn every_day(link: &mut Link, c: &Calendar) {
    assert_eq!(c.days.len(), 73_049);
    for number in 0..c.days.len() as u64 {
        let d = c.days[number as usize];
        ask_number(link, c, number);
        ask_day(link, c, d.day, d.month, d.year);
    }
    for number in PAST {
        ask_number(link, c, number);
    }
}

pub fn dates(link: &mut Link, c: &Calendar) {
    for year in 1899..=2101 {
        for month in 0..=14 {
            for day in 0..=33 {
                ask_day(link, c, day, month, year);
            }
        }
    }
    let huge = [256 + 5, (1 << 32) + 5, 1 << 63, u64::MAX - 1, u64::MAX];
    for h in huge {
        for (d, m, y) in [(h, 5, 2005), (5, h, 2005), (5, 5, h), (h, h, 2005), (h, 5, h), (5, h, h), (h, h, h), (1, 1, 1900 + (1 << 32)), (1, 1, h % 3000)] {
            ask_day(link, c, d, m, y);
        }
    }
    for year in [0, 1, 99, 100, 1000, 1600, 1800, 2100, 2400, 9999] {
        ask_day(link, c, 1, 1, year);
        ask_day(link, c, 29, 2, year);
    }
}

pub fn holidays(link: &mut Link, c: &Calendar) {
    let mut r = Random::new(7);
    let mut lists: Vec<Vec<u64>> = vec![Vec::new(), vec![0], vec![73_048], vec![73_049, u64::MAX], vec![5, 5, 5], vec![9, 3, 3, 73_060, 9, 1]];
    lists.push((0..40).rev().collect());
    for length in [2, 7, 31, 100, 400] {
        // a few days to and fro, so that hits and near misses are common
        let from = r.below(73_000) as u64;
        lists.push((0..length).map(|_| if r.one_in(9) { r.next() } else { from + r.below(2 * length) as u64 }).collect());
    }
    // Numbers that agree with a day in their lower half alone.
    lists.push(vec![(1 << 32) + 100, (1 << 16) + 100, 356, 100 + (1 << 63)]);
    for list in lists {
        let list = Arc::new(list);
        lend_holidays(link, &list);
        let mut numbers: Vec<u64> = (0..110).chain([73_047, 73_048]).chain(PAST).chain(list.iter().copied()).collect();
        numbers.extend(list.iter().flat_map(|&h| vec![h.wrapping_add(1), h.wrapping_sub(1), h & 0xffff_ffff, h & 0xffff]));
        for number in numbers {
            ask_holiday(link, c, number, &list);
            for sign in *b"X+1234567890x RO" {
                ask_fits(link, c, sign, number, &list);
            }
        }
        // two weeks and the days at the edges, with every byte as a sign
        for number in (0..14).chain(list.iter().copied().take(9)).chain([73_048, 73_049]) {
            for sign in 0..=255 {
                ask_fits(link, c, sign, number, &list);
            }
        }
    }
    // Every day of the calendar with each sign, every ninth day or so a holiday.
    let list: Arc<Vec<u64>> = Arc::new((0..150).map(|_| r.below(73_049) as u64).collect());
    lend_holidays(link, &list);
    for number in 0..73_049 {
        ask_holiday(link, c, number, &list);
        for sign in *b"X+1234567" {
            ask_fits(link, c, sign, number, &list);
        }
    }
}

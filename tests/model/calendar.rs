//! Document 01, "Days", by walking: the calendar is written down day by day from 1 January 1900, a Monday, and every question is looked up in it.

use std::collections::HashMap;

pub const NOT_REAL: u64 = 12;

#[derive(Clone, Copy)]
pub struct Day {
    pub day: u64,
    pub month: u64,
    pub year: u64,
    /// 1 Monday to 7 Sunday
    pub weekday: u64,
    pub week: u64,
}

pub struct Calendar {
    pub days: Vec<Day>,
    numbers: HashMap<(u64, u64, u64), u64>,
}

fn is_leap(year: u64) -> bool {
    if year % 100 == 0 {
        year % 400 == 0
    } else {
        year % 4 == 0
    }
}

pub fn days_in(month: u64, year: u64) -> u64 {
    match month {
        4 | 6 | 9 | 11 => 30,
        2 => 28 + is_leap(year) as u64,
        _ => 31,
    }
}

impl Calendar {
    pub fn new() -> Calendar {
        let mut days = Vec::new();
        let (mut day, mut month, mut year, mut weekday) = (1, 1, 1900, 1);
        while year < 2100 {
            days.push(Day { day, month, year, weekday, week: 0 });
            weekday = weekday % 7 + 1;
            day += 1;
            if day > days_in(month, year) {
                day = 1;
                month += 1;
            }
            if month > 12 {
                month = 1;
                year += 1;
            }
        }
        // A week bears the number that its Thursday has among the Thursdays of that Thursday's year. The calendar begins on a Monday and
        // ends on a Thursday, so every day's Thursday is in it.
        let mut thursdays = 0;
        for t in 0..days.len() {
            if days[t].weekday == 4 {
                thursdays = if t >= 7 && days[t - 7].year == days[t].year { thursdays + 1 } else { 1 };
                let sunday = (t + 3).min(days.len() - 1);
                for d in &mut days[t - 3..=sunday] {
                    d.week = thursdays;
                }
            }
        }
        let numbers = days.iter().enumerate().map(|(i, d)| ((d.day, d.month, d.year), i as u64)).collect();
        Calendar { days, numbers }
    }

    pub fn get(&self, number: u64) -> Option<Day> {
        if number < self.days.len() as u64 {
            Some(self.days[number as usize])
        } else {
            None
        }
    }

    pub fn day(&self, day: u64, month: u64, year: u64) -> [u64; 2] {
        match self.numbers.get(&(day, month, year)) {
            Some(&number) => [0, number],
            None => [NOT_REAL, 0],
        }
    }

    pub fn date(&self, number: u64) -> [u64; 4] {
        self.get(number).map_or([NOT_REAL, 0, 0, 0], |d| [0, d.day, d.month, d.year])
    }

    pub fn weekday(&self, number: u64) -> [u64; 2] {
        self.get(number).map_or([NOT_REAL, 0], |d| [0, d.weekday])
    }

    pub fn week(&self, number: u64) -> [u64; 3] {
        self.get(number).map_or([NOT_REAL, 0, 0], |d| [0, d.week, d.week % 2])
    }

    pub fn holiday(&self, number: u64, holidays: &[u64]) -> [u64; 2] {
        self.get(number).map_or([NOT_REAL, 0], |_| [0, holidays.contains(&number) as u64])
    }

    pub fn fits(&self, sign: u8, number: u64, holidays: &[u64]) -> [u64; 2] {
        let holiday = holidays.contains(&number);
        self.get(number).map_or([NOT_REAL, 0], |d| {
            let fits = match sign {
                b'X' => d.weekday <= 5 && !holiday,
                b'+' => d.weekday == 7 || holiday,
                b'1'..=b'7' => d.weekday == (sign - b'0') as u64,
                _ => false,
            };
            [0, fits as u64]
        })
    }
}

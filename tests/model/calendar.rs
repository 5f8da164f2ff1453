//! Dates of document 01: YYYYMMDD, 20000101 to 20991231, every fourth year from 2000 a leap year.

#[derive(Clone, Copy, PartialEq, Eq, PartialOrd, Ord, Hash, Debug)]
pub struct Date {
    pub year: u32,
    pub month: u32,
    pub day: u32,
}

/// "A stamp is a date and a second, 0 to 86,399."
#[derive(Clone, Copy, PartialEq, Eq, PartialOrd, Ord, Debug)]
pub struct Stamp {
    pub date: Date,
    pub second: u32,
}

pub const LAST_SECOND: u32 = 86_399;
pub const FIRST: Date = Date { year: 2000, month: 1, day: 1 };
pub const LAST: Date = Date { year: 2099, month: 12, day: 31 };

pub fn days_in(year: u32, month: u32) -> u32 {
    match month {
        2 if year % 4 == 0 => 29,
        2 => 28,
        4 | 6 | 9 | 11 => 30,
        _ => 31,
    }
}

impl Date {
    /// The date that a number says, if it is real in the calendar.
    pub fn of(number: u64) -> Option<Date> {
        if !(20_000_101..=20_991_231).contains(&number) {
            return None;
        }
        let number = number as u32;
        let date = Date { year: number / 10_000, month: number / 100 % 100, day: number % 100 };
        let real = (1..=12).contains(&date.month) && date.day >= 1 && date.day <= days_in(date.year, date.month);
        real.then_some(date)
    }

    pub fn number(self) -> u32 {
        self.year * 10_000 + self.month * 100 + self.day
    }

    /// Days since 20000101.
    pub fn count(self) -> i64 {
        let years = self.year as i64 - 2000;
        let months: u32 = (1..self.month).map(|m| days_in(self.year, m)).sum();
        years * 365 + (years + 3) / 4 + months as i64 + self.day as i64 - 1
    }

    /// The date that many days after 20000101, held inside the calendar.
    pub fn at(count: i64) -> Date {
        let mut left = count.clamp(0, LAST.count());
        let mut date = FIRST;
        date.year += (left / 1461 * 4) as u32;
        left %= 1461;
        loop {
            let length = if date.year % 4 == 0 { 366 } else { 365 };
            if left < length {
                break;
            }
            left -= length;
            date.year += 1;
        }
        while left >= days_in(date.year, date.month) as i64 {
            left -= days_in(date.year, date.month) as i64;
            date.month += 1;
        }
        date.day += left as u32;
        date
    }

    pub fn plus(self, days: i64) -> Date {
        Date::at(self.count().saturating_add(days))
    }

    pub fn month_start(self) -> Date {
        Date { day: 1, ..self }
    }

    /// The first day of the month that many months on, held inside the calendar.
    pub fn month_on(self, months: u32) -> Date {
        let index = (self.year * 12 + self.month - 1).saturating_add(months);
        let date = Date { year: index / 12, month: index % 12 + 1, day: 1 };
        date.min(LAST)
    }
}

impl Stamp {
    /// Refusal 8: bad date or second.
    pub fn of(date: u32, second: u32) -> Option<Stamp> {
        let date = Date::of(date as u64)?;
        (second <= LAST_SECOND).then_some(Stamp { date, second })
    }
}

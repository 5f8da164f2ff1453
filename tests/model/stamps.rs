//! Random stamps: from the clock on, with a liking for midnights and for the edges of plans and cycles.

use crate::calendar::{days_in, Date, Stamp, FIRST, LAST, LAST_SECOND};
use crate::library;
use crate::model::Meter;
use crate::plan::{Cycle, Plan};
use crate::random::Random;
use crate::plan_records;

/// How the clock goes on from one call to the next.
#[derive(Clone, Copy)]
pub enum Pace {
    SameDay,
    Midnight,
    NextDays,
    MonthEnd,
    YearEnd,
    Leap,
    Months,
    Years,
    PlanEdge,
    CycleEdge,
}

use Pace::*;

pub fn host(stamp: Stamp) -> library::Stamp {
    library::Stamp { date: stamp.date.number(), second: stamp.second }
}

/// A stamp at which a call may come, from the clock on at one of the paces.
pub fn next_stamp(r: &mut Random, meter: &Meter, paces: &[Pace]) -> Stamp {
    let Some(clock) = meter.clock else {
        let date = match r.below(8) {
            0 => FIRST,
            1 => Date { year: 2020, month: 1, day: 15 },
            2 => LAST.plus(-(r.below(60) as i64)),
            3 => Date { year: 2016, month: 1, day: 1 },
            _ => Date::at(r.below(33_000) as i64),
        };
        return Stamp { date, second: r.upto(LAST_SECOND as u64) as u32 };
    };
    let pace = r.pick(paces);
    step_on(r, meter, clock, pace).max(clock)
}

fn step_on(r: &mut Random, meter: &Meter, clock: Stamp, pace: Pace) -> Stamp {
    let begins = |date: Date| Stamp { date, second: 0 };
    let ends = |date: Date| Stamp { date, second: LAST_SECOND };
    // up to the last second before a day's midnight, or over it
    let reach = |date: Date| if ends(date) > clock { ends(date) } else { begins(date.plus(1)) };
    let second = r.upto(LAST_SECOND as u64) as u32;
    match pace {
        SameDay => Stamp { second: clock.second + r.upto((LAST_SECOND - clock.second) as u64) as u32, ..clock },
        Midnight => reach(clock.date),
        NextDays => Stamp { date: clock.date.plus(r.pick(&[1, 1, 1, 1, 2, 3, 10])), second },
        MonthEnd => reach(clock.date.month_on(1).plus(-1).max(clock.date)),
        YearEnd => reach(Date { month: 12, day: 31, ..clock.date }),
        Leap => {
            let year = clock.date.year.next_multiple_of(4).min(2096);
            let day = r.pick(&[28, 29, 29]);
            Stamp { date: Date { year, month: 2, day }, second }
        }
        Months => {
            let months = r.between(1, 14) as u32;
            let first = clock.date.month_on(months);
            let day = r.between(1, days_in(first.year, first.month) as u64) as u32;
            Stamp { date: Date { day, ..first }, second }
        }
        Years => Stamp { date: clock.date.plus(r.between(365, 3000) as i64), second },
        PlanEdge => {
            let edges: Vec<Date> = meter.slots.iter().flatten().flat_map(Plan::edges).collect();
            let edges: Vec<Date> = edges.into_iter().filter(|&date| date > clock.date).collect();
            if edges.is_empty() {
                return reach(clock.date);
            }
            let edge = r.pick(&edges);
            r.pick(&[begins(edge), ends(edge.plus(-1))])
        }
        CycleEdge => {
            let edge = cycle_edge(meter, clock.date);
            r.pick(&[begins(edge), ends(edge.plus(-1))])
        }
    }
}

/// The first date of the next cycle.
fn cycle_edge(meter: &Meter, date: Date) -> Date {
    match meter.plan_on(date).map(|plan| plan.cycle) {
        Some(Cycle::Quarter) => date.month_on(3 - (date.month - 1) % 3),
        Some(Cycle::Year) => date.month_on(13 - date.month),
        Some(Cycle::Runs(first, days)) => {
            let since = date.count() - first.count();
            if since < 0 {
                return first;
            }
            date.plus(days as i64 - since % days as i64)
        }
        _ => date.month_on(1),
    }
}

/// A stamp that is refused 8 or 9, as a rule.
pub fn bad_stamp(r: &mut Random, meter: &Meter, good: Stamp) -> library::Stamp {
    let mut stamp = host(good);
    let clock = meter.clock.unwrap_or(good);
    match r.below(6) {
        0 => stamp.date = r.pick(&plan_records::NO_DATES),
        1 => stamp.second = r.pick(&[86_400, 86_401, 65_536 * 2, u32::MAX]),
        2 => stamp.date = r.pick(&[u32::MAX, 120_200_115, 2_020_011, good.date.year * 10_000 + 1332]),
        3 => stamp = host(Stamp { second: clock.second.saturating_sub(1), ..clock }),
        4 => stamp = library::Stamp { date: clock.date.plus(-1).number(), second: LAST_SECOND },
        _ => stamp.date = Date::at(r.below(clock.date.count() as u64 + 1) as i64).number(),
    }
    stamp
}

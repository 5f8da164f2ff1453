//! Good meters that a host made up, with anything in what the bounds leave free.

use crate::calendar::{Date, LAST_SECOND};
use crate::library::{self, Meter, Record, Slot, DAYS, MONTHS};
use crate::model::{MOST_ALARM, TOP_BALANCE};
use crate::plan::{Plan, MOST};
use crate::random::Random;
use crate::plan_records;

/// What a charge may come to.
pub fn limit(meter: &Meter) -> i64 {
    (meter.volumes.total as u64 * MOST) as i64
}

fn balance(r: &mut Random, meter: &Meter) -> i64 {
    let least = -limit(meter);
    let small = r.below(60_000_000) as i64 - 10_000_000;
    r.pick(&[least, TOP_BALANCE, 0, 1, -1, small, small, small]).max(least)
}

fn anything(r: &mut Random) -> Record {
    Record { date: r.next() as u32, volume: r.next() as u32, charge: r.next(), closing: r.next() as i64 }
}

fn held(r: &mut Random, meter: &Meter) -> Record {
    let total = meter.volumes.total as u64;
    let volume = r.upto(total) as u32;
    let charge = r.upto(limit(meter) as u64);
    Record { date: r.next() as u32, volume, charge, closing: balance(r, meter) }
}

/// A good meter with anything in what its bounds leave free.
pub fn good(r: &mut Random) -> Meter {
    let mut meter = library::fresh();
    let date = Date::at(r.between(400, 36_000) as i64);
    meter.clock = library::Stamp { date: date.number(), second: r.upto(LAST_SECOND as u64) as u32 };
    let some = r.between(1, 1_000_000);
    meter.volumes.total = r.pick(&[0, 1, some, some, some, MOST - 1, MOST, MOST - 60_000]) as u32;
    let total = meter.volumes.total as u64;
    meter.volumes.unpriced = r.upto(total) as u32;
    meter.account.serial = r.pick(&[0, 1, 2, 300, 65_534, 65_535]);
    let (alarm_1, alarm_2) = r.pick(&[(20, 5), (2, 1), (MOST_ALARM, MOST_ALARM - 1), (50, 49)]);
    (meter.account.alarm_1, meter.account.alarm_2) = (alarm_1, alarm_2);
    meter.account.balance = balance(r, &meter);
    let in_force = plans(r, &mut meter, date);
    meter.slots.usage = if in_force { r.upto(total) as u32 } else { 0 };
    meter.valve.open = in_force as u8 & r.below(2) as u8;
    meter.valve.allow = r.below(2) as u8;
    for i in 0..2 {
        let period = library::OpenPeriod { volume: r.upto(total) as u32, charge: r.upto(limit(&meter) as u64) };
        *(if i == 0 { &mut meter.records.day } else { &mut meter.records.month }) = period;
    }
    held_records(r, &mut meter);
    meter
}

/// The fresh meter, with anything in the records that it does not hold.
pub fn fresh(r: &mut Random) -> Meter {
    let mut meter = library::fresh();
    meter.records.days.held = std::array::from_fn(|_| anything(r));
    meter.records.months.held = std::array::from_fn(|_| anything(r));
    meter
}

fn held_records(r: &mut Random, meter: &mut Meter) {
    let (days, months) = (r.upto(DAYS as u64) as usize, r.upto(MONTHS as u64) as usize);
    (meter.records.days.count, meter.records.months.count) = (days, months);
    for k in 0..DAYS {
        meter.records.days.held[k] = if k < days { held(r, meter) } else { anything(r) };
    }
    for k in 0..MONTHS {
        meter.records.months.held[k] = if k < months { held(r, meter) } else { anything(r) };
    }
}

/// Fills the slots; whether a plan is in force on the date.
fn plans(r: &mut Random, meter: &mut Meter, date: Date) -> bool {
    let one = plan_records::plan(r, date, plan_records::ANY_SPAN, None);
    let two = plan_records::plan(r, date, plan_records::ANY_SPAN, Some(one));
    let plans = match r.below(6) {
        0 => [None, None],
        1 => [Some(one), None],
        2 => [None, Some(one)],
        3 if !one.both_in_force(&two, date) => [Some(two), Some(one)],
        _ if !one.both_in_force(&two, date) => [Some(one), Some(two)],
        _ => [Some(one), None],
    };
    meter.slots.slot_1 = slot(r, plans[0]);
    meter.slots.slot_2 = slot(r, plans[1]);
    plans.iter().flatten().any(|plan| plan.in_force(date))
}

fn slot(r: &mut Random, plan: Option<Plan>) -> Slot {
    match plan {
        Some(plan) => Slot { loaded: 1, plan: plan_records::host_plan(r, &plan) },
        None => {
            let near = Date::at(r.below(36_000) as i64);
            let mut plan = plan_records::plan(r, near, plan_records::ANY_SPAN, None).to_host();
            plan_records::damage_host(r, &mut plan);
            Slot { loaded: 0, plan }
        }
    }
}

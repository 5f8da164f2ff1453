//! The bounds of a meter, one at a time: just inside, and just outside.

use crate::bounds::Broken;
use crate::calendar::{Date, LAST_SECOND};
use crate::library::{Meter, Record, Slot, OpenPeriod, DAYS, MONTHS};
use crate::meters::limit;
use crate::model::{MOST_ALARM, TOP_BALANCE};
use crate::plan::{Cycle, Plan, Step, MOST};
use crate::random::Random;
use crate::plan_records;

pub type Change = fn(&mut Random, &mut Meter);

const BOTH: Broken = "both plans in force from the clock's date on";

/// Changes of a good meter that leave it good, exactly at a bound.
pub const INSIDE: [(&str, Change); 25] = [
    ("clock 20000101", |_, m| move_clock(m, 20_000_101)),
    ("clock 20991231", |_, m| move_clock(m, 20_991_231)),
    ("clock 29 February", |_, m| move_clock(m, 20_960_229)),
    ("clock's second 86,399", |_, m| m.clock.second = LAST_SECOND),
    ("last serial 65,535", |_, m| m.account.serial = 65_535),
    ("greatest alarms", |_, m| (m.account.alarm_1, m.account.alarm_2) = (MOST_ALARM, MOST_ALARM - 1)),
    ("least alarms", |_, m| (m.account.alarm_1, m.account.alarm_2) = (2, 1)),
    ("total 99,999,999", |_, m| m.volumes.total = MOST as u32),
    ("unpriced volume is the total", |_, m| m.volumes.unpriced = m.volumes.total),
    ("usage is the total", |_, m| {
        running(m);
        m.slots.usage = m.volumes.total;
    }),
    ("balance at its least", |_, m| m.account.balance = -limit(m)),
    ("balance at its most", |_, m| m.account.balance = TOP_BALANCE),
    ("open day at its most", |_, m| m.records.day = full(m)),
    ("open month at its most", |_, m| m.records.month = full(m)),
    ("62 day records", |_, m| {
        m.records.days.count = DAYS;
        m.records.days.held = [full_record(m, -limit(m)); DAYS];
    }),
    ("120 month records", |_, m| {
        m.records.months.count = MONTHS;
        m.records.months.held = [full_record(m, TOP_BALANCE); MONTHS];
    }),
    ("no records, anything beyond", |r, m| {
        (m.records.days.count, m.records.months.count) = (0, 0);
        m.records.days.held[0].volume = r.pick(&[u32::MAX, 0]);
    }),
    ("plans that meet at a midnight", |_, m| running(m)),
    ("plans that meet at the clock's midnight", |_, m| two_plans(m, (-10, 0), (0, 20))),
    ("both plans in force before the clock's date alone", |_, m| two_plans(m, (-10, 0), (-5, 20))),
    ("both plans in force yesterday, slots changed", |_, m| two_plans(m, (-5, 20), (-10, 0))),
    ("periods overlap, windows do not", |_, m| windows(m, 0)),
    ("no plan in force, valve closed", |_, m| without_plan(m)),
    ("usage 1 and open valve on the plan's first day", |_, m| {
        some_total(m);
        two_plans(m, (0, 1), (1, 2));
        (m.slots.usage, m.valve.open) = (1, 1);
    }),
    ("debt of one millionth", |_, m| {
        some_total(m);
        m.account.balance = -1;
    }),
];

/// Every bound, broken alone, with the bound that the model must name.
pub const OUTSIDE: [(&str, Broken, Change); 30] = [
    ("clock's date", "clock", |r, m| m.clock.date = r.pick(&plan_records::NO_DATES[1..])),
    ("clock's date a large number", "clock", |r, m| m.clock.date = r.pick(&[u32::MAX, 120_200_101, 1])),
    ("clock's second", "clock", |r, m| m.clock.second = r.pick(&[LAST_SECOND + 1, u32::MAX])),
    ("last serial", "last serial", |r, m| m.account.serial = r.pick(&[65_536, u32::MAX])),
    ("alarms", "alarms", |r, m| {
        let pairs = [(0, 0), (1, 0), (5, 5), (5, 20), (MOST_ALARM + 1, 5), (u32::MAX, 5), (u32::MAX, u32::MAX)];
        (m.account.alarm_1, m.account.alarm_2) = r.pick(&pairs);
    }),
    ("both plans in force later", BOTH, |_, m| two_plans(m, (-10, 10), (9, 20))),
    ("both plans in force today alone", BOTH, |_, m| two_plans(m, (-10, 1), (0, 20))),
    ("both windows in force on one day", BOTH, |_, m| windows(m, 1)),
    ("both plans in force later, none today", BOTH, |_, m| {
        without_plan(m);
        two_plans(m, (5, 20), (19, 30));
    }),
    ("total", "total", |r, m| m.volumes.total = r.pick(&[MOST as u32 + 1, u32::MAX])),
    ("unpriced volume", "unpriced volume", |r, m| m.volumes.unpriced = above(r, m)),
    ("usage", "usage", |r, m| {
        running(m);
        m.slots.usage = above(r, m);
    }),
    ("balance too low", "balance", |r, m| m.account.balance = r.pick(&[-limit(m) - 1, i64::MIN])),
    ("balance too high", "balance", |r, m| m.account.balance = r.pick(&[TOP_BALANCE + 1, i64::MAX])),
    ("open day's volume", "open day's volume", |r, m| m.records.day.volume = above(r, m)),
    ("open day's charge", "open day's charge", |r, m| m.records.day.charge = dear(r, m)),
    ("open month's volume", "open month's volume", |r, m| m.records.month.volume = above(r, m)),
    ("open month's charge", "open month's charge", |r, m| m.records.month.charge = dear(r, m)),
    ("day records held", "day records", |r, m| {
        m.records.days.count = r.pick(&[63, 64, 120, 256, 1 << 32, 1 << 63, usize::MAX]);
    }),
    ("month records held", "month records", |r, m| {
        m.records.months.count = r.pick(&[121, 128, 256, 1 << 32, 1 << 63, usize::MAX]);
    }),
    ("day record's volume", "record's volume", |r, m| a_day(r, m).volume = above(r, m)),
    ("day record's charge", "record's charge", |r, m| a_day(r, m).charge = dear(r, m)),
    ("day record's closing balance", "record's closing balance", |r, m| a_day(r, m).closing = far(r, m)),
    ("month record's volume", "record's volume", |r, m| a_month(r, m).volume = above(r, m)),
    ("month record's charge", "record's charge", |r, m| a_month(r, m).charge = dear(r, m)),
    ("month record's closing balance", "record's closing balance", |r, m| a_month(r, m).closing = far(r, m)),
    ("usage with no plan in force", "usage 0 with no plan in force", |_, m| {
        some_total(m);
        without_plan(m);
        m.slots.usage = 1;
    }),
    ("usage with no plan loaded", "usage 0 with no plan in force", |_, m| {
        some_total(m);
        unloaded(m);
        m.slots.usage = 1;
    }),
    ("open valve with no plan in force", "valve closed with no plan in force", |_, m| {
        without_plan(m);
        m.valve.open = 1;
    }),
    ("open valve with no plan loaded", "valve closed with no plan in force", |_, m| {
        unloaded(m);
        m.valve.open = 1;
    }),
];

/// Changes of the fresh meter after which, without a clock, it is not the fresh one.
pub const NOT_FRESH: [(&str, fn(&mut Meter)); 18] = [
    ("second", |m| m.clock.second = 1),
    ("balance", |m| m.account.balance = 1),
    ("serial", |m| m.account.serial = 1),
    ("alarm 1", |m| m.account.alarm_1 = 21),
    ("alarm 2", |m| m.account.alarm_2 = 4),
    ("slot 1", |m| m.slots.slot_1 = slot(&simple(20_200_101, 20_210_101))),
    ("slot 2", |m| m.slots.slot_2 = slot(&simple(20_200_101, 20_210_101))),
    ("usage", |m| m.slots.usage = 1),
    ("total", |m| m.volumes.total = 1),
    ("unpriced volume", |m| m.volumes.unpriced = 1),
    ("mark", |m| m.valve.allow = 0),
    ("valve", |m| m.valve.open = 1),
    ("open day's volume", |m| m.records.day.volume = 1),
    ("open day's charge", |m| m.records.day.charge = 1),
    ("open month's volume", |m| m.records.month.volume = 1),
    ("open month's charge", |m| m.records.month.charge = 1),
    ("day records", |m| m.records.days.count = 1),
    ("month records", |m| m.records.months.count = 1),
];

/// A second slot whose plan gives one of the refusals 2 to 7.
pub fn break_plan(r: &mut Random, meter: &mut Meter, refusal: u8) {
    running(meter);
    let date = clock(meter);
    loop {
        let good = plan_records::plan(r, date, plan_records::ANY_SPAN, None);
        let mut plan = plan_records::host_plan(r, &good);
        plan_records::damage_host(r, &mut plan);
        if Plan::of_host(&plan) == Err(refusal) {
            meter.slots.slot_2.plan = plan;
            return;
        }
    }
}

fn clock(meter: &Meter) -> Date {
    Date::of(meter.clock.date as u64).expect("a good meter")
}

/// The clock on a date with no plan in force.
fn move_clock(meter: &mut Meter, date: u32) {
    meter.clock.date = date;
    unloaded(meter);
}

fn simple(start: u32, end: u32) -> Plan {
    let mut steps = [Step::default(); 6];
    steps[..2].copy_from_slice(&[Step { width: 5, price: 10_000 }, Step { width: 0, price: 20_000 }]);
    let date = |number: u32| Date::of(number as u64).expect("a date");
    Plan { start: date(start), end: date(end), cycle: Cycle::Month, n: 2, steps }
}

fn slot(plan: &Plan) -> Slot {
    Slot { loaded: 1, plan: plan.to_host() }
}

/// Two plans in force from and to so many days from the clock's date.
fn two_plans(meter: &mut Meter, one: (i64, i64), two: (i64, i64)) {
    let date = clock(meter);
    let on = |days: i64| date.plus(days).number();
    meter.slots.slot_1 = slot(&simple(on(one.0), on(one.1)));
    meter.slots.slot_2 = slot(&simple(on(two.0), on(two.1)));
}

/// Two plans of one period with windows that have so many days in common.
fn windows(meter: &mut Meter, common: i64) {
    let date = clock(meter);
    two_plans(meter, (-20, 20), (-20, 20));
    let window = |slot: &mut Slot, from: i64, to: i64| {
        slot.plan.word = 4;
        (slot.plan.extra_1, slot.plan.extra_2) = (date.plus(from).number(), date.plus(to).number());
    };
    window(&mut meter.slots.slot_1, -30, 5);
    window(&mut meter.slots.slot_2, 5 - common, 30);
}

/// One plan in force on the clock's date and one after it.
fn running(meter: &mut Meter) {
    two_plans(meter, (-10, 10), (10, 20));
}

/// No plan in force on the clock's date: one has ended, one is to come.
fn without_plan(meter: &mut Meter) {
    unloaded(meter);
    two_plans(meter, (-10, 0), (1, 20));
}

fn unloaded(meter: &mut Meter) {
    (meter.slots.slot_1.loaded, meter.slots.slot_2.loaded) = (0, 0);
    (meter.slots.usage, meter.valve.open) = (0, 0);
}

/// A few hundredths, so that a bound can be broken alone.
fn some_total(meter: &mut Meter) {
    meter.volumes.total = meter.volumes.total.max(10);
}

fn full(meter: &Meter) -> OpenPeriod {
    OpenPeriod { volume: meter.volumes.total, charge: limit(meter) as u64 }
}

fn full_record(meter: &Meter, closing: i64) -> Record {
    Record { date: u32::MAX, volume: meter.volumes.total, charge: limit(meter) as u64, closing }
}

fn above(r: &mut Random, meter: &Meter) -> u32 {
    r.pick(&[meter.volumes.total + 1, u32::MAX])
}

fn dear(r: &mut Random, meter: &Meter) -> u64 {
    r.pick(&[limit(meter) as u64 + 1, 1 << 63, u64::MAX])
}

fn far(r: &mut Random, meter: &Meter) -> i64 {
    r.pick(&[-limit(meter) - 1, TOP_BALANCE + 1, i64::MIN, i64::MAX])
}

/// A held record, the first and the last often.
fn at(r: &mut Random, count: &mut usize, held: &mut [Record]) -> usize {
    if *count == 0 {
        *count = 1;
        held[0] = Record::default();
    }
    let any = r.below(*count as u64) as usize;
    r.pick(&[0, *count - 1, any])
}

fn a_day<'a>(r: &mut Random, meter: &'a mut Meter) -> &'a mut Record {
    let days = &mut meter.records.days;
    let k = at(r, &mut days.count, &mut days.held);
    &mut days.held[k]
}

fn a_month<'a>(r: &mut Random, meter: &'a mut Meter) -> &'a mut Record {
    let months = &mut meter.records.months;
    let k = at(r, &mut months.count, &mut months.held);
    &mut months.held[k]
}

//! Random calls. The generator looks at the model's meter so that the calls come near the edges of the rules.

use crate::calendar::{Date, Stamp};
use crate::calls::{Call, Operation};
use crate::library;
use crate::model::{Meter, MILLIONTHS, MOST_ALARM, MOST_PULSES, TOP_BALANCE};
use crate::plan::MOST;
use crate::random::Random;
use crate::plan_records::{self, Span, ANY_SPAN};
use crate::stamps::{bad_stamp, host, next_stamp, Pace, Pace::*};

/// What a list is like.
pub struct Habit {
    pub name: &'static str,
    pub calls: (u64, u64),
    pub paces: &'static [Pace],
    /// Days of a plan.
    pub span: Span,
    /// One call in so many is meant to be wrong.
    pub wrong: u64,
    /// Pulse calls of 65,535 for the most part.
    pub full: bool,
}

pub const HABITS: [Habit; 6] = [
    Habit {
        name: "short",
        calls: (1, 30),
        paces: &[SameDay, SameDay, Midnight, NextDays, MonthEnd, YearEnd, Leap, Months, Years, PlanEdge, CycleEdge],
        span: (3, 800),
        wrong: 4,
        full: false,
    },
    Habit {
        name: "busy days",
        calls: (40, 200),
        paces: &[SameDay, SameDay, SameDay, SameDay, Midnight, Midnight, NextDays, MonthEnd, PlanEdge, CycleEdge],
        span: (2, 40),
        wrong: 10,
        full: false,
    },
    Habit {
        name: "many days",
        calls: (150, 500),
        paces: &[SameDay, Midnight, Midnight, NextDays, NextDays, NextDays, MonthEnd, CycleEdge],
        span: (10, 200),
        wrong: 20,
        full: false,
    },
    Habit {
        name: "many months",
        calls: (200, 500),
        paces: &[SameDay, Months, MonthEnd, MonthEnd, CycleEdge, PlanEdge, YearEnd],
        span: (200, 3000),
        wrong: 20,
        full: false,
    },
    Habit {
        name: "wild",
        calls: (30, 150),
        paces: &[SameDay, SameDay, NextDays, Months, Years, PlanEdge, Leap, YearEnd],
        span: ANY_SPAN,
        wrong: 2,
        full: false,
    },
    Habit {
        name: "to the full total",
        calls: (1700, 2300),
        paces: &[SameDay, SameDay, SameDay, SameDay, SameDay, SameDay, NextDays, Midnight],
        span: (200, 3000),
        wrong: 25,
        full: true,
    },
];

/// A random call on a meter.
pub fn call(r: &mut Random, meter: &Meter, habit: &Habit) -> Call {
    let wrong = r.one_in(habit.wrong);
    let good = next_stamp(r, meter, habit.paces);
    let without_plan = meter.slot_on(good.date).is_none();
    let stuck = meter.balance > 0 && !meter.open;
    let operation = match r.below(if habit.full { 240 } else { 100 }) {
        _ if without_plan && r.one_in(4) => Operation::Load,
        _ if meter.balance <= 0 && r.one_in(4) => Operation::Recharge,
        _ if !without_plan && stuck && r.one_in(6) => Operation::Key,
        46..=57 => Operation::Load,
        58..=73 => Operation::Recharge,
        74..=85 => Operation::Key,
        86..=90 => Operation::Alarms,
        91..=95 => Operation::Command,
        96..=99 => Operation::Tick,
        _ => Operation::Pulses,
    };
    call_of(r, meter, operation, good, wrong, habit)
}

/// A call of each operation.
pub fn of_each(r: &mut Random, meter: &Meter) -> Vec<Call> {
    use Operation::*;
    let operations = [Pulses, Recharge, Load, Alarms, Command, Key, Tick];
    operations
        .map(|operation| {
            let good = next_stamp(r, meter, HABITS[0].paces);
            let wrong = r.one_in(3);
            call_of(r, meter, operation, good, wrong, &HABITS[0])
        })
        .to_vec()
}

fn call_of(r: &mut Random, meter: &Meter, operation: Operation, good: Stamp, wrong: bool, habit: &Habit) -> Call {
    let stamp = if wrong && r.one_in(2) { bad_stamp(r, meter, good) } else { host(good) };
    match operation {
        Operation::Load => load(r, meter, stamp, good.date, wrong, habit.span),
        Operation::Recharge => recharge(r, meter, stamp, wrong),
        Operation::Key => Call::Key { stamp },
        Operation::Alarms => alarms(r, stamp, wrong),
        Operation::Command => Call::Command { stamp, code: if wrong { odd(r) } else { r.pick(&[0, 1, 1, 1]) } },
        Operation::Tick => Call::Tick { stamp },
        _ => Call::Pulses { stamp, count: count(r, meter, good.date, wrong, habit.full) },
    }
}

/// Numbers that a type too small would take for 0, 1 or 2.
fn odd(r: &mut Random) -> u32 {
    let any = r.next() as u32;
    r.pick(&[2, 3, 255, 256, 257, 65_536, 65_537, 1 << 31, u32::MAX, any])
}

fn load(r: &mut Random, meter: &Meter, stamp: library::Stamp, date: Date, wrong: bool, span: Span) -> Call {
    let busy = meter.slot_on(date);
    let free = match busy {
        Some(slot) if !r.one_in(6) => 1 - slot,
        _ => r.below(2) as usize,
    };
    let mut slot = free as u32 + 1;
    let other = if r.one_in(8) { None } else { meter.slots[1 - free] };
    let plan = plan_records::plan(r, date, span, other);
    let mut bytes = plan_records::record(r, &plan);
    if wrong && r.one_in(6) {
        slot = r.pick(&[0, 3, 4, 256, 257, 258, 65_537, u32::MAX]);
    }
    if wrong || r.one_in(12) {
        plan_records::damage(r, &mut bytes);
    }
    Call::Load { stamp, slot, bytes }
}

fn recharge(r: &mut Random, meter: &Meter, stamp: library::Stamp, wrong: bool) -> Call {
    let last = meter.serial;
    let to_top = ((TOP_BALANCE - meter.balance) / 100) as u64;
    let owed = (-meter.balance.min(0) / 100) as u64;
    let level = r.pick(&[meter.alarms.0, meter.alarms.1, 0]) as i64 * MILLIONTHS;
    let to_level = (level - meter.balance).max(0) as u64 / 100;
    let mut serial = last + 1;
    let mut amount = match r.below(10) {
        0..=3 => r.between(1, 60) * 10_000,
        4 => r.between(1, 3_000_000),
        5 => 1,
        6 => to_level + r.below(2),
        _ => (owed + r.between(1, 300) * 10_000).min(to_top),
    };
    if wrong || r.one_in(40) {
        match r.below(3) {
            0 => {
                let any = r.next() as u32;
                serial = r.pick(&[0, last, last.saturating_sub(1), last + 2, 65_536, last + 65_537, u32::MAX, any]);
            }
            1 => {
                let wraps = 184_467_440_737_095_517;
                amount = r.pick(&[0, to_top, to_top + 1, u64::MAX, wraps, 1 << 63, 9_999_999_900, 9_999_999_901]);
            }
            _ => {
                serial = r.pick(&[last, last + 2]);
                amount = r.pick(&[0, u64::MAX]);
            }
        }
    }
    Call::Recharge { stamp, amount, serial }
}

fn alarms(r: &mut Random, stamp: library::Stamp, wrong: bool) -> Call {
    let alarm_2 = r.between(1, 50) as u32;
    let alarm_1 = alarm_2 + r.between(1, 50) as u32;
    let most = MOST_ALARM;
    let good = [(alarm_1, alarm_2), (20, 5), (2, 1), (most, most - 1), (most, 1)];
    let any = (r.next() as u32, r.next() as u32);
    let bad =
        [(0, 0), (1, 0), (5, 5), (5, 20), (most + 1, 5), (u32::MAX, u32::MAX), (u32::MAX, 1), (most + 1, most), any];
    let (alarm_1, alarm_2) = if wrong { r.pick(&bad) } else { r.pick(&good) };
    Call::Alarms { stamp, alarm_1, alarm_2 }
}

fn count(r: &mut Random, meter: &Meter, date: Date, wrong: bool, full: bool) -> u32 {
    if wrong {
        return r.pick(&[MOST_PULSES + 1, MOST_PULSES, u32::MAX, 1 << 31, 100_000_000, 65_537]);
    }
    let left = MOST - meter.total;
    if left <= MOST_PULSES as u64 && r.one_in(2) {
        return (left + r.pick(&[0, 0, 1])) as u32;
    }
    if full && !r.one_in(8) {
        return MOST_PULSES;
    }
    match r.below(12) {
        0 => 0,
        1 => 1,
        2..=4 => r.between(1, 60) as u32,
        5 => r.between(1, 3000) as u32,
        6 => r.between(0, MOST_PULSES as u64) as u32,
        7 | 8 => to_step(r, meter, date),
        _ => to_level(r, meter, date),
    }
}

/// Pulses up to a step's end, or one beside.
fn to_step(r: &mut Random, meter: &Meter, date: Date) -> u32 {
    let Some(plan) = meter.plan_on(date) else {
        return 1;
    };
    let k = r.between(1, plan.n as u64) as usize;
    let end: u64 = plan.steps[..k].iter().map(|step| step.width).sum();
    let wanted = (end + r.below(3)).saturating_sub(meter.usage + 1);
    wanted.min(MOST_PULSES as u64) as u32
}

/// The fewest pulses that bring the balance to an alarm or to zero, or one beside.
fn to_level(r: &mut Random, meter: &Meter, date: Date) -> u32 {
    let Some(plan) = meter.plan_on(date) else {
        return r.below(200) as u32;
    };
    let level = r.pick(&[meter.alarms.0, meter.alarms.1, 0, 0]) as i64 * MILLIONTHS;
    let reached = |n: u64| meter.balance - (plan.charge(meter.usage + n) - plan.charge(meter.usage)) <= level;
    let (mut low, mut high) = (0, MOST_PULSES as u64);
    while low < high {
        let middle = (low + high) / 2;
        if reached(middle) {
            high = middle;
        } else {
            low = middle + 1;
        }
    }
    (low + r.below(3)).saturating_sub(1).min(MOST_PULSES as u64) as u32
}

//! Situations that the lists must come through, counted as they are met.

use crate::calendar::{Stamp, LAST_SECOND};
use crate::calls::Call;
use crate::library::{DAYS, MONTHS};
use crate::model::{Meter, MILLIONTHS};
use crate::plan::{Cycle, Plan, MOST};
use crate::seen::Seen;

/// What a situation has to know of the meter before a call.
pub struct Scene {
    clock: Option<Stamp>,
    plan: Option<Plan>,
    slot: Option<usize>,
    slots: [Option<Plan>; 2],
    usage: u64,
    open: bool,
    days: usize,
    months: usize,
}

impl Scene {
    pub fn of(meter: &Meter) -> Scene {
        let slot = meter.clock.and_then(|clock| meter.slot_on(clock.date));
        Scene {
            clock: meter.clock,
            plan: slot.and_then(|i| meter.slots[i]),
            slot,
            slots: meter.slots,
            usage: meter.usage,
            open: meter.open,
            days: meter.days.len(),
            months: meter.months.len(),
        }
    }
}

fn cycle_name(cycle: Cycle) -> &'static str {
    match cycle {
        Cycle::OneStep => "one step",
        Cycle::Month => "word 1",
        Cycle::Quarter => "word 2",
        Cycle::Year => "word 3",
        Cycle::Window(..) => "word 4",
        Cycle::Runs(..) => "word 5",
    }
}

const CYCLES: [&str; 6] = ["one step", "word 1", "word 2", "word 3", "word 4", "word 5"];

/// The situations that a whole run must meet.
pub fn wanted() -> Vec<String> {
    let mut wanted: Vec<String> = [
        "62 day records, and the oldest gave way",
        "120 month records, and the oldest gave way",
        "midnight from second 86,399 to second 0",
        "that midnight at a month's end",
        "that midnight at a year's end",
        "that midnight at a month's end, gas on both sides",
        "29 February",
        "plan's end is the next plan's start, passed",
        "expired slot loaded again",
        "plan not yet in force replaced",
        "first call of a fresh meter",
        "key on an open valve",
        "balance exactly zero",
        "balance exactly alarm 1",
        "balance exactly alarm 2",
        "total exactly 99,999,999",
        "five codes or more from one call",
        "pulses over two steps or more",
        "pulses with no plan in force",
        "no pulses in a pulse call",
        "amount 2^64 - 1 refused 20",
        "ledger compared",
        "list cut",
    ]
    .map(String::from)
    .to_vec();
    for cycle in CYCLES {
        wanted.push(format!("loaded, {cycle}"));
        wanted.push(format!("charged, {cycle}"));
        wanted.push(format!("usage kept over midnight, {cycle}"));
        if cycle != "one step" && cycle != "word 4" {
            wanted.push(format!("new cycle of the same plan, {cycle}"));
        }
    }
    wanted.extend((1..=6).map(|step| format!("charged from step {step}")));
    wanted
}

pub fn refused(call: &Call, refusal: u8, seen: &mut Seen) {
    if matches!(call, Call::Recharge { amount: u64::MAX, .. }) && refusal == 20 {
        seen.situation("amount 2^64 - 1 refused 20");
    }
}

pub fn accepted(before: &Scene, after: &Meter, call: &Call, codes: &[u32], seen: &mut Seen) {
    let now = after.clock.expect("an accepted call");
    if codes.len() >= 5 {
        seen.situation("five codes or more from one call");
    }
    if now.date.month == 2 && now.date.day == 29 {
        seen.situation("29 February");
    }
    match before.clock {
        None => seen.situation("first call of a fresh meter"),
        Some(old) if old.date < now.date => turned(before, after, call, old, now, seen),
        Some(_) => {}
    }
    match call {
        Call::Pulses { count, .. } => pulsed(after, *count as u64, seen),
        Call::Load { slot, .. } => loaded(before, after, *slot as usize - 1, now, seen),
        Call::Key { .. } if before.open => seen.situation("key on an open valve"),
        _ => {}
    }
}

fn turned(before: &Scene, after: &Meter, call: &Call, old: Stamp, now: Stamp, seen: &mut Seen) {
    if before.days == DAYS {
        seen.situation("62 day records, and the oldest gave way");
    }
    if before.months == MONTHS && old.date.month_start() < now.date.month_start() {
        seen.situation("120 month records, and the oldest gave way");
    }
    if old.second == LAST_SECOND && now.second == 0 && old.date.plus(1) == now.date {
        midnight(after, call, old, now, seen);
    }
    let slot = after.slots.iter().position(|plan| plan.is_some_and(|plan| plan.in_force(now.date)));
    let (Some(plan), Some(i)) = (before.plan, slot) else {
        return;
    };
    if before.slot == Some(i) {
        let goes_on = plan.cycle_of(old.date) == plan.cycle_of(now.date);
        if !goes_on {
            seen.situation(&format!("new cycle of the same plan, {}", cycle_name(plan.cycle)));
        } else if before.usage > 0 {
            seen.situation(&format!("usage kept over midnight, {}", cycle_name(plan.cycle)));
        }
    } else if after.slots[i].is_some_and(|next| next.start == plan.end) {
        seen.situation("plan's end is the next plan's start, passed");
    }
}

fn midnight(after: &Meter, call: &Call, old: Stamp, now: Stamp, seen: &mut Seen) {
    seen.situation("midnight from second 86,399 to second 0");
    if old.date.month != now.date.month {
        seen.situation("that midnight at a month's end");
        let gas = after.days.front().is_some_and(|day| day.period.volume > 0);
        if gas && matches!(call, Call::Pulses { count: 1.., .. }) {
            seen.situation("that midnight at a month's end, gas on both sides");
        }
    }
    if old.date.year != now.date.year {
        seen.situation("that midnight at a year's end");
    }
}

fn pulsed(after: &Meter, count: u64, seen: &mut Seen) {
    if count == 0 {
        seen.situation("no pulses in a pulse call");
        return;
    }
    if after.total == MOST {
        seen.situation("total exactly 99,999,999");
    }
    let Some(plan) = after.clock.and_then(|clock| after.plan_on(clock.date)) else {
        seen.situation("pulses with no plan in force");
        return;
    };
    seen.situation(&format!("charged, {}", cycle_name(plan.cycle)));
    let (first, _) = plan.step_after(after.usage - count);
    let (last, _) = plan.step_after(after.usage - 1);
    seen.situation(&format!("charged from step {first}"));
    if first != last {
        seen.situation("pulses over two steps or more");
    }
    let levels = [("zero", 0), ("alarm 1", after.alarms.0), ("alarm 2", after.alarms.1)];
    for (name, yuan) in levels {
        if after.balance == yuan as i64 * MILLIONTHS {
            seen.situation(&format!("balance exactly {name}"));
        }
    }
}

fn loaded(before: &Scene, after: &Meter, slot: usize, now: Stamp, seen: &mut Seen) {
    let plan = after.slots[slot].expect("a loaded slot");
    seen.situation(&format!("loaded, {}", cycle_name(plan.cycle)));
    match before.slots[slot] {
        Some(old) if old.end <= now.date => seen.situation("expired slot loaded again"),
        Some(old) if now.date < old.start => seen.situation("plan not yet in force replaced"),
        _ => {}
    }
}

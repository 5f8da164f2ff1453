//! Prints the sizes and offsets of library.rs and the model's numbers; tests/abi.c prints those of the header.

use crate::library::*;
use crate::model;
use crate::plan::RECORD_BYTES;
use std::mem::{align_of, offset_of, size_of};

fn field_size<T, F>(_: fn(&T) -> &F) -> usize {
    size_of::<F>()
}

macro_rules! layout {
    ($name:literal, $type:ty, $($field:ident)*) => {
        println!("{} size {} align {}", $name, size_of::<$type>(), align_of::<$type>());
        $(println!(
            "{}.{} at {} size {}",
            $name,
            stringify!($field),
            offset_of!($type, $field),
            field_size(|s: &$type| &s.$field)
        );)*
    };
}

pub fn print() {
    layout!("stamp", Stamp, date second);
    layout!("account", Account, balance serial alarm_1 alarm_2);
    layout!("plan", Plan, start end steps word extra_1 extra_2 widths prices);
    layout!("slot", Slot, loaded plan);
    layout!("slots", Slots, slot_1 slot_2 usage);
    layout!("volumes", Volumes, total unpriced);
    layout!("valve", Valve, allow open);
    layout!("record", Record, date volume charge closing);
    layout!("open_period", OpenPeriod, volume charge);
    layout!("days", Days, count held);
    layout!("months", Months, count held);
    layout!("records", Records, day month days months);
    layout!("meter", Meter, clock account slots volumes valve records);
    layout!("codes", Codes, count list);
    layout!("codes_reply", CodesReply, accepted refusal codes);
    layout!("pulses_call", PulsesCall, stamp count);
    layout!("recharge_call", RechargeCall, stamp amount serial);
    layout!("load_call", LoadCall, stamp slot);
    layout!("alarms_call", AlarmsCall, stamp alarm_1 alarm_2);
    layout!("command_call", CommandCall, stamp code);
    layout!("key_call", KeyCall, stamp);
    layout!("tick_call", TickCall, stamp);
    layout!("step_price", StepPrice, number price);
    layout!("step_reply", StepReply, accepted refusal step);
    layout!("display_reply", DisplayReply, accepted refusal shown);
    layout!("record_reply", RecordReply, accepted refusal place held);
    layout!("sum_reply", SumReply, accepted refusal volume);
    layout!("plan_reply", PlanReply, accepted refusal plan);
    layout!("acceptance", Acceptance, accepted refusal);
    layout!("part_reply", PartReply, accepted refusal which);
    println!("counts {RECORD_BYTES} {STEPS} {DAYS} {MONTHS} {CODES}");
    codes();
}

fn codes() {
    let codes = [
        ("plan expired", model::EXPIRED),
        ("valve closed", model::CLOSED),
        ("valve opened", model::OPENED),
        ("recharged", model::RECHARGED),
        ("settings", model::SETTINGS),
        ("command", model::COMMAND),
        ("alarm 1", model::ALARM_1),
        ("alarm 2", model::ALARM_2),
        ("zero", model::ZERO),
        ("debt", model::DEBT),
    ];
    for (name, code) in codes {
        println!("code {name} {code:X}");
    }
}

//! The C library's structs and functions, exactly after include/harpdapple.h. A C `bool` is a byte here, so that every
//! value that comes back can be looked at.

use crate::calls::Call;

pub const STEPS: usize = 6;
pub const DAYS: usize = 62;
pub const MONTHS: usize = 120;
pub const CODES: usize = 8;

#[repr(C)]
#[derive(Clone, Copy, PartialEq, Debug, Default)]
pub struct Stamp {
    pub date: u32,
    pub second: u32,
}

#[repr(C)]
#[derive(Clone, Copy, PartialEq, Debug, Default)]
pub struct Account {
    pub balance: i64,
    pub serial: u32,
    pub alarm_1: u32,
    pub alarm_2: u32,
}

#[repr(C)]
#[derive(Clone, Copy, PartialEq, Debug, Default)]
pub struct Plan {
    pub start: u32,
    pub end: u32,
    pub steps: u8,
    pub word: u8,
    pub extra_1: u32,
    pub extra_2: u32,
    pub widths: [u32; STEPS],
    pub prices: [u64; STEPS],
}

#[repr(C)]
#[derive(Clone, Copy, PartialEq, Debug, Default)]
pub struct Slot {
    pub loaded: u8,
    pub plan: Plan,
}

#[repr(C)]
#[derive(Clone, Copy, PartialEq, Debug, Default)]
pub struct Slots {
    pub slot_1: Slot,
    pub slot_2: Slot,
    pub usage: u32,
}

#[repr(C)]
#[derive(Clone, Copy, PartialEq, Debug, Default)]
pub struct Volumes {
    pub total: u32,
    pub unpriced: u32,
}

#[repr(C)]
#[derive(Clone, Copy, PartialEq, Debug, Default)]
pub struct Valve {
    pub allow: u8,
    pub open: u8,
}

#[repr(C)]
#[derive(Clone, Copy, PartialEq, Debug, Default)]
pub struct Record {
    pub date: u32,
    pub volume: u32,
    pub charge: u64,
    pub closing: i64,
}

#[repr(C)]
#[derive(Clone, Copy, PartialEq, Debug, Default)]
pub struct OpenPeriod {
    pub volume: u32,
    pub charge: u64,
}

#[repr(C)]
#[derive(Clone, Copy, PartialEq, Debug)]
pub struct Days {
    pub count: usize,
    pub held: [Record; DAYS],
}

#[repr(C)]
#[derive(Clone, Copy, PartialEq, Debug)]
pub struct Months {
    pub count: usize,
    pub held: [Record; MONTHS],
}

#[repr(C)]
#[derive(Clone, Copy, PartialEq, Debug)]
pub struct Records {
    pub day: OpenPeriod,
    pub month: OpenPeriod,
    pub days: Days,
    pub months: Months,
}

#[repr(C)]
#[derive(Clone, Copy, PartialEq, Debug)]
pub struct Meter {
    pub clock: Stamp,
    pub account: Account,
    pub slots: Slots,
    pub volumes: Volumes,
    pub valve: Valve,
    pub records: Records,
}

#[repr(C)]
#[derive(Clone, Copy, PartialEq, Debug, Default)]
pub struct Codes {
    pub count: usize,
    pub list: [u32; CODES],
}

#[repr(C)]
#[derive(Clone, Copy, PartialEq, Debug, Default)]
pub struct CodesReply {
    pub accepted: u8,
    pub refusal: u8,
    pub codes: Codes,
}

#[repr(C)]
#[derive(Clone, Copy)]
pub struct PulsesCall {
    pub stamp: Stamp,
    pub count: u32,
}

#[repr(C)]
#[derive(Clone, Copy)]
pub struct RechargeCall {
    pub stamp: Stamp,
    pub amount: u64,
    pub serial: u32,
}

#[repr(C)]
#[derive(Clone, Copy)]
pub struct LoadCall {
    pub stamp: Stamp,
    pub slot: u32,
}

#[repr(C)]
#[derive(Clone, Copy)]
pub struct AlarmsCall {
    pub stamp: Stamp,
    pub alarm_1: u32,
    pub alarm_2: u32,
}

#[repr(C)]
#[derive(Clone, Copy)]
pub struct CommandCall {
    pub stamp: Stamp,
    pub code: u32,
}

#[repr(C)]
#[derive(Clone, Copy)]
pub struct KeyCall {
    pub stamp: Stamp,
}

#[repr(C)]
#[derive(Clone, Copy)]
pub struct TickCall {
    pub stamp: Stamp,
}

#[repr(C)]
#[derive(Clone, Copy, PartialEq, Debug, Default)]
pub struct StepPrice {
    pub number: u8,
    pub price: u64,
}

#[repr(C)]
#[derive(Clone, Copy, PartialEq, Debug, Default)]
pub struct StepReply {
    pub accepted: u8,
    pub refusal: u8,
    pub step: StepPrice,
}

#[repr(C)]
#[derive(Clone, Copy, PartialEq, Debug, Default)]
pub struct DisplayReply {
    pub accepted: u8,
    pub refusal: u8,
    pub shown: i64,
}

#[repr(C)]
#[derive(Clone, Copy, PartialEq, Debug, Default)]
pub struct RecordReply {
    pub accepted: u8,
    pub refusal: u8,
    pub place: usize,
    pub held: Record,
}

#[repr(C)]
#[derive(Clone, Copy, PartialEq, Debug, Default)]
pub struct SumReply {
    pub accepted: u8,
    pub refusal: u8,
    pub volume: u64,
}

#[repr(C)]
#[derive(Clone, Copy, PartialEq, Debug, Default)]
pub struct PlanReply {
    pub accepted: u8,
    pub refusal: u8,
    pub plan: Plan,
}

#[repr(C)]
#[derive(Clone, Copy, PartialEq, Debug, Default)]
pub struct Acceptance {
    pub accepted: u8,
    pub refusal: u8,
}

#[repr(C)]
#[derive(Clone, Copy, PartialEq, Debug, Default)]
pub struct PartReply {
    pub accepted: u8,
    pub refusal: u8,
    pub which: u8,
}

extern "C" {
    fn harpdapple_fresh() -> Meter;
    fn harpdapple_pulses(meter: *mut Meter, call: PulsesCall) -> CodesReply;
    fn harpdapple_recharge(meter: *mut Meter, call: RechargeCall) -> CodesReply;
    fn harpdapple_load(meter: *mut Meter, call: LoadCall, bytes: *const u8, length: usize) -> CodesReply;
    fn harpdapple_alarms(meter: *mut Meter, call: AlarmsCall) -> CodesReply;
    fn harpdapple_command(meter: *mut Meter, call: CommandCall) -> CodesReply;
    fn harpdapple_key(meter: *mut Meter, call: KeyCall) -> CodesReply;
    fn harpdapple_tick(meter: *mut Meter, call: TickCall) -> CodesReply;
    fn harpdapple_step(meter: *const Meter) -> StepReply;
    fn harpdapple_display(meter: *const Meter) -> DisplayReply;
    fn harpdapple_shown(balance: i64) -> i64;
    fn harpdapple_day(meter: *const Meter, k: usize) -> RecordReply;
    fn harpdapple_month(meter: *const Meter, k: usize) -> RecordReply;
    fn harpdapple_heavy(meter: *const Meter, volume: u32) -> RecordReply;
    fn harpdapple_sum(days: *const Record, count: usize) -> SumReply;
    fn harpdapple_plan_read(bytes: *const u8, length: usize) -> PlanReply;
    fn harpdapple_plan_write(plan: *const Plan, out: *mut u8, length: usize) -> Acceptance;
    fn harpdapple_record_in_force(
        first: *const u8,
        first_length: usize,
        second: *const u8,
        second_length: usize,
        date: u32,
    ) -> PartReply;
}

// Safe here: every pointer comes from a reference or a slice, and the library keeps none.

pub fn fresh() -> Meter {
    unsafe { harpdapple_fresh() }
}

/// A meter between guard bytes, which the library must leave alone.
#[repr(C)]
struct Guarded {
    before: [u64; 8],
    meter: Meter,
    after: [u64; 8],
}

const GUARD: [u64; 8] = [0xA5A5_5A5A_DEAD_BEEF; 8];

pub fn run(meter: &mut Meter, call: &Call) -> CodesReply {
    let mut lent = Guarded { before: GUARD, meter: *meter, after: GUARD };
    let reply = run_lent(&mut lent.meter, call);
    assert!(lent.before == GUARD && lent.after == GUARD, "the library wrote beside the meter: {call}");
    *meter = lent.meter;
    reply
}

/// The call on the meter where it lies, with no guard bytes and no copy: what a host does.
pub fn run_lent(meter: *mut Meter, call: &Call) -> CodesReply {
    unsafe {
        match *call {
            Call::Pulses { stamp, count } => harpdapple_pulses(meter, PulsesCall { stamp, count }),
            Call::Recharge { stamp, amount, serial } => {
                harpdapple_recharge(meter, RechargeCall { stamp, amount, serial })
            }
            Call::Load { stamp, slot, ref bytes } => {
                harpdapple_load(meter, LoadCall { stamp, slot }, bytes.as_ptr(), bytes.len())
            }
            Call::Alarms { stamp, alarm_1, alarm_2 } => harpdapple_alarms(meter, AlarmsCall { stamp, alarm_1, alarm_2 }),
            Call::Command { stamp, code } => harpdapple_command(meter, CommandCall { stamp, code }),
            Call::Key { stamp } => harpdapple_key(meter, KeyCall { stamp }),
            Call::Tick { stamp } => harpdapple_tick(meter, TickCall { stamp }),
        }
    }
}

/// A question over a meter that lies between guard bytes: after it every byte must be as it was, of a broken meter too.
fn asked<T>(meter: &Meter, question: impl FnOnce(*const Meter) -> T) -> T {
    let mut lent = Guarded { before: GUARD, meter: *meter, after: GUARD };
    let place: *mut Guarded = std::hint::black_box(&mut lent);
    let bytes = || unsafe { std::slice::from_raw_parts(place as *const u8, std::mem::size_of::<Guarded>()) };
    let before = bytes().to_vec();
    let answer = question(unsafe { std::ptr::addr_of!((*place).meter) });
    assert!(std::hint::black_box(bytes()) == before, "a query wrote to the meter that was lent to it");
    answer
}

pub fn step(meter: &Meter) -> StepReply {
    asked(meter, |lent| unsafe { harpdapple_step(lent) })
}

/// On a meter where it lies, as a host asks.
pub fn display_lent(meter: *const Meter) -> DisplayReply {
    unsafe { harpdapple_display(meter) }
}

pub fn shown(balance: i64) -> i64 {
    unsafe { harpdapple_shown(balance) }
}

pub fn display(meter: &Meter) -> DisplayReply {
    asked(meter, display_lent)
}

pub fn day(meter: &Meter, k: usize) -> RecordReply {
    asked(meter, |lent| unsafe { harpdapple_day(lent, k) })
}

pub fn month(meter: &Meter, k: usize) -> RecordReply {
    asked(meter, |lent| unsafe { harpdapple_month(lent, k) })
}

pub fn heavy(meter: &Meter, volume: u32) -> RecordReply {
    asked(meter, |lent| unsafe { harpdapple_heavy(lent, volume) })
}

pub fn sum(days: &[Record]) -> SumReply {
    unsafe { harpdapple_sum(days.as_ptr(), days.len()) }
}

pub fn plan_read(bytes: &[u8]) -> PlanReply {
    unsafe { harpdapple_plan_read(bytes.as_ptr(), bytes.len()) }
}

pub fn plan_write(plan: &Plan, out: &mut [u8]) -> Acceptance {
    unsafe { harpdapple_plan_write(plan, out.as_mut_ptr(), out.len()) }
}

pub fn record_in_force(first: &[u8], second: &[u8], date: u32) -> PartReply {
    unsafe { harpdapple_record_in_force(first.as_ptr(), first.len(), second.as_ptr(), second.len(), date) }
}

//! Random plans and plan records, good and damaged.

use crate::calendar::{Date, LAST};
use crate::library;
use crate::plan::{Cycle, Plan, Step, MOST, RECORD_BYTES};
use crate::random::Random;

/// Numbers that are no date of the calendar.
pub const NO_DATES: [u32; 12] = [
    0, 19_991_231, 20_000_100, 20_210_229, 20_200_230, 20_200_431, 20_201_301, 20_200_001, 20_200_100, 20_200_132,
    21_000_101, 99_999_999,
];

/// How many days a plan's period has, as a rule: least and most.
pub type Span = (u64, u64);
pub const ANY_SPAN: Span = (1, 1000);

/// A good plan near a date, often beginning where another ends or ending where it begins.
pub fn plan(r: &mut Random, near: Date, span: Span, other: Option<Plan>) -> Plan {
    let (start, end) = period(r, near, span, other);
    let n = r.between(1, 6) as usize;
    let cycle = if n == 1 { Cycle::OneStep } else { cycle(r, start, end) };
    let dear = r.one_in(10);
    let mut steps = [Step::default(); 6];
    for step in &mut steps[..n] {
        *step = Step { width: width(r), price: price(r, dear) };
    }
    Plan { start, end, cycle, n, steps }
}

fn period(r: &mut Random, near: Date, span: Span, other: Option<Plan>) -> (Date, Date) {
    let span = match r.below(12) {
        0 => 1,
        1 => 2,
        2 => 9000,
        _ => r.between(span.0, span.1),
    } as i64;
    let start = match (other, r.below(8)) {
        (Some(other), 0..=3) if near < other.end => other.end,
        (Some(other), 4) => other.start.plus(-span),
        (_, 0..=5) => near.plus(-(r.below(span as u64) as i64)),
        (_, 6) => near.plus(r.below(90) as i64),
        _ => near.plus(-(r.below(500) as i64)),
    };
    let start = start.min(LAST.plus(-1));
    let mut end = start.plus(span).max(start.plus(1));
    if let Some(other) = other.filter(|other| start < other.start && other.start < end) {
        end = r.pick(&[other.start, other.start, end]);
    }
    (start, end)
}

fn cycle(r: &mut Random, start: Date, end: Date) -> Cycle {
    match r.between(1, 5) {
        1 => Cycle::Month,
        2 => Cycle::Quarter,
        3 => Cycle::Year,
        4 => {
            let inside = start.plus(r.below((end.count() - start.count()) as u64) as i64);
            let from = inside.plus(-(r.below(60) as i64));
            let to = inside.plus(r.between(1, 60) as i64);
            Cycle::Window(from, to.max(inside.plus(1)))
        }
        _ => {
            let first = start.plus(r.below(120) as i64 - 60);
            let odd = r.between(1, MOST);
            Cycle::Runs(first, r.pick(&[1, 2, 7, 10, 28, 30, 31, 365, odd, MOST]))
        }
    }
}

fn width(r: &mut Random) -> u64 {
    match r.below(10) {
        0 => 0,
        1 => MOST,
        2 => 1,
        3..=5 => r.between(1, 40),
        6..=7 => r.between(1, 3000),
        8 => 2500,
        _ => r.between(0, MOST),
    }
}

/// Round prices let a balance fall exactly to a level.
fn price(r: &mut Random, dear: bool) -> u64 {
    if dear {
        return r.pick(&[MOST, MOST - 1, 50_000_000]);
    }
    match r.below(8) {
        0 => 1,
        1 => r.between(1, 60_000),
        2 => 26_000,
        3 => 31_500,
        _ => r.pick(&[5_000, 10_000, 20_000, 40_000, 100_000, 1_000_000]),
    }
}

/// The places of a record that its plan does not read.
pub fn unread(plan: &Plan) -> Vec<usize> {
    let mut places = vec![];
    if plan.n == 1 {
        places.push(9);
    }
    if !matches!(plan.cycle, Cycle::Window(..) | Cycle::Runs(..)) {
        places.extend(10..18);
    }
    places.extend(18 + 8 * plan.n..RECORD_BYTES);
    places
}

/// A record of the plan; what is not read may be anything.
pub fn record(r: &mut Random, plan: &Plan) -> Vec<u8> {
    let mut bytes = plan.write().to_vec();
    if !r.one_in(3) {
        for place in unread(plan) {
            bytes[place] = r.next() as u8;
        }
    }
    bytes
}

fn put(bytes: &mut [u8], at: usize, number: u32) {
    for (i, unit) in [1_000_000, 10_000, 100, 1].into_iter().enumerate() {
        let pair = (number / unit % 100) as u8;
        if let Some(byte) = bytes.get_mut(at + i) {
            *byte = pair / 10 * 16 + pair % 10;
        }
    }
}

fn set(bytes: &mut [u8], at: usize, value: u8) {
    if let Some(byte) = bytes.get_mut(at) {
        *byte = value;
    }
}

/// One or a few damages; a damaged record may still be good.
pub fn damage(r: &mut Random, bytes: &mut Vec<u8>) {
    for _ in 0..r.pick(&[1, 1, 1, 2, 3]) {
        damage_once(r, bytes);
    }
}

fn damage_once(r: &mut Random, bytes: &mut Vec<u8>) {
    match r.below(12) {
        0 => {
            let length = r.pick(&[0, 1, 8, 9, 10, 33, 65, 67, 68, 132, 322]);
            bytes.resize(length, 0);
        }
        1 => set(bytes, 8, r.pick(&[0, 7, 8, 9, 0x0A, 0x10, 0x11, 0x60, 0x80, 0xFF])),
        2 => set(bytes, 9, r.pick(&[0, 6, 7, 0x0A, 0x0F, 0x10, 0x14, 0x50, 0xFF])),
        3 | 4 => {
            let at = r.pick(&[0, 1, 2, 3, 4, 5, 6, 7, 10, 13, 14, 17, 18, 21, 22, 25, 26, 30, 40, 50, 58, 65]);
            let high = r.between(10, 15) as u8;
            let digit = r.below(10) as u8;
            set(bytes, at, r.pick(&[high * 16 + digit, digit * 16 + high]));
        }
        5 | 6 => put(bytes, r.pick(&[0, 4, 10, 14]), r.pick(&NO_DATES)),
        7 => {
            // the period or the window turned round, or empty
            let (one, two) = r.pick(&[(0, 4), (10, 14)]);
            let same = r.one_in(2);
            for i in 0..4 {
                if two + i < bytes.len() {
                    bytes.swap(one + i, two + i);
                    if same {
                        bytes[one + i] = bytes[two + i];
                    }
                }
            }
        }
        8 => put(bytes, 14, 0),
        9 => put(bytes, 22 + 8 * r.below(6) as usize, 0),
        10 => {
            let at = r.below(RECORD_BYTES as u64) as usize;
            set(bytes, at, r.next() as u8);
        }
        _ => bytes.iter_mut().for_each(|byte| *byte = r.next() as u8),
    }
}

/// A host's plan with anything in the fields that it does not read.
pub fn host_plan(r: &mut Random, plan: &Plan) -> library::Plan {
    let mut host = plan.to_host();
    if plan.n == 1 {
        host.word = r.next() as u8;
    }
    if !matches!(plan.cycle, Cycle::Window(..) | Cycle::Runs(..)) {
        host.extra_1 = r.next() as u32;
        host.extra_2 = r.next() as u32;
    }
    for i in plan.n..6 {
        host.widths[i] = r.next() as u32;
        host.prices[i] = r.next();
    }
    host
}

/// The same for the writer: one or a few damages of a host's plan.
pub fn damage_host(r: &mut Random, plan: &mut library::Plan) {
    for _ in 0..r.pick(&[1, 1, 1, 2, 3]) {
        let i = r.below(6) as usize;
        let large = r.pick(&[MOST as u32 + 1, u32::MAX, 1 << 31]);
        match r.below(14) {
            0 => plan.steps = r.pick(&[0, 7, 8, 128, 255]),
            1 => plan.word = r.pick(&[0, 6, 7, 16, 255]),
            2 => plan.start = large,
            3 => plan.end = large,
            4 => plan.extra_1 = large,
            5 => plan.extra_2 = large,
            6 => plan.widths[i] = large,
            7 => plan.prices[i] = r.pick(&[MOST + 1, u64::MAX, 1 << 32, 1 << 63]),
            8 => plan.start = r.pick(&NO_DATES),
            9 => plan.end = r.pick(&NO_DATES),
            10 => plan.extra_1 = r.pick(&NO_DATES),
            11 => plan.extra_2 = r.pick(&[0, 20_210_229, MOST as u32]),
            12 => plan.end = plan.start,
            _ => plan.prices[i] = 0,
        }
    }
}

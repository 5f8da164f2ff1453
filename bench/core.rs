// Times the C library (crates/harpdapple/out/libharpdapple.a) beside the same work in plain Rust, both on a meter where it lies:
//
//   core RECORDS          a line for each row: its name, nanoseconds of the library, of plain Rust
//   core RECORDS NAME N   NAME once with N calls, for a count of instructions
//
// RECORDS is a file of 66-byte records. bench/core.py builds and runs it.
use std::hint::black_box;

#[allow(dead_code)]
#[path = "../tests/model/calls.rs"]
mod calls;
#[allow(dead_code)]
#[path = "../tests/model/library.rs"]
mod library;
#[path = "meter.rs"]
mod meter;
#[allow(dead_code)]
#[path = "printer.rs"]
mod printer;

use calls::Call;
use library::Stamp;
use meter::Meter;

const RECORD: usize = 66;

fn plan_a() -> [u8; RECORD] {
    let mut s = [0; RECORD];
    s[..10].copy_from_slice(&[0x20, 0x20, 1, 1, 0x20, 0x21, 1, 1, 2, 1]);
    s[18..34].copy_from_slice(&[
        0, 0, 0x25, 0, 0, 2, 0x60, 0, 0x99, 0x99, 0x99, 0x99, 0, 3, 0x15, 0,
    ]);
    s
}

// Date i of a run that starts on 20200115 and has 28 days in each month; it begins again after 26,000 dates, before 2099.
fn date_of(i: u32) -> u32 {
    let k = i % 26_000 + 14;
    let month = k / 28;
    (2020 + month / 12) * 10_000 + (month % 12 + 1) * 100 + k % 28 + 1
}

#[inline(never)]
fn plain_read(s: &[u8]) -> u32 {
    printer::read(s).map_or(0, |p| p.start)
}

#[inline(never)]
fn plain_write(p: &printer::Plan, out: &mut [u8]) -> u8 {
    meter::write(p, out).is_err() as u8
}

fn aged(turns: u32) -> Meter {
    let mut m = Meter::started(&plan_a());
    for i in 1..=turns {
        let _ = m.tick(black_box(date_of(i)), 0);
    }
    m
}

fn pulsed(turns: u32, n: u32) -> Meter {
    let mut m = aged(turns);
    for _ in 0..n {
        let _ = m.pulses(black_box(date_of(turns)), 0, black_box(1));
    }
    m
}

fn plain_display(turns: u32, n: u32) -> u64 {
    let m = aged(turns);
    (0..n)
        .map(|_| match black_box(&m) {
            m if m.is_bounded() => m.balance.div_euclid(100) as u64,
            _ => 0,
        })
        .sum()
}

fn at(i: u32) -> Stamp {
    Stamp {
        date: date_of(i),
        second: 0,
    }
}

// The library's meter on 20200115 with Plan A of document 01 in slot 1, a recharge of 100 yuan, and the valve open.
fn proved_started() -> library::Meter {
    let stamp = at(0);
    let calls = [
        Call::Load {
            stamp,
            slot: 1,
            bytes: plan_a().to_vec(),
        },
        Call::Recharge {
            stamp,
            amount: 1_000_000,
            serial: 1,
        },
        Call::Key { stamp },
    ];
    let mut m = library::fresh();
    for call in &calls {
        assert_eq!(library::run_lent(&mut m, call).accepted, 1);
    }
    m
}

fn proved_aged(turns: u32) -> library::Meter {
    let mut m = proved_started();
    for i in 1..=turns {
        library::run_lent(&mut m, &Call::Tick { stamp: black_box(at(i)) });
    }
    m
}

fn proved_pulsed(turns: u32, n: u32) -> library::Meter {
    let mut m = proved_aged(turns);
    for _ in 0..n {
        let stamp = black_box(at(turns));
        library::run_lent(&mut m, &Call::Pulses { stamp, count: black_box(1) });
    }
    m
}

fn proved_display(turns: u32, n: u32) -> u64 {
    let m = proved_aged(turns);
    (0..n).map(|_| library::display_lent(black_box(&m)).shown as u64).sum()
}

fn proved_read(s: &[u8]) -> u32 {
    library::plan_read(s).plan.start
}

fn proved_write(p: &library::Plan, out: &mut [u8]) -> u8 {
    1 - library::plan_write(p, out).accepted
}

// The plans of the records that are not refused, for each side.
fn plans(records: &[u8]) -> (Vec<library::Plan>, Vec<printer::Plan>) {
    let all = records.chunks_exact(RECORD);
    let proved = all.clone().map(library::plan_read).filter(|r| r.accepted == 1).map(|r| r.plan).collect();
    (proved, all.filter_map(|s| printer::read(s).ok()).collect())
}

// A sum of what n calls answer; the record of each is the next of the file.
fn read_all(proved: bool, records: &[u8], n: u32) -> u64 {
    let mut sum = 0;
    for s in records.chunks_exact(RECORD).cycle().take(n as usize) {
        sum += match proved {
            true => proved_read(s),
            false => plain_read(s),
        } as u64;
    }
    sum
}

fn write_all(proved: bool, records: &[u8], n: u32) -> u64 {
    let (ours, plain) = plans(records);
    assert_eq!(ours.len(), plain.len());
    let mut out = [0u8; RECORD];
    let mut sum = 0;
    for i in 0..n as usize {
        let k = i % plain.len();
        sum += match proved {
            true => proved_write(&ours[k], &mut out),
            false => plain_write(&plain[k], &mut out),
        } as u64;
        black_box(&out);
    }
    sum + out.iter().map(|&b| b as u64).sum::<u64>()
}

fn run(name: &str, proved: bool, records: &[u8], n: u32) -> u64 {
    let (what, turns) = match name.split_once('-') {
        Some((what, turns)) => (what, turns.parse().unwrap()),
        None => (name, 0),
    };
    match (what, proved) {
        ("read", _) => read_all(proved, records, n),
        ("write", _) => write_all(proved, records, n),
        ("pulses", true) => proved_pulsed(turns, n).volumes.total as u64,
        ("pulses", false) => pulsed(turns, n).total as u64,
        ("turns", true) => proved_aged(n).records.days.count as u64,
        ("turns", false) => aged(n).day_records() as u64,
        ("display", true) => proved_display(turns, n),
        ("display", false) => plain_display(turns, n),
        _ => panic!("no {name}"),
    }
}

#[repr(C)]
struct Timespec {
    seconds: i64,
    nanoseconds: i64,
}

extern "C" {
    fn clock_gettime(clock: i32, at: *mut Timespec) -> i32;
}

// Processor time of this process, in nanoseconds.
fn spent() -> f64 {
    const PROCESS: i32 = 2;
    let mut t = Timespec { seconds: 0, nanoseconds: 0 };
    assert_eq!(unsafe { clock_gettime(PROCESS, &mut t) }, 0);
    t.seconds as f64 * 1e9 + t.nanoseconds as f64
}

const ROUNDS: u32 = 12;

// Nanoseconds of a call on each side: the least of the rounds with n calls, less the least with none.
fn each(name: &str, records: &[u8], n: u32) -> [f64; 2] {
    let mut least = [[f64::MAX; 2]; 2];
    for _ in 0..ROUNDS {
        let mut seen = [0; 2];
        for (side, proved) in [true, false].into_iter().enumerate() {
            for (k, calls) in [0, n].into_iter().enumerate() {
                let begun = spent();
                seen[side] = black_box(run(name, proved, records, black_box(calls)));
                least[side][k] = least[side][k].min(spent() - begun);
            }
        }
        assert_eq!(seen[0], seen[1], "{name}: the two differ");
    }
    least.map(|b| (b[1] - b[0]) / n as f64)
}

fn same_bytes(records: &[u8]) {
    let (ours, plain) = plans(records);
    for (p, q) in ours.iter().zip(&plain) {
        let mut outs = [[7u8; RECORD]; 2];
        let [a, b] = &mut outs;
        assert_eq!(proved_write(p, a), plain_write(q, b));
        assert_eq!(outs[0], outs[1]);
    }
}

// Across the three thresholds and zero, and with no plan in force.
fn same_balances() {
    for (turns, n) in [(0, 0), (0, 2_500), (0, 3_612), (62, 5_000), (400, 10)] {
        assert_eq!(proved_pulsed(turns, n).account.balance, pulsed(turns, n).balance);
    }
}

fn main() {
    let args: Vec<String> = std::env::args().collect();
    let records = std::fs::read(&args[1]).unwrap();
    if let [_, _, name, n] = &args[..] {
        let (name, proved) = match name.strip_prefix("plain-") {
            Some(rest) => (rest, false),
            None => (&name[..], true),
        };
        println!("{}", run(name, proved, &records, n.parse().unwrap()));
        return;
    }
    same_bytes(&records);
    same_balances();
    for (name, calls) in [
        ("read", 500_000),
        ("write", 500_000),
        ("pulses", 500_000),
        ("pulses-62", 200_000),
        ("pulses-4000", 100_000),
        ("turns", 26_000),
        ("display-62", 200_000),
        ("display-4000", 100_000),
    ] {
        let [proved, plain] = each(name, &records, calls);
        println!("{name} {proved:.1} {plain:.1}");
    }
}

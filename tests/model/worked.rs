//! The worked sums of document 01, with the paper's own numbers, on the library and the model together.

use crate::calls::Call;
use crate::compare::{same, Difference, Pair};
use crate::library::{self, Stamp};
use crate::model::{ALARM_1, ALARM_2, CLOSED, DEBT, ZERO};
use crate::seen::Seen;

/// Document 01, "The plan printer".
const PLAN_A: &str = "2020010120210101020100000000000000000000250000026000999999990003150000";

fn plan_a() -> Vec<u8> {
    let digit = |at: usize| PLAN_A.as_bytes()[at] - b'0';
    let mut bytes: Vec<u8> = (0..34).map(|i| digit(2 * i) * 16 + digit(2 * i + 1)).collect();
    bytes.resize(66, 0);
    bytes
}

const DAY: Stamp = Stamp { date: 20_200_115, second: 0 };

fn pulses(date: u32, second: u32, count: u32) -> Call {
    Call::Pulses { stamp: Stamp { date, second }, count }
}

/// Plan A, a recharge of 100 yuan and the key, on 20200115 in a fresh meter.
fn begun(plan: Vec<u8>, seen: &mut Seen) -> Result<Pair, Difference> {
    let mut pair = Pair::fresh();
    pair.call(&Call::Load { stamp: DAY, slot: 1, bytes: plan }, seen)?;
    pair.call(&Call::Recharge { stamp: DAY, amount: 1_000_000, serial: 1 }, seen)?;
    pair.call(&Call::Key { stamp: DAY }, seen)?;
    Ok(pair)
}

/// The balance after each of the pulse calls.
fn balances(plan: Vec<u8>, calls: &[Call], seen: &mut Seen) -> Result<Vec<i64>, Difference> {
    let mut pair = begun(plan, seen)?;
    let mut balances = vec![];
    for call in calls {
        pair.call(call, seen)?;
        balances.push(pair.host.account.balance);
    }
    Ok(balances)
}

pub fn sums(seen: &mut Seen) -> Result<(), Difference> {
    let left = 100_000_000;
    let first = pulses(20_200_115, 0, 2500);
    let mut pair = begun(plan_a(), seen)?;
    pair.call(&first, seen)?;
    same("2,500 pulses", &pair.host.account.balance, &(left - 65_000_000))?;
    same("the step then", &library::step(&pair.host).step.number, &2)?;

    let mut meter = begun(plan_a(), seen)?.host;
    let reply = library::run(&mut meter, &pulses(20_200_115, 0, 3612));
    same("3,612 pulses", &meter.account.balance, &-28_000)?;
    same("their codes", &reply.codes.list[..5], &[ALARM_1, ALARM_2, CLOSED, ZERO, DEBT])?;
    let cut = [first.clone(), pulses(20_200_115, 0, 1112)];
    same("the same as 2,500 and 1,112", &balances(plan_a(), &cut, seen)?[1], &-28_000)?;

    let midnight = [first, pulses(20_200_131, 86_399, 1), pulses(20_200_201, 0, 1)];
    let wanted = [35_000_000, 35_000_000 - 31_500, 35_000_000 - 31_500 - 26_000];
    same("the ticket's midnight", &balances(plan_a(), &midnight, seen)?[..], &wanted)?;
    let mut pair = begun(plan_a(), seen)?;
    pair.call(&pulses(20_210_101, 0, 1), seen)?;
    same("20210101 second 0 is unpriced", &(pair.host.account.balance, pair.host.volumes.unpriced), &(left, 1))?;

    let mut widths = plan_a();
    widths[18..34].copy_from_slice(&[0, 0, 0, 5, 0, 1, 0, 0, 0, 0, 0, 0, 0, 2, 0, 0]);
    let seven = [pulses(20_200_115, 0, 7)];
    same("widths 5 and endless, 7 pulses", &balances(widths, &seven, seen)?[0], &(left - 90_000))?;
    runs_of_days(seen)?;
    refusals(seen)?;
    displays()
}

/// "30-day cycles from 20200110: 20200208 is in the first of them, 20200209 in the second."
fn runs_of_days(seen: &mut Seen) -> Result<(), Difference> {
    let mut plan = plan_a();
    plan[9..18].copy_from_slice(&[5, 0x20, 0x20, 0x01, 0x10, 0, 0, 0, 0x30]);
    let calls = [pulses(20_200_115, 0, 2500), pulses(20_200_208, 0, 1), pulses(20_200_209, 0, 1)];
    let wanted = [35_000_000, 35_000_000 - 31_500, 35_000_000 - 31_500 - 26_000];
    same("30-day cycles", &balances(plan, &calls, seen)?[..], &wanted)
}

fn refusals(seen: &mut Seen) -> Result<(), Difference> {
    let refusal = |call: Call| library::run(&mut library::fresh(), &call).refusal;
    let accepted = |call: Call| library::run(&mut library::fresh(), &call).accepted;
    same("29 February 2020", &accepted(pulses(20_200_229, 0, 1)), &1)?;
    same("29 February 2021 in a stamp", &refusal(pulses(20_210_229, 0, 1)), &8)?;
    let mut plan = plan_a();
    plan[4..8].copy_from_slice(&[0x20, 0x21, 0x02, 0x29]);
    same("29 February 2021 in a plan", &library::plan_read(&plan).refusal, &5)?;
    same("65,535 pulses", &accepted(pulses(20_200_115, 0, 65_535)), &1)?;
    same("65,536 pulses", &refusal(pulses(20_200_115, 0, 65_536)), &13)?;
    same("serial 2 first", &refusal(Call::Recharge { stamp: DAY, amount: 1, serial: 2 }), &18)?;
    let mut meter = begun(plan_a(), seen)?.host;
    let again = library::run(&mut meter, &Call::Recharge { stamp: DAY, amount: 1, serial: 1 });
    same("serial 1 twice", &again.refusal, &16)
}

/// "99 shows 0, -1 shows -1, -100 shows -1, -101 shows -2."
fn displays() -> Result<(), Difference> {
    for (balance, shown) in [(99, 0), (-1, -1), (-100, -1), (-101, -2)] {
        let mut meter = library::fresh();
        library::run(&mut meter, &pulses(20_200_115, 0, 1));
        meter.account.balance = balance;
        same(&format!("display of {balance}"), &library::display(&meter).shown, &shown)?;
    }
    Ok(())
}

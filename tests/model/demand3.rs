//! Demand 3 of the library alone: the ledger of a list, and a list with its pulse calls cut.

use crate::calendar::LAST_SECOND;
use crate::calls::Call;
use crate::compare::{same, Difference};
use crate::ledger::Ledger;
use crate::library::{self, Meter, Stamp};
use crate::random::Random;
use crate::seen::Seen;

/// Accepted recharges minus balance equals the ledger sum.
pub fn ledger(ledger: &Ledger, meter: &Meter, seen: &mut Seen) -> Result<(), Difference> {
    seen.situation("ledger compared");
    if ledger.holds(meter.account.balance) {
        return Ok(());
    }
    Err(format!("demand 3: balance {} does not match the ledger sum {}", meter.account.balance, ledger.sum()))
}

/// Runs a list from a fresh meter; the meter and the joined codes, or the number of the call that was refused.
fn run(list: &[Call]) -> Result<(Meter, Vec<u32>), usize> {
    let mut meter = library::fresh();
    let mut codes = vec![];
    for (i, call) in list.iter().enumerate() {
        let reply = library::run(&mut meter, call);
        if reply.accepted != 1 {
            return Err(i);
        }
        codes.extend(&reply.codes.list[..reply.codes.count]);
    }
    Ok((meter, codes))
}

/// A list without a refusal, and the same with its pulse calls cut: the same but for the clock's second.
pub fn cut(r: &mut Random, list: &[Call], seen: &mut Seen) -> Result<(), Difference> {
    let pieces = pieces(r, list);
    let refused = |i: usize, which: &str| format!("demand 3: call {i} of the {which} list was refused");
    let (one, codes_one) = run(list).map_err(|i| refused(i, "first"))?;
    let (mut two, codes_two) = run(&pieces).map_err(|i| refused(i, "cut"))?;
    same("demand 3: step after the cut list", &library::step(&two), &library::step(&one))?;
    two.clock.second = one.clock.second;
    seen.situation("list cut");
    same("demand 3: meter after the cut list (the second is the uncut one)", &two, &one)?;
    same("demand 3: codes of the cut list (the second is the uncut one)", &codes_two, &codes_one)
}

/// The second list: in place of each pulse call one or more of its date, no stamp going back.
fn pieces(r: &mut Random, list: &[Call]) -> Vec<Call> {
    let mut out: Vec<Call> = vec![];
    for (i, call) in list.iter().enumerate() {
        let &Call::Pulses { stamp, count } = call else {
            out.push(call.clone());
            continue;
        };
        let last = out.last().map(Call::stamp);
        let low = last.filter(|last| last.date == stamp.date).map_or(0, |last| last.second);
        let fixed = list[i..].iter().find(|call| !matches!(call, Call::Pulses { .. })).map(Call::stamp);
        let high = fixed.filter(|next| next.date == stamp.date).map_or(LAST_SECOND, |next| next.second);
        let n = r.pick(&[1, 2, 2, 3, 5, 9]);
        let mut seconds: Vec<u64> = (0..n).map(|_| low as u64 + r.upto((high - low) as u64)).collect();
        seconds.sort();
        let mut left = count as u64;
        for (k, second) in seconds.into_iter().enumerate() {
            let part = if k + 1 == n { left } else { r.upto(left.min(9)).max(r.upto(left)) };
            left -= part;
            let stamp = Stamp { date: stamp.date, second: second as u32 };
            out.push(Call::Pulses { stamp, count: part as u32 });
        }
    }
    out
}

//! One run for one seed: a list of calls, a host-made meter, a handful of plan records.

use crate::bounds::meter_of;
use crate::calendar::LAST;
use crate::compare::{same, Difference, Pair};
use crate::demand3;
use crate::edges::{break_plan, INSIDE, NOT_FRESH, OUTSIDE};
use crate::journals::{self, Habit, HABITS};
use crate::ledger::Ledger;
use crate::library;
use crate::situations;
use crate::meters;
use crate::queries;
use crate::random::Random;
use crate::seen::Seen;
use std::fmt;

/// Where the two differ, in plain words.
pub struct Failure {
    place: String,
    difference: Difference,
}

impl fmt::Display for Failure {
    fn fmt(&self, f: &mut fmt::Formatter) -> fmt::Result {
        write!(f, "{}\n{}", self.place, self.difference)
    }
}

fn at(place: impl Into<String>) -> impl FnOnce(Difference) -> Failure {
    let place = place.into();
    |difference| Failure { place, difference }
}

const ANY: &str = "any";
const FRESH: &str = "fresh, anything in records not held";

/// The situations that a whole run must meet.
pub fn situations() -> Vec<String> {
    let mut wanted = situations::wanted();
    wanted.extend([ANY, FRESH].map(|name| format!("good meter, {name}")));
    wanted.extend(HABITS.iter().map(|habit| format!("list, {}", habit.name)));
    wanted.extend(INSIDE.iter().map(|(name, _)| format!("good meter, {name}")));
    wanted.extend(OUTSIDE.iter().map(|(name, ..)| format!("broken meter, {name}")));
    wanted.extend((2..=7).map(|refusal| format!("broken meter, plan {refusal}")));
    wanted.extend(NOT_FRESH.iter().map(|(name, _)| format!("broken meter, no clock, {name}")));
    wanted
}

fn habit_of(seed: u64) -> &'static Habit {
    let kinds = [0, 0, 0, 0, 1, 1, 1, 2, 2, 3, 3, 4, 4, 4, 1, 0];
    match seed % 200 {
        0 => &HABITS[5],
        _ => &HABITS[kinds[(seed % 16) as usize]],
    }
}

/// A list from a fresh meter: each call on both, queries between, the ledger, and the list cut.
pub fn list(seed: u64, seen: &mut Seen) -> Result<(), Failure> {
    let mut r = Random::new(seed);
    let habit = habit_of(seed);
    seen.lists += 1;
    seen.situation(&format!("list, {}", habit.name));
    let mut pair = Pair::fresh();
    let mut ledger = Ledger::default();
    let mut list = vec![];
    for i in 0..r.between(habit.calls.0, habit.calls.1) {
        let call = journals::call(&mut r, pair.model.as_ref().expect("a grown meter"), habit);
        let place = || format!("call {i}: {call}");
        let accepted = pair.call(&call, seen).map_err(at(place()))?;
        ledger.feed(&call, accepted);
        if r.one_in(2) {
            queries::ask(&mut r, &pair, seen).map_err(at(format!("query after {}", place())))?;
        }
        if r.one_in(16) {
            grown(&pair).map_err(at(place()))?;
            demand3::ledger(&ledger, &pair.host, seen).map_err(at(place()))?;
        }
        if accepted {
            list.push(call);
        }
        // no plan can be in force on the calendar's last date
        if pair.host.clock.date == LAST.number() && r.one_in(8) {
            break;
        }
    }
    grown(&pair).map_err(at("after the list"))?;
    demand3::ledger(&ledger, &pair.host, seen).map_err(at("after the list"))?;
    demand3::cut(&mut r, &list, seen).map_err(at("the accepted calls again, cut"))
}

/// "A meter grown from a fresh one by calls never does" break its bounds.
fn grown(pair: &Pair) -> Result<(), Difference> {
    match meter_of(&pair.host) {
        Err(bound) => Err(format!("a grown meter breaks a bound: {bound}")),
        Ok(meter) => same("the library's meter, read by the bounds, and the model's", &Ok(meter), &pair.model),
    }
}

/// Host-made meters: a good one, one at each edge in turn, and broken ones.
pub fn meters(seed: u64, seen: &mut Seen) -> Result<(), Failure> {
    let r = &mut Random::new(seed ^ 0x4D45_5445);
    let base = meters::good(r);
    good(r, base, ANY, seen)?;
    let fresh = meters::fresh(r);
    good(r, fresh, FRESH, seen)?;
    let turn = seed as usize;
    let (name, change) = INSIDE[turn % INSIDE.len()];
    let mut inside = base;
    change(r, &mut inside);
    good(r, inside, name, seen)?;
    let (name, bound, change) = OUTSIDE[turn % OUTSIDE.len()];
    let mut outside = base;
    change(r, &mut outside);
    broken(r, &base, outside, name, bound, seen)?;
    let refusal = 2 + (seed % 6) as u8;
    let mut plan = base;
    break_plan(r, &mut plan, refusal);
    broken(r, &base, plan, &format!("plan {refusal}"), "loaded plan", seen)?;
    let (name, change) = NOT_FRESH[turn % NOT_FRESH.len()];
    let mut clockless = library::fresh();
    change(&mut clockless);
    let name = format!("no clock, {name}");
    broken(r, &base, clockless, &name, "without a clock it is the fresh one", seen)?;
    let mut stopped = base;
    stopped.clock = library::Stamp::default();
    broken(r, &base, stopped, "no clock, all else", "without a clock it is the fresh one", seen)
}

/// The model must hold it good, and then a short list on it must agree.
fn good(r: &mut Random, host: library::Meter, name: &str, seen: &mut Seen) -> Result<(), Failure> {
    let mut pair = Pair::of(host);
    let place = |what: &str| format!("good meter ({name}), {what}\nthe meter: {:?}", host.slots);
    if let Err(bound) = pair.model {
        return Err(at(place("before any call"))(format!("the test itself: the model says broken, {bound}")));
    }
    seen.situation(&format!("good meter, {name}"));
    queries::ask_all(r, &pair, seen).map_err(at(place("queries")))?;
    for i in 0..r.between(3, 25) {
        let call = journals::call(r, pair.model.as_ref().expect("a good meter"), &HABITS[0]);
        pair.call(&call, seen).map_err(at(place(&format!("call {i}: {call}"))))?;
        queries::ask(r, &pair, seen).map_err(at(place(&format!("query after call {i}: {call}"))))?;
    }
    grown(&pair).map_err(at(place("after the list")))
}

/// The model must name the bound; then every call and query answers 0.
fn broken(
    r: &mut Random,
    base: &library::Meter,
    host: library::Meter,
    name: &str,
    bound: &str,
    seen: &mut Seen,
) -> Result<(), Failure> {
    let mut pair = Pair::of(host);
    let place = |what: &str| format!("broken meter ({name}), {what}");
    if pair.model.as_ref().err() != Some(&bound) {
        return Err(at(place("before any call"))(format!("the test itself: the model says {:?}", pair.model)));
    }
    seen.situation(&format!("broken meter, {name}"));
    let before = meter_of(base).expect("a good meter");
    for call in journals::of_each(r, &before) {
        pair.call(&call, seen).map_err(at(place(&call.to_string())))?;
    }
    queries::ask_all(r, &pair, seen).map_err(at(place("queries")))
}

/// Plan records and sums, which need no meter.
pub fn records(seed: u64, seen: &mut Seen) -> Result<(), Failure> {
    let r = &mut Random::new(seed ^ 0x5245_434F);
    for _ in 0..20 {
        queries::read(r, seen).map_err(at("reading"))?;
        queries::write(r, seen).map_err(at("writing"))?;
        queries::in_force(r, seen).map_err(at("record in force"))?;
        queries::sum(r, seen).map_err(at("sum"))?;
    }
    Ok(())
}

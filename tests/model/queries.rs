//! Every query, asked of both; on a broken meter each answers 0.

use crate::calendar::Date;
use crate::calls::{hex, Operation};
use crate::compare::{count, same, Difference, Pair};
use crate::library;
use crate::model::{self, Meter, Record};
use crate::plan::{Plan, MOST, RECORD_BYTES};
use crate::random::Random;
use crate::plan_records;
use crate::seen::Seen;
use std::collections::VecDeque;

/// One of the queries on the pair's meter, at random.
pub fn ask(r: &mut Random, pair: &Pair, seen: &mut Seen) -> Result<(), Difference> {
    let before = pair.host;
    match r.below(5) {
        0 => step(pair, seen)?,
        1 => display(pair, seen)?,
        2 => day(r, pair, seen)?,
        3 => month(r, pair, seen)?,
        _ => heavy(r, pair, seen)?,
    }
    same("the meter after a query", &pair.host, &before)
}

/// All of them.
pub fn ask_all(r: &mut Random, pair: &Pair, seen: &mut Seen) -> Result<(), Difference> {
    step(pair, seen)?;
    display(pair, seen)?;
    day(r, pair, seen)?;
    month(r, pair, seen)?;
    heavy(r, pair, seen)
}

fn good(pair: &Pair) -> Result<&Meter, u8> {
    pair.model.as_ref().map_err(|_| 0)
}

fn step(pair: &Pair, seen: &mut Seen) -> Result<(), Difference> {
    let answer = good(pair).and_then(Meter::step);
    let mut wanted = library::StepReply::default();
    match answer {
        Ok((number, price)) => {
            wanted.accepted = 1;
            wanted.step = library::StepPrice { number: number as u8, price };
        }
        Err(refusal) => wanted.refusal = refusal,
    }
    count(seen, Operation::Step, answer.err());
    same("step", &library::step(&pair.host), &wanted)
}

fn display(pair: &Pair, seen: &mut Seen) -> Result<(), Difference> {
    let answer = good(pair).map(Meter::display);
    let wanted = match answer {
        Ok(shown) => library::DisplayReply { accepted: 1, refusal: 0, shown },
        Err(refusal) => library::DisplayReply { refusal, ..Default::default() },
    };
    count(seen, Operation::Display, answer.err());
    same("display", &library::display(&pair.host), &wanted)?;
    let balance = pair.host.account.balance;
    same("what is shown of the balance, whatever the meter", &library::shown(balance), &balance.div_euclid(100))
}

fn place(r: &mut Random, held: usize) -> usize {
    let inside = r.below(held as u64 + 1) as usize;
    r.pick(&[0, inside, inside, inside, held.saturating_sub(1), held, held + 1, 61, 62, 119, 120, 1 << 32, usize::MAX])
}

fn held_reply(place: usize, record: &Record) -> library::RecordReply {
    let held = library::Record {
        date: record.date,
        volume: record.period.volume as u32,
        charge: record.period.charge as u64,
        closing: record.closing,
    };
    library::RecordReply { accepted: 1, refusal: 0, place, held }
}

fn record_reply(records: Result<&VecDeque<Record>, u8>, k: usize) -> library::RecordReply {
    let answer = records.and_then(|records| records.get(k).ok_or(25));
    match answer {
        Ok(record) => held_reply(k, record),
        Err(refusal) => library::RecordReply { refusal, ..Default::default() },
    }
}

fn refusal_of(reply: &library::RecordReply) -> Option<u8> {
    (reply.accepted == 0).then_some(reply.refusal)
}

fn day(r: &mut Random, pair: &Pair, seen: &mut Seen) -> Result<(), Difference> {
    let records = good(pair).map(|meter| &meter.days);
    let k = place(r, records.map_or(0, VecDeque::len));
    let wanted = record_reply(records, k);
    count(seen, Operation::Day, refusal_of(&wanted));
    same(&format!("day record {k}"), &library::day(&pair.host, k), &wanted)
}

fn month(r: &mut Random, pair: &Pair, seen: &mut Seen) -> Result<(), Difference> {
    let records = good(pair).map(|meter| &meter.months);
    let k = place(r, records.map_or(0, VecDeque::len));
    let wanted = record_reply(records, k);
    count(seen, Operation::Month, refusal_of(&wanted));
    same(&format!("month record {k}"), &library::month(&pair.host, k), &wanted)
}

/// Loose: any held day that is heavy enough; 27 exactly if there is none.
fn heavy(r: &mut Random, pair: &Pair, seen: &mut Seen) -> Result<(), Difference> {
    let days = good(pair).map(|meter| &meter.days);
    let most = days.map_or(0, |days| days.iter().map(|day| day.period.volume).max().unwrap_or(0)) as u32;
    let volume = r.pick(&[0, 1, most, most, most.saturating_add(1), most / 2, u32::MAX]);
    let reply = library::heavy(&pair.host, volume);
    let enough = |day: &&Record| day.period.volume >= volume as u64;
    let wanted = match days {
        Err(refusal) => library::RecordReply { refusal, ..Default::default() },
        Ok(days) if days.iter().find(enough).is_none() => library::RecordReply { refusal: 27, ..Default::default() },
        Ok(days) => match days.get(reply.place).filter(enough) {
            Some(day) => held_reply(reply.place, day),
            None => return Err(format!("heavy day of {volume}: not held or too light\nlibrary: {reply:?}")),
        },
    };
    count(seen, Operation::Heavy, refusal_of(&wanted));
    same(&format!("heavy day of {volume}"), &reply, &wanted)
}

/// The sum over a host's list, which need not be records of any meter.
pub fn sum(r: &mut Random, seen: &mut Seen) -> Result<(), Difference> {
    let length = r.pick(&[0, 1, 2, 30, 61, 62, 62, 63, 64, 200]);
    let mut days = vec![library::Record::default(); length];
    for day in &mut days {
        let volume = r.upto(MOST) as u32;
        *day = library::Record { date: r.next() as u32, volume, charge: r.next(), closing: r.next() as i64 };
    }
    if length > 0 && r.one_in(3) {
        let any = r.below(length as u64) as usize;
        let at = r.pick(&[0, length - 1, any]);
        days[at].volume = r.pick(&[MOST as u32 + 1, u32::MAX, 1 << 31]);
    }
    let before = days.clone();
    let volumes: Vec<u32> = days.iter().map(|day| day.volume).collect();
    let answer = model::sum(&volumes);
    let wanted = match answer {
        Ok(volume) => library::SumReply { accepted: 1, refusal: 0, volume },
        Err(refusal) => library::SumReply { refusal, ..Default::default() },
    };
    count(seen, Operation::Sum, answer.err());
    same(&format!("sum over {length} records with volumes {volumes:?}"), &library::sum(&days), &wanted)?;
    same("the lent records after a sum", &days, &before)
}

fn any_record(r: &mut Random, near: Date) -> Vec<u8> {
    let plan = plan_records::plan(r, near, plan_records::ANY_SPAN, None);
    let mut bytes = plan_records::record(r, &plan);
    if r.one_in(3) {
        plan_records::damage(r, &mut bytes);
    }
    bytes
}

/// Reads a record; a good one, written again, gives the same bytes in every field that is read.
pub fn read(r: &mut Random, seen: &mut Seen) -> Result<(), Difference> {
    let near = Date::at(r.below(36_000) as i64);
    let bytes = any_record(r, near);
    let before = bytes.clone();
    let answer = Plan::read(&bytes);
    let wanted = match answer {
        Ok(plan) => library::PlanReply { accepted: 1, refusal: 0, plan: plan.to_host() },
        Err(refusal) => library::PlanReply { refusal, ..Default::default() },
    };
    count(seen, Operation::Read, answer.err());
    let reply = library::plan_read(&bytes);
    same(&format!("reading {}", hex(&bytes)), &reply, &wanted)?;
    same("the lent record after reading", &bytes, &before)?;
    match answer {
        Ok(plan) => round(reply, &plan, &bytes),
        Err(_) => Ok(()),
    }
}

/// Demand 2's two ways round, in the library alone: read and written, then read again.
fn round(reply: library::PlanReply, plan: &Plan, bytes: &[u8]) -> Result<(), Difference> {
    let mut out = vec![0xEE; RECORD_BYTES];
    library::plan_write(&reply.plan, &mut out);
    same("a plan read, written and read again", &library::plan_read(&out), &reply)?;
    let mut wanted = bytes.to_vec();
    plan_records::unread(plan).into_iter().for_each(|place| wanted[place] = 0);
    same("a record read and written", &hex(&out), &hex(&wanted))
}

/// Writes a plan into a buffer that lies between guard bytes.
pub fn write(r: &mut Random, seen: &mut Seen) -> Result<(), Difference> {
    let near = Date::at(r.below(36_000) as i64);
    let plan = plan_records::plan(r, near, plan_records::ANY_SPAN, None);
    let mut host = plan_records::host_plan(r, &plan);
    if r.one_in(2) {
        plan_records::damage_host(r, &mut host);
    }
    let length = if r.one_in(5) { r.pick(&[0, 1, 65, 67, 132, 322]) } else { RECORD_BYTES };
    let before: Vec<u8> = (0..length + 32).map(|_| r.next() as u8).collect();
    let answer = if length != RECORD_BYTES { Err(26) } else { Plan::of_host(&host) };
    let mut after = before.clone();
    let reply = library::plan_write(&host, &mut after[16..16 + length]);
    let mut wanted = before.clone();
    let mut acceptance = library::Acceptance { accepted: 1, refusal: 0 };
    match answer {
        Ok(plan) => wanted[16..16 + length].copy_from_slice(&plan.write()),
        Err(refusal) => acceptance = library::Acceptance { accepted: 0, refusal },
    }
    count(seen, Operation::Write, answer.err());
    same(&format!("writing {host:?} into {length} bytes"), &reply, &acceptance)?;
    same(&format!("bytes after writing {host:?} into {length} bytes"), &hex(&after), &hex(&wanted))
}

/// Which of two records is in force on a date, good or bad.
pub fn in_force(r: &mut Random, seen: &mut Seen) -> Result<(), Difference> {
    let near = Date::at(r.below(36_000) as i64);
    let mut first = any_record(r, near);
    let mut second = any_record(r, near);
    if let (Ok(plan), true) = (Plan::read(&first), r.one_in(3)) {
        let next = plan_records::plan(r, near, plan_records::ANY_SPAN, Some(plan));
        second = plan_records::record(r, &next);
    }
    if r.one_in(2) {
        std::mem::swap(&mut first, &mut second);
    }
    let mut dates = vec![near.number(), near.number(), near.plus(1).number(), near.plus(-1).number()];
    for plan in [&first, &second].into_iter().filter_map(|bytes| Plan::read(bytes).ok()) {
        dates.extend(plan.edges().iter().flat_map(|edge| [edge.number(), edge.plus(-1).number()]));
    }
    let date = if r.one_in(12) { r.pick(&plan_records::NO_DATES) } else { r.pick(&dates) };
    let before = (first.clone(), second.clone());
    let answer = model::record_in_force(&first, &second, date);
    let wanted = match answer {
        Ok(which) => library::PartReply { accepted: 1, refusal: 0, which },
        Err((refusal, _)) => library::PartReply { refusal, ..Default::default() },
    };
    let own = if matches!(answer, Err((_, true))) { Operation::InForceSecond } else { Operation::InForceFirst };
    count(seen, own, answer.err().map(|(refusal, _)| refusal));
    let what = format!("record in force on {date} of {} and {}", hex(&first), hex(&second));
    same(&what, &library::record_in_force(&first, &second, date), &wanted)?;
    same("the lent records after asking which is in force", &(first, second), &before)
}

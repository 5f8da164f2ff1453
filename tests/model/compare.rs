//! One meter twice: in the library and in the model. After each call both must give the same answer and state.

use crate::bounds::{meter_of, Broken};
use crate::calls::{Call, Operation};
use crate::library;
use crate::situations;
use crate::model::{Meter, Record};
use crate::seen::Seen;

/// A difference, in plain words.
pub type Difference = String;

pub struct Pair {
    pub host: library::Meter,
    /// Broken where the host's meter is outside its bounds: each answer is then refusal 0.
    pub model: Result<Meter, Broken>,
}

pub fn words(answer: &Result<Vec<u32>, u8>) -> String {
    match answer {
        Err(refusal) => format!("refused {refusal}"),
        Ok(codes) if codes.is_empty() => "accepted without codes".to_string(),
        Ok(codes) => {
            let codes: Vec<String> = codes.iter().map(|code| format!("{code:X}")).collect();
            format!("accepted with codes {}", codes.join(" "))
        }
    }
}

/// The reply that the header asks for: what is not said is 0.
fn codes_reply(answer: &Result<Vec<u32>, u8>) -> library::CodesReply {
    let mut reply = library::CodesReply::default();
    match answer {
        Err(refusal) => reply.refusal = *refusal,
        Ok(codes) => {
            reply.accepted = 1;
            reply.codes.count = codes.len();
            reply.codes.list[..codes.len()].copy_from_slice(codes);
        }
    }
    reply
}

fn reply_words(reply: &library::CodesReply) -> String {
    let said = &reply.codes.list[..reply.codes.count.min(library::CODES)];
    let answer = if reply.accepted == 1 { Ok(said.to_vec()) } else { Err(reply.refusal) };
    format!("{} ({reply:?})", words(&answer))
}

impl Pair {
    pub fn fresh() -> Pair {
        Pair::of(library::fresh())
    }

    pub fn of(host: library::Meter) -> Pair {
        Pair { host, model: meter_of(&host) }
    }

    /// Whether the call was accepted, or how the two differ.
    pub fn call(&mut self, call: &Call, seen: &mut Seen) -> Result<bool, Difference> {
        let before = self.host;
        let lent = call.clone();
        let scene = self.model.as_ref().ok().map(situations::Scene::of);
        let reply = library::run(&mut self.host, call);
        let answer = match &mut self.model {
            Ok(model) => model.call(call),
            Err(_) => Err(0),
        };
        seen.calls += 1;
        if reply != codes_reply(&answer) {
            return Err(format!("library: {}\nmodel: {}", reply_words(&reply), words(&answer)));
        }
        if lent != *call {
            return Err("the lent record was changed".to_string());
        }
        let operation = call.operation();
        let Ok(codes) = &answer else {
            seen.refuse(operation, reply.refusal);
            situations::refused(call, reply.refusal, seen);
            return unchanged(&before, &self.host).map(|()| false);
        };
        seen.accept(operation);
        codes.iter().for_each(|&code| seen.code(code));
        let model = self.model.as_ref().expect("an accepted call");
        situations::accepted(&scene.expect("an accepted call"), model, call, codes, seen);
        match difference(model, &self.host) {
            Some(difference) => Err(format!("both: {}\n{difference}", words(&answer))),
            None => {
                rest_stands(&before.records, &self.host.records)?;
                loaded_exactly(call, model, &self.host).map(|()| true)
            }
        }
    }
}

/// "A refusal changes nothing": every field, those of records not held too.
pub fn unchanged(before: &library::Meter, after: &library::Meter) -> Result<(), Difference> {
    if before == after {
        return Ok(());
    }
    let (old, new) = (&before.records, &after.records);
    let refused = "refused, but the library changed the meter:";
    same(&format!("{refused} clock"), &after.clock, &before.clock)?;
    same(&format!("{refused} account"), &after.account, &before.account)?;
    same(&format!("{refused} slots"), &after.slots, &before.slots)?;
    same(&format!("{refused} volumes"), &after.volumes, &before.volumes)?;
    same(&format!("{refused} valve"), &after.valve, &before.valve)?;
    same(&format!("{refused} open day and month"), &(new.day, new.month), &(old.day, old.month))?;
    same(&format!("{refused} days held"), &new.days.count, &old.days.count)?;
    same(&format!("{refused} months held"), &new.months.count, &old.months.count)?;
    let days = new.days.held.iter().zip(&old.days.held).map(|pair| ("day", pair));
    let months = new.months.held.iter().zip(&old.months.held).map(|pair| ("month", pair));
    days.chain(months).try_for_each(|(what, (new, old))| same(&format!("{refused} a {what} record"), new, old))
}

/// A new record moves those that are held and no more: records behind the held ones stand as they were.
fn rest_stands(old: &library::Records, new: &library::Records) -> Result<(), Difference> {
    let days = new.days.held.iter().zip(&old.days.held).skip(new.days.count).map(|pair| ("day", pair));
    let months = new.months.held.iter().zip(&old.months.held).skip(new.months.count).map(|pair| ("month", pair));
    days.chain(months).try_for_each(|(what, (new, old))| same(&format!("a {what} record that is not held"), new, old))
}

/// The reader sets what is not read to zero.
fn loaded_exactly(call: &Call, model: &Meter, host: &library::Meter) -> Result<(), Difference> {
    let &Call::Load { slot, .. } = call else {
        return Ok(());
    };
    let held = if slot == 1 { &host.slots.slot_1 } else { &host.slots.slot_2 };
    let wanted = model.slots[slot as usize - 1].expect("a loaded slot").to_host();
    if held.loaded == 1 && held.plan == wanted {
        return Ok(());
    }
    Err(format!("loaded plan\nlibrary: {held:?}\nmodel: {wanted:?}"))
}

fn record_of(record: &Record) -> library::Record {
    library::Record {
        date: record.date,
        volume: record.period.volume as u32,
        charge: record.period.charge as u64,
        closing: record.closing,
    }
}

/// The first field in which the library's meter is not the model's; records beyond the count are not looked at.
pub fn difference(model: &Meter, host: &library::Meter) -> Option<Difference> {
    let (date, second) = model.clock.map_or((0, 0), |clock| (clock.date.number(), clock.second));
    let records = &host.records;
    let fields: [(&str, i128, i128); 19] = [
        ("clock's date", date as i128, host.clock.date as i128),
        ("clock's second", second as i128, host.clock.second as i128),
        ("balance", model.balance as i128, host.account.balance as i128),
        ("last serial", model.serial as i128, host.account.serial as i128),
        ("alarm 1", model.alarms.0 as i128, host.account.alarm_1 as i128),
        ("alarm 2", model.alarms.1 as i128, host.account.alarm_2 as i128),
        ("slot 1 loaded", model.slots[0].is_some() as i128, host.slots.slot_1.loaded as i128),
        ("slot 2 loaded", model.slots[1].is_some() as i128, host.slots.slot_2.loaded as i128),
        ("usage", model.usage as i128, host.slots.usage as i128),
        ("total volume", model.total as i128, host.volumes.total as i128),
        ("unpriced volume", model.unpriced as i128, host.volumes.unpriced as i128),
        ("station's mark", model.allow as i128, host.valve.allow as i128),
        ("valve", model.open as i128, host.valve.open as i128),
        ("open day's volume", model.day.volume as i128, records.day.volume as i128),
        ("open day's charge", model.day.charge as i128, records.day.charge as i128),
        ("open month's volume", model.month.volume as i128, records.month.volume as i128),
        ("open month's charge", model.month.charge as i128, records.month.charge as i128),
        ("day records held", model.days.len() as i128, records.days.count as i128),
        ("month records held", model.months.len() as i128, records.months.count as i128),
    ];
    for (name, model, library) in fields {
        if model != library {
            return Some(format!("{name}: library {library}, model {model}"));
        }
    }
    plans_differ(model, host)
        .or_else(|| records_differ("day", model.days.iter(), &records.days.held))
        .or_else(|| records_differ("month", model.months.iter(), &records.months.held))
}

/// Plans are the same where their read fields are.
fn plans_differ(model: &Meter, host: &library::Meter) -> Option<Difference> {
    for (plan, slot) in model.slots.iter().zip([&host.slots.slot_1, &host.slots.slot_2]) {
        let Some(plan) = plan else { continue };
        if crate::plan::Plan::of_host(&slot.plan) != Ok(*plan) {
            return Some(format!("plan\nlibrary: {:?}\nmodel: {plan:?}", slot.plan));
        }
    }
    None
}

fn records_differ<'a>(
    what: &str,
    model: impl Iterator<Item = &'a Record>,
    held: &[library::Record],
) -> Option<Difference> {
    for (k, (wanted, found)) in model.map(record_of).zip(held).enumerate() {
        if wanted != *found {
            return Some(format!("{what} record {k}\nlibrary: {found:?}\nmodel: {wanted:?}"));
        }
    }
    None
}

/// Both answers of a query, compared; `what` words the question.
pub fn same<T: PartialEq + std::fmt::Debug + ?Sized>(what: &str, library: &T, model: &T) -> Result<(), Difference> {
    if library == model {
        return Ok(());
    }
    Err(format!("{what}\nlibrary: {library:?}\nmodel: {model:?}"))
}

/// Counts a query's answer.
pub fn count(seen: &mut Seen, operation: Operation, refusal: Option<u8>) {
    seen.queries += 1;
    match refusal {
        Some(refusal) => seen.refuse(operation, refusal),
        None => seen.accept(operation),
    }
}

//! "Bounds of a meter": a host's struct is the model's meter, or breaks a bound and says which.

use crate::calendar::Stamp;
use crate::library::{self, DAYS, MONTHS};
use crate::model::{alarms_good, Meter, Record, OpenPeriod, MOST_SERIAL, TOP_BALANCE};
use crate::plan::{Plan, MOST};

pub type Broken = &'static str;

fn must(holds: bool, bound: Broken) -> Result<(), Broken> {
    if holds {
        Ok(())
    } else {
        Err(bound)
    }
}

pub fn meter_of(host: &library::Meter) -> Result<Meter, Broken> {
    if host.clock.date == 0 {
        must(is_fresh(host), "without a clock it is the fresh one")?;
        return Ok(Meter::fresh());
    }
    let clock = Stamp::of(host.clock.date, host.clock.second).ok_or("clock")?;
    let account = &host.account;
    must(account.serial <= MOST_SERIAL, "last serial")?;
    must(alarms_good(account.alarm_1, account.alarm_2), "alarms")?;
    let slots = [slot_of(&host.slots.slot_1)?, slot_of(&host.slots.slot_2)?];
    if let [Some(one), Some(two)] = slots {
        must(!one.both_in_force(&two, clock.date), "both plans in force from the clock's date on")?;
    }
    let total = host.volumes.total as u64;
    must(total <= MOST, "total")?;
    let limits = Limits { total };
    limits.volume(host.volumes.unpriced, "unpriced volume")?;
    limits.volume(host.slots.usage, "usage")?;
    limits.balance(account.balance, "balance")?;
    let records = &host.records;
    let meter = Meter {
        clock: Some(clock),
        balance: account.balance,
        total,
        unpriced: host.volumes.unpriced as u64,
        serial: account.serial,
        alarms: (account.alarm_1, account.alarm_2),
        slots,
        usage: host.slots.usage as u64,
        allow: host.valve.allow == 1,
        open: host.valve.open == 1,
        day: limits.period(&records.day, "open day's volume", "open day's charge")?,
        month: limits.period(&records.month, "open month's volume", "open month's charge")?,
        days: limits.records(records.days.count, &records.days.held, DAYS, "day records")?.into(),
        months: limits.records(records.months.count, &records.months.held, MONTHS, "month records")?.into(),
    };
    let without_plan = meter.slot_on(clock.date).is_none();
    must(!without_plan || meter.usage == 0, "usage 0 with no plan in force")?;
    must(!without_plan || !meter.open, "valve closed with no plan in force")?;
    Ok(meter)
}

/// Records that are not held, and the plan of a slot that is not loaded, are no part of the state.
fn is_fresh(host: &library::Meter) -> bool {
    let nothing = library::OpenPeriod::default();
    host.clock == library::Stamp::default()
        && host.account == library::Account { balance: 0, serial: 0, alarm_1: 20, alarm_2: 5 }
        && host.slots.slot_1.loaded == 0
        && host.slots.slot_2.loaded == 0
        && host.slots.usage == 0
        && host.volumes == library::Volumes::default()
        && host.valve == library::Valve { allow: 1, open: 0 }
        && host.records.day == nothing
        && host.records.month == nothing
        && host.records.days.count == 0
        && host.records.months.count == 0
}

fn slot_of(slot: &library::Slot) -> Result<Option<Plan>, Broken> {
    if slot.loaded == 0 {
        return Ok(None);
    }
    Plan::of_host(&slot.plan).map(Some).map_err(|_| "loaded plan")
}

/// What the total allows: every other volume at most it, every charge at most it times 99,999,999.
struct Limits {
    total: u64,
}

impl Limits {
    fn money(&self) -> i64 {
        (self.total * MOST) as i64
    }

    fn volume(&self, volume: u32, what: Broken) -> Result<(), Broken> {
        must(volume as u64 <= self.total, what)
    }

    fn balance(&self, balance: i64, what: Broken) -> Result<(), Broken> {
        must(-self.money() <= balance && balance <= TOP_BALANCE, what)
    }

    fn period(&self, period: &library::OpenPeriod, volume: Broken, charge: Broken) -> Result<OpenPeriod, Broken> {
        self.volume(period.volume, volume)?;
        must(period.charge <= self.money() as u64, charge)?;
        Ok(OpenPeriod { volume: period.volume as u64, charge: period.charge as i64 })
    }

    fn records(
        &self,
        count: usize,
        held: &[library::Record],
        most: usize,
        what: Broken,
    ) -> Result<Vec<Record>, Broken> {
        must(count <= most, what)?;
        let mut records = vec![];
        for record in &held[..count] {
            let period = library::OpenPeriod { volume: record.volume, charge: record.charge };
            let period = self.period(&period, "record's volume", "record's charge")?;
            self.balance(record.closing, "record's closing balance")?;
            records.push(Record { date: record.date, period, closing: record.closing });
        }
        Ok(records)
    }
}

//! How often each answer was met, and which must be met.

use crate::calls::Operation;
use crate::model;
use std::collections::BTreeMap;

/// Every operation with every number that document 01 gives it.
const REFUSALS: [(Operation, &str, &[u8]); 17] = [
    (Operation::Pulses, "pulses", &[0, 8, 9, 13, 14]),
    (Operation::Recharge, "recharge", &[0, 8, 9, 15, 16, 17, 18, 19, 20]),
    (Operation::Load, "load", &[0, 8, 9, 10, 1, 2, 3, 4, 5, 6, 7, 11, 12]),
    (Operation::Alarms, "alarms", &[0, 8, 9, 23]),
    (Operation::Command, "command", &[0, 8, 9, 21]),
    (Operation::Key, "key", &[0, 8, 9, 22]),
    (Operation::Tick, "tick", &[0, 8, 9]),
    (Operation::Step, "step", &[0, 24]),
    (Operation::Display, "display", &[0]),
    (Operation::Day, "day k", &[0, 25]),
    (Operation::Month, "month k", &[0, 25]),
    (Operation::Heavy, "heavy day", &[0, 27]),
    (Operation::Sum, "sum", &[25]),
    (Operation::Read, "read", &[1, 2, 3, 4, 5, 6, 7]),
    (Operation::Write, "write", &[26, 2, 3, 4, 5, 6, 7]),
    (Operation::InForceFirst, "record in force", &[8, 1, 2, 3, 4, 5, 6, 7, 24, 12]),
    (Operation::InForceSecond, "  its second record", &[1, 2, 3, 4, 5, 6, 7]),
];

const CODES: [u32; 10] = [
    model::EXPIRED,
    model::OPENED,
    model::CLOSED,
    model::RECHARGED,
    model::SETTINGS,
    model::COMMAND,
    model::ALARM_1,
    model::ALARM_2,
    model::ZERO,
    model::DEBT,
];

#[derive(Default)]
pub struct Seen {
    pub lists: u64,
    pub calls: u64,
    pub queries: u64,
    accepted: [u64; 17],
    refused: [[u64; 28]; 17],
    codes: BTreeMap<u32, u64>,
    situations: BTreeMap<String, u64>,
}

impl Seen {
    pub fn accept(&mut self, operation: Operation) {
        self.accepted[operation as usize] += 1;
    }

    pub fn refuse(&mut self, operation: Operation, refusal: u8) {
        self.refused[operation as usize][refusal as usize] += 1;
    }

    pub fn code(&mut self, code: u32) {
        *self.codes.entry(code).or_default() += 1;
    }

    /// A situation worth a count; those in `runs::situations` must be met.
    pub fn situation(&mut self, name: &str) {
        match self.situations.get_mut(name) {
            Some(count) => *count += 1,
            None => drop(self.situations.insert(name.to_string(), 1)),
        }
    }

    /// What should have been met and was not.
    pub fn missing(&self, situations: &[String]) -> Vec<String> {
        let mut missing = vec![];
        for (operation, name, refusals) in REFUSALS {
            if self.accepted[operation as usize] == 0 && operation != Operation::InForceSecond {
                missing.push(format!("{name} accepted"));
            }
            for &refusal in refusals {
                if self.refused[operation as usize][refusal as usize] == 0 {
                    missing.push(format!("{name} refused {refusal}"));
                }
            }
        }
        let unsaid = CODES.iter().filter(|code| !self.codes.contains_key(code));
        missing.extend(unsaid.map(|code| format!("code {code:X}")));
        let unmet = situations.iter().filter(|situation| !self.situations.contains_key(*situation));
        missing.extend(unmet.cloned());
        missing
    }

    pub fn print(&self) {
        println!("lists {}, calls {}, queries {}", self.lists, self.calls, self.queries);
        println!("operation: accepted; refusal number and how often");
        for (operation, name, refusals) in REFUSALS {
            let row = &self.refused[operation as usize];
            let each: Vec<String> = refusals.iter().map(|&n| format!("{n}: {}", row[n as usize])).collect();
            println!("  {name}: {}; {}", self.accepted[operation as usize], each.join(", "));
        }
        let codes: Vec<String> = self.codes.iter().map(|(code, count)| format!("{code:X}: {count}")).collect();
        println!("codes: {}", codes.join(", "));
        let rarest = self.situations.iter().min_by_key(|(_, &count)| count);
        if let Some((name, count)) = rarest {
            println!("situations met: {}, the rarest {count} times ({name})", self.situations.len());
        }
    }

    /// Each situation with its count.
    pub fn print_situations(&self) {
        for (name, count) in &self.situations {
            println!("  {name}: {count}");
        }
    }
}

//! The seven calls with any arguments, and how a difference report words them.

use crate::library::Stamp;
use std::fmt;

#[derive(Clone, Debug, PartialEq)]
pub enum Call {
    Pulses { stamp: Stamp, count: u32 },
    Recharge { stamp: Stamp, amount: u64, serial: u32 },
    Load { stamp: Stamp, slot: u32, bytes: Vec<u8> },
    Alarms { stamp: Stamp, alarm_1: u32, alarm_2: u32 },
    Command { stamp: Stamp, code: u32 },
    Key { stamp: Stamp },
    Tick { stamp: Stamp },
}

/// The operations open to a host that can refuse.
#[derive(Clone, Copy, PartialEq, Eq, Debug)]
pub enum Operation {
    Pulses,
    Recharge,
    Load,
    Alarms,
    Command,
    Key,
    Tick,
    Step,
    Display,
    Day,
    Month,
    Heavy,
    Sum,
    Read,
    Write,
    InForceFirst,
    InForceSecond,
}

impl Call {
    pub fn stamp(&self) -> Stamp {
        match *self {
            Call::Pulses { stamp, .. }
            | Call::Recharge { stamp, .. }
            | Call::Load { stamp, .. }
            | Call::Alarms { stamp, .. }
            | Call::Command { stamp, .. }
            | Call::Key { stamp }
            | Call::Tick { stamp } => stamp,
        }
    }

    pub fn operation(&self) -> Operation {
        match self {
            Call::Pulses { .. } => Operation::Pulses,
            Call::Recharge { .. } => Operation::Recharge,
            Call::Load { .. } => Operation::Load,
            Call::Alarms { .. } => Operation::Alarms,
            Call::Command { .. } => Operation::Command,
            Call::Key { .. } => Operation::Key,
            Call::Tick { .. } => Operation::Tick,
        }
    }
}

pub fn hex(bytes: &[u8]) -> String {
    bytes.iter().map(|b| format!("{b:02x}")).collect()
}

impl fmt::Display for Call {
    fn fmt(&self, f: &mut fmt::Formatter) -> fmt::Result {
        match self {
            Call::Pulses { count, .. } => write!(f, "pulse call of {count}")?,
            Call::Recharge { amount, serial, .. } => write!(f, "recharge of {amount} with serial {serial}")?,
            Call::Load { slot, bytes, .. } => {
                write!(f, "load into slot {slot} of {} bytes {}", bytes.len(), hex(bytes))?
            }
            Call::Alarms { alarm_1, alarm_2, .. } => write!(f, "alarms {alarm_1} and {alarm_2}")?,
            Call::Command { code, .. } => write!(f, "command {code}")?,
            Call::Key { .. } => write!(f, "key")?,
            Call::Tick { .. } => write!(f, "tick")?,
        }
        write!(f, ", stamp {} second {}", self.stamp().date, self.stamp().second)
    }
}

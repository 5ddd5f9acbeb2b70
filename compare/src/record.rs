//! The controller's record, the ranges of its fields and its validity.

use crate::alarms;
use crate::parameters::{value_in_range, PARAMETERS, VALUE_RANGES};

#[derive(Clone, Copy, PartialEq, Eq, PartialOrd, Ord, Debug)]
pub enum Phase {
    Idle,
    Set,
    Running,
    Stopped,
    Done,
}

impl Phase {
    /// In the order of the stored form.
    pub const ALL: [Phase; 5] = [
        Phase::Idle,
        Phase::Set,
        Phase::Running,
        Phase::Stopped,
        Phase::Done,
    ];
}

#[derive(Clone, Copy, PartialEq, Eq, PartialOrd, Ord, Debug)]
pub struct Parameter {
    pub value: u32,
    pub level: u8,
}

#[derive(Clone, Copy, PartialEq, Eq, PartialOrd, Ord, Debug)]
pub struct Record {
    pub address: u8,
    pub access: u8,
    pub phase: Phase,
    pub keypad: bool,
    pub flow: bool,
    pub changed: bool,
    pub batch_reset: bool,
    pub power_fail: bool,
    pub recipe: u8,
    pub preset: u32,
    pub raw: u32,
    pub number: u16,
    /// Those that are on.
    pub alarms: u32,
    /// In rising code.
    pub parameters: [Parameter; PARAMETERS],
}

pub const HIGHEST_ADDRESS: u8 = 99;
pub const HIGHEST_LEVEL: u8 = 3;
pub const RECIPES: u8 = 8;
pub const HIGHEST_PRESET: u32 = 999_999;
pub const HIGHEST_RAW: u32 = 99_999_999;
pub const HIGHEST_NUMBER: u16 = 9_999;

impl Record {
    /// Every field at its low end, Idle, flags and alarms off.
    pub fn low() -> Record {
        Record {
            address: 1,
            access: 0,
            phase: Phase::Idle,
            keypad: false,
            flow: false,
            changed: false,
            batch_reset: false,
            power_fail: false,
            recipe: 1,
            preset: 0,
            raw: 0,
            number: 1,
            alarms: 0,
            parameters: VALUE_RANGES.map(|(low, _)| Parameter {
                value: low,
                level: 0,
            }),
        }
    }

    pub fn is_valid(&self) -> bool {
        (1..=HIGHEST_ADDRESS).contains(&self.address)
            && self.access <= HIGHEST_LEVEL
            && (1..=RECIPES).contains(&self.recipe)
            && self.preset <= HIGHEST_PRESET
            && self.raw <= HIGHEST_RAW
            && (1..=HIGHEST_NUMBER).contains(&self.number)
            && self.alarms <= alarms::ALL
            && self
                .parameters
                .iter()
                .enumerate()
                .all(|(place, parameter)| {
                    value_in_range(place, parameter.value) && parameter.level <= HIGHEST_LEVEL
                })
    }
}

#[cfg(test)]
mod tests {
    use super::*;

    #[test]
    fn low_record_is_valid() {
        assert!(Record::low().is_valid());
        assert!(!Record {
            recipe: 9,
            ..Record::low()
        }
        .is_valid());
        assert!(!Record {
            alarms: alarms::ALL + 1,
            ..Record::low()
        }
        .is_valid());
    }
}

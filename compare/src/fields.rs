//! The fields of a record by the numbers that the library's header gives them, and what a set of a field
//! means there.

use crate::alarms;
use crate::fault::Fault;
use crate::parameters::{PARAMETERS, VALUE_RANGES};
use crate::record::{
    Phase, Record, HIGHEST_ADDRESS, HIGHEST_LEVEL, HIGHEST_NUMBER, HIGHEST_PRESET, HIGHEST_RAW,
    RECIPES,
};
use std::ops::Range;

pub const ADDRESS: usize = 0;
pub const ACCESS: usize = 1;
pub const PHASE: usize = 2;
pub const KEYPAD: usize = 3;
pub const FLOW: usize = 4;
pub const CHANGED: usize = 5;
pub const BATCH_RESET: usize = 6;
pub const POWER_FAIL: usize = 7;
pub const RECIPE: usize = 8;
pub const PRESET: usize = 9;
pub const RAW: usize = 10;
pub const NUMBER: usize = 11;
pub const ALARMS: usize = 12;
const FIRST_PARAMETER: usize = 13;
pub const FIELDS: usize = FIRST_PARAMETER + 2 * PARAMETERS;

/// Phase, flags and recipe.
pub const STATE: Range<usize> = PHASE..RECIPE + 1;

pub const fn value(place: usize) -> usize {
    FIRST_PARAMETER + 2 * place
}

pub const fn level(place: usize) -> usize {
    FIRST_PARAMETER + 2 * place + 1
}

/// The place of the parameter whose value a field is.
pub fn value_place(field: usize) -> Option<usize> {
    let behind = field.checked_sub(FIRST_PARAMETER)?;
    (field < FIELDS && behind % 2 == 0).then_some(behind / 2)
}

/// The place of the parameter whose level a field is.
pub fn level_place(field: usize) -> Option<usize> {
    value_place(field.checked_sub(1)?)
}

/// One thing for each field.
pub type Of<Thing> = [Thing; FIELDS];

pub fn each<Thing>(of: impl FnMut(usize) -> Thing) -> Of<Thing> {
    std::array::from_fn(of)
}

/// How the set of a field is written.
#[derive(Clone, Copy, PartialEq, Eq, Debug)]
pub enum Sort {
    /// One bit for each number.
    Few,
    /// The number, or any.
    Wide,
    Alarms,
}

pub fn sort(field: usize) -> Sort {
    match field {
        ALARMS => Sort::Alarms,
        PHASE..=RECIPE => Sort::Few,
        _ if level_place(field).is_some() => Sort::Few,
        _ => Sort::Wide,
    }
}

/// The lowest and the highest number of a field.
pub fn range(field: usize) -> (u32, u32) {
    match field {
        ADDRESS => (1, u32::from(HIGHEST_ADDRESS)),
        ACCESS => (0, u32::from(HIGHEST_LEVEL)),
        PHASE => (0, Phase::Done as u32),
        KEYPAD..=POWER_FAIL => (0, 1),
        RECIPE => (1, u32::from(RECIPES)),
        PRESET => (0, HIGHEST_PRESET),
        RAW => (0, HIGHEST_RAW),
        NUMBER => (1, u32::from(HIGHEST_NUMBER)),
        ALARMS => (0, alarms::ALL),
        _ => match value_place(field) {
            Some(place) => VALUE_RANGES[place],
            None => (0, u32::from(HIGHEST_LEVEL)),
        },
    }
}

/// The number that a record has in a field.
pub fn number(record: &Record, field: usize) -> u32 {
    match field {
        ADDRESS => record.address.into(),
        ACCESS => record.access.into(),
        PHASE => record.phase as u32,
        KEYPAD => record.keypad.into(),
        FLOW => record.flow.into(),
        CHANGED => record.changed.into(),
        BATCH_RESET => record.batch_reset.into(),
        POWER_FAIL => record.power_fail.into(),
        RECIPE => record.recipe.into(),
        PRESET => record.preset,
        RAW => record.raw,
        NUMBER => record.number.into(),
        ALARMS => record.alarms,
        _ => match (value_place(field), level_place(field)) {
            (Some(place), _) => record.parameters[place].value,
            (_, Some(place)) => record.parameters[place].level.into(),
            _ => panic!("there is no field {field}"),
        },
    }
}

/// Any number of the field's range.
pub const ANY: u32 = 0xFFFF_FFFF;

/// What may be on, if some alarms are: any that AR leaves on; any at all, as has every number above.
pub const LASTING_ALARMS: u32 = 0x8_0000;
pub const ANY_ALARMS: u32 = LASTING_ALARMS + 1;

/// Whether a set of a field has a number, by the header's words.
pub fn has(field: usize, set: u32, number: u32, fault: Fault) -> bool {
    if field >= FIELDS {
        return false;
    }
    let (low, high) = range(field);
    let in_range = (low..=high).contains(&number);
    match sort(field) {
        Sort::Few if fault == Fault::BitsTakenInTurn => set >> (number % 32) & 1 != 0,
        Sort::Few => in_range && set >> number & 1 != 0,
        Sort::Wide if set == ANY => in_range || fault == Fault::AnyPastTheRange,
        Sort::Wide => in_range && set == number,
        Sort::Alarms => has_alarms(set, number, fault),
    }
}

fn has_alarms(set: u32, number: u32, fault: Fault) -> bool {
    if number == 0 {
        return set & 1 != 0 || fault == Fault::NoneAmongAny && set >> 1 >= ANY_ALARMS;
    }
    match set >> 1 {
        0 => false,
        LASTING_ALARMS if fault == Fault::LastingReadAsAny => number <= alarms::ALL,
        LASTING_ALARMS => number & !alarms::LASTING == 0,
        ANY_ALARMS.. => number <= alarms::ALL,
        just => number == just,
    }
}

#[cfg(test)]
mod tests {
    use super::*;

    /// The header's numbers, written out.
    #[test]
    fn numbers_of_the_fields() {
        assert_eq!(FIELDS, 77);
        assert_eq!((value(0), level(0), value(31), level(31)), (13, 14, 75, 76));
        for place in 0..PARAMETERS {
            assert_eq!(value_place(value(place)), Some(place));
            assert_eq!(level_place(level(place)), Some(place));
            assert_eq!(value_place(level(place)), None);
            assert_eq!(level_place(value(place)), None);
        }
        for field in (0..13).chain([77, 78]) {
            assert_eq!((value_place(field), level_place(field)), (None, None));
        }
    }

    #[test]
    fn sets_by_the_headers_words() {
        let has = |field, set, number| has(field, set, number, Fault::None);
        // Idle or Done.
        let phases: Vec<u32> = (0..40).filter(|&phase| has(PHASE, 17, phase)).collect();
        assert_eq!(phases, [0, 4]);
        assert!(has(level(31), 8, 3) && !has(level(31), 8, 2));
        // Factor of recipe 3.
        assert!(has(value(7), ANY, 8_000) && has(value(7), ANY, 12_000));
        assert!(!has(value(7), ANY, 7_999) && !has(value(7), ANY, 12_001));
        assert!(!has(value(7), ANY, ANY));
        assert!(has(value(7), 10_150, 10_150) && !has(value(7), 10_150, 10_151));
        // None alone; nothing; alarm 19 alone, or none; the lasting; any.
        let among = [0, 1, 1 << 18, 1 << 7, 0x7_FFFF, 0x8_0000];
        let held = |set| among.map(|alarms| has(ALARMS, set, alarms));
        assert_eq!(held(1), [true, false, false, false, false, false]);
        assert_eq!(held(0), [false; 6]);
        assert_eq!(held(3), [true, true, false, false, false, false]);
        let lasting = [false, true, true, false, false, false];
        assert_eq!(held(0x10_0000), lasting);
        for any in [0x10_0002, 0xFFFF_FFFE] {
            assert_eq!(held(any), [false, true, true, true, true, false]);
        }
        for field in [77, 80, usize::MAX] {
            assert!(!has(field, ANY, 0) && !has(field, 0, 0));
        }
    }
}

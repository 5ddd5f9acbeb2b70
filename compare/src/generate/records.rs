//! Valid records, and records that differ from another in one field.

use crate::alarms::{self, HIGHEST_ALARM};
use crate::parameters::{PARAMETERS, VALUE_RANGES};
use crate::random::Random;
use crate::record::{
    Phase, Record, HIGHEST_ADDRESS, HIGHEST_LEVEL, HIGHEST_NUMBER, HIGHEST_PRESET, HIGHEST_RAW,
    RECIPES,
};

/// A number of a range: mostly near its ends if `edges` is set, else any.
pub fn number(random: &mut Random, low: u32, high: u32, edges: bool) -> u32 {
    let reach = (high - low).min(2);
    match (edges, random.below(4)) {
        (true, 0) => low + random.between(0, reach),
        (true, 1) => high - random.between(0, reach),
        (true, 2) => low + random.between(0, (high - low).min(100)),
        _ => random.between(low, high),
    }
}

pub fn flag(random: &mut Random) -> bool {
    random.percent(50)
}

pub fn level(random: &mut Random) -> u8 {
    random.between(0, u32::from(HIGHEST_LEVEL)) as u8
}

/// No alarm, one, some that AR switches off, some that last, all, or any.
pub fn alarms(random: &mut Random) -> u32 {
    let any = random.next() as u32 & alarms::ALL;
    match random.below(8) {
        0..=2 => 0,
        3 => alarms::numbered(random.between(1, u32::from(HIGHEST_ALARM)) as u16),
        4 => any & alarms::RESETTABLE,
        5 => any & alarms::LASTING,
        6 => alarms::ALL,
        _ => any,
    }
}

/// Any valid record.
pub fn record(random: &mut Random) -> Record {
    let record = record_without_alarms(random);
    Record {
        alarms: alarms(random),
        ..record
    }
}

/// Any valid record with no alarm on.
pub fn record_without_alarms(random: &mut Random) -> Record {
    let edges = random.percent(60);
    let mut record = Record {
        address: number(random, 1, u32::from(HIGHEST_ADDRESS), edges) as u8,
        access: level(random),
        phase: random.pick(&Phase::ALL),
        keypad: random.percent(30),
        flow: flag(random),
        changed: flag(random),
        batch_reset: flag(random),
        power_fail: flag(random),
        recipe: random.between(1, u32::from(RECIPES)) as u8,
        preset: number(random, 0, HIGHEST_PRESET, edges),
        raw: number(random, 0, HIGHEST_RAW, edges),
        number: number(random, 1, u32::from(HIGHEST_NUMBER), edges) as u16,
        alarms: 0,
        parameters: Record::low().parameters,
    };
    for (place, parameter) in record.parameters.iter_mut().enumerate() {
        let (low, high) = VALUE_RANGES[place];
        parameter.value = number(random, low, high, edges);
        parameter.level = level(random);
    }
    // A batch near its end, so that pulses reach the preset now and then.
    if random.percent(25) {
        let short = random.between(0, 70);
        record.raw = record.preset.saturating_sub(short);
    }
    record
}

/// A field that a record jumps in.
#[derive(Clone, Copy)]
pub enum Field {
    Phase,
    Keypad,
    Flow,
    Changed,
    BatchReset,
    PowerFail,
    Recipe,
    Raw,
    Number,
    Value,
    Level,
    Alarms,
}

const FIELDS: [Field; 14] = [
    Field::Phase,
    Field::Phase,
    Field::Keypad,
    Field::Keypad,
    Field::Flow,
    Field::Changed,
    Field::BatchReset,
    Field::PowerFail,
    Field::Recipe,
    Field::Raw,
    Field::Number,
    Field::Value,
    Field::Level,
    Field::Alarms,
];

pub fn field(random: &mut Random) -> Field {
    random.pick(&FIELDS)
}

/// Changes one field to any value of its range; of the parameters one of those given.
pub fn jump(random: &mut Random, record: &mut Record, field: Field, places: &[usize]) {
    let place = random.pick(places);
    match field {
        Field::Phase => record.phase = random.pick(&Phase::ALL),
        Field::Keypad => record.keypad = !record.keypad,
        Field::Flow => record.flow = !record.flow,
        Field::Changed => record.changed = !record.changed,
        Field::BatchReset => record.batch_reset = !record.batch_reset,
        Field::PowerFail => record.power_fail = !record.power_fail,
        Field::Recipe => record.recipe = random.between(1, u32::from(RECIPES)) as u8,
        Field::Raw => record.raw = number(random, 0, HIGHEST_RAW, true),
        Field::Number => record.number = number(random, 1, u32::from(HIGHEST_NUMBER), true) as u16,
        Field::Value => {
            let (low, high) = VALUE_RANGES[place];
            record.parameters[place].value = number(random, low, high, true);
        }
        Field::Level => record.parameters[place].level = level(random),
        Field::Alarms if record.alarms != 0 && flag(random) => record.alarms = 0,
        Field::Alarms => record.alarms = alarms(random),
    }
}

pub fn place(random: &mut Random) -> usize {
    random.below(PARAMETERS)
}

//! The fields of a record and what they may hold, in words.

use crate::facts::{Facts, Told};
use khuyapesh::{may_hold, ALARMS, ANY, FIELDS, KEYPAD, PARAMETERS, PHASE, POWER_FAIL, RECIPE};

/// The fields before the parameters, by number.
const NAMES: [&str; ALARMS + 1] = [
    "address",
    "access",
    "phase",
    "keypad",
    "flow",
    "changed flag",
    "batch reset flag",
    "power fail flag",
    "recipe",
    "preset",
    "raw total",
    "batch number",
    "alarms",
];

const PHASES: [&str; 5] = ["Idle", "Set", "Running", "Stopped", "Done"];
const FLAG: [&str; 2] = ["off", "on"];

const RECIPES: usize = 8;
const RECIPE_PARAMETERS: [&str; 3] = ["share", "factor", "low flow"];
const SYSTEM_PARAMETERS: [&str; 8] = [
    "start wait",
    "time-out",
    "stop quantity",
    "high flow",
    "units",
    "date style",
    "pulses per unit",
    "copies",
];

/// Alarms 1 to 19.
const ALARM_NAMES: [&str; 19] = [
    "RAM corrupt (DA)",
    "flash error (DA)",
    "RAM bad (DA)",
    "ROM bad (DA)",
    "passcodes reset (DA)",
    "program error (DA)",
    "watchdog (DA)",
    "flash backup bad (DA)",
    "user alarm 3 (U3)",
    "user alarm 2 (U2)",
    "user alarm 1 (U1)",
    "power-fail alarm (PA)",
    "clean line (CL)",
    "communications (CM)",
    "user alarm 5 (U5)",
    "user alarm 4 (U4)",
    "printer (PP)",
    "shared printer (SP)",
    "overrun (OA)",
];
const ALL_ALARMS: u32 = (1 << ALARM_NAMES.len()) - 1;
const ANY_LASTING: u32 = ALL_ALARMS + 1;

/// What a field is; a parameter's by its place.
#[derive(Clone, Copy, PartialEq, Eq, Debug)]
pub enum Kind {
    Phase,
    Flag,
    Recipe,
    /// A field of many numbers.
    Number,
    Alarms,
    Value(usize),
    Level(usize),
}

pub fn kind(field: usize) -> Kind {
    match field {
        PHASE => Kind::Phase,
        KEYPAD..=POWER_FAIL => Kind::Flag,
        RECIPE => Kind::Recipe,
        ALARMS => Kind::Alarms,
        _ if field < ALARMS => Kind::Number,
        _ => parameter(field),
    }
}

fn parameter(field: usize) -> Kind {
    assert!(field < FIELDS, "there is no field {field}");
    let place = (field - khuyapesh::value(0)) / 2;
    if field == khuyapesh::value(place) {
        Kind::Value(place)
    } else {
        Kind::Level(place)
    }
}

// ---- names

/// The code of a parameter, three digits.
pub fn code(place: usize) -> String {
    let (recipe, kind) = (place / 3 + 1, place % 3 + 1);
    if recipe <= RECIPES {
        format!("{:03}", 10 * recipe + kind)
    } else {
        format!("{}", 801 + place - 3 * RECIPES)
    }
}

/// A parameter: "factor of recipe 3".
pub fn parameter_name(place: usize) -> String {
    let recipe = place / 3 + 1;
    if recipe <= RECIPES {
        format!("{} of recipe {recipe}", RECIPE_PARAMETERS[place % 3])
    } else {
        SYSTEM_PARAMETERS[place - 3 * RECIPES].to_string()
    }
}

/// The recipe that a parameter is of.
pub fn recipe_of(place: usize) -> Option<usize> {
    let recipe = place / 3 + 1;
    (recipe <= RECIPES).then_some(recipe)
}

/// A field as it is spoken of.
pub fn name(field: usize) -> String {
    match kind(field) {
        Kind::Value(place) if recipe_of(place).is_some() => parameter_name(place),
        Kind::Value(place) => format!("{} ({})", parameter_name(place), code(place)),
        Kind::Level(place) => format!("level of {}", code(place)),
        _ => NAMES[field].to_string(),
    }
}

// ---- what they may hold

/// "Idle or Done", "off", "1 to 3", "10150"; of a field of many numbers of which nothing is known, "any".
pub fn values(told: Told) -> String {
    match kind(told.field) {
        Kind::Phase => one_of(&names_in(told, &PHASES)),
        Kind::Flag => one_of(&names_in(told, &FLAG)),
        Kind::Recipe | Kind::Level(_) => numbers(&numbers_in(told)),
        Kind::Number | Kind::Value(_) if told.set == ANY => "any".to_string(),
        Kind::Number | Kind::Value(_) => told.set.to_string(),
        Kind::Alarms => alarms_on(told.set),
    }
}

fn numbers_in(told: Told) -> Vec<u32> {
    (0..u32::BITS)
        .filter(|&number| may_hold(told.field, told.set, number) == 1)
        .collect()
}

fn names_in(told: Told, names: &[&str]) -> Vec<String> {
    let numbers = numbers_in(told).into_iter();
    numbers
        .map(|number| names[number as usize].to_string())
        .collect()
}

/// Three or more in a row by their ends.
fn numbers(numbers: &[u32]) -> String {
    match numbers {
        [first, .., last] if numbers.len() > 2 && last - first + 1 == numbers.len() as u32 => {
            format!("{first} to {last}")
        }
        _ => one_of(&numbers.iter().map(u32::to_string).collect::<Vec<_>>()),
    }
}

fn one_of(parts: &[String]) -> String {
    joined(parts, "or")
}

fn joined(parts: &[String], word: &str) -> String {
    match parts {
        [] => "nothing".to_string(),
        [only] => only.clone(),
        [before @ .., last] => format!("{} {word} {last}", before.join(", ")),
    }
}

/// What an exchange told, in short. A write may leave less known than was.
pub fn news(facts: &Facts, told: Told) -> String {
    if facts.is_unknown(told) {
        return format!("{} no longer known", name(told.field));
    }
    fact(told)
}

/// "phase Idle or Done", "recipe is 3"
pub fn fact(told: Told) -> String {
    match kind(told.field) {
        Kind::Phase | Kind::Flag => format!("{} {}", name(told.field), values(told)),
        Kind::Alarms => alarms_short(told.set),
        _ => format!("{} is {}", name(told.field), values(told)),
    }
}

/// As a clause: "the phase is Idle or Done".
pub fn clause(told: Told) -> String {
    match kind(told.field) {
        Kind::Alarms => alarms_clause(told.set),
        _ => format!("the {} is {}", name(told.field), values(told)),
    }
}

/// As what cannot be otherwise: "the phase can only be Idle or Done".
pub fn can_only(told: Told) -> String {
    match kind(told.field) {
        Kind::Alarms => alarms_can_only(told.set),
        _ => format!("the {} can only be {}", name(told.field), values(told)),
    }
}

// ---- alarms

/// Which alarms may be on, if some are.
#[derive(Clone, Copy)]
enum On {
    Nothing,
    Just(u32),
    /// Any that AR does not reset.
    Lasting,
    Any,
}

/// Whether none may be on, and what else.
fn alarm_set(set: u32) -> (bool, On) {
    let on = match set / 2 {
        0 => On::Nothing,
        just @ 1..=ALL_ALARMS => On::Just(just),
        ANY_LASTING => On::Lasting,
        _ => On::Any,
    };
    (set % 2 == 1, on)
}

fn alarm_names(alarms: u32) -> String {
    let names = ALARM_NAMES.iter().enumerate();
    let on = names.filter(|(index, _)| alarms >> (ALARM_NAMES.len() - 1 - index) & 1 == 1);
    let on: Vec<String> = on.map(|(_, name)| name.to_string()).collect();
    joined(&on, "and")
}

fn alarms_on(set: u32) -> String {
    match alarm_set(set) {
        (true, On::Nothing) => "none on".to_string(),
        (false, On::Nothing) => "nothing".to_string(),
        (true, On::Just(alarms)) => format!("none on, or {}", alarm_names(alarms)),
        (false, On::Just(alarms)) => alarm_names(alarms),
        (true, On::Lasting) => "none on, or any that AR does not reset".to_string(),
        (false, On::Lasting) => "one or more on, but none that AR resets".to_string(),
        (true, On::Any) => "any".to_string(),
        (false, On::Any) => "one or more on, not known which".to_string(),
    }
}

fn alarms_short(set: u32) -> String {
    match alarm_set(set) {
        (true, On::Nothing) => "no alarm on".to_string(),
        (false, On::Just(alarms)) if alarms.count_ones() == 1 => {
            format!("alarm on: {}", alarm_names(alarms))
        }
        (false, On::Just(alarms)) => format!("alarms on: {}", alarm_names(alarms)),
        (false, On::Any) => "at least one alarm on".to_string(),
        (false, On::Lasting) => "at least one alarm on, but none that AR resets".to_string(),
        (true, On::Lasting) => "no alarm on that AR resets".to_string(),
        _ => format!("alarms: {}", alarms_on(set)),
    }
}

fn alarms_clause(set: u32) -> String {
    match alarm_set(set) {
        (true, On::Nothing) => "no alarm is on".to_string(),
        (false, On::Just(alarms)) => format!("just these alarms are on: {}", alarm_names(alarms)),
        (false, On::Any) => "at least one alarm is on".to_string(),
        (false, On::Lasting) => "at least one alarm is on, but none that AR resets".to_string(),
        (true, On::Lasting) => "no alarm is on that AR resets".to_string(),
        _ => format!("of the alarms may be on: {}", alarms_on(set)),
    }
}

fn alarms_can_only(set: u32) -> String {
    match alarm_set(set) {
        (true, On::Nothing) => "no alarm can be on".to_string(),
        (false, On::Just(alarms)) => {
            format!("just these alarms must be on: {}", alarm_names(alarms))
        }
        (false, On::Any) => "at least one alarm must be on".to_string(),
        (false, On::Lasting) => {
            "at least one alarm must be on, but none that AR resets".to_string()
        }
        (true, On::Lasting) => "no alarm can be on that AR resets".to_string(),
        _ => format!("of the alarms can only be on: {}", alarms_on(set)),
    }
}

// ---- parameters of which nothing is known

/// Their codes: "011 to 031, 033 and 801", a row of three or more by its ends.
pub fn codes(places: &[usize]) -> String {
    let mut parts: Vec<String> = Vec::new();
    let mut rest = places;
    while let Some(&first) = rest.first() {
        let row = (0..rest.len())
            .take_while(|&index| rest[index] == first + index)
            .count();
        let (row, behind) = rest.split_at(row);
        match row {
            [first, _, .., last] => parts.push(format!("{} to {}", code(*first), code(*last))),
            _ => parts.extend(row.iter().map(|&place| code(place))),
        }
        rest = behind;
    }
    joined(&parts, "and")
}

pub fn places() -> std::ops::Range<usize> {
    0..PARAMETERS
}

#[cfg(test)]
mod tests {
    use super::*;
    use crate::facts;
    use crate::sample::recording_of;

    fn told(field: usize, set: u32) -> Told {
        Told { field, set }
    }

    const KEYPAD: usize = 3;
    const CHANGED: usize = 5;
    const RAW: usize = 10;
    const FACTOR_3: usize = 7;
    const START_WAIT: usize = 24;

    #[test]
    fn names_of_fields() {
        assert_eq!(name(KEYPAD), "keypad");
        assert_eq!(name(khuyapesh::value(0)), "share of recipe 1");
        assert_eq!(name(khuyapesh::value(FACTOR_3)), "factor of recipe 3");
        assert_eq!(name(khuyapesh::value(23)), "low flow of recipe 8");
        assert_eq!(name(khuyapesh::value(START_WAIT)), "start wait (801)");
        assert_eq!(name(khuyapesh::value(31)), "copies (808)");
        assert_eq!(name(khuyapesh::level(FACTOR_3)), "level of 032");
        assert_eq!(name(khuyapesh::level(31)), "level of 808");
        assert_eq!(kind(FIELDS - 1), Kind::Level(31));
    }

    #[test]
    fn fields_of_few_numbers() {
        assert_eq!(fact(told(PHASE, 0b10001)), "phase Idle or Done");
        assert_eq!(
            clause(told(PHASE, 0b01110)),
            "the phase is Set, Running or Stopped"
        );
        assert_eq!(
            can_only(told(PHASE, 0b00100)),
            "the phase can only be Running"
        );
        assert_eq!(fact(told(KEYPAD, 0b01)), "keypad off");
        assert_eq!(fact(told(CHANGED, 0b10)), "changed flag on");
        assert_eq!(
            can_only(told(CHANGED, 0b11)),
            "the changed flag can only be off or on"
        );
        assert_eq!(fact(told(RECIPE, 1 << 3)), "recipe is 3");
        assert_eq!(fact(told(RECIPE, 0b1110)), "recipe is 1 to 3");
        assert_eq!(values(told(RECIPE, 0b100110)), "1, 2 or 5");
        assert_eq!(
            fact(told(khuyapesh::level(FACTOR_3), 0b1100)),
            "level of 032 is 2 or 3"
        );
        assert_eq!(
            clause(told(khuyapesh::level(FACTOR_3), 0b0111)),
            "the level of 032 is 0 to 2"
        );
    }

    #[test]
    fn fields_of_many_numbers() {
        assert_eq!(fact(told(RAW, 0)), "raw total is 0");
        assert_eq!(values(told(RAW, ANY)), "any");
        assert_eq!(
            can_only(told(khuyapesh::value(FACTOR_3), 10150)),
            "the factor of recipe 3 can only be 10150"
        );
        assert_eq!(
            can_only(told(khuyapesh::value(START_WAIT), 5)),
            "the start wait (801) can only be 5"
        );
    }

    #[test]
    fn less_may_be_known_than_was() {
        let bytes = recording_of(&[("RE PC", "OK"), ("PC 032 8000", "OK")]);
        let facts = facts::facts(&bytes).expect("it is a recording");
        let news = |number: usize| news(&facts, facts.exchange(number).told[0]);
        assert_eq!(news(1), "keypad off");
        assert_eq!(news(2), "phase Idle or Done");
        let told = &facts.exchange(2).told;
        assert!(told
            .iter()
            .any(|&told| super::news(&facts, told) == "changed flag no longer known"));
    }

    #[test]
    fn sets_of_alarms() {
        let power_fail = 1 << 7;
        let ram_corrupt = 1 << 18;
        let some_lasting = 2 * ANY_LASTING;
        assert_eq!(fact(told(ALARMS, 1)), "no alarm on");
        assert_eq!(
            fact(told(ALARMS, 2 * power_fail)),
            "alarm on: power-fail alarm (PA)"
        );
        assert_eq!(
            fact(told(ALARMS, 2 * (power_fail + ram_corrupt + 1))),
            "alarms on: RAM corrupt (DA), power-fail alarm (PA) and overrun (OA)"
        );
        assert_eq!(
            values(told(ALARMS, 1 + some_lasting)),
            "none on, or any that AR does not reset"
        );
        assert_eq!(
            can_only(told(ALARMS, ANY - 1)),
            "at least one alarm must be on"
        );
        assert_eq!(
            can_only(told(ALARMS, some_lasting)),
            "at least one alarm must be on, but none that AR resets"
        );
        assert_eq!(clause(told(ALARMS, 1)), "no alarm is on");
        assert_eq!(
            values(told(ALARMS, 1 + 2 * power_fail)),
            "none on, or power-fail alarm (PA)"
        );
        assert_eq!(values(told(ALARMS, ANY)), "any");
    }

    #[test]
    fn codes_of_parameters() {
        let without = |place: usize| places().filter(|&other| other != place).collect::<Vec<_>>();
        assert_eq!(codes(&without(FACTOR_3)), "011 to 031 and 033 to 808");
        assert_eq!(codes(&without(1)), "011 and 013 to 808");
        assert_eq!(codes(&[0, 1, 5, 6, 7]), "011, 012 and 023 to 032");
        assert_eq!(codes(&[]), "nothing");
    }
}

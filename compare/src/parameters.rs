//! Document 01's parameter list.

use crate::record::RECIPES;

#[derive(Clone, Copy, PartialEq, Eq, Debug)]
pub enum Name {
    Share,
    Factor,
    LowFlow,
    StartWait,
    TimeOut,
    StopQuantity,
    HighFlow,
    Units,
    DateStyle,
    PulsesPerUnit,
    Copies,
}

/// One parameter of the list.
#[derive(Clone, Copy, PartialEq, Eq, Debug)]
pub struct Listed {
    pub code: u32,
    pub name: Name,
    /// None for the system's.
    pub recipe: Option<u8>,
    /// The lowest and highest value.
    pub range: (u32, u32),
}

const fn listed(code: u32, name: Name, recipe: Option<u8>, range: (u32, u32)) -> Listed {
    Listed {
        code,
        name,
        recipe,
        range,
    }
}

const OF_A_RECIPE: usize = 3;

const fn of_recipe(recipe: u8) -> [Listed; OF_A_RECIPE] {
    let r = recipe as u32;
    let recipe = Some(recipe);
    [
        listed(10 * r + 1, Name::Share, recipe, (0, 10_000)),
        listed(10 * r + 2, Name::Factor, recipe, (8_000, 12_000)),
        listed(10 * r + 3, Name::LowFlow, recipe, (1, 9_999)),
    ]
}

const OF_THE_SYSTEM: [Listed; 8] = [
    listed(801, Name::StartWait, None, (0, 99)),
    listed(802, Name::TimeOut, None, (0, 999)),
    listed(803, Name::StopQuantity, None, (0, 9_999)),
    listed(804, Name::HighFlow, None, (1, 9_999)),
    listed(805, Name::Units, None, (0, 3)),
    listed(806, Name::DateStyle, None, (0, 1)),
    listed(807, Name::PulsesPerUnit, None, (1, 99_999)),
    listed(808, Name::Copies, None, (0, 9)),
];

pub const PARAMETERS: usize = OF_A_RECIPE * RECIPES as usize + OF_THE_SYSTEM.len();

/// The list: recipe by recipe, then the system's, so that codes rise. A code is looked up here and
/// not taken apart; a place is one in this list.
pub const LIST: [Listed; PARAMETERS] = {
    let mut list = [OF_THE_SYSTEM[0]; PARAMETERS];
    let mut place = 0;
    let mut recipe = 1;
    while recipe <= RECIPES {
        let of_recipe = of_recipe(recipe);
        let mut kind = 0;
        while kind < OF_A_RECIPE {
            list[place] = of_recipe[kind];
            place += 1;
            kind += 1;
        }
        recipe += 1;
    }
    let mut system = 0;
    while system < OF_THE_SYSTEM.len() {
        list[place] = OF_THE_SYSTEM[system];
        place += 1;
        system += 1;
    }
    list
};

/// The lowest and highest value of each parameter.
pub const VALUE_RANGES: [(u32, u32); PARAMETERS] = {
    let mut ranges = [(0, 0); PARAMETERS];
    let mut place = 0;
    while place < PARAMETERS {
        ranges[place] = LIST[place].range;
        place += 1;
    }
    ranges
};

pub fn parameter_code(place: usize) -> u32 {
    LIST[place].code
}

/// The place of the parameter that has this code.
pub fn parameter_place(code: u32) -> Option<usize> {
    LIST.iter().position(|listed| listed.code == code)
}

/// The place of a recipe's factor.
pub fn factor_place(recipe: u8) -> usize {
    (usize::from(recipe) - 1) * OF_A_RECIPE + 1
}

pub fn is_factor(place: usize) -> bool {
    LIST[place].name == Name::Factor
}

/// The place of the parameter of another recipe that has the same name; a system parameter's own.
pub fn same_kind_place(place: usize, recipe: u8) -> usize {
    let name = LIST[place].name;
    LIST.iter()
        .position(|other| other.name == name && other.recipe == Some(recipe))
        .unwrap_or(place)
}

/// A value of a parameter's range that is not this one; every range has two at least.
pub fn another_value(place: usize, value: u32) -> u32 {
    let (low, high) = VALUE_RANGES[place];
    if value == low {
        high
    } else {
        low
    }
}

pub fn value_in_range(place: usize, value: u32) -> bool {
    let (low, high) = VALUE_RANGES[place];
    (low..=high).contains(&value)
}

#[cfg(test)]
mod tests {
    use super::*;

    /// Every code of document 01's list, written out.
    #[rustfmt::skip]
    const CODES: [u32; 32] = [
        11, 12, 13, 21, 22, 23, 31, 32, 33, 41, 42, 43, 51, 52, 53, 61, 62, 63, 71, 72, 73, 81, 82, 83,
        801, 802, 803, 804, 805, 806, 807, 808,
    ];

    #[test]
    fn the_list_is_document_01s() {
        assert_eq!(LIST.map(|listed| listed.code), CODES);
        for (place, expected) in [
            (0, listed(11, Name::Share, Some(1), (0, 10_000))),
            (7, listed(32, Name::Factor, Some(3), (8_000, 12_000))),
            (23, listed(83, Name::LowFlow, Some(8), (1, 9_999))),
            (24, listed(801, Name::StartWait, None, (0, 99))),
            (31, listed(808, Name::Copies, None, (0, 9))),
        ] {
            assert_eq!(LIST[place], expected);
        }
    }

    /// So no code stands there twice.
    #[test]
    fn codes_rise_and_are_found_again() {
        assert!(LIST.is_sorted_by(|first, second| first.code < second.code));
        for code in 0..=1_000 {
            let place = CODES.iter().position(|&listed| listed == code);
            assert_eq!(parameter_place(code), place, "{code:03}");
        }
    }

    #[test]
    fn parameters_of_a_recipe() {
        for recipe in 1..=RECIPES {
            let factor = factor_place(recipe);
            let expected = of_recipe(recipe);
            assert_eq!(LIST[factor - 1..=factor + 1], expected);
            assert_eq!(
                [factor - 1, factor, factor + 1].map(is_factor),
                [false, true, false]
            );
            for kind in 0..OF_A_RECIPE {
                assert_eq!(LIST[same_kind_place(kind, recipe)], expected[kind]);
            }
            assert_eq!(same_kind_place(31, recipe), 31);
        }
    }

    #[test]
    fn every_range_has_another_value() {
        for (place, (low, high)) in VALUE_RANGES.into_iter().enumerate() {
            for value in [low, low + 1, high] {
                let other = another_value(place, value);
                assert!(other != value && value_in_range(place, other), "{place}");
            }
        }
    }
}

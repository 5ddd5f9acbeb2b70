//! What a field may hold, as this program keeps it, and as one number of the library's header.

use crate::alarms;
use crate::fields::{self, Of, Sort, ANY, ANY_ALARMS, LASTING_ALARMS};
use crate::judge::Alarms;

#[derive(Clone, Copy, PartialEq, Eq, Debug)]
pub enum Numbers {
    /// One bit for each number.
    Few(u32),
    Just(u32),
    /// Any of the field's range.
    Any,
    Alarms(Alarms),
}

/// What each field may hold.
pub type Sets = Of<Numbers>;

impl Numbers {
    pub fn has(self, field: usize, number: u32) -> bool {
        match self {
            Numbers::Few(bits) => bits.checked_shr(number).is_some_and(|rest| rest & 1 != 0),
            Numbers::Just(known) => number == known,
            Numbers::Any => {
                let (low, high) = fields::range(field);
                (low..=high).contains(&number)
            }
            Numbers::Alarms(alarms) => alarms.has(number),
        }
    }

    /// What either has. Where a field of many numbers is known, it is the same in all candidates, and so
    /// are the alarms; only a planted fault has them differ, and then any may be held.
    pub fn joined(self, other: Numbers) -> Numbers {
        match (self, other) {
            (Numbers::Few(bits), Numbers::Few(others)) => Numbers::Few(bits | others),
            _ if self == other => self,
            (Numbers::Alarms(_), _) => Numbers::Alarms(Alarms::AnyOf(alarms::ALL)),
            _ => Numbers::Any,
        }
    }

    /// Whether some number is in both sets of a field.
    pub fn meets(self, field: usize, other: Numbers) -> bool {
        match (self, other) {
            (Numbers::Few(bits), Numbers::Few(others)) => bits & others != 0,
            (Numbers::Just(number), set) | (set, Numbers::Just(number)) => set.has(field, number),
            (Numbers::Alarms(alarms), Numbers::Alarms(others)) => alarms.meets(others),
            _ => true,
        }
    }

    /// The set as the header writes it.
    pub fn written(self) -> u32 {
        let among = |alarms| match alarms {
            alarms::LASTING => LASTING_ALARMS,
            _ => ANY_ALARMS,
        };
        match self {
            Numbers::Few(bits) => bits,
            Numbers::Just(number) => number,
            Numbers::Any => ANY,
            Numbers::Alarms(Alarms::Exactly(0)) => 1,
            Numbers::Alarms(Alarms::Exactly(alarms)) => alarms << 1,
            Numbers::Alarms(Alarms::AnyOf(alarms)) => among(alarms) << 1 | 1,
            Numbers::Alarms(Alarms::SomeOf(alarms)) => among(alarms) << 1,
        }
    }

    /// A set that a recording may tell, from how the header writes it.
    pub fn read(field: usize, set: u32) -> Numbers {
        match fields::sort(field) {
            Sort::Few => Numbers::Few(set),
            Sort::Wide if set == ANY => Numbers::Any,
            Sort::Wide => Numbers::Just(set),
            Sort::Alarms => {
                let (none, some) = (set & 1 != 0, set >> 1);
                let among = match some {
                    LASTING_ALARMS => alarms::LASTING,
                    _ => alarms::ALL,
                };
                Numbers::Alarms(match some {
                    LASTING_ALARMS.. if none => Alarms::AnyOf(among),
                    LASTING_ALARMS.. => Alarms::SomeOf(among),
                    just => Alarms::Exactly(just),
                })
            }
        }
    }
}

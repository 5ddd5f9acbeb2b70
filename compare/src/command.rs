//! Commands: their forms, and the refusals that hold whatever the record.

use crate::bank::MOST_BATCHES;
use crate::fault::Fault;
use crate::parameters::{parameter_place, value_in_range, Name, LIST};
use crate::record::{HIGHEST_LEVEL, RECIPES};

/// A listed parameter that a request names.
#[derive(Clone, Copy, PartialEq, Eq, Debug)]
pub struct Named {
    /// As asked for; the reply repeats it.
    pub code: u32,
    pub place: usize,
}

/// A request of the right form whose arguments are in range.
#[derive(Clone, Copy, PartialEq, Eq, Debug)]
pub enum Command {
    Status,
    StatusCodes,
    Alarms,
    BatchNumber,
    Recipe,
    RecipeFactor,
    RawTotal,
    Value(Named),
    Level(Named),
    WriteValue(Named, u32),
    WriteLevel(Named, u8),
    WriteRecipe(u8),
    SetBatch(u32),
    Start,
    Stop,
    End,
    ClearBatchReset,
    ClearChanged,
    ResetAlarms,
}

impl Command {
    pub fn is_read(self) -> bool {
        matches!(
            self,
            Command::Status
                | Command::StatusCodes
                | Command::Alarms
                | Command::BatchNumber
                | Command::Recipe
                | Command::RecipeFactor
                | Command::RawTotal
                | Command::Value(_)
                | Command::Level(_)
        )
    }
}

pub const CODES: [&[u8; 2]; 18] = [
    b"EQ", b"RS", b"TN", b"RR", b"RC", b"RT", b"PV", b"XV", b"PC", b"XC", b"NR", b"SB", b"SA",
    b"SP", b"ET", b"RE", b"EA", b"AR",
];

/// A number of the stated count of digits, or NO01.
fn digits(part: &[u8], least: usize, most: usize) -> Result<u32, u8> {
    if part.len() < least || part.len() > most || !part.iter().all(u8::is_ascii_digit) {
        return Err(1);
    }
    Ok(part
        .iter()
        .fold(0, |number, digit| number * 10 + u32::from(digit - b'0')))
}

/// The code that this one is looked up as: itself, but for planted faults.
fn looked_up(code: u32, fault: Fault) -> u32 {
    match (fault, code) {
        (Fault::UnitsTakenForRecipe, 0..=99) => code % 10 * 10 + code / 10,
        // What stands behind the third kind is the first of the next recipe.
        (Fault::FourthKindAccepted, 14..=74) if code % 10 == 4 => code + 7,
        (Fault::RecipeZeroAccepted, 1..=3) => code + 10,
        // What stands behind the last recipe is the system's.
        (Fault::RecipeNineAccepted, 91..=93) => code + 710,
        (Fault::HundredsIgnored, 100..=800 | 809..=999) => code % 100,
        (Fault::PlaceInNextRecipe, 11..=73) => code + 10,
        _ => code,
    }
}

/// The parameter of this code, or NO04.
fn named(code: u32, fault: Fault) -> Result<Named, u8> {
    let place = parameter_place(looked_up(code, fault)).ok_or(4)?;
    Ok(Named { code, place })
}

/// Whether PC may write this value.
pub fn writable(place: usize, value: u32, fault: Fault) -> bool {
    let place = match LIST[place].name {
        Name::Share | Name::Factor if fault == Fault::RangeOfNextKind => place + 1,
        _ => place,
    };
    value_in_range(place, value)
}

/// NNN of RT R NNN, which asks for a kept batch; none in any other text.
pub fn kept_batch(code_and_arguments: &[u8], fault: Fault) -> Option<usize> {
    let [b'R', b'T', b' ', letter, b' ', number @ ..] = code_and_arguments else {
        return None;
    };
    let (least, most) = match fault {
        Fault::ShortNumberTaken => (1, 3),
        Fault::LongNumberTaken => (3, 4),
        _ => (3, 3),
    };
    let number = digits(number, least, most).ok()? as usize;
    let other_letter = match fault {
        Fault::OtherLetterTaken => true,
        // A number that no bank has.
        Fault::No03BeforeNo01 => !(1..=MOST_BATCHES).contains(&number),
        _ => false,
    };
    (*letter == b'R' || other_letter).then_some(number)
}

/// The command in what follows the address, or the number of the refusal NO00, 01, 08, 04, 30 or 06.
pub fn parse(code_and_arguments: &[u8], fault: Fault) -> Result<Command, u8> {
    let (code, mut rest) = code_and_arguments.split_at(2);
    if fault == Fault::No01BeforeNo00 && !rest.is_empty() && rest[0] != b' ' {
        return Err(1);
    }
    if !CODES.iter().any(|known| code == known.as_slice()) {
        return Err(0);
    }
    if fault == Fault::TrailingSpaceAccepted && rest.len() > 1 {
        rest = rest.strip_suffix(b" ").unwrap_or(rest);
    }
    let mut parts = rest.split(|&byte| byte == b' ');
    if parts.next() != Some(b"") {
        return Err(1); // the code is not followed by a space
    }
    let (first, second) = (parts.next(), parts.next());
    if parts.next().is_some() {
        return Err(1);
    }
    let unavailable = match fault {
        Fault::No01ForNo08 => Err(1),
        _ => Err(8),
    };
    match (code, first, second) {
        (b"EQ", None, None) => Ok(Command::Status),
        (b"RS", None, None) => Ok(Command::StatusCodes),
        (b"TN", None, None) => Ok(Command::BatchNumber),
        (b"RR", None, None) => Ok(Command::Recipe),
        (b"RC", None, None) => Ok(Command::RecipeFactor),
        (b"RT", Some(b"R"), None) => Ok(Command::RawTotal),
        (b"RT", Some(b"G" | b"N" | b"P" | b"M"), None) => unavailable,
        (b"PV", Some(parameter), None) => {
            let code = digits(parameter, 3, 3)?;
            Ok(Command::Value(named(code, fault)?))
        }
        (b"XV", Some(parameter), None) => {
            let code = digits(parameter, 3, 3)?;
            Ok(Command::Level(named(code, fault)?))
        }
        (b"PC", Some(parameter), Some(value)) => {
            let code = digits(parameter, 3, 3)?;
            let value = digits(value, 1, 8)?;
            let parameter = named(code, fault)?;
            if !writable(parameter.place, value, fault) {
                return Err(6);
            }
            Ok(Command::WriteValue(parameter, value))
        }
        (b"XC", Some(parameter), Some(level)) => {
            let code = digits(parameter, 3, 3)?;
            let level = digits(level, 1, 1)? as u8;
            if fault == Fault::No06BeforeNo04 && level > HIGHEST_LEVEL {
                return Err(6);
            }
            let parameter = named(code, fault)?;
            if level > HIGHEST_LEVEL {
                return Err(6);
            }
            Ok(Command::WriteLevel(parameter, level))
        }
        (b"NR", Some(recipe), None) => {
            let recipe = digits(recipe, 2, 2)? as u8;
            if !(1..=RECIPES).contains(&recipe) {
                return Err(30);
            }
            Ok(Command::WriteRecipe(recipe))
        }
        (b"SB", Some(preset), None) => {
            let width = preset.len();
            let preset = digits(preset, 1, 6)?;
            if preset == 0 && !(fault == Fault::ZeroBatchByFirstForm && width == 6) {
                return Err(6);
            }
            Ok(Command::SetBatch(preset))
        }
        (b"SA", None, None) => Ok(Command::Start),
        (b"SP", None, None) => Ok(Command::Stop),
        (b"ET", None, None) => Ok(Command::End),
        (b"RE", Some(b"BD"), None) => Ok(Command::ClearBatchReset),
        (b"RE", Some(b"PC"), None) => Ok(Command::ClearChanged),
        (b"RE", Some(b"PF"), None) => unavailable,
        (b"EA", None, None) => Ok(Command::Alarms),
        (b"AR", None, None) => Ok(Command::ResetAlarms),
        _ => Err(1),
    }
}

#[cfg(test)]
mod tests {
    use super::*;

    #[test]
    fn kept_batches() {
        let number = |text: &str| kept_batch(text.as_bytes(), Fault::None);
        for (text, asked) in [("RT R 000", 0), ("RT R 001", 1), ("RT R 999", 999)] {
            assert_eq!(number(text), Some(asked), "{text}");
        }
        for text in [
            "RT R",
            "RT R ",
            "RT R 1",
            "RT R 01",
            "RT R 0001",
            "RT G 001",
            "RT r 001",
            "RT R 00A",
            "RT R 001 ",
            "RT R  001",
            "RT R001",
            "RT 001",
            "RR R 001",
            "RT R +01",
            "RT R 001 1",
        ] {
            assert_eq!(number(text), None, "{text}");
            assert!(parse(text.as_bytes(), Fault::None).is_err() || text == "RT R");
        }
    }

    #[test]
    fn forms() {
        let refusal = |text: &str| parse(text.as_bytes(), Fault::None).err();
        for text in [
            "EQ",
            "RS",
            "RT R",
            "PV 032",
            "PC 032 00008000",
            "SB 000001",
            "NR 08",
            "EA",
            "AR",
        ] {
            assert_eq!(refusal(text), None, "{text}");
        }
        for text in ["QQ", "QQX", "AA 1", "QE"] {
            assert_eq!(refusal(text), Some(0), "{text}");
        }
        for text in [
            "EQ ",
            "EQX",
            "EQ 1",
            "RT",
            "RT ",
            "RT G ",
            "RT X",
            "RT R ",
            "RE TD",
            "RE",
            "RE PF ",
            "PV",
            "PV 32",
            "PV ABC",
            "PV  032",
            "PV 032 ",
            "PC 032",
            "PC 032 ",
            "PC 032 123456789",
            "PC 032 1 ",
            "NR 3",
            "NR 003",
            "SB 1234567",
            "SB",
            "SB -1",
            "XC 032 10",
            "XC 032",
            "XC 99 4",
            "PC 999 x",
            "RT  R",
            "EA ",
            "EA SY",
            "EAX",
            "AR ",
            "AR AA",
            "AR PA SY",
        ] {
            assert_eq!(refusal(text), Some(1), "{text}");
        }
        for text in ["RT G", "RT N", "RT P", "RT M", "RE PF"] {
            assert_eq!(refusal(text), Some(8), "{text}");
        }
        for text in ["PV 000", "XV 084", "PC 999 99999999", "XC 800 9"] {
            assert_eq!(refusal(text), Some(4), "{text}");
        }
        for text in ["NR 00", "NR 09", "NR 99"] {
            assert_eq!(refusal(text), Some(30), "{text}");
        }
        for text in [
            "PC 032 7999",
            "PC 032 12001",
            "XC 032 4",
            "SB 0",
            "SB 000000",
        ] {
            assert_eq!(refusal(text), Some(6), "{text}");
        }
    }
}

//! Every parameter code, 000 to 999, through the four commands that name one.

use super::calls::each_state;
use super::recordings::telling_exchange;
use super::{buffer, plain_record, request};
use crate::comparison::{Comparison, Difference};
use crate::frame::Kind;
use crate::parameters::{parameter_place, LIST};
use crate::record::{Phase, Record, HIGHEST_LEVEL};
use crate::{recording, stored};

const CODES: std::ops::Range<u32> = 0..1_000;

/// The ends of a code's range and the numbers past them; where no parameter is listed, a number that
/// each of a recipe's would take, and one that each of the system's would.
fn values(code: u32) -> Vec<u32> {
    let Some(place) = parameter_place(code) else {
        return vec![9_000, 1];
    };
    let (low, high) = LIST[place].range;
    let below = low.checked_sub(1);
    below.into_iter().chain([low, high, high + 1]).collect()
}

fn texts(code: u32) -> Vec<String> {
    let mut texts = vec![format!("PV {code:03}"), format!("XV {code:03}")];
    for value in values(code) {
        texts.push(format!("PC {code:03} {value}"));
        texts.push(format!("PC {code:03} {value:08}"));
    }
    texts.extend((0..=9).map(|level| format!("XC {code:03} {level}")));
    texts
}

fn call_with(
    comparison: &mut Comparison,
    record: &Record,
    texts: &[String],
) -> Result<(), Difference> {
    let form = stored::form(record);
    let reply = buffer(80);
    for text in texts {
        let request = request(Kind::Minicomputer, record.address, text);
        comparison.call(0, &form, &request, &reply)?;
    }
    Ok(())
}

/// In every state; no other parameter has the level that this one has.
fn listed(comparison: &mut Comparison, code: u32, place: usize) -> Result<(), Difference> {
    let texts = texts(code);
    each_state(|mut record, level| {
        for parameter in &mut record.parameters {
            parameter.level = (level + 2) % 4;
        }
        record.parameters[place].level = level;
        call_with(comparison, &record, &texts)
    })
}

/// Where nothing else refuses a write, and where keypad, level and phase all do.
fn not_listed(comparison: &mut Comparison, code: u32) -> Result<(), Difference> {
    let open = Record {
        access: HIGHEST_LEVEL,
        ..plain_record()
    };
    let mut closed = Record {
        phase: Phase::Running,
        keypad: true,
        ..plain_record()
    };
    for parameter in &mut closed.parameters {
        parameter.level = HIGHEST_LEVEL;
    }
    let texts = texts(code);
    call_with(comparison, &open, &texts)?;
    call_with(comparison, &closed, &texts)
}

/// Every code: PV, XV, PC at the ends of the range and past them, XC with every digit. No two
/// parameters hold the same value, so that one taken for another shows.
pub fn parameters(comparison: &mut Comparison) -> Result<(), Difference> {
    for code in CODES {
        match parameter_place(code) {
            Some(place) => listed(comparison, code, place)?,
            None => not_listed(comparison, code)?,
        }
    }
    Ok(())
}

/// The commands for a code, each with a reply as if there were such a parameter.
fn answered(code: u32) -> Vec<(String, String)> {
    let mut exchanges = vec![
        (format!("XV {code:03}"), format!("XV {code:03} 1")),
        (format!("XC {code:03} 1"), "OK".into()),
    ];
    for value in values(code) {
        exchanges.push((format!("PV {code:03}"), format!("PV {code:03} {value:08}")));
        exchanges.push((format!("PC {code:03} {value}"), "OK".into()));
    }
    exchanges
}

/// Every code in recordings: all commands refused by NO04, and each by itself with another reply.
pub fn code_recordings(comparison: &mut Comparison) -> Result<(), Difference> {
    for code in CODES {
        let answered = answered(code);
        let refused: Vec<_> = answered
            .iter()
            .map(|(command, _)| telling_exchange(1, command, "NO04"))
            .collect();
        comparison.judge(&recording::build(1, 2, &refused))?;
        for (command, reply) in answered {
            let exchange = telling_exchange(1, &command, &reply);
            comparison.judge(&recording::build(1, 2, &[exchange]))?;
        }
    }
    Ok(())
}

#[cfg(test)]
mod tests {
    use super::*;
    use crate::fault::Fault;

    #[test]
    fn no_two_parameters_hold_the_same_value() {
        let record = plain_record();
        let mut values = record.parameters.map(|parameter| parameter.value);
        values.sort_unstable();
        assert!(values.is_sorted_by(|first, second| first < second));
        assert!(record.is_valid());
    }

    /// The calls of this enumeration alone notice what is planted in the codes.
    #[test]
    fn faults_of_the_codes_are_noticed() {
        for fault in [
            Fault::UnitsTakenForRecipe,
            Fault::FourthKindAccepted,
            Fault::RecipeZeroAccepted,
            Fault::RecipeNineAccepted,
            Fault::HundredsIgnored,
            Fault::RangeOfNextKind,
            Fault::PlaceInNextRecipe,
        ] {
            let noticed = parameters(&mut Comparison::new(fault)).is_err();
            assert!(noticed, "{fault:?}");
        }
    }
}

//! The changed flag: every parameter written with the value that it holds and with others.

use super::{buffer, plain_record, request, KINDS};
use crate::comparison::{Comparison, Difference};
use crate::parameters::{
    another_value, parameter_code, same_kind_place, value_in_range, PARAMETERS,
};
use crate::record::{Record, RECIPES};
use crate::stored;

/// Values of the range beside the one held: an end, those that differ from it in one bit, and those
/// that parameters of the same kind hold.
pub fn other_values(record: &Record, place: usize) -> Vec<u32> {
    let held = record.parameters[place].value;
    let mut others = vec![another_value(place, held)];
    others.extend((0..17).map(|bit| held ^ 1 << bit));
    others.extend((1..=RECIPES).map(|recipe| {
        let place = same_kind_place(place, recipe);
        record.parameters[place].value
    }));
    others.retain(|&other| other != held && value_in_range(place, other));
    others.sort_unstable();
    others.dedup();
    others
}

/// Each parameter, with the flag off and on: the value held, another, and the one held before, each
/// twice, the second time with the flag cleared before it; EQ and RS after each.
pub fn rewritten_values(comparison: &mut Comparison) -> Result<(), Difference> {
    let reply = buffer(64);
    for place in 0..PARAMETERS {
        for changed in [false, true] {
            let record = Record {
                changed,
                ..plain_record()
            };
            let held = record.parameters[place].value;
            for (turn, other) in other_values(&record, place).into_iter().enumerate() {
                let kind = KINDS[turn % 2];
                let mut form = stored::form(&record).to_vec();
                for value in [held, other, held] {
                    let code = parameter_code(place);
                    let write = format!("PC {code:03} {value}");
                    let again = format!("PC {code:03} {value:08}");
                    for text in [&write, "EQ", "RS", "RE PC", &again, "EQ", "RS"] {
                        let request = request(kind, record.address, text);
                        (_, form, _) = comparison.call(kind as u8, &form, &request, &reply)?;
                    }
                }
            }
        }
    }
    Ok(())
}

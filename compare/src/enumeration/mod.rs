//! What is enumerated and not sampled: every refusal against every phase, keypad, access and level,
//! every combination of damages to a frame, every byte of a stored form, every parameter code, every
//! alarm, every parameter rewritten, every pair of telling exchanges, every cut of a stream, every kept
//! batch that can be asked for, every choice of recipes in a week, every register, every place on a board,
//! every damage to a reply in a drum change, every reply to every command where much or nothing is known.

mod alarms;
mod bank;
mod board;
mod calls;
mod changed;
mod drum;
mod frames;
mod known;
mod modbus;
mod parameters;
mod recordings;
mod records;
mod several;
mod totals;
mod unjudged;

use crate::comparison::{Comparison, Difference};
use crate::frame::{self, Kind};
use crate::parameters::VALUE_RANGES;
use crate::record::Record;

const KINDS: [Kind; 2] = [Kind::Minicomputer, Kind::Terminal];

pub fn enumerate(comparison: &mut Comparison) -> Result<(), Difference> {
    recordings::changed_recordings(comparison)?;
    recordings::alarm_recordings(comparison)?;
    recordings::recordings(comparison)?;
    unjudged::unjudged(comparison)?;
    changed::rewritten_values(comparison)?;
    calls::refusals(comparison)?;
    parameters::parameters(comparison)?;
    parameters::code_recordings(comparison)?;
    calls::recipes(comparison)?;
    calls::codes(comparison)?;
    frames::damaged_frames(comparison)?;
    frames::request_bytes(comparison)?;
    frames::host_side(comparison)?;
    several::several(comparison)?;
    records::panel_events(comparison)?;
    records::stored_forms(comparison)?;
    alarms::alarm_calls(comparison)?;
    alarms::alarm_events(comparison)?;
    alarms::stored_alarms(comparison)?;
    bank::banks(comparison)?;
    totals::totals(comparison)?;
    modbus::modbus(comparison)?;
    board::boards(comparison)?;
    drum::drum_changes(comparison)?;
    known::tellings(comparison)
}

/// The bytes of a lent buffer, told apart so that a moved one is seen.
fn buffer(length: usize) -> Vec<u8> {
    (0..length).map(|place| 0xFF - place as u8).collect()
}

fn request(kind: Kind, address: u8, command: &str) -> Vec<u8> {
    frame::framed(kind, format!("{address:02}{command}").as_bytes())
}

/// A record in which no two parameters hold the same value.
pub fn plain_record() -> Record {
    let mut record = Record {
        address: 42,
        recipe: 3,
        preset: 500,
        raw: 12_345,
        number: 9_999,
        ..Record::low()
    };
    for (place, parameter) in record.parameters.iter_mut().enumerate() {
        let (low, high) = VALUE_RANGES[place];
        parameter.value = low + (place as u32 * 7 + 5) % (high - low + 1);
    }
    record
}

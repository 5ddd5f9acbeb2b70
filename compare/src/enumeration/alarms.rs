//! Every alarm: what refuses a start, what is shown, switched off, raised, cleared and stored.

use super::{buffer, plain_record, request, KINDS};
use crate::alarms::{self, HIGHEST_ALARM};
use crate::comparison::{Comparison, Difference};
use crate::frame::Kind;
use crate::record::{Phase, Record};
use crate::stored;

const ALARM_ON: u8 = 5;
const ALARM_OFF: u8 = 6;

/// None, each by itself, all but each, those that AR switches off, those that last, all.
fn each_alarm() -> Vec<u32> {
    let mut sets = vec![0, alarms::RESETTABLE, alarms::LASTING, alarms::ALL];
    for number in 1..=HIGHEST_ALARM {
        let alarm = alarms::numbered(number);
        sets.extend([alarm, alarms::ALL & !alarm]);
    }
    sets
}

/// SA and what shows or switches off alarms, against every phase, keypad and alarm.
pub fn alarm_calls(comparison: &mut Comparison) -> Result<(), Difference> {
    let reply = buffer(64);
    for alarms in each_alarm() {
        for phase in Phase::ALL {
            for keypad in [false, true] {
                let record = Record {
                    alarms,
                    phase,
                    keypad,
                    ..plain_record()
                };
                let form = stored::form(&record);
                for text in ["SA", "EA", "AR", "EQ", "RS", "SP", "ET", "SB 1"] {
                    for kind in KINDS {
                        let request = request(kind, record.address, text);
                        comparison.call(kind as u8, &form, &request, &reply)?;
                    }
                }
            }
        }
    }
    Ok(())
}

/// Asks for the alarms, switches off what AR does, asks again and starts; answers the record then.
fn ask_and_reset(comparison: &mut Comparison, mut form: Vec<u8>) -> Result<Vec<u8>, Difference> {
    let reply = buffer(64);
    for text in ["EA", "EQ", "RS", "AR", "EA", "EQ", "RS", "SA"] {
        let request = request(Kind::Minicomputer, plain_record().address, text);
        (_, form, _) = comparison.call(0, &form, &request, &reply)?;
    }
    Ok(form)
}

/// Each number raised and cleared, alone and among all others, asked for in between.
pub fn alarm_events(comparison: &mut Comparison) -> Result<(), Difference> {
    let past = [0, 20, 21, 24, 31, 32, 33, 255, 256, 257, 32_769, 65_535];
    for number in (1..=HIGHEST_ALARM).chain(past) {
        for alarms in [0, alarms::ALL] {
            for phase in Phase::ALL {
                let record = Record {
                    alarms,
                    phase,
                    ..plain_record()
                };
                let form = stored::form(&record);
                for event in [ALARM_ON, ALARM_OFF] {
                    let changed = comparison.panel(event, number, &form)?;
                    ask_and_reset(comparison, changed.clone())?;
                    comparison.panel(ALARM_ON, number, &changed)?;
                    comparison.panel(ALARM_OFF, number, &changed)?;
                }
            }
        }
    }
    Ok(())
}

/// Each of the twenty-four bits alone and all but it, read, called over and rewritten by the panel.
pub fn stored_alarms(comparison: &mut Comparison) -> Result<(), Difference> {
    let out = buffer(200);
    let whole = stored::form(&plain_record());
    let enquiry = request(Kind::Minicomputer, plain_record().address, "EA");
    for bit in 0..24 {
        for bits in [1 << bit, 0x00FF_FF70 ^ 1 << bit, 0x00FF_FFFF ^ 1 << bit] {
            let bits: u32 = bits;
            let mut form = whole;
            form[17..20].copy_from_slice(&bits.to_be_bytes()[1..]);
            comparison.stored(&form, &out)?;
            comparison.call(0, &form, &enquiry, &buffer(64))?;
            for event in [ALARM_ON, ALARM_OFF] {
                comparison.panel(event, 1, &form)?;
                comparison.panel(event, 20, &form)?;
            }
        }
    }
    Ok(())
}

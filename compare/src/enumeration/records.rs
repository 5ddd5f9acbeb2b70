//! Panel events at every phase and flag, and every byte of a stored form of either version.

use super::{buffer, plain_record, request};
use crate::comparison::{Comparison, Difference};
use crate::frame::Kind;
use crate::record::{Phase, Record};
use crate::stored;

pub fn panel_events(comparison: &mut Comparison) -> Result<(), Difference> {
    let volumes = [
        (0, 0),
        (0, 1),
        (0, 2),
        (5, 6),
        (5, 7),
        (6, 5),
        (0, 65_535),
        (1, 65_537),
        (99_999_999, 999_999),
        (99_999_998, 0),
        (99_934_465, 999_999),
        (99_934_464, 1),
    ];
    for phase in Phase::ALL {
        for flags in 0..32 {
            for (raw, preset) in volumes {
                let flag = |bit: u8| flags & 1 << bit != 0;
                let record = Record {
                    phase,
                    keypad: flag(0),
                    flow: flag(1),
                    changed: flag(2),
                    batch_reset: flag(3),
                    power_fail: flag(4),
                    raw,
                    preset,
                    ..plain_record()
                };
                let form = stored::form(&record);
                for pulses in [0, 1, 2, 3, 65_535] {
                    comparison.panel(0, pulses, &form)?;
                }
                for event in [1, 2, 3, 4, 5, 6, 7, 255] {
                    comparison.panel(event, 7, &form)?;
                }
            }
        }
    }
    Ok(())
}

/// Every byte in every place; every length; version, length field, room and a field wrong together.
pub fn stored_forms(comparison: &mut Comparison) -> Result<(), Difference> {
    let new = stored::form(&plain_record());
    let old = stored::old_form(&plain_record());
    let out = buffer(200);
    for whole in [&old[..], &new] {
        for place in 0..whole.len() {
            for byte in each_byte(place, whole.len()) {
                let mut form = whole.to_vec();
                form[place] = byte;
                comparison.stored(&form, &out)?;
            }
        }
        for length in 0..=400 {
            let mut form = whole.to_vec();
            form.resize(length, 0);
            comparison.stored(&form, &out)?;
            comparison.stored(whole, &buffer(length))?;
            comparison.stored(&form, &buffer(length))?;
            comparison.panel(4, 0, &form)?;
        }
        wrong_together(comparison, whole)?;
    }
    Ok(())
}

/// Every byte; in the parameters of version 1, which version 2 has too, those that tell most.
fn each_byte(place: usize, length: usize) -> Vec<u8> {
    if length == stored::LENGTHS[0] && place >= stored::parameter_start(length, 1) {
        vec![0, 1, 3, 4, 255]
    } else {
        (0..=255).collect()
    }
}

/// Version, length field and a field wrong in every combination, at each length about a version's.
fn wrong_together(comparison: &mut Comparison, whole: &[u8]) -> Result<(), Difference> {
    let another_address = request(Kind::Minicomputer, 1, "EA");
    for wrong in 0..32 {
        let mut form = whole.to_vec();
        // The other version and its length field, then what no version has.
        for (bit, place, byte) in [
            (0, 0, 3 - whole[0]),
            (1, 2, 0xB1 ^ 0xB4 ^ whole[2]),
            (2, 0, 0x55),
            (3, 2, 0x55),
            (4, 7, 0x55),
        ] {
            if wrong & 1 << bit != 0 {
                form[place] = byte;
            }
        }
        for length in [176, 177, 178, 179, 180, 181] {
            let mut form = form.clone();
            form.resize(length, 0);
            comparison.stored(&form, &buffer(200))?;
            comparison.stored(&form, &buffer(stored::STORED_LENGTH - 1))?;
            for event in [1, 5, 9] {
                comparison.panel(event, 20, &form)?;
            }
            for (kind, room) in [(0, 63), (0, 64), (2, 64)] {
                comparison.call(kind, &form, &another_address, &buffer(room))?;
            }
            comparison.several(&form, &another_address, &buffer(63))?;
        }
    }
    Ok(())
}

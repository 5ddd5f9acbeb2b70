//! The stored form of a record. Version 2 is written; version 1, which has no alarms, is read too.

use crate::alarms;
use crate::fault::Fault;
use crate::parameters::PARAMETERS;
use crate::record::{Parameter, Phase, Record};

/// The length of version 1 and of version 2.
pub const LENGTHS: [usize; 2] = [177, STORED_LENGTH];
/// The length of the version that is written.
pub const STORED_LENGTH: usize = 180;
const VERSION: u8 = 2;

const ALARMS: usize = 17;
const ALARMS_END: usize = 20;
/// A value and a level.
const PARAMETER_WIDTH: usize = 5;

/// Where a parameter stands in a form of some length.
pub fn parameter_start(length: usize, place: usize) -> usize {
    length - PARAMETER_WIDTH * (PARAMETERS - place)
}

/// The form of any record; that of a record that is not valid is used by planted faults alone.
pub fn form(record: &Record) -> [u8; STORED_LENGTH] {
    let mut form = [0; STORED_LENGTH];
    form[0] = VERSION;
    form[1..3].copy_from_slice(&(STORED_LENGTH as u16).to_be_bytes());
    form[3] = record.address;
    form[4] = record.access;
    form[5] = record.phase as u8;
    form[6] = u8::from(record.keypad)
        | u8::from(record.flow) << 1
        | u8::from(record.changed) << 2
        | u8::from(record.batch_reset) << 3
        | u8::from(record.power_fail) << 4;
    form[7] = record.recipe;
    form[8..11].copy_from_slice(&record.preset.to_be_bytes()[1..]);
    form[11..15].copy_from_slice(&record.raw.to_be_bytes());
    form[15..ALARMS].copy_from_slice(&record.number.to_be_bytes());
    form[ALARMS..ALARMS_END].copy_from_slice(&alarms::stored(record.alarms));
    let parameters = form[ALARMS_END..].chunks_exact_mut(PARAMETER_WIDTH);
    for (bytes, parameter) in parameters.zip(&record.parameters) {
        bytes[..4].copy_from_slice(&parameter.value.to_be_bytes());
        bytes[4] = parameter.level;
    }
    form
}

/// The form of version 1, for tests and generated inputs; the alarms are left out.
pub fn old_form(record: &Record) -> [u8; LENGTHS[0]] {
    let new = form(record);
    let mut old = [0; LENGTHS[0]];
    old[..ALARMS].copy_from_slice(&new[..ALARMS]);
    old[ALARMS..].copy_from_slice(&new[ALARMS_END..]);
    old[0] = 1;
    old[1..3].copy_from_slice(&(LENGTHS[0] as u16).to_be_bytes());
    old
}

/// Writes a record's form to the start of a buffer, or answers K5 or K6.
pub fn write(record: &Record, buffer: &mut [u8]) -> Result<(), u8> {
    if !record.is_valid() {
        return Err(5);
    }
    if buffer.len() < STORED_LENGTH {
        return Err(6);
    }
    buffer[..STORED_LENGTH].copy_from_slice(&form(record));
    Ok(())
}

/// The version that has this length.
fn version_of(length: usize) -> Option<u8> {
    let place = LENGTHS.iter().position(|&known| known == length)?;
    Some(place as u8 + 1)
}

/// The record that was read; or the number of K1 to K4 and the low record.
pub fn read(stored: &[u8], fault: Fault) -> (Option<u8>, Record) {
    let length = stored.len();
    let Some(version) = version_of(length) else {
        return (Some(1), Record::low());
    };
    if fault == Fault::OldVersionAsK1 && version == VERSION && stored[0] == 1 {
        return (Some(1), Record::low());
    }
    let version_right = stored[0] == version;
    let length_right = stored[1..3] == (length as u16).to_be_bytes();
    if fault == Fault::LengthFieldBeforeVersion && !length_right {
        return (Some(3), Record::low());
    }
    if !version_right {
        return (Some(2), Record::low());
    }
    if !length_right {
        return (Some(3), Record::low());
    }
    let phase_known = usize::from(stored[5]) < Phase::ALL.len();
    let flags = stored[6];
    let flags_known = flags < 32 || fault == Fault::UnusedFlagsIgnored;
    let number_at = |start: usize, count: usize| {
        stored[start..start + count]
            .iter()
            .fold(0, |number, &byte| number << 8 | u32::from(byte))
    };
    let alarms = match version {
        VERSION => alarms::read([stored[17], stored[18], stored[19]], fault),
        _ if fault == Fault::OldVersionWithAlarm => Some(alarms::numbered(12)),
        _ => Some(0),
    };
    let mut parameters = [Parameter { value: 0, level: 0 }; PARAMETERS];
    let stored_parameters = stored[parameter_start(length, 0)..].chunks_exact(PARAMETER_WIDTH);
    for (parameter, bytes) in parameters.iter_mut().zip(stored_parameters) {
        parameter.value = u32::from_be_bytes([bytes[0], bytes[1], bytes[2], bytes[3]]);
        parameter.level = bytes[4];
    }
    let record = Record {
        address: stored[3],
        access: stored[4],
        phase: Phase::ALL[usize::from(stored[5]) % Phase::ALL.len()],
        keypad: flags & 1 != 0,
        flow: flags & 2 != 0,
        changed: flags & 4 != 0,
        batch_reset: flags & 8 != 0,
        power_fail: flags & 16 != 0,
        recipe: stored[7],
        preset: number_at(8, 3),
        raw: number_at(11, 4),
        number: number_at(15, 2) as u16,
        alarms: alarms.unwrap_or(0),
        parameters,
    };
    let fields_valid = record.is_valid()
        || (fault == Fault::AddressZeroStored
            && record.address == 0
            && Record {
                address: 1,
                ..record
            }
            .is_valid());
    if !(phase_known && flags_known && alarms.is_some() && fields_valid) {
        if fault == Fault::RefusedRecordShown {
            return (Some(4), record);
        }
        return (Some(4), Record::low());
    }
    (None, record)
}

#[cfg(test)]
mod tests {
    use super::*;

    fn record() -> Record {
        let mut record = Record {
            raw: 99_999_999,
            preset: 999_999,
            number: 9_999,
            phase: Phase::Done,
            power_fail: true,
            alarms: alarms::numbered(1) | alarms::numbered(12) | alarms::numbered(17),
            ..Record::low()
        };
        record.parameters[31].level = 3;
        record
    }

    #[test]
    fn form_is_read_back() {
        let form = form(&record());
        assert_eq!(form[..7], [2, 0, 0xB4, 1, 0, 4, 16]);
        assert_eq!(form[15..20], [0x27, 0x0F, 0x80, 0x10, 0x40]);
        assert_eq!(read(&form, Fault::None), (None, record()));
    }

    #[test]
    fn version_1_is_read_as_no_alarms() {
        let old = old_form(&record());
        assert_eq!(old[..7], [1, 0, 0xB1, 1, 0, 4, 16]);
        assert_eq!(old[15..22], [0x27, 0x0F, 0, 0, 0, 0, 0]);
        let expected = Record {
            alarms: 0,
            ..record()
        };
        assert_eq!(read(&old, Fault::None), (None, expected));
    }

    /// The refusal of a form with some bytes changed; the low record stands beside it.
    fn refusal(good: &[u8], changes: &[(usize, u8)]) -> Option<u8> {
        let mut bad = good.to_vec();
        for &(place, byte) in changes {
            bad[place] = byte;
        }
        let (number, record) = read(&bad, Fault::None);
        assert_eq!(record, Record::low());
        number
    }

    #[test]
    fn refusals_in_order() {
        let low = Record::low();
        let (old, new) = (&old_form(&low)[..], &form(&low)[..]);
        for length in [0, 176, 178, 179] {
            assert_eq!(refusal(&new[..length], &[]), Some(1));
        }
        assert_eq!(refusal(&[new, &[0]].concat(), &[]), Some(1));
        // A version that is not the length's, and then its length field.
        assert_eq!(refusal(old, &[(0, 2), (2, 0xB4)]), Some(2));
        assert_eq!(refusal(new, &[(0, 1), (2, 0xB1)]), Some(2));
        assert_eq!(refusal(old, &[(2, 0xB4), (3, 0)]), Some(3));
        assert_eq!(refusal(new, &[(2, 0xB1), (3, 0)]), Some(3));
        for form in [old, new] {
            assert_eq!(refusal(form, &[(0, 3), (1, 1), (3, 0)]), Some(2));
            assert_eq!(refusal(form, &[(3, 100)]), Some(4));
            assert_eq!(refusal(form, &[(5, 5)]), Some(4));
            assert_eq!(refusal(form, &[(6, 32)]), Some(4));
        }
        for unused in [0x80, 0x08, 0x04, 0x02, 0x01] {
            assert_eq!(refusal(new, &[(19, unused)]), Some(4));
        }
    }

    #[test]
    fn writing_is_refused() {
        let low = Record::low();
        let mut short = [0; STORED_LENGTH - 1];
        assert_eq!(write(&low, &mut short), Err(6));
        assert_eq!(write(&Record { recipe: 0, ..low }, &mut short), Err(5));
        let alarms = alarms::ALL + 1;
        assert_eq!(write(&Record { alarms, ..low }, &mut short), Err(5));
        assert_eq!(short, [0; STORED_LENGTH - 1]);
    }
}

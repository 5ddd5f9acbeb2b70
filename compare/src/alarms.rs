//! The nineteen system alarms: their numbers, which of them AR switches off, and how they are shown
//! and stored. A set of alarms is a number of nineteen bits, alarm 1 the highest.

use crate::fault::Fault;

/// Name, and whether AR switches it off, by number from 1 on.
const ALARMS: [(&str, bool); 19] = [
    ("DA: RAM Corrupt", false),
    ("DA: Flash Error", false),
    ("DA: RAM Bad", false),
    ("DA: ROM Bad", false),
    ("DA: Passcodes Reset", false),
    ("DA: Prog Error", false),
    ("DA: Watchdog", false),
    ("DA: Flash Backup Bad", false),
    ("U3: User Alarm 3", true),
    ("U2: User Alarm 2", true),
    ("U1: User Alarm 1", true),
    ("PA: Powerfail Alarm", true),
    ("CL: Clean Line", false),
    ("CM: Communications", false),
    ("U5: User Alarm 5", true),
    ("U4: User Alarm 4", true),
    ("PP: PTB PRN", false),
    ("SP: Shared PRN", false),
    ("OA: Overrun", false),
];

pub const HIGHEST_ALARM: u16 = ALARMS.len() as u16;
pub const ALL: u32 = (1 << HIGHEST_ALARM) - 1;
pub const LASTING: u32 = ALL & !RESETTABLE;
pub const RESETTABLE: u32 = {
    let mut alarms = 0;
    let mut number = 1;
    while number <= HIGHEST_ALARM {
        if ALARMS[number as usize - 1].1 {
            alarms |= bit(number);
        }
        number += 1;
    }
    alarms
};

const fn bit(number: u16) -> u32 {
    1 << (HIGHEST_ALARM - number)
}

/// The alarm of a number, or no alarm where none has it.
pub fn numbered(number: u16) -> u32 {
    if (1..=HIGHEST_ALARM).contains(&number) {
        bit(number)
    } else {
        0
    }
}

/// The alarms that are left on by AR.
pub fn after_reset(alarms: u32, fault: Fault) -> u32 {
    match fault {
        Fault::ResetClearsLasting => alarms & (ALL << 11),
        Fault::ResetLeavesUserAlarm4 => alarms & (LASTING | bit(16)),
        Fault::ResetLeavesUserAlarm5 => alarms & (LASTING | bit(15)),
        _ => alarms & LASTING,
    }
}

/// The values of A1 to A5 as one number: the reserved bit of A5 stands before its other three.
fn with_reserved_bit(alarms: u32) -> u32 {
    (alarms & !7) << 1 | alarms & 7
}

fn without_reserved_bit(values: u32) -> u32 {
    (values & !15) >> 1 | values & 7
}

/// The five characters A1 to A5.
pub fn characters(alarms: u32, fault: Fault) -> [u8; 5] {
    let values = match fault {
        Fault::ReservedBitCounted => alarms << 1,
        _ => with_reserved_bit(alarms),
    };
    [16, 12, 8, 4, 0].map(|place| 0x30 | (values >> place & 15) as u8)
}

/// The alarms that so many characters show. The reserved bit is not looked at.
pub fn shown(characters: &[u8]) -> Option<u32> {
    let five = <[u8; 5]>::try_from(characters).ok()?;
    if five.iter().any(|character| character & 0xF0 != 0x30) {
        return None;
    }
    let values = five.iter().fold(0, |values, character| {
        values << 4 | u32::from(character & 15)
    });
    Some(without_reserved_bit(values))
}

/// The three bytes of the stored form: A1 to A5 and a zero, four bits each.
pub fn stored(alarms: u32) -> [u8; 3] {
    let [_, high, middle, low] = (with_reserved_bit(alarms) << 4).to_be_bytes();
    [high, middle, low]
}

/// The alarms in three stored bytes, or none if the reserved bit or one of the last four is set.
pub fn read([high, middle, low]: [u8; 3], fault: Fault) -> Option<u32> {
    let unused = match fault {
        Fault::ReservedBitIgnored => 0x0F,
        Fault::LastBitsIgnored => 0x80,
        _ => 0x8F,
    };
    let values = u32::from_be_bytes([0, high, middle, low]) >> 4;
    (low & unused == 0).then(|| without_reserved_bit(values))
}

#[cfg(test)]
mod tests {
    use super::*;

    /// The alarms of these numbers.
    fn alarms(numbers: impl IntoIterator<Item = u16>) -> u32 {
        numbers
            .into_iter()
            .fold(0, |alarms, number| alarms | numbered(number))
    }

    #[test]
    fn reset_is_for_power_fail_and_user_alarms() {
        for number in 1..=HIGHEST_ALARM {
            let name = &ALARMS[usize::from(number) - 1].0[..2];
            let resettable = ["PA", "U1", "U2", "U3", "U4", "U5"].contains(&name);
            assert_eq!(numbered(number) & RESETTABLE != 0, resettable, "{name}");
        }
        assert_eq!(RESETTABLE, alarms([9, 10, 11, 12, 15, 16]));
        assert_eq!(RESETTABLE.count_ones(), 6);
        assert_eq!(after_reset(ALL, Fault::None), LASTING);
        assert_eq!([0, 20, 65_535].map(numbered), [0; 3]);
    }

    #[test]
    fn numbers_go_down_from_the_first_characters_highest_bit() {
        for number in 1..=HIGHEST_ALARM {
            let place = usize::from(number - 1) / 4;
            let weight = match number {
                17 => 4,
                18 => 2,
                19 => 1,
                _ => 8 >> ((number - 1) % 4),
            };
            let mut expected = *b"00000";
            expected[place] += weight;
            let alarm = numbered(number);
            assert_eq!(characters(alarm, Fault::None), expected, "{number}");
            assert_eq!(shown(&expected), Some(alarm));
            assert_eq!(read(stored(alarm), Fault::None), Some(alarm));
        }
        assert_eq!(characters(ALL, Fault::None), *b"????7");
        assert_eq!(characters(RESETTABLE, Fault::None), *b"00?30");
        assert_eq!(stored(ALL), [0xFF, 0xFF, 0x70]);
        assert_eq!(stored(alarms([1, 19])), [0x80, 0x00, 0x10]);
        for characters in [&b"0000"[..], b"000000", b"0000@", b"/0000"] {
            assert_eq!(shown(characters), None);
        }
    }

    #[test]
    fn unused_stored_bits_are_refused() {
        for bit in 0..24 {
            let [_, high, middle, low] = (1u32 << bit).to_be_bytes();
            let used = bit > 3 && bit != 7;
            let alarms = read([high, middle, low], Fault::None);
            assert_eq!(alarms.is_some(), used, "{bit}");
        }
    }
}

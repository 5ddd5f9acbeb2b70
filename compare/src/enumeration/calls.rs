//! Every command and refusal against every state that can tell.

use super::{buffer, plain_record, request, KINDS};
use crate::alarms;
use crate::command::CODES;
use crate::comparison::{Comparison, Difference};
use crate::frame::Kind;
use crate::parameters::{factor_place, parameter_code};
use crate::record::{Phase, Record, RECIPES};
use crate::stored;

/// Texts that meet each refusal and each acceptance.
#[rustfmt::skip]
const TELLING_TEXTS: [&str; 61] = [
    // Accepted, or refused by the record alone
    "RT R", "PV 032", "XV 032", "PC 032 8000", "PC 032 12000", "PC 807 5", "PC 806 1",
    "XC 032 0", "XC 032 1", "XC 032 2", "XC 032 3", "NR 01", "NR 08", "SB 1", "SB 000001",
    "SB 999999", "RE BD", "RE PC",
    // NO00
    "QQ", "QQX", "QQ ", "QQ 1",
    // NO08 and what is near to it
    "RT G", "RT N", "RT P", "RT M", "RE PF", "RT G ", "RT X", "RE TD",
    // NO01
    "PV 32", "PV ABC", "PV  032", "PV 032 ", "XV 0032", "PC 032 123456789", "PC 032",
    "PC 32 8000", "NR 3", "NR 003", "SB 1234567", "XC 032 10", "PC 999 x",
    // NO04
    "PV 000", "XV 084", "PC 800 1", "PC 999 99999999", "XC 014 1", "XC 809 4", "XC 809 3",
    // NO30
    "NR 00", "NR 09", "NR 99",
    // NO06
    "PC 032 7999", "PC 032 12001", "PC 032 99999999", "PC 806 2", "XC 032 4", "XC 032 9", "SB 0",
    "SB 000000",
];

/// Those, and each code with nothing, with too little and with too much behind it.
pub fn telling_texts() -> Vec<String> {
    let mut texts: Vec<String> = TELLING_TEXTS.map(String::from).to_vec();
    for code in CODES {
        let code = String::from_utf8_lossy(code);
        for arguments in ["", " ", "X", "  ", " X", " 1"] {
            texts.push(format!("{code}{arguments}"));
        }
    }
    texts
}

/// Calls `visit` with every phase, keypad, access and level of all parameters.
pub fn each_state(
    mut visit: impl FnMut(Record, u8) -> Result<(), Difference>,
) -> Result<(), Difference> {
    for phase in Phase::ALL {
        for keypad in [false, true] {
            for access in 0..=3 {
                for level in 0..=3 {
                    let mut record = plain_record();
                    record.phase = phase;
                    record.keypad = keypad;
                    record.access = access;
                    for parameter in &mut record.parameters {
                        parameter.level = level;
                    }
                    visit(record, level)?;
                }
            }
        }
    }
    Ok(())
}

pub fn refusals(comparison: &mut Comparison) -> Result<(), Difference> {
    let texts = telling_texts();
    let reply = buffer(64);
    each_state(|mut record, _| {
        for flags in 0..16 {
            record.flow = flags & 1 != 0;
            record.changed = flags & 2 != 0;
            record.batch_reset = flags & 4 != 0;
            record.power_fail = flags & 8 != 0;
            // None, all or one, beside every phase, keypad, access and level.
            record.alarms = [0, alarms::ALL, 0, alarms::numbered(19)][flags % 4];
            let form = stored::form(&record);
            for (number, text) in texts.iter().enumerate() {
                // Both kinds where the flags are off or on together, else by turns.
                for (other, kind) in KINDS.into_iter().enumerate() {
                    if flags == 0 || flags == 15 || (number + flags) % 2 == other {
                        let request = request(kind, record.address, text);
                        comparison.call(kind as u8, &form, &request, &reply)?;
                    }
                }
            }
        }
        Ok(())
    })
}

/// Each recipe before and after each request that has to do with recipes, RC asked afterwards.
pub fn recipes(comparison: &mut Comparison) -> Result<(), Difference> {
    let mut texts = vec!["RR".to_string(), "RC".to_string()];
    for recipe in 0..=9 {
        texts.push(format!("NR {recipe:02}"));
    }
    for recipe in 1..=RECIPES {
        let code = parameter_code(factor_place(recipe));
        texts.push(format!("PV {code:03}"));
        texts.push(format!("PC {code:03} {}", 8_000 + u32::from(recipe)));
    }
    let reply = buffer(64);
    for recipe in 1..=RECIPES {
        let mut record = plain_record();
        record.recipe = recipe;
        let form = stored::form(&record);
        for text in &texts {
            let first = request(Kind::Minicomputer, record.address, text);
            let (_, after, _) = comparison.call(0, &form, &first, &reply)?;
            let second = request(Kind::Terminal, record.address, "RC");
            comparison.call(1, &after, &second, &reply)?;
        }
    }
    Ok(())
}

/// Every two capitals with nothing, a space and more behind them.
pub fn codes(comparison: &mut Comparison) -> Result<(), Difference> {
    let reply = buffer(64);
    for keypad in [false, true] {
        let record = Record {
            keypad,
            ..plain_record()
        };
        let form = stored::form(&record);
        for first in 'A'..='Z' {
            for second in 'A'..='Z' {
                for arguments in ["", " ", "X", " 032", " 032 1"] {
                    let text = format!("{first}{second}{arguments}");
                    let request = request(Kind::Minicomputer, record.address, &text);
                    comparison.call(0, &form, &request, &reply)?;
                }
            }
        }
    }
    Ok(())
}

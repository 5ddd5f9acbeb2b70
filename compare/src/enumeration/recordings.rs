//! Recordings of every one, two and three telling exchanges, those about alarms and about the changed
//! flag by themselves, and every damage to the form.

use super::request;
use crate::comparison::{Comparison, Difference};
use crate::frame::Kind;
use crate::generate::recordings::Exchanges;
use crate::parameters::{parameter_code, PARAMETERS, VALUE_RANGES};
use crate::recording;

/// Exchanges that tell the judge something: request and replies.
#[rustfmt::skip]
const TELLING: [(&str, &[&str]); 36] = [
    ("SP", &["OK", "NO05", "NO02"]),
    ("SA", &["OK", "NO02", "NO05"]),
    ("SB 1", &["OK", "NO02", "NO05"]),
    ("SB 0", &["NO06", "NO02"]),
    ("ET", &["OK", "NO02", "NO05"]),
    ("NR 03", &["OK", "NO02", "NO05"]),
    ("NR 04", &["OK"]),
    ("PC 032 9000", &["OK", "NO02", "NO07", "NO05"]),
    ("PC 042 9000", &["OK"]),
    ("XC 032 1", &["OK", "NO02", "NO07", "NO05"]),
    ("XC 032 2", &["OK", "NO07"]),
    ("XC 032 3", &["OK", "NO02", "NO07"]),
    ("XC 032 4", &["NO06", "NO02"]),
    ("XV 032", &["XV 032 0", "XV 032 1", "XV 032 2", "XV 032 3", "XV 032 4"]),
    ("PV 032", &["PV 032 00009000", "PV 032 00009001", "PV 032 00007999"]),
    ("PV 042", &["PV 042 00009000", "PV 042 00012001"]),
    ("RC", &["RC 03 00009000", "RC 03 00009001", "RC 04 00009000", "RC 09 00009000",
             "RC 03 00007999"]),
    ("RR", &["RR 03", "RR 04", "RR 00"]),
    ("TN", &["TN 0001", "TN 0002", "TN 9999", "TN 0000"]),
    ("RT R", &["RT R 00000000", "RT R 99999999"]),
    ("EQ", &["000000", "100000", "1:0000", "120000", "580000", "180000", "040000", "800000",
             "980000"]),
    ("EQ", &["080000", "100080", "400000", "020800", "000900", "000008", "<80000", "=80000",
             "?:0900"]),
    ("RS", &["RS ", "RS PW ", "RS TD ", "RS TP ", "RS TP RL ", "RS RL ", "RS BD ", "RS PC "]),
    ("RS", &["RS TD TP ", "RS PW TP RL ", "RS BD PC TP RL ", "RS PC BD ", "RS FL PF "]),
    ("RE BD", &["OK", "NO02", "NO05"]),
    ("RE PC", &["OK", "NO02"]),
    ("RE PF", &["NO08", "NO02"]),
    ("QQ", &["NO00", "NO01"]),
    ("EQ ", &["NO01", "000000"]),
    ("PV 999", &["NO04", "NO01"]),
    ("NR 09", &["NO30", "NO02"]),
    ("XV 807", &["XV 807 3", "XV 807 1"]),
    ("PC 807 5", &["NO07", "OK"]),
    ("XC 807 0", &["OK", "NO07"]),
    ("PV 807", &["PV 807 00000005", "PV 807 00000000"]),
    ("eq", &["", "NO00"]),
];

/// Those that stand in triples too, so few that all of them are judged.
#[rustfmt::skip]
const TELLING_MOST: [(&str, &str); 26] = [
    ("SP", "OK"), ("SP", "NO05"),
    ("SA", "OK"), ("SA", "NO02"), ("SA", "NO05"),
    ("SB 1", "OK"), ("SB 1", "NO05"),
    ("ET", "OK"), ("ET", "NO05"),
    ("NR 03", "OK"), ("NR 03", "NO05"),
    ("PC 032 9000", "OK"), ("PC 032 9000", "NO02"), ("PC 032 9000", "NO07"),
    ("PC 032 9000", "NO05"),
    ("XC 032 1", "OK"), ("XC 032 1", "NO07"), ("XC 032 3", "NO07"),
    ("XV 032", "XV 032 1"), ("XV 032", "XV 032 3"),
    ("RC", "RC 03 00009000"), ("RC", "RC 04 00009001"),
    ("TN", "TN 9999"), ("TN", "TN 0001"),
    ("EQ", "000000"),
    ("RS", "RS PW TP RL "),
];

/// Those that tell of the alarms: none on, one that lasts, one that AR switches off, both.
#[rustfmt::skip]
const TELLING_ALARMS: [(&str, &str); 15] = [
    ("EQ", "100000"), ("EQ", "101000"), ("EQ", "581000"),
    ("RS", "RS "), ("RS", "RS AL "),
    ("EA", "00000"), ("EA", "80000"), ("EA", "00100"), ("EA", "80100"),
    ("AR", "OK"), ("AR", "NO02"),
    ("SA", "OK"), ("SA", "NO02"), ("SA", "NO05"), ("SA", "NO09"),
];

/// Those that stand in longer sequences too.
#[rustfmt::skip]
const FEW_ALARMS: [(&str, &str); 5] = [
    ("EQ", "100000"), ("EQ", "101000"), ("EA", "80000"), ("AR", "OK"), ("SA", "NO09"),
];

/// Replies about alarms that no record gives, or few.
#[rustfmt::skip]
const ODD_ALARMS: [(&str, &str); 20] = [
    ("EA", "????7"), ("EA", "????6"), ("EA", "00008"), ("EA", "?????"), ("EA", "0000"),
    ("EA", "000000"), ("EA", "EA 00000"), ("EA", "0000@"), ("EA", "OK"), ("EA", "NO02"),
    ("EA ", "NO01"), ("EA ", "00000"), ("AR ", "NO01"), ("AR 1", "OK"), ("AR", "NO05"),
    ("AR", "NO09"), ("EQ", "102000"), ("EQ", "108000"), ("RS", "RS FL AL "), ("RS", "RS AL AL "),
];

/// Those that tell of the changed flag, between two that show it.
#[rustfmt::skip]
const TELLING_CHANGED: [(&str, &str); 9] = [
    ("EQ", "000000"), ("EQ", "000800"), ("RS", "RS PC "), ("RE PC", "OK"),
    ("PC 032 9000", "OK"), ("PC 032 9001", "OK"), ("PC 042 9000", "OK"),
    ("PV 032", "PV 032 00009000"), ("RC", "RC 03 00009000"),
];

pub fn telling_exchange(address: u8, command: &str, reply: &str) -> (Vec<u8>, Vec<u8>) {
    let reply = if reply.is_empty() {
        vec![]
    } else {
        request(Kind::Minicomputer, address, reply)
    };
    (request(Kind::Minicomputer, address, command), reply)
}

/// Every telling exchange at each access, every pair of them, every triple of the most telling of
/// which the first two fit, and damaged forms.
pub fn recordings(comparison: &mut Comparison) -> Result<(), Difference> {
    let mut telling = Vec::new();
    for (command, replies) in TELLING {
        for reply in replies {
            telling.push(telling_exchange(1, command, reply));
        }
    }
    for first in &telling {
        for access in [0, 1, 3] {
            comparison.judge(&recording::build(1, access, std::slice::from_ref(first)))?;
        }
        for second in &telling {
            let exchanges = [first.clone(), second.clone()];
            comparison.judge(&recording::build(1, 2, &exchanges))?;
        }
    }
    let most = TELLING_MOST.map(|(command, reply)| telling_exchange(1, command, reply));
    sequences(comparison, &most, &mut vec![], 3)?;
    recording_forms(comparison, &most)
}

/// Every sequence of up to so many exchanges behind those before it, as long as it fits: behind a
/// refutation nothing tells.
fn sequences(
    comparison: &mut Comparison,
    exchanges: &[(Vec<u8>, Vec<u8>)],
    before: &mut Exchanges,
    most: usize,
) -> Result<(), Difference> {
    for exchange in exchanges {
        before.push(exchange.clone());
        let fits = comparison.judge(&recording::build(1, 2, before))?;
        if fits && before.len() < most {
            sequences(comparison, exchanges, before, most)?;
        }
        before.pop();
    }
    Ok(())
}

/// Every one, two and three exchanges that tell of the alarms, more of a few, each beside each of the
/// most telling, and before each odd one.
pub fn alarm_recordings(comparison: &mut Comparison) -> Result<(), Difference> {
    let exchange = |(command, reply)| telling_exchange(1, command, reply);
    let telling = TELLING_ALARMS.map(exchange);
    let mut pairs = Vec::new();
    for first in &telling {
        for other in TELLING_MOST.map(exchange) {
            pairs.push([first.clone(), other.clone()]);
            pairs.push([other, first.clone()]);
        }
        pairs.extend(ODD_ALARMS.map(|odd| [first.clone(), exchange(odd)]));
    }
    for pair in pairs {
        comparison.judge(&recording::build(1, 2, &pair))?;
    }
    sequences(comparison, &telling, &mut vec![], 3)?;
    sequences(comparison, &FEW_ALARMS.map(exchange), &mut vec![], 4)
}

/// Every parameter written over a value that is known or not, and longer sequences over a factor; the
/// flag is known before.
pub fn changed_recordings(comparison: &mut Comparison) -> Result<(), Difference> {
    let flags = [("EQ", "000000"), ("EQ", "000800")]
        .map(|(command, reply)| telling_exchange(1, command, reply));
    for place in 0..PARAMETERS {
        for before in &flags {
            for after in &flags {
                written_over(comparison, place, before, after)?;
            }
        }
    }
    let telling = TELLING_CHANGED.map(|(command, reply)| telling_exchange(1, command, reply));
    // A flag that is on stays on whatever is known of the value, so that shorter ones tell.
    let [off, on] = flags;
    sequences(comparison, &telling, &mut vec![off], 4)?;
    sequences(comparison, &telling, &mut vec![on], 3)
}

/// A parameter's low end and its high end, each written between these exchanges over the low end, known
/// from PV, and over what is not known.
fn written_over(
    comparison: &mut Comparison,
    place: usize,
    before: &(Vec<u8>, Vec<u8>),
    after: &(Vec<u8>, Vec<u8>),
) -> Result<(), Difference> {
    let code = parameter_code(place);
    let (low, high) = VALUE_RANGES[place];
    let shown = format!("PV {code:03} {low:08}");
    let shown = telling_exchange(1, &format!("PV {code:03}"), &shown);
    for value in [low, high] {
        let written = telling_exchange(1, &format!("PC {code:03} {value}"), "OK");
        let unknown = [before, &written, after].map(Clone::clone);
        let known = [before, &shown, &written, after].map(Clone::clone);
        comparison.judge(&recording::build(1, 2, &unknown))?;
        comparison.judge(&recording::build(1, 2, &known))?;
    }
    Ok(())
}

/// Every cut, every byte of the header, every combination of wrong header parts, lengths about the
/// limit.
fn recording_forms(
    comparison: &mut Comparison,
    exchanges: &[(Vec<u8>, Vec<u8>)],
) -> Result<(), Difference> {
    let honest = &exchanges[1..2];
    let refuted = [exchanges[0].clone(), exchanges[0].clone()];
    for whole in [
        recording::build(1, 2, honest),
        recording::build(1, 2, &refuted),
        recording::build(1, 2, &[]),
    ] {
        for length in 0..=whole.len() {
            let mut cut = whole[..length].to_vec();
            comparison.judge(&cut)?;
            recording::mend_length(&mut cut);
            comparison.judge(&cut)?;
        }
        for place in 0..5 {
            for byte in 0..=255 {
                let mut changed = whole.clone();
                changed[place] = byte;
                comparison.judge(&changed)?;
            }
        }
        for wrong in 0..32 {
            let mut changed = whole.clone();
            if wrong & 1 != 0 {
                changed.push(9);
            }
            recording::mend_length(&mut changed);
            for (bit, place) in [(1, 0), (2, 2), (3, 3), (4, 4)] {
                if wrong & 1 << bit != 0 {
                    changed[place] = 200;
                }
            }
            comparison.judge(&changed)?;
        }
    }
    // Exchanges without bytes, and one of the longest frames, up to and past the longest recording.
    for length in [65_533, 65_534, 65_535, 65_536, 65_537] {
        let mut bytes = vec![0; length];
        bytes[..5].copy_from_slice(&[1, 0, 0, 1, 0]);
        recording::mend_length(&mut bytes);
        comparison.judge(&bytes)?;
        bytes[5] = 255;
        comparison.judge(&bytes)?;
        bytes[length - 1] = 1;
        comparison.judge(&bytes)?;
    }
    Ok(())
}

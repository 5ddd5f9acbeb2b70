//! What recordings tell: every reply to every command where much or nothing is known, every parameter,
//! every alarm, every silence, every damage to the form, and what a set means.

use super::recordings::telling_exchange;
use super::request;
use crate::alarms::{self, HIGHEST_ALARM};
use crate::comparison::{Comparison, Difference};
use crate::fault::Fault;
use crate::fields::{ANY, ANY_ALARMS, LASTING_ALARMS};
use crate::frame::{self, Kind};
use crate::generate::recordings::Exchanges;
use crate::parameters::{parameter_code, VALUE_RANGES};
use crate::recording::{self, Exchange};

/// Every command, with the replies that a right one may give.
#[rustfmt::skip]
const COMMANDS: [(&str, &[&str]); 26] = [
    ("EQ", &["000000", "100000", "5:0000", "180000", "040000", "800800", ";20901", "001000",
             "400000", "000008", "00000"]),
    ("RS", &["RS ", "RS AL ", "RS FL BD PC PF PW ", "RS TD ", "RS TP RL ", "RS TP ", "RS RL ",
             "RS BD AL "]),
    ("EA", &["00000", "80000", "00100", "80101", "00008", "0000"]),
    ("TN", &["TN 0417", "TN 0418", "TN 0001", "TN 0000", "TN 417"]),
    ("RR", &["RR 03", "RR 04", "RR 08", "RR 00", "RR 09"]),
    ("RC", &["RC 03 00010012", "RC 03 00010150", "RC 04 00010012", "RC 03 00012001",
             "RC 09 00010012"]),
    ("RT R", &["RT R 00000500", "RT R 00000000", "RT R 0000500"]),
    ("PV 032", &["PV 032 00010012", "PV 032 00010150", "PV 032 00007999", "PV 033 00000001"]),
    ("XV 032", &["XV 032 0", "XV 032 1", "XV 032 2", "XV 032 3", "XV 032 4"]),
    ("PC 032 10150", &[]),
    ("PC 032 10012", &[]),
    ("PC 042 10012", &[]),
    ("XC 032 0", &[]),
    ("XC 032 2", &[]),
    ("XC 032 3", &[]),
    ("NR 03", &[]),
    ("NR 04", &[]),
    ("SB 4000", &[]),
    ("SA", &[]),
    ("SP", &[]),
    ("ET", &[]),
    ("RE BD", &[]),
    ("RE PC", &[]),
    ("AR", &[]),
    ("RE PF", &["NO08"]),
    ("XC 032 4", &["NO06"]),
];

/// Replies that any command is given.
const REPLIES: [&str; 9] = [
    "OK", "NO00", "NO01", "NO02", "NO04", "NO05", "NO07", "NO09", "",
];

/// What makes a field known, or keeps some of its numbers.
#[rustfmt::skip]
const KNOWING: [(&str, &str); 22] = [
    ("RS", "RS "), ("EA", "80100"), ("EQ", "001000"), ("TN", "TN 0417"), ("RR", "RR 03"),
    ("RC", "RC 03 00010012"), ("RT R", "RT R 00000500"), ("PV 032", "PV 032 00010012"),
    ("XV 032", "XV 032 1"), ("PC 032 10150", "OK"), ("PC 032 10150", "NO05"),
    ("PC 032 10150", "NO07"), ("XC 032 2", "OK"), ("XC 032 3", "NO07"), ("NR 03", "OK"),
    ("SB 4000", "OK"), ("SA", "OK"), ("SA", "NO09"), ("SP", "NO05"), ("ET", "OK"), ("AR", "OK"),
    ("AR", "NO02"),
];

/// EQ in each phase, with the keypad off and on.
const STATES: [&str; 10] = [
    "000000", "100000", "580000", "180000", "040000", "800000", "900000", "=80000", "980000",
    "840000",
];

/// What makes all else known that a command of these tells of.
const ALL_ELSE: [(&str, &str); 7] = [
    ("TN", "TN 0417"),
    ("RR", "RR 03"),
    ("PV 032", "PV 032 00010012"),
    ("PV 042", "PV 042 00009000"),
    ("XV 032", "XV 032 1"),
    ("XV 042", "XV 042 3"),
    ("RT R", "RT R 00000500"),
];

fn every_exchange() -> Exchanges {
    let mut exchanges = Exchanges::new();
    for (command, replies) in COMMANDS {
        for reply in replies.iter().chain(&REPLIES) {
            exchanges.push(telling_exchange(1, command, reply));
        }
    }
    exchanges
}

/// Every exchange behind some that tell: all that comes of it, and of it over the sets before it.
fn behind(
    comparison: &mut Comparison,
    before: &Exchanges,
    last: &Exchanges,
) -> Result<(), Difference> {
    let known = recording::build(1, 2, before);
    for (request, reply) in last {
        let mut exchanges = before.clone();
        exchanges.push((request.clone(), reply.clone()));
        comparison.told(&recording::build(1, 2, &exchanges))?;
        comparison.learn(&known, before.len(), Exchange { request, reply })?;
    }
    Ok(())
}

/// Every exchange where nothing is known, where one thing is, and where all is that it tells of.
fn every_reply(comparison: &mut Comparison) -> Result<(), Difference> {
    let exchange = |(command, reply)| telling_exchange(1, command, reply);
    let last = every_exchange();
    behind(comparison, &vec![], &last)?;
    for status in STATES {
        let mut before = vec![exchange(("EQ", status))];
        before.extend(ALL_ELSE.map(exchange));
        behind(comparison, &before, &last)?;
    }
    for (turn, knowing) in KNOWING.into_iter().enumerate() {
        let some: Exchanges = last.iter().skip(turn % 3).step_by(3).cloned().collect();
        behind(comparison, &vec![exchange(knowing)], &some)?;
    }
    Ok(())
}

/// Each parameter's value and level shown, or written, and then shown otherwise.
fn every_parameter(comparison: &mut Comparison) -> Result<(), Difference> {
    for (place, (low, high)) in VALUE_RANGES.into_iter().enumerate() {
        let code = parameter_code(place);
        let shown = |value: u32| (format!("PV {code:03}"), format!("PV {code:03} {value:08}"));
        let level = |level: u32| (format!("XV {code:03}"), format!("XV {code:03} {level}"));
        let ok = |text: String| (text, "OK".to_string());
        let state = ("EQ".to_string(), "000000".to_string());
        for pair in [
            [shown(low), shown(high)],
            [shown(high), shown(high + 1)],
            [ok(format!("PC {code:03} {high}")), shown(low)],
            [ok(format!("PC {code:03} {low}")), level(3)],
            [level(1), level(2)],
            [ok(format!("XC {code:03} 0")), level(1)],
            [level(3), ok(format!("PC {code:03} {high}"))],
        ] {
            let pair = [std::slice::from_ref(&state), &pair[..]].concat();
            let exchanges: Exchanges = pair
                .iter()
                .map(|(command, reply)| telling_exchange(1, command, reply))
                .collect();
            comparison.told(&recording::build(1, 2, &exchanges))?;
        }
    }
    Ok(())
}

/// Each alarm, none and all shown, then reset, then shown otherwise or started with.
fn every_alarm(comparison: &mut Comparison) -> Result<(), Difference> {
    let exchange = |(command, reply): (&str, &str)| telling_exchange(1, command, reply);
    for number in 0..=HIGHEST_ALARM + 1 {
        let on = match number {
            20 => alarms::ALL,
            _ => alarms::numbered(number),
        };
        let characters = alarms::characters(on, Fault::None);
        let shown: &str = &String::from_utf8_lossy(&characters);
        for last in [
            ("EA", "00000"),
            ("EQ", "101000"),
            ("SA", "OK"),
            ("EA", shown),
        ] {
            let first = [("EQ", "100000"), ("EA", shown)].map(exchange);
            let second = [("EA", shown), ("AR", "OK"), last].map(exchange);
            let third = [("AR", "OK"), ("EQ", "101000"), ("AR", "OK"), last].map(exchange);
            let fourth = [("EQ", "101000"), ("AR", "OK"), last].map(exchange);
            for exchanges in [&first[..], &second, &third, &fourth] {
                comparison.told(&recording::build(1, 2, exchanges))?;
            }
        }
    }
    Ok(())
}

/// Requests that meet each of S3 to S8.
fn silent_requests() -> Vec<Vec<u8>> {
    let whole = request(Kind::Minicomputer, 1, "EQ");
    let changed = |place: usize, byte: u8| {
        let mut changed = whole.clone();
        changed[place] = byte;
        changed
    };
    let own = |text: &str| frame::framed(Kind::Minicomputer, text.as_bytes());
    vec![
        vec![],
        vec![0; 65],
        vec![2; 255],
        whole[..7].to_vec(),
        own("01E"),
        own(&format!("01EQ {:056}", 0)),
        changed(0, 3),
        changed(5, 2),
        changed(7, 0),
        changed(6, 0),
        changed(3, b'R'),
        own("01E\u{1}"),
        own("01E\u{7F}"),
        own("0AEQ"),
        own("01eQ"),
        own("01E1"),
        own("02EQ"),
        own("00EQ"),
        own("99SB 1"),
    ]
}

/// Each of them with a reply and without, first and behind an exchange that tells.
fn every_silence(comparison: &mut Comparison) -> Result<(), Difference> {
    let before = telling_exchange(1, "EQ", "000000");
    for request in silent_requests() {
        for reply in ["", "OK", "NO00", "000000"] {
            let (_, reply) = telling_exchange(1, "EQ", reply);
            let exchange = (request.clone(), reply);
            comparison.told(&recording::build(1, 2, std::slice::from_ref(&exchange)))?;
            comparison.told(&recording::build(1, 2, &[before.clone(), exchange]))?;
        }
    }
    // Replies that are no frame, of another address, or too long.
    let (asked, right) = before.clone();
    let mut replies = vec![
        request(Kind::Minicomputer, 2, "000000"),
        request(Kind::Terminal, 1, "000000"),
        vec![0],
        vec![9; 255],
        [&right[..], &[0x7F]].concat(),
    ];
    for place in 0..right.len() {
        let mut damaged = right.clone();
        damaged[place] ^= 1;
        replies.extend([damaged, right[..place].to_vec()]);
    }
    for reply in replies {
        let exchanges = [before.clone(), (asked.clone(), reply)];
        comparison.told(&recording::build(1, 2, &exchanges))?;
    }
    Ok(())
}

/// Every cut, and bytes of the header, of a recording that fits and of one that is refuted.
fn every_form(comparison: &mut Comparison) -> Result<(), Difference> {
    let exchange = |(command, reply)| telling_exchange(1, command, reply);
    let fits = [("EQ", "000000"), ("RR", "RR 03"), ("SB 5", "OK")].map(exchange);
    let refuted = [("EQ", "000000"), ("SA", "OK"), ("RR", "RR 03")].map(exchange);
    for exchanges in [&fits[..], &refuted, &[]] {
        let whole = recording::build(1, 2, exchanges);
        for length in 0..=whole.len() {
            let mut cut = whole[..length].to_vec();
            comparison.told(&cut)?;
            recording::mend_length(&mut cut);
            comparison.told(&cut)?;
        }
        for place in 0..5 {
            for byte in [0, 1, 2, 3, 4, 99, 100, 255] {
                let mut changed = whole.clone();
                changed[place] = byte;
                comparison.told(&changed)?;
            }
        }
    }
    // Exchanges without bytes up to the longest recording and past it.
    for length in [65_533, 65_535, 65_536, 65_537] {
        let mut bytes = vec![0; length];
        bytes[..5].copy_from_slice(&[1, 0, 0, 1, 0]);
        recording::mend_length(&mut bytes);
        comparison.told(&bytes)?;
    }
    for address in 0..=255 {
        for access in [0, 1, 2, 3, 4, 255] {
            comparison.follow(address, access)?;
        }
    }
    Ok(())
}

/// Sets and numbers about every limit, in every field and past the last.
fn every_set(comparison: &mut Comparison) -> Result<(), Difference> {
    let mut numbers: Vec<u32> = (0..=40).collect();
    numbers.extend([
        99,
        100,
        999,
        1_000,
        7_999,
        8_000,
        9_999,
        10_000,
        10_001,
        12_000,
        12_001,
        99_999,
        100_000,
        999_999,
        1_000_000,
        99_999_999,
        100_000_000,
    ]);
    numbers.extend((5..32).map(|bit| 1 << bit));
    numbers.extend([
        alarms::ALL,
        alarms::LASTING,
        alarms::RESETTABLE,
        ANY - 1,
        ANY,
    ]);
    let mut sets = numbers.clone();
    for some in [
        1,
        alarms::numbered(12),
        alarms::ALL,
        LASTING_ALARMS,
        ANY_ALARMS,
        ANY_ALARMS + 1,
        0x10_0000,
    ] {
        sets.extend([some << 1, some << 1 | 1]);
    }
    for field in (0..=80).chain([255, 256, usize::MAX]) {
        for &set in &sets {
            for &number in &numbers {
                comparison.may_hold(field, set, number)?;
            }
        }
    }
    Ok(())
}

pub fn tellings(comparison: &mut Comparison) -> Result<(), Difference> {
    every_set(comparison)?;
    every_form(comparison)?;
    every_silence(comparison)?;
    every_alarm(comparison)?;
    every_parameter(comparison)?;
    every_reply(comparison)
}

#[cfg(test)]
mod tests {
    use super::*;
    use crate::fault::PLANTED;

    /// This enumeration alone notices what is planted in what recordings tell.
    #[test]
    fn faults_of_the_telling_are_noticed() {
        let planted = PLANTED
            .iter()
            .filter(|(_, name)| name.starts_with("known:") || name.starts_with("why:"));
        for &(fault, name) in planted {
            let noticed = tellings(&mut Comparison::new(fault)).is_err();
            assert!(noticed, "{name}");
        }
    }
}

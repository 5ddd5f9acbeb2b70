//! Request texts and frames: right, malformed and damaged.

use crate::command::CODES;
use crate::frame::{self, Kind};
use crate::generate::records;
use crate::parameters::{factor_place, parameter_code, VALUE_RANGES};
use crate::random::Random;
use crate::record::{Phase, Record};

/// A number printed in its least width or wider.
fn printed(random: &mut Random, number: u32, most: usize) -> String {
    let least = number.to_string().len();
    let width = match random.below(3) {
        0 => most.max(least),
        1 => random.between(least as u32, most.max(least) as u32) as usize,
        _ => least,
    };
    format!("{number:0width$}")
}

fn parameter(random: &mut Random) -> (String, (u32, u32)) {
    if random.percent(10) {
        let code = match random.below(3) {
            0 => random.pick(&[
                0, 1, 10, 14, 15, 20, 24, 80, 84, 90, 91, 92, 800, 809, 811, 999,
            ]),
            _ => random.between(0, 999),
        };
        return (format!("{code:03}"), (0, 99_999));
    }
    let place = records::place(random);
    (format!("{:03}", parameter_code(place)), VALUE_RANGES[place])
}

/// Makes code and arguments of some command in its right form, to a controller with this record.
pub type Commands = fn(&mut Random, &Record) -> String;

/// Any command.
pub fn command(random: &mut Random, record: &Record) -> String {
    match random.below(100) {
        0..=14 => random
            .pick(&["EA", "AR", "EA", "AR", "SA", "EQ", "RS"])
            .into(),
        15..=19 => reload(random, record),
        _ => command_of_document_01(random),
    }
}

/// A PC of the value that the parameter holds, now and then of one that another parameter holds.
fn reload(random: &mut Random, record: &Record) -> String {
    let place = records::place(random);
    let from = if random.percent(25) {
        records::place(random)
    } else {
        place
    };
    let value = record.parameters[from].value;
    let code = parameter_code(place);
    format!("PC {code:03} {}", printed(random, value, 8))
}

/// Any command that document 01 has, arguments often at or past an edge.
pub fn command_of_document_01(random: &mut Random) -> String {
    match random.below(22) {
        0 => "EQ".into(),
        1 => "RS".into(),
        2 => "TN".into(),
        3 => "RR".into(),
        4 => "RC".into(),
        5 => "RT R".into(),
        6 => format!("RT {}", random.pick(&['G', 'N', 'P', 'M'])),
        7 => format!("PV {}", parameter(random).0),
        8 => format!("XV {}", parameter(random).0),
        9..=11 => {
            let (code, (low, high)) = parameter(random);
            let value = match random.below(8) {
                0 => low.saturating_sub(1),
                1 => high + 1,
                2 => random.between(0, 99_999_999),
                _ => records::number(random, low, high, true),
            };
            format!("PC {code} {}", printed(random, value, 8))
        }
        12 | 13 => {
            let level = if random.percent(80) {
                random.between(0, 4)
            } else {
                random.between(0, 9)
            };
            format!("XC {} {level}", parameter(random).0)
        }
        14 => format!(
            "NR {:02}",
            random.pick(&[0, 1, 2, 3, 4, 5, 6, 7, 8, 9, 10, 99])
        ),
        15 | 16 => {
            let preset = match random.below(4) {
                0 => 0,
                1 => random.pick(&[1, 2, 500, 999_998, 999_999, 1_000_000]),
                _ => random.between(0, 999_999),
            };
            format!("SB {}", printed(random, preset, 6))
        }
        17 => "SA".into(),
        18 => "SP".into(),
        19 => "ET".into(),
        20 => format!("RE {}", random.pick(&["BD", "PC"])),
        _ => format!("RE {}", random.pick(&["PF", "BD", "TD"])),
    }
}

/// Any command to a unit with a bank: many ask for kept batches, and many bring a batch on.
pub fn banked_command(random: &mut Random, record: &Record) -> String {
    match random.below(10) {
        0..=2 => kept_batch(random),
        3..=7 => next_of_batch(random, record),
        _ => command(random, record),
    }
}

/// RT R NNN, or a text that is near to it.
pub fn kept_batch(random: &mut Random) -> String {
    let number = match random.below(4) {
        0 => random.below(4),
        1 => random.pick(&[50, 98, 99, 100, 101, 102, 200, 255, 256, 257, 356, 999]),
        2 => random.below(103),
        _ => random.below(1_000),
    };
    match random.below(24) {
        0 => "RT R".into(),
        1 => format!("RT {} {number:03}", random.pick(b"GNPMXr ") as char),
        2 => format!("RT R {number}"),
        3 => format!("RT R {number:04}"),
        4 => format!("RT R {number:02}"),
        5 => random
            .pick(&[
                "RT R ",
                "RT R 0A1",
                "RT R  001",
                "RT R001",
                "RT 001",
                "RT R -01",
            ])
            .into(),
        6 => format!("RT R {number:03}{}", random.pick(&[" ", "0", " 1", "X"])),
        _ => format!("RT R {number:03}"),
    }
}

/// What brings a batch on from its phase, or ends it; or one of these by chance.
fn next_of_batch(random: &mut Random, record: &Record) -> String {
    if random.percent(25) {
        return random.pick(&["SB 9", "SA", "SP", "ET"]).into();
    }
    match record.phase {
        Phase::Idle if random.percent(25) => {
            let code = parameter_code(factor_place(record.recipe));
            format!("PC {code:03} {}", random.between(8_000, 12_000))
        }
        Phase::Idle => format!("SB {}", random.between(1, 100)),
        Phase::Set => random.pick(&["SA", "SA", "ET", "AR"]).into(),
        Phase::Running => "SP".into(),
        Phase::Stopped => random.pick(&["ET", "ET", "SA"]).into(),
        Phase::Done => random.pick(&["ET", "ET", "ET", "SB 5"]).into(),
    }
}

/// A character that requests are made of, or any text byte.
fn character(random: &mut Random) -> u8 {
    if random.percent(70) {
        random.pick(b"   0123456789ABCDEGMNPRSTVX")
    } else {
        random.between(0x20, 0x7E) as u8
    }
}

/// Changes a text in one place so that its form is likely wrong.
fn malform(random: &mut Random, text: &mut Vec<u8>) {
    match random.below(8) {
        0 => text.push(b' '),
        1 => {
            text.pop();
        }
        2 => text.push(character(random)),
        3 => {
            let place = random.below(text.len() + 1);
            text.insert(place, character(random));
        }
        4 if !text.is_empty() => {
            let place = random.below(text.len());
            text[place] = character(random);
        }
        5 if text.len() > 2 => {
            let place = 2 + random.below(text.len() - 2);
            text.remove(place);
        }
        6 if text.len() >= 4 => {
            let letters = [random.pick(b"ABEQRSTXZ"), random.pick(b"CQRSVAZ")];
            text[2..4].copy_from_slice(&letters);
        }
        _ if text.len() >= 4 => {
            let code = random.pick(&CODES);
            text[2..4].copy_from_slice(code);
        }
        _ => text.insert(0, b' '),
    }
}

/// A request's text for a controller with this record.
pub fn text(random: &mut Random, record: &Record, command: Commands) -> Vec<u8> {
    let address = match random.below(30) {
        0 => "00".into(),
        1 => format!("{:02}", random.below(100)),
        2 => format!("{:02}", (record.address % 99) + 1),
        3 => random.pick(&["0A", "A0", " 1", "1 ", "/1", "0:"]).into(),
        _ => format!("{:02}", record.address),
    };
    let mut text = format!("{address}{}", command(random, record)).into_bytes();
    if random.percent(12) {
        malform(random, &mut text);
        if random.percent(30) {
            malform(random, &mut text);
        }
    }
    if random.percent(3) {
        let length = random.pick(&[3, 4, 5, 59, 60, 61, 62]);
        text.resize(length, b'0');
    }
    text
}

/// Damages a frame once.
pub fn damage(random: &mut Random, kind: Kind, frame: &mut Vec<u8>) {
    let length = frame.len();
    let place = if length == 0 { 0 } else { random.below(length) };
    match random.below(10) {
        0 => frame.truncate(place),
        1 => frame.push(random.byte()),
        2 => frame.insert(place, random.byte()),
        3 if length > 0 => {
            frame.remove(place);
        }
        4 if length > 0 => frame[place] ^= 1 << random.below(8),
        5 if length > 0 => frame[0] = random.pick(&[0x02, 0x03, b'*', 0x7F, 0x0D]),
        6 if length > 0 => frame[length - 1] = random.pick(&[0x7F, 0x0A, 0x0D, 0x03, 0x02]),
        7 if length > 3 => frame[length - 2] = random.pick(&[0x02, 0x0D, 0x0A, 0x00, 0x7F]),
        8 if length > 3 => frame[length - 3] = random.pick(&[0x02, 0x03, 0x0D, 0x7F]),
        // A byte that is no text byte under a check that is right.
        _ if length > 8 => {
            let place = 1 + random.below(length - 4);
            let byte = match random.below(4) {
                0 => random.pick(&[0x1F, 0x7F, 0x00, 0x02, 0x03, 0x80, 0xFF]),
                _ => random.byte(),
            };
            if kind == Kind::Minicomputer && place < length - 3 {
                frame[length - 2] ^= frame[place] ^ byte;
            }
            frame[place] = byte;
        }
        _ => frame.push(0x7F),
    }
}

/// A request frame, seldom one of the other kind, now and then damaged or noise.
pub fn request(random: &mut Random, kind: Kind, record: &Record, command: Commands) -> Vec<u8> {
    let other = match kind {
        Kind::Minicomputer => Kind::Terminal,
        Kind::Terminal => Kind::Minicomputer,
    };
    match random.below(100) {
        0..=2 => {
            let length = random.below(71);
            random.bytes(length)
        }
        3 => {
            let length = random.between(71, 300) as usize;
            random.bytes(length)
        }
        4..=8 => {
            // Marks and check as they should be around a text of any length.
            let length = random.below(71);
            let mut bytes = text(random, record, command);
            while bytes.len() < length {
                bytes.push(character(random));
            }
            frame::framed(kind, &bytes[..length])
        }
        9 => frame::framed(other, &text(random, record, command)),
        10..=27 => {
            let mut frame = frame::framed(kind, &text(random, record, command));
            for _ in 0..random.between(1, 3) {
                damage(random, kind, &mut frame);
            }
            frame
        }
        _ => frame::framed(kind, &text(random, record, command)),
    }
}

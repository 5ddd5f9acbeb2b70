//! Recordings that are likely refuted, for every reason that there is.

use crate::frame::{self, Kind};
use crate::generate::recordings::{another_reply, exchange, telling_values, Exchanges};
use crate::generate::records::{self, Field};
use crate::generate::requests;
use crate::parameters::{factor_place, parameter_code, VALUE_RANGES};
use crate::random::Random;
use crate::record::{Record, HIGHEST_LEVEL};
use crate::recording;

fn framed(address: u8, text: &str) -> Vec<u8> {
    frame::framed(Kind::Minicomputer, format!("{address:02}{text}").as_bytes())
}

/// A read; of the parameters, of the one at the place.
fn read(random: &mut Random, place: usize) -> String {
    let code = parameter_code(place);
    match random.below(10) {
        0 | 1 => "EQ".into(),
        2 => "RS".into(),
        3 => "TN".into(),
        4 => "RR".into(),
        5 => "RC".into(),
        6 => "RT R".into(),
        7 => "EA".into(),
        8 => format!("PV {code:03}"),
        _ => format!("XV {code:03}"),
    }
}

/// A write; to the parameters, to the one at the place.
fn write(random: &mut Random, record: &Record, place: usize) -> String {
    let code = parameter_code(place);
    match random.below(12) {
        0 | 1 => format!(
            "PC {code:03} {}",
            random.pick(&telling_values(record, place))
        ),
        2 => format!("XC {code:03} {}", records::level(random)),
        3 => format!("NR {:02}", random.between(1, 8)),
        4 | 5 => format!("SB {}", random.between(1, 999_999)),
        6 => "SA".into(),
        7 => "SP".into(),
        8 => "ET".into(),
        9 => "RE BD".into(),
        10 => "RE PC".into(),
        _ => "AR".into(),
    }
}

fn command(random: &mut Random, record: &Record, place: usize) -> String {
    if random.percent(60) {
        read(random, place)
    } else {
        write(random, record, place)
    }
}

/// A request and a reply that no record gives to it.
fn impossible(random: &mut Random, place: usize) -> (String, String) {
    let code = parameter_code(place);
    let past = VALUE_RANGES[place].1 + 1;
    let (command, reply) = match random.below(20) {
        0 => ("TN", "TN 0000"),
        1 => ("RR", "RR 00"),
        2 => ("RR", "RR 09"),
        3 => ("RC", "RC 00 00009000"),
        4 => ("RC", "RC 03 00012001"),
        5 => ("RC", "RC 03 00007999"),
        6 => ("EQ", "400000"),
        7 => ("EQ", "080000"),
        8 => ("EQ", "002000"),
        9 => ("EQ", "000001"),
        10 => ("RS", "RS RL "),
        11 => ("RS", "RS TD TP "),
        12 => ("RS", "RS PC BD "),
        13 => ("EA", "00008"),
        14 => ("SP", "NO02"),
        15 => ("SB 5", "NO07"),
        16 => ("ET", "NO09"),
        17 => ("QQ", "OK"),
        18 => return (format!("XV {code:03}"), format!("XV {code:03} 4")),
        _ => return (format!("PV {code:03}"), format!("PV {code:03} {past:08}")),
    };
    (command.into(), reply.into())
}

/// A request whose reply tells of a field.
fn telling(random: &mut Random, record: &Record, field: Field, place: usize) -> String {
    let code = parameter_code(place);
    match field {
        Field::Phase => random.pick(&["EQ", "RS", "SP", "SA", "ET", "SB 1"]).into(),
        Field::Keypad => random.pick(&["EQ", "RS", "SA", "AR", "RE BD"]).into(),
        Field::Flow | Field::Changed | Field::BatchReset | Field::PowerFail => {
            random.pick(&["EQ", "RS"]).into()
        }
        Field::Recipe => random.pick(&["RR", "RC"]).into(),
        Field::Raw => "RT R".into(),
        Field::Number => "TN".into(),
        Field::Value => format!("PV {code:03}"),
        Field::Level if random.percent(50) => format!("XV {code:03}"),
        Field::Level => format!("PC {code:03} {}", record.parameters[place].value),
        Field::Alarms => random.pick(&["EQ", "RS", "EA", "SA"]).into(),
    }
}

/// A request that should meet silence.
fn silent_request(random: &mut Random, record: &Record) -> Vec<u8> {
    match random.below(4) {
        0 => {
            let other = record.address % 99 + 1;
            framed(other, &requests::command(random, record))
        }
        1 => framed(record.address, random.pick(&["eq", "E1", "Rs", "1Q"])),
        2 => frame::framed(Kind::Minicomputer, b"A1EQ"),
        _ => {
            let mut request = framed(record.address, &requests::command(random, record));
            requests::damage(random, Kind::Minicomputer, &mut request);
            request
        }
    }
}

/// An exchange that a controller with this record does not make, for the most part.
fn wrong(random: &mut Random, record: &mut Record, place: usize) -> (Vec<u8>, Vec<u8>) {
    let address = record.address;
    match random.below(16) {
        0 => {
            let (command, reply) = impossible(random, place);
            (framed(address, &command), framed(address, &reply))
        }
        1 => {
            let request = silent_request(random, record);
            let reply = random.pick(&["OK", "NO00", "NO01", "000000"]);
            (request, framed(address, reply))
        }
        2 => {
            let request = framed(address, &command(random, record, place));
            (request, vec![])
        }
        3 => {
            let request = framed(address, &command(random, record, place));
            let (request, mut reply) = exchange(record, request);
            requests::damage(random, Kind::Minicomputer, &mut reply);
            (request, reply)
        }
        4 => {
            let request = framed(address, &command(random, record, place));
            let (request, reply) = exchange(record, request);
            let reply = another_reply(random, address, &reply);
            (request, reply)
        }
        5..=8 => {
            let request = framed(address, &write(random, record, place));
            let (request, _) = exchange(record, request);
            let reply = random.pick(&["OK", "OK", "NO05", "NO05", "NO02", "NO07", "NO09"]);
            (request, framed(address, reply))
        }
        _ => {
            // As a controller whose record jumped.
            let field = records::field(random);
            records::jump(random, record, field, &[place]);
            let command = telling(random, record, field, place);
            exchange(record, framed(address, &command))
        }
    }
}

/// Up to so many exchanges as the controller makes them.
fn go_on(
    random: &mut Random,
    record: &mut Record,
    place: usize,
    most: usize,
    exchanges: &mut Exchanges,
) {
    for _ in 0..random.below(most + 1) {
        let request = framed(record.address, &command(random, record, place));
        exchanges.push(exchange(record, request));
    }
}

/// Exchanges with a controller, one that it does not make, and now and then some behind that.
pub fn recording(random: &mut Random) -> Vec<u8> {
    let mut record = records::record(random);
    record.keypad &= random.percent(40);
    if random.percent(50) {
        record.access = HIGHEST_LEVEL;
    }
    if random.percent(60) {
        record.alarms = 0;
    }
    let place = match random.below(3) {
        0 => records::place(random),
        _ => factor_place(record.recipe),
    };
    let mut exchanges = Exchanges::new();
    go_on(random, &mut record, place, 8, &mut exchanges);
    exchanges.push(wrong(random, &mut record, place));
    go_on(random, &mut record, place, 3, &mut exchanges);
    let mut bytes = recording::build(record.address, record.access, &exchanges);
    if random.percent(5) {
        bytes.truncate(bytes.len() - 1 - random.below(3));
        recording::mend_length(&mut bytes);
    }
    bytes
}

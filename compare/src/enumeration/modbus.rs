//! The controller on Modbus: every register, count, byte count, function, length, slave and reply room, every
//! damage to some frames, every parameter written in every state, every refusal against every other.

use super::bank::{each_bank, unit};
use super::calls::each_state;
use super::changed::other_values;
use super::{buffer, plain_record, request};
use crate::alarms;
use crate::comparison::{Comparison, Difference, Unit};
use crate::frame::Kind;
use crate::modbus::{
    any_write_request, framed, read_request, write_request, EXCEPTION, LEAST_FRAME, MOST_FRAME,
    MOST_READ, PAIR, READ, REGISTERS, REPLY_ROOM, WRITE,
};
use crate::parameters::{another_value, parameter_code, parameter_place, PARAMETERS, VALUE_RANGES};
use crate::record::{Phase, Record};
use crate::stored;

/// Registers far behind the last, and counts far above the most.
const HIGH: [u16; 10] = [
    127, 128, 255, 256, 320, 0x7FFF, 0x8000, 0xFFC0, 0xFFFE, 0xFFFF,
];

pub fn modbus(comparison: &mut Comparison) -> Result<(), Difference> {
    orders(comparison)?;
    words(comparison)?;
    slaves(comparison)?;
    rooms(comparison)?;
    lengths(comparison)?;
    functions(comparison)?;
    banks(comparison)?;
    stored_bytes(comparison)?;
    in_a_row(comparison)?;
    damages(comparison)?;
    reads(comparison)?;
    writes(comparison)?;
    rewritten(comparison)?;
    states(comparison)
}

fn form(record: &Record) -> Vec<u8> {
    stored::form(record).to_vec()
}

/// The plain record, and a bank of two batches.
fn plain_unit() -> Unit {
    unit(&plain_record(), 2)
}

/// Lends a request without a bank, and now and then with one too.
fn lend(
    comparison: &mut Comparison,
    unit: &Unit,
    request: &[u8],
    turn: usize,
) -> Result<(), Difference> {
    let reply = buffer(REPLY_ROOM + turn % 2);
    match turn % 4 {
        0 => comparison.modbus_and_banked(unit, request, &reply)?,
        _ => comparison.modbus(&unit.stored, request, &reply)?,
    };
    Ok(())
}

/// A read, a write, an exception, a function that is not served and a function that meets silence, to the
/// plain record or another slave.
fn some_requests(slave: u8) -> Vec<Vec<u8>> {
    vec![
        read_request(slave, 0, REGISTERS as u16),
        read_request(slave, 15, 3),
        write_request(slave, 7, 10_150),
        read_request(slave, 63, 2),
        write_request(slave, 7, 7_999),
        framed(&[slave, 7]),
        framed(&[slave, READ | EXCEPTION, 0, 0, 0, 1]),
    ]
}

/// Every first register up to some behind the last, and some far behind it, with every count up to some above
/// the most, and some far above it.
fn reads(comparison: &mut Comparison) -> Result<(), Difference> {
    let unit = plain_unit();
    let slave = plain_record().address;
    for start in (0..=70).chain(HIGH) {
        let to_wrap = (0..3).map(|over| 0u16.wrapping_sub(start).wrapping_add(over));
        for count in (0..=MOST_READ + 5).chain(HIGH).chain(to_wrap) {
            let turn = usize::from(start) + usize::from(count);
            lend(comparison, &unit, &read_request(slave, start, count), turn)?;
        }
    }
    Ok(())
}

/// Every first register with few registers and few bytes; and every byte count with every number of values.
fn writes(comparison: &mut Comparison) -> Result<(), Difference> {
    let record = plain_record();
    let unit = plain_unit();
    for start in (0..=70).chain(HIGH) {
        let place = usize::from(start / PAIR) % PARAMETERS;
        let value = another_value(place, record.parameters[place].value);
        let values = [value.to_be_bytes(), value.to_be_bytes()].concat();
        for count in 0..=4 {
            for bytes in 0..=8 {
                let values = &values[..usize::from(bytes)];
                let write = any_write_request(record.address, start, count, bytes, values);
                lend(comparison, &unit, &write, usize::from(bytes))?;
            }
        }
        for count in HIGH {
            let write = any_write_request(record.address, start, count, 4, &values[..4]);
            lend(comparison, &unit, &write, 1)?;
        }
    }
    for count in 0..=4 {
        for bytes in (0..=12).chain([255]) {
            for length in 0..=12 {
                let write = any_write_request(record.address, 0, count, bytes, &[0; 12][..length]);
                lend(comparison, &unit, &write, length)?;
            }
        }
    }
    Ok(())
}

/// Every function with every length about those of reads and writes.
fn functions(comparison: &mut Comparison) -> Result<(), Difference> {
    let unit = plain_unit();
    let slave = plain_record().address;
    for function in 0..=255 {
        let message = [slave, function, 0, 0, 0, 2, 4, 0, 0, 0, 7, 0, 0, 0];
        for length in LEAST_FRAME..=16 {
            lend(comparison, &unit, &framed(&message[..length - 2]), length)?;
        }
    }
    Ok(())
}

/// Frames of every length up to some above the most, right but for it and with a wrong CRC, with the byte count
/// that goes with it and without, in reply buffers about the least.
fn lengths(comparison: &mut Comparison) -> Result<(), Difference> {
    let form = form(&plain_record());
    let slave = plain_record().address;
    for function in [READ, WRITE, 4, 127, 128, 255] {
        for length in 0..=300usize {
            let own = length.saturating_sub(9) as u8;
            for bytes in [own, 4] {
                let mut message = vec![slave, function, 0, 0, 0, 2, bytes];
                message.resize(length.max(7), 0);
                let mut frame = framed(&message[..length.saturating_sub(2)]);
                frame.truncate(length);
                comparison.modbus(&form, &frame, &buffer(REPLY_ROOM))?;
                comparison.modbus(&form, &frame, &buffer(REPLY_ROOM - 1))?;
                if let Some(last) = frame.last_mut() {
                    *last ^= 0x40;
                    comparison.modbus(&form, &frame, &buffer(REPLY_ROOM))?;
                }
            }
        }
    }
    Ok(())
}

/// Every bit flipped, every two bytes exchanged, every cut and every byte left out or doubled, the CRC left;
/// and every byte in every place of the message under a right CRC.
fn damages(comparison: &mut Comparison) -> Result<(), Difference> {
    let form = form(&plain_record());
    let room = buffer(REPLY_ROOM);
    let slave = plain_record().address;
    for whole in [
        read_request(slave, 14, 2),
        write_request(slave, 7, 10_150),
        framed(&[slave, 7]),
    ] {
        let mut lend = |frame: &[u8]| comparison.modbus(&form, frame, &room).map(|_| ());
        let changed = |change: &dyn Fn(&mut Vec<u8>)| {
            let mut frame = whole.clone();
            change(&mut frame);
            frame
        };
        for place in 0..whole.len() {
            for bit in 0..8 {
                lend(&changed(&|frame| frame[place] ^= 1 << bit))?;
            }
            for other in 0..place {
                lend(&changed(&|frame| frame.swap(place, other)))?;
            }
            lend(&whole[..place])?;
            lend(&whole[place..])?;
            lend(&[&whole[..place], &whole[place + 1..]].concat())?;
            lend(&changed(&|frame| frame.insert(place, whole[place])))?;
        }
        for place in 0..whole.len() - 2 {
            for byte in 0..=255 {
                let frame = changed(&|frame| frame[place] = byte);
                lend(&framed(&frame[..whole.len() - 2]))?;
            }
        }
    }
    Ok(())
}

/// Every reply room up to some above the least.
fn rooms(comparison: &mut Comparison) -> Result<(), Difference> {
    let unit = plain_unit();
    let requests = some_requests(plain_record().address);
    for room in 0..=300 {
        for (turn, request) in requests.iter().enumerate() {
            let reply = buffer(room);
            comparison.modbus(&unit.stored, request, &reply)?;
            if turn == room % requests.len() {
                comparison.modbus_and_banked(&unit, request, &reply)?;
            }
        }
    }
    Ok(())
}

/// Every slave, to records at the ends of the addresses and between.
fn slaves(comparison: &mut Comparison) -> Result<(), Difference> {
    for address in [1, 42, 99] {
        let record = Record {
            address,
            ..plain_record()
        };
        let unit = unit(&record, 1);
        for slave in 0..=255 {
            for (turn, request) in some_requests(slave).iter().enumerate() {
                lend(comparison, &unit, request, turn)?;
            }
        }
    }
    Ok(())
}

/// How many reasons there are to refuse a request.
const REASONS: usize = 16;

/// A record, a bank, a request and a reply buffer that are wrong as the bits of a number say.
fn refused(write: bool, wrong: u32) -> (Unit, Vec<u8>, Vec<u8>) {
    let has = |bit: u32| wrong & 1 << bit != 0;
    let place = 7;
    let mut record = plain_record();
    record.keypad = has(0);
    if has(1) {
        record.parameters[place].level = 3;
    }
    if has(2) {
        record.phase = Phase::Running;
    }
    let mut unit = unit(&record, 2);
    if has(3) {
        unit.stored[7] = 9;
    }
    if has(4) {
        unit.bank[0] = 2;
    }
    let room = if has(5) { REPLY_ROOM - 1 } else { REPLY_ROOM };
    let slave = if has(6) { 0 } else { record.address };
    let mut function = if write { WRITE } else { READ };
    if has(7) {
        function = 4;
    }
    if has(8) {
        function |= EXCEPTION;
    }
    let start = match (has(9), write) {
        (false, _) => 2 * place as u8,
        (true, true) => 2 * place as u8 + 1,
        (true, false) => 63,
    };
    let count = if has(10) { 0 } else { 2 };
    let mut message = vec![slave, function, 0, start, 0, count];
    if write {
        let value: u32 = if has(11) { 7_999 } else { 10_150 };
        message.push(if has(12) { 6 } else { 4 });
        message.extend(value.to_be_bytes());
        if has(12) {
            message.extend([0, 0]);
        }
    }
    if has(13) {
        message.push(0);
    }
    if has(14) {
        message.resize(MOST_FRAME - 1, 0);
    }
    let mut frame = framed(&message);
    if has(15) {
        let length = frame.len();
        frame.swap(length - 1, length - 2);
    }
    (unit, frame, buffer(room))
}

/// Every reason to refuse a request against every other two.
fn orders(comparison: &mut Comparison) -> Result<(), Difference> {
    for wrong in 0u32..1 << REASONS {
        if wrong.count_ones() <= 3 {
            for write in [false, true] {
                let (unit, frame, reply) = refused(write, wrong);
                comparison.modbus(&unit.stored, &frame, &reply)?;
                comparison.banked_modbus(&unit, &frame, &reply)?;
            }
        }
    }
    Ok(())
}

/// Every parameter in every phase, with the keypad off and on, at every access and level, written with values
/// below, at, inside and above its range, by Modbus and by PC.
fn states(comparison: &mut Comparison) -> Result<(), Difference> {
    each_state(|mut record, level| {
        record.alarms = alarms::numbered(u16::from(level));
        let form = form(&record);
        for (place, (low, high)) in VALUE_RANGES.into_iter().enumerate() {
            let inside = (low + high) / 2;
            for value in [low.wrapping_sub(1), low, inside, high, high + 1] {
                comparison.modbus_and_pc(&form, place, value)?;
            }
        }
        Ok(())
    })
}

/// Each parameter, with the changed flag off and on: the value held, another, and the one held before, each
/// twice, the second time with the flag cleared before it.
fn rewritten(comparison: &mut Comparison) -> Result<(), Difference> {
    let clear = request(Kind::Minicomputer, plain_record().address, "RE PC");
    for place in 0..PARAMETERS {
        for changed in [false, true] {
            let record = Record {
                changed,
                ..plain_record()
            };
            let held = record.parameters[place].value;
            for other in other_values(&record, place).into_iter().step_by(2) {
                let mut form = form(&record);
                for value in [held, other, held] {
                    form = comparison.modbus_and_pc(&form, place, value)?;
                    (_, form, _) = comparison.call(0, &form, &clear, &buffer(64))?;
                    form = comparison.modbus_and_pc(&form, place, value)?;
                }
            }
        }
    }
    Ok(())
}

/// The parameter whose values take more than a word, from every value about a word's ends to every other; and
/// each parameter with a bit of the high word set.
fn words(comparison: &mut Comparison) -> Result<(), Difference> {
    let wide = parameter_place(807).unwrap_or_default();
    let held = [
        1, 2, 0x869F, 0x86A0, 0xFFFF, 0x1_0000, 0x1_0001, 99_998, 99_999,
    ];
    let past = [
        0,
        100_000,
        0x1_FFFF,
        0x2_0000,
        0x2_0001,
        99_999_999,
        100_000_000,
        u32::MAX,
    ];
    for before in held {
        let mut record = plain_record();
        record.parameters[wide].value = before;
        for value in held.into_iter().chain(past) {
            comparison.modbus_and_pc(&form(&record), wide, value)?;
            comparison.modbus_and_pc(&form(&record), wide, value.rotate_left(16))?;
        }
    }
    let record = plain_record();
    for (place, parameter) in record.parameters.iter().enumerate() {
        for bit in 16..32 {
            comparison.modbus_and_pc(&form(&record), place, parameter.value | 1 << bit)?;
        }
    }
    Ok(())
}

/// Each parameter written in turn, and all registers, the parameter by PV, the factor in use and the status
/// asked for after each; Smith calls of either kind write between.
fn in_a_row(comparison: &mut Comparison) -> Result<(), Difference> {
    let record = plain_record();
    let room = buffer(REPLY_ROOM);
    let all = read_request(record.address, 0, REGISTERS as u16);
    let mut form = form(&record);
    for turn in 0..2 * PARAMETERS {
        let place = turn * 5 % PARAMETERS;
        let (low, high) = VALUE_RANGES[place];
        let value = if turn < PARAMETERS { high } else { low };
        let write = write_request(record.address, place, value);
        (_, form, _) = comparison.modbus(&form, &write, &room)?;
        (_, form, _) = comparison.modbus(&form, &all, &room)?;
        let next = (place + 1) % PARAMETERS;
        let show = format!("PV {:03}", parameter_code(place));
        let write = format!("PC {:03} {}", parameter_code(next), VALUE_RANGES[next].1);
        for (text, kind) in [(&show[..], 0), ("RC", 1), ("EQ", 0), (&write, 1), ("RS", 0)] {
            let kinds = [Kind::Minicomputer, Kind::Terminal];
            let asking = request(kinds[kind], record.address, text);
            (_, form, _) = comparison.call(kind as u8, &form, &asking, &room)?;
        }
        (_, form, _) = comparison.modbus(&form, &all, &room)?;
    }
    Ok(())
}

/// Banks that are refused for each reason beside records that are or are not.
fn banks(comparison: &mut Comparison) -> Result<(), Difference> {
    let good = form(&plain_record());
    let old = stored::old_form(&plain_record()).to_vec();
    let mut bad = good.clone();
    bad[7] = 9;
    let requests = some_requests(plain_record().address);
    for stored in [&good, &old, &bad] {
        for bank in each_bank() {
            let unit = Unit {
                stored: stored.clone(),
                bank,
            };
            for request in requests.iter().map(Vec::as_slice).chain([&[][..]]) {
                for room in [REPLY_ROOM - 1, REPLY_ROOM] {
                    comparison.banked_modbus(&unit, request, &buffer(room))?;
                }
            }
        }
    }
    Ok(())
}

/// Stored records of every length, and with version, length field and a field wrong in every combination.
fn stored_bytes(comparison: &mut Comparison) -> Result<(), Difference> {
    let new = form(&plain_record());
    let old = stored::old_form(&plain_record()).to_vec();
    let requests = some_requests(plain_record().address);
    for whole in [&old, &new] {
        for length in 0..=200 {
            let mut form = whole.clone();
            form.resize(length, 0);
            for request in &requests[..3] {
                comparison.modbus(&form, request, &buffer(REPLY_ROOM))?;
            }
        }
        for wrong in 0..16 {
            let mut form = whole.clone();
            for (bit, place, byte) in [(0, 0, 3 - whole[0]), (1, 2, 0x55), (2, 7, 0), (3, 3, 0)] {
                if wrong & 1 << bit != 0 {
                    form[place] = byte;
                }
            }
            for request in &requests {
                for room in [REPLY_ROOM - 1, REPLY_ROOM] {
                    comparison.modbus(&form, request, &buffer(room))?;
                }
            }
        }
    }
    Ok(())
}

#[cfg(test)]
mod tests {
    use super::*;
    use crate::fault::{Fault, PLANTED};
    use crate::interface;

    /// The answer to a request that is wrong in these ways, and the code if it is an exception.
    fn answer(write: bool, wrong: u32) -> (u32, Option<u8>) {
        let (mut unit, frame, mut reply) = refused(write, wrong);
        let (stored, bank) = (&mut unit.stored, &mut unit.bank);
        let answer = interface::banked_modbus(stored, bank, &frame, &mut reply, Fault::None);
        (answer, (answer == 5).then_some(reply[2]))
    }

    #[test]
    fn each_reason_alone_is_what_it_is_taken_for() {
        assert_eq!(answer(false, 0), (9, None));
        assert_eq!(answer(true, 0), (8, None));
        let alone = |write: bool, bits: &[u32]| {
            let answers = bits.iter().map(|bit| answer(write, 1 << bit));
            answers.collect::<Vec<_>>()
        };
        for write in [false, true] {
            assert_eq!(
                alone(write, &[3, 4, 5, 6, 8, 14, 15]),
                [1204, 1207, 902, 905, 906, 903, 904].map(|number| (number, None))
            );
            assert_eq!(
                alone(write, &[7, 9, 10]),
                [1, 2, 3].map(|code| (5, Some(code)))
            );
        }
        assert_eq!(alone(false, &[13]), [(907, None)]);
        assert_eq!(alone(true, &[13]), [(908, None)]);
        assert_eq!(alone(false, &[0, 1, 2, 11, 12]), [(9, None); 5]);
        assert_eq!(
            alone(true, &[0, 1, 2, 11, 12]),
            [4, 4, 4, 3, 3].map(|code| (5, Some(code)))
        );
    }

    /// What is planted elsewhere leaves Modbus as it is.
    #[test]
    fn other_faults_change_no_answer() {
        let other = Fault::CheckTakenForStx;
        assert!(modbus(&mut Comparison::new(other)).is_ok());
    }

    /// This enumeration alone notices what is planted in Modbus.
    #[test]
    fn faults_of_modbus_are_noticed() {
        let of_modbus = |name: &str| name.starts_with("modbus: ");
        assert!(PLANTED.iter().any(|(_, name)| of_modbus(name)));
        for &(fault, name) in PLANTED.iter().filter(|(_, name)| of_modbus(name)) {
            let noticed = modbus(&mut Comparison::new(fault)).is_err();
            assert!(noticed, "{name}");
        }
    }
}

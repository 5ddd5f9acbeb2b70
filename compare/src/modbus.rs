//! The controller as a slave on Modbus RTU: its registers, the functions that read and write them, and the
//! CRC of requests and replies.

use crate::bank::Bank;
use crate::controller::{self, Outcome};
use crate::fault::Fault;
use crate::parameters::PARAMETERS;
use crate::record::{Phase, Record, HIGHEST_LEVEL};

/// The shortest and the longest frame.
pub const LEAST_FRAME: usize = 4;
pub const MOST_FRAME: usize = 256;
/// A lent buffer has to hold the longest frame.
pub const REPLY_ROOM: usize = MOST_FRAME;

/// Two for each parameter in rising code, high word first.
pub const REGISTERS: usize = 2 * PARAMETERS;
/// The most registers that a read may ask for.
pub const MOST_READ: u16 = 125;

/// The functions that are served, and what an exception adds to a function.
pub const READ: u8 = 3;
pub const WRITE: u8 = 16;
pub const EXCEPTION: u8 = 128;

/// The length of a read, and of a write without its values.
pub const READ_LENGTH: usize = 8;
pub const WRITE_LENGTH: usize = 9;
/// The registers and the bytes of the one pair that a write takes.
pub const PAIR: u16 = 2;
const PAIR_BYTES: u8 = 4;
/// Where the values of a write begin.
const VALUES: usize = 7;

const POLYNOMIAL: u16 = 0xA001;
const START: u16 = 0xFFFF;
const TABLE: [u16; 256] = table(POLYNOMIAL);

/// What each byte alone adds to a CRC.
const fn table(polynomial: u16) -> [u16; 256] {
    let mut table = [0; 256];
    let mut byte = 0;
    while byte < table.len() {
        let mut rest = byte as u16;
        let mut bit = 0;
        while bit < 8 {
            let odd = rest & 1 != 0;
            rest >>= 1;
            if odd {
                rest ^= polynomial;
            }
            bit += 1;
        }
        table[byte] = rest;
        byte += 1;
    }
    table
}

fn crc_from(start: u16, table: &[u16; 256], message: &[u8]) -> u16 {
    message.iter().fold(start, |crc, &byte| {
        crc >> 8 ^ table[usize::from(crc as u8 ^ byte)]
    })
}

/// The standard's CRC.
pub fn crc(message: &[u8]) -> u16 {
    crc_from(START, &TABLE, message)
}

/// The CRC as it is sent: low byte first.
fn check(message: &[u8], fault: Fault) -> [u8; 2] {
    match fault {
        Fault::CrcHighByteFirst => crc(message).to_be_bytes(),
        Fault::CrcFromZero => crc_from(0, &TABLE, message).to_le_bytes(),
        Fault::CrcByOtherPolynomial => crc_from(START, &table(0x8408), message).to_le_bytes(),
        _ => crc(message).to_le_bytes(),
    }
}

/// The frame of a message: it with its CRC behind it.
pub fn framed(message: &[u8]) -> Vec<u8> {
    [message, &check(message, Fault::None)].concat()
}

/// A read of so many registers.
pub fn read_request(slave: u8, start: u16, count: u16) -> Vec<u8> {
    let mut message = vec![slave, READ];
    message.extend(start.to_be_bytes());
    message.extend(count.to_be_bytes());
    framed(&message)
}

/// A write of values to registers, whatever their number, with a byte count of its own.
pub fn any_write_request(slave: u8, start: u16, count: u16, bytes: u8, values: &[u8]) -> Vec<u8> {
    let mut message = vec![slave, WRITE];
    message.extend(start.to_be_bytes());
    message.extend(count.to_be_bytes());
    message.push(bytes);
    message.extend(values);
    framed(&message)
}

/// A write of a value to the pair of registers of the parameter at a place.
pub fn write_request(slave: u8, place: usize, value: u32) -> Vec<u8> {
    let start = PAIR * place as u16;
    any_write_request(slave, start, PAIR, PAIR_BYTES, &value.to_be_bytes())
}

fn word(request: &[u8], start: usize) -> u16 {
    u16::from_be_bytes([request[start], request[start + 1]])
}

fn crc_passes(request: &[u8], fault: Fault) -> bool {
    // Shorter only where a planted fault tests the CRC before the length.
    let Some((message, sent)) = request.split_last_chunk::<2>() else {
        return false;
    };
    let right = check(message, fault);
    match fault {
        Fault::CrcUntested => true,
        Fault::CrcLowByteTested => sent[0] == right[0],
        _ => *sent == right,
    }
}

fn slave_passes(slave: u8, address: u8, fault: Fault) -> bool {
    match fault {
        Fault::BroadcastAnswered => slave == address || slave == 0,
        Fault::SlaveTopBitIgnored => slave & 0x7F == address,
        _ => slave == address,
    }
}

fn length_passes(length: usize, fault: Fault) -> bool {
    let (least, most) = match fault {
        Fault::ThreeBytesRead => (LEAST_FRAME - 1, MOST_FRAME),
        Fault::FourBytesRefused => (LEAST_FRAME + 1, MOST_FRAME),
        Fault::LongestFrameRefused => (LEAST_FRAME, MOST_FRAME - 1),
        Fault::LongerFrameRead => (LEAST_FRAME, MOST_FRAME + 1),
        _ => (LEAST_FRAME, MOST_FRAME),
    };
    (least..=most).contains(&length)
}

/// Whether a write has as many bytes as its byte count says.
fn write_length_passes(request: &[u8], fault: Fault) -> bool {
    let length = request.len();
    if length < WRITE_LENGTH {
        return false;
    }
    let bytes = request[6];
    let expected = WRITE_LENGTH + usize::from(bytes);
    match fault {
        Fault::LongWriteAnswered => length >= expected,
        Fault::WriteMeasuredByCount => length == WRITE_LENGTH + 2 * usize::from(word(request, 4)),
        Fault::OtherByteCountSilent => length == expected && bytes == PAIR_BYTES,
        _ => length == expected,
    }
}

fn room_passes(room: usize, fault: Fault) -> bool {
    match fault {
        Fault::TwoHundredFiftyFiveTaken => room >= REPLY_ROOM - 1,
        Fault::TwoHundredFiftySevenNeeded => room > REPLY_ROOM,
        _ => room >= REPLY_ROOM,
    }
}

/// Whether a request passes the test of M2 to M8 that has this number.
fn passes(number: u8, address: u8, request: &[u8], room: usize, fault: Fault) -> bool {
    // Both are there, but where a planted fault tests the length late or takes a shorter frame.
    let slave = request.first().copied().unwrap_or_default();
    let function = request.get(1).copied().unwrap_or_default();
    let length = request.len();
    match number {
        2 => room_passes(room, fault),
        3 => length_passes(length, fault),
        4 => crc_passes(request, fault),
        5 => slave_passes(slave, address, fault),
        6 => match fault {
            Fault::HighFunctionAnswered => true,
            Fault::HighestFunctionSilent => function < EXCEPTION - 1,
            _ => function < EXCEPTION,
        },
        7 => match function {
            READ if fault == Fault::LongReadAnswered => length >= READ_LENGTH,
            READ => length == READ_LENGTH,
            WRITE => true,
            _ => fault != Fault::OtherFunctionMeasured || length == READ_LENGTH,
        },
        _ => function != WRITE || write_length_passes(request, fault),
    }
}

/// The first silence of M2 to M8 that a request meets.
fn silence(address: u8, request: &[u8], room: usize, fault: Fault) -> Option<u8> {
    let mut order = [2, 3, 4, 5, 6, 7, 8];
    match fault {
        Fault::LengthBeforeRoom => order.swap(0, 1),
        Fault::CrcBeforeLength => order.swap(1, 2),
        Fault::SlaveBeforeCrc => order.swap(2, 3),
        Fault::FunctionBeforeSlave => order.swap(3, 4),
        Fault::FunctionBeforeCrc => order[2..5].rotate_right(1),
        Fault::LengthsBeforeSlave => order[3..].rotate_right(2),
        Fault::LengthsBeforeCrc => order[2..].rotate_right(2),
        _ => {}
    }
    order
        .into_iter()
        .find(|&number| !passes(number, address, request, room, fault))
}

/// The registers that a request names: the first, and how many.
#[derive(Clone, Copy)]
struct Asked {
    start: u16,
    count: u16,
}

impl Asked {
    fn of(request: &[u8], fault: Fault) -> Asked {
        let start = word(request, 2);
        Asked {
            start: match fault {
                Fault::RegistersFromOne => start.wrapping_sub(1),
                _ => start,
            },
            count: word(request, 4),
        }
    }

    fn are_registers(self, fault: Fault) -> bool {
        let end = usize::from(self.start) + usize::from(self.count);
        match fault {
            Fault::RegistersWrap => end & 0xFFFF <= REGISTERS,
            Fault::LastRegisterRefused => end < REGISTERS,
            Fault::RegisterPastLastRead => end <= REGISTERS + 1,
            _ => end <= REGISTERS,
        }
    }
}

/// 03 for a count that there is not, or 02 for registers that there are not.
fn refused(count_passes: bool, place_passes: bool, fault: Fault) -> Result<(), u8> {
    match (count_passes, place_passes) {
        (false, false) if fault == Fault::PlaceBeforeCount => Err(2),
        (false, _) => Err(3),
        (true, false) => Err(2),
        (true, true) => Ok(()),
    }
}

fn read_count_passes(count: u16, fault: Fault) -> bool {
    let (least, most) = match fault {
        Fault::NoneRead => (0, MOST_READ),
        Fault::HundredTwentySixRead => (1, MOST_READ + 1),
        Fault::HundredTwentyFiveRefused => (1, MOST_READ - 1),
        _ => (1, MOST_READ),
    };
    (least..=most).contains(&count)
}

fn write_count_passes(count: u16, bytes: u8, fault: Fault) -> bool {
    match fault {
        Fault::ByteCountUntested => count == PAIR && bytes >= PAIR_BYTES,
        Fault::SingleRegisterWritten if count == 1 => bytes == 2,
        Fault::SeveralPairsWritten => {
            let pairs = usize::from(count / PAIR);
            count > 0 && count & 1 == 0 && usize::from(bytes) == usize::from(PAIR_BYTES) * pairs
        }
        _ => count == PAIR && bytes == PAIR_BYTES,
    }
}

/// What a register holds.
fn register(record: &Record, number: usize, fault: Fault) -> [u8; 2] {
    // Past the last parameter only by a planted fault.
    let parameter = record.parameters.get(number / 2);
    let value = parameter.map_or(0, |parameter| parameter.value);
    let high = number % 2 == usize::from(fault == Fault::LowWordFirst);
    let word = if high { value >> 16 } else { value } as u16;
    match fault {
        Fault::LowByteFirst => word.to_le_bytes(),
        _ => word.to_be_bytes(),
    }
}

/// Whether a planted fault refuses a read by the record.
fn read_is_refused(record: &Record, asked: Asked, fault: Fault) -> bool {
    let mut parameters = record.parameters.iter().skip(usize::from(asked.start / 2));
    match fault {
        Fault::ReadNeedsKeypadOff => record.keypad,
        Fault::ReadNeedsLevel => parameters
            .next()
            .is_some_and(|next| next.level > record.access),
        _ => false,
    }
}

/// Lays what the registers hold behind slave and function of a reply; answers the length up to there, or the
/// code of an exception.
fn read(record: &Record, request: &[u8], reply: &mut [u8], fault: Fault) -> Result<usize, u8> {
    let asked = Asked::of(request, fault);
    let count_passes = read_count_passes(asked.count, fault);
    refused(count_passes, asked.are_registers(fault), fault)?;
    if read_is_refused(record, asked, fault) {
        return Err(4);
    }
    let bytes = 2 * usize::from(asked.count);
    reply[2] = match fault {
        Fault::RegistersForBytes => asked.count as u8,
        _ => bytes as u8,
    };
    let registers = usize::from(asked.start)..;
    for (place, number) in reply[3..3 + bytes].chunks_exact_mut(2).zip(registers) {
        place.copy_from_slice(&register(record, number, fault));
    }
    Ok(3 + bytes)
}

/// Writes a value to the one pair that a request names, as PC does; answers as a read does.
fn write(record: &mut Record, request: &[u8], reply: &mut [u8], fault: Fault) -> Result<usize, u8> {
    let asked = Asked::of(request, fault);
    let count_passes = write_count_passes(asked.count, request[6], fault);
    let start_passes = match fault {
        Fault::OddRegisterWritten => true,
        Fault::SingleRegisterWritten if asked.count == 1 => true,
        _ => asked.start & 1 == 0,
    };
    let place_passes = asked.are_registers(fault) && start_passes;
    refused(count_passes, place_passes, fault)?;
    let place = usize::from(asked.start / PAIR);
    let values = &request[VALUES..request.len() - 2];
    let written = match (fault, values) {
        (Fault::None, &[b3, b2, b1, b0]) => {
            let value = u32::from_be_bytes([b3, b2, b1, b0]);
            controller::write_value(record, place, value, fault)
        }
        _ => miswrite(record, asked, values, fault),
    };
    written.map_err(|number| exception(number, fault))?;
    let echoed = match fault {
        Fault::ValuesEchoed => request.len() - 2,
        _ => VALUES - 1,
    };
    reply[2..echoed].copy_from_slice(&request[2..echoed]);
    Ok(echoed)
}

/// The code of the exception for PC's refusal by NO06, NO02, NO07 or NO05.
fn exception(number: u8, fault: Fault) -> u8 {
    match (number, fault) {
        (6, Fault::RangeTakenForFailure) => 4,
        (7, Fault::LevelTakenForPlace) => 2,
        (5, Fault::PhaseTakenForBusy) => 6,
        (6, _) => 3,
        _ => 4,
    }
}

/// Writes values as planted faults do.
#[cold]
fn miswrite(record: &mut Record, asked: Asked, values: &[u8], fault: Fault) -> Result<(), u8> {
    // Past the last parameter only by such a fault.
    let first = usize::from(asked.start / PAIR) % PARAMETERS;
    if let &[high, low] = values {
        return write_register(record, asked.start, [high, low], fault);
    }
    let pairs = values.chunks_exact(usize::from(PAIR_BYTES));
    for (pair, place) in pairs.zip(first..PARAMETERS) {
        let value = pair
            .iter()
            .fold(0, |value, &byte| value << 8 | u32::from(byte));
        miswrite_pair(record, place, mistaken(value, fault), fault)?;
        if fault != Fault::SeveralPairsWritten {
            break;
        }
    }
    Ok(())
}

/// Writes one register of a pair, which only planted faults do.
fn write_register(
    record: &mut Record,
    number: u16,
    bytes: [u8; 2],
    fault: Fault,
) -> Result<(), u8> {
    let place = usize::from(number / PAIR) % PARAMETERS;
    let held = record.parameters[place].value;
    let word = u32::from(u16::from_be_bytes(bytes));
    let value = match number % 2 {
        0 => word << 16 | held & 0xFFFF,
        _ => held & 0xFFFF_0000 | word,
    };
    controller::write_value(record, place, value, fault)
}

/// What planted faults take for the value of a pair.
fn mistaken(value: u32, fault: Fault) -> u32 {
    match fault {
        Fault::LowWordFirst => value.rotate_left(16),
        Fault::LowByteFirst => value.swap_bytes().rotate_left(16),
        Fault::HighWordIgnored => value & 0xFFFF,
        _ => value,
    }
}

/// Writes a value to a pair as planted faults do; or answers PC's number.
fn miswrite_pair(record: &mut Record, place: usize, value: u32, fault: Fault) -> Result<(), u8> {
    let before = *record;
    let held = before.parameters[place].value;
    let half = value & 0xFFFF_0000 | held & 0xFFFF;
    match fault {
        Fault::WordsJudgedApart => controller::write_value(&mut { before }, place, half, fault)?,
        Fault::RecordBeforeRange => controller::write_value(&mut { before }, place, held, fault)?,
        Fault::WriteIgnoresKeypad => record.keypad = false,
        Fault::WriteIgnoresLevel => record.access = HIGHEST_LEVEL,
        Fault::WriteIgnoresPhase => record.phase = Phase::Idle,
        _ => {}
    }
    let mut written = controller::write_value(record, place, value, fault);
    record.keypad = before.keypad;
    record.access = before.access;
    record.phase = before.phase;
    match (fault, written) {
        (Fault::WriteSetsChanged, Ok(())) => record.changed = true,
        (Fault::WriteLeavesChanged, _) => record.changed = before.changed,
        (Fault::FirstWordStays, Err(6)) => {
            written = controller::write_value(record, place, half, fault).and(written);
        }
        _ => {}
    }
    written
}

/// Functions other than 3 and 16: 01, or what planted faults make of some.
fn other(record: &mut Record, request: &[u8], reply: &mut [u8], fault: Fault) -> Result<usize, u8> {
    match (fault, request) {
        (Fault::FunctionFourServed, [_, 4, ..]) if request.len() == READ_LENGTH => {
            read(record, request, reply, fault)
        }
        (Fault::FunctionSixServed, &[_, 6, 0, number, high, low, _, _])
            if usize::from(number) < REGISTERS =>
        {
            let written = write_register(record, number.into(), [high, low], fault);
            written.map_err(|number| exception(number, fault))?;
            reply[2..6].copy_from_slice(&request[2..6]);
            Ok(6)
        }
        _ => Err(1),
    }
}

/// Lays the CRC behind a reply of so many bytes; answers its length with it.
fn close(reply: &mut [u8], length: usize, fault: Fault) -> usize {
    let mut check = check(&reply[..length], fault);
    if fault == Fault::ReplyCrcHighByteFirst {
        check.reverse();
    }
    reply[length..length + 2].copy_from_slice(&check);
    if fault == Fault::BehindModbusReplyOverwritten {
        reply[length + 2..].fill(0);
    }
    length + 2
}

/// Lays an exception; answers its length.
fn lay_exception(slave: u8, function: u8, code: u8, reply: &mut [u8], fault: Fault) -> usize {
    reply[0] = slave;
    reply[1] = match fault {
        Fault::ExceptionWithoutTopBit => function,
        _ => function | EXCEPTION,
    };
    reply[2] = code;
    close(reply, 3, fault)
}

/// Answers a request that meets no silence, the reply laid into a buffer that has room for it, and changes
/// the record as it asks; answers the reply's length.
fn respond(record: &mut Record, request: &[u8], reply: &mut [u8], fault: Fault) -> usize {
    let function = request[1];
    let served = match function {
        READ => read(record, request, reply, fault),
        WRITE => write(record, request, reply, fault),
        _ => other(record, request, reply, fault),
    };
    match served {
        Ok(length) => {
            reply[0] = record.address;
            reply[1] = function;
            close(reply, length, fault)
        }
        Err(code) => lay_exception(record.address, function, code, reply, fault),
    }
}

/// A silence, or what planted faults make of it.
#[cold]
fn misheard(
    record: &mut Record,
    request: &[u8],
    reply: &mut [u8],
    silence: u8,
    fault: Fault,
) -> Outcome {
    let to_itself = || {
        let slave = request[0];
        self::silence(slave, request, REPLY_ROOM, fault).is_none()
    };
    let mut aside = [0; REPLY_ROOM];
    match (fault, silence, request) {
        (Fault::SilenceClearsReply, ..) => reply.fill(0),
        (Fault::BroadcastTakesEffect, 5, [0, ..]) if to_itself() => {
            respond(record, request, &mut aside, fault);
        }
        (Fault::OtherSlaveRefused, 5, [slave, ..]) if to_itself() => {
            respond(&mut { *record }, request, &mut aside, fault);
            if aside[1] >= EXCEPTION {
                return Outcome::Reply(lay_exception(*slave, aside[1], aside[2], reply, fault));
            }
        }
        (Fault::CountBeforeLength, 7 | 8, &[slave, function, _, _, 0, 0, ..]) => {
            return Outcome::Reply(lay_exception(slave, function, 3, reply, fault));
        }
        _ => {}
    }
    Outcome::Silence(silence)
}

/// One call over a record, with a bank beside it or without one: the outcome, the record after it, and the
/// reply in the lent buffer.
pub fn call(
    mut record: Record,
    bank: Option<&Bank>,
    request: &[u8],
    reply: &mut [u8],
    fault: Fault,
) -> (Outcome, Record) {
    if !record.is_valid() || bank.is_some_and(|bank| !bank.is_valid()) {
        return (Outcome::Silence(1), record);
    }
    let outcome = match silence(record.address, request, reply.len(), fault) {
        None => Outcome::Reply(respond(&mut record, request, reply, fault)),
        Some(silence) if fault == Fault::None => Outcome::Silence(silence),
        Some(silence) => misheard(&mut record, request, reply, silence, fault),
    };
    (outcome, record)
}

#[cfg(test)]
mod tests {
    use super::*;
    use crate::enumeration::plain_record;
    use crate::parameters::VALUE_RANGES;

    /// The length of a reply and, of an exception, its code; or the number of a silence.
    fn answer(record: &Record, request: &[u8]) -> Result<(usize, Option<u8>), u8> {
        let mut reply = [0; REPLY_ROOM];
        match call(*record, None, request, &mut reply, Fault::None).0 {
            Outcome::Silence(number) => Err(number),
            Outcome::Reply(length) => {
                let code = (reply[1] & EXCEPTION != 0).then_some(reply[2]);
                Ok((length, code))
            }
        }
    }

    fn exception(code: u8) -> Result<(usize, Option<u8>), u8> {
        Ok((5, Some(code)))
    }

    /// Bit by bit, as the standard has it.
    #[test]
    fn the_table_gives_what_the_bits_give() {
        let by_bits = |message: &[u8]| {
            message.iter().fold(0xFFFF, |crc, &byte| {
                (0..8).fold(crc ^ u16::from(byte), |crc, _| match crc & 1 {
                    0 => crc >> 1,
                    _ => crc >> 1 ^ 0xA001,
                })
            })
        };
        let message: Vec<u8> = (0..=255).chain([0, 0, 255, 255, 1]).collect();
        for length in 0..=message.len() {
            assert_eq!(crc(&message[..length]), by_bits(&message[..length]));
        }
        for byte in 0..=255 {
            assert_eq!(crc(&[byte]), by_bits(&[byte]));
        }
    }

    /// And start and count do not wrap.
    #[test]
    fn reads_by_count_then_place() {
        let record = plain_record();
        let read = |start, count| answer(&record, &read_request(42, start, count));
        for (start, count) in [(0, 1), (0, 64), (1, 2), (63, 1), (31, 33)] {
            assert_eq!(read(start, count), Ok((5 + 2 * usize::from(count), None)));
        }
        for start in [0, 64, 9_999, 65_535] {
            for count in [0, 126, 127, 256, 65_535] {
                assert_eq!(read(start, count), exception(3), "{start} {count}");
            }
            assert_eq!(read(start, 125), exception(2));
        }
        for (start, count) in [(0, 65), (1, 64), (63, 2), (64, 1), (65_535, 1), (65_535, 2)] {
            assert_eq!(read(start, count), exception(2), "{start} {count}");
        }
    }

    #[test]
    fn writes_of_one_whole_pair() {
        let record = plain_record();
        let write = |start, count, bytes, values: &[u8]| {
            let request = any_write_request(42, start, count, bytes, values);
            answer(&record, &request)
        };
        assert_eq!(write(0, 2, 4, &[0, 0, 0, 7]), Ok((8, None)));
        assert_eq!(write(62, 2, 4, &[0, 0, 0, 7]), Ok((8, None)));
        for (count, bytes) in [
            (0, 4),
            (1, 4),
            (3, 4),
            (258, 4),
            (2, 0),
            (2, 3),
            (2, 5),
            (2, 8),
        ] {
            for start in [0, 1, 64, 65_535] {
                let values = &[0; 8][..usize::from(bytes)];
                assert_eq!(write(start, count, bytes, values), exception(3));
            }
        }
        for start in [1, 61, 63, 64, 65_534, 65_535] {
            assert_eq!(write(start, 2, 4, &[0; 4]), exception(2));
        }
        for (bytes, length) in [(4, 3), (4, 5), (3, 4), (5, 4), (0, 4), (4, 0), (255, 4)] {
            assert_eq!(write(0, 2, bytes, &[0; 8][..length]), Err(8));
        }
    }

    #[test]
    fn functions_of_every_length() {
        let record = plain_record();
        for function in 0..=255 {
            for length in 4..=MOST_FRAME {
                let mut message = vec![42, function];
                message.resize(length - 2, 0);
                let expected = match (function, length) {
                    (128.., _) => Err(6),
                    (READ, 8) => exception(3),
                    (READ, _) => Err(7),
                    (WRITE, 9) => exception(3),
                    (WRITE, _) => Err(8),
                    _ => exception(1),
                };
                assert_eq!(answer(&record, &framed(&message)), expected);
            }
        }
    }

    #[test]
    fn values_at_both_ends_and_past_them() {
        for (place, (low, high)) in VALUE_RANGES.into_iter().enumerate() {
            for value in [low, high] {
                let request = write_request(42, place, value);
                let mut reply = [0; REPLY_ROOM];
                let (_, after) = call(plain_record(), None, &request, &mut reply, Fault::None);
                let mut expected = plain_record();
                expected.changed = value != expected.parameters[place].value;
                expected.parameters[place].value = value;
                assert_eq!(after, expected);
            }
            for value in [
                low.wrapping_sub(1),
                high + 1,
                low << 16 | 1 << 31,
                low | 1 << 17,
            ] {
                let request = write_request(42, place, value);
                assert_eq!(answer(&plain_record(), &request), exception(3));
            }
        }
    }
}

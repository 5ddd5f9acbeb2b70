//! Modbus requests, right and spoiled, and what is lent for their replies.

use crate::generate::banks;
use crate::generate::records::{self, number};
use crate::modbus::{
    any_write_request, framed, read_request, write_request, EXCEPTION, MOST_FRAME, MOST_READ, PAIR,
    READ, REGISTERS, REPLY_ROOM, WRITE,
};
use crate::parameters::{parameter_place, VALUE_RANGES};
use crate::random::Random;
use crate::record::{Phase, Record, HIGHEST_LEVEL};

/// A record that mostly lets writes through.
pub fn record(random: &mut Random) -> Record {
    let mut record = banks::record(random);
    if random.percent(70) {
        record.phase = random.pick(&[Phase::Idle, Phase::Done]);
        record.keypad = false;
    }
    if random.percent(50) {
        record.access = HIGHEST_LEVEL;
    }
    record
}

/// Any parameter, often the one whose values take more than a word.
pub fn place(random: &mut Random) -> usize {
    match random.below(4) {
        0 => parameter_place(807).unwrap_or_default(),
        _ => records::place(random),
    }
}

/// A value to be written: in range, held already, with one word of the held one changed, at or past an end of
/// the range, in range but for its high word, over eight digits, or any.
pub fn value(random: &mut Random, record: &Record, place: usize) -> u32 {
    let (low, high) = VALUE_RANGES[place];
    let held = record.parameters[place].value;
    match random.below(16) {
        0 | 1 => held,
        2 => held ^ 1 << 16,
        3 => held & 0xFFFF_0000 | random.between(0, 0xFFFF),
        4 => held & 0xFFFF | random.between(0, 2) << 16,
        5 => low.wrapping_sub(1),
        6 => high + 1,
        7 => random.pick(&[low, high]),
        8 => number(random, low, high, true).rotate_left(16),
        9 => number(random, low, high, true) | 1 << random.between(16, 31),
        10 => random.pick(&[0, 0xFFFF, 0x1_0000, 0x1_FFFF, u32::MAX]),
        11 => random.between(99_999_998, 100_000_001),
        12 => random.next() as u32,
        _ => number(random, low, high, true),
    }
}

/// A register about the first or the last, about the most that two bytes hold, or any.
fn register(random: &mut Random) -> u16 {
    let about = |random: &mut Random, register: u16| {
        let off = random.below(7) as u16;
        register.wrapping_add(off).wrapping_sub(3)
    };
    match random.below(6) {
        0 => about(random, 0),
        1 => random.next() as u16,
        2 => random.pick(&[127, 128, 255, 256, 0x7FFF, 0x8000]),
        _ => about(random, REGISTERS as u16),
    }
}

/// How many registers a read asks for, about every limit.
fn count(random: &mut Random, start: u16) -> u16 {
    let up_to_last = (REGISTERS as u16).wrapping_sub(start);
    match random.below(12) {
        0 => random.below(3) as u16,
        1 => MOST_READ - 1 + random.below(4) as u16,
        2 => random.next() as u16,
        3 => random.pick(&[256, 258, 0x7FFF, 0x8000, 0xFFFF]),
        4 => REGISTERS as u16 - 1 + random.below(3) as u16,
        5 | 6 => up_to_last
            .wrapping_add(random.below(3) as u16)
            .wrapping_sub(1),
        _ => 1 + random.below(usize::from(up_to_last).clamp(1, REGISTERS)) as u16,
    }
}

fn read(random: &mut Random, slave: u8) -> Vec<u8> {
    let start = match random.below(4) {
        0 => register(random),
        _ => random.below(REGISTERS) as u16,
    };
    let count = count(random, start);
    read_request(slave, start, count)
}

/// A write of one pair, now and then at another register, or with a count, a byte count or a number of values
/// of its own.
fn write(random: &mut Random, slave: u8, record: &Record) -> Vec<u8> {
    let place = place(random);
    let mut start = PAIR * place as u16;
    if random.percent(10) {
        start = match random.below(3) {
            0 => start + 1,
            _ => register(random),
        };
    }
    let mut values = value(random, record, place).to_be_bytes().to_vec();
    let mut count = PAIR;
    let mut bytes = values.len() as u8;
    match random.below(16) {
        // As many values as another count says.
        0 => {
            count = random.below(5) as u16;
            values.resize(2 * usize::from(count), 0);
            bytes = values.len() as u8;
        }
        1 => count = random.pick(&[0, 1, 3, 4, 123, 258, 0xFFFF]),
        2 => {
            bytes = random.below(12) as u8;
            values.resize(bytes.into(), 0);
        }
        3 => bytes = random.below(12) as u8,
        4 => values.resize(random.below(12), 0),
        _ => {}
    }
    any_write_request(slave, start, count, bytes, &values)
}

/// The same message under a CRC that is right again.
fn mended(frame: &[u8], change: impl FnOnce(&mut Vec<u8>)) -> Vec<u8> {
    let mut message = frame[..frame.len() - 2].to_vec();
    change(&mut message);
    framed(&message)
}

/// A function that is not served, over a read, a write or a few bytes.
fn other_function(random: &mut Random, slave: u8, record: &Record) -> Vec<u8> {
    let function = match random.below(3) {
        0 => random.pick(&[1, 2, 4, 5, 6, 15, 17, 22, 23, 43]),
        1 => random.pick(&[0, 126, 127, 128, 129, 131, 144, 255]),
        _ => random.byte(),
    };
    let frame = match random.below(3) {
        0 => read(random, slave),
        1 => write(random, slave, record),
        _ => {
            let length = random.below(10);
            framed(&[&[slave, READ][..], &random.bytes(length)].concat())
        }
    };
    mended(&frame, |message| message[1] = function)
}

/// A frame of a length about a limit, right in its CRC; of a write, also in its byte count where it can be.
fn of_any_length(random: &mut Random, slave: u8) -> Vec<u8> {
    let length = match random.below(4) {
        0 => random.between(3, 16) as usize,
        1 => MOST_FRAME - 2 + random.below(5),
        2 => random.between(3, 300) as usize,
        _ => random.pick(&[3, 4, 255, 256, 257]),
    };
    let function = random.pick(&[READ, WRITE, WRITE, 4, 127, 200]);
    let mut message = vec![slave, function];
    message.extend(random.bytes(length));
    message[6.min(length)] = length.saturating_sub(9) as u8;
    message.truncate(length - 2);
    framed(&message)
}

/// A frame with a byte more, one less, or some, under a right CRC.
fn stretched(random: &mut Random, frame: &[u8]) -> Vec<u8> {
    let more = random.below(4);
    let extra = random.bytes(more);
    mended(frame, |message| match extra.len() {
        0 if message.len() > 3 => {
            message.pop();
        }
        _ => message.extend(extra),
    })
}

/// Spoils a frame once: its CRC, its length, a bit or a byte.
fn damage(random: &mut Random, frame: &mut Vec<u8>) {
    let length = frame.len();
    if length < 2 {
        frame.push(random.byte());
        return;
    }
    let place = random.below(length);
    match random.below(9) {
        0 => frame.swap(length - 1, length - 2),
        1 => frame[length - 1] ^= 1 << random.below(8),
        2 => frame[length - 2] ^= 1 << random.below(8),
        3 => frame.truncate(place),
        4 => frame.push(random.byte()),
        5 => frame.swap(place, length - 1 - place),
        6 => {
            frame.remove(place);
        }
        7 => frame[place] = random.byte(),
        _ => frame[place] ^= 1 << random.below(8),
    }
}

/// A request that is right but for one thing or two that go together.
fn near(random: &mut Random, record: &Record) -> Vec<u8> {
    let own = record.address;
    let place = place(random);
    let start = PAIR * place as u16;
    let value = number(random, VALUE_RANGES[place].0, VALUE_RANGES[place].1, true);
    let pair = value.to_be_bytes();
    let count = 1 + random.below(REGISTERS - usize::from(start)) as u16;
    let read = read_request(own, start, count);
    match random.below(19) {
        // Other slaves.
        0 => write_request(0, place, value),
        1 => write_request(random.pick(&[own ^ 1, own | EXCEPTION]), place, value),
        2 => read_request(random.pick(&[0, own ^ 1, own | EXCEPTION]), start, 0),
        // Other functions.
        3 => mended(&read, |message| message[1] = random.pick(&[4, 6])),
        4 => mended(&read, |message| {
            message[0] = random.pick(&[own, own, own ^ 1]);
            message[1] = random.pick(&[127, 128, 131]);
        }),
        5 => {
            let length = random.between(252, 253) as usize;
            framed(&[&[own, 127][..], &random.bytes(length)].concat())
        }
        6 => framed(&[own, random.pick(&[1, 4, 127])]),
        // Lengths, and counts beside them.
        7 => framed(&random.bytes(1)),
        8 => mended(&read, |message| message.push(0)),
        9 => mended(&read_request(own, start, 0), |message| message.push(0)),
        10 => any_write_request(own, start, PAIR, 4, &[&pair[..], &pair].concat()),
        // Registers.
        11 => {
            let before_wrap = 1 + random.below(4) as u16;
            read_request(own, 0u16.wrapping_sub(before_wrap), before_wrap + 2)
        }
        12 => any_write_request(own, start + 1, PAIR, 4, &pair),
        13 => read_request(own, start, REGISTERS as u16 + 1 - start),
        // Counts and byte counts.
        14 => read_request(own, start, random.pick(&[0, 126])),
        15 => read_request(own, start, MOST_READ),
        16 => any_write_request(own, start + random.below(2) as u16, 1, 2, &pair[2..]),
        17 => any_write_request(own, start, 2 * PAIR, 8, &[&pair[..], &pair].concat()),
        _ => any_write_request(own, start, PAIR, 6, &[&pair[..], &[0; 2]].concat()),
    }
}

/// The record's own address, or another.
fn slave(random: &mut Random, record: &Record) -> u8 {
    match random.below(40) {
        0 => 0,
        1 => random.byte(),
        2 => record.address | EXCEPTION,
        3 => record.address % 99 + 1,
        _ => record.address,
    }
}

/// A request to a controller with this record, now and then spoiled or noise.
pub fn request(random: &mut Random, record: &Record) -> Vec<u8> {
    let slave = slave(random, record);
    let mut frame = match random.below(20) {
        0..=6 => write(random, slave, record),
        7..=10 => read(random, slave),
        11..=15 => near(random, record),
        16 => other_function(random, slave, record),
        17 => of_any_length(random, slave),
        18 => {
            let frame = match random.below(2) {
                0 => read(random, slave),
                _ => write(random, slave, record),
            };
            stretched(random, &frame)
        }
        _ => {
            let length = random.pick(&[0, 1, 2, 3, 4, 8, 13, 100, 256, 257, 300]);
            random.bytes(length)
        }
    };
    if random.percent(12) {
        for _ in 0..random.between(1, 2) {
            damage(random, &mut frame);
        }
    }
    frame
}

/// A buffer for a reply, mostly of the least length or about it.
pub fn room(random: &mut Random) -> Vec<u8> {
    let length = match random.below(20) {
        0 => random.below(301),
        1 => REPLY_ROOM - 1,
        2 => REPLY_ROOM - 2 + random.below(5),
        3..=12 => REPLY_ROOM,
        _ => REPLY_ROOM + random.below(45),
    };
    random.bytes(length)
}

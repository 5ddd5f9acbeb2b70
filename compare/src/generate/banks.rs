//! Banks of finished batches, as they are lent and stored: good, and with something wrong.

use crate::bank::{bank_length, Bank, Batch, BANK_LENGTH, BATCH_LENGTH, HEADER, MOST_BATCHES};
use crate::fault::Fault;
use crate::generate::records::{self, number};
use crate::random::Random;
use crate::record::{Record, HIGHEST_NUMBER, HIGHEST_PRESET, HIGHEST_RAW, RECIPES};

/// A record in which a batch may go on: mostly with the keypad off and no alarm on.
pub fn record(random: &mut Random) -> Record {
    let mut record = records::record(random);
    record.keypad &= random.percent(30);
    if random.percent(70) {
        record.alarms = 0;
    }
    record
}

/// A batch with every field in its range, now and then at an end.
fn batch(random: &mut Random) -> Batch {
    let edges = random.percent(40);
    Batch {
        number: number(random, 1, u32::from(HIGHEST_NUMBER), edges) as u16,
        recipe: random.between(1, u32::from(RECIPES)) as u8,
        factor: number(random, 8_000, 12_000, edges) as u16,
        raw: number(random, 0, HIGHEST_RAW, edges),
        preset: number(random, 0, HIGHEST_PRESET, edges),
    }
}

/// A bank of 0 to 100 batches, often full or one short of that.
pub fn bank(random: &mut Random) -> Bank {
    let count = match random.below(10) {
        0..=2 => MOST_BATCHES,
        3 | 4 => MOST_BATCHES - 1,
        5 => 0,
        6 => random.below(4),
        _ => random.below(MOST_BATCHES + 1),
    };
    Bank::with((0..count).map(|_| batch(random)))
}

/// A bank of the most batches.
pub fn full(random: &mut Random) -> Bank {
    Bank::with((0..MOST_BATCHES).map(|_| batch(random)))
}

/// A bank as it is lent, other bytes behind it.
pub fn lent(random: &mut Random) -> Vec<u8> {
    let mut lent = bank(random).form(Fault::None);
    let behind = BANK_LENGTH - lent.len();
    lent.extend(random.bytes(behind));
    lent
}

/// The bytes of the bank that these begin with.
fn length(bank: &[u8]) -> usize {
    match bank {
        [_, high, low, ..] => usize::from(*high) << 8 | usize::from(*low),
        _ => 0,
    }
}

/// The bank that lent bytes begin with.
pub fn held(lent: &[u8]) -> Bank {
    Bank::read(&lent[..length(lent)], Fault::None).1
}

fn put(bank: &mut [u8], start: usize, width: usize, number: u32) {
    if let Some(place) = bank.get_mut(start..start + width) {
        place.copy_from_slice(&number.to_be_bytes()[4 - width..]);
    }
}

/// Puts one field of some batch out of its range, or to its edge.
fn past_an_edge(random: &mut Random, bank: &mut [u8]) {
    let batches = bank.len().saturating_sub(HEADER) / BATCH_LENGTH;
    if batches == 0 {
        return;
    }
    let start = bank_length(match random.below(3) {
        0 => 0,
        1 => batches - 1,
        _ => random.below(batches),
    });
    match random.below(5) {
        0 => put(bank, start, 2, random.pick(&[0, 1, 9_999, 10_000, 65_535])),
        1 => put(bank, start + 2, 1, random.pick(&[0, 1, 8, 9, 255])),
        2 => {
            let factor = random.pick(&[0, 7_999, 8_000, 12_000, 12_001, 65_535]);
            put(bank, start + 3, 2, factor);
        }
        3 => {
            let raw = random.pick(&[0, HIGHEST_RAW, HIGHEST_RAW + 1, u32::MAX]);
            put(bank, start + 5, 4, raw);
        }
        _ => {
            let preset = random.pick(&[0, HIGHEST_PRESET, HIGHEST_PRESET + 1, 0xFF_FFFF]);
            put(bank, start + 9, 3, preset);
        }
    }
}

/// Gives a bank another length field: one byte, one batch or any number off.
fn spoil_length(random: &mut Random, bank: &mut [u8]) {
    let now = length(bank) as u32;
    let other = match random.below(6) {
        0 => now.wrapping_add(random.pick(&[1, u32::MAX])),
        1 => now.wrapping_add(random.pick(&[12, 0u32.wrapping_sub(12)])),
        2 => bank_length(random.below(103)) as u32,
        3 => random.pick(&[0, 1, 2, 3, 4, 1_202, 1_203, 1_204, 1_215]),
        4 => now ^ 1 << random.below(16),
        _ => random.next() as u32,
    };
    put(bank, 1, 2, other & 0xFFFF);
}

/// Spoils the version, the length field, a field of a batch within this length, or any byte.
fn spoil(random: &mut Random, bank: &mut [u8], within: usize) {
    match random.below(8) {
        0 => put(bank, 0, 1, random.pick(&[0, 2, 3, 255])),
        1 | 2 => spoil_length(random, bank),
        3 if !bank.is_empty() => {
            let place = random.below(bank.len());
            bank[place] = random.byte();
        }
        _ => past_an_edge(random, &mut bank[..within]),
    }
}

/// A copy of a lent bank with one or two things wrong, for the most part.
pub fn spoiled(random: &mut Random, lent: &[u8]) -> Vec<u8> {
    let mut spoiled = lent.to_vec();
    if random.percent(20) {
        // In another buffer, whole where there is room for it.
        let other = match random.below(4) {
            0 => length(lent),
            1 => random.below(BANK_LENGTH + 30),
            _ => random.pick(&[BANK_LENGTH - 1, BANK_LENGTH + 1, bank_length(101), 3, 0]),
        };
        spoiled.resize(other, 0);
        return spoiled;
    }
    for _ in 0..random.between(1, 2) {
        let within = length(&spoiled).min(spoiled.len());
        spoil(random, &mut spoiled, within);
    }
    spoiled
}

/// A stored bank by itself, half of them refused.
pub fn form(random: &mut Random) -> Vec<u8> {
    let mut form = bank(random).form(Fault::None);
    if random.percent(45) {
        return form;
    }
    match random.below(8) {
        0 => {
            // Over a hundred, right but for that.
            let count = random.between(101, 110);
            form = Bank::with((0..count).map(|_| batch(random))).form(Fault::None);
        }
        1 => form.truncate(random.below(form.len() + 1)),
        2 => {
            let extra = random.pick(&[1, 11, 12, 13]);
            form.extend(random.bytes(extra));
        }
        _ => {
            let within = form.len();
            spoil(random, &mut form, within);
        }
    }
    if random.percent(20) {
        let length = form.len() as u32;
        put(&mut form, 1, 2, length);
    }
    form
}

/// A buffer for a stored bank: about the length that it takes, about the empty or the longest, or any.
pub fn out(random: &mut Random, form: &[u8]) -> Vec<u8> {
    let about = |random: &mut Random, length: usize| (length + random.below(5)).saturating_sub(2);
    let length = match random.below(6) {
        0 => about(random, HEADER),
        1 => about(random, BANK_LENGTH),
        2 => random.below(BANK_LENGTH + 20),
        _ => about(random, form.len()),
    };
    random.bytes(length)
}

//! Stored forms: right, with fields out of range, and damaged.

use crate::generate::records;
use crate::parameters::{PARAMETERS, VALUE_RANGES};
use crate::random::Random;
use crate::stored;

/// Puts one field of a form that is long enough out of its range, or to its edge.
pub fn past_an_edge(random: &mut Random, form: &mut [u8]) {
    let length = form.len();
    let mut put = |start: usize, width: usize, number: u32| {
        form[start..start + width].copy_from_slice(&number.to_be_bytes()[4 - width..]);
    };
    match random.below(11) {
        0 => put(3, 1, random.pick(&[0, 1, 99, 100, 255])),
        1 => put(4, 1, random.pick(&[0, 3, 4, 255])),
        2 => put(5, 1, random.pick(&[0, 4, 5, 255])),
        3 => put(6, 1, random.pick(&[0x1F, 0x20, 0x40, 0x80, 0xFF])),
        4 => put(7, 1, random.pick(&[0, 1, 8, 9, 255])),
        5 => put(8, 3, random.pick(&[0, 999_999, 1_000_000, 0xFF_FFFF])),
        6 => put(11, 4, random.pick(&[0, 99_999_999, 100_000_000, u32::MAX])),
        7 => put(15, 2, random.pick(&[0, 1, 9_999, 10_000, 0xFFFF])),
        8 => {
            let place = random.below(PARAMETERS);
            let (low, high) = VALUE_RANGES[place];
            let below = low.wrapping_sub(1);
            let numbers = [low, high, below, high + 1, 0, u32::MAX, high + 65_536];
            put(
                stored::parameter_start(length, place),
                4,
                random.pick(&numbers),
            );
        }
        9 => {
            let unused = random.pick(&[0, 0, 0x80, 0x08, 0x01, 0x0F, 0x8F]);
            put(17, 3, random.next() as u32 & 0x00FF_FF70 | unused);
        }
        _ => {
            let place = random.below(PARAMETERS);
            let level = stored::parameter_start(length, place) + 4;
            put(level, 1, random.pick(&[0, 3, 4, 255]));
        }
    }
}

/// A form of either version.
fn either_version(random: &mut Random) -> Vec<u8> {
    let record = records::record(random);
    if random.percent(35) {
        stored::old_form(&record).to_vec()
    } else {
        stored::form(&record).to_vec()
    }
}

/// A stored form, half of them refused.
pub fn stored_form(random: &mut Random) -> Vec<u8> {
    let mut form = either_version(random);
    if random.percent(30) {
        return form;
    }
    for _ in 0..random.between(1, 2) {
        match random.below(11) {
            0 if !form.is_empty() => form[0] = random.pick(&[0, 1, 2, 3, 255]),
            1 if form.len() > 2 => {
                let place = 1 + random.below(2);
                form[place] = match random.below(2) {
                    0 => random.pick(&stored::LENGTHS) as u8,
                    _ => random.byte(),
                };
            }
            2 => {
                let length = random.below(form.len() + 1);
                form.truncate(length);
            }
            3 => {
                let extra = random.between(1, 200) as usize;
                form.extend(random.bytes(extra));
            }
            4 if !form.is_empty() => {
                let place = random.below(form.len());
                form[place] = random.byte();
            }
            // The length of a version, the other's or its own.
            5 => form.resize(random.pick(&stored::LENGTHS), 0),
            _ if form.len() >= stored::LENGTHS[0] => past_an_edge(random, &mut form),
            _ => form = either_version(random),
        }
    }
    form
}

//! Texts for the host side.

use crate::generate::requests;
use crate::random::Random;
use crate::record::Record;

/// A text of any length up to past the longest, mostly of legal bytes.
pub fn text(random: &mut Random) -> Vec<u8> {
    if random.percent(20) {
        return requests::text(random, &Record::low(), requests::command);
    }
    let length = match random.below(4) {
        0 => random.pick(&[0, 1, 3, 4, 5, 59, 60, 61, 64, 70, 300]),
        _ => random.below(71),
    };
    let mut text: Vec<u8> = (0..length)
        .map(|_| random.between(0x20, 0x7E) as u8)
        .collect();
    if length > 0 && random.percent(30) {
        let place = random.below(length);
        text[place] = match random.below(2) {
            0 => random.pick(&[0x00, 0x02, 0x03, 0x1F, 0x20, 0x7E, 0x7F, 0x80, 0xFF]),
            _ => random.byte(),
        };
    }
    text
}

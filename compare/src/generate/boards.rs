//! Boards: records end to end in their stored form, and copies in which the list or a record is wrong.

use crate::board::MOST_RECORDS;
use crate::fault::Fault;
use crate::generate::{records, stored_forms};
use crate::random::Random;
use crate::record::{Record, HIGHEST_ADDRESS};
use crate::stored::{self, STORED_LENGTH};

const ADDRESS: usize = 3;

/// A board of one to sixteen records, each with an address of its own.
pub fn board(random: &mut Random) -> Vec<u8> {
    let count = random.between(1, MOST_RECORDS as u32);
    let mut free: Vec<u8> = (1..=HIGHEST_ADDRESS).collect();
    let mut record = || Record {
        address: free.swap_remove(random.below(free.len())),
        ..records::record(random)
    };
    (0..count).flat_map(|_| stored::form(&record())).collect()
}

/// Some record of a board.
pub fn held(random: &mut Random, board: &[u8]) -> Record {
    let place = random.below(board.len() / STORED_LENGTH);
    stored::read(
        &board[place * STORED_LENGTH..][..STORED_LENGTH],
        Fault::None,
    )
    .1
}

/// A copy of a board with one to three things wrong.
pub fn spoiled(random: &mut Random, board: &[u8]) -> Vec<u8> {
    let mut spoiled = board.to_vec();
    for _ in 0..random.between(1, 3) {
        spoil(random, &mut spoiled);
    }
    spoiled
}

/// Spoils the number of records, the length, an address or a record.
fn spoil(random: &mut Random, board: &mut Vec<u8>) {
    let count = board.len() / STORED_LENGTH;
    if count == 0 || random.percent(20) {
        let count = random.pick(&[0, 15, 16, 17, 17, 18, 40]);
        while board.len() < count * STORED_LENGTH {
            board.extend(stored::form(&records::record(random)));
        }
        return board.truncate(count * STORED_LENGTH);
    }
    if random.percent(15) {
        let length = random.below(board.len());
        return board.truncate(length);
    }
    let (place, other) = (random.below(count), random.below(count));
    let address = board[other * STORED_LENGTH + ADDRESS];
    let form = &mut board[place * STORED_LENGTH..][..STORED_LENGTH];
    match random.below(5) {
        0 | 1 => form[ADDRESS] = address,
        2 => form[0] = random.pick(&[0, 1, 3, 255]),
        3 => form[1 + random.below(2)] ^= 1 << random.below(8),
        _ => stored_forms::past_an_edge(random, form),
    }
}

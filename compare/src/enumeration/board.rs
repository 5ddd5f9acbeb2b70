//! Boards: every number of records and place, every record spoiled, every pair of equal addresses, every
//! order of refusals.

use super::frames::{damaged, DAMAGES};
use super::{buffer, plain_record, request, KINDS};
use crate::board::MOST_RECORDS;
use crate::comparison::{Comparison, Difference};
use crate::record::Record;
use crate::stored::{self, STORED_LENGTH};

/// The least number of records that is too many.
const TOO_MANY: usize = MOST_RECORDS + 1;

/// An address that no record of a board here has.
const NOBODY: u8 = 98;

/// The record at a place of a board, told apart from the others in each field that a reply shows.
fn record(place: usize) -> Record {
    let mut record = Record {
        address: address(place),
        access: place as u8 % 4,
        changed: place % 3 == 2,
        flow: place % 2 == 1,
        recipe: 1 + place as u8 % 8,
        number: 100 + place as u16,
        alarms: place as u32,
        ..plain_record()
    };
    for parameter in &mut record.parameters {
        parameter.level = place as u8 % 3;
    }
    record
}

/// The addresses neither rise nor begin with the least.
fn address(place: usize) -> u8 {
    5 + (place as u8 * 8 + 30) % 90
}

/// The forms of a board with so many records.
fn board(count: usize) -> Vec<u8> {
    (0..count)
        .flat_map(|place| stored::form(&record(place)))
        .collect()
}

/// The board with one byte of the form at some place changed.
fn changed(mut board: Vec<u8>, place: usize, byte_place: usize, byte: u8) -> Vec<u8> {
    board[place * STORED_LENGTH + byte_place] = byte;
    board
}

/// The board with the form at a place refused by K2, K3 or K4.
fn spoiled(board: Vec<u8>, place: usize, refusal: usize) -> Vec<u8> {
    let (byte_place, byte) = [(0, 1), (2, 0xB1), (7, 9)][refusal - 2];
    changed(board, place, byte_place, byte)
}

/// The board with the address of one place at another too.
fn twice(board: Vec<u8>, place: usize, other: usize) -> Vec<u8> {
    changed(board, other, 3, address(place))
}

pub fn boards(comparison: &mut Comparison) -> Result<(), Difference> {
    numbers_and_places(comparison)?;
    others_equal(comparison)?;
    spoiled_records(comparison)?;
    equal_addresses(comparison)?;
    orders(comparison)?;
    lengths(comparison)
}

/// Lends a board to each kind of link with a write to an address.
fn each_kind(comparison: &mut Comparison, board: &[u8], address: u8) -> Result<(), Difference> {
    for kind in KINDS {
        let request = request(kind, address, "SB 7");
        comparison.board(kind as u8, board, &request, &buffer(64))?;
    }
    Ok(())
}

/// Every number of records with the addressed one at every place: writes, one refused by some, reads of
/// them and a request that all refuse.
fn numbers_and_places(comparison: &mut Comparison) -> Result<(), Difference> {
    let reply = buffer(80);
    for count in 1..=MOST_RECORDS {
        for place in 0..count {
            for kind in KINDS {
                let mut board = board(count);
                for text in ["PC 032 9000", "PV 032", "SB 7", "TN", "RS", "ET", "QQ"] {
                    let request = request(kind, address(place), text);
                    board =
                        comparison.board_and_call(kind as u8, &board, place, &request, &reply)?;
                }
                // No board keeps the batch that ended.
                let kept = request(kind, address(place), "RT R 001");
                comparison.board(kind as u8, &board, &kept, &reply)?;
            }
        }
        each_kind(comparison, &board(count), NOBODY)?;
    }
    each_kind(comparison, &[], NOBODY)?;
    for place in 0..TOO_MANY {
        each_kind(comparison, &board(TOO_MANY), address(place))?;
    }
    // More, also such as are right modulo 256.
    for count in [18, 32, 256, 257, 272] {
        each_kind(comparison, &board(1).repeat(count), address(0))?;
    }
    Ok(())
}

/// Records that differ in nothing but the address: each in turn is written and read back.
fn others_equal(comparison: &mut Comparison) -> Result<(), Difference> {
    let reply = buffer(64);
    let form = |place| {
        stored::form(&Record {
            address: address(place),
            ..plain_record()
        })
    };
    for kind in KINDS {
        let mut board: Vec<u8> = (0..MOST_RECORDS).flat_map(form).collect();
        for text in ["NR 05", "SB 1", "TN", "RR", "ET"] {
            for place in (0..MOST_RECORDS).rev() {
                let request = request(kind, address(place), text);
                board = comparison.board_and_call(kind as u8, &board, place, &request, &reply)?;
            }
        }
    }
    Ok(())
}

/// Every place of every number of records spoiled, the request to the first, the last, the spoiled one
/// and to nobody; then every two places, each by another number.
fn spoiled_records(comparison: &mut Comparison) -> Result<(), Difference> {
    for count in 1..=MOST_RECORDS {
        for place in 0..count {
            for refusal in 2..=4 {
                let board = spoiled(board(count), place, refusal);
                for to in [address(0), address(count - 1), address(place), NOBODY] {
                    each_kind(comparison, &board, to)?;
                }
            }
        }
    }
    for second in 1..MOST_RECORDS {
        for first in 0..second {
            for (refusal, later) in [(2, 3), (3, 4), (4, 2)] {
                let board = spoiled(board(MOST_RECORDS), first, refusal);
                let board = spoiled(board, second, later);
                each_kind(comparison, &board, address(second))?;
            }
        }
    }
    Ok(())
}

/// Every two places of every number of records with one address, the request to it, to each of their
/// neighbours and to nobody.
fn equal_addresses(comparison: &mut Comparison) -> Result<(), Difference> {
    for count in 2..=MOST_RECORDS {
        for second in 1..count {
            for first in 0..second {
                let board = twice(board(count), first, second);
                for place in [first, (first + 1) % count, (second + 1) % count] {
                    each_kind(comparison, &board, address(place))?;
                }
                each_kind(comparison, &board, NOBODY)?;
            }
        }
    }
    Ok(())
}

/// What can be wrong with a list, alone and together; the damaged frames are to its second record.
fn lists() -> Vec<Vec<u8>> {
    let good = |count| changed(board(count), 1, 3, plain_record().address);
    let too_long = |mut board: Vec<u8>| {
        board.push(0);
        board
    };
    let mut lists = vec![
        vec![],
        vec![0],
        good(3),
        too_long(good(3)),
        twice(good(3), 0, 2),
        good(TOO_MANY),
        too_long(good(TOO_MANY)),
        twice(good(TOO_MANY), 0, 2),
        spoiled(good(TOO_MANY), 0, 4),
    ];
    for refusal in 2..=4 {
        let board = spoiled(good(3), 0, refusal);
        lists.extend([
            too_long(board.clone()),
            twice(board.clone(), 0, 2),
            spoiled(board.clone(), 2, 6 - refusal),
            board,
        ]);
    }
    lists
}

/// Each of them against every combination of damages to a frame, a short reply buffer and a kind that
/// there is not.
fn orders(comparison: &mut Comparison) -> Result<(), Difference> {
    for list in lists() {
        for kind in KINDS {
            for damages in 0..DAMAGES {
                let frame = damaged(kind, damages);
                for room in [63, 64] {
                    comparison.board(kind as u8, &list, &frame, &buffer(room))?;
                }
            }
            for number in [2, 3, 128, 255] {
                comparison.board(number, &list, &damaged(kind, 0), &buffer(64))?;
            }
        }
    }
    Ok(())
}

/// Every length about none to three records and about the most, and forms of version 1.
fn lengths(comparison: &mut Comparison) -> Result<(), Difference> {
    let most = MOST_RECORDS * STORED_LENGTH;
    let lengths = (0..=3 * STORED_LENGTH).chain(most - 3..=most + STORED_LENGTH + 1);
    let whole = board(TOO_MANY + 1);
    for length in lengths {
        each_kind(comparison, &whole[..length], address(0))?;
    }
    let old = |place| stored::old_form(&record(place));
    for count in [1, 2, 16, 60, 180] {
        let board: Vec<u8> = (0..count).flat_map(|place| old(place % 16)).collect();
        each_kind(comparison, &board, address(0))?;
    }
    Ok(())
}

#[cfg(test)]
mod tests {
    use super::*;
    use crate::fault::{Fault, PLANTED};
    use crate::frame::Kind;
    use crate::interface;

    /// The boards are what they are taken for.
    #[test]
    fn answers() {
        let answer = |board: &[u8], address| {
            let request = request(Kind::Terminal, address, "SB 7");
            interface::board(1, &mut board.to_vec(), &request, &mut [0; 64], Fault::None)
        };
        for place in 0..MOST_RECORDS {
            assert_eq!(answer(&board(MOST_RECORDS), address(place)), 7);
        }
        assert_eq!(answer(&board(MOST_RECORDS), NOBODY), 108);
        assert_eq!(answer(&board(TOO_MANY), address(0)), 109);
        for refusal in 2..=4 {
            let board = spoiled(board(2), 1, refusal);
            assert_eq!(answer(&board, address(0)), 200 + refusal as u32);
        }
        assert_eq!(answer(&twice(board(3), 0, 2), address(1)), 111);
        let mut answers: Vec<u32> = lists().iter().map(|list| answer(list, 42)).collect();
        answers.sort();
        assert_eq!(
            answers,
            [
                7, 109, 109, 109, 109, 111, 201, 201, 201, 201, 201, 201, 202, 202, 202, 203, 203,
                203, 204, 204, 204
            ]
        );
    }

    /// This enumeration alone notices what is planted in the board.
    #[test]
    fn faults_of_the_board_are_noticed() {
        let board = |name: &str| name.starts_with("board: ");
        assert!(PLANTED.iter().any(|(_, name)| board(name)));
        for &(fault, name) in PLANTED.iter().filter(|(_, name)| board(name)) {
            let noticed = boards(&mut Comparison::new(fault)).is_err();
            assert!(noticed, "{name}");
        }
    }
}

//! Finished batches: every number asked for, every state that a batch can end in, more batches than are
//! kept, every field of a batch about its limits, every length field, every order of refusals.

use super::calls::{each_state, telling_texts};
use super::frames::{damaged, DAMAGES};
use super::{buffer, plain_record, request, KINDS};
use crate::alarms;
use crate::bank::{bank_length, Bank, Batch, BANK_LENGTH, HEADER, MOST_BATCHES};
use crate::comparison::{Comparison, Difference, Unit};
use crate::fault::Fault;
use crate::frame::{Kind, LEAST_BUFFER};
use crate::parameters::{factor_place, parameter_code};
use crate::record::{Phase, Record, HIGHEST_NUMBER, HIGHEST_PRESET, HIGHEST_RAW, RECIPES};
use crate::stored;

/// None, few, and about the most.
const COUNTS: [usize; 5] = [0, 1, 2, 99, 100];

/// Texts about RT R NNN, of its form and near to it.
#[rustfmt::skip]
const ASKING: [&str; 38] = [
    "RT R 001", "RT R 002", "RT R 099", "RT R 100", "RT R 000", "RT R 101", "RT R 256", "RT R 257",
    "RT R 356", "RT R 999",
    // Document 01's own
    "RT R", "RT G", "RT N", "RT P", "RT M",
    // Other letters
    "RT G 001", "RT N 001", "RT P 100", "RT M 000", "RT X 001", "RT r 001", "RT S 001", "RT Q 101",
    // Not of the form
    "RT R ", "RT R 1", "RT R 01", "RT R 0", "RT R 0001", "RT R 0101", "RT R 001 ", "RT R  001",
    "RT R001", "RT  R 001", "RT R 00A", "RT R +01", "RT R 001 1", "RT 001", "RT 001 R",
];

/// A batch told apart from the others of a bank in every field.
fn batch(place: usize) -> Batch {
    Batch {
        number: 9_950 + place as u16 % 50,
        recipe: 1 + place as u8 % RECIPES,
        factor: 8_000 + 37 * place as u16,
        raw: 90_000_000 + 257 * place as u32,
        preset: 999_999 - 4_099 * place as u32,
    }
}

fn bank(count: usize) -> Bank {
    Bank::with((0..count).map(batch))
}

fn form(count: usize) -> Vec<u8> {
    bank(count).form(Fault::None)
}

/// A form as it is lent, bytes of their own behind it.
fn lent(form: Vec<u8>) -> Vec<u8> {
    let behind = buffer(BANK_LENGTH).split_off(form.len().min(BANK_LENGTH));
    [form, behind].concat()
}

pub fn unit(record: &Record, count: usize) -> Unit {
    Unit {
        stored: stored::form(record).to_vec(),
        bank: lent(form(count)),
    }
}

pub fn banks(comparison: &mut Comparison) -> Result<(), Difference> {
    volumes(comparison)?;
    afterwards(comparison)?;
    no_bank(comparison)?;
    fields(comparison)?;
    buffer_lengths(comparison)?;
    streams(comparison)?;
    orders(comparison)?;
    batches_in_a_row(comparison)?;
    ended_batches(comparison)?;
    numbers_asked(comparison)?;
    texts(comparison)?;
    bank_bytes(comparison)?;
    stored_lengths(comparison)?;
    length_fields(comparison)
}

/// Every NNN against each number of batches, and after one batch more.
fn numbers_asked(comparison: &mut Comparison) -> Result<(), Difference> {
    let record = Record {
        phase: Phase::Done,
        ..plain_record()
    };
    let reply = buffer(LEAST_BUFFER);
    for count in COUNTS {
        for kind in KINDS {
            let before = unit(&record, count);
            let end = request(kind, record.address, "ET");
            let (_, after, _) = comparison.banked_call(kind as u8, &before, &end, &reply)?;
            for number in 0..=999 {
                let text = format!("RT R {number:03}");
                let asking = request(kind, record.address, &text);
                // Both kinds about the number of batches, else by turns.
                if number <= MOST_BATCHES + 1 || number % 2 == kind as usize {
                    comparison.banked_call(kind as u8, &before, &asking, &reply)?;
                    comparison.banked_call(kind as u8, &after, &asking, &reply)?;
                }
            }
        }
    }
    Ok(())
}

/// ET from every phase, with the keypad off and on, at every access and level, with an alarm on and
/// without, in every recipe; what it kept is asked for.
fn ended_batches(comparison: &mut Comparison) -> Result<(), Difference> {
    let reply = buffer(LEAST_BUFFER);
    each_state(|mut record, level| {
        for count in COUNTS {
            for kind in KINDS {
                record.recipe = 1 + (count as u8 + level) % RECIPES;
                record.alarms = alarms::numbered(u16::from(level));
                let mut unit = unit(&record, count);
                for text in ["ET", "RT R 001", "RT R 002", "RT R 100", "ET", "TN"] {
                    let request = request(kind, record.address, text);
                    (_, unit, _) = comparison.banked_call(kind as u8, &unit, &request, &reply)?;
                }
            }
        }
        Ok(())
    })
}

/// Batches at the ends of what they can have, and every recipe with its own factor.
fn volumes(comparison: &mut Comparison) -> Result<(), Difference> {
    let reply = buffer(LEAST_BUFFER);
    for phase in [Phase::Set, Phase::Stopped, Phase::Done] {
        for recipe in 1..=RECIPES {
            for raw in [0, 1, 999_999, HIGHEST_RAW] {
                for (preset, number) in [(0, 1), (HIGHEST_PRESET, HIGHEST_NUMBER), (65_536, 256)] {
                    let record = Record {
                        phase,
                        recipe,
                        raw,
                        preset,
                        number,
                        ..plain_record()
                    };
                    let mut unit = unit(&record, 1);
                    for text in ["ET", "RT R 001", "RT R 002"] {
                        let request = request(Kind::Minicomputer, record.address, text);
                        (_, unit, _) = comparison.banked_call(0, &unit, &request, &reply)?;
                    }
                }
            }
        }
    }
    Ok(())
}

/// Each text about RT R NNN against every phase, keypad, access and level, and with it by turns those that
/// meet a refusal or an acceptance, with nothing kept and with much. What asks for no kept batch is
/// answered as without a bank.
fn texts(comparison: &mut Comparison) -> Result<(), Difference> {
    let telling = telling_texts();
    let reply = buffer(LEAST_BUFFER);
    let mut turn = 0;
    each_state(|mut record, level| {
        turn += 1;
        record.alarms = [0, alarms::ALL][usize::from(level) % 2];
        let kind = KINDS[turn % 2];
        let lent = |text: &str| request(kind, record.address, text);
        let unit = unit(&record, [0, 1, 2, 99, 100][turn % 5]);
        for text in ASKING {
            comparison.banked_call(kind as u8, &unit, &lent(text), &reply)?;
        }
        for text in telling.iter().skip(turn % 3).step_by(3) {
            comparison.banked_and_call(kind as u8, &unit, &lent(text), &reply)?;
        }
        Ok(())
    })
}

/// The same texts where there is no bank: a call, several frames, and a board behind an ET.
fn no_bank(comparison: &mut Comparison) -> Result<(), Difference> {
    let record = Record {
        phase: Phase::Done,
        ..plain_record()
    };
    let form = stored::form(&record);
    let reply = buffer(2 * LEAST_BUFFER);
    for kind in KINDS {
        let end = request(kind, record.address, "ET");
        let (_, ended, _) = comparison.call(kind as u8, &form, &end, &reply)?;
        for text in ASKING {
            let asking = request(kind, record.address, text);
            comparison.call(kind as u8, &ended, &asking, &reply)?;
            comparison.board_and_call(kind as u8, &ended, 0, &asking, &reply)?;
            comparison.several_and_calls(&form, &[&end, &asking])?;
        }
    }
    Ok(())
}

/// What is done to recipe, factor, raw total and preset after ET leaves what is kept.
fn afterwards(comparison: &mut Comparison) -> Result<(), Difference> {
    let reply = buffer(LEAST_BUFFER);
    for recipe in 1..=RECIPES {
        let record = Record {
            recipe,
            phase: Phase::Stopped,
            access: 3,
            ..plain_record()
        };
        let code = parameter_code(factor_place(recipe));
        let write = format!("PC {code:03} 11111");
        let next = format!("NR {:02}", recipe % RECIPES + 1);
        let mut unit = unit(&record, 1);
        for text in [
            "ET", &write, &next, "SB 777", "RT R 001", "SA", "RT R 001", "SP", "ET", "RT R 001",
            "RT R 002", "RT R 003",
        ] {
            let request = request(Kind::Minicomputer, record.address, text);
            (_, unit, _) = comparison.banked_call(0, &unit, &request, &reply)?;
            if text == "SA" {
                unit.stored = comparison.panel(0, 99, &unit.stored)?;
            }
        }
    }
    Ok(())
}

/// More batches in a row than are kept, each of another recipe, factor, volume and preset: stopped, done,
/// or done with the next one set at once, which keeps nothing.
fn batches_in_a_row(comparison: &mut Comparison) -> Result<(), Difference> {
    let reply = buffer(LEAST_BUFFER);
    let record = plain_record();
    let mut unit = unit(&record, 0);
    for turn in 0u16..250 {
        let recipe = 1 + turn as u8 % RECIPES;
        let code = parameter_code(factor_place(recipe));
        let recipe = format!("NR {recipe:02}");
        let factor = format!("PC {code:03} {}", 8_000 + 16 * turn);
        let preset = format!("SB {}", 1 + 3 * turn);
        let oldest = format!("RT R {:03}", MOST_BATCHES.min(usize::from(turn)));
        let [stop, last] = [["SP", "ET"], ["RT R", "ET"], ["EQ", "RR"]][usize::from(turn) % 3];
        for text in [
            &recipe, &factor, &preset, "SA", "pulses", stop, last, "RT R 001", &oldest, "RT R 101",
        ] {
            if text == "pulses" {
                unit.stored = comparison.panel(0, 2 * turn, &unit.stored)?;
                if stop != "SP" {
                    unit.stored = comparison.panel(0, 65_535, &unit.stored)?;
                }
                continue;
            }
            let request = request(Kind::Minicomputer, record.address, text);
            (_, unit, _) = comparison.banked_call(0, &unit, &request, &reply)?;
        }
    }
    Ok(())
}

/// Where a batch has its fields: the place, the width and the limits.
const FIELDS: [(usize, usize, u32, u32); 5] = [
    (0, 2, 1, HIGHEST_NUMBER as u32),
    (2, 1, 1, RECIPES as u32),
    (3, 2, 8_000, 12_000),
    (5, 4, 0, HIGHEST_RAW),
    (9, 3, 0, HIGHEST_PRESET),
];

/// The form with a number put into a field of a batch.
fn with_number(
    mut form: Vec<u8>,
    place: usize,
    (start, width, _, _): (usize, usize, u32, u32),
    number: u32,
) -> Vec<u8> {
    let start = bank_length(place) + start;
    form[start..start + width].copy_from_slice(&number.to_be_bytes()[4 - width..]);
    form
}

/// Each field of the first, the last and other batches at its limits, below and above them, and at what a
/// number of that width can be at most.
fn fields(comparison: &mut Comparison) -> Result<(), Difference> {
    let record = plain_record();
    let reply = buffer(LEAST_BUFFER);
    let asking = request(Kind::Minicomputer, record.address, "RT R 001");
    for count in [1, 2, 3, 99, 100] {
        for place in [0, 1, count / 2, count - 1] {
            for field in FIELDS {
                let (_, width, low, high) = field;
                let most = u32::MAX >> (32 - 8 * width);
                for number in [
                    0,
                    low.saturating_sub(1),
                    low,
                    high,
                    high + 1,
                    high + 65_536,
                    most,
                ] {
                    let form = with_number(form(count), place.min(count - 1), field, number & most);
                    comparison.bank(&form, &buffer(BANK_LENGTH))?;
                    let unit = Unit {
                        bank: lent(form),
                        ..unit(&record, 0)
                    };
                    comparison.banked_call(0, &unit, &asking, &reply)?;
                }
            }
        }
    }
    Ok(())
}

/// Every byte in every place of a short bank; in a full one those that tell most.
fn bank_bytes(comparison: &mut Comparison) -> Result<(), Difference> {
    for (count, bytes) in [(2, (0..=255).collect()), (100, vec![0, 1, 3, 9, 40, 255])] {
        let whole = form(count);
        for place in 0..whole.len() {
            for &byte in &bytes {
                let mut form = whole.clone();
                form[place] = byte;
                comparison.bank(&form, &buffer(whole.len() + 1))?;
            }
        }
    }
    Ok(())
}

/// Every length field that two bytes hold in a full bank that is lent; in stored banks, those about every
/// length.
fn length_fields(comparison: &mut Comparison) -> Result<(), Difference> {
    let record = plain_record();
    let asking = request(Kind::Minicomputer, record.address, "RT R 001");
    let mut unit = unit(&record, MOST_BATCHES);
    for field in 0..=u16::MAX {
        unit.bank[1..HEADER].copy_from_slice(&field.to_be_bytes());
        comparison.banked_call(0, &unit, &asking, &buffer(LEAST_BUFFER))?;
    }
    for count in [0, 1, 100] {
        let mut form = form(count);
        for field in 0..=1_300u16 {
            form[1..HEADER].copy_from_slice(&field.to_be_bytes());
            comparison.bank(&form, &buffer(20))?;
        }
    }
    Ok(())
}

/// Every length of a stored bank, with the field of that length, of another, of so many modulo 256, and
/// with the version wrong; against every room about what it takes.
fn stored_lengths(comparison: &mut Comparison) -> Result<(), Difference> {
    let longest = form(102);
    for length in 0..=longest.len() {
        let mut form = longest[..length].to_vec();
        for field in [length, length + 1, length & 0xFF, BANK_LENGTH] {
            if let Some(place) = form.get_mut(1..HEADER) {
                place.copy_from_slice(&(field as u16).to_be_bytes());
            }
            comparison.bank(&form, &buffer(length))?;
            for room in [0, 2, 3] {
                comparison.bank(&form, &buffer(room))?;
            }
        }
        if let Some(version) = form.first_mut() {
            *version = 2;
            comparison.bank(&form, &buffer(BANK_LENGTH))?;
        }
    }
    for count in COUNTS {
        let form = form(count);
        for room in 0..=BANK_LENGTH + 20 {
            comparison.bank(&form, &buffer(room))?;
        }
    }
    Ok(())
}

/// Every length of the buffer that a bank is lent in, the bank whole in it where there is room.
fn buffer_lengths(comparison: &mut Comparison) -> Result<(), Difference> {
    let record = Record {
        phase: Phase::Done,
        ..plain_record()
    };
    let reply = buffer(LEAST_BUFFER);
    let end = request(Kind::Minicomputer, record.address, "ET");
    for count in [0, 2, 99, 100] {
        for length in 0..=2 * BANK_LENGTH {
            // All of them about a limit, else some.
            let about = [0, bank_length(count), BANK_LENGTH, bank_length(101)];
            if length % 7 == 0 || about.iter().any(|limit| length.abs_diff(*limit) <= 2) {
                let mut unit = unit(&record, count);
                unit.bank.resize(length, 1);
                comparison.banked_call(0, &unit, &end, &reply)?;
                comparison.banked_several(&unit, &end, &reply)?;
            }
        }
    }
    Ok(())
}

/// Banks that are refused, each for another reason, and one that is good.
pub fn each_bank() -> Vec<Vec<u8>> {
    let changed = |place: usize, byte: u8| {
        let mut bank = lent(form(2));
        bank[place] = byte;
        bank
    };
    let [_, _, factor, ..] = FIELDS;
    vec![
        lent(form(2)),
        vec![],
        lent(form(2))[1..].to_vec(),
        [lent(form(100)), vec![0]].concat(),
        form(2),
        changed(0, 2),
        changed(2, 28),
        changed(1, 255),
        lent(with_number(form(2), 0, factor, 7_999)),
        lent(with_number(form(2), 1, factor, 12_001)),
    ]
}

/// Each of them beside records that are refused or not, against damages to a frame, a short reply buffer
/// and a kind that there is not.
fn orders(comparison: &mut Comparison) -> Result<(), Difference> {
    let good = stored::form(&plain_record()).to_vec();
    let changed = |place: usize, byte: u8| {
        let mut form = good.clone();
        form[place] = byte;
        form
    };
    let records = [
        good.clone(),
        good[1..].to_vec(),
        changed(0, 1),
        changed(2, 0),
        changed(7, 9),
        stored::old_form(&plain_record()).to_vec(),
    ];
    for stored in &records {
        for bank in each_bank() {
            let unit = Unit {
                stored: stored.clone(),
                bank,
            };
            for kind in KINDS {
                for damages in (0..DAMAGES).filter(|damages| damages.count_ones() <= 2) {
                    let frame = damaged(kind, damages);
                    let room = buffer(63 + damages % 2);
                    comparison.banked_call(kind as u8, &unit, &frame, &room)?;
                }
                for number in [2, 255] {
                    comparison.banked_call(number, &unit, &damaged(kind, 0), &buffer(63))?;
                }
            }
            for stream in [vec![], damaged(Kind::Minicomputer, 0), vec![b'4'; 3]] {
                for room in [0, LEAST_BUFFER] {
                    comparison.banked_several(&unit, &stream, &buffer(room))?;
                }
            }
        }
    }
    Ok(())
}

/// Whole batches in one stream, with what is asked for between: at once, one by one, split at every place,
/// and with every reply room about what is needed.
fn streams(comparison: &mut Comparison) -> Result<(), Difference> {
    const ROOMY: usize = 1_000;
    let record = Record {
        phase: Phase::Done,
        ..plain_record()
    };
    let own = |text: &str| request(Kind::Minicomputer, record.address, text);
    let frames: Vec<Vec<u8>> = [
        "RT R 001", "ET", "RT R 001", "SB 5", "SA", "SP", "RT R 002", "ET", "ET", "RT R 001",
        "RT R 000", "SB 6", "ET", "RT R 101", "RT G 001",
    ]
    .map(own)
    .into();
    let frames: Vec<&[u8]> = frames.iter().map(Vec::as_slice).collect();
    let stream = frames.concat();
    for count in COUNTS {
        let unit = unit(&record, count);
        comparison.banked_several_and_calls(&unit, &frames)?;
        for place in 0..=stream.len() {
            let (first, second) = stream.split_at(place);
            comparison.banked_several_in_ticks(&unit, &[first, second], ROOMY)?;
        }
        for room in 0..=400 {
            comparison.banked_several(&unit, &stream, &buffer(room))?;
        }
    }
    // More batches in one stream than are kept.
    let turns = [&own("SB 7")[..], &own("SA"), &own("SP"), &own("ET")].concat();
    let long = [turns.repeat(101), own("RT R 100"), own("RT R 101")].concat();
    comparison.banked_several(&unit(&record, 0), &long, &buffer(5_000))?;
    comparison.banked_several(&unit(&record, 60), &turns.repeat(250), &buffer(10_000))?;
    Ok(())
}

#[cfg(test)]
mod tests {
    use super::*;
    use crate::fault::PLANTED;
    use crate::interface;

    /// The banks are what they are taken for.
    #[test]
    fn answers() {
        let record = plain_record();
        let answer = |bank: &[u8]| {
            let request = request(Kind::Terminal, record.address, "RT R 002");
            let mut stored = stored::form(&record);
            let mut bank = bank.to_vec();
            let mut reply = [0; 64];
            interface::banked_call(1, &mut stored, &mut bank, &request, &mut reply, Fault::None)
        };
        let [good, bad @ ..] = &each_bank()[..] else {
            panic!("there are banks");
        };
        assert_eq!(answer(good), 22);
        assert!(bad.iter().all(|bank| answer(bank) == 207));
        for count in COUNTS {
            assert!(bank(count).is_valid());
            let expected = if count < 2 { 9 } else { 22 };
            assert_eq!(answer(&lent(form(count))), expected);
        }
    }

    /// This enumeration alone notices what is planted in the bank.
    #[test]
    fn faults_of_the_bank_are_noticed() {
        let bank = |name: &str| name.starts_with("bank: ");
        assert!(PLANTED.iter().any(|(_, name)| bank(name)));
        for &(fault, name) in PLANTED.iter().filter(|(_, name)| bank(name)) {
            let noticed = banks(&mut Comparison::new(fault)).is_err();
            assert!(noticed, "{name}");
        }
    }
}

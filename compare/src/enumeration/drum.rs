//! Drum changes: every damage to a right reply, every state of the controller, every pick and held
//! number about its ends, every order of refusals, every length of what is lent.

use super::calls::each_state;
use super::{buffer, plain_record};
use crate::alarms;
use crate::comparison::{Comparison, Difference};
use crate::controller;
use crate::drum::{self, Picks, Step, ENDED, FACTORS, STATE_LENGTH, STOPPED};
use crate::frame::{self, Kind, LEAST_BUFFER};
use crate::parameters::factor_place;
use crate::record::{Phase, Record, HIGHEST_ADDRESS, HIGHEST_NUMBER, HIGHEST_PRESET, RECIPES};
use crate::stored;

const fn picks(address: u8, recipe: u8, factor: u32, preset: u32) -> Picks {
    Picks {
        address,
        recipe,
        factor,
        preset,
    }
}

/// Numbers shorter than their width, told apart; the least; the most.
const EACH_PICKS: [Picks; 3] = [
    picks(7, 3, 10_150, 500),
    picks(1, 1, 8_000, 1),
    picks(99, 8, 12_000, 999_999),
];

/// Steps that a held state may have, and the numbers next to them.
const STEPS: [u8; 13] = [0, 1, 2, 3, 4, 5, 6, 7, 10, 11, 15, 16, 255];

pub fn drum_changes(comparison: &mut Comparison) -> Result<(), Difference> {
    damaged_replies(comparison)?;
    other_replies(comparison)?;
    each_controller(comparison)?;
    addresses(comparison)?;
    records_refused(comparison)?;
    numbers(comparison)?;
    picks_about_their_ends(comparison)?;
    held_about_their_ends(comparison)?;
    steps(comparison)?;
    orders(comparison)?;
    lengths(comparison)
}

/// Lends a reply to a change that awaits one at a step.
fn take(
    comparison: &mut Comparison,
    picks: Picks,
    step: Step,
    reply: &[u8],
) -> Result<(), Difference> {
    comparison.drum_take(&picks.held(step as u8), reply, &buffer(LEAST_BUFFER))?;
    Ok(())
}

/// At every step the right reply, also with every byte in every place, the check left and mended, with
/// every two bytes swapped, cut at every length and with one byte more.
fn damaged_replies(comparison: &mut Comparison) -> Result<(), Difference> {
    for picks in EACH_PICKS {
        for step in Step::ALL {
            let right = drum::right_reply(&picks, step);
            for place in 0..right.len() {
                for byte in 0..=255 {
                    let mut reply = right.clone();
                    reply[place] = byte;
                    take(comparison, picks, step, &reply)?;
                    reply[right.len() - 2] ^= right[place] ^ byte;
                    take(comparison, picks, step, &reply)?;
                }
                for other in 0..place {
                    let mut reply = right.clone();
                    reply.swap(place, other);
                    take(comparison, picks, step, &reply)?;
                }
                take(comparison, picks, step, &right[..place])?;
                take(comparison, picks, step, &right[place..])?;
            }
            for byte in 0..=255 {
                take(comparison, picks, step, &[&right[..], &[byte]].concat())?;
                take(comparison, picks, step, &[&[byte], &right[..]].concat())?;
            }
        }
    }
    Ok(())
}

/// Texts like those of right replies, and requests.
#[rustfmt::skip]
const OTHER_TEXTS: [&str; 26] = [
    "07", "07O", "07OK ", "07ok", "7OK", " 7OK", "007OK", "OK", "07OKOK",
    "07PV 032 10150", "07PV 32 00010150", "07PV 042 00010150", "07PV 031 00010150",
    "07PV 032  0010150", "07PV 032 000010150",
    "07RC 3 00010150", "07RC 03 10150", "07RC 03 00010150 ", "07RR 03", "07XV 032 1", "07000000",
    "07NR 03", "07PC 032 00010150", "07PV 032", "07RC", "07SB 000500",
];

/// Picks that each differ from the first in what some reply shows.
fn other_picks() -> [Picks; 5] {
    let [first, second, third] = EACH_PICKS;
    let (address, recipe, factor) = (70, 4, 10_151);
    [
        second,
        third,
        Picks { address, ..first },
        Picks { recipe, ..first },
        Picks { factor, ..first },
    ]
}

/// What else may come: the right reply of each step and of other picks, each NO, other texts and texts
/// of every length, the other kind of frame, nothing, and more than a frame holds.
fn replies() -> Vec<Vec<u8>> {
    let [picks, ..] = EACH_PICKS;
    let framed = |text: &str| frame::framed(Kind::Minicomputer, text.as_bytes());
    let mut replies = vec![vec![], buffer(65_600)];
    for step in Step::ALL {
        let right = drum::right_reply(&picks, step);
        let text = &right[1..right.len() - Kind::Minicomputer.trailer()];
        replies.push(frame::framed(Kind::Terminal, text));
        replies.push(right);
        replies.extend(other_picks().map(|other| drum::right_reply(&other, step)));
    }
    replies.extend((0..=99).map(|number| refusal(picks, number)));
    replies.extend(OTHER_TEXTS.map(framed));
    replies.extend((0..=70).map(|length| framed(&"0".repeat(length))));
    replies
}

/// A controller's NO.
fn refusal(picks: Picks, number: u8) -> Vec<u8> {
    let text = controller::refusal(picks.address, number);
    frame::framed(Kind::Minicomputer, text.bytes())
}

/// Each of them at every step.
fn other_replies(comparison: &mut Comparison) -> Result<(), Difference> {
    let [picks, ..] = EACH_PICKS;
    for reply in replies() {
        for step in Step::ALL {
            take(comparison, picks, step, &reply)?;
        }
    }
    Ok(())
}

/// What a change against a controller with this record has to come to, and the record then: it stops
/// at NR if no write is accepted, at PC if the factor is out of the access's reach, and else ends.
fn expected(picks: Picks, before: Record) -> (u32, Record) {
    let writable = matches!(before.phase, Phase::Idle | Phase::Done) && !before.keypad;
    if !writable || picks.address != before.address {
        return (701, before);
    }
    let mut after = Record {
        recipe: picks.recipe,
        ..before
    };
    let factor = &mut after.parameters[factor_place(picks.recipe)];
    if factor.level > before.access {
        return (702, after);
    }
    after.changed |= factor.value != picks.factor;
    factor.value = picks.factor;
    let set = Record {
        phase: Phase::Set,
        preset: picks.preset,
        raw: 0,
        batch_reset: true,
        number: before.number % HIGHEST_NUMBER + 1,
        ..after
    };
    (0, set)
}

/// Has a change go through against a controller with this record.
fn go_through(comparison: &mut Comparison, picks: Picks, record: Record) -> Result<(), Difference> {
    let (answer, after) = expected(picks, record);
    let expected = (answer, &stored::form(&after)[..]);
    comparison.drum_change_and_calls(picks, &stored::form(&record), expected)
}

/// Every phase, keypad, access and level of the factor, against every recipe picked; all other levels
/// are as far from that one as can be, and what else a record holds changes with the recipe.
fn each_controller(comparison: &mut Comparison) -> Result<(), Difference> {
    each_state(|mut record, level| {
        for recipe in 1..=RECIPES {
            let place = factor_place(recipe);
            for parameter in &mut record.parameters {
                parameter.level = if level < 2 { 3 } else { 0 };
            }
            record.parameters[place].level = level;
            record.recipe = RECIPES + 1 - recipe;
            record.changed = recipe % 2 == 0;
            record.flow = recipe % 3 == 0;
            record.power_fail = recipe > 4;
            record.alarms = [0, alarms::ALL][usize::from(recipe) % 2];
            record.number = 9_995 + u16::from(recipe).min(4);
            let held = record.parameters[place].value;
            for (factor, preset) in [(8_000, 999_999), (12_000, 1), (10_150, 500), (held, 20)] {
                let picks = picks(record.address, recipe, factor, preset);
                go_through(comparison, picks, record)?;
            }
        }
        Ok(())
    })
}

/// Every address, against a controller that has it and against others.
fn addresses(comparison: &mut Comparison) -> Result<(), Difference> {
    for address in 1..=HIGHEST_ADDRESS {
        for own in [address, 100 - address, address % HIGHEST_ADDRESS + 1] {
            let record = Record {
                address: own,
                ..plain_record()
            };
            let picks = picks(address, 3, 10_150, 500);
            go_through(comparison, picks, record)?;
        }
    }
    Ok(())
}

/// Stored records that are refused: the controller is silent, and the change stops at NR.
fn records_refused(comparison: &mut Comparison) -> Result<(), Difference> {
    let form = stored::form(&plain_record());
    let mut broken = form;
    broken[7] = 9;
    for stored in [&broken[..], &form[1..], &stored::old_form(&plain_record())] {
        let picks = picks(plain_record().address, 3, 10_150, 500);
        comparison.drum_change_and_calls(picks, stored, (701, stored))?;
    }
    Ok(())
}

/// Numbers next to where their digits carry.
fn about_powers_of_ten(low: u32, high: u32) -> Vec<u32> {
    let mut numbers: Vec<u32> = (0..7)
        .flat_map(|power| (1..10).map(move |digit| digit * 10_u32.pow(power)))
        .flat_map(|number| [number - 1, number, number + 1])
        .filter(|number| (low..=high).contains(number))
        .collect();
    numbers.sort_unstable();
    numbers.dedup();
    numbers
}

/// Every factor, shown as picked and as one next to it; every preset where digits carry.
fn numbers(comparison: &mut Comparison) -> Result<(), Difference> {
    for factor in FACTORS {
        let picks = picks(7, 3, factor, 500);
        for step in [Step::WriteRecipe, Step::ReadFactor, Step::ReadRecipe] {
            take(comparison, picks, step, &drum::right_reply(&picks, step))?;
            let next = Picks {
                factor: factor + 1,
                ..picks
            };
            take(comparison, picks, step, &drum::right_reply(&next, step))?;
        }
    }
    for preset in about_powers_of_ten(1, HIGHEST_PRESET) {
        let picks = picks(plain_record().address, 3, 10_150, preset);
        go_through(comparison, picks, plain_record())?;
    }
    Ok(())
}

/// Numbers about both ends of a range and about each power of two, in so many bits.
fn about_ends(low: u32, high: u32, bits: u32) -> Vec<u32> {
    let powers = (0..32).map(|bit| 1_u32 << bit);
    let mut numbers: Vec<u32> = [low, high]
        .into_iter()
        .chain(powers.clone())
        // In range but for a bit that is too high.
        .chain(powers.flat_map(|power| [low | power, high | power]))
        .flat_map(|number| [number.wrapping_sub(1), number, number.wrapping_add(1)])
        .chain([u32::MAX])
        .filter(|&number| u64::from(number) < 1 << bits)
        .collect();
    numbers.sort_unstable();
    numbers.dedup();
    numbers
}

/// Each pick with every number or those about its ends, the others in range.
fn each_pick(factor_bits: u32, preset_bits: u32) -> Vec<Picks> {
    let [whole, ..] = EACH_PICKS;
    let mut each = vec![];
    for byte in 0..=255 {
        each.push(Picks {
            address: byte,
            ..whole
        });
        each.push(Picks {
            recipe: byte,
            ..whole
        });
    }
    for factor in about_ends(*FACTORS.start(), *FACTORS.end(), factor_bits) {
        each.push(Picks { factor, ..whole });
    }
    for preset in about_ends(1, HIGHEST_PRESET, preset_bits) {
        each.push(Picks { preset, ..whole });
    }
    each
}

/// Into states that held something else before, in range and out of it.
fn picks_about_their_ends(comparison: &mut Comparison) -> Result<(), Difference> {
    let [_, second, third] = EACH_PICKS;
    let before = [
        [0; STATE_LENGTH],
        [0xFF; STATE_LENGTH],
        second.held(4),
        third.held(ENDED),
        third.held(STOPPED + 2),
    ];
    for picks in each_pick(32, 32) {
        for state in &before {
            comparison.drum_begin(picks, state, &buffer(LEAST_BUFFER))?;
        }
    }
    Ok(())
}

/// At every step, by the right reply and by none; every factor that two bytes can hold by the right one
/// alone.
fn held_about_their_ends(comparison: &mut Comparison) -> Result<(), Difference> {
    for picks in each_pick(16, 24) {
        for step in Step::ALL {
            take(comparison, picks, step, &reply_to(picks, step))?;
            take(comparison, picks, step, &[])?;
        }
    }
    for factor in 0..=65_535 {
        let picks = picks(7, 3, factor, 500);
        let step = Step::ReadFactor;
        take(comparison, picks, step, &drum::right_reply(&picks, step))?;
    }
    Ok(())
}

/// The right reply; where there is no such recipe, that of another one.
fn reply_to(picks: Picks, step: Step) -> Vec<u8> {
    let recipe = picks.recipe.clamp(1, RECIPES);
    drum::right_reply(&Picks { recipe, ..picks }, step)
}

/// Every step that a byte can hold, by the right reply of each step, by a NO and by none.
fn steps(comparison: &mut Comparison) -> Result<(), Difference> {
    let [picks, ..] = EACH_PICKS;
    let mut replies = vec![vec![], refusal(picks, 5)];
    replies.extend(Step::ALL.map(|step| drum::right_reply(&picks, step)));
    for step in 0..=255 {
        for reply in &replies {
            comparison.drum_take(&picks.held(step), reply, &buffer(LEAST_BUFFER))?;
        }
    }
    Ok(())
}

/// Every combination of picks that are right, too low and too high.
fn combinations() -> Vec<Picks> {
    let mut combinations = vec![];
    for address in [7, 0, 100] {
        for recipe in [3, 0, 9] {
            for factor in [10_150, 7_999, 12_001] {
                for preset in [500, 0, 1_000_000] {
                    combinations.push(picks(address, recipe, factor, preset));
                }
            }
        }
    }
    combinations
}

/// Each of them against states and request buffers of a wrong length and, held, against steps and
/// replies.
fn orders(comparison: &mut Comparison) -> Result<(), Difference> {
    for picks in combinations() {
        for state in [0, STATE_LENGTH - 1, STATE_LENGTH, STATE_LENGTH + 1] {
            for room in [0, 63, 64, 65] {
                comparison.drum_begin(picks, &buffer(state), &buffer(room))?;
            }
        }
        for step in STEPS {
            let awaited = Step::numbered(step).unwrap_or(Step::SetBatch);
            let right = reply_to(picks, awaited);
            let mut state = picks.held(step).to_vec();
            state.push(step);
            for state in [&state[1..STATE_LENGTH], &state[..STATE_LENGTH], &state] {
                for room in [63, 64] {
                    comparison.drum_take(state, &right, &buffer(room))?;
                    comparison.drum_take(state, &[], &buffer(room))?;
                }
            }
        }
    }
    Ok(())
}

/// Every length of a state about 8 and of a request buffer about 64, at every step, by the right reply
/// and by none.
fn lengths(comparison: &mut Comparison) -> Result<(), Difference> {
    let [picks, ..] = EACH_PICKS;
    for length in 0..=2 * STATE_LENGTH {
        for room in 0..=80 {
            comparison.drum_begin(picks, &buffer(length), &buffer(room))?;
            for step in Step::ALL.map(|step| step as u8).into_iter().chain([ENDED]) {
                // A state that is too long has a step in its last place too.
                let mut state = picks.held(step).to_vec();
                state.resize(length, step);
                let awaited = Step::numbered(step).unwrap_or(Step::SetBatch);
                let right = drum::right_reply(&picks, awaited);
                comparison.drum_take(&state, &right, &buffer(room))?;
                comparison.drum_take(&state, &[], &buffer(room))?;
            }
        }
    }
    Ok(())
}

#[cfg(test)]
mod tests {
    use super::*;
    use crate::fault::PLANTED;

    /// A change ends exactly where each write is accepted.
    #[test]
    fn where_a_change_ends() {
        let picks = picks(42, 3, 10_150, 500);
        let mut record = plain_record();
        record.access = 1;
        record.parameters[factor_place(3)].level = 1;
        for phase in Phase::ALL {
            let (answer, after) = expected(picks, Record { phase, ..record });
            if matches!(phase, Phase::Idle | Phase::Done) {
                let factor = after.parameters[factor_place(3)].value;
                assert_eq!((answer, after.phase), (0, Phase::Set));
                assert_eq!((after.recipe, factor, after.preset), (3, 10_150, 500));
                assert!(after.is_valid());
            } else {
                assert_eq!((answer, after), (701, Record { phase, ..record }));
            }
        }
        record.parameters[factor_place(3)].level = 2;
        assert_eq!(expected(picks, record), (702, record));
        record.keypad = true;
        assert_eq!(expected(picks, record), (701, record));
    }

    /// This enumeration alone notices what is planted in the drum change.
    #[test]
    fn faults_of_the_drum_change_are_noticed() {
        let drum = |name: &str| name.starts_with("drum: ");
        assert!(PLANTED.iter().any(|(_, name)| drum(name)));
        for &(fault, name) in PLANTED.iter().filter(|(_, name)| drum(name)) {
            let noticed = drum_changes(&mut Comparison::new(fault)).is_err();
            assert!(noticed, "{name}");
        }
    }
}

//! Drum changes: controllers, picks in range and out of it, held states and copies that are wrong,
//! replies right and wrong.

use crate::controller;
use crate::drum::{self, Picks, Step, FACTORS, STATE_LENGTH, STEP};
use crate::frame::{self, Kind};
use crate::generate::{records, requests};
use crate::parameters::factor_place;
use crate::random::Random;
use crate::record::{Phase, Record, HIGHEST_ADDRESS, HIGHEST_PRESET, RECIPES};

/// A controller's record, mostly one that lets a change end.
pub fn controller(random: &mut Random) -> Record {
    let mut record = records::record(random);
    if random.percent(75) {
        record.phase = random.pick(&[Phase::Idle, Phase::Idle, Phase::Done]);
        record.keypad = false;
        for recipe in 1..=RECIPES {
            let level = random.between(0, u32::from(record.access)) as u8;
            record.parameters[factor_place(recipe)].level = level;
        }
    }
    record
}

fn in_range(random: &mut Random, record: &Record) -> Picks {
    let recipe = random.between(1, u32::from(RECIPES)) as u8;
    let factor = match random.below(5) {
        0 => record.parameters[factor_place(recipe)].value,
        _ => records::number(random, *FACTORS.start(), *FACTORS.end(), true),
    };
    Picks {
        address: record.address,
        recipe,
        factor,
        preset: records::number(random, 1, HIGHEST_PRESET, true),
    }
}

/// Picks for this controller, seldom for another one; some are out of range or at an edge.
pub fn picks(random: &mut Random, record: &Record) -> Picks {
    let mut picks = in_range(random, record);
    if random.percent(3) {
        picks.address = random.between(1, u32::from(HIGHEST_ADDRESS)) as u8;
    }
    if random.percent(20) {
        for _ in 0..random.between(1, 3) {
            move_pick(random, &mut picks);
        }
    }
    picks
}

/// Puts one pick out of its range or to its edge; some are in range but for their high bytes.
fn move_pick(random: &mut Random, picks: &mut Picks) {
    match random.below(4) {
        0 => picks.address = random.pick(&[0, 1, 99, 100, 101, 128, 255]),
        1 => picks.recipe = random.pick(&[0, 1, 8, 9, 16, 129, 255]),
        2 => {
            let ends = [0, 7_999, 8_000, 12_000, 12_001, 65_535, 65_536, 75_536];
            picks.factor = random.pick(&ends) | random.pick(&[0, 0, 1 << 31]);
        }
        _ => {
            let ends = [0, 1, 999_999, 1_000_000, 0xFF_FFFF, 0x100_0000, 0x100_0001];
            picks.preset = random.pick(&ends) | random.pick(&[0, 0, 1 << 31]);
        }
    }
}

/// Room for a held state, seldom of another length, and what it holds by chance.
pub fn state_room(random: &mut Random) -> Vec<u8> {
    let length = match random.below(12) {
        0 => random.below(2 * STATE_LENGTH + 1),
        _ => STATE_LENGTH,
    };
    random.bytes(length)
}

/// A copy of a held state with one or two things changed, not always for the worse.
pub fn spoiled(random: &mut Random, state: &[u8]) -> Vec<u8> {
    let mut spoiled = state.to_vec();
    for _ in 0..random.between(1, 2) {
        spoil(random, &mut spoiled);
    }
    spoiled
}

fn spoil(random: &mut Random, state: &mut Vec<u8>) {
    if state.len() != STATE_LENGTH || random.percent(10) {
        return state.resize(random.below(2 * STATE_LENGTH + 1), 0);
    }
    let mut put = |start: usize, width: usize, number: u32| {
        state[start..start + width].copy_from_slice(&number.to_be_bytes()[4 - width..]);
    };
    match random.below(6) {
        0 => put(0, 1, random.pick(&[0, 1, 99, 100, 255])),
        1 => put(1, 1, random.pick(&[0, 1, 8, 9, 255])),
        2 => put(
            2,
            2,
            random.pick(&[0, 7_999, 8_000, 12_000, 12_001, 65_535]),
        ),
        3 => put(4, 3, random.pick(&[0, 1, 999_999, 1_000_000, 0xFF_FFFF])),
        4 => put(STEP, 1, random.between(0, 16)),
        _ => put(random.below(STATE_LENGTH), 1, random.between(0, 255)),
    }
}

/// The reply that a change is lent at a step: mostly what the controller gave.
pub fn reply(random: &mut Random, picks: Picks, step: Step, given: &[u8]) -> Vec<u8> {
    match random.below(50) {
        0..=1 => drum::right_reply(&picks, step),
        2 => drum::right_reply(&picks, random.pick(&Step::ALL)),
        3 => drum::right_reply(&other_picks(random, picks), step),
        4 => {
            let number = random.pick(&[0, 1, 2, 4, 5, 6, 7, 8, 9, 30]);
            let refusal = controller::refusal(picks.address, number);
            frame::framed(Kind::Minicomputer, refusal.bytes())
        }
        5..=6 => {
            let mut damaged = drum::right_reply(&picks, step);
            requests::damage(random, Kind::Minicomputer, &mut damaged);
            damaged
        }
        7 => {
            let length = random.below(71);
            random.bytes(length)
        }
        _ => given.to_vec(),
    }
}

/// Picks in range that differ in address, recipe or factor.
fn other_picks(random: &mut Random, picks: Picks) -> Picks {
    match random.below(3) {
        0 => Picks {
            address: picks.address % HIGHEST_ADDRESS + 1,
            ..picks
        },
        1 => Picks {
            recipe: picks.recipe % RECIPES + 1,
            ..picks
        },
        _ => Picks {
            factor: FACTORS.start() + FACTORS.end() - picks.factor,
            ..picks
        },
    }
}

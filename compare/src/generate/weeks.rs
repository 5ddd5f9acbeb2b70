//! Weeks of batches, good and with something wrong, and what is lent for their totals.

use crate::comparison::{TotalsRoom, Week};
use crate::generate::records::number;
use crate::interface::TEXT_ROOM;
use crate::random::Random;
use crate::record::HIGHEST_RAW;
use crate::totals::{MOST_BATCHES, RECIPES};

/// Raw volumes, factors and recipes at their edges and past them, among the latter what is in range in fewer
/// bits.
const RAWS: [u32; 8] = [
    0,
    1,
    HIGHEST_RAW - 1,
    HIGHEST_RAW,
    HIGHEST_RAW + 1,
    HIGHEST_RAW + 2,
    1 << 31,
    u32::MAX,
];
const FACTORS: [u32; 10] = [
    0,
    1,
    7_999,
    8_000,
    12_000,
    12_001,
    65_535,
    65_536 + 10_000,
    (1 << 31) + 8_000,
    u32::MAX,
];
const RECIPE_NUMBERS: [u32; 11] = [
    0,
    1,
    8,
    9,
    16,
    255,
    256 + 1,
    256 + 8,
    65_536 + 3,
    1 << 31,
    u32::MAX,
];

/// How many batches: mostly few, now and then many, about the most or more than that.
fn length(random: &mut Random) -> usize {
    match random.below(20) {
        0 => 0,
        1..=10 => 1 + random.below(8),
        11..=15 => random.below(60),
        16 => random.below(MOST_BATCHES + 1),
        17 => MOST_BATCHES,
        18 => MOST_BATCHES - 1 + random.below(4),
        _ => MOST_BATCHES + random.below(100),
    }
}

/// Batches in range, now and then at the ends, of all recipes, of few or of one.
fn good(random: &mut Random, length: usize) -> Week {
    let edges = random.percent(40);
    let most = random.pick(&[1, 2, 8, 8]);
    let first = random.below(RECIPES);
    let mut week = Week::default();
    for _ in 0..length {
        week.raws.push(number(random, 0, HIGHEST_RAW, edges));
        week.factors.push(number(random, 8_000, 12_000, edges));
        let recipe = (first + random.below(most)) % RECIPES + 1;
        week.recipes.push(recipe as u32);
    }
    week
}

/// The first place, the last or any.
fn place(random: &mut Random, length: usize) -> usize {
    match random.below(3) {
        0 => 0,
        1 => length - 1,
        _ => random.below(length),
    }
}

/// Puts a number at its edge or past it into one of the lists, or gives it another length.
fn spoil(random: &mut Random, week: &mut Week) {
    let (list, numbers): (&mut Vec<u32>, &[u32]) = match random.below(3) {
        0 => (&mut week.raws, &RAWS),
        1 => (&mut week.factors, &FACTORS),
        _ => (&mut week.recipes, &RECIPE_NUMBERS),
    };
    let put = match random.below(5) {
        0 => random.next() as u32 >> random.below(32),
        _ => random.pick(numbers),
    };
    match random.below(8) {
        0 => list.push(put),
        1 => {
            list.pop();
        }
        2 if random.percent(20) => list.truncate(random.below(list.len() + 1)),
        _ if list.is_empty() => {}
        _ => {
            let place = place(random, list.len());
            list[place] = put;
        }
    }
}

/// A week of batches, mostly as they should be.
pub fn week(random: &mut Random) -> Week {
    let length = length(random);
    let mut week = good(random, length);
    let wrong = random.pick(&[0, 0, 0, 0, 0, 1, 1, 2, 3]);
    for _ in 0..wrong {
        spoil(random, &mut week);
    }
    week
}

/// A week of the most batches.
pub fn full(random: &mut Random) -> Week {
    let mut week = good(random, MOST_BATCHES);
    for recipe in &mut week.recipes {
        *recipe = random.between(1, RECIPES as u32);
    }
    week
}

/// Room for sums and for counts, mostly enough, with any numbers in them.
pub fn room(random: &mut Random) -> TotalsRoom {
    let mut length = || match random.below(24) {
        0 => random.below(RECIPES),
        1 => RECIPES - 1,
        2..=11 => RECIPES,
        _ => RECIPES + random.below(5),
    };
    let (sums, counts) = (length(), length());
    TotalsRoom {
        sums: (0..sums).map(|_| random.next()).collect(),
        counts: (0..counts).map(|_| random.next() as u32).collect(),
    }
}

/// A buffer for the text of totals, mostly about the least that it takes.
pub fn text_room(random: &mut Random) -> Vec<u8> {
    let length = match random.below(8) {
        0 => random.below(601),
        1 => TEXT_ROOM - 1,
        2..=4 => TEXT_ROOM,
        _ => TEXT_ROOM - 2 + random.below(8),
    };
    random.bytes(length)
}

/// A sum to be written: of any size, about powers of ten, or about whole units.
pub fn sum(random: &mut Random) -> u64 {
    let any_size = random.next() >> random.below(64);
    let power = 10u64.pow(random.below(20) as u32);
    let off = random.below(3) as u64;
    let about = |sum: u64| sum.wrapping_add(off).wrapping_sub(1);
    match random.below(5) {
        0 => random.next(),
        1 => about(power),
        2 => about(any_size / 10_000 * 10_000),
        3 => random.below(20_001) as u64,
        _ => any_size,
    }
}

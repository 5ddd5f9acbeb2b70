//! Week totals: every number about its limits at every place that tells, every order of refusals, lengths
//! about the most, every choice of recipes, sums about every power of ten, every room.

use super::buffer;
use crate::bank::{Bank, Batch, HEADER};
use crate::comparison::{Comparison, Difference, TotalsRoom, Week};
use crate::fault::Fault;
use crate::frame::LEAST_BUFFER;
use crate::interface::TEXT_ROOM;
use crate::record::HIGHEST_RAW;
use crate::totals::{Lists, MOST_BATCHES, RECIPES};

pub fn totals(comparison: &mut Comparison) -> Result<(), Difference> {
    numbers(comparison)?;
    places(comparison)?;
    lengths(comparison)?;
    orders(comparison)?;
    rooms(comparison)?;
    recipes(comparison)?;
    sums(comparison)?;
    parts(comparison)?;
    units(comparison)?;
    choices(comparison)?;
    counts(comparison)?;
    texts(comparison)?;
    banks(comparison)
}

/// A batch told apart from its neighbours in every number.
fn batch(place: usize) -> Batch {
    Batch {
        number: 1 + place as u16,
        recipe: 1 + (place % RECIPES) as u8,
        factor: 8_000 + (place * 37 % 4_001) as u16,
        raw: (1 + place as u32 * 98_765) % (HIGHEST_RAW + 1),
        preset: place as u32,
    }
}

fn bank(batches: &[Batch]) -> Bank {
    Bank::with(batches.iter().copied())
}

fn form(batches: impl IntoIterator<Item = Batch>) -> Vec<u8> {
    Bank::with(batches).form(Fault::None)
}

/// So many of these batches.
fn week(count: usize) -> Week {
    Week::of(&Bank::with((0..count).map(batch)))
}

/// A week of one batch.
fn alone(raw: u32, factor: u32, recipe: u32) -> Week {
    Week {
        raws: vec![raw],
        factors: vec![factor],
        recipes: vec![recipe],
    }
}

/// A week of so many batches of recipe 4.
fn equal_batches(raw: u32, factor: u32, count: usize) -> Week {
    Week {
        raws: vec![raw; count],
        factors: vec![factor; count],
        recipes: vec![4; count],
    }
}

/// Sums and counts to be lent, told apart so that one that is written or moved is seen.
fn room(sums: usize, counts: usize) -> TotalsRoom {
    TotalsRoom {
        sums: (0..sums as u64).map(|place| !place).collect(),
        counts: (0..counts as u32).map(|place| !place).collect(),
    }
}

/// Two more of either than are written.
fn roomy() -> TotalsRoom {
    room(RECIPES + 2, RECIPES + 2)
}

/// A number of one of the three lists.
#[derive(Clone, Copy)]
enum Put {
    Raw(u32),
    Factor(u32),
    Recipe(u32),
}

impl Put {
    fn into(self, week: &mut Week, place: usize) {
        match self {
            Put::Raw(raw) => week.raws[place] = raw,
            Put::Factor(factor) => week.factors[place] = factor,
            Put::Recipe(recipe) => week.recipes[place] = recipe,
        }
    }
}

/// The numbers of each list about their limits, and far out of them.
#[rustfmt::skip]
fn each_put() -> Vec<Put> {
    let raws = [
        0, 1, HIGHEST_RAW - 1, HIGHEST_RAW, HIGHEST_RAW + 1, HIGHEST_RAW + 2, 1 << 31, u32::MAX,
    ];
    let factors = [
        0, 1, 7_998, 7_999, 8_000, 8_001, 9_999, 10_000, 10_001, 11_999, 12_000, 12_001, 12_002,
        65_535, 65_536, 75_536, (1 << 31) + 10_000, u32::MAX,
    ];
    let recipes = [
        0, 1, 2, 3, 4, 5, 6, 7, 8, 9, 10, 16, 17, 255, 256, 257, 264, 265, 65_537, (1 << 31) + 1,
        u32::MAX,
    ];
    let mut puts = vec![];
    puts.extend(raws.map(Put::Raw));
    puts.extend(factors.map(Put::Factor));
    puts.extend(recipes.map(Put::Recipe));
    puts
}

/// Numbers that W3 refuses, one of each list and end.
const OUT_OF_RANGE: [Put; 5] = [
    Put::Raw(HIGHEST_RAW + 1),
    Put::Factor(7_999),
    Put::Factor(12_001),
    Put::Recipe(0),
    Put::Recipe(9),
];

/// Every factor and recipe about what there is, each power of two, and raw volumes about these, in a batch
/// alone.
fn numbers(comparison: &mut Comparison) -> Result<(), Difference> {
    let room = roomy();
    for factor in 7_900..=12_100 {
        comparison.totals(alone(10_007, factor, 3).lists(), &room)?;
    }
    for recipe in 0..=600 {
        comparison.totals(alone(10_007, 9_973, recipe).lists(), &room)?;
    }
    for power in (0..32).map(|bit| 1u32 << bit) {
        for number in [power - 1, power, power.wrapping_add(1), !power] {
            comparison.totals(alone(number, 12_000, 8).lists(), &room)?;
            comparison.totals(alone(500, number, 8).lists(), &room)?;
            comparison.totals(alone(500, 12_000, number).lists(), &room)?;
        }
    }
    Ok(())
}

/// Each number about its limits at the first, the last and other places of weeks of several lengths; and
/// every two numbers out of range.
fn places(comparison: &mut Comparison) -> Result<(), Difference> {
    let room = roomy();
    for count in [1, 2, 3, 8, 100, MOST_BATCHES - 1, MOST_BATCHES] {
        let mut places = vec![0, 1, count / 2, count.saturating_sub(2), count - 1];
        places.retain(|&place| place < count);
        places.dedup();
        for put in each_put() {
            for &place in &places {
                let mut week = week(count);
                put.into(&mut week, place);
                comparison.totals(week.lists(), &room)?;
            }
        }
    }
    for first in OUT_OF_RANGE {
        for second in OUT_OF_RANGE {
            for place in 0..4 {
                let mut week = week(4);
                first.into(&mut week, place);
                second.into(&mut week, 3 - place);
                comparison.totals(week.lists(), &room)?;
            }
        }
    }
    Ok(())
}

/// Lists of every three lengths that tell, cut from a longer week.
fn lengths(comparison: &mut Comparison) -> Result<(), Difference> {
    let room = roomy();
    let most = MOST_BATCHES;
    let lengths = [0, 1, 2, 3, most - 1, most, most + 1, most + 2, 2 * most];
    let week = week(2 * most);
    for raws in lengths {
        for factors in lengths {
            for recipes in lengths {
                let lists = Lists {
                    raws: &week.raws[..raws],
                    factors: &week.factors[..factors],
                    recipes: &week.recipes[..recipes],
                };
                comparison.totals(lists, &room)?;
            }
        }
    }
    Ok(())
}

/// A week that W1 to W3 refuse as the bits of a number say: the list at this place is a number longer, there
/// are too many batches, the one at this place is out of range.
fn refused(wrong: u32, put: Put, place: usize) -> Week {
    let has = |bit: u32| wrong & 1 << bit != 0;
    let mut week = week(if has(1) { MOST_BATCHES + 1 } else { 3 });
    if has(2) {
        put.into(&mut week, place);
    }
    if has(0) {
        match place {
            0 => week.raws.push(500),
            1 => week.factors.push(10_000),
            _ => week.recipes.push(3),
        }
    }
    week
}

/// Every combination of W1 to W3, and of H1 with them.
fn orders(comparison: &mut Comparison) -> Result<(), Difference> {
    for wrong in 0..8 {
        for put in OUT_OF_RANGE {
            for place in 0..3 {
                let week = refused(wrong, put, place);
                for (sums, counts) in [(8, 8), (9, 8), (8, 9), (7, 8), (8, 7), (7, 7), (0, 0)] {
                    comparison.totals(week.lists(), &room(sums, counts))?;
                }
            }
        }
    }
    Ok(())
}

/// Every room up to some more than is needed, for weeks that are added up or refused, and for banks.
fn rooms(comparison: &mut Comparison) -> Result<(), Difference> {
    let weeks = [0, 1, 2, 4].map(|wrong| refused(wrong, Put::Recipe(9), 1));
    let good = form((0..20).map(batch));
    let banks = [form([]), good.clone(), good[1..].to_vec(), vec![]];
    for sums in 0..=RECIPES + 4 {
        for counts in 0..=RECIPES + 4 {
            let room = room(sums, counts);
            for week in &weeks {
                comparison.totals(week.lists(), &room)?;
            }
            for bank in &banks {
                comparison.bank_totals(bank, &room)?;
            }
        }
    }
    Ok(())
}

/// Each recipe alone, and every two of them by turns, with one batch to some.
fn recipes(comparison: &mut Comparison) -> Result<(), Difference> {
    let room = roomy();
    for first in 1..=RECIPES as u32 {
        for second in 1..=RECIPES as u32 {
            for count in [1, 2, 3, 10, 99] {
                let mut week = week(count);
                for (place, recipe) in week.recipes.iter_mut().enumerate() {
                    *recipe = [first, second][place % 2];
                }
                comparison.totals(week.lists(), &room)?;
            }
        }
    }
    Ok(())
}

/// Sums about each power of ten, in one batch and in many, and the highest that there are.
fn sums(comparison: &mut Comparison) -> Result<(), Difference> {
    let room = roomy();
    for power in (0..8).map(|digits| 10u32.pow(digits)) {
        for raw in [power - 1, power, power + 1, 5 * power, 9 * power] {
            for factor in [8_000, 9_999, 10_000, 10_001, 12_000] {
                for count in [1, 2, 9, 10, 11, 99, 100, 101, MOST_BATCHES] {
                    let week = equal_batches(raw, factor, count);
                    comparison.totals(week.lists(), &room)?;
                }
            }
        }
    }
    // A thousand of the first two, at the highest factor, come to about the last power of ten.
    for raw in [83_333_333, 83_333_334, HIGHEST_RAW - 1, HIGHEST_RAW] {
        for factor in [11_998, 11_999, 12_000] {
            for count in [3, 100, 999, MOST_BATCHES] {
                let week = equal_batches(raw, factor, count);
                comparison.totals(week.lists(), &room)?;
            }
        }
    }
    Ok(())
}

/// A week at once and split at each place, and one of the most batches at some.
fn parts(comparison: &mut Comparison) -> Result<(), Difference> {
    let short = week(40);
    for place in 0..=40 {
        comparison.totals_in_parts(short.lists(), place)?;
    }
    let long = week(MOST_BATCHES);
    for place in (0..=MOST_BATCHES).step_by(125) {
        comparison.totals_in_parts(long.lists(), place)?;
    }
    Ok(())
}

/// Sums about each power of ten and of two, many small ones, and the highest, written as units; in every
/// room about the least.
fn units(comparison: &mut Comparison) -> Result<(), Difference> {
    let out = buffer(LEAST_BUFFER);
    for sum in 0..=20_100 {
        comparison.units(sum, &out)?;
    }
    let tens = (0..20).map(|digits| 10u64.pow(digits));
    let twos = (0..64).map(|bit| 1 << bit);
    for power in tens.chain(twos).chain([0]) {
        for off in 0..=4 {
            let sum = power.wrapping_add(off).wrapping_sub(2);
            comparison.units(sum, &out)?;
            comparison.units(power.saturating_mul(9_999 + off), &out)?;
        }
    }
    for room in 0..=LEAST_BUFFER + 10 {
        for sum in [0, 42, 10_000, 5_075_000, 1_199_999_988_000_000, u64::MAX] {
            comparison.units(sum, &buffer(room))?;
        }
    }
    Ok(())
}

/// A bank of every choice of recipes, rising and falling, each with another number of batches; the raw
/// volumes as they come, and 0.
fn choices(comparison: &mut Comparison) -> Result<(), Difference> {
    for chosen in 0..1u32 << RECIPES {
        let recipes = (1..=RECIPES as u8).filter(|recipe| chosen & 1 << (recipe - 1) != 0);
        let mut batches: Vec<Batch> = recipes
            .flat_map(|recipe| vec![recipe; usize::from(recipe) % 3 + 1])
            .zip(0..)
            .map(|(recipe, place)| Batch {
                recipe,
                ..batch(place)
            })
            .collect();
        comparison.bank_and_lists(&bank(&batches))?;
        batches.reverse();
        comparison.bank_and_lists(&bank(&batches))?;
        for batch in &mut batches {
            batch.raw = 0;
        }
        comparison.bank_and_lists(&bank(&batches))?;
    }
    Ok(())
}

/// Every number of batches that a bank keeps, of one recipe and of all.
fn counts(comparison: &mut Comparison) -> Result<(), Difference> {
    for count in 0..=100 {
        let mut batches: Vec<Batch> = (0..count).map(batch).collect();
        comparison.bank_and_lists(&bank(&batches))?;
        for batch in &mut batches {
            batch.recipe = 7;
        }
        comparison.bank_and_lists(&bank(&batches))?;
    }
    Ok(())
}

/// Every room for the text of banks that are empty, short, the longest there is, or refused.
fn texts(comparison: &mut Comparison) -> Result<(), Difference> {
    let highest = |place| Batch {
        raw: HIGHEST_RAW,
        factor: 12_000,
        ..batch(place)
    };
    let good = form((0..3).map(batch));
    let banks = [
        form([]),
        good.clone(),
        form((0..100).map(highest)),
        good[..14].to_vec(),
        vec![],
    ];
    for room in 0..=TEXT_ROOM + 90 {
        for bank in &banks {
            comparison.totals_text(bank, &buffer(room))?;
        }
    }
    Ok(())
}

/// Every byte in every place of a short bank, and a good one cut and lengthened.
fn banks(comparison: &mut Comparison) -> Result<(), Difference> {
    let (room, out) = (roomy(), buffer(TEXT_ROOM));
    let whole = form((0..2).map(batch));
    for place in 0..whole.len() {
        for byte in 0..=255 {
            let mut bank = whole.clone();
            bank[place] = byte;
            comparison.bank_totals(&bank, &room)?;
            // Where the text tells as much, the bytes that tell most.
            if place < HEADER || byte < 16 {
                comparison.totals_text(&bank, &out)?;
            }
        }
    }
    let longest = form((0..101).map(batch));
    for length in 0..=longest.len() {
        let mut bank = longest[..length].to_vec();
        comparison.bank_totals(&bank, &room)?;
        if let Some(field) = bank.get_mut(1..HEADER) {
            field.copy_from_slice(&(length as u16).to_be_bytes());
        }
        comparison.bank_totals(&bank, &room)?;
        comparison.totals_text(&bank, &out)?;
    }
    Ok(())
}

#[cfg(test)]
mod tests {
    use super::*;
    use crate::fault::PLANTED;
    use crate::totals::of_lists;

    /// The weeks are what they are taken for.
    #[test]
    fn answers() {
        let refusal = |week: &Week| of_lists(week.lists(), Fault::None).0;
        for count in [0, 1, 100, MOST_BATCHES] {
            assert_eq!(refusal(&week(count)), None);
        }
        for put in OUT_OF_RANGE {
            for place in 0..3 {
                let first = |wrong: u32| refusal(&refused(wrong, put, place));
                assert_eq!([0, 1, 2, 4].map(first), [None, Some(1), Some(2), Some(3)]);
                assert_eq!(
                    [3, 5, 6, 7].map(first),
                    [Some(1), Some(1), Some(2), Some(1)]
                );
            }
        }
    }

    /// What is planted elsewhere leaves totals as they are.
    #[test]
    fn other_faults_change_no_total() {
        let other = Fault::CheckTakenForStx;
        assert!(totals(&mut Comparison::new(other)).is_ok());
    }

    /// This enumeration alone notices what is planted in totals.
    #[test]
    fn faults_of_totals_are_noticed() {
        let of_totals = |name: &str| name.starts_with("totals: ");
        assert!(PLANTED.iter().any(|(_, name)| of_totals(name)));
        for &(fault, name) in PLANTED.iter().filter(|(_, name)| of_totals(name)) {
            let noticed = totals(&mut Comparison::new(fault)).is_err();
            assert!(noticed, "{name}");
        }
    }
}

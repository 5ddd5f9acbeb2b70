//! Week totals: raw volume times factor, added up exactly for each recipe, and as text.

use crate::bank::{Bank, Batch};
use crate::fault::Fault;
use crate::parameters::{factor_place, value_in_range};
use crate::record::{self, HIGHEST_RAW};
use std::fmt::{self, Write};

/// The recipes that totals are given for.
pub const RECIPES: usize = record::RECIPES as usize;
/// The most batches that are added up at once.
pub const MOST_BATCHES: usize = 1_000;
/// What a sum has of one unit: the factor 1.0000.
const UNIT: u64 = 10_000;

/// Batches, each with its raw volume, its factor and its recipe at the same place of the three lists.
#[derive(Clone, Copy)]
pub struct Lists<'lent> {
    pub raws: &'lent [u32],
    pub factors: &'lent [u32],
    pub recipes: &'lent [u32],
}

impl<'lent> Lists<'lent> {
    /// As many as the shortest list has.
    fn entries(self) -> impl Iterator<Item = Entry> + 'lent {
        let places = self.raws.iter().zip(self.factors).zip(self.recipes);
        places.map(|((&raw, &factor), &recipe)| Entry {
            raw,
            factor,
            recipe,
        })
    }

    /// W1 or W2; W3 only where a planted fault has it before one of them.
    fn refused(self, fault: Fault) -> Option<u8> {
        let [raws, factors, recipes] = [self.raws, self.factors, self.recipes].map(<[u32]>::len);
        let unequal = match fault {
            Fault::RawsNotMeasured => factors != recipes,
            Fault::FactorsNotMeasured => raws != recipes,
            Fault::RecipesNotMeasured => raws != factors,
            _ => raws != factors || raws != recipes,
        };
        let too_many = match fault {
            Fault::ThousandRefused => raws >= MOST_BATCHES,
            Fault::ThousandAndOneAdded => raws > MOST_BATCHES + 1,
            _ => raws > MOST_BATCHES,
        };
        let out_of_range = || !self.entries().all(Entry::is_in_range);
        match fault {
            Fault::LimitBeforeLengths if too_many => Some(2),
            Fault::RangeBeforeLengths if out_of_range() => Some(3),
            Fault::RangeBeforeLimit if !unequal && out_of_range() => Some(3),
            _ if unequal => Some(1),
            _ if too_many => Some(2),
            _ => None,
        }
    }
}

/// What is added up of one batch.
#[derive(Clone, Copy)]
struct Entry {
    raw: u32,
    factor: u32,
    recipe: u32,
}

impl Entry {
    fn of(batch: &Batch, fault: Fault) -> Entry {
        Entry {
            raw: match fault {
                Fault::PresetsAdded => batch.preset,
                _ => batch.raw,
            },
            factor: batch.factor.into(),
            recipe: batch.recipe.into(),
        }
    }

    fn is_in_range(self) -> bool {
        self.raw <= HIGHEST_RAW
            // Every recipe's factor has the same range.
            && value_in_range(factor_place(1), self.factor)
            && (1..=RECIPES as u32).contains(&self.recipe)
    }

    /// Where the totals of its recipe are, if it is in range.
    fn place(self) -> usize {
        self.recipe as usize - 1
    }

    /// In ten-thousandths of a unit.
    fn product(self) -> u64 {
        u64::from(self.raw) * u64::from(self.factor)
    }

    /// Another entry, which W3 lets through or refuses as a planted fault does this one.
    fn mistaken(mut self, fault: Fault) -> Entry {
        match (fault, self.raw, self.factor, self.recipe) {
            (Fault::RecipeInEightBits, _, _, recipe) => self.recipe = recipe & 0xFF,
            (Fault::FactorInSixteenBits, _, factor, _) => self.factor = factor & 0xFFFF,
            (Fault::RecipeZeroAdded, _, _, 0) => self.recipe = 1,
            (Fault::RecipeNineAdded, _, _, 9) => self.recipe = 8,
            (Fault::RecipeEightRefused, _, _, 8) => self.recipe = 9,
            (Fault::FactorBelowAdded, _, 7_999, _) => self.factor = 8_000,
            (Fault::FactorAboveAdded, _, 12_001, _) => self.factor = 12_000,
            (Fault::LowestFactorRefused, _, 8_000, _) => self.factor = 7_999,
            (Fault::HighestFactorRefused, _, 12_000, _) => self.factor = 12_001,
            (Fault::RawAboveAdded, 100_000_000, _, _) => self.raw = HIGHEST_RAW,
            (Fault::HighestRawRefused, HIGHEST_RAW, _, _) => self.raw = 100_000_000,
            (Fault::ZeroRawRefused, 0, _, _) => self.raw = 100_000_000,
            _ => {}
        }
        self
    }
}

/// What each recipe comes to, recipe r at place r - 1.
#[derive(Clone, Copy, PartialEq, Eq, Debug, Default)]
pub struct Totals {
    /// Of raw times factor, in ten-thousandths of a unit.
    pub sums: [u64; RECIPES],
    /// How many batches.
    pub counts: [u32; RECIPES],
}

impl Totals {
    /// A line for each recipe that occurs, rising.
    fn text(&self, fault: Fault) -> String {
        let mut text = String::new();
        for (place, (&sum, &count)) in self.sums.iter().zip(&self.counts).enumerate() {
            let occurs = match fault {
                Fault::AbsentRecipePrinted => true,
                Fault::EmptySumNotPrinted => sum > 0,
                _ => count > 0,
            };
            if occurs {
                let recipe = place + 1;
                let units = Units { sum, fault };
                match fault {
                    Fault::RecipeInOneDigit => writeln!(text, "{recipe} {count} {units}"),
                    Fault::CountWithLeadingZero => writeln!(text, "{recipe:02} {count:02} {units}"),
                    _ => writeln!(text, "{recipe:02} {count} {units}"),
                }
                .expect("a string takes any text");
            }
        }
        match fault {
            Fault::None => text,
            _ => mistyped(text, fault),
        }
    }
}

/// What planted faults make of the lines.
#[cold]
fn mistyped(mut text: String, fault: Fault) -> String {
    match fault {
        Fault::RecipesFalling => text.split_inclusive('\n').rev().collect(),
        Fault::NoLineEnd => {
            text.pop();
            text
        }
        Fault::TwoLineEnds => text.replace('\n', "\n\n"),
        Fault::CarriageReturn => text.replace('\n', "\r\n"),
        _ => text,
    }
}

/// A sum as units with four decimals.
pub struct Units {
    pub sum: u64,
    pub fault: Fault,
}

impl fmt::Display for Units {
    fn fmt(&self, formatter: &mut fmt::Formatter<'_>) -> fmt::Result {
        let (whole, parts) = (self.sum / UNIT, self.sum % UNIT);
        match self.fault {
            Fault::TwoDecimals => write!(formatter, "{whole}.{:02}", parts / 100),
            Fault::HundredthsWritten => {
                let hundredths = rounded(u128::from(self.sum), 100) / 100;
                write!(formatter, "{}.{:02}00", hundredths / 100, hundredths % 100)
            }
            Fault::FloatingUnits => write!(formatter, "{:.4}", self.sum as f64 / UNIT as f64),
            Fault::DecimalsWithoutZeros => write!(formatter, "{whole}.{parts}"),
            Fault::TrailingZerosCut => {
                let text = format!("{whole}.{parts:04}");
                formatter.write_str(text.trim_end_matches('0').trim_end_matches('.'))
            }
            Fault::UnitsWithLeadingZeros => write!(formatter, "{whole:08}.{parts:04}"),
            Fault::NoZeroBeforePoint if whole == 0 => write!(formatter, ".{parts:04}"),
            _ => write!(formatter, "{whole}.{parts:04}"),
        }
    }
}

/// To the nearest multiple.
fn rounded(number: u128, multiple: u128) -> u128 {
    (number + multiple / 2) / multiple * multiple
}

/// Adds entries up; W3, if one is out of range.
fn added(
    entries: impl Iterator<Item = Entry>,
    product: impl Fn(Entry) -> u64,
) -> Result<Totals, u8> {
    let mut totals = Totals::default();
    for entry in entries {
        if !entry.is_in_range() {
            return Err(3);
        }
        totals.sums[entry.place()] += product(entry);
        totals.counts[entry.place()] += 1;
    }
    Ok(totals)
}

fn added_up(entries: impl Iterator<Item = Entry>, fault: Fault) -> Result<Totals, u8> {
    match fault {
        Fault::None => added(entries, Entry::product),
        _ => misadded(entries.collect(), fault),
    }
}

/// Adds entries up as planted faults do.
#[cold]
fn misadded(entries: Vec<Entry>, fault: Fault) -> Result<Totals, u8> {
    let entries = mistested(entries, fault);
    let mut totals = added(entries.iter().copied(), |entry| {
        misproduct(entry, &entries, fault)
    })?;
    match fault {
        Fault::ZeroVolumeNotCounted => {
            for entry in entries.iter().filter(|entry| entry.raw == 0) {
                totals.counts[entry.place()] -= 1;
            }
        }
        Fault::AllCountedForEach => {
            let all = entries.len() as u32;
            totals.counts = totals.counts.map(|count| count.min(1) * all);
        }
        Fault::SumInNeighbour => totals.sums.rotate_right(1),
        Fault::CountInNeighbour => totals.counts.rotate_right(1),
        Fault::SumsInUnits => {
            let in_units = |sum| rounded(u128::from(sum), u128::from(UNIT)) as u64;
            totals.sums = totals.sums.map(in_units);
        }
        Fault::SumsInThirtyTwoBits => totals.sums = totals.sums.map(|sum| u64::from(sum as u32)),
        Fault::FloatingSums => totals.sums = floating(&entries),
        _ => {}
    }
    Ok(totals)
}

/// The entries that planted faults test, and those that they add up untested.
fn mistested(mut entries: Vec<Entry>, fault: Fault) -> Vec<Entry> {
    if fault == Fault::LastBatchNotAdded {
        entries.pop();
    }
    let count = entries.len();
    let is_tested = |place: usize| match fault {
        Fault::FirstRangeAlone => place == 0,
        Fault::LastRangeAlone => place + 1 == count,
        _ => true,
    };
    // One that is out of range and not tested is left out.
    let places = entries.into_iter().enumerate();
    places
        .filter(|&(place, entry)| is_tested(place) || entry.is_in_range())
        .map(|(_, entry)| entry.mistaken(fault))
        .collect()
}

/// What planted faults add for one of the entries.
fn misproduct(entry: Entry, entries: &[Entry], fault: Fault) -> u64 {
    let same_recipe = |other: &&Entry| other.recipe == entry.recipe;
    let multiplied = |by: Option<&Entry>| {
        let factor = by.map_or(entry.factor, |by| by.factor);
        Entry { factor, ..entry }.product()
    };
    let rounded = |multiple| rounded(u128::from(entry.product()), multiple) as u64;
    match fault {
        Fault::FirstFactorForAll => multiplied(entries.iter().find(same_recipe)),
        Fault::LastFactorForAll => multiplied(entries.iter().rev().find(same_recipe)),
        Fault::RawWithoutFactor => u64::from(entry.raw) * UNIT,
        Fault::ProductsInUnits => rounded(u128::from(UNIT)),
        Fault::ProductsInHundredths => rounded(100),
        Fault::ProductsInThirtyTwoBits => u64::from(entry.raw.wrapping_mul(entry.factor)),
        _ => entry.product(),
    }
}

/// The sums of units in floating point.
fn floating(entries: &[Entry]) -> [u64; RECIPES] {
    let mut units = [0.0; RECIPES];
    for entry in entries {
        units[entry.place()] += f64::from(entry.raw) * (f64::from(entry.factor) / UNIT as f64);
    }
    units.map(|units| (units * UNIT as f64).round() as u64)
}

/// The totals of the lent batches; or the number of W1 to W3, and all sums and counts 0.
pub fn of_lists(lists: Lists, fault: Fault) -> (Option<u8>, Totals) {
    let result = match lists.refused(fault) {
        Some(number) => Err(number),
        None => added_up(lists.entries(), fault),
    };
    match result {
        Ok(totals) => (None, totals),
        Err(number) => (Some(number), beside_refusal(lists, fault)),
    }
}

/// No totals; or what a planted fault has added up before the first batch out of range.
fn beside_refusal(lists: Lists, fault: Fault) -> Totals {
    match fault {
        Fault::AddedBeforeRefusal => {
            let good = lists.entries().take_while(|entry| entry.is_in_range());
            added(good, Entry::product).unwrap_or_default()
        }
        _ => Totals::default(),
    }
}

/// The totals of a stored bank; or the number of K7, and all sums and counts 0.
pub fn of_bank(stored: &[u8], fault: Fault) -> (Option<u8>, Totals) {
    match Bank::read(stored, fault) {
        (None, bank) if fault == Fault::EmptyBankRefused && bank == Bank::default() => {
            (Some(7), Totals::default())
        }
        (None, bank) => {
            let entries = bank.batches().map(|batch| Entry::of(batch, fault));
            // Only a planted fault has a batch of a good bank out of range.
            match added_up(entries, fault) {
                Ok(totals) => (None, totals),
                Err(_) => (Some(7), Totals::default()),
            }
        }
        (refusal, _) => (refusal, Totals::default()),
    }
}

/// What is written for a stored bank: its totals; or the number of K7, and the line of that.
pub fn text(stored: &[u8], fault: Fault) -> (Option<u8>, String) {
    let (refusal, totals) = of_bank(stored, fault);
    let text = match refusal {
        Some(_) if fault == Fault::RefusalNotPrinted => String::new(),
        Some(number) if fault == Fault::RefusalWithoutLineEnd => format!("refused K{number}"),
        Some(number) => format!("refused K{number}\n"),
        None => totals.text(fault),
    };
    (refusal, text)
}

#[cfg(test)]
mod tests {
    use super::*;

    /// Batches of raw volume, factor and recipe.
    fn added(batches: &[(u32, u32, u32)]) -> (Option<u8>, Totals) {
        let raws: Vec<u32> = batches.iter().map(|&(raw, _, _)| raw).collect();
        let factors: Vec<u32> = batches.iter().map(|&(_, factor, _)| factor).collect();
        let recipes: Vec<u32> = batches.iter().map(|&(_, _, recipe)| recipe).collect();
        let lists = Lists {
            raws: &raws,
            factors: &factors,
            recipes: &recipes,
        };
        of_lists(lists, Fault::None)
    }

    fn printed(batches: &[(u32, u32, u32)]) -> String {
        let (refusal, totals) = added(batches);
        assert_eq!(refusal, None);
        totals.text(Fault::None)
    }

    /// 1234 times 1.0012 is 1235.4808, 7 times 0.8 is 5.6, 500 times 1.015 is 507.5.
    #[test]
    fn a_week_by_hand() {
        let week = [
            (1_234, 10_012, 1),
            (500, 10_150, 3),
            (7, 8_000, 1),
            (0, 12_000, 8),
            (1, 9_999, 3),
        ];
        let totals = Totals {
            sums: [12_410_808, 0, 5_084_999, 0, 0, 0, 0, 0],
            counts: [2, 0, 2, 0, 0, 0, 0, 1],
        };
        assert_eq!(added(&week), (None, totals));
        let text = "01 2 1241.0808\n03 2 508.4999\n08 1 0.0000\n";
        assert_eq!(printed(&week), text);
        assert_eq!(added(&[]), (None, Totals::default()));
        assert_eq!(printed(&[]), "");
    }

    /// Three sheets of 333.1665: rounded to units they would come to 999.0000, to hundredths to 999.5100.
    #[test]
    fn nothing_is_rounded() {
        assert_eq!(printed(&[(333, 10_005, 5); 3]), "05 3 999.4995\n");
    }

    #[test]
    fn sums_past_32_bits() {
        let one = printed(&[(429_497, 10_000, 2)]);
        assert_eq!(one, "02 1 429497.0000\n");
        let highest = (99_999_999, 12_000, 8);
        assert_eq!(printed(&[highest]), "08 1 119999998.8000\n");
        let thousand = printed(&[highest; 1_000]);
        assert_eq!(thousand, "08 1000 119999998800.0000\n");
    }

    /// 99,999,999 times 1.1999 is 119,989,998.8001, a thousand times; floating point loses its last digits.
    #[test]
    fn sums_past_floating_point() {
        let batch = (99_999_999, 11_999, 4);
        let exact = "119989998800.1000";
        assert_eq!(printed(&[batch; 1_000]), format!("04 1000 {exact}\n"));
        let units = f64::from(batch.0) * (f64::from(batch.1) / 10_000.0);
        let floating = (0..1_000).fold(0.0, |sum, _| sum + units);
        assert_ne!(format!("{floating:.4}"), exact);
    }

    #[test]
    fn units() {
        for (sum, text) in [
            (0, "0.0000"),
            (1, "0.0001"),
            (42, "0.0042"),
            (9_999, "0.9999"),
            (10_000, "1.0000"),
            (10_001, "1.0001"),
            (5_075_000, "507.5000"),
            (99_999_999, "9999.9999"),
            (100_000_000, "10000.0000"),
            (u64::MAX, "1844674407370955.1615"),
        ] {
            let fault = Fault::None;
            assert_eq!(Units { sum, fault }.to_string(), text);
        }
    }

    /// Lists of such lengths, the last of each out of range or all right.
    fn refusal(lengths: [usize; 3], good: bool) -> Option<u8> {
        let list = |length: usize, number: u32| {
            let mut list = vec![number; length];
            if let Some(last) = list.last_mut().filter(|_| !good) {
                *last = u32::MAX;
            }
            list
        };
        let [raws, factors, recipes] = lengths;
        let lists = Lists {
            raws: &list(raws, 500),
            factors: &list(factors, 10_150),
            recipes: &list(recipes, 3),
        };
        let (refusal, totals) = of_lists(lists, Fault::None);
        assert_eq!(refusal.is_some(), totals == Totals::default());
        refusal
    }

    #[test]
    fn refusals_in_order() {
        for good in [true, false] {
            for lengths in [
                [1, 2, 2],
                [2, 1, 2],
                [2, 2, 1],
                [0, 1, 1],
                [1_000, 1_001, 1_000],
                [1_001, 1_001, 1_000],
                [2_000, 1, 3_000],
            ] {
                assert_eq!(refusal(lengths, good), Some(1), "{lengths:?}");
            }
            assert_eq!(refusal([1_001; 3], good), Some(2));
            assert_eq!(refusal([5_000; 3], good), Some(2));
        }
        for length in [1, 2, 999, 1_000] {
            assert_eq!(refusal([length; 3], true), None);
            assert_eq!(refusal([length; 3], false), Some(3));
        }
    }

    #[test]
    fn ranges() {
        let good = (500, 10_150, 3);
        let at_ends = [
            (0, 10_150, 3),
            (99_999_999, 10_150, 3),
            (500, 8_000, 3),
            (500, 12_000, 3),
            (500, 10_150, 1),
            (500, 10_150, 8),
        ];
        let past = [
            (100_000_000, 10_150, 3),
            (u32::MAX, 10_150, 3),
            (500, 7_999, 3),
            (500, 12_001, 3),
            (500, 65_536 + 10_150, 3),
            (500, 10_150, 0),
            (500, 10_150, 9),
            (500, 10_150, 256 + 3),
        ];
        for batch in at_ends {
            let (refusal, totals) = added(&[good, batch, good]);
            assert_eq!(
                (refusal, totals.counts.iter().sum()),
                (None, 3),
                "{batch:?}"
            );
        }
        for batch in past {
            let refused = (Some(3), Totals::default());
            for week in [
                [batch, good, good],
                [good, batch, good],
                [good, good, batch],
            ] {
                assert_eq!(added(&week), refused, "{batch:?}");
            }
        }
    }
}

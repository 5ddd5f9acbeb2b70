//! Week totals by the library and by this program.

use super::{both, hexadecimal, laid, Comparison, Difference, Lent};
use crate::bank::Bank;
use crate::fault::Fault;
use crate::frame::LEAST_BUFFER;
use crate::interface::TEXT_ROOM;
use crate::totals::{Lists, RECIPES};
use crate::{interface, library};

const GUARD_SUM: u64 = 0xA5A5_A5A5_A5A5_A5A5;
const GUARD_COUNT: u32 = 0xA5A5_A5A5;

/// Raw volumes, factors and recipes, of equal length or not.
#[derive(Clone, Default)]
pub struct Week {
    pub raws: Vec<u32>,
    pub factors: Vec<u32>,
    pub recipes: Vec<u32>,
}

impl Week {
    /// A week of the batches that a bank keeps.
    pub fn of(bank: &Bank) -> Week {
        let mut week = Week::default();
        for batch in bank.batches() {
            week.raws.push(batch.raw);
            week.factors.push(batch.factor.into());
            week.recipes.push(batch.recipe.into());
        }
        week
    }

    pub fn lists(&self) -> Lists<'_> {
        Lists {
            raws: &self.raws,
            factors: &self.factors,
            recipes: &self.recipes,
        }
    }
}

/// Sums and counts as they are lent, whatever they hold, and as they come back.
#[derive(Clone, PartialEq, Eq, Debug)]
pub struct TotalsRoom {
    pub sums: Vec<u64>,
    pub counts: Vec<u32>,
}

impl TotalsRoom {
    /// Room for the totals of all recipes and no more.
    pub fn enough() -> TotalsRoom {
        TotalsRoom {
            sums: vec![u64::MAX; RECIPES],
            counts: vec![u32::MAX; RECIPES],
        }
    }
}

impl Comparison {
    /// Compares the totals of lists; answers the number, and the sums and counts after it. The sums have to
    /// add up to the sum over all batches, and the counts to their number.
    pub fn totals(
        &mut self,
        lists: Lists,
        room: &TotalsRoom,
    ) -> Result<(u32, TotalsRoom), Difference> {
        self.count(|counts| &mut counts.totals);
        let fault = self.fault;
        let (answer, after) = both_totals(
            || format!("totals\n{}", written(lists)),
            room,
            |sums, counts| library::totals(lists, sums, counts),
            |sums, counts| interface::totals(lists, sums, counts, fault),
        )?;
        if answer == 0 && !adds_up(lists, &after) {
            let text = format!("totals and all batches\n{}  {after:?}\n", written(lists));
            return Err(Difference(text));
        }
        if !self.enumerating {
            self.counts.totals_added += u64::from(answer == 0);
            self.counts.totals_refused += u64::from(answer != 0);
        }
        Ok((answer, after))
    }

    /// Compares the totals of a stored bank; answers the number, and the sums and counts after it.
    pub fn bank_totals(
        &mut self,
        bank: &[u8],
        room: &TotalsRoom,
    ) -> Result<(u32, TotalsRoom), Difference> {
        self.count(|counts| &mut counts.bank_totals);
        let fault = self.fault;
        let (answer, after) = both_totals(
            || format!("bank totals\n  bank {}\n", hexadecimal(bank)),
            room,
            |sums, counts| library::bank_totals(bank, sums, counts),
            |sums, counts| interface::bank_totals(bank, sums, counts, fault),
        )?;
        if !self.enumerating {
            self.counts.bank_totals_refused += u64::from(answer != 0);
        }
        Ok((answer, after))
    }

    /// Compares a sum written as units; answers the text, if there is one.
    pub fn units(&mut self, sum: u64, out: &[u8]) -> Result<Option<Vec<u8>>, Difference> {
        self.count(|counts| &mut counts.units);
        let fault = self.fault;
        let answered = both(
            || format!("units, sum {sum}"),
            &[],
            [("out", out)],
            |[lent]| library::units(sum, lent),
            |[lent]| interface::units(sum, lent, fault),
        )?;
        Ok(laid(answered))
    }

    /// Compares the text of a stored bank's totals; answers the number and the text.
    pub fn totals_text(&mut self, bank: &[u8], out: &[u8]) -> Result<(u32, Vec<u8>), Difference> {
        self.count(|counts| &mut counts.totals_texts);
        let fault = self.fault;
        let ((answer, length), [buffer]) = both(
            || "text of totals".to_string(),
            &[("bank", bank)],
            [("out", out)],
            |[lent]| library::totals_text(bank, lent),
            |[lent]| interface::totals_text(bank, lent, fault),
        )?;
        Ok((answer, buffer[..length].to_vec()))
    }

    /// Lends the batches of a good bank as it is stored and as lists: the totals have to be the same, and the
    /// text has to have the lines that come of these.
    pub fn bank_and_lists(&mut self, bank: &Bank) -> Result<(), Difference> {
        let form = bank.form(Fault::None);
        let room = TotalsRoom::enough();
        let of_bank = self.bank_totals(&form, &room)?;
        let of_lists = self.totals(Week::of(bank).lists(), &room)?;
        let mut lines = vec![];
        for (recipe, (&sum, &count)) in (1..).zip(of_lists.1.sums.iter().zip(&of_lists.1.counts)) {
            let units = self.units(sum, &[0; LEAST_BUFFER])?.unwrap_or_default();
            if count > 0 {
                lines.extend(format!("{recipe:02} {count} ").bytes());
                lines.extend(units);
                lines.push(b'\n');
            }
        }
        let text = self.totals_text(&form, &[0; TEXT_ROOM])?;
        if of_bank == of_lists && text == (0, lines) {
            return Ok(());
        }
        Err(Difference(format!(
            "totals of a bank and of lists\n  bank {}\n  text {}\n",
            hexadecimal(&form),
            hexadecimal(&text.1)
        )))
    }

    /// Lends a week at once, and split in two: the totals of the parts have to add up to those of the week.
    pub fn totals_in_parts(&mut self, lists: Lists, place: usize) -> Result<(), Difference> {
        let room = TotalsRoom::enough();
        let (_, mut left) = self.totals(lists, &room)?;
        let (raws, factors, recipes) = (lists.raws, lists.factors, lists.recipes);
        let first = Lists {
            raws: &raws[..place],
            factors: &factors[..place],
            recipes: &recipes[..place],
        };
        let second = Lists {
            raws: &raws[place..],
            factors: &factors[place..],
            recipes: &recipes[place..],
        };
        for part in [first, second] {
            let (_, of_part) = self.totals(part, &room)?;
            for (sum, less) in left.sums.iter_mut().zip(of_part.sums) {
                *sum = sum.wrapping_sub(less);
            }
            for (count, less) in left.counts.iter_mut().zip(of_part.counts) {
                *count = count.wrapping_sub(less);
            }
        }
        if left.sums == [0; RECIPES] && left.counts == [0; RECIPES] {
            return Ok(());
        }
        let text = written(lists);
        Err(Difference(format!("totals in parts at {place}\n{text}")))
    }
}

/// Whether the eight sums are those of all batches, and the counts their number.
fn adds_up(lists: Lists, totals: &TotalsRoom) -> bool {
    let batches = lists.raws.iter().zip(lists.factors);
    let products = batches.map(|(&raw, &factor)| u128::from(raw) * u128::from(factor));
    let sums = totals.sums.iter().take(RECIPES);
    let counts = totals.counts.iter().take(RECIPES);
    sums.map(|&sum| u128::from(sum)).sum::<u128>() == products.sum()
        && counts.map(|&count| u64::from(count)).sum::<u64>() == lists.raws.len() as u64
}

fn written(lists: Lists) -> String {
    let Lists {
        raws,
        factors,
        recipes,
    } = lists;
    format!("  raw volumes {raws:?}\n  factors {factors:?}\n  recipes {recipes:?}\n")
}

/// Lends the same sums and counts to each side, and compares the answers and every number; answers what was
/// answered, and the sums and counts.
fn both_totals(
    what: impl FnOnce() -> String,
    room: &TotalsRoom,
    library: impl FnOnce(&mut [u64], &mut [u32]) -> u32,
    second_program: impl FnOnce(&mut [u64], &mut [u32]) -> u32,
) -> Result<(u32, TotalsRoom), Difference> {
    let mut sums_first = Lent::between(GUARD_SUM, &room.sums);
    let mut counts_first = Lent::between(GUARD_COUNT, &room.counts);
    let (mut sums_second, mut counts_second) = (sums_first.clone(), counts_first.clone());
    let first = library(sums_first.slice(), counts_first.slice());
    let second = second_program(sums_second.slice(), counts_second.slice());
    if first == second && sums_first == sums_second && counts_first == counts_second {
        let after = TotalsRoom {
            sums: sums_first.content().to_vec(),
            counts: counts_first.content().to_vec(),
        };
        return Ok((first, after));
    }
    let mut text = format!("{}  lent {room:?}\n", what());
    for (side, answer, sums, counts) in [
        ("library", first, &sums_first, &counts_first),
        ("second program", second, &sums_second, &counts_second),
    ] {
        text += &format!("  {side}: answer {answer}\n");
        text += &format!("    sums {:?}\n", sums.content());
        text += &format!("    counts {:?}\n", counts.content());
        if !(sums.guards_stand() && counts.guards_stand()) {
            text += "    numbers around them were overwritten\n";
        }
    }
    Err(Difference(text))
}

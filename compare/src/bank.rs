//! Finished batches: what is kept of one, the bank of the last hundred, and its stored form.

use crate::fault::Fault;
use crate::parameters::{factor_place, value_in_range};
use crate::record::{Record, HIGHEST_NUMBER, HIGHEST_PRESET, HIGHEST_RAW, RECIPES};
use std::collections::VecDeque;

/// The most batches that are kept.
pub const MOST_BATCHES: usize = 100;
/// The version and the length.
pub const HEADER: usize = 3;
/// Number, recipe, factor, raw volume and preset.
pub const BATCH_LENGTH: usize = 12;
/// The length of a bank with the most batches.
pub const BANK_LENGTH: usize = bank_length(MOST_BATCHES);
const VERSION: u8 = 1;

/// The length of a bank with so many batches.
pub const fn bank_length(batches: usize) -> usize {
    HEADER + BATCH_LENGTH * batches
}

#[derive(Clone, Copy, PartialEq, Eq, Debug)]
pub struct Batch {
    pub number: u16,
    pub recipe: u8,
    pub factor: u16,
    pub raw: u32,
    pub preset: u32,
}

impl Batch {
    /// What is kept of the batch that a record holds.
    pub fn of(record: &Record, fault: Fault) -> Batch {
        let recipe = match fault {
            Fault::FirstFactorKept => 1,
            _ => record.recipe,
        };
        let number = match record.number {
            HIGHEST_NUMBER if fault == Fault::NextNumberKept => 1,
            number => number + u16::from(fault == Fault::NextNumberKept),
        };
        Batch {
            number,
            recipe: record.recipe,
            factor: record.parameters[factor_place(recipe)].value as u16,
            raw: record.raw,
            preset: record.preset,
        }
    }

    pub fn is_valid(&self) -> bool {
        self.tests().iter().all(|&passed| passed)
    }

    /// Number, recipe, factor, raw volume and preset, each in its own range.
    fn tests(&self) -> [bool; 5] {
        [
            (1..=HIGHEST_NUMBER).contains(&self.number),
            (1..=RECIPES).contains(&self.recipe),
            // Every recipe's factor has the same range.
            value_in_range(factor_place(1), u32::from(self.factor)),
            self.raw <= HIGHEST_RAW,
            self.preset <= HIGHEST_PRESET,
        ]
    }

    fn passes(&self, fault: Fault) -> bool {
        let [mut number, mut recipe, mut factor, mut raw, mut preset] = self.tests();
        match fault {
            Fault::KeptNumberZero => number |= self.number == 0,
            Fault::KeptNumberUntested => number |= self.number != 0,
            Fault::KeptRecipeZero => recipe |= self.recipe == 0,
            Fault::KeptRecipeNine => recipe |= self.recipe == 9,
            Fault::KeptFactorUntested => factor = true,
            Fault::KeptRawUntested => raw = true,
            Fault::KeptPresetUntested => preset = true,
            _ => {}
        }
        number && recipe && factor && raw && preset
    }

    pub fn form(&self, fault: Fault) -> [u8; BATCH_LENGTH] {
        let mut form = [0; BATCH_LENGTH];
        form[..2].copy_from_slice(&self.number.to_be_bytes());
        form[2] = self.recipe;
        form[3..5].copy_from_slice(&self.factor.to_be_bytes());
        form[5..9].copy_from_slice(&self.raw.to_be_bytes());
        form[9..].copy_from_slice(&self.preset.to_be_bytes()[1..]);
        if fault == Fault::FactorBehindRaw {
            form[3..9].rotate_left(2);
        }
        form
    }

    fn read(form: &[u8], fault: Fault) -> Batch {
        let mut parts = [0; BATCH_LENGTH];
        parts.copy_from_slice(form);
        if fault == Fault::FactorBehindRaw {
            parts[3..9].rotate_right(2);
        }
        let [n1, n0, recipe, f1, f0, r3, r2, r1, r0, p2, p1, p0] = parts;
        Batch {
            number: u16::from_be_bytes([n1, n0]),
            recipe,
            factor: u16::from_be_bytes([f1, f0]),
            raw: u32::from_be_bytes([r3, r2, r1, r0]),
            preset: u32::from_be_bytes([0, p2, p1, p0]),
        }
    }
}

/// The batches that are kept, oldest first.
#[derive(Clone, PartialEq, Eq, Debug, Default)]
pub struct Bank {
    batches: VecDeque<Batch>,
}

impl Bank {
    /// The bank with these batches, oldest first, however many.
    pub fn with(batches: impl IntoIterator<Item = Batch>) -> Bank {
        Bank {
            batches: batches.into_iter().collect(),
        }
    }

    /// The batches, oldest first.
    pub fn batches(&self) -> impl Iterator<Item = &Batch> {
        self.batches.iter()
    }

    pub fn is_valid(&self) -> bool {
        self.batches.len() <= MOST_BATCHES && self.batches.iter().all(Batch::is_valid)
    }

    /// Keeps one batch more; the oldest of the most gives its room to it.
    pub fn keep(&mut self, batch: Batch, fault: Fault) {
        let most = MOST_BATCHES - usize::from(fault == Fault::NinetyNineKept);
        if self.batches.len() >= most {
            match fault {
                Fault::NewestOverwritten => {
                    self.batches.pop_back();
                }
                Fault::FullBankStays => return,
                Fault::FullBankEmptied => self.batches.clear(),
                _ => {
                    self.batches.pop_front();
                }
            }
        }
        self.batches.push_back(batch);
    }

    /// The batch that RT R NNN asks for: 1 is the newest.
    pub fn asked(&self, number: usize, fault: Fault) -> Option<Batch> {
        let count = self.batches.len();
        let place = match fault {
            Fault::OldestShownFirst => number.checked_sub(1)?,
            Fault::NewestAtZero => count.checked_sub(number + 1)?,
            Fault::ZeroTakenForNewest => count.checked_sub(number.max(1))?,
            Fault::OldestForAnyPast => count.saturating_sub(number),
            // Of the number 0 this is a place past the last.
            _ => count.checked_sub(number)?,
        };
        self.batches.get(place).copied()
    }

    /// Gives the newest batch another factor, as a planted fault has it.
    pub fn change_newest_factor(&mut self, recipe: u8, factor: u32) {
        if let Some(newest) = self.batches.back_mut() {
            if newest.recipe == recipe {
                newest.factor = factor as u16;
            }
        }
    }

    pub fn form(&self, fault: Fault) -> Vec<u8> {
        let length = bank_length(self.batches.len());
        let mut form = Vec::with_capacity(length);
        form.push(VERSION);
        form.extend((length as u16).to_be_bytes());
        for batch in &self.batches {
            form.extend(batch.form(fault));
        }
        form
    }

    /// Writes the form to the start of a buffer, or answers K5 or K6.
    pub fn write(&self, buffer: &mut [u8], fault: Fault) -> Result<(), u8> {
        if !self.is_valid() {
            return Err(5);
        }
        let form = self.form(fault);
        let least = match fault {
            Fault::RoomForFullBank => BANK_LENGTH,
            _ => form.len(),
        };
        if buffer.len() < least {
            return Err(6);
        }
        buffer[..form.len()].copy_from_slice(&form);
        Ok(())
    }

    /// The bank that was read; or the number of K7 and an empty bank.
    pub fn read(stored: &[u8], fault: Fault) -> (Option<u8>, Bank) {
        let Some((&[version, high, low], batches)) = stored.split_first_chunk::<HEADER>() else {
            return (Some(7), Bank::default());
        };
        let length = usize::from(high) << 8 | usize::from(low);
        let batches = batches.chunks_exact(BATCH_LENGTH);
        let whole = batches.remainder().is_empty() || fault == Fault::PartOfBatchCutOff;
        let most = MOST_BATCHES + usize::from(fault == Fault::HundredAndOneRead);
        let right = (version == VERSION || fault == Fault::BankVersionUntested)
            && (length == stored.len() || fault == Fault::BankLengthUntested)
            && whole
            && batches.len() <= most;
        let bank = Bank::with(batches.map(|form| Batch::read(form, fault)));
        if right && bank.passes(fault) {
            return (None, bank);
        }
        match fault {
            Fault::RefusedBankShown => (Some(7), bank),
            _ => (Some(7), Bank::default()),
        }
    }

    fn passes(&self, fault: Fault) -> bool {
        let mut batches = self.batches.iter();
        match fault {
            Fault::FirstBatchTested => batches.take(1).all(Batch::is_valid),
            Fault::LastBatchTested => batches.rev().take(1).all(Batch::is_valid),
            _ => batches.all(|batch| batch.passes(fault)),
        }
    }
}

#[cfg(test)]
mod tests {
    use super::*;

    fn batch(number: u16) -> Batch {
        Batch {
            number,
            recipe: 3,
            factor: 10_150,
            raw: 500,
            preset: 999_999,
        }
    }

    fn bank(count: u16) -> Bank {
        Bank::with((1..=count).map(batch))
    }

    /// Number, recipe, factor, raw volume and preset, high bytes first.
    #[test]
    fn forms() {
        assert_eq!(Bank::default().form(Fault::None), [1, 0, 3]);
        let expected = [
            1, 0, 27, 0, 1, 3, 0x27, 0xA6, 0, 0, 1, 0xF4, 0x0F, 0x42, 0x3F, 0, 2, 3, 0x27, 0xA6, 0,
            0, 1, 0xF4, 0x0F, 0x42, 0x3F,
        ];
        assert_eq!(bank(2).form(Fault::None), expected);
        let full = bank(100).form(Fault::None);
        assert_eq!((full.len(), &full[..3]), (1203, &[1, 0x04, 0xB3][..]));
        for count in [0, 1, 2, 99, 100] {
            let form = bank(count).form(Fault::None);
            assert_eq!(Bank::read(&form, Fault::None), (None, bank(count)));
        }
    }

    fn is_refused(stored: &[u8]) -> bool {
        let (refusal, bank) = Bank::read(stored, Fault::None);
        assert_eq!(
            refusal.is_some(),
            bank == Bank::default() && stored != [1, 0, 3]
        );
        refusal == Some(7)
    }

    #[test]
    fn forms_refused() {
        for stored in [&[][..], &[1], &[1, 0], &[0, 0, 3], &[2, 0, 3], &[1, 0, 2]] {
            assert!(is_refused(stored), "{stored:?}");
        }
        let whole = bank(2).form(Fault::None);
        for length in 0..whole.len() {
            let mut cut = whole[..length].to_vec();
            assert!(is_refused(&cut), "{length}");
            if let Some(field) = cut.get_mut(2) {
                *field = length as u8;
                let part = (length - HEADER) % BATCH_LENGTH;
                assert_eq!(is_refused(&cut), part > 0, "{length}");
            }
        }
        assert!(is_refused(&[&whole[..], &[0]].concat()));
        assert!(is_refused(&bank(101).form(Fault::None)));
    }

    #[test]
    fn ranges() {
        let good = batch(1);
        let at_ends = [
            Batch {
                number: 9_999,
                ..good
            },
            Batch { recipe: 1, ..good },
            Batch { recipe: 8, ..good },
            Batch {
                factor: 8_000,
                ..good
            },
            Batch {
                factor: 12_000,
                ..good
            },
            Batch { raw: 0, ..good },
            Batch {
                raw: 99_999_999,
                ..good
            },
            Batch { preset: 0, ..good },
        ];
        let past = [
            Batch { number: 0, ..good },
            Batch {
                number: 10_000,
                ..good
            },
            Batch { recipe: 0, ..good },
            Batch { recipe: 9, ..good },
            Batch {
                factor: 7_999,
                ..good
            },
            Batch {
                factor: 12_001,
                ..good
            },
            Batch {
                raw: 100_000_000,
                ..good
            },
            Batch {
                preset: 1_000_000,
                ..good
            },
        ];
        for (batches, valid) in [(at_ends, true), (past, false)] {
            for batch in batches {
                let bank = Bank::with([good, batch, good]);
                assert_eq!(bank.is_valid(), valid, "{batch:?}");
                assert_eq!(is_refused(&bank.form(Fault::None)), !valid, "{batch:?}");
            }
        }
        assert!(bank(100).is_valid() && !bank(101).is_valid());
    }

    #[test]
    fn writing_is_refused() {
        let mut out = [9; 16];
        assert_eq!(bank(101).write(&mut out, Fault::None), Err(5));
        let bad = Bank::with([Batch {
            recipe: 0,
            ..batch(1)
        }]);
        assert_eq!(bad.write(&mut out[..2], Fault::None), Err(5));
        assert_eq!(bank(1).write(&mut out[..14], Fault::None), Err(6));
        assert_eq!(out, [9; 16]);
        assert_eq!(bank(1).write(&mut out, Fault::None), Ok(()));
        assert_eq!((&out[..3], out[15]), (&[1, 0, 15][..], 9));
    }

    /// The oldest gives its room, and what is asked for counts from the newest.
    #[test]
    fn one_more() {
        let mut kept = bank(99);
        for number in 100..=350 {
            kept.keep(batch(number), Fault::None);
            let asked = |asked| kept.asked(asked, Fault::None).map(|batch| batch.number);
            assert_eq!((asked(0), asked(101)), (None, None));
            assert_eq!((asked(1), asked(100)), (Some(number), Some(number - 99)));
        }
        assert!(kept.is_valid());
        assert_eq!(Bank::default().asked(1, Fault::None), None);
        assert_eq!(bank(2).asked(2, Fault::None), Some(batch(1)));
    }
}

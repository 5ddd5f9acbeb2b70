//! Which numbers are asked for to hold a set of the library's against one of this program's.

use super::known::FOLLOWED;
use crate::alarms::{self, HIGHEST_ALARM};
use crate::fault::Fault;
use crate::fields::{self, Sort};
use crate::library;
use crate::numbers::Numbers;
use crate::recording::Exchange;

/// Numbers that are asked for beside those that go with a field.
pub struct Probes {
    numbers: Vec<u32>,
    alarms: Vec<u32>,
}

impl Probes {
    pub fn of(exchanges: &[Exchange]) -> Probes {
        let mut numbers = vec![0, 1, 2, 77, 9_999_999, u32::MAX - 1, u32::MAX];
        let mut alarms: Vec<u32> = (1..=HIGHEST_ALARM).map(alarms::numbered).collect();
        alarms.extend([
            0,
            alarms::ALL,
            alarms::LASTING,
            alarms::RESETTABLE,
            alarms::numbered(1) | alarms::numbered(19),
            alarms::numbered(1) | alarms::numbered(12),
            alarms::numbered(9) | alarms::numbered(16),
            alarms::ALL + 1,
            alarms::ALL + 2,
            u32::MAX,
        ]);
        for exchange in exchanges.iter().take(FOLLOWED) {
            for frame in [exchange.request, exchange.reply] {
                let digits = frame.split(|byte| !byte.is_ascii_digit());
                numbers.extend(digits.filter_map(number));
            }
            let end = exchange.reply.len().saturating_sub(3);
            alarms.extend(exchange.reply.get(3..end).and_then(alarms::shown));
        }
        for probes in [&mut numbers, &mut alarms] {
            probes.sort_unstable();
            probes.dedup();
        }
        Probes { numbers, alarms }
    }

    /// The numbers to ask for in a field's set.
    fn for_each(
        &self,
        field: usize,
        own: Numbers,
        mut ask: impl FnMut(u32) -> Result<(), String>,
    ) -> Result<(), String> {
        match fields::sort(field) {
            Sort::Few => (0..=33).chain([u32::MAX]).try_for_each(ask),
            Sort::Alarms => self.alarms.iter().try_for_each(|&alarms| ask(alarms)),
            Sort::Wide => {
                let (low, high) = fields::range(field);
                for number in [low.wrapping_sub(1), low, high, high + 1] {
                    ask(number)?;
                }
                if let Numbers::Just(number) = own {
                    for number in [number.wrapping_sub(1), number, number.wrapping_add(1)] {
                        ask(number)?;
                    }
                }
                self.numbers.iter().try_for_each(|&number| ask(number))
            }
        }
    }

    /// Holds a set as it was written against this program's, by the header's words and by the library's.
    pub fn same(&self, field: usize, own: Numbers, set: u32) -> Result<(), String> {
        self.for_each(field, own, |number| {
            let expected = own.has(field, number);
            let read = fields::has(field, set, number, Fault::None);
            let told = library::may_hold(field, set, number);
            if read == expected && told == u32::from(expected) {
                return Ok(());
            }
            Err(format!(
                "field {field}, number {number}: library: set {set:#X} has it by the header {read}, \
                 by may_hold {told}; second program: {own:?} has it {expected}"
            ))
        })
    }
}

fn number(digits: &[u8]) -> Option<u32> {
    std::str::from_utf8(digits).ok()?.parse().ok()
}

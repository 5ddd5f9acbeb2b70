//! A recording or a line, exchange by exchange, with what each of them tells of the record.

use crate::{exchange, known, learn, DONE, FIELDS, FITS, HEADER};

/// The exchanges of a recording in order, each as its request and its reply; up to one that is cut, if one is.
pub struct Exchanges<'a> {
    recording: &'a [u8],
    at: usize,
}

impl<'a> Exchanges<'a> {
    pub fn of(recording: &'a [u8]) -> Self {
        Exchanges {
            recording,
            at: HEADER,
        }
    }
}

impl<'a> Iterator for Exchanges<'a> {
    type Item = (&'a [u8], &'a [u8]);

    fn next(&mut self) -> Option<Self::Item> {
        let (DONE, spans) = exchange(self.recording, self.at) else {
            return None;
        };
        self.at = spans.end;
        Some((
            &self.recording[spans.request..spans.stop],
            &self.recording[spans.reply..spans.end],
        ))
    }
}

/// What is known of the record of the controller at the other end of a line that is followed, and since when.
#[derive(Clone, PartialEq, Eq, Debug)]
pub struct Following {
    address: u8,
    access: u8,
    exchanges: usize,
    sets: [u32; FIELDS],
    since: [usize; FIELDS],
}

impl Following {
    /// Nothing but the address and the access is known; none if one of these is out of its range.
    pub fn begin(address: u8, access: u8) -> Option<Following> {
        let mut sets = [0; FIELDS];
        // A recording without exchanges.
        let recording = [1, 0, HEADER as u8, address, access];
        (known(&recording, 0, &mut sets) == (DONE, 0)).then_some(Following {
            address,
            access,
            exchanges: 0,
            sets,
            since: [0; FIELDS],
        })
    }

    /// One exchange more: `FITS`; `REFUTED` if no record that was possible gives this reply; `NOT_JUDGED` if a kept batch
    /// is asked for, of which nothing is known. Only one that fits is learnt from; otherwise nothing changes.
    pub fn learn(&mut self, request: &[u8], reply: &[u8]) -> u32 {
        let mut sets = self.sets;
        let answer = learn(self.address, self.access, request, reply, &mut sets);
        if answer != FITS {
            return answer;
        }
        self.exchanges += 1;
        for (field, set) in sets.into_iter().enumerate() {
            if self.sets[field] != set {
                self.since[field] = self.exchanges;
            }
        }
        self.sets = sets;
        FITS
    }

    /// How many exchanges were learnt from.
    pub fn exchanges(&self) -> usize {
        self.exchanges
    }

    /// The set of each field.
    pub fn sets(&self) -> &[u32; FIELDS] {
        &self.sets
    }

    /// The last exchange that changed a field's set, counted from 1; 0 if it is as it was at the beginning.
    pub fn since(&self, field: usize) -> usize {
        self.since[field]
    }
}

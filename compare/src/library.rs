//! The proved library, by its declarations for Rust; without the feature `library`, this program's own
//! rules in its place.

#[cfg(feature = "library")]
mod proved {
    use crate::drum::Picks;
    use crate::interface::Why;
    use crate::recording::Spans;
    use crate::several::Report;
    use crate::totals::Lists;

    pub use khuyapesh::{
        bank, bank_totals, banked_call, banked_modbus, board, build, call, drum_take, judge, known,
        learn, may_hold, modbus, panel, read, stored, totals_text, units, Following,
    };

    fn own(report: khuyapesh::Report) -> Report {
        Report {
            taken: report.taken,
            answered: report.answered,
            written: report.written,
        }
    }

    /// The answer, and what is reported beside it.
    pub fn several(stored: &mut [u8], bytes: &[u8], reply: &mut [u8]) -> (u32, Report) {
        let (answer, report) = khuyapesh::several(stored, bytes, reply);
        (answer, own(report))
    }

    /// The answer, and what is reported beside it.
    pub fn banked_several(
        stored: &mut [u8],
        bank: &mut [u8],
        bytes: &[u8],
        reply: &mut [u8],
    ) -> (u32, Report) {
        let (answer, report) = khuyapesh::banked_several(stored, bank, bytes, reply);
        (answer, own(report))
    }

    pub fn totals(lists: Lists, sums: &mut [u64], counts: &mut [u32]) -> u32 {
        let Lists {
            raws,
            factors,
            recipes,
        } = lists;
        khuyapesh::totals(raws, factors, recipes, sums, counts)
    }

    pub fn drum_begin(picks: Picks, state: &mut [u8], request: &mut [u8]) -> u32 {
        let Picks {
            address,
            recipe,
            factor,
            preset,
        } = picks;
        khuyapesh::drum_begin(address, recipe, factor, preset, state, request)
    }

    /// The answer, and what is told beside it.
    pub fn why(recording: &[u8]) -> (u32, Why) {
        let (answer, why) = khuyapesh::why(recording);
        let why = Why {
            place: why.place,
            number: why.number,
            held: why.held,
            needed: why.needed,
        };
        (answer, why)
    }

    /// The answer, and where the exchange has its request and its reply.
    pub fn exchange(recording: &[u8], at: usize) -> (u32, Spans) {
        let (answer, spans) = khuyapesh::exchange(recording, at);
        let spans = Spans {
            request: spans.request,
            stop: spans.stop,
            reply: spans.reply,
            end: spans.end,
        };
        (answer, spans)
    }

    /// The exchanges of a recording in order, up to one that is cut.
    pub fn exchanges(recording: &[u8]) -> Vec<(&[u8], &[u8])> {
        khuyapesh::Exchanges::of(recording).collect()
    }
}

#[cfg(feature = "library")]
pub use proved::*;

#[cfg(not(feature = "library"))]
mod stand_in {
    use crate::drum::Picks;
    use crate::fault::Fault;
    use crate::fields::{self, FIELDS};
    use crate::interface::{self, Why};
    use crate::known::{self, Reason, Told};
    use crate::numbers::Numbers;
    use crate::recording::{self, Exchange, Spans};
    use crate::several::Report;
    use crate::totals::Lists;
    use std::cell::RefCell;

    pub fn call(kind: u8, stored: &mut [u8], request: &[u8], reply: &mut [u8]) -> u32 {
        interface::call(kind, stored, request, reply, Fault::None)
    }

    pub fn several(stored: &mut [u8], bytes: &[u8], reply: &mut [u8]) -> (u32, Report) {
        interface::several(stored, bytes, reply, Fault::None)
    }

    pub fn banked_call(
        kind: u8,
        stored: &mut [u8],
        bank: &mut [u8],
        request: &[u8],
        reply: &mut [u8],
    ) -> u32 {
        interface::banked_call(kind, stored, bank, request, reply, Fault::None)
    }

    pub fn banked_several(
        stored: &mut [u8],
        bank: &mut [u8],
        bytes: &[u8],
        reply: &mut [u8],
    ) -> (u32, Report) {
        interface::banked_several(stored, bank, bytes, reply, Fault::None)
    }

    pub fn bank(bank: &[u8], out: &mut [u8]) -> u32 {
        interface::bank(bank, out, Fault::None)
    }

    pub fn totals(lists: Lists, sums: &mut [u64], counts: &mut [u32]) -> u32 {
        interface::totals(lists, sums, counts, Fault::None)
    }

    pub fn bank_totals(bank: &[u8], sums: &mut [u64], counts: &mut [u32]) -> u32 {
        interface::bank_totals(bank, sums, counts, Fault::None)
    }

    pub fn units(sum: u64, out: &mut [u8]) -> u32 {
        interface::units(sum, out, Fault::None)
    }

    pub fn totals_text(bank: &[u8], out: &mut [u8]) -> (u32, usize) {
        interface::totals_text(bank, out, Fault::None)
    }

    pub fn board(kind: u8, stored: &mut [u8], request: &[u8], reply: &mut [u8]) -> u32 {
        interface::board(kind, stored, request, reply, Fault::None)
    }

    pub fn modbus(stored: &mut [u8], request: &[u8], reply: &mut [u8]) -> u32 {
        interface::modbus(stored, request, reply, Fault::None)
    }

    pub fn banked_modbus(stored: &mut [u8], bank: &[u8], request: &[u8], reply: &mut [u8]) -> u32 {
        interface::banked_modbus(stored, &mut bank.to_vec(), request, reply, Fault::None)
    }

    pub fn drum_begin(picks: Picks, state: &mut [u8], request: &mut [u8]) -> u32 {
        interface::drum_begin(picks, state, request, Fault::None)
    }

    pub fn drum_take(state: &mut [u8], reply: &[u8], request: &mut [u8]) -> u32 {
        interface::drum_take(state, reply, request, Fault::None)
    }

    pub fn panel(event: u8, number: u16, stored: &mut [u8]) -> u32 {
        interface::panel(event, number, stored, Fault::None)
    }

    pub fn stored(stored: &[u8], out: &mut [u8]) -> u32 {
        interface::stored(stored, out, Fault::None)
    }

    pub fn build(kind: u8, text: &[u8], out: &mut [u8]) -> u32 {
        interface::build(kind, text, out, Fault::None)
    }

    pub fn read(kind: u8, frame: &[u8], out: &mut [u8]) -> u32 {
        interface::read(kind, frame, out, Fault::None)
    }

    pub fn judge(recording: &[u8]) -> (u32, usize, usize) {
        interface::judge(recording, Fault::None)
    }

    thread_local! {
        /// What the last recording told: it is asked for one number of exchanges after the other.
        static LAST: RefCell<Option<(Vec<u8>, Told)>> = const { RefCell::new(None) };
    }

    fn with_told<Answer>(recording: &[u8], ask: impl FnOnce(&Told) -> Answer) -> Answer {
        LAST.with_borrow_mut(|last| match last {
            Some((bytes, told)) if bytes == recording => ask(told),
            _ => {
                let told = Told::by(recording, Fault::None);
                let answer = ask(&told);
                *last = Some((recording.to_vec(), told));
                answer
            }
        })
    }

    pub fn known(recording: &[u8], exchanges: usize, sets: &mut [u32]) -> (u32, usize) {
        with_told(recording, |told| {
            match told.known(exchanges, sets.len(), Fault::None) {
                Ok(known) => {
                    interface::write_sets(known, sets);
                    (0, 0)
                }
                Err(untold) => interface::known_answer(untold),
            }
        })
    }

    pub fn learn(address: u8, access: u8, request: &[u8], reply: &[u8], sets: &mut [u32]) -> u32 {
        let exchange = Exchange { request, reply };
        interface::learn(address, access, exchange, sets, Fault::None)
    }

    pub fn may_hold(field: usize, set: u32, number: u32) -> u32 {
        fields::has(field, set, number, Fault::None).into()
    }

    pub fn why(recording: &[u8]) -> (u32, Why) {
        with_told(recording, |told| {
            let (answer, place, number, sets) = interface::why(told, Fault::None);
            let (held, needed) =
                sets.map_or((0, 0), |(held, needed)| (held.written(), needed.written()));
            let why = Why {
                place,
                number,
                held,
                needed,
            };
            (answer, why)
        })
    }

    pub fn exchange(recording: &[u8], at: usize) -> (u32, Spans) {
        interface::exchange(recording, at, Fault::None)
    }

    pub fn exchanges(recording: &[u8]) -> Vec<(&[u8], &[u8])> {
        let (exchanges, _) = recording::exchanges(recording.get(5..).unwrap_or_default());
        let exchanges = exchanges.into_iter();
        exchanges
            .map(|Exchange { request, reply }| (request, reply))
            .collect()
    }

    #[derive(Clone)]
    pub struct Following {
        following: known::Following,
        sets: [u32; FIELDS],
    }

    impl Following {
        pub fn begin(address: u8, access: u8) -> Option<Following> {
            let header = [1, 0, 5, address, access];
            recording::read(&header, Fault::None).ok()?;
            let following = known::Following::begin(address, access, Fault::None);
            let sets = following.sets().map(Numbers::written);
            Some(Following { following, sets })
        }

        pub fn learn(&mut self, request: &[u8], reply: &[u8]) -> u32 {
            let mut further = self.following.clone();
            match further.learn(Exchange { request, reply }, Fault::None) {
                Ok(()) => {
                    self.sets = further.sets().map(Numbers::written);
                    self.following = further;
                    0
                }
                Err(Reason::KeptBatch) => 2,
                Err(_) => 1,
            }
        }

        pub fn exchanges(&self) -> usize {
            self.following.exchanges()
        }

        pub fn sets(&self) -> &[u32; FIELDS] {
            &self.sets
        }

        pub fn since(&self, field: usize) -> usize {
            self.following.since(field)
        }
    }
}

#[cfg(not(feature = "library"))]
pub use stand_in::*;

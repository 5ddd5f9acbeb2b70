//! A unit with a bank of finished batches beside its record, by the library and by this program.

use super::{both, hexadecimal, Comparison, Difference};
use crate::bank::{Bank, BANK_LENGTH};
use crate::fault::Fault;
use crate::frame::LEAST_BUFFER;
use crate::several::Report;
use crate::{interface, library};

/// A stored record, and the buffer that begins with its bank.
#[derive(Clone, PartialEq, Eq)]
pub struct Unit {
    pub stored: Vec<u8>,
    pub bank: Vec<u8>,
}

impl Unit {
    /// A unit that has kept nothing so far.
    pub fn without_batches(stored: &[u8]) -> Unit {
        let mut bank = Bank::default().form(Fault::None);
        bank.resize(BANK_LENGTH, 0);
        Unit {
            stored: stored.to_vec(),
            bank,
        }
    }
}

impl Comparison {
    /// Compares one call with a bank; answers the number, the unit after it and the reply buffer.
    pub fn banked_call(
        &mut self,
        kind: u8,
        unit: &Unit,
        request: &[u8],
        reply: &[u8],
    ) -> Result<(u32, Unit, Vec<u8>), Difference> {
        self.count(|counts| &mut counts.banked_calls);
        let fault = self.fault;
        let (answer, [stored, bank, reply]) = both(
            || format!("banked call, kind {kind}"),
            &[("request", request)],
            [
                ("stored", &unit.stored),
                ("bank", &unit.bank),
                ("reply", reply),
            ],
            |[stored, bank, reply]| library::banked_call(kind, stored, bank, request, reply),
            |[stored, bank, reply]| {
                interface::banked_call(kind, stored, bank, request, reply, fault)
            },
        )?;
        if !self.enumerating {
            self.counts.banked_answered += u64::from(answer < 100);
            // Silences of the request aside.
            self.counts.banked_refused += u64::from(answer > 108);
            self.counts.batches_kept += u64::from(bank != unit.bank);
        }
        Ok((answer, Unit { stored, bank }, reply))
    }

    /// Compares a call over several frames with a bank; answers what is reported, the unit after it and
    /// the reply buffer.
    pub fn banked_several(
        &mut self,
        unit: &Unit,
        bytes: &[u8],
        reply: &[u8],
    ) -> Result<(Report, Unit, Vec<u8>), Difference> {
        self.count(|counts| &mut counts.banked_several_frames);
        let fault = self.fault;
        let ((_, report), [stored, bank, reply]) = both(
            || "banked several frames".to_string(),
            &[("bytes", bytes)],
            [
                ("stored", &unit.stored),
                ("bank", &unit.bank),
                ("reply", reply),
            ],
            |[stored, bank, reply]| library::banked_several(stored, bank, bytes, reply),
            |[stored, bank, reply]| interface::banked_several(stored, bank, bytes, reply, fault),
        )?;
        if !self.enumerating {
            self.counts.batches_kept += u64::from(bank != unit.bank);
        }
        Ok((report, Unit { stored, bank }, reply))
    }

    /// Compares a stored bank that is read and written.
    pub fn bank(&mut self, bank: &[u8], out: &[u8]) -> Result<(), Difference> {
        self.count(|counts| &mut counts.stored_banks);
        let fault = self.fault;
        both(
            || "stored bank".to_string(),
            &[("bank", bank)],
            [("out", out)],
            |[lent]| library::bank(bank, lent),
            |[lent]| interface::bank(bank, lent, fault),
        )?;
        Ok(())
    }

    /// Lends a request that asks for no kept batch to a good unit, and to its record alone: what comes of
    /// it has to be the same but for the bank. Answers the number, the unit after it and the reply buffer.
    pub fn banked_and_call(
        &mut self,
        kind: u8,
        unit: &Unit,
        request: &[u8],
        reply: &[u8],
    ) -> Result<(u32, Unit, Vec<u8>), Difference> {
        let (answer, after, laid) = self.banked_call(kind, unit, request, reply)?;
        let (alone, stored, laid_alone) = self.call(kind, &unit.stored, request, reply)?;
        if answer == alone && after.stored == stored && laid == laid_alone {
            return Ok((answer, after, laid));
        }
        Err(not_the_same("with a bank and without", unit, &[request]))
    }

    /// Lends frames end to end to a good unit, and each to a call of its own: what comes of it has to be
    /// the same. Answers the unit after them.
    pub fn banked_several_and_calls(
        &mut self,
        unit: &Unit,
        frames: &[&[u8]],
    ) -> Result<Unit, Difference> {
        let end_to_end = frames.concat();
        let reply = vec![0; LEAST_BUFFER * (frames.len() + 1)];
        let (report, after_all, replies_at_once) =
            self.banked_several(unit, &end_to_end, &reply)?;
        let (mut after, mut replies, mut answered) = (unit.clone(), vec![], 0);
        for frame in frames {
            let room = &reply[..LEAST_BUFFER];
            let (answer, further, laid) = self.banked_call(0, &after, frame, room)?;
            if answer < 100 {
                replies.extend_from_slice(&laid[..answer as usize]);
                answered += 1;
            }
            after = further;
        }
        let expected = Report {
            taken: end_to_end.len(),
            answered,
            written: replies.len(),
        };
        if report == expected && after == after_all && replies == replies_at_once[..replies.len()] {
            return Ok(after);
        }
        Err(not_the_same("at once and one by one", unit, frames))
    }

    /// Lends a stream to a good unit at once, and in ticks, what was not taken before what comes next:
    /// what comes of it has to be the same.
    pub fn banked_several_in_ticks(
        &mut self,
        unit: &Unit,
        ticks: &[&[u8]],
        room: usize,
    ) -> Result<(), Difference> {
        let reply = vec![0; room];
        let (at_once, after_once, replies_at_once) =
            self.banked_several(unit, &ticks.concat(), &reply)?;
        let (mut after, mut replies, mut untaken) = (unit.clone(), vec![], vec![]);
        for tick in ticks {
            untaken.extend_from_slice(tick);
            let (report, further, laid) = self.banked_several(&after, &untaken, &reply)?;
            untaken.drain(..report.taken);
            replies.extend_from_slice(&laid[..report.written]);
            after = further;
        }
        if after == after_once && replies == replies_at_once[..at_once.written] {
            return Ok(());
        }
        Err(not_the_same("at once and in ticks", unit, ticks))
    }
}

fn not_the_same(how: &str, unit: &Unit, parts: &[&[u8]]) -> Difference {
    let mut text = format!(
        "a banked unit {how}\n  stored {}\n  bank {}\n",
        hexadecimal(&unit.stored),
        hexadecimal(&unit.bank)
    );
    for part in parts {
        text += &format!("  {}\n", hexadecimal(part));
    }
    Difference(text)
}

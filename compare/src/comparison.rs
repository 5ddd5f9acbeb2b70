//! Lends the same bytes to the library and to this program, and compares every byte and number that
//! comes back.

use crate::drum::{Picks, STATE_LENGTH};
use crate::fault::Fault;
use crate::frame::LEAST_BUFFER;
use crate::several::Report;
use crate::stored::STORED_LENGTH;
use crate::{interface, library};
use std::fmt::{self, Write};

mod banked;
mod known;
mod modbus;
mod probes;
mod totals;

pub use banked::Unit;
pub use totals::{TotalsRoom, Week};

/// How much stands around each lent slice that neither side may touch.
const GUARD: usize = 8;
const GUARD_BYTE: u8 = 0xA5;

/// A slice to be lent, between guards.
#[derive(Clone, PartialEq, Eq)]
struct Lent<Item = u8> {
    items: Vec<Item>,
    guard: Item,
}

impl Lent {
    fn new(content: &[u8]) -> Lent {
        Lent::between(GUARD_BYTE, content)
    }
}

impl<Item: Copy + PartialEq> Lent<Item> {
    fn between(guard: Item, content: &[Item]) -> Lent<Item> {
        let mut items = vec![guard; content.len() + 2 * GUARD];
        items[GUARD..GUARD + content.len()].copy_from_slice(content);
        Lent { items, guard }
    }

    fn slice(&mut self) -> &mut [Item] {
        let end = self.items.len() - GUARD;
        &mut self.items[GUARD..end]
    }

    fn content(&self) -> &[Item] {
        &self.items[GUARD..self.items.len() - GUARD]
    }

    fn guards_stand(&self) -> bool {
        let (front, rest) = self.items.split_at(GUARD);
        let back = &rest[rest.len() - GUARD..];
        front.iter().chain(back).all(|&item| item == self.guard)
    }
}

fn hexadecimal(bytes: &[u8]) -> String {
    let mut text = format!("({} bytes)", bytes.len());
    for byte in bytes {
        write!(text, " {byte:02X}").expect("a string takes any text");
    }
    text
}

/// What was lent and what the two answered.
pub struct Difference(String);

impl fmt::Display for Difference {
    fn fmt(&self, formatter: &mut fmt::Formatter<'_>) -> fmt::Result {
        formatter.write_str(&self.0)
    }
}

#[derive(Default, Clone, Copy)]
pub struct Counts {
    pub calls: u64,
    pub several_frames: u64,
    pub answered: u64,
    pub stopped: u64,
    pub banked_calls: u64,
    pub banked_answered: u64,
    pub banked_refused: u64,
    /// Calls and streams after which the bank is another.
    pub batches_kept: u64,
    pub banked_several_frames: u64,
    pub stored_banks: u64,
    pub totals: u64,
    pub totals_added: u64,
    pub totals_refused: u64,
    pub bank_totals: u64,
    pub bank_totals_refused: u64,
    pub units: u64,
    pub totals_texts: u64,
    pub modbus: u64,
    pub banked_modbus: u64,
    /// Those of either that were served, got an exception, or met a silence or refusal.
    pub modbus_served: u64,
    pub modbus_exceptions: u64,
    pub modbus_silent: u64,
    pub boards: u64,
    pub boards_answered: u64,
    pub boards_refused: u64,
    pub drum_changes: u64,
    pub drum_changes_ended: u64,
    pub drum_changes_stopped: u64,
    pub drum_changes_refused: u64,
    pub panel_events: u64,
    pub stored_forms: u64,
    pub host_side: u64,
    pub enumerated: u64,
    pub recordings: u64,
    pub fits: u64,
    pub refuted: u64,
    pub not_judged: u64,
    pub refused: u64,
    pub known: u64,
    pub learnt: u64,
    pub explained: u64,
    /// By reason: a reply to silence, no reply, no record, a field, a kept batch.
    pub reasons: [u64; 5],
}

impl Counts {
    pub fn comparisons(&self) -> u64 {
        self.calls
            + self.several_frames
            + self.banked_calls
            + self.banked_several_frames
            + self.stored_banks
            + self.totals
            + self.bank_totals
            + self.units
            + self.totals_texts
            + self.modbus
            + self.banked_modbus
            + self.boards
            + self.drum_changes
            + self.panel_events
            + self.stored_forms
            + self.host_side
            + self.enumerated
            + self.recordings
            + self.known
            + self.learnt
            + self.explained
    }
}

impl fmt::Display for Counts {
    fn fmt(&self, formatter: &mut fmt::Formatter<'_>) -> fmt::Result {
        write!(
            formatter,
            "calls {}, several frames {} (answered {}, stopped {}), \
             banked calls {} (answered {}, refused {}), banked several frames {}, batches kept {}, \
             stored banks {}, totals {} (added up {}, refused {}), bank totals {} (refused {}), \
             units {}, texts of totals {}, modbus calls {}, banked modbus calls {} (served {}, \
             exceptions {}, silent {}), board calls {} (answered {}, refused {}), \
             drum change calls {} (ended {}, stopped {}, refused {}), panel events {}, \
             stored forms {}, host side {}, enumerated {}, \
             recordings {} (fits {}, refuted {}, not judged {}, refused {}), known {}, learnt {}, \
             explained {} (reply to silence {}, no reply {}, no record {}, field {}, kept batch {})",
            self.calls,
            self.several_frames,
            self.answered,
            self.stopped,
            self.banked_calls,
            self.banked_answered,
            self.banked_refused,
            self.banked_several_frames,
            self.batches_kept,
            self.stored_banks,
            self.totals,
            self.totals_added,
            self.totals_refused,
            self.bank_totals,
            self.bank_totals_refused,
            self.units,
            self.totals_texts,
            self.modbus,
            self.banked_modbus,
            self.modbus_served,
            self.modbus_exceptions,
            self.modbus_silent,
            self.boards,
            self.boards_answered,
            self.boards_refused,
            self.drum_changes,
            self.drum_changes_ended,
            self.drum_changes_stopped,
            self.drum_changes_refused,
            self.panel_events,
            self.stored_forms,
            self.host_side,
            self.enumerated,
            self.recordings,
            self.fits,
            self.refuted,
            self.not_judged,
            self.refused,
            self.known,
            self.learnt,
            self.explained,
            self.reasons[0],
            self.reasons[1],
            self.reasons[2],
            self.reasons[3],
            self.reasons[4]
        )
    }
}

pub struct Comparison {
    fault: Fault,
    pub counts: Counts,
    /// Count what is compared as enumerated and not by its sort.
    pub enumerating: bool,
}

impl Comparison {
    pub fn new(fault: Fault) -> Comparison {
        Comparison {
            fault,
            counts: Counts::default(),
            enumerating: false,
        }
    }

    fn count(&mut self, sort: fn(&mut Counts) -> &mut u64) {
        if self.enumerating {
            self.counts.enumerated += 1;
        } else {
            *sort(&mut self.counts) += 1;
        }
    }

    /// Compares one call; answers the number, the stored record after it and the reply buffer.
    pub fn call(
        &mut self,
        kind: u8,
        stored: &[u8],
        request: &[u8],
        reply: &[u8],
    ) -> Result<(u32, Vec<u8>, Vec<u8>), Difference> {
        self.count(|counts| &mut counts.calls);
        let (answer, [after, reply]) = both(
            || format!("call, kind {kind}"),
            &[("request", request)],
            [("stored", stored), ("reply", reply)],
            |[stored, reply]| library::call(kind, stored, request, reply),
            |[stored, reply]| interface::call(kind, stored, request, reply, self.fault),
        )?;
        Ok((answer, after, reply))
    }

    /// Compares a call over several frames; answers what is reported, the stored record after it and
    /// the reply buffer.
    pub fn several(
        &mut self,
        stored: &[u8],
        bytes: &[u8],
        reply: &[u8],
    ) -> Result<(Report, Vec<u8>, Vec<u8>), Difference> {
        self.count(|counts| &mut counts.several_frames);
        let ((_, report), [after, reply]) = both(
            || "several frames".to_string(),
            &[("bytes", bytes)],
            [("stored", stored), ("reply", reply)],
            |[stored, reply]| library::several(stored, bytes, reply),
            |[stored, reply]| interface::several(stored, bytes, reply, self.fault),
        )?;
        if !self.enumerating {
            self.counts.answered += report.answered as u64;
            self.counts.stopped += u64::from(report.taken < bytes.len());
        }
        Ok((report, after, reply))
    }

    /// Lends a stream at once, and in ticks, what was not taken before what comes next: what comes of
    /// it has to be the same.
    pub fn several_in_ticks(
        &mut self,
        stored: &[u8],
        ticks: &[&[u8]],
        room: usize,
    ) -> Result<(), Difference> {
        let reply = vec![0; room];
        let stream = ticks.concat();
        let (at_once, after_once, replies_at_once) = self.several(stored, &stream, &reply)?;
        let mut total = Report::default();
        let (mut record, mut replies, mut untaken) = (stored.to_vec(), vec![], vec![]);
        for tick in ticks {
            untaken.extend_from_slice(tick);
            let (report, after, laid) = self.several(&record, &untaken, &reply)?;
            untaken.drain(..report.taken);
            replies.extend_from_slice(&laid[..report.written]);
            record = after;
            total.taken += report.taken;
            total.answered += report.answered;
            total.written += report.written;
        }
        let same = total == at_once
            && record == after_once
            && replies == replies_at_once[..at_once.written];
        if same {
            return Ok(());
        }
        Err(not_the_same("in ticks", stored, ticks))
    }

    /// Lends frames end to end, and each to a call of its own: what comes of it has to be the same.
    pub fn several_and_calls(&mut self, stored: &[u8], frames: &[&[u8]]) -> Result<(), Difference> {
        let end_to_end = frames.concat();
        let reply = vec![0; LEAST_BUFFER * (frames.len() + 1)];
        let (report, after_all, replies_at_once) = self.several(stored, &end_to_end, &reply)?;
        let (mut record, mut replies, mut answered) = (stored.to_vec(), vec![], 0);
        for frame in frames {
            let (answer, after, laid) = self.call(0, &record, frame, &reply[..LEAST_BUFFER])?;
            if answer < 100 {
                replies.extend_from_slice(&laid[..answer as usize]);
                answered += 1;
            }
            record = after;
        }
        let expected = Report {
            taken: end_to_end.len(),
            answered,
            written: replies.len(),
        };
        if report == expected && record == after_all && replies == replies_at_once[..replies.len()]
        {
            return Ok(());
        }
        Err(not_the_same("one by one", stored, frames))
    }

    /// Compares one call over a board; answers the number, the stored records after it and the reply
    /// buffer.
    pub fn board(
        &mut self,
        kind: u8,
        stored: &[u8],
        request: &[u8],
        reply: &[u8],
    ) -> Result<(u32, Vec<u8>, Vec<u8>), Difference> {
        self.count(|counts| &mut counts.boards);
        let (answer, [after, reply]) = both(
            || format!("board, kind {kind}"),
            &[("request", request)],
            [("stored", stored), ("reply", reply)],
            |[stored, reply]| library::board(kind, stored, request, reply),
            |[stored, reply]| interface::board(kind, stored, request, reply, self.fault),
        )?;
        if !self.enumerating {
            self.counts.boards_answered += u64::from(answer < 100);
            // Silences of the request aside.
            self.counts.boards_refused += u64::from(answer > 108);
        }
        Ok((answer, after, reply))
    }

    /// Lends a good board a request to the record at a place, and that record alone to a call: what
    /// comes of it has to be the same, and the other records have to stay. Answers the board after it.
    pub fn board_and_call(
        &mut self,
        kind: u8,
        stored: &[u8],
        place: usize,
        request: &[u8],
        reply: &[u8],
    ) -> Result<Vec<u8>, Difference> {
        let (answer, after, laid) = self.board(kind, stored, request, reply)?;
        let own = place * STORED_LENGTH..(place + 1) * STORED_LENGTH;
        let (alone, form, laid_alone) = self.call(kind, &stored[own.clone()], request, reply)?;
        let expected = [&stored[..own.start], &form, &stored[own.end..]].concat();
        if answer == alone && after == expected && laid == laid_alone {
            return Ok(after);
        }
        Err(Difference(format!(
            "board and call, kind {kind}, place {place}\n  stored {}\n  request {}\n",
            hexadecimal(stored),
            hexadecimal(request)
        )))
    }

    /// Compares the begin of a drum change; answers the number, the state and the request buffer.
    pub fn drum_begin(
        &mut self,
        picks: Picks,
        state: &[u8],
        request: &[u8],
    ) -> Result<(u32, Vec<u8>, Vec<u8>), Difference> {
        self.count(|counts| &mut counts.drum_changes);
        let (answer, [state, request]) = both(
            || format!("begin of a drum change, {picks:?}"),
            &[],
            [("state", state), ("request", request)],
            |[state, request]| library::drum_begin(picks, state, request),
            |[state, request]| interface::drum_begin(picks, state, request, self.fault),
        )?;
        self.count_drum_change(answer);
        Ok((answer, state, request))
    }

    /// Compares how a drum change takes a reply; answers the number, the state and the request buffer.
    pub fn drum_take(
        &mut self,
        state: &[u8],
        reply: &[u8],
        request: &[u8],
    ) -> Result<(u32, Vec<u8>, Vec<u8>), Difference> {
        self.count(|counts| &mut counts.drum_changes);
        let (answer, [state, request]) = both(
            || "reply in a drum change".to_string(),
            &[("reply", reply)],
            [("state", state), ("request", request)],
            |[state, request]| library::drum_take(state, reply, request),
            |[state, request]| interface::drum_take(state, reply, request, self.fault),
        )?;
        self.count_drum_change(answer);
        Ok((answer, state, request))
    }

    fn count_drum_change(&mut self, answer: u32) {
        if !self.enumerating {
            match answer {
                0 => self.counts.drum_changes_ended += 1,
                1..=99 => {}
                700.. => self.counts.drum_changes_stopped += 1,
                _ => self.counts.drum_changes_refused += 1,
            }
        }
    }

    /// Lends each request of a drum change to a call, with a bank and without, and the reply to the change:
    /// it has to come to the answer and the stored record that are expected, with the bank as it was.
    pub fn drum_change_and_calls(
        &mut self,
        picks: Picks,
        stored: &[u8],
        expected: (u32, &[u8]),
    ) -> Result<(), Difference> {
        let room = [0; LEAST_BUFFER];
        let mut unit = Unit::without_batches(stored);
        let (mut answer, mut state, mut request) =
            self.drum_begin(picks, &[0; STATE_LENGTH], &room)?;
        while (1..100).contains(&answer) {
            let asked = &request[..answer as usize];
            let (replied, after, laid) = self.banked_and_call(0, &unit, asked, &room)?;
            let reply = reply_laid(replied, &laid);
            (answer, state, request) = self.drum_take(&state, reply, &room)?;
            unit = after;
        }
        let same = unit == Unit::without_batches(expected.1);
        if answer == expected.0 && same {
            return Ok(());
        }
        Err(Difference(format!(
            "drum change and calls, {picks:?}\n  stored {}\n  expected {}: {}\n  came to {answer}: {}\n",
            hexadecimal(stored),
            expected.0,
            hexadecimal(expected.1),
            hexadecimal(&unit.stored)
        )))
    }

    /// Compares one panel event; answers the stored record after it.
    pub fn panel(&mut self, event: u8, number: u16, stored: &[u8]) -> Result<Vec<u8>, Difference> {
        self.count(|counts| &mut counts.panel_events);
        let (_, [after]) = both(
            || format!("panel event {event}, number {number}"),
            &[],
            [("stored", stored)],
            |[lent]| library::panel(event, number, lent),
            |[lent]| interface::panel(event, number, lent, self.fault),
        )?;
        Ok(after)
    }

    pub fn stored(&mut self, stored: &[u8], out: &[u8]) -> Result<(), Difference> {
        self.count(|counts| &mut counts.stored_forms);
        both(
            || "stored form".to_string(),
            &[("stored", stored)],
            [("out", out)],
            |[lent]| library::stored(stored, lent),
            |[lent]| interface::stored(stored, lent, self.fault),
        )?;
        Ok(())
    }

    /// Compares a build; answers the frame, if there is one.
    pub fn build(
        &mut self,
        kind: u8,
        text: &[u8],
        out: &[u8],
    ) -> Result<Option<Vec<u8>>, Difference> {
        self.count(|counts| &mut counts.host_side);
        let answered = both(
            || format!("build, kind {kind}"),
            &[("text", text)],
            [("out", out)],
            |[lent]| library::build(kind, text, lent),
            |[lent]| interface::build(kind, text, lent, self.fault),
        )?;
        Ok(laid(answered))
    }

    /// Compares a read; answers the text, if there is one.
    pub fn read(
        &mut self,
        kind: u8,
        frame: &[u8],
        out: &[u8],
    ) -> Result<Option<Vec<u8>>, Difference> {
        self.count(|counts| &mut counts.host_side);
        let answered = both(
            || format!("read, kind {kind}"),
            &[("frame", frame)],
            [("out", out)],
            |[lent]| library::read(kind, frame, lent),
            |[lent]| interface::read(kind, frame, lent, self.fault),
        )?;
        Ok(laid(answered))
    }

    /// Builds a text, and reads what was built, which has to be the text.
    pub fn build_and_read(&mut self, kind: u8, text: &[u8], out: &[u8]) -> Result<(), Difference> {
        let Some(frame) = self.build(kind, text, out)? else {
            return Ok(());
        };
        match self.read(kind, &frame, out)? {
            Some(back) if back == text => Ok(()),
            _ => Err(no_round_trip(kind, text, &frame)),
        }
    }

    /// Reads a frame, and builds what was read, which has to be the frame.
    pub fn read_and_build(&mut self, kind: u8, frame: &[u8], out: &[u8]) -> Result<(), Difference> {
        let Some(text) = self.read(kind, frame, out)? else {
            return Ok(());
        };
        match self.build(kind, &text, out)? {
            Some(back) if back == frame => Ok(()),
            _ => Err(no_round_trip(kind, &text, frame)),
        }
    }

    /// Compares a judgement; answers whether the recording fits.
    pub fn judge(&mut self, recording: &[u8]) -> Result<bool, Difference> {
        self.count(|counts| &mut counts.recordings);
        let first = library::judge(recording);
        let second = interface::judge(recording, self.fault);
        if first != second {
            let answer =
                |(answer, place, count)| format!("answer {answer}, place {place}, count {count}");
            return Err(Difference(format!(
                "judge\n  recording {}\n  library: {}\n  second program: {}\n",
                hexadecimal(recording),
                answer(first),
                answer(second)
            )));
        }
        if !self.enumerating {
            match first.0 {
                0 => self.counts.fits += 1,
                1 => self.counts.refuted += 1,
                2 => self.counts.not_judged += 1,
                _ => self.counts.refused += 1,
            }
        }
        Ok(first.0 == 0)
    }
}

/// The reply that a call laid at the start of the reply buffer; empty, if it was silent.
pub fn reply_laid(answer: u32, buffer: &[u8]) -> &[u8] {
    let length = if answer < 100 { answer as usize } else { 0 };
    &buffer[..length]
}

fn no_round_trip(kind: u8, text: &[u8], frame: &[u8]) -> Difference {
    Difference(format!(
        "round trip, kind {kind}\n  text {}\n  frame {}\n",
        hexadecimal(text),
        hexadecimal(frame)
    ))
}

fn not_the_same(how: &str, stored: &[u8], parts: &[&[u8]]) -> Difference {
    let mut text = format!(
        "several frames at once and {how}\n  stored {}\n",
        hexadecimal(stored)
    );
    for part in parts {
        text += &format!("  {}\n", hexadecimal(part));
    }
    Difference(text)
}

/// Lends the same buffers to each side, and compares the answers and every byte; answers what was
/// answered and the buffers.
fn both<Answer: PartialEq + fmt::Debug, const BUFFERS: usize>(
    what: impl FnOnce() -> String,
    read: &[(&str, &[u8])],
    contents: [(&'static str, &[u8]); BUFFERS],
    library: impl FnOnce([&mut [u8]; BUFFERS]) -> Answer,
    second_program: impl FnOnce([&mut [u8]; BUFFERS]) -> Answer,
) -> Result<(Answer, [Vec<u8>; BUFFERS]), Difference> {
    let mut lent_first = contents.map(|(_, content)| Lent::new(content));
    let mut lent_second = lent_first.clone();
    let first = library(lent_first.each_mut().map(Lent::slice));
    let second = second_program(lent_second.each_mut().map(Lent::slice));
    if first != second || lent_first != lent_second {
        return Err(difference(
            &what(),
            read,
            &contents,
            (&first, &lent_first),
            (&second, &lent_second),
        ));
    }
    Ok((first, lent_first.map(|lent| lent.content().to_vec())))
}

/// The bytes at the start of a buffer whose length was answered; none, if a refusal was.
fn laid((answer, [buffer]): (u32, [Vec<u8>; 1])) -> Option<Vec<u8>> {
    (answer < 100).then(|| buffer[..answer as usize].to_vec())
}

type Answered<'lent> = (&'lent dyn fmt::Debug, &'lent [Lent]);

fn difference(
    what: &str,
    read: &[(&str, &[u8])],
    contents: &[(&str, &[u8])],
    first: Answered,
    second: Answered,
) -> Difference {
    let mut text = format!("{what}\n");
    for (name, bytes) in read.iter().chain(contents) {
        text += &format!("  {name} {}\n", hexadecimal(bytes));
    }
    for (side, (answer, lent)) in [("library", first), ("second program", second)] {
        text += &format!("  {side}: answer {answer:?}\n");
        for ((name, _), bytes) in contents.iter().zip(lent) {
            text += &format!("    {name} {}\n", hexadecimal(bytes.content()));
            if !bytes.guards_stand() {
                text += &format!("    bytes around {name} were overwritten\n");
            }
        }
    }
    Difference(text)
}

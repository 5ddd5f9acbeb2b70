//! Drum change: document 02's five requests in turn, each given only after the right reply to the one
//! before it.

use crate::fault::Fault;
use crate::frame::{self, Kind, LEAST_BUFFER};
use crate::parameters::{factor_place, parameter_code};
use crate::record::{HIGHEST_ADDRESS, HIGHEST_PRESET, RECIPES};
use std::ops::RangeInclusive;

pub const FACTORS: RangeInclusive<u32> = 8_000..=12_000;

/// A held state: address, recipe, factor in 2 bytes, preset in 3, high byte first, and the step.
pub const STATE_LENGTH: usize = 8;
/// The place of the step in it.
pub const STEP: usize = 7;
/// The step that is held after SB's OK.
pub const ENDED: u8 = 6;
/// What is added to the step at which a change stops.
pub const STOPPED: u8 = 10;

/// What the foreman picks.
#[derive(Clone, Copy, PartialEq, Eq, Debug)]
pub struct Picks {
    pub address: u8,
    pub recipe: u8,
    pub factor: u32,
    pub preset: u32,
}

impl Picks {
    /// The first of Q0 to Q3 that applies.
    pub fn refused(&self, fault: Fault) -> Option<u8> {
        let least_preset = u32::from(fault != Fault::ZeroPresetTaken);
        let mut tests = [
            (0, (1..=HIGHEST_ADDRESS).contains(&self.address)),
            (1, (1..=RECIPES).contains(&self.recipe)),
            (2, FACTORS.contains(&self.factor)),
            (3, (least_preset..=HIGHEST_PRESET).contains(&self.preset)),
        ];
        if fault == Fault::FactorBeforeRecipe {
            tests.swap(1, 2);
        }
        tests
            .iter()
            .find(|(_, passed)| !passed)
            .map(|&(number, _)| number)
    }

    /// The held state with these picks and a step.
    pub fn held(&self, step: u8) -> [u8; STATE_LENGTH] {
        let mut state = [self.address, self.recipe, 0, 0, 0, 0, 0, step];
        state[2..4].copy_from_slice(&self.factor.to_be_bytes()[2..]);
        state[4..STEP].copy_from_slice(&self.preset.to_be_bytes()[1..]);
        state
    }
}

/// A request, by the number that a stop names.
#[derive(Clone, Copy, PartialEq, Eq, Debug)]
pub enum Step {
    /// NR.
    WriteRecipe = 1,
    /// PC.
    WriteFactor,
    /// PV.
    ReadFactor,
    /// RC.
    ReadRecipe,
    /// SB.
    SetBatch,
}

impl Step {
    pub const ALL: [Step; 5] = [
        Step::WriteRecipe,
        Step::WriteFactor,
        Step::ReadFactor,
        Step::ReadRecipe,
        Step::SetBatch,
    ];

    pub fn numbered(number: u8) -> Option<Step> {
        Step::ALL.into_iter().find(|&step| step as u8 == number)
    }

    fn next(self, fault: Fault) -> Option<Step> {
        match self {
            Step::ReadFactor if fault == Fault::BatchAfterFactorAlone => Some(Step::SetBatch),
            _ => Step::numbered(self as u8 + 1),
        }
    }
}

/// What is answered beside the held state and the lent request buffer.
#[derive(Clone, Copy, PartialEq, Eq, Debug)]
pub enum Answer {
    /// The length of the next request, at the start of the buffer.
    Request(usize),
    /// SB's OK was taken.
    Ended,
    /// Q0 to Q4.
    Refused(u8),
    /// H1, as for any frame that is built: the request buffer is under 64 bytes.
    ShortBuffer,
    /// By a wrong reply at this step.
    Stopped(Step),
}

/// Begins a change with NR's request; what the lent state held does not count.
pub fn begin(picks: Picks, state: &mut [u8], request: &mut [u8], fault: Fault) -> Answer {
    let has_room = request.len() >= LEAST_BUFFER;
    if let Some(number) = picks.refused(fault) {
        return Answer::Refused(number);
    }
    if state.len() != STATE_LENGTH {
        return refused_state(has_room, fault);
    }
    if !has_room {
        return Answer::ShortBuffer;
    }
    state.copy_from_slice(&picks.held(Step::WriteRecipe as u8));
    Answer::Request(lay(&picks, Step::WriteRecipe, request, fault))
}

/// Takes the reply that a held state awaits.
pub fn take(state: &mut [u8], reply: &[u8], request: &mut [u8], fault: Fault) -> Answer {
    let has_room = request.len() >= LEAST_BUFFER;
    let Some((picks, step)) = awaited(state, fault) else {
        if fault == Fault::RefusedStateStopped {
            stop_refused(state);
        }
        return refused_state(has_room, fault);
    };
    // Also where no further request is due.
    let needs_room = step != Step::SetBatch || fault != Fault::EndWithoutRoom;
    if needs_room && !has_room {
        return Answer::ShortBuffer;
    }
    let right = right_reply(&picks, step);
    if reply != right && !is_mistaken(reply, &right, step, fault) {
        let named = match step {
            Step::ReadRecipe if fault == Fault::WrongStepNamed => Step::ReadFactor,
            _ => step,
        };
        state[STEP] = STOPPED + named as u8;
        return Answer::Stopped(named);
    }
    match step.next(fault) {
        Some(next) => {
            state[STEP] = next as u8;
            Answer::Request(lay(&picks, next, request, fault))
        }
        None => {
            state[STEP] = ENDED;
            Answer::Ended
        }
    }
}

/// Q4, unless a planted fault looks at the buffer first.
fn refused_state(has_room: bool, fault: Fault) -> Answer {
    match fault {
        Fault::RoomBeforeState if !has_room => Answer::ShortBuffer,
        _ => Answer::Refused(4),
    }
}

/// The picks that a state holds and the step whose reply it awaits; none if it is out of range, has
/// ended or was stopped.
fn awaited(state: &[u8], fault: Fault) -> Option<(Picks, Step)> {
    if state.len() != STATE_LENGTH {
        return None;
    }
    let number = |bytes: &[u8]| {
        let longer = |number, &byte| number << 8 | u32::from(byte);
        bytes.iter().fold(0, longer)
    };
    let picks = Picks {
        address: state[0],
        recipe: state[1],
        factor: number(&state[2..4]),
        preset: number(&state[4..STEP]),
    };
    let step = Step::numbered(state[STEP])?;
    match picks.refused(fault) {
        None => Some((picks, step)),
        Some(2) if fault == Fault::HeldFactorUntested => Some((picks, step)),
        Some(_) => None,
    }
}

/// Lays the request of a step at the start of a buffer that has room for it, and answers its length.
fn lay(picks: &Picks, step: Step, request: &mut [u8], fault: Fault) -> usize {
    let text = request_text(picks, step, fault);
    frame::lay(Kind::Minicomputer, text.as_bytes(), request)
}

fn factor_code(recipe: u8) -> u32 {
    parameter_code(factor_place(recipe))
}

fn request_text(picks: &Picks, step: Step, fault: Fault) -> String {
    let &Picks {
        address,
        recipe,
        factor,
        preset,
    } = picks;
    let code = factor_code(recipe);
    match (step, fault) {
        (Step::WriteFactor, Fault::ShortFactorWritten) => {
            format!("{address:02}PC {code:03} {factor}")
        }
        (Step::SetBatch, Fault::ShortPresetSet) => format!("{address:02}SB {preset}"),
        (Step::WriteRecipe, _) => format!("{address:02}NR {recipe:02}"),
        (Step::WriteFactor, _) => format!("{address:02}PC {code:03} {factor:08}"),
        (Step::ReadFactor, _) => format!("{address:02}PV {code:03}"),
        (Step::ReadRecipe, _) => format!("{address:02}RC"),
        (Step::SetBatch, _) => format!("{address:02}SB {preset:06}"),
    }
}

/// The only frame that is right as the reply to a step.
pub fn right_reply(picks: &Picks, step: Step) -> Vec<u8> {
    let &Picks {
        address,
        recipe,
        factor,
        ..
    } = picks;
    let text = match step {
        Step::ReadFactor => format!("{address:02}PV {:03} {factor:08}", factor_code(recipe)),
        Step::ReadRecipe => format!("{address:02}RC {recipe:02} {factor:08}"),
        Step::WriteRecipe | Step::WriteFactor | Step::SetBatch => format!("{address:02}OK"),
    };
    frame::framed(Kind::Minicomputer, text.as_bytes())
}

/// Whether a planted fault takes this reply for the right one.
fn is_mistaken(reply: &[u8], right: &[u8], step: Step, fault: Fault) -> bool {
    if fault == Fault::WrongCheckTaken {
        let check = right.len() - 2;
        return reply.len() == right.len()
            && reply[..check] == right[..check]
            && reply[check + 1..] == right[check + 1..];
    }
    if frame::open(Kind::Minicomputer, reply, fault).is_err() || reply[1..3] != right[1..3] {
        return false;
    }
    match (fault, step) {
        (Fault::RefusalPassed, _) => reply[3..5] == *b"NO",
        _ if reply.len() != right.len() => false,
        // "PV ppp " and eight digits, "RC rr " and eight digits, behind STX and the address.
        (Fault::ShownFactorUnread, Step::ReadFactor) => reply[..10] == right[..10],
        (Fault::ShownRecipeUnread, Step::ReadRecipe) => {
            reply[..6] == right[..6] && reply[8..17] == right[8..17]
        }
        _ => false,
    }
}

/// Stops a refused change at the step that it holds, which a planted fault alone does.
fn stop_refused(state: &mut [u8]) {
    if let Some(step) = state.get_mut(STEP) {
        if Step::numbered(*step).is_some() {
            *step += STOPPED;
        }
    }
}

#[cfg(test)]
mod tests {
    use super::*;

    const PICKS: Picks = Picks {
        address: 7,
        recipe: 3,
        factor: 10_150,
        preset: 500,
    };

    /// The answer to a begin; a refusal may change no byte.
    fn begun(picks: Picks, state_length: usize, room: usize) -> Answer {
        let (mut state, mut request) = (vec![9; state_length], vec![9; room]);
        let answer = begin(picks, &mut state, &mut request, Fault::None);
        if !matches!(answer, Answer::Request(_)) {
            assert_eq!((state, request), (vec![9; state_length], vec![9; room]));
        }
        answer
    }

    /// The answer to a reply, and the step held then; no other byte of the state may change, and none
    /// of the buffer unless a request is given.
    fn taken(state: &[u8], reply: &[u8], room: usize) -> (Answer, Option<u8>) {
        let (mut lent, mut request) = (state.to_vec(), vec![9; room]);
        let answer = take(&mut lent, reply, &mut request, Fault::None);
        let kept = match answer {
            Answer::Request(length) => length,
            _ => 0,
        };
        assert!(request[kept..].iter().all(|&byte| byte == 9));
        let changed = lent.iter().zip(state).position(|(now, then)| now != then);
        assert!(matches!(changed, None | Some(STEP)));
        (answer, changed.map(|step| lent[step]))
    }

    #[test]
    fn a_begin_is_refused_in_order() {
        assert_eq!(begun(PICKS, 8, 64), Answer::Request(11));
        let mut picks = PICKS;
        assert_eq!(begun(picks, 8, 63), Answer::ShortBuffer);
        for length in [0, 7, 9, 16] {
            assert_eq!(begun(picks, length, 63), Answer::Refused(4));
        }
        for preset in [0, 1_000_000, 0x0100_0001, u32::MAX] {
            picks.preset = preset;
            assert_eq!(begun(picks, 7, 63), Answer::Refused(3));
        }
        for factor in [0, 7_999, 12_001, 65_536 + 10_150, u32::MAX] {
            picks.factor = factor;
            assert_eq!(begun(picks, 7, 63), Answer::Refused(2));
        }
        for recipe in [0, 9, 255] {
            picks.recipe = recipe;
            assert_eq!(begun(picks, 7, 63), Answer::Refused(1));
        }
        for address in [0, 100, 255] {
            picks.address = address;
            assert_eq!(begun(picks, 7, 63), Answer::Refused(0));
        }
    }

    /// Q4, then H1, then the reply: right or wrong, neither looks at it.
    #[test]
    fn a_reply_is_refused_in_order() {
        let refused = (Answer::Refused(4), None);
        let right = right_reply(&PICKS, Step::SetBatch);
        for reply in [&right[..], &[]] {
            for step in (0..=255).filter(|step| !(1..=5).contains(step)) {
                assert_eq!(taken(&PICKS.held(step), reply, 63), refused);
            }
            for (place, byte) in [(0, 0), (0, 100), (1, 0), (1, 9), (2, 0), (2, 255), (4, 255)] {
                let mut state = PICKS.held(5);
                state[place] = byte;
                assert_eq!(taken(&state, reply, 63), refused);
            }
            let state = PICKS.held(5);
            assert_eq!(taken(&state[..7], reply, 63), refused);
            assert_eq!(taken(&[&state[..], &[5]].concat(), reply, 63), refused);
            for room in [0, 63] {
                assert_eq!(taken(&state, reply, room), (Answer::ShortBuffer, None));
            }
        }
        let ended = (Answer::Ended, Some(ENDED));
        assert_eq!(taken(&PICKS.held(5), &right, 64), ended);
    }

    #[test]
    fn wrong_replies_stop_with_the_step() {
        let framed = |text: &str| frame::framed(Kind::Minicomputer, text.as_bytes());
        for step in Step::ALL {
            let right = right_reply(&PICKS, step);
            let check = right.len() - 2;
            let wrong_check = [&right[..check], &[right[check] ^ 1], &right[check + 1..]].concat();
            let longer = [&right[..], &[0x7F]].concat();
            let mut replies = vec![vec![], wrong_check, longer, right[1..].to_vec()];
            replies.extend(
                [
                    "07NO00",
                    "07NO05",
                    "08OK",
                    "07PV 032 00010012",
                    "07PV 042 00010150",
                    "08PV 032 00010150",
                    "07PV 032 10150",
                    "07RC 03 00010012",
                    "07RC 04 00010150",
                    "08RC 03 00010150",
                    "07OK ",
                ]
                .map(framed),
            );
            let stopped = (Answer::Stopped(step), Some(10 + step as u8));
            for reply in replies {
                assert_eq!(taken(&PICKS.held(step as u8), &reply, 64), stopped);
            }
        }
    }
}

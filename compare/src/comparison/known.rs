//! What a recording tells by the library, held against what it tells by this program.

use super::probes::Probes;
use super::{hexadecimal, Comparison, Difference, Lent};
use crate::fault::Fault;
use crate::fields::{self, FIELDS};
use crate::known::Told;
use crate::numbers::{Numbers, Sets};
use crate::recording::{self, Exchange};
use crate::{interface, library};

/// Sets as the header writes them.
type Written = [u32; FIELDS];

const GUARD_SET: u32 = 0xA5A5_A5A5;

/// Sets to be lent, told apart so that one that is written or moved is seen.
fn lent_sets(room: usize) -> Lent<u32> {
    let content: Vec<u32> = (0..room as u32).map(|place| 0xC0DE_0000 + place).collect();
    Lent::between(GUARD_SET, &content)
}

/// Sets to be lent, with more behind them.
fn lent_from(sets: &Written, room: usize) -> Lent<u32> {
    let mut lent = lent_sets(room);
    let filled = room.min(FIELDS);
    lent.slice()[..filled].copy_from_slice(&sets[..filled]);
    lent
}

/// The first sets, if all else is as it was lent.
fn written(before: &Lent<u32>, after: &Lent<u32>) -> Result<Written, String> {
    let (sets, rest) = after.content().split_at(FIELDS);
    if rest != &before.content()[FIELDS..] || !after.guards_stand() {
        return Err("sets behind the last field were overwritten".into());
    }
    Ok(sets.try_into().expect("one for each field"))
}

/// More exchanges than this are followed only in part.
pub const FOLLOWED: usize = 40;

/// Up to so many exchanges, what is known is asked for after each.
const ASKED_EACH: usize = 12;

/// Up to so many bytes, each is asked for as the first of an exchange.
const WALKED: usize = 200;

/// A recording, what this program tells of it, and which numbers may tell.
struct Telling<'told> {
    recording: &'told [u8],
    exchanges: Vec<Exchange<'told>>,
    told: &'told Told,
    fault: Fault,
    probes: Probes,
}

impl Telling<'_> {
    /// After how many exchanges it is asked what is known.
    fn asked(&self) -> Vec<usize> {
        let count = self.told.count();
        if count <= ASKED_EACH {
            return (0..=count + 2).chain([usize::MAX]).collect();
        }
        let mut asked = vec![0, 1, count / 2, count - 1, count, count + 1, usize::MAX];
        if let Some(place) = self.told.ended_at() {
            asked.extend([place - 1, place, place + 1]);
        }
        asked.sort_unstable();
        asked.dedup();
        asked
    }

    /// What the library writes after so many exchanges, into room for so many sets, if it does.
    fn written(&self, exchanges: usize, room: usize) -> Result<Option<Written>, String> {
        let before = lent_sets(room);
        let mut after = before.clone();
        let first = library::known(self.recording, exchanges, after.slice());
        let own = self.told.known(exchanges, room, self.fault);
        let second = own.map_or_else(interface::known_answer, |_| (0, 0));
        if first != second {
            return Err(format!(
                "after {exchanges} exchanges, room for {room} sets\n  library: answer and place {first:?}\n  \
                 second program: {second:?}"
            ));
        }
        if own.is_err() {
            return match before == after {
                true => Ok(None),
                false => Err(format!("after {exchanges} exchanges: sets overwritten")),
            };
        }
        written(&before, &after).map(Some)
    }

    /// Holds sets against this program's after so many exchanges; those that were the same before are
    /// not looked at again.
    fn same_sets(
        &self,
        exchanges: usize,
        sets: &Written,
        before: &mut Option<(Sets, Written)>,
    ) -> Result<(), String> {
        let own = match self.told.known(exchanges, FIELDS, self.fault) {
            Ok(own) => own,
            Err(untold) => return Err(format!("after {exchanges} exchanges: {untold:?}")),
        };
        for field in 0..FIELDS {
            let seen = before.as_ref().is_some_and(|(own_before, sets_before)| {
                own_before[field] == own[field] && sets_before[field] == sets[field]
            });
            if !seen {
                self.probes
                    .same(field, own[field], sets[field])
                    .map_err(|text| format!("after {exchanges} exchanges: {text}"))?;
            }
        }
        *before = Some((*own, *sets));
        Ok(())
    }

    /// What is known after each exchange that is asked for, in rooms of several sizes; answers how often
    /// it was asked.
    fn known(&self) -> Result<u64, String> {
        let mut before = None;
        let asked = self.asked();
        for (turn, &exchanges) in asked.iter().enumerate() {
            let room = [FIELDS, FIELDS + 1, 90][turn % 3];
            if let Some(sets) = self.written(exchanges, room)? {
                self.same_sets(exchanges, &sets, &mut before)?;
            }
            self.written(exchanges, [FIELDS - 1, 0][turn % 2])?;
        }
        Ok(2 * asked.len() as u64)
    }

    /// Goes through the exchanges with `learn` and with `Following`, from a recording without exchanges
    /// on; answers how many exchanges were learnt from.
    fn learnt(&self) -> Result<u64, String> {
        let [address, access] = [self.recording[3], self.recording[4]];
        let header = [1, 0, 5, address, access];
        let mut sets = [0; FIELDS];
        if library::known(&header, 0, &mut sets) != (0, 0) {
            return Err("a recording without exchanges is refused".into());
        }
        let Some(mut following) = library::Following::begin(address, access) else {
            return Err("no line is followed from this header".into());
        };
        let mut before = None;
        self.followed(0, &sets, &following, &mut before)?;
        for (place, exchange) in self.exchanges.iter().enumerate().take(FOLLOWED) {
            let answer = self.learn(&mut sets, *exchange, place)?;
            let followed = following.learn(exchange.request, exchange.reply);
            if followed != answer {
                return Err(format!(
                    "exchange {} followed: {followed}, but learnt: {answer}",
                    place + 1
                ));
            }
            let known = place + usize::from(answer == 0);
            self.followed(known, &sets, &following, &mut before)?;
            if answer != 0 {
                return Ok(place as u64 + 1);
            }
        }
        Ok(self.exchanges.len().min(FOLLOWED) as u64)
    }

    /// One exchange over sets that are lent; answers 0 if it was learnt from.
    fn learn(&self, sets: &mut Written, exchange: Exchange, place: usize) -> Result<u32, String> {
        let learn = |lent: &mut Lent<u32>| {
            let [address, access] = [self.recording[3], self.recording[4]];
            library::learn(
                address,
                access,
                exchange.request,
                exchange.reply,
                lent.slice(),
            )
        };
        let expected = match self.told.ended_at() == Some(place + 1) {
            true => 1 + u32::from(self.told.is_not_judged()),
            false => 0,
        };
        let rooms = [FIELDS + place % 3, [0, FIELDS - 1][place % 2]];
        let [room, short] = rooms.map(|room| lent_from(sets, room));
        let [mut after, mut after_short] = [room.clone(), short.clone()];
        let answers = [learn(&mut after), learn(&mut after_short)];
        if answers != [expected, 401] {
            return Err(format!(
                "exchange {} learnt: library: {answers:?}; second program: [{expected}, 401]",
                place + 1
            ));
        }
        if after_short != short || expected != 0 && after != room {
            return Err(format!("exchange {} learnt: sets overwritten", place + 1));
        }
        if expected == 0 {
            *sets = written(&room, &after)?;
        }
        Ok(expected)
    }

    /// The sets that were learnt are those that are known, and those of a line that was followed; and
    /// each is so since the same exchange.
    fn followed(
        &self,
        exchanges: usize,
        sets: &Written,
        following: &library::Following,
        before: &mut Option<(Sets, Written)>,
    ) -> Result<(), String> {
        self.same_sets(exchanges, sets, before)?;
        let asked = self.asked().contains(&exchanges);
        if asked && self.written(exchanges, FIELDS)?.as_ref() != Some(sets) {
            return Err(format!("{exchanges} exchanges learnt, but known is else"));
        }
        if following.sets() != sets || following.exchanges() != exchanges {
            return Err(format!("{exchanges} exchanges followed, but known is else"));
        }
        let since = self.told.since(exchanges);
        match (0..FIELDS).find(|&field| following.since(field) != since[field]) {
            None => Ok(()),
            Some(field) => Err(format!(
                "field {field} after {exchanges} exchanges: library: since {}; second program: since {}",
                following.since(field),
                since[field]
            )),
        }
    }

    /// Why it is refuted, or not judged; answers the library's answer.
    fn explained(&self) -> Result<u32, String> {
        let (answer, why) = library::why(self.recording);
        let (own_answer, place, number, sets) = interface::why(self.told, self.fault);
        let told = (answer, why.place, why.number);
        if told != (own_answer, place, number) || sets.is_none() && (why.held, why.needed) != (0, 0)
        {
            return Err(format!(
                "why\n  library: answer {answer}, {why:?}\n  second program: answer {own_answer}, place \
                 {place}, number {number}, {sets:?}"
            ));
        }
        if let Some((held, needed)) = sets {
            let field = number as usize;
            let same = |own, set| self.probes.same(field, own, set);
            same(held, why.held).map_err(|text| format!("why, held: {text}"))?;
            same(needed, why.needed).map_err(|text| format!("why, needed: {text}"))?;
            let known = self.written(place - 1, FIELDS)?;
            if known.is_none_or(|known| known[field] != why.held) {
                return Err(format!("why, held: {:#X} is not what is known", why.held));
            }
        }
        Ok(answer)
    }

    /// Each byte of a short recording, and each exchange of a long one, as the first of an exchange.
    fn walked(&self) -> Result<(), String> {
        let length = self.recording.len();
        let mut places: Vec<usize> = if length <= WALKED {
            (0..length).collect()
        } else {
            let mut start = 5;
            let exchanges = self.exchanges.iter().take(FOLLOWED);
            exchanges
                .map(|exchange| {
                    let at = start;
                    start += 2 + exchange.request.len() + exchange.reply.len();
                    at
                })
                .collect()
        };
        places.extend([length - length.min(1), length, length + 1, usize::MAX]);
        for at in places {
            let first = library::exchange(self.recording, at);
            let second = interface::exchange(self.recording, at, self.fault);
            if first != second {
                return Err(format!(
                    "exchange at {at}\n  library: {first:?}\n  second program: {second:?}"
                ));
            }
        }
        let exchanges = library::exchanges(self.recording);
        let own = self.exchanges.iter();
        match exchanges
            .into_iter()
            .eq(own.map(|exchange| (exchange.request, exchange.reply)))
        {
            true => Ok(()),
            false => Err("the exchanges in their order".into()),
        }
    }
}

impl Comparison {
    /// Compares all that a recording tells: what is known after its exchanges and since which of them,
    /// why it is refuted or not judged, and where its exchanges are.
    pub fn told(&mut self, recording: &[u8]) -> Result<(), Difference> {
        let told = Told::by(recording, self.fault);
        let (exchanges, _) = recording::exchanges(recording.get(5..).unwrap_or_default());
        let telling = Telling {
            recording,
            told: &told,
            fault: self.fault,
            probes: Probes::of(&exchanges),
            exchanges,
        };
        let differs = |text: String| {
            Difference(format!(
                "what a recording tells: {text}\n  recording {}\n",
                hexadecimal(recording)
            ))
        };
        let known = telling.known().map_err(differs)?;
        let well_formed = recording::read(recording, Fault::None).is_ok();
        let learnt = match well_formed {
            true => telling.learnt().map_err(differs)?,
            false => 0,
        };
        let answer = telling.explained().map_err(differs)?;
        telling.walked().map_err(differs)?;
        self.count_told(known, learnt, answer);
        match told.ended_at() {
            Some(place) if well_formed => {
                self.learn(recording, place - 1, telling.exchanges[place - 1])
            }
            _ => Ok(()),
        }
    }

    fn count_told(&mut self, known: u64, learnt: u64, answer: u32) {
        let counts = &mut self.counts;
        if self.enumerating {
            counts.enumerated += known + learnt + 1;
            return;
        }
        counts.known += known;
        counts.learnt += learnt;
        counts.explained += 1;
        if let Some(reason) = counts.reasons.get_mut((answer as usize).wrapping_sub(1)) {
            *reason += 1;
        }
    }

    /// Compares whether a set has a number.
    pub fn may_hold(&mut self, field: usize, set: u32, number: u32) -> Result<(), Difference> {
        self.count(|counts| &mut counts.known);
        let first = library::may_hold(field, set, number);
        let second = u32::from(fields::has(field, set, number, self.fault));
        if first == second {
            return Ok(());
        }
        Err(Difference(format!(
            "may hold, field {field}, set {set:#X}, number {number}\n  library: {first}\n  second program: \
             {second}\n"
        )))
    }

    /// Compares one exchange over the sets that the library tells after some exchanges of a recording,
    /// and what is lent behind them.
    pub fn learn(
        &mut self,
        recording: &[u8],
        exchanges: usize,
        exchange: Exchange,
    ) -> Result<(), Difference> {
        let mut sets = [0; FIELDS];
        if library::known(recording, exchanges, &mut sets) != (0, 0) {
            return Ok(());
        }
        self.count(|counts| &mut counts.learnt);
        let [address, access] = [recording[3], recording[4]];
        let room = lent_from(&sets, FIELDS + 3);
        let (mut first, mut second) = (room.clone(), room.clone());
        let Exchange { request, reply } = exchange;
        let answer = library::learn(address, access, request, reply, first.slice());
        let own = interface::learn(address, access, exchange, second.slice(), self.fault);
        let probes = Probes::of(&[exchange]);
        let same = || {
            if answer != own {
                return Err(format!("library: answer {answer}; second program: {own}"));
            }
            let (first, second) = (written(&room, &first)?, written(&room, &second)?);
            (0..FIELDS)
                .filter(|&field| first[field] != second[field])
                .try_for_each(|field| {
                    let own = Numbers::read(field, second[field]);
                    probes.same(field, own, first[field])
                })
        };
        same().map_err(|text| {
            Difference(format!(
                "learn: {text}\n  recording {}\n  exchanges {exchanges}\n  request {}\n  reply {}\n",
                hexadecimal(recording),
                hexadecimal(request),
                hexadecimal(reply)
            ))
        })
    }

    /// Compares whether a line may be followed from a header on.
    pub fn follow(&mut self, address: u8, access: u8) -> Result<(), Difference> {
        self.count(|counts| &mut counts.known);
        let header = [1, 0, 5, address, access];
        let first = library::Following::begin(address, access).is_some();
        let second = recording::read(&header, self.fault).is_ok();
        if first == second {
            return Ok(());
        }
        Err(Difference(format!(
            "follow, address {address}, access {access}\n  library: {first}\n  second program: {second}\n"
        )))
    }
}

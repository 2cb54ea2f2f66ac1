//! Plays a list on the archive and on the model, comparing after every call, a pool with the Rust too; then undoes every gesture and does as many again.

use boundary::session as archive;
use model::calls;
use model::fields::{Class, Sets, quality};
use model::history::{depth, past_runs};
use model::layout::{Opened, lay};
use model::list::Call;
use model::machine::Machine;
use model::session::{Answer, Buffers, Counts, Session};
use oracle::smooth::VectorField;

use crate::guarded::Guarded;
use crate::plant::{self, AGAIN, LAYOUT, MACHINE, MODEL, Part, RUST};
use crate::rust;
use crate::session::by_rust::{self, ByRust};
use crate::session::nine::Nine;
use crate::session::scenario::Scenario;
use crate::session::{KEPT_IN_LIST, LIST, kept, wrong};
use crate::tally::{LISTS, Tally};

/// Both sides of a comparison, and the machine where an open was accepted.
struct Play {
    ours: Nine,
    session: Session,
    buffers: Buffers,
    machine: Option<Machine>,
}

const fn name(call: &Call) -> &'static str {
    match call {
        Call::Take(_) => "take",
        Call::Put(_) => "put",
        Call::Undo => "undo",
        Call::Redo => "redo",
        Call::Retime(_) => "retime",
        Call::Pool { .. } => "pool",
    }
}

/// A session beside the one that is expected, each count that it keeps by its name.
fn same_session(place: &str, with: &str, ours: &Session, expected: &Session) -> Result<(), String> {
    let counts = ours.kept.fields().into_iter().zip(expected.kept.fields());
    if let Some((name, (ours, expected))) = Counts::NAMES.into_iter().zip(counts).find(|(_, (a, b))| a != b) {
        return Err(format!("{place}: kept {name} {ours}, expected {expected} ({with})"));
    }
    if ours != expected {
        return Err(format!("{place}: value {ours:?}, expected {expected:?} ({with})"));
    }
    Ok(())
}

/// What the archive answers to a take, which leaves the payload that it is lent as it was.
fn taken(session: Session, payload: &[u8], lent: &mut archive::Lent) -> Result<Answer, String> {
    let mut guarded = Guarded::new(payload, payload.len(), 0);
    let answer = archive::take(session, guarded.body(), lent);
    plant::buffer("take", "payload", &mut guarded);
    guarded.difference_from(payload).map_or(Ok(answer), |text| Err(format!("take: payload{text} ({MODEL})")))
}

/// What the archive answers to a pool, which leaves both payloads that it is lent as they were. Equal ones are lent as one.
fn pooled(session: Session, payloads: [&[u8]; 2], lent: &mut archive::Lent) -> Result<Answer, String> {
    let [mut first, mut second] = payloads.map(|payload| Guarded::new(payload, payload.len(), 0));
    let other = if payloads[0] == payloads[1] { &first } else { &second };
    let answer = archive::pool(session, first.body(), other.body(), lent);
    plant::buffer("pool", "first", &mut first);
    plant::buffer("pool", "second", &mut second);
    for (name, guarded, payload) in [("first", first, payloads[0]), ("second", second, payloads[1])] {
        if let Some(text) = guarded.difference_from(payload) {
            return Err(format!("pool: {name}{text} ({MODEL})"));
        }
    }
    Ok(answer)
}

/// What the archive answers.
fn answered(call: &Call, session: Session, lent: &mut archive::Lent) -> Result<Answer, String> {
    match call {
        Call::Take(payload) => taken(session, payload, lent),
        Call::Put(put) => Ok(archive::put(session, *put, lent)),
        Call::Undo => Ok(archive::undo(session, lent)),
        Call::Redo => Ok(archive::redo(session, lent)),
        Call::Retime(time) => Ok(archive::retime(session, *time, lent)),
        Call::Pool { first, second } => pooled(session, [first, second], lent),
    }
}

pub fn check(scenario: &Scenario, tally: &mut Tally) -> Result<(), String> {
    let mut play = Play {
        ours: Nine::new(&scenario.buffers),
        session: scenario.session,
        buffers: scenario.buffers.clone(),
        machine: None,
    };
    let refused = scenario.opens && !play.open(tally)?;
    play.kept("before the list", MODEL, calls::kept_class(play.session), tally)?;
    if refused {
        return Ok(());
    }
    for (at, call) in scenario.calls.iter().enumerate() {
        play.step(call, tally).map_err(|text| format!("call {} of the list, {text}", at + 1))?;
    }
    if scenario.opens {
        play.laid(&scenario.session, &scenario.buffers, tally)?;
        play.rebuilt(tally)?;
        tally.add(LISTS, 0, true);
    }
    play.back_and_forth(scenario.opens, tally)
}

impl Play {
    /// Answers and buffers beside the model's.
    fn same(&self, call: &str, ours: Answer, expected: Answer) -> Result<(), String> {
        if !plant::asks(MODEL) {
            return Ok(());
        }
        if ours.number != expected.number {
            return Err(format!("{call}: number {}, expected {} ({MODEL})", ours.number, expected.number));
        }
        same_session(call, MODEL, &ours.session, &expected.session)?;
        self.ours.difference(&self.buffers).map_or(Ok(()), |text| Err(format!("{call}: {text} ({MODEL})")))
    }

    /// What the archive answered, with what is planted.
    fn planted(&mut self, call: &'static str, mut answer: Answer) -> Answer {
        if answer.number == 0 {
            self.ours.plant_gesture(call, answer.session.past as usize);
        }
        answer.number = plant::number(call, answer.number);
        answer.session.future ^= u32::from(plant::planted(call, Part::Value));
        plant::counts(call, &mut answer.session.kept);
        self.ours.plant(call);
        answer
    }

    /// Changes what is planted behind the list for a comparison.
    fn planted_behind(&mut self, judge: &str) {
        if plant::asks(judge) {
            self.session.future ^= u32::from(plant::planted(LIST, Part::Value));
            plant::counts(LIST, &mut self.session.kept);
            self.ours.plant(LIST);
        }
    }

    /// The kept class of the session as it stands, beside the one that is expected.
    fn kept(&self, place: &str, with: &str, expected: Class, tally: &mut Tally) -> Result<(), String> {
        let ours = kept::answered(KEPT_IN_LIST, self.session);
        kept::same(with, ours, expected).map_err(|text| format!("{place}: {text}"))?;
        tally.add("kept_class", ours.number, with == RUST);
        Ok(())
    }

    /// True where the open is accepted.
    fn open(&mut self, tally: &mut Tally) -> Result<bool, String> {
        let Session { shape, side, limits, time, .. } = self.session;
        let ours = match plant::program("open") {
            Some(_) => self.ours.lent_to(|b| wrong::by_24(b, |b| calls::open(shape, side, limits, time, b))),
            None => archive::open(shape, side, limits, time, &mut self.ours.lent()),
        };
        let ours = self.planted("open", ours);
        let expected = calls::open(shape, side, limits, time, &mut self.buffers);
        self.same("open", ours, expected)?;
        tally.add("open", ours.number, false);
        self.session = expected.session;
        if ours.number == 0 {
            self.machine = Some(Machine::open(depth(self.buffers.history.len()), shape, time));
        }
        Ok(ours.number == 0)
    }

    fn step(&mut self, call: &Call, tally: &mut Tally) -> Result<u32, String> {
        let session = self.session;
        let told = by_rust::told(call, &session, &self.buffers)?;
        let ours = match plant::program(name(call)) {
            Some(program) => self.ours.lent_to(|b| wrong::answered(program, call, session, b)),
            None => answered(call, session, &mut self.ours.lent())?,
        };
        let ours = self.planted(name(call), ours);
        let expected = call.run(session, &mut self.buffers);
        self.same(name(call), ours, expected)?;
        if let Some(machine) = &mut self.machine {
            let number = machine.step(call);
            if plant::asks(MACHINE) && ours.number != number {
                return Err(format!("{}: number {}, expected {number} ({MACHINE})", name(call), ours.number));
            }
        }
        self.session = expected.session;
        tally.add(name(call), ours.number, !matches!(told, ByRust::Nothing));
        self.kept(name(call), MODEL, calls::kept_class(self.session), tally)?;
        self.by_rust(name(call), &told, ours.number, tally)?;
        Ok(ours.number)
    }

    /// The call is accepted where the Rust accepts its payloads, and then the buffers are what the Rust makes of the entries kept.
    fn by_rust(&self, call: &str, told: &ByRust, number: u32, tally: &mut Tally) -> Result<(), String> {
        let field = match told {
            ByRust::Nothing => return Ok(()),
            ByRust::Refused => None,
            ByRust::Pooled(field) => Some(field),
        };
        if field.is_some() != (number == 0) {
            return Err(format!("{call}: number {number}, expected to be 0: {} ({RUST})", field.is_some()));
        }
        field.map_or(Ok(()), |field| self.remade(call, field, tally))
    }

    /// Sets, grid, planes, averages, map and kept class are what the Rust makes of a field.
    fn remade(&self, place: &str, field: &VectorField, tally: &mut Tally) -> Result<(), String> {
        let mut b = self.buffers.clone();
        let value = by_rust::rebuilt(&self.session, field, &mut b)?;
        if let Some(text) = self.ours.difference(&b) {
            return Err(format!("{place}: {text} ({RUST})"));
        }
        self.kept(place, RUST, Class { number: 0, value }, tally)
    }

    /// Session and buffers are the machine's layout, and the kept class is the class of its vectors.
    fn laid(&mut self, given: &Session, before: &Buffers, tally: &mut Tally) -> Result<(), String> {
        self.planted_behind(LAYOUT);
        let Some(machine) = self.machine.as_ref().filter(|_| plant::asks(LAYOUT)) else { return Ok(()) };
        let opened = Opened { shape: given.shape, side: given.side, limits: given.limits };
        let (session, buffers) = lay(&opened, machine, before);
        same_session("after the list", LAYOUT, &self.session, &session)?;
        if let Some(text) = self.ours.difference(&buffers) {
            return Err(format!("after the list: {text} ({LAYOUT})"));
        }
        let sets = Sets { backward: &buffers.backward, forward: &buffers.forward };
        let class = quality(&opened.shape, opened.side, &opened.limits, sets, &buffers.averages);
        self.kept("after the list", LAYOUT, class, tally)
    }

    /// Grid, planes, averages, map and kept class are what the Rust makes of both sets.
    fn rebuilt(&mut self, tally: &mut Tally) -> Result<(), String> {
        self.planted_behind(RUST);
        if !plant::asks(RUST) {
            return Ok(());
        }
        let field = rust::field(&self.session.shape, &self.buffers.backward, &self.buffers.forward);
        self.remade("after the list", &field, tally)
    }

    /// Undoes every past run, then does as many again: after an open no call is refused, no past step is left, and everything is as it was.
    fn back_and_forth(&mut self, opened: bool, tally: &mut Tally) -> Result<(), String> {
        let (session, before) = (self.session, self.buffers.clone());
        // Forged counts may be anything; there a call more meets an empty list, or what is refused.
        let past = (session.past as usize).min(depth(before.history.len()));
        let runs = past_runs(&before.history, past) + usize::from(!opened);
        for (call, left) in [(Call::Undo, 0), (Call::Redo, session.past)] {
            for at in 1..=runs {
                let number =
                    self.step(&call, tally).map_err(|text| format!("after the list, {} {at}: {text}", name(&call)))?;
                if opened && number != 0 {
                    return Err(format!("after the list, {} {at} of {runs}: number {number} ({AGAIN})", name(&call)));
                }
            }
            if opened && self.session.past != left {
                let past = self.session.past;
                return Err(format!(
                    "after {runs} of {}: value {past} past steps, expected {left} ({AGAIN})",
                    name(&call)
                ));
            }
        }
        self.planted_behind(AGAIN);
        if opened {
            same_session("after the list", AGAIN, &self.session, &session)?;
        }
        let text = if opened { self.ours.difference(&before) } else { None };
        text.map_or(Ok(()), |text| Err(format!("after the list: {text} ({AGAIN})")))
    }
}

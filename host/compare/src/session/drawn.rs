//! Lists after an open, accepted or not, and lists on forged sessions and buffers.

use draw::Draw;
use model::drawn::{self, Gestures, Mix, bad_shape, buffers, entry, lengths, limits, list, set, time};
use model::history::{DEEPEST, GESTURE, SLOT, Step, depth, future_run, past_run};
use model::scatter::grid;
use model::session::{Buffers, Session};
use model::shape::Shape;

use crate::session::scenario::Scenario;

pub fn scenario(draw: &mut Draw) -> Scenario {
    any(draw, &LISTS)
}

/// One pool to three, seldom with another call.
pub fn pools(draw: &mut Draw) -> Scenario {
    any(draw, &POOLS)
}

fn any(draw: &mut Draw, lists: &Lists) -> Scenario {
    match draw.between(0, 9) {
        0..=5 => opened(draw, lists),
        6 => {
            let mut scenario = opened(draw, lists);
            spoil(draw, &mut scenario);
            scenario
        }
        _ => forged(draw, lists),
    }
}

/// The mixtures of lists, and how long these are.
struct Lists {
    mixes: &'static [Mix],
    calls: (i32, i32),
}

const LISTS: Lists = Lists {
    mixes: &[
        Mix::EVEN,
        Mix { take: 0, pool: 0, put: 30, undo: 2, redo: 1, retime: 1, bad: 5 },
        Mix { take: 1, pool: 1, put: 20, undo: 20, redo: 20, retime: 0, bad: 5 },
        Mix { take: 5, pool: 5, put: 10, undo: 5, redo: 4, retime: 10, bad: 30 },
        Mix { take: 0, pool: 0, put: 10, undo: 4, redo: 4, retime: 0, bad: 0 },
    ],
    calls: (3, 60),
};

const POOLS: Lists = Lists {
    mixes: &[
        Mix { take: 0, pool: 1, put: 0, undo: 0, redo: 0, retime: 0, bad: 0 },
        Mix { take: 0, pool: 1, put: 0, undo: 0, redo: 0, retime: 0, bad: 80 },
        Mix { take: 1, pool: 6, put: 4, undo: 1, redo: 1, retime: 0, bad: 30 },
    ],
    calls: (1, 3),
};

fn shape(draw: &mut Draw) -> Shape {
    let most = if draw.once_in(40) { 18 } else { 4 };
    drawn::shape(draw, most)
}

/// Depths of 1 to 40, with and without surplus; seldom the deepest.
fn history(draw: &mut Draw) -> usize {
    if draw.once_in(4000) {
        return draw.pick(&[SLOT * DEEPEST - 1, SLOT * DEEPEST, SLOT * (DEEPEST + 1)]);
    }
    draw.pick(&[SLOT, 2 * SLOT - 1, 2 * SLOT, 3 * SLOT + 1, 5 * SLOT, 9 * SLOT - 4, 17 * SLOT + 5, 40 * SLOT])
}

/// A session of an accepted shape whose step counts and kept counts may be any.
pub fn any_session(draw: &mut Draw, shape: Shape) -> Session {
    let steps = draw.any_i32().cast_unsigned();
    Session {
        shape,
        side: draw.pick(&[1, 2]),
        limits: limits(draw),
        time: time(draw),
        past: steps % 7,
        future: steps / 7,
        kept: drawn::counts(draw, shape.blocks()),
    }
}

/// What stands in memory before an open counts for nothing, counts included.
fn opened(draw: &mut Draw, lists: &Lists) -> Scenario {
    let shape = shape(draw);
    let history = history(draw);
    let lengths = lengths(draw, &shape, history);
    let session = any_session(draw, shape);
    let count = draw.between(lists.calls.0, lists.calls.1) as usize;
    let mix = draw.pick(lists.mixes);
    Scenario { session, opens: true, buffers: buffers(draw, lengths), calls: list(draw, &shape, &mix, count) }
}

/// Anything may stand in the session and in its buffers.
fn forged(draw: &mut Draw, lists: &Lists) -> Scenario {
    let mut scenario = opened(draw, lists);
    let shape = scenario.session.shape;
    scenario.opens = false;
    scenario.calls.truncate(draw.between(1, 25) as usize);
    sets(draw, &scenario.session, &mut scenario.buffers);
    let history = &mut scenario.buffers.history;
    (scenario.session.past, scenario.session.future) = counts(draw, depth(history.len()) as i32);
    slots(draw, &shape, history);
    if draw.once_in(2) {
        spoil_slot(draw, &scenario.session, history);
    }
    if draw.once_in(6) {
        spoil(draw, &mut scenario);
    }
    scenario
}

/// Past and future steps: most within a depth, some at its ends or past them.
fn counts(draw: &mut Draw, depth: i32) -> (u32, u32) {
    let past = draw.between(0, depth);
    let future = draw.between(0, depth - past);
    let any = draw.any_i32();
    let within = (past, future);
    let all = [
        within,
        within,
        within,
        within,
        (depth, 0),
        (0, depth),
        (past, depth - past),
        (depth, 1),
        (past, any),
        (any, 1),
        (-1, -1),
    ];
    let (past, future) = draw.pick(&all);
    (past.cast_unsigned(), future.cast_unsigned())
}

/// Sets of drawn entries, now and then with the grid that is theirs; or garbage.
fn sets(draw: &mut Draw, session: &Session, b: &mut Buffers) {
    let shape = &session.shape;
    if draw.once_in(3) {
        return;
    }
    let (backward, forward) = (set(draw, shape), set(draw, shape));
    b.backward[..backward.len()].copy_from_slice(&backward);
    b.forward[..forward.len()].copy_from_slice(&forward);
    if draw.once_in(2) {
        let cells = grid(shape, session.time, b.set(session.side));
        b.grid[..cells.len()].copy_from_slice(&cells);
    }
}

/// Slots of steps with a good side and block; or any bytes, with a good side and block or not. Their gestures make runs.
fn slots(draw: &mut Draw, shape: &Shape, history: &mut [u8]) {
    let (mut gestures, given) = (Gestures::drawn(draw), draw.pick(&[GESTURE, GESTURE, GESTURE, GESTURE, 8, 8, 0]));
    for slot in history.chunks_exact_mut(SLOT) {
        let block = draw.between(0, shape.blocks() as i32 - 1).cast_unsigned();
        let (side, old, new) = (draw.pick(&[1, 2]), entry(draw, shape), entry(draw, shape));
        let step = Step { block, side, old, new, gesture: gestures.next(draw) }.bytes();
        slot[..given].copy_from_slice(&step[..given]);
        slot[GESTURE..].copy_from_slice(&step[GESTURE..]);
    }
}

/// One slot gets a bad side or block: at an end of past's run or of future's, just outside them, between, or anywhere.
fn spoil_slot(draw: &mut Draw, session: &Session, history: &mut [u8]) {
    let (n, depth) = (session.shape.blocks() as u32, depth(history.len()));
    let past = (session.past as usize).min(depth);
    let future = (session.future as usize).min(depth - past);
    let first = (past - past_run(history, past).len()) as i32;
    let (past, end) = (past as i32, (past + future_run(history, past, future).len()) as i32);
    let (between, any) = (draw.between(first, end), draw.between(0, depth as i32));
    let slot = draw.pick(&[first - 1, first, between, between, past - 1, past, end - 1, end, any]);
    let place = usize::try_from(slot).ok();
    let Some(bytes) = place.and_then(|slot| history.chunks_exact_mut(SLOT).nth(slot)) else { return };
    if draw.once_in(2) {
        bytes[..4].copy_from_slice(&draw.pick(&[n, n + 1, 1 << 16, u32::MAX]).to_le_bytes());
    } else {
        bytes[4..8].copy_from_slice(&draw.pick(&[0, 3, 257, u32::MAX]).to_le_bytes());
    }
}

/// A short buffer, a bad shape, a bad side or a bad time.
fn spoil(draw: &mut Draw, scenario: &mut Scenario) {
    if draw.once_in(4) {
        shorten(draw, scenario.session.shape, &mut scenario.buffers);
    } else {
        spoil_session(draw, &mut scenario.session);
    }
}

/// A bad shape, a bad side or a bad time.
pub fn spoil_session(draw: &mut Draw, session: &mut Session) {
    match draw.between(0, 2) {
        0 => session.shape = bad_shape(draw, &session.shape),
        1 => session.side = draw.pick(&[0, 3, 256, u32::MAX]),
        _ => session.time = draw.pick(&[65_536, -65_536, i32::MIN, i32::MAX]),
    }
}

/// One of the nine is one element short, or empty.
fn shorten(draw: &mut Draw, shape: Shape, b: &mut Buffers) {
    let which = draw.between(0, 8) as usize;
    let least = model::shape::sizes(&shape)[which];
    cut(b, which, draw.pick(&[least - 1, least - 1, 0]));
}

/// Leaves so many elements of one of the nine.
pub fn cut(b: &mut Buffers, which: usize, length: usize) {
    match which {
        0 => b.backward.truncate(length),
        1 => b.forward.truncate(length),
        2 => b.table.truncate(length),
        3 => b.grid.truncate(length),
        4 => b.xs.truncate(length),
        5 => b.ys.truncate(length),
        6 => b.averages.truncate(length),
        7 => b.map.truncate(length),
        _ => b.history.truncate(length),
    }
}

#[cfg(test)]
mod tests {
    use model::list::Call;
    use model::numbers::{counts_good, steps_good};

    use super::*;

    /// How often a drawn undo was of each kind.
    #[derive(Default, Debug)]
    struct Met {
        taken: u32,
        long: u32,
        bad_first: u32,
        bad_later: u32,
        bad_outside: u32,
    }

    #[test]
    fn drawn_runs_are_taken_and_refused_by_any_of_their_slots() {
        let (mut draw, mut met) = (Draw::new(75), Met::default());
        for _ in 0..20_000 {
            let Scenario { session, mut buffers, .. } = forged(&mut draw, &LISTS);
            let good = session.shape.accepted() && buffers.fit(&session.shape) && counts_good(&session, &buffers);
            if !good || session.past == 0 {
                continue;
            }
            let run = past_run(&buffers.history, session.past as usize);
            let outside =
                (session.past as usize).checked_sub(run.len() + 1).and_then(|at| Step::at(&buffers.history, at));
            let first_good = steps_good(&session.shape, &run[..1]);
            let number = Call::Undo.run(session, &mut buffers).number;
            met.taken += u32::from(number == 0 && run.len() > 1);
            met.long += u32::from(number == 0 && run.len() > 20);
            met.bad_first += u32::from(number == 11 && !first_good && run.len() > 1);
            met.bad_later += u32::from(number == 11 && first_good);
            let beside = outside.is_some_and(|step| !steps_good(&session.shape, &[step]));
            met.bad_outside += u32::from(number == 0 && beside);
        }
        let Met { taken, long, bad_first, bad_later, bad_outside } = met;
        assert!([taken, long, bad_first, bad_later, bad_outside].into_iter().all(|times| times > 100), "{met:?}");
    }
}

//! Simpler lists than one that differs.

use model::calls::Put;
use model::history::SLOT;
use model::list::Call;
use model::session::{Counts, Limits, Session};
use model::shape::Shape;

use crate::session::scenario::Scenario;
use crate::smaller::plainer_shapes;
use crate::tried::Change;

type Changes = Vec<Change<Scenario>>;

impl Scenario {
    /// Fewer calls, plainer buffers, plainer sessions, plainer arguments.
    pub fn smaller(&self) -> Changes {
        let mut out = Changes::new();
        self.fewer_calls(&mut out);
        self.plainer_buffers(&mut out);
        for plain in plainer_sessions(&self.session) {
            out.push(Box::new(move |list| list.session = plain));
        }
        for (at, call) in self.calls.iter().enumerate().take(12) {
            for plain in plainer_calls(call) {
                out.push(Box::new(move |list| list.calls[at] = plain.clone()));
            }
        }
        out
    }

    /// Without half of the calls, a quarter of them, and so on; the last ones first.
    fn fewer_calls(&self, out: &mut Changes) {
        let count = self.calls.len();
        let mut size = count;
        while size > 0 {
            for start in (0..count).step_by(size).rev() {
                out.push(Box::new(move |list| drop(list.calls.drain(start..(start + size).min(count)))));
            }
            size = if size > 1 { size.div_ceil(2) } else { 0 };
        }
    }

    fn plainer_buffers(&self, out: &mut Changes) {
        let b = &self.buffers;
        let garbage = |bytes: &[u8]| bytes.iter().any(|&byte| byte != 0);
        let mut when = |differs: bool, change: Change<Self>| {
            if differs {
                out.push(change);
            }
        };
        for length in [SLOT, b.history.len() / 2, b.history.len().saturating_sub(1)] {
            when(length < b.history.len(), Box::new(move |list| list.buffers.history.truncate(length)));
        }
        when(garbage(&b.backward), Box::new(|list| list.buffers.backward.fill(0)));
        when(garbage(&b.forward), Box::new(|list| list.buffers.forward.fill(0)));
        when(garbage(&b.table), Box::new(|list| list.buffers.table.fill(0)));
        when(b.grid.iter().any(|&cell| cell != 0), Box::new(|list| list.buffers.grid.fill(0)));
        when(b.xs.iter().any(|&cell| cell != 0), Box::new(|list| list.buffers.xs.fill(0)));
        when(b.ys.iter().any(|&cell| cell != 0), Box::new(|list| list.buffers.ys.fill(0)));
        when(garbage(&b.averages), Box::new(|list| list.buffers.averages.fill(0)));
        when(garbage(&b.map), Box::new(|list| list.buffers.map.fill(0)));
        when(garbage(&b.history), Box::new(|list| list.buffers.history.fill(0)));
    }
}

/// A session with plainer numbers, or with fewer blocks: sets that are then too long are surplus.
pub fn plainer_sessions(s: &Session) -> Vec<Session> {
    let mut all = vec![
        Session { limits: Limits::default(), ..*s },
        Session { time: 0, ..*s },
        Session { past: 0, future: 0, ..*s },
        Session { past: s.past / 2, ..*s },
        Session { future: s.future / 2, ..*s },
        Session { kept: Counts::default(), ..*s },
    ];
    for at in 0..4 {
        let mut kept = s.kept.fields();
        kept[at] /= 2;
        all.push(Session { kept: Counts::from_fields(kept), ..*s });
    }
    let mut shapes = plainer_shapes(&s.shape);
    for (grid_w, grid_h) in [(1, s.shape.grid_h), (s.shape.grid_w, 1)] {
        shapes.push(Shape { grid_w, grid_h, ..s.shape });
    }
    all.extend(shapes.into_iter().map(|shape| Session { shape, ..*s }));
    all.retain(|other| other != s);
    all
}

/// A call with one argument smaller.
fn plainer_calls(call: &Call) -> Vec<Call> {
    match call {
        Call::Put(put) => {
            let all = [
                Put { x: 0, ..*put },
                Put { y: 0, ..*put },
                Put { sad: 0, ..*put },
                Put { luma: 0, ..*put },
                Put { gesture: 0, ..*put },
                Put { x: put.x / 2, ..*put },
                Put { y: put.y / 2, ..*put },
                Put { sad: put.sad / 2, ..*put },
                Put { block: put.block / 2, ..*put },
            ];
            all.into_iter().filter(|other| other != put).map(Call::Put).collect()
        }
        Call::Retime(time) if *time != 0 => vec![Call::Retime(0), Call::Retime(time / 2)],
        Call::Take(payload) => plainer_payloads(payload).into_iter().map(Call::Take).collect(),
        Call::Pool { first, second } => plainer_pools(first, second),
        _ => Vec::new(),
    }
}

/// One of two payloads plainer, or both alike.
fn plainer_pools(first: &[u8], second: &[u8]) -> Vec<Call> {
    let (of_first, of_second) = (plainer_payloads(first), plainer_payloads(second));
    let both = of_first.iter().cloned().zip(of_second.iter().cloned());
    let pairs = both.chain(of_first.iter().map(|plain| (plain.clone(), second.to_vec())));
    let pairs = pairs.chain(of_second.iter().map(|plain| (first.to_vec(), plain.clone())));
    pairs.map(|(first, second)| Call::Pool { first, second }).collect()
}

/// A payload with its entries zero, or cut.
fn plainer_payloads(payload: &[u8]) -> Vec<Vec<u8>> {
    let mut out = Vec::new();
    for (start, end) in [(12, 64), (68, payload.len())] {
        if payload.get(start..end).is_some_and(|part| part.iter().any(|&byte| byte != 0)) {
            let mut other = payload.to_vec();
            other[start..end].fill(0);
            out.push(other);
        }
    }
    if !payload.is_empty() {
        out.push(payload[..payload.len() / 2].to_vec());
        out.push(payload[..payload.len() - 1].to_vec());
    }
    out
}

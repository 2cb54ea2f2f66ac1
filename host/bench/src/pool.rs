//! A pool beside a take: with both halves, and with neither, where nothing is copied and all is rebuilt the same.

use std::cell::RefCell;

use boundary::session::{self as archive, Lent, Owned};
use model::session::{Answer, Session};

use crate::clock::{Times, ratio, sampled, shown, used};
use crate::fields::{Field, SIZES, TIMES, another_set};
use crate::rust::Rust;
use crate::session::{DEPTHS, Open, Rebuild};

/// How many times as many samples are taken as elsewhere: what a call copies is a small part of its time.
const MORE: usize = 10;

const HEAD: &str = "\
## pool beside take

At pel 1 and T 128, all on one session's buffers. Which entry of the two payloads is kept cannot be foreseen: their sads are drawn, and equal at one block in 61. With neither flag bit set both calls copy
nothing and make all afresh, of the vectors that the call with both bits left: one rebuild alone. What a call takes longer with both bits set is its copying: the difference of the best times, and the median of the differences
between samples taken one after the other. Copying is a small part of a call's time, and there are ten times as many samples as elsewhere. What each call leaves on buffers of garbage is compared with
what the Rust makes of the entries that it is to keep.

| field | take, neither bit | pool, neither bit | pool / take, best / median | take, both bits | pool, both bits | pool / take, best / median | take's copying | pool's copying | pool's / take's, best / median |
|---|---|---|---|---|---|---|---|---|---|
";

pub fn table() -> Result<String, String> {
    let mut out = String::from(HEAD);
    for size in SIZES {
        let field = Field::new(size, 1);
        eprintln!("pool: {}", field.name);
        let samples = timed(&field)?;
        let copying = [0, 2].map(|both| Times::more(&samples[both], &samples[both + 1]));
        let [take, bare_take, pool, bare_pool] = samples.map(Times::of);
        let pairs = [[bare_take, bare_pool], [take, pool], copying];
        let cells =
            pairs.map(|[take, pool]| format!("{} | {} | {}", shown(take.best), shown(pool.best), ratio(pool, take)));
        out += &format!("| {} | {} |\n", field.name, cells.join(" | "));
    }
    Ok(out)
}

/// Of two sets the entries with the smaller sads, the first's where they are equal.
fn kept(first: &[u8], second: &[u8]) -> Vec<u8> {
    let sad = |entry: &[u8]| u32::from_le_bytes([entry[4], entry[5], entry[6], 0]);
    let pairs = first.chunks(8).zip(second.chunks(8));
    pairs.flat_map(|(one, other)| if sad(other) < sad(one) { other } else { one }).copied().collect()
}

/// Samples of take with both bits set and with neither, then of pool. All are on one session and its buffers: a call with neither bit set finds
/// the vectors that the one before it left.
fn timed(first: &Field) -> Result<[Vec<f64>; 4], String> {
    let second = first.with([another_set(&first.backward, first, 82), another_set(&first.forward, first, 83)]);
    let pooled = first.with([kept(&first.backward, &second.backward), kept(&first.forward, &second.forward)]);
    let head: Vec<u8> = [16, 160, 0].into_iter().flat_map(i32::to_le_bytes).collect();
    let calls = [
        Timed { call: take, flags: 3, payloads: [&first.payload, &[]], left: first },
        Timed { call: take, flags: 0, payloads: [&head, &[]], left: first },
        Timed { call: pool, flags: 3, payloads: [&first.payload, &second.payload], left: &pooled },
        Timed { call: pool, flags: 0, payloads: [&head, &head], left: &pooled },
    ];
    let mut open = Open::new(first, TIMES[0], DEPTHS[0])?;
    calls.iter().try_for_each(|call| call.agrees(&mut open))?;
    let open = RefCell::new(open);
    let [mut a, mut b, mut c, mut d] = calls.each_ref().map(|call| || used(call.run(&mut open.borrow_mut())));
    Ok(sampled([&mut a, &mut b, &mut c, &mut d], MORE))
}

fn take(session: Session, [payload, _]: [&[u8]; 2], lent: &mut Lent) -> Answer {
    archive::take(session, payload, lent)
}

fn pool(session: Session, [first, second]: [&[u8]; 2], lent: &mut Lent) -> Answer {
    archive::pool(session, first, second, lent)
}

/// A call, and the field whose vectors it leaves.
struct Timed<'a> {
    call: fn(Session, [&[u8]; 2], &mut Lent) -> Answer,
    flags: i32,
    payloads: [&'a [u8]; 2],
    left: &'a Field,
}

impl Timed<'_> {
    fn run(&self, open: &mut Open) -> u32 {
        open.session.shape.flags = self.flags;
        open.call(|session, lent| (self.call)(session, self.payloads, lent))
    }

    /// On buffers of garbage and a session that has steps the call must leave what the Rust makes, and no steps.
    fn agrees(&self, open: &mut Open) -> Result<(), String> {
        garbage(&mut open.own, self.flags == 3);
        (open.session.past, open.session.future) = (3, 2);
        let number = self.run(open);
        let emptied = open.session.past + open.session.future == 0 && open.own.history.iter().all(|byte| *byte == 0);
        let rebuilt = Rust::both(self.left).map(|rust| Rebuild::ran(rust, self.left, TIMES[0]));
        if number == 0 && emptied && rebuilt.iter().all(|rust| rust.same(open)) {
            return Ok(());
        }
        Err(format!("{}, flags {}: take or pool and the Rust differ; run compare", self.left.name, self.flags))
    }
}

/// Fills what a call makes afresh, and the sets where it renews them.
fn garbage(own: &mut Owned, sets: bool) {
    if sets {
        own.backward.fill(7);
        own.forward.fill(7);
    }
    own.grid.fill(7);
    own.xs.fill(7);
    own.ys.fill(7);
    own.averages.fill(7);
    own.map.fill(7);
    own.history.fill(7);
}

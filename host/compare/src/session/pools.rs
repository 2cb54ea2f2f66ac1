//! Pools on sessions and buffers that no call left so (paper 02, 3/14): sads that are equal or differ in one bit, payloads cut at every length and
//! changed at every checked place, both at once, what is judged before the payloads, and the largest grids.

use draw::Draw;
use model::drawn::{buffers, entry, lengths, pair, payload_of};
use model::entry::Entry;
use model::history::{SLOT, Step};
use model::list::Call;
use model::session::{Counts, Limits, Session};
use model::shape::{Shape, sizes};
use model::update::{BACKWARD, forward_place};

use crate::boundaries::{FLAGS, field_shape, shape_values, spoiled, usual};
use crate::session::check;
use crate::session::drawn::{self, cut};
use crate::session::scenario::Scenario;
use crate::tried::Kind;

pub const POOL: Kind<Scenario> = Kind {
    call: "pool",
    drawn: 300_000,
    boundaries: scenarios,
    draw: drawn::pools,
    check: check::check,
    smaller: Scenario::smaller,
};

fn scenarios(small: bool) -> Box<dyn Iterator<Item = Scenario>> {
    let all = kept().chain(carried()).chain(both_spoiled(small)).chain(one_spoiled(small));
    if small { Box::new(all) } else { Box::new(all.chain(large())) }
}

/// A pool where there are past and future steps, over buffers of drawn contents. The shape is an accepted one.
fn pooled(shape: Shape, side: u32, [first, second]: [Vec<u8>; 2]) -> Scenario {
    let mut draw = Draw::new(76);
    let lengths = lengths(&mut draw, &shape, 3 * SLOT + 1);
    let mut buffers = buffers(&mut draw, lengths);
    for (slot, gesture) in buffers.history.chunks_exact_mut(SLOT).zip([5, 6, 7]) {
        let (old, new) = (entry(&mut draw, &shape), entry(&mut draw, &shape));
        slot.copy_from_slice(&Step { block: 0, side: 1 + gesture % 2, old, new, gesture }.bytes());
    }
    let kept = Counts { counted: u32::MAX, scene: 0, m2: 4, m1: 1 };
    let session = Session { shape, side, limits: Limits::USUAL, time: 200, past: 2, future: 1, kept };
    Scenario { session, opens: false, buffers, calls: vec![Call::Pool { first, second }] }
}

/// Two payloads, and the same two in the other order.
fn both_orders([first, second]: [Vec<u8>; 2]) -> [[Vec<u8>; 2]; 2] {
    [[first.clone(), second.clone()], [second, first]]
}

// ---- what is kept

/// Pairs of sads: equal ones, those that differ in one bit, at each place, and neighbours about the ends of one byte, two and three.
fn sads() -> Vec<[i32; 2]> {
    let mut out = Vec::new();
    for all in [0, 0x55_5555, 0xAA_AAAA, 0xFF_FFFF] {
        out.push([all, all]);
        out.extend((0..24).map(|bit| [all, all ^ 1 << bit]));
    }
    for end in [0x80, 0x100, 0x8000, 0x1_0000, 0x80_0000] {
        out.extend([[end - 1, end], [end, end], [end, end + 1]]);
    }
    out.extend([[0, 0xFF_FFFF], [0x7F_FFFF, 0xFF_FFFF], [0x00_FFFF, 0xFF_0000], [0x00_00FF, 0x01_0000]]);
    out
}

/// A set of each payload: a block for each pair of sads, and lumas that would turn the order, or not. No two components are equal.
fn sets(sads: impl Iterator<Item = [i32; 2]>, lumas: [u8; 2]) -> [Vec<u8>; 2] {
    let [mut first, mut second] = [Vec::new(), Vec::new()];
    for (block, sads) in sads.enumerate() {
        let block = block as i16;
        first.extend(Entry { x: 300 + block, y: -block - 1, sad: sads[0], luma: lumas[0] }.bytes());
        second.extend(Entry { x: -20 - block, y: 600 - block, sad: sads[1], luma: lumas[1] }.bytes());
    }
    [first, second]
}

/// All pairs of sads in either order, with each order of lumas, at every pair of flag bits and either side. The forward sets have the pairs
/// the other way round, from the last to the first.
fn kept() -> impl Iterator<Item = Scenario> {
    let lumas = [[255, 0], [0, 255], [40, 40]];
    let all = FLAGS.into_iter().flat_map(move |flags| lumas.map(|lumas| (flags, lumas)));
    all.flat_map(|(flags, lumas)| {
        let (sads, mut draw) = (sads(), Draw::new(77));
        let shape = field_shape(flags, (sads.len() as i32, 1));
        let backward = sets(sads.iter().copied(), lumas);
        let forward = sets(sads.iter().rev().map(|&[a, b]| [b, a]), lumas);
        let [[a, b], [c, d]] = [backward, forward];
        let payloads = [[a, c], [b, d]].map(|sets| payload_of(&shape, draw.bytes(BACKWARD), sets));
        let orders = both_orders(payloads).into_iter();
        orders.flat_map(move |payloads| [1, 2].map(|side| pooled(shape, side, payloads.clone())))
    })
}

// ---- payloads cut and changed

/// Two whole payloads with three bytes behind each.
fn whole(shape: &Shape) -> [Vec<u8>; 2] {
    pair(&mut Draw::new(78), shape).map(|payload| [&payload[..], &[9, 9, 9]].concat())
}

/// One payload of every length, with every bit of its checked numbers changed, and with each ignored byte changed, as the first and as the second.
fn one_spoiled(small: bool) -> impl Iterator<Item = Scenario> {
    let grids = if small { &[(1, 1)][..] } else { &[(1, 1), (2, 1), (2, 3)] };
    let shapes = FLAGS.into_iter().flat_map(move |flags| grids.iter().map(move |&grid| field_shape(flags, grid)));
    shapes.enumerate().flat_map(|(turn, shape)| {
        let [one, other] = whole(&shape);
        let pairs = spoiled(&shape, &one).into_iter().flat_map(move |bad| both_orders([bad, other.clone()]));
        pairs.map(move |payloads| pooled(shape, 1 + turn as u32 % 2, payloads))
    })
}

/// Whole, cut about the end of each part, and with each byte of the checked numbers changed; where small, cut before the end and with one byte changed.
fn ways(shape: &Shape, whole: &[u8], small: bool) -> Vec<Vec<u8>> {
    let (forward, set) = (forward_place(shape), shape.set_size());
    let ends = [4, 8, 12, BACKWARD, BACKWARD + 4, forward, forward + 4, forward + 4 + set];
    let (about, bytes) = if small { (&[-1][..], 2..3) } else { (&[-1, 0, 1][..], 0..4) };
    let mut out = vec![whole.to_vec(), Vec::new()];
    out.extend(ends.iter().flat_map(|end| about.iter().map(|by| whole[..end.saturating_add_signed(*by)].to_vec())));
    for checked in [0, 4, 8, BACKWARD, forward] {
        for byte in bytes.clone() {
            let mut changed = whole.to_vec();
            changed[checked + byte] ^= 1;
            out.push(changed);
        }
    }
    out
}

/// Every pair of what may be wrong with the one and with the other.
fn both_spoiled(small: bool) -> impl Iterator<Item = Scenario> {
    FLAGS.into_iter().enumerate().flat_map(move |(turn, flags)| {
        let shape = field_shape(flags, (2, 1));
        let [first, second] = whole(&shape).map(|whole| ways(&shape, &whole, small));
        let pairs = first.into_iter().flat_map(move |a| second.clone().into_iter().map(move |b| [a.clone(), b]));
        pairs.map(move |payloads| pooled(shape, 1 + turn as u32 % 2, payloads))
    })
}

// ---- what is judged before them

/// What a session carries about its limits, each buffer one element short, and every mixture of what is refused.
fn carried() -> impl Iterator<Item = Scenario> {
    let fields = shape_values().into_iter().flat_map(|(field, values)| values.map(|value| of_field(field, value)));
    let sides = [0, 1, 3, 256, 257, u32::MAX].map(|side| usual_but(|scenario| scenario.session.side = side));
    let times = [65_535, 65_536, -65_535, -65_536, i32::MIN, i32::MAX];
    let times = times.map(|time| usual_but(|scenario| scenario.session.time = time));
    let steps = [(0, 0), (3, 0), (0, 3), (4, 0), (2, 2), (u32::MAX, 1), (u32::MAX, u32::MAX)];
    let steps = steps.map(|steps| usual_but(|Scenario { session, .. }| (session.past, session.future) = steps));
    let short = (0..9).map(|which| usual_but(|scenario| cut(&mut scenario.buffers, which, sizes(&usual())[which] - 1)));
    fields.chain(sides).chain(times).chain(steps).chain(short).chain((0..64).map(mixture))
}

/// A pool of whole payloads with one thing changed.
fn usual_but(change: impl FnOnce(&mut Scenario)) -> Scenario {
    let mut scenario = pooled(usual(), 2, pair(&mut Draw::new(79), &usual()));
    change(&mut scenario);
    scenario
}

/// A shape with another value for a field; where it is refused, payloads and buffers are those of the usual one.
fn of_field(field: usize, value: i32) -> Scenario {
    let mut fields = usual().fields();
    fields[field] = value;
    let shape = Shape::from_fields(fields);
    let accepted = if shape.accepted() { shape } else { usual() };
    let mut scenario = pooled(accepted, 1, pair(&mut Draw::new(79), &accepted));
    scenario.session.shape = shape;
    scenario
}

/// Bits 0 to 5 of a mixture: a bad shape, a short buffer, a bad side, a bad time, a first and a second payload that is cut.
fn mixture(bits: usize) -> Scenario {
    let bad = |at: usize| bits >> at & 1 == 1;
    let mut payloads = pair(&mut Draw::new(79), &usual());
    for (payload, at) in payloads.iter_mut().zip([4, 5]).filter(|(_, at)| bad(*at)) {
        payload.truncate(payload.len() - 1 - 60 * (at - 4));
    }
    let mut scenario = pooled(usual(), 2, payloads);
    if bad(0) {
        scenario.session.shape.pel = 0;
    }
    if bad(1) {
        scenario.buffers.averages.clear();
    }
    if bad(2) {
        scenario.session.side = 3;
    }
    if bad(3) {
        scenario.session.time = -65_536;
    }
    scenario
}

// ---- the largest grids

/// Whole, and without the last byte of either payload.
fn large() -> impl Iterator<Item = Scenario> {
    [(1024, 1), (1, 1024), (1024, 1024)].into_iter().flat_map(|grid| {
        let shape = field_shape(3, grid);
        [[0, 0], [0, 1], [1, 0]].into_iter().map(move |cut| {
            let mut payloads = pair(&mut Draw::new(80), &shape);
            for (payload, cut) in payloads.iter_mut().zip(cut) {
                payload.truncate(payload.len() - cut);
            }
            pooled(shape, 1 + cut[0] as u32, payloads)
        })
    })
}

#[cfg(test)]
mod tests {
    use std::cmp::Ordering;
    use std::collections::BTreeSet;

    use model::numbers;
    use model::update::payload_number;

    use super::*;

    fn payloads(scenario: &Scenario) -> [&[u8]; 2] {
        match &scenario.calls[..] {
            [Call::Pool { first, second }] => [first, second],
            other => panic!("{other:?}"),
        }
    }

    #[test]
    fn every_number_of_either_payload_is_met_alone_and_beside_every_other() {
        let mut met = BTreeSet::new();
        for scenario in scenarios(true) {
            let (shape, payloads) = (scenario.session.shape, payloads(&scenario));
            if !matches!(numbers::pool(&scenario.session, payloads[0], payloads[1], &scenario.buffers), 2 | 3 | 7 | 8) {
                met.insert((shape.flags, payloads.map(|payload| payload_number(&shape, payload))));
            }
        }
        for flags in FLAGS {
            let asked = |number: &u32| matches!((number, flags & 3), (0 | 4, _) | (5, 1 | 3) | (6, 2 | 3));
            let numbers: Vec<u32> = [0, 4, 5, 6].into_iter().filter(asked).collect();
            let pairs = numbers.iter().flat_map(|&first| numbers.iter().map(move |&second| (flags, [first, second])));
            let expected: BTreeSet<_> = pairs.collect();
            assert_eq!(met.iter().copied().filter(|(of, _)| *of == flags).collect::<BTreeSet<_>>(), expected);
        }
    }

    #[test]
    fn what_is_judged_before_the_payloads_is_met() {
        let number = |scenario: Scenario| {
            let [first, second] = payloads(&scenario);
            numbers::pool(&scenario.session, first, second, &scenario.buffers)
        };
        assert_eq!(carried().map(number).collect::<BTreeSet<_>>(), BTreeSet::from([0, 2, 3, 5, 6, 7, 8]));
    }

    #[test]
    fn every_bit_of_a_sad_decides_in_either_order_whatever_the_lumas() {
        let mut met = BTreeSet::new();
        for scenario in kept() {
            let ([first, second], shape) = (payloads(&scenario), scenario.session.shape);
            for block in 0..shape.blocks() {
                let [a, b] = [first, second].map(|payload| Entry::at(&payload[BACKWARD + 4..], block));
                assert!(a.x != b.x && a.y != b.y);
                let (bits, sads, lumas) = (a.sad ^ b.sad, a.sad.cmp(&b.sad), a.luma.cmp(&b.luma));
                if bits.count_ones() < 2 {
                    met.insert((shape.flags, scenario.session.side, bits, sads, lumas));
                }
            }
        }
        let lumas = [Ordering::Less, Ordering::Equal, Ordering::Greater];
        for bit in (0..24).map(|bit| 1 << bit) {
            for (order, luma) in [Ordering::Less, Ordering::Greater].into_iter().flat_map(|o| lumas.map(|l| (o, l))) {
                assert!(met.contains(&(3, 1, bit, order, luma)) && met.contains(&(-1, 2, bit, order, luma)));
            }
        }
        assert!(lumas.into_iter().all(|luma| met.contains(&(3, 1, 0, Ordering::Equal, luma))));
    }
}

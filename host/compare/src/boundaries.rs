//! Inputs at the limits of paper 01: times, steps and pels about the fast row's condition, limits at their ends, every refusal, large grids.

use draw::Draw;
use model::drawn::{GATHERINGS, MOVES, payload, set, time};
use model::entry::Entry;
use model::session::Limits;
use model::shape::{Axis, Shape};
use model::update::forward_place;

use crate::field::{BAD_SCALES, Field};

const TIMES: [i32; 12] = [0, 1, -1, 128, 255, 256, -256, 257, -257, 65_535, -65_535, 65_534];
const PELS: [i32; 7] = [1, 2, 3, 4, 32, 63, 64];

/// Block side and overlap: steps 128, 129, 128, 129, 1, 256, 8, 1, 1, 3, 127.
const BLOCKS: [(i32, i32); 11] =
    [(128, 0), (129, 0), (256, 128), (256, 127), (256, 255), (256, 0), (8, 0), (1, 0), (128, 127), (4, 1), (127, 0)];

/// Pairs of them, across and down.
const PAIRS: usize = BLOCKS.len() * BLOCKS.len();

const VECTORS: [i16; 11] = [-32_768, 32_767, -1, 1, 0, -300, 300, 1023, -1023, 1024, -1024];

const COVERS: [i32; 4] = [100, 0, 1000, 37];

pub const FLAGS: [i32; 12] = [0, 1, 2, 3, 7, -1, -2, -3, -4, i32::MIN, i32::MAX, i32::MIN + 3];

/// An axis whose blocks leave `rest` of the picture uncovered.
fn axis((block, overlap): (i32, i32), grid: i32, rest: i32) -> Axis {
    Axis::covering(block, overlap, grid, rest)
}

/// A shape like any other.
pub fn usual() -> Shape {
    Shape::of_axes(axis((8, 2), 3, 1), axis((4, 0), 2, 0), 1)
}

/// For every call over two sets.
pub fn fields(small: bool) -> Box<dyn Iterator<Item = Field>> {
    let refused = refusals().into_iter().chain(ends());
    let all = refused.chain(scattered(small)).chain(leaving());
    if small { Box::new(all) } else { Box::new(all.chain(stepped()).chain(gathered()).chain(large())) }
}

// ---- refusals

/// Each condition alone, at the limit and one step past it, and pairs of conditions.
fn refusals() -> Vec<Field> {
    let usual = Field::filled(&mut Draw::new(41), usual());
    let mut out = Vec::new();
    for (field, values) in shape_values() {
        for value in values {
            let mut fields = usual.shape.fields();
            fields[field] = value;
            out.push(Field::filled(&mut Draw::new(42), Shape::from_fields(fields)));
        }
    }
    for side in [0, 1, 2, 3, 256, 257, u32::MAX] {
        out.push(Field { side, ..usual.clone() });
    }
    for buffer in 0..9 {
        for extra in [-1, -2, -1_000_000, 1, 500] {
            for side in [1, 0] {
                let mut field = Field { side, ..usual.clone() };
                field.extra[buffer] = extra;
                out.push(field);
            }
        }
    }
    out
}

/// Each judged field of a shape with values about its ends; blocks are 8 by 4.
pub fn shape_values() -> [(usize, [i32; 8]); 9] {
    let ends = |least: i32, most: i32| [least - 1, least, least + 1, most - 1, most, most + 1, i32::MIN, i32::MAX];
    [
        (1, ends(3, 256)),
        (2, ends(1, 256)),
        (3, ends(1, 64)),
        (4, ends(1, 65_535)),
        (5, ends(1, 65_535)),
        (6, ends(0, 7)),
        (7, ends(0, 3)),
        (8, ends(1, 1024)),
        (9, ends(1, 1024)),
    ]
}

/// Times, covers, scales and limits at their ends and one step past.
fn ends() -> Vec<Field> {
    let usual = Field::filled(&mut Draw::new(43), usual());
    let mut out = Vec::new();
    for time in [65_535, 65_536, -65_535, -65_536, i32::MIN, i32::MAX] {
        out.push(Field { time, ..usual.clone() });
        out.push(Field { time, side: 3, ..usual.clone() });
    }
    for cover in [-1, 0, 1, 999, 1000, 1001, i32::MIN, i32::MAX] {
        out.push(Field { cover, ..usual.clone() });
    }
    for scale in [0.0, -0.0, 5e-324, f64::MIN_POSITIVE, 1.0, 65_535.999_999, 65_536.0].into_iter().chain(BAD_SCALES) {
        out.push(Field { sad_scale: scale, ..usual.clone() });
    }
    let values = [i32::MIN, i32::MIN + 1, -1, 0, 1, 200, i32::MAX - 1, i32::MAX];
    for limit in 0..5 {
        for value in values {
            for other in values {
                let mut limits = [other, 200, 1600, 2800, 4000];
                limits[limit] = value;
                out.push(Field { limits: Limits::from_fields(limits), side: 2, ..usual.clone() });
            }
        }
    }
    out
}

// ---- the scatter's conditions

/// Every time with every pel at every pair of blocks. At each time and pel, and at each pair of blocks, the shown side has every pair
/// of vector components, and every side, rest, selector and cover is met, as the tests below show; where small, a seventh of it.
fn scattered(small: bool) -> impl Iterator<Item = Field> {
    let step = if small { 7 } else { 1 };
    (0..TIMES.len() * PELS.len() * PAIRS).step_by(step).map(scattered_at)
}

/// The turn's digits are the time, the pel, and the blocks down and across. Vectors and choices hang on sums of them.
fn scattered_at(turn: usize) -> Field {
    let (moment, pair) = (turn / PAIRS, turn % PAIRS);
    let (x, y) = (pair % BLOCKS.len(), pair / BLOCKS.len());
    let (time, pel) = (TIMES[moment / PELS.len()], PELS[moment % PELS.len()]);
    let choice = moment + pair;
    let bit = |place: usize| (choice >> place & 1) as i32;
    let shape = Shape::of_axes(axis(BLOCKS[x], 3, bit(1)), axis(BLOCKS[y], 2, bit(2)), pel);
    let mut field = Field::filled(&mut Draw::new(turn as u64), Shape { selector: bit(3), ..shape });
    for (block, entry) in field.backward.iter_mut().chain(&mut field.forward).enumerate() {
        if block % 3 != 0 {
            entry.x = VECTORS[(block + x + y + moment + moment / VECTORS.len()) % VECTORS.len()];
            entry.y = VECTORS[(block + 2 * x + y + 2 * moment) % VECTORS.len()];
        }
    }
    field.side = if bit(0) == 0 { 1 } else { 2 };
    Field { time, cover: COVERS[choice / 16 % COVERS.len()], ..field }
}

/// Every step across and every step down: each of the fast row's has a reciprocal of its own.
fn stepped() -> impl Iterator<Item = Field> {
    (1..=256).flat_map(|across| {
        // Both at most 128, or neither.
        let down = if across <= 128 { 129 - across } else { 385 - across };
        (0..9).flat_map(move |turn| [256, 257].map(|time| stepped_at([across, down], turn, time)))
    })
}

/// At T 256 each block goes to the middle one's place, or to a pixel before or behind it on either axis: in nine turns to each of the nine. Blocks
/// overlap where they can, because without it a block that goes a multiple of its step gives the same cells by a quotient that is one less.
fn stepped_at([across, down]: [i32; 2], turn: i32, time: i32) -> Field {
    let of_step = |step: i32, grid| {
        let block = 256.min(step + 1);
        axis((block, block - step), grid, 0)
    };
    let mut field = Field::still(Shape::of_axes(of_step(across, 5), of_step(down, 3), 1));
    for (block, entry) in (0..).zip(&mut field.backward) {
        let (column, row) = (block % 5, block / 5);
        entry.x = (across * (2 - column) + (turn + block) % 3 - 1) as i16;
        entry.y = (down * (1 - row) + (turn / 3 + column) % 3 - 1) as i16;
    }
    Field { time, ..field }
}

/// One block or four that leave their places on every side, by less than a step, by one and by more.
fn leaving() -> impl Iterator<Item = Field> {
    let moves = || [-1024, -1023].into_iter().chain(MOVES).chain([1023, 1024]).enumerate();
    moves().flat_map(move |(turn, x)| {
        moves().map(move |(row, y)| {
            let grid = 1 + (turn + row) as i32 % 2;
            let axis = axis((8, (turn % 3) as i32), grid, row as i32 % 3 - 1);
            let mut field = Field::still(Shape { selector: (turn % 2) as i32, ..Shape::of_axes(axis, axis, 1) });
            let sads = [0, 1, 8, 16, 0xFF_FFFF, 8_421_504, 8_421_505];
            field.backward.fill(Entry { x, y, sad: sads[turn % 7], luma: row as u8 });
            field.forward.fill(Entry { x: y, y: x, sad: sads[row % 7], luma: 255 });
            field.side = 1 + row as u32 % 2;
            Field { time: if turn % 2 == 0 { 256 } else { 257 }, ..field }
        })
    })
}

/// Blocks that all move to one cell, which then wraps.
fn gathered() -> impl Iterator<Item = Field> {
    GATHERINGS.into_iter().flat_map(|gathering| {
        let mut field = Field::still(gathering.shape());
        let (step, (x, y)) = (i32::from(gathering.step), gathering.first());
        for (block, entry) in field.backward.iter_mut().enumerate() {
            let (column, row) = (block as i32 % gathering.grid_w, block as i32 / gathering.grid_w);
            entry.x = (i32::from(x) - step * column) as i16;
            entry.y = (i32::from(y) - step * row) as i16;
        }
        field.forward.clone_from(&field.backward);
        [1, 50, 1000].map(|cover| Field { cover, ..field.clone() })
    })
}

/// The largest grids, long rows and long columns, at both sides.
fn large() -> impl Iterator<Item = Field> {
    let grids =
        [(1024, 1024), (1024, 1024), (1024, 1), (1, 1024), (1023, 2), (2, 1023), (240, 135), (120, 68), (17, 33)];
    grids.into_iter().enumerate().map(|(turn, (grid_w, grid_h))| {
        let mut draw = Draw::new(60 + turn as u64);
        let blocks = [(8, 0), (16, 4), (64, 1), (63, 0), (1, 0), (2, 1), (8, 0), (16, 8), (200, 3)];
        let rest = draw.between(0, 1);
        let shape = Shape::of_axes(axis(blocks[turn], grid_w, rest), axis(blocks[(turn + 3) % 9], grid_h, 1 - rest), 1);
        let pel = draw.pick(&[1, 3, 4]);
        let mut field = Field::filled(&mut draw, Shape { pel, ..shape });
        field.side = 1 + turn as u32 % 2;
        field.time = [256, 257, -200, time(&mut draw)][turn % 4];
        field
    })
}

// ---- payloads

/// For `update`: payloads of every length and with every bit of their checked numbers changed; then the shared refusals.
pub fn payloads(small: bool) -> Box<dyn Iterator<Item = Field>> {
    let grids = [(1, 1), (2, 1), (2, 3)];
    let damaged = FLAGS.into_iter().flat_map(move |flags| {
        let grids = if small { &grids[..1] } else { &grids[..] };
        grids.iter().flat_map(move |&grid| damaged(flags, grid)).collect::<Vec<_>>()
    });
    let wide = [(1024, 1), (1, 1024), (1024, 1024)].into_iter().flat_map(whole_and_cut);
    let refused = refusals().into_iter().map(|mut field| {
        field.payload = if field.shape.accepted() {
            payload(&mut Draw::new(44), &field.shape)
        } else {
            vec![16, 0, 0, 0, 160, 0, 0, 0, 3, 0, 0, 0]
        };
        field
    });
    if small { Box::new(refused.chain(damaged)) } else { Box::new(refused.chain(damaged).chain(wide)) }
}

pub fn field_shape(flags: i32, (grid_w, grid_h): (i32, i32)) -> Shape {
    Shape { flags, ..Shape::of_axes(axis((8, 0), grid_w, 0), axis((8, 0), grid_h, 0), 1) }
}

fn damaged(flags: i32, grid: (i32, i32)) -> Vec<Field> {
    let shape = field_shape(flags, grid);
    let mut draw = Draw::new(45);
    let base = Field::filled(&mut draw, shape);
    let mut whole = payload(&mut draw, &shape);
    whole.extend([9, 9, 9]);
    spoiled(&shape, &whole).into_iter().map(|payload| Field { payload, ..base.clone() }).collect()
}

/// A payload of every length, with every bit of its checked numbers changed, and with each ignored byte before its halves changed.
pub fn spoiled(shape: &Shape, whole: &[u8]) -> Vec<Vec<u8>> {
    let mut out: Vec<Vec<u8>> = (0..=whole.len()).map(|end| whole[..end].to_vec()).collect();
    for checked in [0, 4, 8, 64, forward_place(shape)] {
        for bit in 0..32 {
            let mut changed = whole.to_vec();
            changed[checked + bit / 8] ^= 1 << (bit % 8);
            out.push(changed);
        }
    }
    for ignored in 12..64 {
        let mut changed = whole.to_vec();
        changed[ignored] ^= 0xFF;
        out.push(changed);
    }
    out
}

fn whole_and_cut(grid: (i32, i32)) -> impl Iterator<Item = Field> {
    let shape = field_shape(3, grid);
    let mut draw = Draw::new(46);
    let mut base = Field::still(shape);
    base.backward.fill(Entry { x: 1, y: 2, sad: 3, luma: 4 });
    let mut whole = payload(&mut draw, &shape);
    let one_set = set(&mut draw, &field_shape(3, (4, 4)));
    let at = forward_place(&shape) + 4;
    whole[at..at + 8 * 16.min(shape.blocks())].copy_from_slice(&one_set[..8 * 16.min(shape.blocks())]);
    let ends = [whole.len(), whole.len() - 1, at, at - 1, at - 4, at - 5, 68];
    ends.into_iter().map(move |end| Field { payload: whole[..end].to_vec(), ..base.clone() })
}

#[cfg(test)]
mod tests {
    use std::collections::{BTreeMap, BTreeSet};

    use super::*;

    /// Time and pel; block and overlap, across and down.
    fn digits(field: &Field) -> ([i32; 2], [(i32, i32); 2]) {
        let s = &field.shape;
        ([field.time, s.pel], [(s.block_w, s.overlap_x), (s.block_h, s.overlap_y)])
    }

    #[test]
    fn every_time_pel_and_pair_of_blocks_meets_every_side_rest_selector_and_cover() {
        let (mut all, mut at_times, mut at_blocks) = (BTreeSet::new(), BTreeSet::new(), BTreeSet::new());
        for field in scattered(false) {
            let (times, blocks) = digits(&field);
            let s = &field.shape;
            let rests = (s.packed_width() as i32 - s.grid_w, s.packed_height() as i32 - s.grid_h);
            let chosen = (field.side, rests, s.selector, field.cover);
            all.insert((times, blocks));
            at_times.insert((times, chosen));
            at_blocks.insert((blocks, chosen));
        }
        assert_eq!(all.len(), 12 * 7 * 121);
        assert_eq!((at_times.len(), at_blocks.len()), (12 * 7 * 64, 121 * 64));
    }

    /// Each axis of a field, with the places of its blocks and their components on it.
    fn axes(field: &Field) -> [(Axis, Vec<(i32, i32)>); 2] {
        let shown = || (0..).zip(field.set(field.side)).map(|(block, entry)| (block % 5, block / 5, entry));
        let across = shown().map(|(column, _, entry)| (column, i32::from(entry.x))).collect();
        let down = shown().map(|(_, row, entry)| (row, i32::from(entry.y))).collect();
        [(field.shape.x(), across), (field.shape.y(), down)]
    }

    #[test]
    fn every_step_is_met_on_either_axis_with_moves_about_its_multiples() {
        let mut met = [(); 2].map(|()| BTreeSet::new());
        for field in stepped() {
            let [x, y] = [field.shape.x(), field.shape.y()];
            assert!(field.shape.accepted() && (x.step() <= 128) == (y.step() <= 128));
            for (met, (axis, moves)) in met.iter_mut().zip(axes(&field)) {
                met.extend(moves.into_iter().map(|(_, moved)| (field.time, axis.step(), moved)));
            }
        }
        // Three moves about each of five multiples across and of three down; at steps 1 and 2 some are the same.
        assert_eq!(met.map(|met| met.len()), [2 * (254 * 15 + 7 + 11), 2 * (254 * 9 + 5 + 7)]);
    }

    /// What blocks give to the cells of an axis by some quotient of a move, zeros left out.
    fn given(axis: Axis, moves: &[(i32, i32)], quotient: impl Fn(i32) -> i32) -> BTreeMap<i32, i32> {
        let mut cells = BTreeMap::new();
        for &(place, moved) in moves {
            let q = quotient(moved);
            let near = axis.step() * (q + 1) - moved;
            *cells.entry(place + q).or_default() += near;
            *cells.entry(place + q + 1).or_default() += axis.block - near;
        }
        cells.retain(|_, sum| *sum != 0);
        cells
    }

    #[test]
    fn a_reciprocal_of_one_less_shows_at_every_step_of_the_fast_row() {
        for (axis, moves) in stepped().filter(|field| field.time == 256).flat_map(|field| axes(&field)) {
            let step = axis.step();
            let (bias, less) = (8_388_480_u64.div_ceil(step as u64) as i32, u64::from(u32::MAX) / step as u64);
            let short = |moved: i32| (((moved + bias * step) as u64 * less) >> 32) as i32 - bias;
            let right = given(axis, &moves, |moved| moved.div_euclid(step));
            assert!(step > 128 || right != given(axis, &moves, short), "step {step}");
        }
    }

    #[test]
    fn every_time_pel_and_pair_of_blocks_meets_every_vector_of_the_shown_side() {
        let [mut across, mut down] = [(); 2].map(|()| BTreeSet::new());
        let (mut at_times, mut at_blocks) = (BTreeSet::new(), BTreeSet::new());
        for field in scattered(false) {
            let (times, blocks) = digits(&field);
            let shown = field.set(field.side).iter().map(|entry| (entry.x, entry.y));
            for vector in shown.filter(|(x, y)| VECTORS.contains(x) && VECTORS.contains(y)) {
                across.insert((times, blocks[0], vector.0));
                down.insert((times, blocks[1], vector.1));
                at_times.insert((times, vector));
                at_blocks.insert((blocks, vector));
            }
        }
        assert_eq!((across.len(), down.len()), (12 * 7 * 11 * 11, 12 * 7 * 11 * 11));
        assert_eq!((at_times.len(), at_blocks.len()), (12 * 7 * 121, 121 * 121));
    }
}

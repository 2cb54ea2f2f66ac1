//! The pictures of a session: grey masks and averages, the map in five colours, vectors as lines from their blocks' centres.

use crate::canvas::{Canvas, Colour};
use crate::png::{Samples, encode};
use crate::step::steps;
use yoltzimur::constants::MAP_BELOW_ZERO;
use yoltzimur::{BlockVector, FieldShape, Session, Side};

/// The most pixels of a picture's side.
const MOST: usize = 4096;
/// The most blocks that a line reaches; a longer vector ends in a white dot there.
const REACH: f64 = 12.0;
const WHITE: Colour = [255, 255, 255];

/// A picture's file and its size.
pub struct Picture {
    pub bytes: Vec<u8>,
    pub width: usize,
    pub height: usize,
}

/// Pixels to a block: as many as are asked for where the picture stays within its limit.
fn pixels(wanted: usize, columns: usize, rows: usize) -> usize {
    wanted.min(MOST / columns.max(rows).max(1)).max(1)
}

fn grid(shape: FieldShape) -> (usize, usize) {
    (shape.grid_w.max(0) as usize, shape.grid_h.max(0) as usize)
}

/// One byte a cell as a grey square.
fn grey(bytes: &[u8], columns: usize, rows: usize, wanted: usize) -> Picture {
    let each = pixels(wanted, columns, rows);
    let (width, height) = (columns * each, rows * each);
    let mut samples = Vec::with_capacity(width * height);
    for row in bytes.chunks(columns.max(1)) {
        let line: Vec<u8> = row.iter().flat_map(|byte| std::iter::repeat_n(*byte, each)).collect();
        for _ in 0..each {
            samples.extend(&line);
        }
    }
    Picture { bytes: encode(width, height, Samples::Grey, &samples), width, height }
}

/// A mask of the session.
pub fn mask(session: &Session, bytes: &[u8], wanted: usize) -> Picture {
    let (columns, rows) = session.mask_size();
    grey(bytes, columns, rows, wanted)
}

/// The average luma of each block.
pub fn averages(session: &Session, wanted: usize) -> Picture {
    let (columns, rows) = grid(session.shape());
    grey(session.averages(), columns, rows, wanted)
}

/// The map: blue below the zero limit, then green, yellow and orange under m1, m2 and scene, and red.
pub fn map(session: &Session, wanted: usize) -> Picture {
    let (columns, rows) = grid(session.shape());
    let each = pixels(wanted, columns, rows);
    let gap = usize::from(each >= 8);
    let mut canvas = Canvas::new(columns * each, rows * each);
    for (block, byte) in session.map().iter().enumerate() {
        let colour = match *byte {
            MAP_BELOW_ZERO => [38, 70, 110],
            0 => [72, 160, 96],
            1 => [228, 196, 76],
            2 => [232, 130, 52],
            _ => [206, 50, 56],
        };
        let (left, top) = (block % columns * each, block / columns * each);
        canvas.fill(left, top, each - gap, each - gap, colour);
    }
    Picture { bytes: canvas.png(), width: columns * each, height: rows * each }
}

/// The vectors of a side over the dimmed averages; blocks that the steps to undo gave another entry have a white edge.
pub fn vectors(session: &Session, side: Side, wanted: usize) -> Picture {
    let (columns, rows) = grid(session.shape());
    let each = pixels(wanted, columns, rows);
    let mut canvas = Canvas::new(columns * each, rows * each);
    let corner = |block: usize| (block % columns * each, block / columns * each);
    for (block, average) in session.averages().iter().enumerate() {
        let (left, top) = corner(block);
        let dim = average / 4 + u8::from((block % columns + block / columns) % 2 == 1) * 4;
        canvas.fill(left, top, each, each, [dim, dim, dim + dim / 8]);
    }
    for step in steps(session).take(session.past() as usize).filter(|step| step.side == side) {
        let (left, top) = corner(step.block as usize);
        canvas.outline(left, top, each, each, WHITE);
    }
    let half = each as f64 / 2.0;
    let drawn: Vec<Arrow> = (0..columns * rows)
        .filter_map(|block| {
            let (left, top) = corner(block);
            let entry = BlockVector::read(session.set(side), block)?;
            Some(arrow(session.shape(), entry, (left as f64 + half, top as f64 + half), each as f64))
        })
        .collect();
    // Lines first, so that each centre is seen, and each cut end over both.
    drawn.iter().for_each(|arrow| canvas.line(arrow.centre, arrow.tip, arrow.colour));
    drawn.iter().for_each(|arrow| canvas.dot(arrow.centre, each as f64 / 12.0 + 0.6, arrow.colour));
    drawn.iter().filter(|arrow| arrow.cut).for_each(|arrow| canvas.dot(arrow.tip, each as f64 / 8.0 + 0.6, WHITE));
    Picture { bytes: canvas.png(), width: columns * each, height: rows * each }
}

/// A vector as it is drawn: from the block's centre as far as it moves in the picture, or cut short.
struct Arrow {
    centre: (f64, f64),
    tip: (f64, f64),
    colour: Colour,
    cut: bool,
}

fn arrow(shape: FieldShape, entry: BlockVector, centre: (f64, f64), each: f64) -> Arrow {
    let scaled = |v: i16, step: i32| f64::from(v) / f64::from(shape.pel) * each / f64::from(step);
    let (dx, dy) = (scaled(entry.x, shape.block_w - shape.overlap_x), scaled(entry.y, shape.block_h - shape.overlap_y));
    let longest = dx.abs().max(dy.abs());
    let cut = longest > REACH * each;
    let kept = if cut { REACH * each / longest } else { 1.0 };
    Arrow { centre, tip: (centre.0 + dx * kept, centre.1 + dy * kept), colour: direction(dx, dy), cut }
}

/// The colour of a direction: red to the right, then round by yellow (down), green, blue; grey at rest.
fn direction(dx: f64, dy: f64) -> Colour {
    let size = dx.abs() + dy.abs();
    if size == 0.0 {
        return [110, 110, 110];
    }
    // The way round a square, 0 to 4, in place of an angle.
    let part = dy / size;
    let round = match (dx >= 0.0, dy >= 0.0) {
        (true, true) => part,
        (false, _) => 2.0 - part,
        (true, false) => 4.0 + part,
    };
    let hue = round * 1.5;
    // Red, green and blue each rise and fall about their own hue.
    [0.0, 2.0, 4.0].map(|own| {
        let apart = (hue - own).abs();
        let apart = apart.min(6.0 - apart);
        (60.0 + 195.0 * (2.0 - apart).clamp(0.0, 1.0)) as u8
    })
}

//! The built-in clip: a disc that turns and moves before a picture that draws near, and a small patch that flies across; its vectors by two
//! estimators.

use crate::output;
use std::path::Path;
use yoltzimur::constants::{FLAG_BACKWARD, FLAG_FORWARD};
use yoltzimur::{BlockVector, Error, FieldShape, LumaTable, SceneLimits, VectorData};

/// The finished luma curve.
pub const TABLE: &LumaTable = include_bytes!("luma.table");
/// The calls that are played on it.
pub const SCRIPT: &str = include_str!("clip.calls");
/// The name of its payload, and of the second estimator's, in messages and in the script.
pub const PAYLOAD: &str = "clip.payload";
pub const SECOND: &str = "clip-second.payload";

const COLUMNS: i32 = 30;
const ROWS: i32 = 17;

pub const LIMITS: SceneLimits = SceneLimits { blocks: 20, zero: 30, m1: 60, m2: 120, scene: 180 };

/// A picture of 480 by 270 in blocks of 20 by 20 that overlap by 4; vectors are in half pixels, and payloads have both halves.
pub fn shape() -> FieldShape {
    FieldShape {
        flags: FLAG_BACKWARD | FLAG_FORWARD,
        block_w: 20,
        block_h: 20,
        pel: 2,
        width: 480,
        height: 270,
        overlap_x: 4,
        overlap_y: 4,
        grid_w: COLUMNS,
        grid_h: ROWS,
        selector: 0,
    }
}

/// The vector record of the shape.
pub fn record() -> Vec<u8> {
    VectorData::of_shape(shape(), 1).bytes().into()
}

/// The payload: backward vectors are the forward ones turned round.
pub fn payload() -> Result<Vec<u8>, Error> {
    yoltzimur::payload(shape(), Some(&set(entry, -1)?), Some(&set(entry, 1)?))
}

/// The payload of the second estimator.
pub fn second() -> Result<Vec<u8>, Error> {
    yoltzimur::payload(shape(), Some(&set(other, -1)?), Some(&set(other, 1)?))
}

/// The bytes of a set, block by block.
fn set(entry: fn(i32, i32, i16) -> BlockVector, turn: i16) -> Result<Vec<u8>, Error> {
    let entries = (0..COLUMNS * ROWS).map(|block| entry(block % COLUMNS, block / COLUMNS, turn).bytes());
    Ok(entries.collect::<Result<Vec<_>, Error>>()?.concat())
}

fn entry(column: i32, row: i32, turn: i16) -> BlockVector {
    // From the middle of the picture, in half blocks.
    let (x, y) = (2 * column + 1 - COLUMNS, 2 * row + 1 - ROWS);
    let disc = x * x + y * y;
    let patch = (x + 20) * (x + 20) + (y + 9) * (y + 9);
    let grain = (x * 7 + y * 13 + x * y) & 15;
    let (vx, vy, sad, luma) = if patch < 12 {
        (90, 34, 52 + grain, 220)
    } else if disc < 110 {
        (46 - 5 * y, 5 * x, if disc < 72 { 6 + grain } else { 58 + grain }, 170 + x - y)
    } else {
        (2 * x / 3, 2 * y / 3, if disc < 190 { 44 + grain } else { 10 + grain }, 84 + x + 2 * y)
    };
    BlockVector { x: turn * vx as i16, y: turn * vy as i16, sad, luma: luma as u8 }
}

/// What the second estimator finds: about the disc's edge better matches, in the first column the same sad for another vector, elsewhere worse ones.
fn other(column: i32, row: i32, turn: i16) -> BlockVector {
    let first = entry(column, row, turn);
    let (x, y) = (2 * column + 1 - COLUMNS, 2 * row + 1 - ROWS);
    let sad = match x * x + y * y {
        _ if column == 0 => first.sad,
        72..190 => first.sad / 2,
        _ => first.sad + 20,
    };
    BlockVector { x: first.x + 6 * turn, y: first.y - 4 * turn, sad, luma: first.luma }
}

/// Writes the clip as files, to begin one's own from, and says how to play them. Nothing is overwritten.
pub fn save(folder: &Path) -> Result<String, String> {
    let at = |name: &str| folder.join(name);
    let payload = payload().map_err(|error| format!("{PAYLOAD}: {error}"))?;
    let second = second().map_err(|error| format!("{SECOND}: {error}"))?;
    let files = [
        (at("clip.record"), record()),
        (at(PAYLOAD), payload),
        (at(SECOND), second),
        (at("clip.table"), TABLE.to_vec()),
        (at("clip.calls"), SCRIPT.into()),
    ];
    output::write_new(folder, &files)?;
    let [record, payload, _, table, script] = files.map(|(path, _)| path.display().to_string());
    Ok(format!("touchup --record {record} --payload {payload} --table {table} {script}\n"))
}

#[cfg(test)]
mod tests {
    use super::*;
    use yoltzimur::vector_data;

    #[test]
    fn the_record_is_that_of_the_shape() {
        assert_eq!(vector_data(&record()).map(FieldShape::from), Ok(shape()));
        assert_eq!(record().len(), 60);
        assert_eq!([payload(), second()].map(|made| made.map(|bytes| bytes.len())), [Ok(8232), Ok(8232)]);
    }
}

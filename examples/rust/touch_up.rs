//! A touch-up session from Rust: open, take, put, a gesture of several puts, undo, redo, retime, pool, and the kept class and a cover
//! mask after each. The same as examples/c/touch_up.c.

use yoltzimur::constants::{COVER_WHOLE, FLAG_BACKWARD, FLAG_FORWARD, TIME_WHOLE};
use yoltzimur::{BlockVector, Counts, Error, FieldShape, Gestures, LumaTable, SceneLimits, Session, Side, payload};

/// Both sets of nine blocks: every backward vector x to the right, with a sad for each, every forward one at rest.
fn vectors(shape: FieldShape, x: i16, sads: [i32; 9]) -> Result<Vec<u8>, Error> {
    let backward = sads.map(|sad| BlockVector { x, y: 0, sad, luma: 90 }.bytes());
    let backward = backward.into_iter().collect::<Result<Vec<_>, Error>>()?.concat();
    let forward = BlockVector { x: 0, y: 0, sad: 10, luma: 110 }.bytes()?.repeat(9);
    payload(shape, Some(&backward), Some(&forward))
}

fn show(what: &str, session: &mut Session) -> Result<(), Error> {
    let mut mask = vec![0; session.mask_len()];
    session.cover_mask(COVER_WHOLE, 1.0, &mut mask)?;
    let (class, Counts { counted, scene, m2, m1 }) = (session.kept_class()?, session.kept());
    print!("{what}: time {} past {} future {} ", session.time(), session.past(), session.future());
    println!("class {class}, of {counted} counted: scene {scene} m2 {m2} m1 {m1}");
    let (columns, _) = session.mask_size();
    for row in mask.chunks(columns) {
        println!(" {}", row.iter().map(|byte| format!(" {byte:3}")).collect::<String>());
    }
    Ok(())
}

fn main() -> Result<(), Error> {
    // A picture of 24 by 24 in blocks of 8 by 8; payloads have both halves.
    let shape = FieldShape {
        flags: FLAG_BACKWARD | FLAG_FORWARD,
        block_w: 8,
        block_h: 8,
        pel: 1,
        width: 24,
        height: 24,
        grid_w: 3,
        grid_h: 3,
        ..FieldShape::default()
    };
    let limits = SceneLimits { blocks: 20, zero: 20, m1: 60, m2: 120, scene: 240 };
    let table: LumaTable = std::array::from_fn(|sum| (sum / 2) as u8);
    let mut session = Session::open(shape, Side::Backward, limits, TIME_WHOLE, &table, 100)?;
    show("open", &mut session)?;
    let first = vectors(shape, 4, [30; 9])?;
    session.take(&first)?;
    show("take", &mut session)?;
    let mut gestures = Gestures::new();
    session.put(Side::Backward, 4, BlockVector { x: -8, y: 3, sad: 500, luma: 90 }, gestures.begin())?;
    show("put", &mut session)?;
    // A wheel turn: forty puts, which one undo takes back.
    let turn = gestures.begin();
    for x in 1..=40 {
        session.put(Side::Backward, 4, BlockVector { x, y: 3, sad: 500, luma: 90 }, turn)?;
    }
    show("turn", &mut session)?;
    session.undo()?;
    show("undo", &mut session)?;
    session.undo()?;
    show("undo", &mut session)?;
    session.redo()?;
    show("redo", &mut session)?;
    session.retime(-128)?;
    show("retime", &mut session)?;
    // A second estimator, whose sads are smaller in the upper row; where they are equal the first one's entry is kept.
    let second = vectors(shape, -6, [0, 10, 20, 30, 40, 50, 60, 70, 80])?;
    session.pool(&first, &second)?;
    show("pool", &mut session)?;
    let refused = session.put(Side::Backward, 9, BlockVector::default(), gestures.begin());
    println!("put: {}", refused.map_or_else(|error| error.number().unwrap_or(0), |()| 0));
    Ok(())
}

//! What the unchanged Rust makes of a session's sets; and of two payloads, which it knows as two updates (paper 02, 3/14).

use model::list::Call;
use model::numbers;
use model::session::{Buffers, Session};
use oracle::inputs::{entry_bytes, field_shape};
use oracle::smooth::{BlockVector, VectorField};

use crate::plant::{self, RUST};
use crate::rust;

/// What the Rust has to say of a call.
pub enum ByRust {
    Nothing,
    /// It refuses one of two payloads.
    Refused,
    /// The sets after a pool.
    Pooled(VectorField),
}

/// What it says of a call before it is made. It knows no session, so that nothing is asked where one is refused.
pub fn told(call: &Call, s: &Session, b: &Buffers) -> Result<ByRust, String> {
    match call {
        Call::Pool { first, second } if plant::asks(RUST) => match numbers::pool(s, first, second, b) {
            2 | 3 | 7 | 8 => Ok(ByRust::Nothing),
            _ => pooled(s, [first, second], b),
        },
        _ => Ok(ByRust::Nothing),
    }
}

/// Each payload is read by an update of its own, which leaves an unflagged set; of the entries read the one of the smaller sad is kept.
fn pooled(s: &Session, payloads: [&Vec<u8>; 2], b: &Buffers) -> Result<ByRust, String> {
    let mut fields = [(); 2].map(|()| rust::field(&s.shape, &b.backward, &b.forward));
    for (field, payload) in fields.iter_mut().zip(payloads) {
        if !rust::ran(|| field.update(payload))? {
            return Ok(ByRust::Refused);
        }
    }
    let kept = |first: &[BlockVector], second: &[BlockVector]| {
        first.iter().zip(second).map(|(a, b)| if a.sad <= b.sad { *a } else { *b }).collect()
    };
    let [(backward, forward), (other_backward, other_forward)] = [fields[0].sets(), fields[1].sets()];
    let (backward, forward) = (kept(backward, other_backward), kept(forward, other_forward));
    Ok(ByRust::Pooled(VectorField::from_sets(field_shape(&s.shape), backward, forward)))
}

/// Both sets of a field, and the grid, planes, averages and map that the Rust makes of it. The class is handed back.
pub fn rebuilt(s: &Session, field: &VectorField, b: &mut Buffers) -> Result<u32, String> {
    let Session { shape, side, time, .. } = *s;
    let (backward, forward) = field.sets();
    for (set, bytes) in [(&mut b.backward, entry_bytes(backward)), (&mut b.forward, entry_bytes(forward))] {
        set[..bytes.len()].copy_from_slice(&bytes);
    }
    let (width, height) = rust::size(&shape);
    let (mut scratch, mut mask, mut table) = (Vec::new(), vec![0; shape.plane_size()], [0; 511]);
    table.copy_from_slice(&b.table[..511]);
    let limits = rust::scene_limits(&s.limits);
    let value = rust::ran(|| {
        field.pack(side == 1, &mut b.xs, &mut b.ys, width, height);
        field.avg_luma(&mut b.averages, &table);
        field.quality_map(side == 1, &limits, &b.averages, &mut b.map);
        field.cover_mask(&mut scratch, side == 2, &mut mask, 100, time, width, height);
        field.quality(side == 1, &limits, &b.averages).cast_unsigned()
    })?;
    b.grid[..scratch.len()].copy_from_slice(&scratch);
    Ok(value)
}

//! The counts that a session keeps.

use draw::Draw;

use crate::session::Counts;

/// Counts that `n` blocks can have, or each at and beside its ends, or anywhere.
pub fn counts(draw: &mut Draw, n: usize) -> Counts {
    if draw.once_in(2) {
        return within(draw, n);
    }
    let n = n as u32;
    let mut one = || {
        let (good, any) = (draw.between(0, n.cast_signed()).cast_unsigned(), draw.any_i32().cast_unsigned());
        draw.pick(&[0, 1, n - 1, n, n + 1, good, good, 1 << 31, u32::MAX, any])
    };
    Counts::from_fields([one(), one(), one(), one()])
}

/// At most `n` blocks count, and each of them stands at one mark or at none.
fn within(draw: &mut Draw, n: usize) -> Counts {
    let mut at_most = |most: u32| draw.between(0, most.cast_signed()).cast_unsigned();
    let counted = at_most(n as u32);
    let scene = at_most(counted);
    let m2 = at_most(counted - scene);
    Counts { counted, scene, m2, m1: at_most(counted - scene - m2) }
}

//! `powf(1.0)` beside its argument: paper 01 reads the one as the other.

use std::hint::black_box;

use crate::draw::Draw;

/// How many values were tried, and how many came back with other bits.
pub struct Tried {
    pub values: u64,
    pub other: u64,
}

/// Every quotient that `sad_mask` can raise is 0 or above and finite; tried are its ends, quotients of drawn sads, scales and areas, and drawn bits.
pub fn tried(count: u64) -> Tried {
    let mut draw = Draw::new(9);
    let mut tried = Tried { values: 0, other: 0 };
    for value in [0.0, -0.0, f64::MIN_POSITIVE, 5e-324, 1.0, f64::MAX, 4.0 * 16_777_215.0 * 65536.0] {
        tried.raise(value);
    }
    for _ in 0..count {
        tried.raise(quotient(&mut draw));
        let bits = f64::from_bits(draw.bits() >> 1);
        if bits.is_finite() {
            tried.raise(bits);
        }
    }
    tried
}

impl Tried {
    fn raise(&mut self, value: f64) {
        let raised = black_box(value).powf(black_box(1.0));
        self.values += 1;
        self.other += u64::from(raised.to_bits() != value.to_bits());
    }
}

fn quotient(draw: &mut Draw) -> f64 {
    let share = (draw.bits() >> 11) as f64 / (1u64 << 53) as f64;
    let scale = if draw.once_in(2) { share } else { share * 65536.0 };
    f64::from(4 * draw.between(0, 0xFF_FFFF)) * scale / f64::from(draw.between(1, 256) * draw.between(1, 256))
}

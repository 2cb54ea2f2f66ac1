//! Gesture numbers that make runs: few to a list, and each held for a while (paper 02, 2/14).

use draw::Draw;

use crate::list::Call;

/// At both ends; and pairs that differ in a single byte.
const NUMBERS: [u32; 9] = [0, 1, 2, 0x0101, 0x0001_0001, 0x0100_0001, 0x8000_0000, u32::MAX - 1, u32::MAX];

/// One of few numbers, so that it is often the one before; seldom any.
pub fn gesture(draw: &mut Draw) -> u32 {
    let any = draw.any_i32().cast_unsigned();
    draw.pick(&[0, 0, 0, 0, 0, 1, 1, 1, 0x0100_0000, u32::MAX, any])
}

/// How the puts of a list are numbered.
pub struct Gestures {
    numbers: Vec<u32>,
    /// Once in so many puts another number is drawn.
    change: i32,
    present: u32,
}

impl Gestures {
    /// Puts that have one of these numbers, about `change` of them one behind another.
    pub fn of(numbers: &[u32], change: i32) -> Self {
        Self { numbers: numbers.to_vec(), change, present: numbers.first().copied().unwrap_or_default() }
    }

    /// One, two or three numbers; or so many that hardly two puts have the same.
    pub fn drawn(draw: &mut Draw) -> Self {
        let (few, change) = (draw.pick(&[1, 2, 2, 3, 3, 60]), draw.pick(&[1, 2, 2, 6, 40]));
        let numbers: Vec<u32> =
            (0..few).map(|_| if few > 3 { draw.any_i32().cast_unsigned() } else { draw.pick(&NUMBERS) }).collect();
        Self::of(&numbers, if few > 3 { 1 } else { change })
    }

    /// The number of the next put.
    pub fn next(&mut self, draw: &mut Draw) -> u32 {
        if draw.once_in(self.change) {
            self.present = draw.pick(&self.numbers);
        }
        self.present
    }

    /// Numbers the puts of a list.
    pub fn number(mut self, draw: &mut Draw, calls: &mut [Call]) {
        for call in calls {
            if let Call::Put(put) = call {
                put.gesture = self.next(draw);
            }
        }
    }
}

//! A picture in memory: rectangles, dots and smooth lines in colour.

use crate::png::{Samples, encode};

pub type Colour = [u8; 3];

/// Half of a line's width, in pixels.
const REACH: f64 = 1.2;

pub struct Canvas {
    width: usize,
    height: usize,
    samples: Vec<u8>,
}

impl Canvas {
    pub fn new(width: usize, height: usize) -> Canvas {
        Canvas { width, height, samples: vec![0; width * height * 3] }
    }

    pub fn png(&self) -> Vec<u8> {
        encode(self.width, self.height, Samples::Rgb, &self.samples)
    }

    /// Lays a colour over a pixel, covering so much of it. What is outside the picture is left out.
    fn blend(&mut self, x: i64, y: i64, colour: Colour, cover: f64) {
        let (Ok(x), Ok(y)) = (usize::try_from(x), usize::try_from(y)) else {
            return;
        };
        if x >= self.width || y >= self.height {
            return;
        }
        let at = (y * self.width + x) * 3;
        let Some(pixel) = self.samples.get_mut(at..at + 3) else {
            return;
        };
        for (old, new) in pixel.iter_mut().zip(colour) {
            let mixed = f64::from(*old) * (1.0 - cover) + f64::from(new) * cover;
            *old = mixed.round() as u8;
        }
    }

    /// Fills a rectangle.
    pub fn fill(&mut self, left: usize, top: usize, width: usize, height: usize, colour: Colour) {
        for y in top..top + height {
            for x in left..left + width {
                self.blend(x as i64, y as i64, colour, 1.0);
            }
        }
    }

    /// Draws the edge of a rectangle.
    pub fn outline(&mut self, left: usize, top: usize, width: usize, height: usize, colour: Colour) {
        self.fill(left, top, width, 1, colour);
        self.fill(left, (top + height).saturating_sub(1), width, 1, colour);
        self.fill(left, top, 1, height, colour);
        self.fill((left + width).saturating_sub(1), top, 1, height, colour);
    }

    /// Fills a disc.
    pub fn dot(&mut self, (x, y): (f64, f64), radius: f64, colour: Colour) {
        for row in (y - radius).floor() as i64..=(y + radius).floor() as i64 {
            for column in (x - radius).floor() as i64..=(x + radius).floor() as i64 {
                let (dx, dy) = (column as f64 + 0.5 - x, row as f64 + 0.5 - y);
                if dx * dx + dy * dy <= radius * radius {
                    self.blend(column, row, colour, 1.0);
                }
            }
        }
    }

    /// Draws a line: at each pixel of its longer way, the pixels across that it covers.
    pub fn line(&mut self, from: (f64, f64), to: (f64, f64), colour: Colour) {
        let steep = (to.1 - from.1).abs() > (to.0 - from.0).abs();
        let turned = |(x, y): (f64, f64)| if steep { (y, x) } else { (x, y) };
        let (mut first, mut last) = (turned(from), turned(to));
        if first.0 > last.0 {
            (first, last) = (last, first);
        }
        let way = last.0 - first.0;
        let slope = if way > 0.0 { (last.1 - first.1) / way } else { 0.0 };
        let end = if steep { self.height } else { self.width } as f64;
        for along in first.0.floor().max(0.0) as i64..=last.0.floor().min(end) as i64 {
            let across = first.1 + slope * (along as f64 + 0.5 - first.0).clamp(0.0, way);
            for near in (across - REACH).floor() as i64..=(across + REACH).floor() as i64 {
                let cover = (REACH + 0.2 - (near as f64 + 0.5 - across).abs()).clamp(0.0, 1.0);
                let (x, y) = if steep { (near, along) } else { (along, near) };
                self.blend(x, y, colour, cover);
            }
        }
    }
}

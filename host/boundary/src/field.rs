//! The record, the sizes of a shape, and the calls over two sets.

use model::fields::{Class, Sizes};
use model::record::Record;
use model::session::Limits;
use model::shape::Shape;

exports::laid_out! { Record: 52 { block_w: 8, marker: 32 }, Sizes: 104 { least: 8, packed_width: 88, packed_height: 96 } }
exports::field_calls! { shape: Shape, limits: Limits, record: Record, sizes: Sizes, class: Class }

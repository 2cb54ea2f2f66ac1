//! K1 to K11 of paper 01 ('Proved table') on the model.

use model::class::{class, counts};
use model::entry::Entry;
use model::fields::{Scales, Sets, cover_mask, sad_mask, update};
use model::luma::{level, score};
use model::planes;
use model::scatter::products;
use model::session::Limits;
use model::shape::Shape;

/// Blocks of 8 by 8 that don't overlap, at pel 1 and with selector 0.
fn shape(width: i32, grid: i32) -> Shape {
    Shape {
        flags: 0,
        block_w: 8,
        block_h: 8,
        pel: 1,
        width,
        height: width,
        overlap_x: 0,
        overlap_y: 0,
        grid_w: grid,
        grid_h: grid,
        selector: 0,
    }
}

fn entry(x: i16, y: i16) -> Entry {
    Entry { x, y, ..Entry::default() }
}

/// The x plane at a cell of row 0.
fn packed_x(shape: &Shape, cell: usize, vector: Entry) -> u16 {
    let set = vector.bytes().repeat(shape.blocks());
    planes::at(shape, &set, cell, 0).0
}

#[test]
fn k1_cover_mask_of_zero_vectors() {
    let (shape, set) = (shape(24, 3), [0; 72]);
    let (mut scratch, mut mask) = ([0; 26], [0; 9]);
    let sets = Sets { backward: &set, forward: &set };
    let scales = Scales { cover: 100, sad_scale: 1.0 };
    assert_eq!(cover_mask(&shape, 1, sets, scales, 0, &mut scratch, &mut mask), 0);
    assert_eq!(mask, [128, 64, 128, 64, 0, 64, 128, 64, 128]);
}

#[test]
fn k2_k3_products() {
    let shape = shape(24, 3);
    let given = |time, x| {
        let mut grid = [0; 26];
        for (cell, product) in products(&shape, time, 0, entry(x, 0)) {
            grid[cell] += product;
        }
        (grid[6], grid[7], grid[25])
    };
    assert_eq!(given(128, -3), (56, 0, 8));
    assert_eq!(given(256, 4), (32, 32, 0));
}

#[test]
fn k4_k5_k6_planes() {
    assert_eq!([5, -20].map(|v| packed_x(&shape(24, 3), 2, entry(v, 0))), [1024, 1008]);
    assert_eq!([-3, -4].map(|v| packed_x(&shape(20, 3), 2, entry(v, 0))), [1024, 1020]);
    let free = Shape { selector: 1, ..shape(24, 3) };
    // a component within ±1023 stands beside the far one: alone it would pack 1029
    for far in [entry(1024, 5), entry(5, -1024)] {
        for shape in [shape(24, 3), free] {
            assert_eq!(planes::at(&shape, &far.bytes(), 0, 0), (1024, 1024));
        }
    }
    assert_eq!([1023, -1023].map(|v| packed_x(&free, 0, entry(v, 0))), [2047, 1]);
}

#[test]
fn k7_k8_map() {
    let limits = Limits { blocks: 20, zero: 200, m1: 1600, m2: 2800, scene: 4000 };
    assert_eq!([156, 157].map(|sad| level(&limits, score(sad, 200))), [255, 0]);
    assert_eq!([8_421_504, 8_421_505].map(|sad| level(&limits, score(sad, 1))), [3, 255]);
    assert_eq!(score(8_421_505, 1), -2_147_483_521);
}

#[test]
fn k9_class() {
    let limits = Limits { blocks: 20, zero: 200, m1: 1600, m2: 2800, scene: 4000 };
    // average 255: the score is the sad
    let at_m1 = |blocks: usize| class(limits.blocks, &counts(&limits, vec![score(1600, 255); blocks]));
    assert_eq!([0, 4, 5].map(at_m1), [3, 3, 1]);
}

#[test]
fn k10_sad_mask() {
    let byte = |sad| {
        let set = Entry { sad, ..Entry::default() }.bytes();
        let sets = Sets { backward: &set, forward: &set };
        let mut mask = [0];
        assert_eq!(sad_mask(&shape(8, 1), 2, sets, Scales { cover: 0, sad_scale: 1.0 }, &mut mask), 0);
        mask[0]
    };
    assert_eq!([8, 16].map(byte), [127, 255]);
}

#[test]
fn k11_shortest_payload() {
    let payload = [16, 0, 0, 0, 160, 0, 0, 0, 0, 0, 0, 0];
    let number = |end: usize| update(&shape(8, 1), &payload[..end], &mut [0; 8], &mut [0; 8]);
    assert_eq!([12, 11].map(number), [0, 4]);
}

//! Single matches, ours beside moyo's own `match_wyckoff_coordinates`: all 125 offsets miss, or place 13 fits.
use crate::clock;
use moyo::symmetrize::standardize::match_one;
use std::hint::black_box;

extern "C" {
    fn hoistgarlic_match(
        basis: *const [[f64; 3]; 3],
        position: *const [f64; 3],
        text: *const [u8; 64],
        symprec: f64,
        place: *mut usize,
        distance: *mut f64,
    ) -> usize;
}

fn padded(coordinates: &str) -> [u8; 64] {
    let mut text = [b' '; 64];
    text[..coordinates.len()].copy_from_slice(coordinates.as_bytes());
    text
}

/// The place where it fits, or 125.
fn ours(position: &[f64; 3], text: &[u8; 64], basis: &[[f64; 3]; 3], symprec: f64) -> usize {
    let mut place = 0;
    let mut distance = 0.0;
    // SAFETY: each pointer is to one value.
    let number = unsafe { hoistgarlic_match(basis, position, text, symprec, &mut place, &mut distance) };
    assert_eq!(number, 0);
    place
}

pub fn print() {
    let basis = [[5.1, -2.55, 0.0], [0.0, 4.4167, 0.0], [0.0, 0.0, 7.3]];
    let symprec = 0.0001;
    let cases = [
        ("misses, x,y,1/4", "x,y,1/4", [0.11, 0.23, 0.37], 125),
        ("misses, x,2x,1/4", "x,2x,1/4", [0.11, 0.23, 0.37], 125),
        ("misses, 0,0,0", "0,0,0", [0.11, 0.23, 0.37], 125),
        ("fits at 13, 1/3,2/3,1/4", "1/3,2/3,1/4", [1.0 / 3.0, 2.0 / 3.0, 0.25], 13),
    ];
    for (name, coordinates, position, place) in cases {
        let text = padded(coordinates);
        let moyos = |position: &[f64; 3]| match_one(position, coordinates, &basis, symprec);
        assert_eq!(ours(&position, &text, &basis, symprec), place, "{name}");
        assert_eq!(moyos(&position), place < 125, "{name}");
        let (a, b) = clock::both(
            || {
                black_box(ours(black_box(&position), &text, &basis, symprec));
            },
            || {
                black_box(moyos(black_box(&position)));
            },
        );
        println!("match {name:46} {a:12.0} {b:12.0} {:8.2}", b / a);
    }
}

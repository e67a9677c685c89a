//! Classes of inputs that suit any row of numbers within the range that entries take.

use crate::draw::{Draw, SPECIAL};
use crate::entry::Class;

pub fn whole(d: &mut Draw, i: &mut [f64]) {
    i.fill_with(|| d.whole(-12, 12) as f64);
}

/// Places in a cell and parts of unit vectors.
pub fn lengths(d: &mut Draw, i: &mut [f64]) {
    i.fill_with(|| if d.below(2) == 0 { d.between(-3000.0, 3000.0) } else { d.between(-1.0, 1.0) });
}

pub fn wild(d: &mut Draw, i: &mut [f64]) {
    let least = [-1022, -60, -10, 10][d.below(4) as usize];
    i.fill_with(|| if d.below(50) == 0 { 1_048_576.0 * d.sign() } else { d.magnitude(least, 19) });
}

pub fn tiny(d: &mut Draw, i: &mut [f64]) {
    i.fill_with(|| match d.below(4) {
        0 => d.subnormal(),
        1 => d.magnitude(-1022, -1000),
        2 => d.magnitude(-560, -490),
        _ => d.pick(&[0.0, -0.0, 1.0, 5e-324]),
    });
}

pub fn zeros(d: &mut Draw, i: &mut [f64]) {
    i.fill_with(|| d.pick(&[0.0, -0.0, 0.0, -0.0, 1.0, -1.0]));
}

/// Numbers of another class, some of them replaced by any pattern or a special number.
pub fn spoil(d: &mut Draw, i: &mut [f64]) {
    for _ in 0..=d.below(2) {
        let k = d.below(i.len() as u64) as usize;
        i[k] = if d.below(2) == 0 { d.pattern() } else { d.pick(SPECIAL) };
    }
}

pub fn every(d: &mut Draw, i: &mut [f64]) {
    if d.below(8) == 0 {
        return i.fill_with(|| d.pattern());
    }
    if d.below(2) == 0 { whole(d, i) } else { wild(d, i) }
    spoil(d, i);
}

pub const NUMBERS: &[Class] = &[
    ("nice whole numbers", whole),
    ("lengths and directions", lengths),
    ("wild", wild),
    ("tiny and subnormal", tiny),
    ("signed zeros", zeros),
    ("every bit pattern", every),
];

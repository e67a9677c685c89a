//! Square root, ceiling, rounding to whole numbers. The second reading of these is another way to the same
//! number: the machine's instruction beside libm's text.

use crate::draw::{Draw, SPECIAL};
use crate::entry::{Call, Class, Entry, entry};

unsafe extern "C" {
    safe fn jr_sqrt(x: f64) -> f64;
    safe fn jr_ceil(x: f64) -> f64;
    safe fn jr_round(x: f64) -> f64;
}

// Reached by a call, as the port is, so that their times can be compared.
mod rust {
    #[inline(never)]
    pub fn sqrt(x: f64) -> f64 {
        x.sqrt()
    }
    #[inline(never)]
    pub fn ceil(x: f64) -> f64 {
        libm::ceil(x)
    }
    #[inline(never)]
    pub fn round(x: f64) -> f64 {
        libm::round(x)
    }
}

mod second {
    #[inline(never)]
    pub fn sqrt(x: f64) -> f64 {
        libm::sqrt(x)
    }
    #[inline(never)]
    pub fn ceil(x: f64) -> f64 {
        x.ceil()
    }
    #[inline(never)]
    pub fn round(x: f64) -> f64 {
        x.round()
    }
}

fn every(d: &mut Draw, i: &mut [f64]) {
    i[0] = d.pattern();
}

fn special(d: &mut Draw, i: &mut [f64]) {
    let x = d.pick(SPECIAL);
    i[0] = if d.below(2) == 0 { x } else { d.near(x, 3) };
}

fn subnormal(d: &mut Draw, i: &mut [f64]) {
    i[0] = d.subnormal();
}

fn lengths(d: &mut Draw, i: &mut [f64]) {
    i[0] = d.magnitude(-40, 42).abs();
}

/// Squares of 26 bits and their neighbours, at every exponent.
fn squares(d: &mut Draw, i: &mut [f64]) {
    let root = d.whole(1, 1 << 26) as f64 * f64::powi(2.0, d.whole(-500, 480) as i32);
    i[0] = d.near(root * root, 2);
}

const ROOTS: &[Class] =
    &[("every bit pattern", every), ("special", special), ("subnormal", subnormal), ("lengths", lengths), ("squares and neighbours", squares)];

fn below_one(d: &mut Draw, i: &mut [f64]) {
    i[0] = d.magnitude(-8, -1);
}

fn small(d: &mut Draw, i: &mut [f64]) {
    i[0] = d.magnitude(0, 30);
}

/// Whole numbers, halves and quarters, and their neighbours.
fn halves(d: &mut Draw, i: &mut [f64]) {
    let bits = d.whole(1, 54);
    let x = (d.bits() >> (64 - bits)) as f64 * d.pick(&[0.25, 0.5, 1.0]) * d.sign();
    i[0] = d.near(x, 2);
}

/// Where the last place of a number is a quarter, a half, one, two.
fn coarse(d: &mut Draw, i: &mut [f64]) {
    i[0] = d.magnitude(49, 54);
}

const WHOLES: &[Class] = &[
    ("every bit pattern", every),
    ("special", special),
    ("subnormal", subnormal),
    ("below one", below_one),
    ("one to 2^31", small),
    ("wholes, halves, quarters, neighbours", halves),
    ("2^49 to 2^55", coarse),
];

const FULL: u64 = 10_000_000;

pub const ENTRIES: &[Entry] = &[
    entry!(sqrt, jr_sqrt, 1, 1, FULL, ROOTS, |f, i, o| { o[0] = f(i[0]); 0 }),
    entry!(ceil, jr_ceil, 1, 1, FULL, WHOLES, |f, i, o| { o[0] = f(i[0]); 0 }),
    entry!(round, jr_round, 1, 1, FULL, WHOLES, |f, i, o| { o[0] = f(i[0]); 0 }),
];

/// What else the port's functions may be measured by.
pub const OTHER_RIVALS: &[(&str, Call)] = &[
    ("f64::ceil", |i, o| { o[0] = second::ceil(i[0]); 0 }),
    ("f64::round", |i, o| { o[0] = second::round(i[0]); 0 }),
];

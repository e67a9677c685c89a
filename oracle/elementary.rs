//! Sine, cosine, arctangent, arc cosine, hypotenuse: libm's, branch by branch.

use std::f64::consts::{FRAC_PI_2, FRAC_PI_4};

use crate::draw::{Draw, SPECIAL};
use crate::entry::{Class, Entry, entry, out};

unsafe extern "C" {
    safe fn jr_sin(x: f64, out: &mut [f64; 1]) -> u32;
    safe fn jr_sincos(x: f64, out: &mut [f64; 2]) -> u32;
    safe fn jr_atan2(y: f64, x: f64) -> f64;
    safe fn jr_acos(x: f64) -> f64;
    safe fn jr_hypot(x: f64, y: f64) -> f64;
}

mod rust {
    #[inline(never)]
    pub fn sin(x: f64, out: &mut [f64; 1]) -> u32 {
        out[0] = libm::sin(x);
        0
    }
    #[inline(never)]
    pub fn sincos(x: f64, out: &mut [f64; 2]) -> u32 {
        let (s, c) = libm::sincos(x);
        *out = [s, c];
        0
    }
    #[inline(never)]
    pub fn atan2(y: f64, x: f64) -> f64 {
        libm::atan2(y, x)
    }
    #[inline(never)]
    pub fn acos(x: f64) -> f64 {
        libm::acos(x)
    }
    #[inline(never)]
    pub fn hypot(x: f64, y: f64) -> f64 {
        libm::hypot(x, y)
    }
}

mod second {
    pub use super::rust::{acos, atan2, hypot};

    /// An angle that is not finite makes a sine that is not, and one too large is not worked out at all.
    fn due(angle: f64) -> u32 {
        if !angle.is_finite() {
            9
        } else if angle.abs() > 1_048_576.0 {
            8
        } else {
            0
        }
    }

    pub fn sin(x: f64, out: &mut [f64; 1]) -> u32 {
        if due(x) == 0 { super::rust::sin(x, out) } else { due(x) }
    }

    pub fn sincos(x: f64, out: &mut [f64; 2]) -> u32 {
        if due(x) == 0 { super::rust::sincos(x, out) } else { due(x) }
    }
}

// --- one number ---

fn every(d: &mut Draw, i: &mut [f64]) {
    i.fill_with(|| d.pattern());
}

fn special(d: &mut Draw, i: &mut [f64]) {
    for x in i {
        *x = d.pick(SPECIAL);
        if d.below(2) == 0 {
            *x = d.near(*x, 3);
        }
    }
}

fn subnormal(d: &mut Draw, i: &mut [f64]) {
    i.fill_with(|| d.subnormal());
}

fn tiny(d: &mut Draw, i: &mut [f64]) {
    i[0] = if d.below(4) == 0 { d.magnitude(-1022, -30) } else { d.magnitude(-30, -24) };
}

fn below_eighth(d: &mut Draw, i: &mut [f64]) {
    i[0] = if d.below(4) == 0 { d.magnitude(-26, -1) } else { d.between(-FRAC_PI_4, FRAC_PI_4) };
}

/// Where the upper word decides: tiny, an eighth of a turn, and the small cases of the reduction.
fn limits(d: &mut Draw, i: &mut [f64]) {
    const WORDS: [u64; 11] = [
        0x3e46_a09e, 0x3e50_0000, 0x3fe9_21fb, 0x3ff9_21fb, 0x4002_d97c, 0x4009_21fb, 0x400f_6a7a, 0x4012_d97c, 0x4015_fdbc, 0x4019_21fb,
        0x401c_463b,
    ];
    let word = WORDS[d.below(11) as usize].wrapping_add(d.below(3)).wrapping_sub(1);
    let low = [0, 0xffff_ffff, d.bits() >> 32, d.bits() >> 32][d.below(4) as usize];
    i[0] = f64::from_bits(word << 32 | low) * d.sign();
}

fn small_cases(d: &mut Draw, i: &mut [f64]) {
    i[0] = d.between(FRAC_PI_4, 9.2 * FRAC_PI_4) * d.sign();
}

fn medium(d: &mut Draw, i: &mut [f64]) {
    i[0] = if d.below(2) == 0 { d.magnitude(2, 19) } else { d.between(-1_048_576.0, 1_048_576.0) };
}

/// So near to a multiple of a quarter turn that the reduction takes its second and third round.
fn quarter_turns(d: &mut Draw, i: &mut [f64]) {
    let turns = if d.below(2) == 0 { d.whole(1, 40) } else { d.whole(1, 667_544) };
    let off = d.below(42);
    i[0] = d.near(turns as f64 * FRAC_PI_2, 1 << off) * d.sign();
}

fn greatest(d: &mut Draw, i: &mut [f64]) {
    i[0] = d.near(1_048_576.0, 4) * d.sign();
}

const ANGLES: &[Class] = &[
    ("every bit pattern", every),
    ("special", special),
    ("subnormal", subnormal),
    ("tiny", tiny),
    ("below pi/4", below_eighth),
    ("limits of the small cases", limits),
    ("pi/4 to 9.2 pi/4", small_cases),
    ("medium", medium),
    ("neighbours of multiples of pi/2", quarter_turns),
    ("neighbours of 1048576", greatest),
];

fn to_half(d: &mut Draw, i: &mut [f64]) {
    i[0] = if d.below(2) == 0 { d.magnitude(-62, -2) } else { d.between(-0.5, 0.5) };
}

fn half_to_one(d: &mut Draw, i: &mut [f64]) {
    i[0] = d.between(0.5, 1.0) * d.sign();
}

fn near_one(d: &mut Draw, i: &mut [f64]) {
    i[0] = (1.0 - d.magnitude(-54, -2).abs()) * d.sign();
}

fn cosine_limits(d: &mut Draw, i: &mut [f64]) {
    let limit = d.pick(&[0.5, 1.0, f64::from_bits(0x3c60_0000_0000_0000), f64::from_bits(0x3c60_0001_0000_0000)]);
    i[0] = d.near(limit, 4) * d.sign();
}

const COSINES: &[Class] = &[
    ("every bit pattern", every),
    ("special", special),
    ("subnormal", subnormal),
    ("up to a half", to_half),
    ("a half to one", half_to_one),
    ("near one", near_one),
    ("limits", cosine_limits),
];

// --- two numbers ---

fn quadrants(d: &mut Draw, i: &mut [f64]) {
    i.fill_with(|| d.between(-10.0, 10.0));
}

fn lengths(d: &mut Draw, i: &mut [f64]) {
    i.fill_with(|| d.magnitude(-40, 42));
}

fn equal_exponents(d: &mut Draw, i: &mut [f64]) {
    let e = d.whole(-1022, 1023);
    i.fill_with(|| d.magnitude(e, e));
}

/// Exponents that lie about 26, 54, 64 or 66 apart, where one number drowns in the other.
fn unequal_exponents(d: &mut Draw, i: &mut [f64]) {
    let apart = d.pick(&[26.0, 54.0, 64.0, 66.0]) as i64 + d.whole(-2, 2);
    let e = d.whole(-1022, 1023 - apart);
    let k = d.below(2) as usize;
    i[k] = d.magnitude(e, e);
    i[1 - k] = d.magnitude(e + apart, e + apart);
}

fn one_subnormal(d: &mut Draw, i: &mut [f64]) {
    let k = d.below(2) as usize;
    i[k] = d.subnormal();
    i[1 - k] = if d.below(2) == 0 { d.subnormal() } else { d.magnitude(-1022, -950) };
}

fn over_one(d: &mut Draw, i: &mut [f64]) {
    i[0] = d.magnitude(-30, 70);
    i[1] = d.near(1.0, 1) * d.sign();
}

/// Quotients at which the arctangent changes its formula.
fn quotients(d: &mut Draw, i: &mut [f64]) {
    let quotient = d.pick(&[0.4375, 0.6875, 1.1875, 2.4375, f64::powi(2.0, -27), f64::powi(2.0, 66), 1.0]);
    let x = if d.below(2) == 0 { f64::powi(2.0, d.whole(-10, 10) as i32) } else { d.magnitude(-10, 10) };
    i[0] = d.near(x * quotient, 3) * d.sign();
    i[1] = x * d.sign();
}

const DIRECTIONS: &[Class] = &[
    ("every bit pattern", every),
    ("special", special),
    ("subnormal", one_subnormal),
    ("all quadrants", quadrants),
    ("lengths and their squares", lengths),
    ("equal exponents", equal_exponents),
    ("unequal exponents", unequal_exponents),
    ("over one", over_one),
    ("limits of the quotient", quotients),
];

/// Exponents at which the squares would leave the format.
fn scaled(d: &mut Draw, i: &mut [f64]) {
    let e = if d.below(2) == 0 { d.whole(505, 1023) } else { d.whole(-1000, -445) };
    i.fill_with(|| {
        let off = d.whole(-22, 0);
        d.magnitude(e + off, e + off)
    });
}

fn whole_sides(d: &mut Draw, i: &mut [f64]) {
    i.fill_with(|| d.whole(-2000, 2000) as f64);
}

const SIDES: &[Class] = &[
    ("every bit pattern", every),
    ("special", special),
    ("subnormal", one_subnormal),
    ("whole numbers", whole_sides),
    ("lengths and their squares", lengths),
    ("equal exponents", equal_exponents),
    ("unequal exponents", unequal_exponents),
    ("scaled", scaled),
];

const FULL: u64 = 20_000_000;

pub const ENTRIES: &[Entry] = &[
    entry!(sin, jr_sin, 1, 1, FULL, ANGLES, |f, i, o| f(i[0], out(o))),
    entry!(sincos, jr_sincos, 1, 2, FULL, ANGLES, |f, i, o| f(i[0], out(o))),
    entry!(atan2, jr_atan2, 2, 1, FULL, DIRECTIONS, |f, i, o| { o[0] = f(i[0], i[1]); 0 }),
    entry!(acos, jr_acos, 1, 1, FULL, COSINES, |f, i, o| { o[0] = f(i[0]); 0 }),
    entry!(hypot, jr_hypot, 2, 1, FULL, SIDES, |f, i, o| { o[0] = f(i[0], i[1]); 0 }),
];

//! Rigid motions: twelve numbers, the rotation row by row and then the shift.

use datum_math::{Rigid, Vec3};

use crate::classes::{self, NUMBERS};
use crate::draw::Draw;
use crate::entry::{Class, Entry, at, entry, out};

unsafe extern "C" {
    safe fn jr_rigid_rotation(axis: &[f64; 3], angle: f64, out: &mut [f64; 12]) -> u32;
    safe fn jr_rigid_frame(origin: &[f64; 3], x: &[f64; 3], y: &[f64; 3], z: &[f64; 3], out: &mut [f64; 12]) -> u32;
    safe fn jr_rigid_apply(m: &[f64; 12], p: &[f64; 3], out: &mut [f64; 3]) -> u32;
    safe fn jr_rigid_apply_vector(m: &[f64; 12], v: &[f64; 3], out: &mut [f64; 3]) -> u32;
}

mod rust {
    use datum_math::{Rigid, Vec3};

    #[inline(never)]
    pub fn rotation(axis: &[f64; 3], angle: f64, out: &mut [f64; 12]) -> u32 {
        *out = Rigid::rotation(Vec3::from(*axis), angle).numbers();
        0
    }
    #[inline(never)]
    pub fn frame(origin: &[f64; 3], x: &[f64; 3], y: &[f64; 3], z: &[f64; 3], out: &mut [f64; 12]) -> u32 {
        let [o, x, y, z] = [origin, x, y, z].map(|v| Vec3::from(*v));
        *out = Rigid::frame(o, x, y, z).numbers();
        0
    }
    #[inline(never)]
    pub fn apply(m: &[f64; 12], p: &[f64; 3], out: &mut [f64; 3]) -> u32 {
        *out = Rigid::of_numbers(m).apply(Vec3::from(*p)).to_array();
        0
    }
    #[inline(never)]
    pub fn apply_vector(m: &[f64; 12], v: &[f64; 3], out: &mut [f64; 3]) -> u32 {
        *out = Rigid::of_numbers(m).apply_vector(Vec3::from(*v)).to_array();
        0
    }
}

mod second {
    use crate::track::{Vec3, answer, answer_vec3, in_range, num, vec3};

    pub fn rotation(axis: &[f64; 3], angle: f64, out: &mut [f64; 12]) -> u32 {
        if !in_range(&[axis, &[angle]]) {
            return 1;
        }
        let a = vec3(axis);
        let Vec3 { x, y, z } = a * (num(1.0) / a.dot(a).sqrt());
        let (s, c) = num(angle).sincos();
        let t = num(1.0) - c;
        let o = num(0.0);
        answer(
            out,
            [
                t * x * x + c,
                t * x * y - s * z,
                t * x * z + s * y,
                t * x * y + s * z,
                t * y * y + c,
                t * y * z - s * x,
                t * x * z - s * y,
                t * y * z + s * x,
                t * z * z + c,
                o,
                o,
                o,
            ],
        )
    }

    pub fn frame(origin: &[f64; 3], x: &[f64; 3], y: &[f64; 3], z: &[f64; 3], out: &mut [f64; 12]) -> u32 {
        if !in_range(&[origin, x, y, z]) {
            return 1;
        }
        for row in 0..3 {
            out[3 * row..3 * row + 3].copy_from_slice(&[x[row], y[row], z[row]]);
        }
        out[9..].copy_from_slice(origin);
        0
    }

    fn turned(m: &[f64; 12], v: &[f64; 3]) -> Vec3 {
        let row = |k: usize| vec3(&m[3 * k..]).dot(vec3(v));
        Vec3 { x: row(0), y: row(1), z: row(2) }
    }

    pub fn apply(m: &[f64; 12], p: &[f64; 3], out: &mut [f64; 3]) -> u32 {
        if !in_range(&[m, p]) {
            return 1;
        }
        answer_vec3(out, turned(m, p) + vec3(&m[9..]))
    }

    pub fn apply_vector(m: &[f64; 12], v: &[f64; 3], out: &mut [f64; 3]) -> u32 {
        if !in_range(&[m, v]) {
            return 1;
        }
        answer_vec3(out, turned(m, v))
    }
}

fn about_unit_axis(d: &mut Draw, i: &mut [f64]) {
    i[..3].copy_from_slice(&d.direction());
    i[3] = d.between(-7.0, 7.0);
}

fn quarter_turns(d: &mut Draw, i: &mut [f64]) {
    i[..3].copy_from_slice(&d.direction());
    i[3] = d.whole(-8, 8) as f64 * std::f64::consts::FRAC_PI_2;
}

fn large_angle(d: &mut Draw, i: &mut [f64]) {
    classes::lengths(d, i);
    i[3] = d.near(1_048_576.0, 2) * d.sign();
}

/// Axes so short that their square is 0, or a root of it far from the length.
fn short_axis(d: &mut Draw, i: &mut [f64]) {
    let e = d.whole(-545, -505);
    i.fill_with(|| d.magnitude(e - 2, e));
    i[3] = d.between(-7.0, 7.0);
}

const ROTATIONS: &[Class] = &[
    ("unit axes", about_unit_axis),
    ("quarter turns", quarter_turns),
    ("neighbours of 1048576", large_angle),
    ("short axes", short_axis),
    NUMBERS[0],
    NUMBERS[1],
    NUMBERS[2],
    NUMBERS[3],
    NUMBERS[4],
    NUMBERS[5],
];

fn motion(d: &mut Draw, i: &mut [f64]) {
    classes::lengths(d, i);
    let (axis, angle) = (Vec3::from(d.direction()), d.between(-7.0, 7.0));
    i[..9].copy_from_slice(&Rigid::rotation(axis, angle).numbers()[..9]);
}

const MOTIONS: &[Class] =
    &[("rotations with a shift", motion), NUMBERS[0], NUMBERS[1], NUMBERS[2], NUMBERS[3], NUMBERS[4], NUMBERS[5]];

const FULL: u64 = 5_000_000;

pub const ENTRIES: &[Entry] = &[
    entry!(rotation, jr_rigid_rotation, 4, 12, FULL, ROTATIONS, |f, i, o| f(at(i, 0), i[3], out(o))),
    entry!(frame, jr_rigid_frame, 12, 12, FULL, NUMBERS, |f, i, o| f(at(i, 0), at(i, 3), at(i, 6), at(i, 9), out(o))),
    entry!(apply, jr_rigid_apply, 15, 3, FULL, MOTIONS, |f, i, o| f(at(i, 0), at(i, 12), out(o))),
    entry!(apply_vector, jr_rigid_apply_vector, 15, 3, FULL, MOTIONS, |f, i, o| f(at(i, 0), at(i, 12), out(o))),
];

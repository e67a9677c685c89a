//! Vectors: every operation beside the Rust's.

use crate::classes::NUMBERS;
use crate::entry::{Entry, at, entry, out};

unsafe extern "C" {
    safe fn jr_vec3_dot(a: &[f64; 3], b: &[f64; 3], out: &mut [f64; 1]) -> u32;
    safe fn jr_vec3_cross(a: &[f64; 3], b: &[f64; 3], out: &mut [f64; 3]) -> u32;
    safe fn jr_vec3_sum(a: &[f64; 3], b: &[f64; 3], out: &mut [f64; 3]) -> u32;
    safe fn jr_vec3_difference(a: &[f64; 3], b: &[f64; 3], out: &mut [f64; 3]) -> u32;
    safe fn jr_vec3_negation(a: &[f64; 3], out: &mut [f64; 3]) -> u32;
    safe fn jr_vec3_times(a: &[f64; 3], k: f64, out: &mut [f64; 3]) -> u32;
    safe fn jr_vec3_dominant_axis(a: &[f64; 3], out: &mut [u64; 1]) -> u32;
}

mod rust {
    use datum_math::Vec3;

    #[inline(never)]
    pub fn dot(a: &[f64; 3], b: &[f64; 3], out: &mut [f64; 1]) -> u32 {
        out[0] = Vec3::from(*a).dot(Vec3::from(*b));
        0
    }
    #[inline(never)]
    pub fn cross(a: &[f64; 3], b: &[f64; 3], out: &mut [f64; 3]) -> u32 {
        *out = Vec3::from(*a).cross(Vec3::from(*b)).to_array();
        0
    }
    #[inline(never)]
    pub fn sum(a: &[f64; 3], b: &[f64; 3], out: &mut [f64; 3]) -> u32 {
        *out = (Vec3::from(*a) + Vec3::from(*b)).to_array();
        0
    }
    #[inline(never)]
    pub fn difference(a: &[f64; 3], b: &[f64; 3], out: &mut [f64; 3]) -> u32 {
        *out = (Vec3::from(*a) - Vec3::from(*b)).to_array();
        0
    }
    #[inline(never)]
    pub fn negation(a: &[f64; 3], out: &mut [f64; 3]) -> u32 {
        *out = (-Vec3::from(*a)).to_array();
        0
    }
    #[inline(never)]
    pub fn times(a: &[f64; 3], k: f64, out: &mut [f64; 3]) -> u32 {
        *out = (Vec3::from(*a) * k).to_array();
        0
    }
    #[inline(never)]
    pub fn dominant_axis(a: &[f64; 3], out: &mut [u64; 1]) -> u32 {
        out[0] = Vec3::from(*a).dominant_axis() as u64;
        0
    }
}

mod second {
    use crate::track::{Vec3, answer, answer_vec3, in_range, num, vec3};

    fn of_two(a: &[f64; 3], b: &[f64; 3], out: &mut [f64; 3], formula: fn(Vec3, Vec3) -> Vec3) -> u32 {
        if in_range(&[a, b]) { answer_vec3(out, formula(vec3(a), vec3(b))) } else { 1 }
    }

    pub fn dot(a: &[f64; 3], b: &[f64; 3], out: &mut [f64; 1]) -> u32 {
        if in_range(&[a, b]) { answer(out, [vec3(a).dot(vec3(b))]) } else { 1 }
    }
    pub fn cross(a: &[f64; 3], b: &[f64; 3], out: &mut [f64; 3]) -> u32 {
        of_two(a, b, out, Vec3::cross)
    }
    pub fn sum(a: &[f64; 3], b: &[f64; 3], out: &mut [f64; 3]) -> u32 {
        of_two(a, b, out, |a, b| a + b)
    }
    pub fn difference(a: &[f64; 3], b: &[f64; 3], out: &mut [f64; 3]) -> u32 {
        of_two(a, b, out, |a, b| a - b)
    }
    pub fn negation(a: &[f64; 3], out: &mut [f64; 3]) -> u32 {
        if in_range(&[a]) { answer_vec3(out, -vec3(a)) } else { 1 }
    }
    pub fn times(a: &[f64; 3], k: f64, out: &mut [f64; 3]) -> u32 {
        if in_range(&[a, &[k]]) { answer_vec3(out, vec3(a) * num(k)) } else { 1 }
    }
    /// The first coordinate that no other exceeds in magnitude.
    pub fn dominant_axis(a: &[f64; 3], out: &mut [u64; 1]) -> u32 {
        if !in_range(&[a]) {
            return 1;
        }
        let greatest = a.iter().fold(0.0, |m: f64, x| m.max(x.abs()));
        out[0] = a.iter().position(|x| x.abs() == greatest).unwrap() as u64;
        0
    }
}

const FULL: u64 = 5_000_000;

pub const ENTRIES: &[Entry] = &[
    entry!(dot, jr_vec3_dot, 6, 1, FULL, NUMBERS, |f, i, o| f(at(i, 0), at(i, 3), out(o))),
    entry!(cross, jr_vec3_cross, 6, 3, FULL, NUMBERS, |f, i, o| f(at(i, 0), at(i, 3), out(o))),
    entry!(sum, jr_vec3_sum, 6, 3, FULL, NUMBERS, |f, i, o| f(at(i, 0), at(i, 3), out(o))),
    entry!(difference, jr_vec3_difference, 6, 3, FULL, NUMBERS, |f, i, o| f(at(i, 0), at(i, 3), out(o))),
    entry!(negation, jr_vec3_negation, 3, 3, FULL, NUMBERS, |f, i, o| f(at(i, 0), out(o))),
    entry!(times, jr_vec3_times, 4, 3, FULL, NUMBERS, |f, i, o| f(at(i, 0), i[3], out(o))),
    Entry {
        whole_outputs: &[0],
        ..entry!(dominant_axis, jr_vec3_dominant_axis, 3, 1, FULL, NUMBERS, |f, i, o| {
            let mut axis = [77];
            let refusal = f(at(i, 0), &mut axis);
            o[0] = axis[0] as f64;
            refusal
        })
    },
];

//! Developments: ten numbers, the origin, the axis, the start and the neutral radius.

use crate::draw::Draw;
use crate::entry::{Class, Entry, at, entry, out};
use crate::shapes::{self, Rolls};

unsafe extern "C" {
    safe fn jr_development_radial(dev: &[f64; 10], u: f64, out: &mut [f64; 3]) -> u32;
    safe fn jr_development_point(dev: &[f64; 10], p: &[f64; 2], r: f64, out: &mut [f64; 3]) -> u32;
    safe fn jr_development_along(dev: &[f64; 10], p: &[f64; 2], d: &[f64; 2], r: f64, out: &mut [f64; 3]) -> u32;
    safe fn jr_development_unroll(dev: &[f64; 10], q: &[f64; 3], near: f64, out: &mut [f64; 3]) -> u32;
    safe fn jr_development_moved(dev: &[f64; 10], m: &[f64; 12], out: &mut [f64; 10]) -> u32;
}

pub mod rust {
    use datum_math::{Rigid, Vec2, Vec3};

    use crate::curve::Development;

    pub fn development(d: &[f64]) -> Development {
        let at = |k: usize| Vec3::new(d[k], d[k + 1], d[k + 2]);
        Development { origin: at(0), axis: at(3), start: at(6), neutral: d[9] }
    }

    #[inline(never)]
    pub fn development_radial(dev: &[f64; 10], u: f64, out: &mut [f64; 3]) -> u32 {
        *out = development(dev).radial(u).to_array();
        0
    }
    #[inline(never)]
    pub fn development_point(dev: &[f64; 10], p: &[f64; 2], r: f64, out: &mut [f64; 3]) -> u32 {
        *out = development(dev).point(Vec2::from(*p), r).to_array();
        0
    }
    #[inline(never)]
    pub fn development_along(dev: &[f64; 10], p: &[f64; 2], d: &[f64; 2], r: f64, out: &mut [f64; 3]) -> u32 {
        *out = development(dev).along(Vec2::from(*p), Vec2::from(*d), r).to_array();
        0
    }
    #[inline(never)]
    pub fn development_unroll(dev: &[f64; 10], q: &[f64; 3], near: f64, out: &mut [f64; 3]) -> u32 {
        let (p, distance) = development(dev).unroll(Vec3::from(*q), near);
        *out = [p.x, p.y, distance];
        0
    }
    #[inline(never)]
    pub fn development_moved(dev: &[f64; 10], m: &[f64; 12], out: &mut [f64; 10]) -> u32 {
        *out = development(dev).moved(&Rigid::of_numbers(m)).floats();
        0
    }
}

pub mod second {
    use std::f64::consts::TAU;

    use crate::track::{Num, Vec2, Vec3, answer, answer_vec3, first_failed, in_range, num, vec2, vec3};

    #[derive(Clone, Copy)]
    pub struct Development {
        pub origin: Vec3,
        pub axis: Vec3,
        pub start: Vec3,
        pub neutral: Num,
    }

    pub fn development(d: &[f64]) -> Development {
        Development { origin: vec3(d), axis: vec3(&d[3..]), start: vec3(&d[6..]), neutral: num(d[9]) }
    }

    /// Number 2.
    pub fn is_no_radius(neutral: f64) -> bool {
        !(neutral > 0.0)
    }

    /// A point moved by the twelve numbers of a motion, and a direction turned by them.
    pub fn applied(m: &[f64; 12], p: Vec3) -> Vec3 {
        turned(m, p) + vec3(&m[9..])
    }

    pub fn turned(m: &[f64; 12], v: Vec3) -> Vec3 {
        let row = |k: usize| vec3(&m[3 * k..]).dot(v);
        Vec3 { x: row(0), y: row(1), z: row(2) }
    }

    impl Development {
        pub fn radial(&self, u: Num) -> Vec3 {
            let (s, c) = (u / self.neutral).sincos();
            self.start * c + self.axis.cross(self.start) * s
        }

        pub fn point(&self, p: Vec2, r: Num) -> Vec3 {
            self.origin + self.axis * p.y + self.radial(p.x) * r
        }

        pub fn along(&self, p: Vec2, d: Vec2, r: Num) -> Vec3 {
            self.axis.cross(self.radial(p.x)) * (d.x * r / self.neutral) + self.axis * d.y
        }

        pub fn unroll(&self, q: Vec3, near: Num) -> (Vec2, Num) {
            let w = q - self.origin;
            let v = w.dot(self.axis);
            let across = w - self.axis * v;
            let u = self.neutral * across.dot(self.axis.cross(self.start)).atan2(across.dot(self.start));
            let turn = self.neutral * num(TAU);
            (Vec2 { x: u + turn * ((near - u) / turn).round(), y: v }, across.dot(across).sqrt())
        }

        pub fn moved(&self, m: &[f64; 12]) -> Self {
            let (origin, axis, start) = (applied(m, self.origin), turned(m, self.axis), turned(m, self.start));
            Self { origin, axis, start, neutral: self.neutral }
        }

        pub fn numbers(&self) -> [Num; 10] {
            let Self { origin: o, axis: a, start: s, neutral } = *self;
            [o.x, o.y, o.z, a.x, a.y, a.z, s.x, s.y, s.z, neutral]
        }
    }

    fn due(dev: &[f64; 10], others: &[&[f64]]) -> u32 {
        first_failed(&[(1, !in_range(&[dev]) || !in_range(others)), (2, is_no_radius(dev[9]))])
    }

    pub fn development_radial(dev: &[f64; 10], u: f64, out: &mut [f64; 3]) -> u32 {
        match due(dev, &[&[u]]) {
            0 => answer_vec3(out, development(dev).radial(num(u))),
            number => number,
        }
    }

    pub fn development_point(dev: &[f64; 10], p: &[f64; 2], r: f64, out: &mut [f64; 3]) -> u32 {
        match due(dev, &[p, &[r]]) {
            0 => answer_vec3(out, development(dev).point(vec2(p), num(r))),
            number => number,
        }
    }

    pub fn development_along(dev: &[f64; 10], p: &[f64; 2], d: &[f64; 2], r: f64, out: &mut [f64; 3]) -> u32 {
        match due(dev, &[p, d, &[r]]) {
            0 => answer_vec3(out, development(dev).along(vec2(p), vec2(d), num(r))),
            number => number,
        }
    }

    pub fn development_unroll(dev: &[f64; 10], q: &[f64; 3], near: f64, out: &mut [f64; 3]) -> u32 {
        match due(dev, &[q, &[near]]) {
            0 => {
                let (p, distance) = development(dev).unroll(vec3(q), num(near));
                answer(out, [p.x, p.y, distance])
            }
            number => number,
        }
    }

    pub fn development_moved(dev: &[f64; 10], m: &[f64; 12], out: &mut [f64; 10]) -> u32 {
        match due(dev, &[m]) {
            0 => answer(out, development(dev).moved(m).numbers()),
            number => number,
        }
    }
}

/// Coordinates in the development, derivatives of these, distances from the axis, places near it.
fn beside(d: &mut Draw, i: &mut [f64], rolls: Rolls) {
    i[..10].copy_from_slice(&shapes::development(d, rolls));
    let neutral = i[9];
    i[10..].fill_with(|| match d.below(8) {
        0 => d.whole(-12, 12) as f64,
        1 => neutral * d.between(-7.0, 7.0),
        2 => d.pick(&[0.0, -0.0, neutral, 1_048_576.0, -1_048_576.0]),
        _ => d.between(-2000.0, 2000.0),
    });
    if matches!(rolls, Rolls::Limits) {
        // The angle at its limit, to both sides.
        let last = i.len() - 1;
        let (at, limit) = (if d.below(2) == 0 { 10 } else { last }, d.pick(&[1_048_576.0, 3_000_000.0, 1.0, 3.0, 0.5]));
        let far = d.near(neutral * limit, 2);
        if far.abs() <= 1_048_576.0 && d.below(4) != 0 {
            i[at] = far * d.sign();
        }
    }
    shapes::numbers(d, i, rolls);
    shapes::refused_neutral(d, &mut i[9], rolls);
}

/// A point of the cylinder, or near it, or on its axis, and where the turn is looked for.
fn near_by(d: &mut Draw, i: &mut [f64], rolls: Rolls) {
    beside(d, i, rolls);
    if matches!(rolls, Rolls::Pipe | Rolls::Limits) && d.below(8) != 0 {
        let u = i[9] * d.between(-4.0, 4.0);
        let r = if d.below(8) == 0 { 0.0 } else { i[9] * d.between(0.5, 1.5) };
        let p = rust::development(i).point(datum_math::Vec2::new(u, i[10]), r).to_array();
        i[10..13].copy_from_slice(&p);
        // Half a turn away: there the turn is rounded to either side.
        let half = u + i[9] * std::f64::consts::PI * d.whole(-3, 3) as f64;
        i[13] = if d.below(3) == 0 { d.near(half, 2) } else { u + i[9] * d.between(-20.0, 20.0) };
    }
}

fn moved(d: &mut Draw, i: &mut [f64], rolls: Rolls) {
    beside(d, i, rolls);
    if matches!(rolls, Rolls::Pipe | Rolls::Limits) {
        i[10..22].copy_from_slice(&shapes::motion(d));
    }
}

/// The classes of an entry on a development.
macro_rules! rolls {
    ($draw:ident) => {{
        const CLASSES: &[Class] = &[
            ("rolled sheets", |d, i| $draw(d, i, Rolls::Pipe)),
            ("angles at the limit, neutral at its ends", |d, i| $draw(d, i, Rolls::Limits)),
            ("nice whole numbers", |d, i| $draw(d, i, Rolls::Whole)),
            ("wild", |d, i| $draw(d, i, Rolls::Wild)),
            ("tiny and subnormal", |d, i| $draw(d, i, Rolls::Tiny)),
            ("signed zeros", |d, i| $draw(d, i, Rolls::Zeros)),
            ("no neutral radius", |d, i| $draw(d, i, Rolls::Refused)),
            ("every bit pattern", |d, i| $draw(d, i, Rolls::Every)),
        ];
        CLASSES
    }};
}

const FULL: u64 = 5_000_000;

pub const ENTRIES: &[Entry] = &[
    entry!(development_radial, jr_development_radial, 11, 3, FULL, rolls!(beside), |f, i, o| f(at(i, 0), i[10], out(o))),
    entry!(development_point, jr_development_point, 13, 3, FULL, rolls!(beside), |f, i, o| f(at(i, 0), at(i, 10), i[12], out(o))),
    entry!(development_along, jr_development_along, 15, 3, FULL, rolls!(beside), |f, i, o| f(at(i, 0), at(i, 10), at(i, 12), i[14], out(o))),
    entry!(development_unroll, jr_development_unroll, 14, 3, FULL, rolls!(near_by), |f, i, o| f(at(i, 0), at(i, 10), i[13], out(o))),
    entry!(development_moved, jr_development_moved, 22, 10, FULL, rolls!(moved), |f, i, o| f(at(i, 0), at(i, 10), out(o))),
];

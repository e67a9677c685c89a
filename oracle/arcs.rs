//! Arcs: of a profile, and of an edge (centre, axis, radius).

use std::f64::consts::{PI, TAU};

use crate::classes::{self, NUMBERS};
use crate::draw::{Draw, SPECIAL};
use crate::entry::{Class, Entry, at, entry, out};

unsafe extern "C" {
    safe fn jr_profile_arc_turn(centre: &[f64; 2], ccw: bool, a: &[f64; 2], b: &[f64; 2], out: &mut [f64; 1]) -> u32;
    safe fn jr_unit(v: &[f64; 3], out: &mut [f64; 3]) -> u32;
    safe fn jr_per_turn(radius: f64, chord: f64, out: &mut [f64; 1]) -> u32;
    safe fn jr_arc_reversed(arc: &[f64; 7], out: &mut [f64; 7]) -> u32;
    safe fn jr_arc_sweep(arc: &[f64; 7], from: &[f64; 3], to: &[f64; 3], out: &mut [f64; 1]) -> u32;
    safe fn jr_arc_at(arc: &[f64; 7], from: &[f64; 3], t: f64, out: &mut [f64; 3]) -> u32;
    // A row is lent as its start and its length; `row` below is always of that length.
    safe fn jr_arc_inner_points(arc: &[f64; 7], from: &[f64; 3], to: &[f64; 3], chord: f64, row: *mut f64, length: usize, written: &mut [u64; 1]) -> u32;
    safe fn jr_arc_extend_bounds(arc: &[f64; 7], from: &[f64; 3], to: &[f64; 3], corners: &mut [f64; 6]) -> u32;
}

/// The port's box call of an arc, for lists of box calls.
pub fn port_extend_bounds(arc: &[f64; 7], from: &[f64; 3], to: &[f64; 3], corners: &mut [f64; 6]) -> u32 {
    jr_arc_extend_bounds(arc, from, to, corners)
}

pub mod rust {
    use datum_math::{Vec2, Vec3};

    use crate::ProfileArc;
    use crate::curve::{self, Arc};

    pub fn arc(a: &[f64; 7]) -> Arc {
        Arc { center: Vec3::new(a[0], a[1], a[2]), axis: Vec3::new(a[3], a[4], a[5]), radius: a[6] }
    }

    #[inline(never)]
    pub fn turn(centre: &[f64; 2], ccw: bool, a: &[f64; 2], b: &[f64; 2], out: &mut [f64; 1]) -> u32 {
        out[0] = ProfileArc { center: Vec2::from(*centre), ccw }.turn(Vec2::from(*a), Vec2::from(*b));
        0
    }
    #[inline(never)]
    pub fn unit(v: &[f64; 3], out: &mut [f64; 3]) -> u32 {
        *out = curve::unit(Vec3::from(*v)).to_array();
        0
    }
    #[inline(never)]
    pub fn per_turn(radius: f64, chord: f64, out: &mut [f64; 1]) -> u32 {
        out[0] = curve::per_turn(radius, chord);
        0
    }
    #[inline(never)]
    pub fn reversed(a: &[f64; 7], out: &mut [f64; 7]) -> u32 {
        let r = arc(a).reversed();
        *out = [r.center.x, r.center.y, r.center.z, r.axis.x, r.axis.y, r.axis.z, r.radius];
        0
    }
    #[inline(never)]
    pub fn sweep(a: &[f64; 7], from: &[f64; 3], to: &[f64; 3], out: &mut [f64; 1]) -> u32 {
        out[0] = arc(a).sweep(Vec3::from(*from), Vec3::from(*to));
        0
    }
    #[inline(never)]
    pub fn at(a: &[f64; 7], from: &[f64; 3], t: f64, out: &mut [f64; 3]) -> u32 {
        *out = arc(a).at(Vec3::from(*from), t).to_array();
        0
    }
    #[inline(never)]
    pub fn inner_points(a: &[f64; 7], from: &[f64; 3], to: &[f64; 3], chord: f64, row: *mut f64, length: usize, written: &mut [u64; 1]) -> u32 {
        let row = unsafe { std::slice::from_raw_parts_mut(row, length) };
        written[0] = 0;
        for (place, p) in row.chunks_exact_mut(3).zip(arc(a).inner_points(Vec3::from(*from), Vec3::from(*to), chord)) {
            place.copy_from_slice(&p.to_array());
            written[0] += 3;
        }
        0
    }
    #[inline(never)]
    pub fn extend_bounds(a: &[f64; 7], from: &[f64; 3], to: &[f64; 3], corners: &mut [f64; 6]) -> u32 {
        let mut low = Vec3::new(corners[0], corners[1], corners[2]);
        let mut high = Vec3::new(corners[3], corners[4], corners[5]);
        arc(a).extend_bounds(Vec3::from(*from), Vec3::from(*to), &mut low, &mut high);
        *corners = [low.x, low.y, low.z, high.x, high.y, high.z];
        0
    }
}

pub mod second {
    use std::f64::consts::{PI, TAU};

    use crate::track::{Num, Path, Vec2, Vec3, answer, answer_vec3, in_range, num, vec2, vec3};

    pub struct Arc {
        pub centre: Vec3,
        pub axis: Vec3,
        pub radius: Num,
    }

    pub fn arc(a: &[f64; 7]) -> Arc {
        Arc { centre: vec3(&a[..3]), axis: vec3(&a[3..6]), radius: num(a[6]) }
    }

    pub fn turn(centre: &[f64; 2], ccw: bool, a: &[f64; 2], b: &[f64; 2], out: &mut [f64; 1]) -> u32 {
        if !in_range(&[centre, a, b]) {
            return 1;
        }
        answer(out, [turned(vec2(centre), ccw, vec2(a), vec2(b))])
    }

    pub fn turned(centre: Vec2, ccw: bool, a: Vec2, b: Vec2) -> Num {
        let from_centre = |p: Vec2| (p.x - centre.x, p.y - centre.y);
        let ((ux, uy), (vx, vy)) = (from_centre(a), from_centre(b));
        let t = (ux * vy - uy * vx).atan2(ux * vx + uy * vy);
        let whole = if ccw { t.value <= 0.0 } else { t.value >= 0.0 };
        let full = num(if ccw { TAU } else { -TAU });
        if whole { t + full } else { t }
    }

    pub fn unit(v: &[f64; 3], out: &mut [f64; 3]) -> u32 {
        if !in_range(&[v]) {
            return 1;
        }
        let v = vec3(v);
        answer_vec3(out, v * (num(1.0) / v.dot(v).sqrt()))
    }

    pub fn chords_per_turn(radius: Num, chord: Num, path: &mut Path) -> Num {
        let n = if path.reads(chord) < path.reads(radius) {
            num(PI).over_clamped((num(1.0) - chord / radius).acos())
        } else {
            num(0.0)
        };
        n.ceil_clamp(12.0, 64.0)
    }

    pub fn per_turn(radius: f64, chord: f64, out: &mut [f64; 1]) -> u32 {
        if !in_range(&[&[radius, chord]]) {
            return 1;
        }
        if chord < 0.0 {
            return 5;
        }
        let mut path = Path::new();
        let n = chords_per_turn(num(radius), num(chord), &mut path);
        let n = path.reads(n);
        if path.due() == 0 {
            out[0] = n;
        }
        path.due()
    }

    pub fn reversed(a: &[f64; 7], out: &mut [f64; 7]) -> u32 {
        if !in_range(&[a]) {
            return 1;
        }
        *out = [a[0], a[1], a[2], -a[3], -a[4], -a[5], a[6]];
        0
    }

    impl Arc {
        pub fn sweep(&self, from: Vec3, to: Vec3) -> Num {
            let (u, v) = (from - self.centre, to - self.centre);
            let a = self.axis.dot(u.cross(v)).atan2(u.dot(v));
            if a.value <= 0.0 { a + num(TAU) } else { a }
        }

        pub fn at(&self, from: Vec3, t: Num) -> Vec3 {
            let d = from - self.centre;
            let d = d - self.axis * d.dot(self.axis);
            let d = d * (self.radius / d.dot(d).sqrt());
            let (s, c) = t.sincos();
            self.centre + d * c + self.axis.cross(d) * s
        }

        /// The points that a box call takes: both ends, then the candidates on the arc.
        pub fn extremes(&self, from: Vec3, to: Vec3, path: &mut Path) -> Vec<[f64; 3]> {
            let sweep = path.reads(self.sweep(from, to));
            let mut taken = vec![from.read(path), to.read(path)];
            for e in [[1.0, 0.0, 0.0], [0.0, 1.0, 0.0], [0.0, 0.0, 1.0]] {
                let e = vec3(&e);
                let w = e - self.axis * e.dot(self.axis);
                let w = w - self.axis * w.dot(self.axis);
                let length = w.dot(w).sqrt();
                if path.reads(length) > 0.0 {
                    for s in [1.0, -1.0] {
                        let p = self.centre + w * (num(s) * self.radius / length);
                        if path.reads(self.sweep(from, p)) < sweep {
                            taken.push(p.read(path));
                        }
                    }
                }
            }
            taken
        }
    }

    pub fn sweep(a: &[f64; 7], from: &[f64; 3], to: &[f64; 3], out: &mut [f64; 1]) -> u32 {
        if !in_range(&[a, from, to]) {
            return 1;
        }
        answer(out, [arc(a).sweep(vec3(from), vec3(to))])
    }

    pub fn at(a: &[f64; 7], from: &[f64; 3], t: f64, out: &mut [f64; 3]) -> u32 {
        if !in_range(&[a, from, &[t]]) {
            return 1;
        }
        answer_vec3(out, arc(a).at(vec3(from), num(t)))
    }

    pub fn inner_points(a: &[f64; 7], from: &[f64; 3], to: &[f64; 3], chord: f64, row: *mut f64, length: usize, written: &mut [u64; 1]) -> u32 {
        if !in_range(&[a, from, to, &[chord]]) {
            return 1;
        }
        if chord < 0.0 {
            return 5;
        }
        let (arc, from, to) = (arc(a), vec3(from), vec3(to));
        let mut path = Path::new();
        let sweep = arc.sweep(from, to);
        let chords = (sweep / num(TAU) * chords_per_turn(arc.radius, num(chord), &mut path)).ceil();
        let n = path.count(chords).max(1);
        if path.due() != 0 {
            return path.due();
        }
        if (length as u64) < 3 * (n - 1) {
            return 6;
        }
        let mut points = Vec::new();
        for k in 1..n {
            let p = arc.at(from, sweep * num(k as f64) / num(n as f64));
            points.extend_from_slice(&p.read(&mut path));
        }
        if path.due() == 0 {
            let row = unsafe { std::slice::from_raw_parts_mut(row, length) };
            row[..points.len()].copy_from_slice(&points);
            written[0] = points.len() as u64;
        }
        path.due()
    }

    /// Of two zeros of unlike sign the negative one; neither is a NaN.
    pub fn least(a: f64, b: f64) -> f64 {
        if a < b || (a == b && a.is_sign_negative()) { a } else { b }
    }

    pub fn greatest(a: f64, b: f64) -> f64 {
        -least(-a, -b)
    }

    /// Whether the call is refused does not depend on the box, once it is free of NaN.
    pub fn extend_bounds(a: &[f64; 7], from: &[f64; 3], to: &[f64; 3], corners: &mut [f64; 6]) -> u32 {
        if !in_range(&[a, from, to]) {
            return 1;
        }
        if corners.iter().any(|x| x.is_nan()) {
            return 4;
        }
        let mut path = Path::new();
        let taken = arc(a).extremes(vec3(from), vec3(to), &mut path);
        if path.due() == 0 {
            for p in taken {
                for k in 0..3 {
                    corners[k] = least(corners[k], p[k]);
                    corners[k + 3] = greatest(corners[k + 3], p[k]);
                }
            }
        }
        path.due()
    }
}

// --- profile arcs, units, chords ---

fn around(d: &mut Draw, i: &mut [f64]) {
    let (x, y, r) = (d.between(-1000.0, 1000.0), d.between(-1000.0, 1000.0), d.between(5.0, 500.0));
    let [a, b] = [0, 1].map(|_| if d.below(3) == 0 { d.whole(-8, 8) as f64 * PI / 8.0 } else { d.between(-PI, PI) });
    i.copy_from_slice(&[x, y, d.sign(), x + r * a.cos(), y + r * a.sin(), x + r * b.cos(), y + r * b.sin()]);
}

/// One point twice, points a step apart, opposite points, a point at the centre.
fn degenerate_turn(d: &mut Draw, i: &mut [f64]) {
    around(d, i);
    for k in 0..2 {
        i[5 + k] = match d.below(5) {
            0 | 1 => i[3 + k],
            2 => d.near(i[3 + k], 1),
            3 => 2.0 * i[k] - i[3 + k],
            _ => i[k],
        };
    }
}

const TURNS: &[Class] = &[
    ("points of a circle", around),
    ("degenerate", degenerate_turn),
    NUMBERS[0],
    NUMBERS[1],
    NUMBERS[2],
    NUMBERS[3],
    NUMBERS[4],
    NUMBERS[5],
];

/// Vectors whose square leaves the normal numbers, or is 0.
fn short(d: &mut Draw, i: &mut [f64]) {
    let e = d.whole(-545, -505);
    i.fill_with(|| d.magnitude(e - 2, e));
}

const VECTORS: &[Class] = &[("short", short), NUMBERS[0], NUMBERS[1], NUMBERS[2], NUMBERS[3], NUMBERS[4], NUMBERS[5]];

fn tolerances(d: &mut Draw, i: &mut [f64]) {
    i[0] = d.between(5.0, 500.0);
    i[1] = d.magnitude(-30, 6).abs();
}

/// Chords at which the count steps from one whole number to the next.
fn steps(d: &mut Draw, i: &mut [f64]) {
    i[0] = if d.below(2) == 0 { d.whole(1, 500) as f64 } else { d.between(5.0, 500.0) };
    let chord = i[0] * (1.0 - (PI / d.whole(2, 70) as f64).cos());
    i[1] = d.near(chord, 8);
}

/// Chords about the radius, far below it, zero, a step below zero; radii zero and negative.
fn chord_limits(d: &mut Draw, i: &mut [f64]) {
    i[0] = d.pick(&[5.0, 1e-300, 5e-324, 0.0, -0.0, -5.0, 1_048_576.0]);
    let radius = d.near(i[0], 1);
    let small = d.magnitude(-70, -40).abs();
    i[1] = d.pick(&[0.0, -0.0, radius, i[0] * small, 5e-324, -5e-324, 1_048_576.0]);
}

fn not_negative(d: &mut Draw, i: &mut [f64]) {
    classes::wild(d, i);
    i[1] = i[1].abs();
}

const CHORDS: &[Class] = &[
    ("radii and tolerances", tolerances),
    ("where the count steps", steps),
    ("limits", chord_limits),
    ("wild, chord not negative", not_negative),
    NUMBERS[0],
    NUMBERS[2],
    NUMBERS[3],
    NUMBERS[4],
    NUMBERS[5],
];

// --- arcs of edges ---

#[derive(Clone, Copy)]
pub enum Kind {
    ByHand,
    Nice,
    Pipe,
    Whole,
    Wild,
    Tiny,
    Zeros,
    Degenerate,
    Every,
}

/// A point of the circle of `arc` up to rounding, at an angle from an arbitrary start.
fn on_circle(arc: &[f64; 7], angle: f64) -> [f64; 3] {
    let a = [arc[3], arc[4], arc[5]];
    // The coordinate least along the axis gives a start across it.
    let k = if a[0].abs() < 0.6 { 0 } else { 1 };
    let mut e = [0.0; 3];
    e[k] = 1.0;
    let along = a[k];
    let e = [0, 1, 2].map(|j| e[j] - a[j] * along);
    let length = e.iter().map(|x| x * x).sum::<f64>().sqrt();
    let e = e.map(|x| x / length);
    let f = [a[1] * e[2] - a[2] * e[1], a[2] * e[0] - a[0] * e[2], a[0] * e[1] - a[1] * e[0]];
    [0, 1, 2].map(|j| arc[j] + arc[6] * (e[j] * angle.cos() + f[j] * angle.sin()))
}

fn pipe(d: &mut Draw) -> [f64; 13] {
    let mut i = [0.0; 13];
    i[..3].fill_with(|| d.between(-2000.0, 2000.0));
    i[3..6].copy_from_slice(&d.direction());
    i[6] = if d.below(2) == 0 { d.whole(5, 500) as f64 } else { d.between(5.0, 500.0) };
    for k in [7, 10] {
        let angle = if d.below(3) == 0 { d.whole(-8, 8) as f64 * PI / 8.0 } else { d.between(-PI, PI) };
        let p = on_circle(at(&i, 0), angle);
        i[k..k + 3].copy_from_slice(&p);
    }
    i
}

/// Whole centres, axes along a coordinate, ends that lie on the circle exactly.
fn nice(d: &mut Draw) -> [f64; 13] {
    let mut i = [0.0; 13];
    let scale = d.whole(1, 8) as f64;
    i[..3].fill_with(|| d.whole(-20, 20) as f64);
    let k = d.below(3) as usize;
    i[3 + k] = d.sign();
    i[6] = 5.0 * scale;
    for end in [7, 10] {
        let (x, y) = [(5.0, 0.0), (0.0, 5.0), (3.0, 4.0), (4.0, 3.0)][d.below(4) as usize];
        i[end + k] = i[k];
        i[end + (k + 1) % 3] = i[(k + 1) % 3] + scale * x * d.sign();
        i[end + (k + 2) % 3] = i[(k + 2) % 3] + scale * y * d.sign();
    }
    i
}

/// A pipe's arc with an end on the axis or at the centre, equal ends, ends a step apart, no axis, an axis along a coordinate
/// up to rounding, no radius.
fn degenerate(d: &mut Draw) -> [f64; 13] {
    let mut i = if d.below(2) == 0 { pipe(d) } else { nice(d) };
    for _ in 0..=d.below(2) {
        let (end, other) = if d.below(2) == 0 { (7, 10) } else { (10, 7) };
        match d.below(8) {
            0 => (0..3).for_each(|k| i[end + k] = i[k]),
            1 => {
                let along = d.whole(-9, 9) as f64;
                (0..3).for_each(|k| i[end + k] = i[k] + along * i[3 + k]);
            }
            2 => (0..3).for_each(|k| i[end + k] = i[other + k]),
            3 => (0..3).for_each(|k| i[end + k] = d.near(i[other + k], 1)),
            4 => i[3..6].fill_with(|| d.pick(&[0.0, -0.0])),
            5 => {
                let tilt = d.whole(-180, -20);
                i[3..6].fill_with(|| d.magnitude(tilt, tilt + 20));
                i[3 + d.below(3) as usize] = d.near(1.0, 2) * d.sign();
            }
            6 => i[6] = d.pick(&[0.0, -0.0, 5e-324, -5.0]),
            _ => i[3..6].iter_mut().for_each(|x| *x = d.near(*x, 4)),
        }
    }
    i
}

/// An arc of radius 5 about the origin, to either side, between points that can be worked out by hand, its centre one of them.
fn by_hand(d: &mut Draw) -> [f64; 13] {
    let mut i = [0.0; 13];
    i[5] = d.sign();
    i[6] = 5.0;
    for end in [7, 10] {
        (i[end], i[end + 1]) = [(5.0, 0.0), (0.0, 5.0), (-5.0, 0.0), (0.0, -5.0), (3.0, 4.0), (0.0, 0.0)][d.below(6) as usize];
    }
    i
}

pub fn edge(d: &mut Draw, kind: Kind) -> [f64; 13] {
    let mut i = [0.0; 13];
    match kind {
        Kind::ByHand => i = by_hand(d),
        Kind::Nice => i = nice(d),
        Kind::Pipe => i = pipe(d),
        Kind::Whole => classes::whole(d, &mut i),
        Kind::Wild => classes::wild(d, &mut i),
        Kind::Tiny => classes::tiny(d, &mut i),
        Kind::Zeros => classes::zeros(d, &mut i),
        Kind::Degenerate => i = degenerate(d),
        Kind::Every => match d.below(4) {
            0 => classes::every(d, &mut i),
            1 => i = degenerate(d),
            _ => i = pipe(d),
        },
    }
    i
}

/// The classes of an entry whose inputs `$draw` draws for a kind of edge.
macro_rules! edges {
    ($draw:ident) => {
        &[
            ("worked out by hand", |d, i| $draw(d, i, Kind::ByHand)),
            ("nice whole numbers", |d, i| $draw(d, i, Kind::Nice)),
            ("pipes", |d, i| $draw(d, i, Kind::Pipe)),
            ("whole numbers off the circle", |d, i| $draw(d, i, Kind::Whole)),
            ("wild", |d, i| $draw(d, i, Kind::Wild)),
            ("tiny and subnormal", |d, i| $draw(d, i, Kind::Tiny)),
            ("signed zeros", |d, i| $draw(d, i, Kind::Zeros)),
            ("degenerate", |d, i| $draw(d, i, Kind::Degenerate)),
            ("every bit pattern", |d, i| $draw(d, i, Kind::Every)),
        ]
    };
}

/// In the last class some numbers are replaced by any pattern.
fn spoil(d: &mut Draw, i: &mut [f64], kind: Kind) {
    if matches!(kind, Kind::Every) {
        classes::spoil(d, i);
    }
}

/// As many numbers of an edge as the entry takes: an arc alone, or with both ends.
fn arc_or_edge(d: &mut Draw, i: &mut [f64], kind: Kind) {
    let takes = i.len();
    i.copy_from_slice(&edge(d, kind)[..takes]);
    spoil(d, i, kind);
}

fn arc_and_angle(d: &mut Draw, i: &mut [f64], kind: Kind) {
    i[..10].copy_from_slice(&edge(d, kind)[..10]);
    i[10] = match d.below(4) {
        0 => d.whole(-8, 8) as f64 * PI / 4.0,
        1 => d.magnitude(-30, 19),
        2 => d.pick(&[0.0, -0.0, 1_048_576.0, -1_048_576.0]),
        _ => d.between(0.0, TAU),
    };
    spoil(d, i, kind);
}

/// The longest row that is lent.
const ROW: usize = 200;

fn edge_and_row(d: &mut Draw, i: &mut [f64], kind: Kind) {
    i[..13].copy_from_slice(&edge(d, kind));
    i[13] = match d.below(8) {
        0 => d.pick(&[0.0, -0.0]),
        1 => i[6],
        2 => -d.magnitude(-30, 10),
        3 => i[6] * (1.0 - (PI / d.whole(2, 70) as f64).cos()),
        4 => d.magnitude(-30, 10).abs(),
        _ => d.between(0.001, 2.0),
    };
    spoil(d, &mut i[..14], kind);
    // Mostly about the length that is needed.
    let due = 3 * rust::arc(at(i, 0)).inner_points((*at(i, 7)).into(), (*at(i, 10)).into(), i[13]).count() as i64;
    let length = match d.below(8) {
        0 => d.whole(0, ROW as i64),
        1..=3 => due,
        _ => due + d.whole(-4, 4),
    };
    i[14] = length.clamp(0, ROW as i64) as f64;
}

fn edge_and_box(d: &mut Draw, i: &mut [f64], kind: Kind) {
    i[..13].copy_from_slice(&edge(d, kind));
    spoil(d, &mut i[..13], kind);
    let whole = [f64::INFINITY, f64::INFINITY, f64::INFINITY, f64::NEG_INFINITY, f64::NEG_INFINITY, f64::NEG_INFINITY];
    let (corners, choice) = (&mut i[13..], d.below(8));
    match choice {
        0..=2 => corners.copy_from_slice(&whole),
        3 => corners.iter_mut().zip(whole).for_each(|(c, x)| *c = if d.below(2) == 0 { x } else { -x }),
        4 => corners.fill_with(|| d.between(-2000.0, 2000.0)),
        5 => classes::zeros(d, corners),
        6 => corners.fill_with(|| d.pick(SPECIAL)),
        _ => {
            corners.copy_from_slice(&whole);
            classes::spoil(d, corners);
        }
    }
}

const FULL: u64 = 5_000_000;

pub const ENTRIES: &[Entry] = &[
    Entry { flags: &[2], ..entry!(turn, jr_profile_arc_turn, 7, 1, FULL, TURNS, |f, i, o| f(at(i, 0), i[2] > 0.0, at(i, 3), at(i, 5), out(o))) },
    entry!(unit, jr_unit, 3, 3, FULL, VECTORS, |f, i, o| f(at(i, 0), out(o))),
    entry!(per_turn, jr_per_turn, 2, 1, FULL, CHORDS, |f, i, o| f(i[0], i[1], out(o))),
    entry!(reversed, jr_arc_reversed, 7, 7, FULL, edges!(arc_or_edge), |f, i, o| f(at(i, 0), out(o))),
    entry!(sweep, jr_arc_sweep, 13, 1, FULL, edges!(arc_or_edge), |f, i, o| f(at(i, 0), at(i, 7), at(i, 10), out(o))),
    entry!(at, jr_arc_at, 11, 3, FULL, edges!(arc_and_angle), |f, i, o| f(at(i, 0), at(i, 7), i[10], out(o))),
    Entry {
        whole_inputs: &[14],
        whole_outputs: &[0],
        row: true,
        ..entry!(inner_points, jr_arc_inner_points, 15, 1 + ROW, FULL, edges!(edge_and_row), |f, i, o| {
            let (mut written, length) = ([7], i[14] as usize);
            let row = &mut o[1..1 + length];
            let refusal = f(at(i, 0), at(i, 7), at(i, 10), i[13], row.as_mut_ptr(), length, &mut written);
            o[0] = written[0] as f64;
            refusal
        })
    },
    Entry {
        zeros_alike: true,
        ..entry!(extend_bounds, jr_arc_extend_bounds, 19, 6, FULL, edges!(edge_and_box), |f, i, o| {
            o.copy_from_slice(&i[13..]);
            f(at(i, 0), at(i, 7), at(i, 10), out(o))
        })
    },
];

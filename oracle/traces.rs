//! Waves (three numbers), meets (eight, and two angles where there is a turn) and traces, with the
//! neutral radius beside them.

use std::f64::consts::{FRAC_PI_2, PI};

use crate::classes;
use crate::draw::{Draw, SPECIAL};
use crate::entry::{Class, Entry, at, entry, out};
use crate::shapes::{self, Fit};

unsafe extern "C" {
    safe fn jr_wave_at(w: &[f64; 3], u: f64, n: f64, out: &mut [f64; 3]) -> u32;
    safe fn jr_wave_range(w: &[f64; 3], u0: f64, u1: f64, n: f64, out: &mut [f64; 2]) -> u32;
    safe fn jr_meet_point(m: &[f64; 10], turn: u32, phi: f64, n: f64, out: &mut [f64; 9]) -> u32;
    safe fn jr_trace_v(t: &[f64; 10], kind: u32, u: f64, n: f64, out: &mut [f64; 1]) -> u32;
}

pub mod rust {
    use crate::curve::{Meet, Trace, Wave};
    use crate::entry::ABSENT;
    use crate::shapes::v;

    pub fn wave(w: &[f64]) -> Wave {
        Wave { a: w[0], b: w[1], c: w[2] }
    }

    pub fn meet(m: &[f64], turn: bool) -> Meet {
        Meet { origin: v(m), axis: v(&m[3..]), radius: m[6], own: m[7], turn: turn.then(|| [m[8], m[9]]) }
    }

    /// None for kind 0.
    pub fn trace(t: &[f64], kind: u32) -> Option<Trace> {
        match kind {
            0 => None,
            1 => Some(Trace::Wave(wave(t))),
            _ => Some(Trace::Meet(meet(t, kind == 3))),
        }
    }

    #[inline(never)]
    pub fn wave_at(w: &[f64; 3], u: f64, n: f64, out: &mut [f64; 3]) -> u32 {
        *out = wave(w).at(u, n);
        0
    }
    #[inline(never)]
    pub fn wave_range(w: &[f64; 3], u0: f64, u1: f64, n: f64, out: &mut [f64; 2]) -> u32 {
        *out = wave(w).range(u0, u1, n);
        0
    }
    #[inline(never)]
    pub fn meet_point(m: &[f64; 10], turn: u32, phi: f64, n: f64, out: &mut [f64; 9]) -> u32 {
        let [p, d, s] = meet(m, turn == 1).point(phi, n);
        *out = [p.x, p.y, p.z, d.x, d.y, d.z, s.x, s.y, s.z];
        0
    }
    #[inline(never)]
    pub fn trace_v(t: &[f64; 10], kind: u32, u: f64, n: f64, out: &mut [f64; 1]) -> u32 {
        match trace(t, kind).unwrap().v(u, n) {
            Some(v) => {
                out[0] = v;
                0
            }
            None => ABSENT,
        }
    }
}

pub mod second {
    use std::f64::consts::PI;

    use crate::developments::second::is_no_radius;
    use crate::entry::{ABSENT, UNKNOWN};
    use crate::shapes::trace_numbers;
    use crate::track::{Num, Path, Vec3, answer, first_failed, in_range, num, settle, vec3};

    #[derive(Clone, Copy)]
    pub struct Wave {
        pub a: Num,
        pub b: Num,
        pub c: Num,
    }

    #[derive(Clone, Copy)]
    pub struct Meet {
        pub origin: Vec3,
        pub axis: Vec3,
        pub radius: Num,
        pub own: Num,
        pub turn: Option<[Num; 2]>,
    }

    #[derive(Clone, Copy)]
    pub enum Trace {
        Wave(Wave),
        Meet(Meet),
    }

    pub fn wave(w: &[f64]) -> Wave {
        Wave { a: num(w[0]), b: num(w[1]), c: num(w[2]) }
    }

    pub fn meet(m: &[f64], turn: bool) -> Meet {
        let turn = turn.then(|| [num(m[8]), num(m[9])]);
        Meet { origin: vec3(m), axis: vec3(&m[3..]), radius: num(m[6]), own: num(m[7]), turn }
    }

    pub fn trace(t: &[f64], kind: u32) -> Option<Trace> {
        match kind {
            0 => None,
            1 => Some(Trace::Wave(wave(t))),
            _ => Some(Trace::Meet(meet(t, kind == 3))),
        }
    }

    impl Wave {
        /// v, its slope and its bend. Who reads fewer of them depends on fewer.
        pub fn at(&self, u: Num, n: Num) -> [Num; 3] {
            let (s, c) = (u / n).sincos();
            [self.a + self.b * c + self.c * s, (self.c * c - self.b * s) / n, -(self.b * c + self.c * s) / (n * n)]
        }

        pub fn range(&self, u0: Num, u1: Num, n: Num, path: &mut Path) -> [Num; 2] {
            let (low, high) = (u0.least(u1), u0.greatest(u1));
            let (at_low, at_high) = (self.at(low, n)[0], self.at(high, n)[0]);
            let mut range = [at_low.least(at_high), at_low.greatest(at_high)];
            path.reads(range[0]);
            if path.due() != 0 {
                return range;
            }
            let (first, half) = (self.c.atan2(self.b) * n, num(PI) * n);
            let mut k = ((low - first) / half).ceil();
            for turn in 1.. {
                let place = first + k * half;
                // A place that is not finite decides the way, so it is met here.
                let goes_on = path.reads(place) <= path.reads(high);
                if goes_on && turn == 4097 {
                    path.meets(10);
                }
                if !goes_on || path.due() != 0 {
                    break;
                }
                let v = self.at(place, n)[0];
                path.reads(v);
                range = [range[0].least(v), range[1].greatest(v)];
                k = k + num(1.0);
            }
            range
        }
    }

    /// The pipe whose generatrices run, and the cylinder that they reach.
    struct Pipe {
        origin: Vec3,
        axis: Vec3,
        e1: Vec3,
        e2: Vec3,
        radius: Num,
        met_origin: Vec3,
        met_axis: Vec3,
        met_radius: Num,
    }

    impl Meet {
        fn pipe(&self, n: Num) -> Pipe {
            let (x, y, z) = (vec3(&[1.0, 0.0, 0.0]), vec3(&[0.0, 1.0, 0.0]), vec3(&[0.0, 0.0, 1.0]));
            let zero = vec3(&[0.0, 0.0, 0.0]);
            let Meet { origin, axis, radius, own, turn } = *self;
            if turn.is_none() {
                return Pipe { origin: zero, axis: z * own, e1: x, e2: y, radius: n, met_origin: origin, met_axis: axis, met_radius: radius };
            }
            let level = z.cross(axis);
            let e1 = level * (num(1.0) / level.dot(level).sqrt());
            Pipe { origin, axis, e1, e2: axis.cross(e1), radius, met_origin: zero, met_axis: z, met_radius: own }
        }

        /// The point, its first and its second derivative in the angle.
        pub fn point(&self, phi: Num, n: Num) -> [Vec3; 3] {
            let Pipe { origin, axis: a, e1, e2, radius: r, met_origin, met_axis, met_radius } = self.pipe(n);
            let (s, c) = phi.sincos();
            let around = e1 * c + e2 * s;
            let p0 = origin + around * r;
            let d1 = (e2 * c - e1 * s) * r;
            let d2 = around * -r;
            let flat = |x: Vec3| x - met_axis * x.dot(met_axis);
            let (w, w1, w2, af) = (flat(p0 - met_origin), flat(d1), flat(d2), flat(a));
            let aa = af.dot(af);
            let (b, b1, b2) = (w.dot(af), w1.dot(af), w2.dot(af));
            let two = num(2.0);
            let half = num(0.5);
            let (cc, c1, c2) = (w.dot(w) - met_radius * met_radius, two * w.dot(w1), two * (w1.dot(w1) + w.dot(w2)));
            let root = (b * b - aa * cc).sqrt();
            let t = if b.value <= 0.0 { cc / (root - b) } else { -(b + root) / aa };
            let t1 = (b1 * t + half * c1) / root;
            let t2 = (b2 * t + two * b1 * t1 + aa * t1 * t1 + half * c2) / root;
            [p0 + a * t, d1 + a * t1, d2 + a * t2]
        }
    }

    pub fn wave_at(w: &[f64; 3], u: f64, n: f64, out: &mut [f64; 3]) -> u32 {
        match first_failed(&[(1, !in_range(&[w, &[u, n]])), (2, is_no_radius(n))]) {
            0 => answer(out, wave(w).at(num(u), num(n))),
            number => number,
        }
    }

    pub fn wave_range(w: &[f64; 3], u0: f64, u1: f64, n: f64, out: &mut [f64; 2]) -> u32 {
        match first_failed(&[(1, !in_range(&[w, &[u0, u1, n]])), (2, is_no_radius(n))]) {
            0 => {
                let mut path = Path::new();
                let range = wave(w).range(num(u0), num(u1), num(n), &mut path);
                settle(path, out, range)
            }
            number => number,
        }
    }

    pub fn meet_point(m: &[f64; 10], turn: u32, phi: f64, n: f64, out: &mut [f64; 9]) -> u32 {
        if turn > 1 {
            return UNKNOWN;
        }
        let used = &m[..trace_numbers(2 + turn)];
        match first_failed(&[(1, !in_range(&[used, &[phi, n]])), (2, is_no_radius(n))]) {
            0 => {
                let [p, d, s] = meet(m, turn == 1).point(num(phi), num(n));
                answer(out, [p.x, p.y, p.z, d.x, d.y, d.z, s.x, s.y, s.z])
            }
            number => number,
        }
    }

    pub fn trace_v(t: &[f64; 10], kind: u32, u: f64, n: f64, out: &mut [f64; 1]) -> u32 {
        if kind == 0 || kind > 3 {
            return UNKNOWN;
        }
        let used = &t[..trace_numbers(kind)];
        let due = first_failed(&[(1, !in_range(&[used, &[u, n]])), (2, is_no_radius(n))]);
        let (u, n) = (num(u), num(n));
        match (due, kind) {
            (0, 1) => answer(out, [wave(t).at(u, n)[0]]),
            (0, 2) => answer(out, [meet(t, false).point(u / n, n)[0].z]),
            (0, _) => ABSENT,
            _ => due,
        }
    }
}

// --- waves ---

/// u and the neutral radius, the last numbers of a row: angles at the limit, radii at their ends.
fn at_limits(d: &mut Draw, i: &mut [f64], first: usize) {
    let last = i.len() - 1;
    i[last] = shapes::limit_radius(d);
    for k in first..last {
        let far = i[last] * d.pick(&[1_048_576.0, 1_000_000.0, 1.0, 3.0]);
        let far = d.near(far, 2);
        i[k] = match d.below(4) {
            0 => d.pick(&[0.0, -0.0, 1.0, 524_288.0, 1_000_000.0]),
            1 => d.between(-2000.0, 2000.0),
            _ if far <= 1_048_576.0 => far * d.sign(),
            _ => d.near(1_048_576.0, 1),
        };
    }
}

fn cut(d: &mut Draw, i: &mut [f64]) {
    let last = i.len() - 1;
    let n = shapes::radius(d);
    i[..3].copy_from_slice(&shapes::wave(d, n));
    i[3..last].fill_with(|| n * if d.below(3) == 0 { d.whole(-8, 8) as f64 * PI / 4.0 } else { d.between(-7.0, 7.0) });
    i[last] = n;
}

fn limits(d: &mut Draw, i: &mut [f64]) {
    cut(d, i);
    at_limits(d, i, 3);
}

/// A place at a turning point or at the middle between two, to both sides.
fn turning(d: &mut Draw, i: &mut [f64]) {
    cut(d, i);
    let last = i.len() - 1;
    let (n, first) = (i[last], i[2].atan2(i[1]));
    for k in 3..last {
        let place = (first + FRAC_PI_2 * d.whole(-9, 9) as f64) * n;
        i[k] = d.near(place, 3);
    }
}

fn many_turns(d: &mut Draw, i: &mut [f64]) {
    let piece = shapes::piece(d, shapes::Shape::ManyTurns);
    i.copy_from_slice(&[piece[16], piece[17], piece[18], piece[10], piece[12], piece[9]]);
}

/// A class of any numbers; the neutral radius, which is last, mostly above 0.
fn with_radius(d: &mut Draw, i: &mut [f64], fill: fn(&mut Draw, &mut [f64])) {
    fill(d, i);
    let last = i.len() - 1;
    if d.below(16) != 0 {
        i[last] = i[last].abs();
    }
    if i[last] == 0.0 && d.below(16) != 0 {
        i[last] = 1.0;
    }
}

fn no_radius(d: &mut Draw, i: &mut [f64]) {
    cut(d, i);
    let last = i.len() - 1;
    shapes::refused_neutral(d, &mut i[last], shapes::Rolls::Refused);
    if d.below(4) == 0 {
        i[d.below(last as u64) as usize] = d.pick(SPECIAL);
    }
}

const WAVES: &[Class] = &[
    ("cuts of pipes", cut),
    ("at turning points", turning),
    ("angles at the limit, neutral at its ends", limits),
    ("nice whole numbers", |d, i| with_radius(d, i, classes::whole)),
    ("wild", |d, i| with_radius(d, i, classes::wild)),
    ("tiny and subnormal", |d, i| with_radius(d, i, classes::tiny)),
    ("signed zeros", |d, i| with_radius(d, i, classes::zeros)),
    ("no neutral radius", no_radius),
    ("every bit pattern", |d, i| with_radius(d, i, classes::every)),
];

const RANGES: &[Class] = &[
    WAVES[0],
    WAVES[1],
    ("about 4,096 turning points", many_turns),
    WAVES[2],
    WAVES[3],
    WAVES[4],
    WAVES[5],
    WAVES[6],
    WAVES[7],
    WAVES[8],
];

// --- meets: ten numbers, the tag, the angle (or u), the neutral radius ---

#[derive(Clone, Copy)]
enum Angle {
    Phi,
    U,
}

const TAG: usize = 10;

fn meet(d: &mut Draw, i: &mut [f64], fit: Fit, turn: bool, angle: Angle) {
    let n = shapes::radius(d);
    let outer = n + d.between(0.0, 10.0);
    i[..10].copy_from_slice(&if turn { shapes::hole(d, outer, fit) } else { shapes::branch(d, n, fit) });
    let quarter = FRAC_PI_2 * d.whole(-4, 4) as f64;
    let phi = match d.below(4) {
        0 => d.whole(-8, 8) as f64 * PI / 4.0,
        1 => d.near(quarter, 4),
        _ => d.between(-7.0, 7.0),
    };
    i[TAG] = tag(turn, angle);
    i[11] = if matches!(angle, Angle::U) { phi * n } else { phi };
    i[12] = n;
    unused(d, i, turn);
}

/// What the tag does not use is not read.
fn unused(d: &mut Draw, i: &mut [f64], turn: bool) {
    if !turn {
        i[8..10].fill_with(|| d.pick(SPECIAL));
    }
}

/// `Meet::point` has a tag of its own, a trace that of its kind.
fn tag(turn: bool, angle: Angle) -> f64 {
    turn as u32 as f64 + if matches!(angle, Angle::U) { 2.0 } else { 0.0 }
}

fn branches(d: &mut Draw, i: &mut [f64], angle: Angle) {
    meet(d, i, Fit::Within, false, angle);
}

fn holes(d: &mut Draw, i: &mut [f64], angle: Angle) {
    meet(d, i, Fit::Within, true, angle);
}

fn either(d: &mut Draw, i: &mut [f64], fit: Fit, angle: Angle) {
    // Of a trace mostly those that have a v.
    let turn = if matches!(angle, Angle::U) { d.below(8) == 0 } else { d.below(2) == 0 };
    meet(d, i, fit, turn, angle);
}

fn meet_limits(d: &mut Draw, i: &mut [f64], angle: Angle) {
    either(d, i, Fit::Within, angle);
    let tag = i[TAG];
    let old = i[12];
    at_limits(d, i, 11);
    if d.below(2) == 0 {
        // Scaled as a whole: it fits as before.
        let scale = i[12] / old;
        [0, 1, 2, 6].iter().for_each(|k| i[*k] *= scale);
        if tag == 1.0 || tag == 3.0 {
            i[7] *= scale;
        }
    }
    if matches!(angle, Angle::Phi) {
        i[11] = match d.below(3) {
            0 => d.near(1_048_576.0, 2) * d.sign(),
            _ => d.magnitude(-20, 19),
        };
    }
}

fn meet_numbers(d: &mut Draw, i: &mut [f64], angle: Angle, fill: fn(&mut Draw, &mut [f64])) {
    with_radius(d, i, fill);
    let turn = d.below(2) == 0;
    i[TAG] = tag(turn, angle);
    if matches!(angle, Angle::U) && d.below(3) == 0 {
        i[TAG] = 1.0;
    }
    // A generatrix along z, or a unit axis: else few of these reach the cylinder.
    if d.below(2) == 0 {
        i[7] = if turn { i[7] } else { d.sign() };
        i[3..6].copy_from_slice(&d.direction());
    }
    unused(d, i, turn);
}

fn meet_refused(d: &mut Draw, i: &mut [f64], angle: Angle) {
    either(d, i, Fit::Within, angle);
    if d.below(2) == 0 {
        shapes::refused_neutral(d, &mut i[12], shapes::Rolls::Refused);
    }
    if d.below(3) == 0 {
        i[TAG] = if matches!(angle, Angle::U) && d.below(2) == 0 { 0.0 } else { shapes::unknown_tag(d) };
    }
    if d.below(4) == 0 {
        let k = [0, 3, 6, 7, 8, 9, 11][d.below(7) as usize];
        i[k] = d.pick(SPECIAL);
    }
}

/// Of a trace also waves.
fn waves(d: &mut Draw, i: &mut [f64]) {
    let mut w = [0.0; 5];
    if d.below(4) == 0 { limits(d, &mut w) } else { cut(d, &mut w) }
    i[..10].fill_with(|| d.pick(SPECIAL));
    i[..3].copy_from_slice(&w[..3]);
    i[TAG] = 1.0;
    i[11..13].copy_from_slice(&w[3..]);
}

/// Document 01's meet, and its neighbours.
fn meet_by_hand(d: &mut Draw, i: &mut [f64], angle: Angle) {
    i.copy_from_slice(&[0.0, 0.0, 20.0, 1.0, 0.0, 0.0, 10.0, 1.0, 0.0, 0.0, 0.0, 0.0, 5.0]);
    i[TAG] = tag(false, angle);
    i[12] = d.pick(&[5.0, 5.0, 10.0, 20.0]);
    let phi = FRAC_PI_2 * d.whole(-4, 4) as f64;
    i[11] = if matches!(angle, Angle::U) { phi * i[12] } else { phi };
    i[7] = d.sign();
    unused(d, i, false);
}

macro_rules! meets {
    ($angle:expr) => {
        [
            ("branches on a main", |d, i| branches(d, i, $angle)),
            ("holes for a branch", |d, i| holes(d, i, $angle)),
            ("worked out by hand", |d, i| meet_by_hand(d, i, $angle)),
            ("meets that touch or miss", |d, i| either(d, i, Fit::Touching, $angle)),
            ("equal tees", |d, i| either(d, i, Fit::Equal, $angle)),
            ("axes along z", |d, i| either(d, i, Fit::Parallel, $angle)),
            ("angles at the limit, neutral at its ends", |d, i| meet_limits(d, i, $angle)),
            ("nice whole numbers", |d, i| meet_numbers(d, i, $angle, classes::whole)),
            ("wild", |d, i| meet_numbers(d, i, $angle, classes::wild)),
            ("tiny and subnormal", |d, i| meet_numbers(d, i, $angle, classes::tiny)),
            ("signed zeros", |d, i| meet_numbers(d, i, $angle, classes::zeros)),
            ("refused radii and tags", |d, i| meet_refused(d, i, $angle)),
            ("every bit pattern", |d, i| meet_numbers(d, i, $angle, classes::every)),
            ("waves", |d, i| waves(d, i)),
        ]
    };
}

const MEETS: &[Class] = {
    const ALL: &[Class] = &meets!(Angle::Phi);
    // A meet is no wave.
    ALL.split_at(ALL.len() - 1).0
};
const TRACES: &[Class] = &meets!(Angle::U);

const FULL: u64 = 5_000_000;

pub const ENTRIES: &[Entry] = &[
    entry!(wave_at, jr_wave_at, 5, 3, FULL, WAVES, |f, i, o| f(at(i, 0), i[3], i[4], out(o))),
    Entry {
        zeros_alike: true,
        timed: 2,
        ..entry!(wave_range, jr_wave_range, 6, 2, FULL, RANGES, |f, i, o| f(at(i, 0), i[3], i[4], i[5], out(o)))
    },
    Entry {
        whole_inputs: &[TAG],
        ..entry!(meet_point, jr_meet_point, 13, 9, FULL, MEETS, |f, i, o| f(at(i, 0), i[TAG] as u32, i[11], i[12], out(o)))
    },
    Entry {
        whole_inputs: &[TAG],
        ..entry!(trace_v, jr_trace_v, 13, 1, FULL, TRACES, |f, i, o| f(at(i, 0), i[TAG] as u32, i[11], i[12], out(o)))
    },
];

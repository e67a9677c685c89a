//! Integrals: frames of cones, the correction of a plane face for an arc, faces on cylinders and
//! cones, walls. Eight sums: six_v, moment, area, area vector.

use crate::classes::{self, NUMBERS};
use crate::draw::{Draw, SPECIAL};
use crate::entry::{Class, Entry, at, entry, out};
use crate::pieces;
use crate::shapes::{self, PIECE, Shape, across, put, shapes, v};

unsafe extern "C" {
    safe fn jr_segment(sums: &mut [f64; 8], a: &[f64; 7], k: &[f64; 3], u: &[f64; 3], v: &[f64; 3], n: &[f64; 3], o: &[f64; 3]) -> u32;
    safe fn jr_cone_frame(c: &[f64; 8], out: &mut [f64; 12]) -> u32;
    safe fn jr_frame_angle(f: &[f64; 12], p: &[f64; 3], out: &mut [f64; 1]) -> u32;
    safe fn jr_frame_point(f: &[f64; 12], theta: f64, z: f64, r: f64, out: &mut [f64; 3]) -> u32;
    safe fn jr_revolution_open(c: &[f64; 8], o: &[f64; 3], running: &mut [f64; 8]) -> u32;
    safe fn jr_revolution_add_arc(c: &[f64; 8], o: &[f64; 3], a: &[f64; 7], u: &[f64; 3], v: &[f64; 3], running: &mut [f64; 8]) -> u32;
    safe fn jr_revolution_add_piece(c: &[f64; 8], o: &[f64; 3], w: &[f64; 26], arc: u32, trace: u32, running: &mut [f64; 8]) -> u32;
    safe fn jr_revolution_close(c: &[f64; 8], convex: bool, running: &[f64; 8], sums: &mut [f64; 8]) -> u32;
    safe fn jr_wall(sums: &mut [f64; 8], w: &[f64; 26], arc: u32, trace: u32, r0: f64, r1: f64, o: &[f64; 3]) -> u32;
}

pub mod rust {
    use crate::arcs::rust::arc as arc_of;
    use crate::curve::{self, Cone, Frame, Integrals, Path};
    use crate::pieces::rust::rolled;
    use crate::shapes::v;

    pub fn cone(c: &[f64; 8], convex: bool) -> Cone {
        Cone { origin: v(c), axis: v(&c[3..]), radius: c[6], slope: c[7], convex }
    }

    pub fn sums(a: &[f64; 8]) -> Integrals {
        Integrals { six_v: a[0], moment: v(&a[1..]), area: a[4], area_vector: v(&a[5..]) }
    }

    pub fn store(s: &Integrals, out: &mut [f64; 8]) -> u32 {
        *out = [s.six_v, s.moment.x, s.moment.y, s.moment.z, s.area, s.area_vector.x, s.area_vector.y, s.area_vector.z];
        0
    }

    #[inline(never)]
    pub fn segment(acc: &mut [f64; 8], a: &[f64; 7], k: &[f64; 3], u: &[f64; 3], w: &[f64; 3], n: &[f64; 3], o: &[f64; 3]) -> u32 {
        let mut s = sums(acc);
        curve::segment(&mut s, &arc_of(a), v(k), v(u), v(w), v(n), v(o));
        store(&s, acc)
    }
    #[inline(never)]
    pub fn cone_frame(c: &[f64; 8], out: &mut [f64; 12]) -> u32 {
        *out = curve::frame(&cone(c, true)).numbers();
        0
    }
    #[inline(never)]
    pub fn frame_angle(f: &[f64; 12], p: &[f64; 3], out: &mut [f64; 1]) -> u32 {
        out[0] = Frame::of_numbers(f).angle(v(p));
        0
    }
    #[inline(never)]
    pub fn frame_point(f: &[f64; 12], theta: f64, z: f64, r: f64, out: &mut [f64; 3]) -> u32 {
        *out = Frame::of_numbers(f).point(theta, z, r).to_array();
        0
    }
    pub fn revolution_open(_c: &[f64; 8], _o: &[f64; 3], running: &mut [f64; 8]) -> u32 {
        *running = [0.0; 8];
        0
    }

    /// One path from sums of 0, by the Rust's whole `revolution`: 0 added to a sum that began at 0
    /// is that sum, never −0.
    fn from_nothing(c: &[f64; 8], o: &[f64; 3], path: Path, running: &mut [f64; 8]) -> u32 {
        let mut s = Integrals::default();
        curve::revolution(&mut s, &cone(c, true), std::iter::once(path), v(o));
        store(&s, running)
    }

    fn is_nothing(running: &[f64; 8]) -> bool {
        running.iter().all(|x| x.to_bits() == 0)
    }

    // Onto other sums the Rust adds nothing by itself: there the second reading stands in, and the
    // whole `revolution` is compared for faces of several paths.
    #[inline(never)]
    pub fn revolution_add_arc(c: &[f64; 8], o: &[f64; 3], a: &[f64; 7], u: &[f64; 3], w: &[f64; 3], running: &mut [f64; 8]) -> u32 {
        if !is_nothing(running) {
            return super::second::revolution_add_arc(c, o, a, u, w, running);
        }
        from_nothing(c, o, Path::Arc(arc_of(a), v(u), v(w)), running)
    }
    #[inline(never)]
    pub fn revolution_add_piece(c: &[f64; 8], o: &[f64; 3], w: &[f64; 26], arc: u32, trace: u32, running: &mut [f64; 8]) -> u32 {
        if !is_nothing(running) {
            return super::second::revolution_add_piece(c, o, w, arc, trace, running);
        }
        from_nothing(c, o, Path::Rolled(rolled(w, arc, trace)), running)
    }
    /// The last lines of the Rust's `revolution`, as they are for these sums.
    #[inline(never)]
    pub fn revolution_close(_c: &[f64; 8], convex: bool, running: &[f64; 8], acc: &mut [f64; 8]) -> u32 {
        let sigma = if convex { 1.0 } else { -1.0 };
        for k in 0..8 {
            acc[k] += if k == 4 { sigma * running[k] } else { running[k] };
        }
        0
    }
    #[inline(never)]
    pub fn wall(acc: &mut [f64; 8], w: &[f64; 26], arc: u32, trace: u32, r0: f64, r1: f64, o: &[f64; 3]) -> u32 {
        let mut s = sums(acc);
        curve::wall(&mut s, &rolled(w, arc, trace), r0, r1, v(o));
        store(&s, acc)
    }
}

pub mod second {
    use std::f64::consts::FRAC_PI_4;

    use crate::arcs::second::{Arc, arc as arc_of};
    use crate::entry::UNKNOWN;
    use crate::pieces::second::{Piece, are_unknown, fails_1, fails_2, fails_3, piece};
    use crate::track::{Num, Path, Vec3, answer, answer_vec3, first_failed, has_unbounded, in_range, num, settle, vec3};

    /// Nodes and weights, the positive half.
    const GAUSS: [(f64, f64); 4] = [
        (0.183_434_642_495_649_8, 0.362_683_783_378_362),
        (0.525_532_409_916_329, 0.313_706_645_877_887_3),
        (0.796_666_477_413_626_7, 0.222_381_034_453_374_5),
        (0.960_289_856_497_536_2, 0.101_228_536_290_376_3),
    ];

    #[derive(Clone, Copy)]
    struct Frame {
        axis: Vec3,
        origin: Vec3,
        e1: Vec3,
        e2: Vec3,
    }

    fn sign(positive: bool) -> Num {
        num(if positive { 1.0 } else { -1.0 })
    }

    /// Across the axis of the frame that lies least along the cone's, the first of equals.
    fn frame(c: &[f64; 8], path: &mut Path) -> Frame {
        let (origin, axis) = (vec3(c), vec3(&c[3..]));
        let units = [[1.0, 0.0, 0.0], [0.0, 1.0, 0.0], [0.0, 0.0, 1.0]].map(|u| vec3(&u));
        let mut least = units[0];
        for unit in &units[1..] {
            let (now, best) = (path.reads(unit.dot(axis)).abs(), path.reads(least.dot(axis)).abs());
            if now.total_cmp(&best).is_lt() {
                least = *unit;
            }
        }
        let w = least - axis * least.dot(axis);
        let e1 = w * (num(1.0) / w.dot(w).sqrt());
        Frame { axis, origin, e1, e2: axis.cross(e1) }
    }

    fn frame_of(f: &[f64; 12]) -> Frame {
        Frame { axis: vec3(f), origin: vec3(&f[3..]), e1: vec3(&f[6..]), e2: vec3(&f[9..]) }
    }

    impl Frame {
        fn angle(&self, p: Vec3) -> Num {
            let w = p - self.origin;
            w.dot(self.e2).atan2(w.dot(self.e1))
        }

        fn point(&self, theta: Num, z: Num, r: Num) -> Vec3 {
            let (s, c) = theta.sincos();
            self.origin + self.axis * z + (self.e1 * c + self.e2 * s) * r
        }
    }

    pub fn cone_frame(c: &[f64; 8], out: &mut [f64; 12]) -> u32 {
        if !in_range(&[c]) {
            return 1;
        }
        let mut path = Path::new();
        let Frame { axis: a, origin: o, e1, e2 } = frame(c, &mut path);
        settle(path, out, [a.x, a.y, a.z, o.x, o.y, o.z, e1.x, e1.y, e1.z, e2.x, e2.y, e2.z])
    }

    pub fn frame_angle(f: &[f64; 12], p: &[f64; 3], out: &mut [f64; 1]) -> u32 {
        if in_range(&[f, p]) { answer(out, [frame_of(f).angle(vec3(p))]) } else { 1 }
    }

    pub fn frame_point(f: &[f64; 12], theta: f64, z: f64, r: f64, out: &mut [f64; 3]) -> u32 {
        if in_range(&[f, &[theta, z, r]]) { answer_vec3(out, frame_of(f).point(num(theta), num(z), num(r))) } else { 1 }
    }

    /// Sums, as single numbers and as vectors.
    struct Sums {
        six_v: Num,
        moment: Vec3,
        area: Num,
        area_vector: Vec3,
    }

    fn sums(a: &[f64; 8]) -> Sums {
        Sums { six_v: num(a[0]), moment: vec3(&a[1..]), area: num(a[4]), area_vector: vec3(&a[5..]) }
    }

    impl Sums {
        fn settle(&self, path: Path, out: &mut [f64; 8]) -> u32 {
            let Self { six_v, moment: m, area, area_vector: n } = *self;
            settle(path, out, [six_v, m.x, m.y, m.z, area, n.x, n.y, n.z])
        }
    }

    pub fn segment(acc: &mut [f64; 8], a: &[f64; 7], k: &[f64; 3], u: &[f64; 3], v: &[f64; 3], n: &[f64; 3], o: &[f64; 3]) -> u32 {
        let number = first_failed(&[(1, !in_range(&[a, k, u, v, n, o])), (4, has_unbounded(acc))]);
        if number != 0 {
            return number;
        }
        let mut path = Path::new();
        let arc = arc_of(a);
        let [k, u, v, n, o] = [k, u, v, n, o].map(|x| vec3(x));
        let (centre, r) = (arc.centre, arc.radius);
        let turned = Arc { axis: k, ..arc };
        let phi = turned.sweep(u, v);
        let area = num(0.5) * r * r * (phi - phi.sin()) * sign(path.reads(k.dot(n)) > 0.0);
        if path.reads(area) == 0.0 {
            return path.due();
        }
        let mid = turned.at(u, num(0.5) * phi) - centre;
        let half = (num(0.5) * phi).sin();
        let centroid = centre + mid * (num(4.0) * half * half * half / (num(3.0) * (phi - phi.sin())));
        let d = (u - o).dot(n);
        let six_v = num(2.0) * d * area;
        let mut s = sums(acc);
        s.six_v = s.six_v + six_v;
        s.moment = s.moment + (centroid - o) * (num(3.0) * six_v);
        s.area_vector = s.area_vector + n * area;
        s.settle(path, acc)
    }

    /// The places of eight integrands in the order of the Rust's sums: the area first.
    const RUNNING: [usize; 8] = [4, 0, 1, 2, 3, 5, 6, 7];

    /// A face on a cone, seen from a point.
    struct Revolved {
        frame: Frame,
        slope: Num,
        radius: Num,
        p0: Vec3,
        stretch: Num,
    }

    fn revolved(c: &[f64; 8], o: &[f64; 3], path: &mut Path) -> Revolved {
        let frame = frame(c, path);
        let slope = num(c[7]);
        Revolved { frame, slope, radius: num(c[6]), p0: frame.origin - vec3(o), stretch: (num(1.0) + slope * slope).sqrt() }
    }

    impl Revolved {
        fn integrands(&self, theta: Num, s: Num) -> [Num; 8] {
            let Frame { axis: a, e1, e2, .. } = self.frame;
            let (k, p0) = (self.slope, self.p0);
            let (sn, cs) = theta.sincos();
            let rv = e1 * cs + e2 * sn;
            let r = self.radius + k * s;
            let nv = rv - a * k;
            let x = p0 + rv * r + a * s;
            let height = p0.dot(nv) + r - k * s;
            let m = x * (num(6.0) * r * height);
            [r * self.stretch, num(2.0) * r * height, m.x, m.y, m.z, r * nv.x, r * nv.y, r * nv.z]
        }

        /// A path as angle, place along the axis and the angle's derivative, over pieces; what it
        /// takes off the sums.
        fn along(&self, pieces: u64, path: impl Fn(Num) -> [Num; 3], sum: &mut [Num; 8]) {
            let h = num(1.0) / num(pieces as f64);
            for i in 0..pieces {
                let mid = h * (num(i as f64) + num(0.5));
                for (x, weight) in GAUSS {
                    for t in [mid - num(0.5) * h * num(x), mid + num(0.5) * h * num(x)] {
                        let [theta, z, turn] = path(t);
                        let f0 = self.integrands(theta, num(0.0));
                        let f1 = self.integrands(theta, num(0.5) * z);
                        let f2 = self.integrands(theta, z);
                        for q in 0..8 {
                            let term = f0[q] + num(4.0) * f1[q] + f2[q];
                            let factor = num(0.5) * h * num(weight) * turn * z / num(6.0);
                            sum[RUNNING[q]] = sum[RUNNING[q]] - factor * term;
                        }
                    }
                }
            }
        }

        fn add_arc(&self, arc: &Arc, u: Vec3, v: Vec3, sum: &mut [Num; 8], path: &mut Path) {
            let a = self.frame.axis;
            let turn = arc.sweep(u, v) * sign(path.reads(arc.axis.dot(a)) > 0.0);
            let (start, z) = (self.frame.angle(u), (arc.centre - self.frame.origin).dot(a));
            path.reads(start);
            path.reads(z);
            let pieces = path.count((turn.abs() / num(FRAC_PI_4)).ceil()).max(1);
            if path.due() == 0 {
                self.along(pieces, |t| [start + turn * t, z, turn], sum);
            }
        }

        fn add_piece(&self, w: &Piece, sum: &mut [Num; 8], path: &mut Path) {
            let Frame { axis: a, origin, e1, e2 } = self.frame;
            let dev = &w.dev;
            let s = sign(path.reads(dev.axis.dot(a)) > 0.0);
            let start = dev.start.dot(e2).atan2(dev.start.dot(e1));
            let z0 = (dev.origin - origin).dot(a);
            // There is a piece at least, so that the sums depend on both.
            path.reads(start);
            path.reads(z0);
            let pieces = w.quadrature_pieces(path);
            let at = |t: Num| {
                let (p, d) = w.at(t);
                [start + s * p.x / dev.neutral, z0 + s * p.y, s * d.x / dev.neutral]
            };
            if path.due() == 0 {
                self.along(pieces, at, sum);
            }
        }
    }

    pub fn revolution_open(c: &[f64; 8], o: &[f64; 3], running: &mut [f64; 8]) -> u32 {
        if !in_range(&[c, o]) {
            return 1;
        }
        *running = [0.0; 8];
        0
    }

    pub fn revolution_add_arc(c: &[f64; 8], o: &[f64; 3], a: &[f64; 7], u: &[f64; 3], v: &[f64; 3], running: &mut [f64; 8]) -> u32 {
        let number = first_failed(&[(1, !in_range(&[c, o, a, u, v])), (4, has_unbounded(running))]);
        if number != 0 {
            return number;
        }
        let mut path = Path::new();
        let mut sum = running.map(num);
        revolved(c, o, &mut path).add_arc(&arc_of(a), vec3(u), vec3(v), &mut sum, &mut path);
        settle(path, running, sum)
    }

    pub fn revolution_add_piece(c: &[f64; 8], o: &[f64; 3], w: &[f64; 26], arc: u32, trace: u32, running: &mut [f64; 8]) -> u32 {
        if are_unknown(arc, trace) {
            return UNKNOWN;
        }
        let number = first_failed(&[
            (1, !in_range(&[c, o]) || fails_1(w, arc, trace)),
            (2, fails_2(w)),
            (3, fails_3(arc, trace)),
            (4, has_unbounded(running)),
            (7, c[7] != 0.0),
        ]);
        if number != 0 {
            return number;
        }
        let mut path = Path::new();
        let mut sum = running.map(num);
        revolved(c, o, &mut path).add_piece(&piece(w, arc, trace), &mut sum, &mut path);
        settle(path, running, sum)
    }

    pub fn revolution_close(c: &[f64; 8], convex: bool, running: &[f64; 8], acc: &mut [f64; 8]) -> u32 {
        let number = first_failed(&[(1, !in_range(&[c])), (4, has_unbounded(running) || has_unbounded(acc))]);
        if number != 0 {
            return number;
        }
        let (s, mut sum) = (running.map(num), acc.map(num));
        for k in 0..8 {
            sum[k] = sum[k] + if k == 4 { sign(convex) * s[k] } else { s[k] };
        }
        answer(acc, sum)
    }

    pub fn wall(acc: &mut [f64; 8], w: &[f64; 26], arc: u32, trace: u32, r0: f64, r1: f64, o: &[f64; 3]) -> u32 {
        if are_unknown(arc, trace) {
            return UNKNOWN;
        }
        let number = first_failed(&[
            (1, fails_1(w, arc, trace) || !in_range(&[&[r0, r1], o])),
            (2, fails_2(w)),
            (3, fails_3(arc, trace)),
            (4, has_unbounded(acc)),
        ]);
        if number != 0 {
            return number;
        }
        let mut path = Path::new();
        let w = piece(w, arc, trace);
        let pieces = w.quadrature_pieces(&mut path);
        if path.due() != 0 {
            return path.due();
        }
        let (r0, r1, dev) = (num(r0), num(r1), &w.dev);
        let (h, hr, mr) = (num(1.0) / num(pieces as f64), r1 - r0, num(0.5) * (r0 + r1));
        let base = dev.origin - vec3(o);
        let mut s = sums(acc);
        for i in 0..pieces {
            let mid = h * (num(i as f64) + num(0.5));
            for (x, wt) in GAUSS {
                for t in [mid - num(0.5) * h * num(x), mid + num(0.5) * h * num(x)] {
                    let (p, d) = w.at(t);
                    let radial = dev.radial(p.x);
                    for (y, wr) in GAUSS {
                        for r in [mr - num(0.5) * hr * num(y), mr + num(0.5) * hr * num(y)] {
                            let x = base + dev.axis * p.y + radial * r;
                            let n = radial.cross(dev.along(p, d, r)) * (num(0.25) * h * num(wt) * hr * num(wr));
                            let height = x.dot(n);
                            s.six_v = s.six_v + num(2.0) * height;
                            s.moment = s.moment + x * (num(6.0) * height);
                            s.area = s.area + n.dot(n).sqrt();
                            s.area_vector = s.area_vector + n;
                        }
                    }
                }
            }
        }
        s.settle(path, acc)
    }
}

// --- frames ---

fn cone(d: &mut Draw, i: &mut [f64]) {
    i[..3].fill_with(|| d.between(-2000.0, 2000.0));
    i[3..6].copy_from_slice(&d.direction());
    i[6] = shapes::radius(d);
    i[7] = if d.below(2) == 0 { d.pick(&[0.0, -0.0]) } else { d.between(-0.5, 0.5) };
}

/// Two or three of the axis' cosines alike in magnitude, or a step apart.
fn alike_cosines(d: &mut Draw, i: &mut [f64]) {
    cone(d, i);
    for _ in 0..2 {
        let (a, b) = (3 + d.below(3) as usize, 3 + d.below(3) as usize);
        let alike = if d.below(2) == 0 { i[b] } else { d.near(i[b], 1) };
        i[a] = alike * d.sign();
    }
}

const CONES: &[Class] = &[
    ("cones", cone),
    ("cosines alike", alike_cosines),
    NUMBERS[0],
    NUMBERS[2],
    NUMBERS[3],
    NUMBERS[4],
    NUMBERS[5],
];

/// The frame of a cone, and three numbers.
fn framed(d: &mut Draw, i: &mut [f64]) {
    let mut c = [0.0; 8];
    cone(d, &mut c);
    rust::cone_frame(&c, (&mut i[..12]).try_into().unwrap());
    i[12..].fill_with(|| d.between(-2000.0, 2000.0));
}

fn framed_angle(d: &mut Draw, i: &mut [f64]) {
    framed(d, i);
    i[12] = if d.below(3) == 0 { d.whole(-8, 8) as f64 * std::f64::consts::FRAC_PI_4 } else { d.between(-7.0, 7.0) };
}

/// On the axis, or at the origin.
fn on_axis(d: &mut Draw, i: &mut [f64]) {
    framed(d, i);
    let along = d.pick(&[0.0, -0.0, 5.0, -100.0]);
    let p = v(&i[3..]) + v(i) * along;
    put(&mut i[12..], p);
}

const ANGLES: &[Class] = &[
    ("frames of cones", framed),
    ("points of the axis", on_axis),
    NUMBERS[0],
    NUMBERS[2],
    NUMBERS[3],
    NUMBERS[4],
    NUMBERS[5],
];

const POINTS: &[Class] = &[("frames of cones", framed_angle), NUMBERS[0], NUMBERS[2], NUMBERS[3], NUMBERS[4], NUMBERS[5]];

// --- segments: arc 7, k, u, v, n, o, sums 8 ---

const SEGMENT: usize = 30;

/// Sums: none yet, those of a body, at the ends of the format, not finite.
fn some_sums(d: &mut Draw, sums: &mut [f64]) {
    match d.below(8) {
        0..=2 => sums.fill(0.0),
        3 | 4 => sums.fill_with(|| d.magnitude(-20, 50)),
        5 => classes::zeros(d, sums),
        6 => sums.fill_with(|| if d.below(4) == 0 { f64::MAX * d.sign() } else { d.magnitude(1000, 1023) }),
        _ => sums.fill_with(|| d.pick(SPECIAL)),
    }
}

/// An arc of a plane face, its axis, and two points on it.
fn rim(d: &mut Draw, i: &mut [f64]) {
    let (centre, n, r) = (v(&[0; 3].map(|_| d.between(-2000.0, 2000.0))), v(&d.direction()), shapes::radius(d));
    put(i, centre);
    put(&mut i[3..], n);
    i[6] = r;
    put(&mut i[7..], n * d.sign());
    let (x, y) = (across(d, n), across(d, n));
    put(&mut i[10..], centre + x * r);
    put(&mut i[13..], if d.below(5) == 0 { centre + x * r } else { centre + y * r });
    put(&mut i[16..], n);
    i[19..22].fill_with(|| d.between(-2000.0, 2000.0));
    i[22..].fill(0.0);
}

fn rim_and_sums(d: &mut Draw, i: &mut [f64]) {
    rim(d, i);
    some_sums(d, &mut i[22..]);
}

/// Areas at or near 0: no radius, ends close to each other, a face that stands across the arc.
fn thin_rim(d: &mut Draw, i: &mut [f64]) {
    rim_and_sums(d, i);
    match d.below(4) {
        0 => i[6] = d.pick(&[0.0, -0.0, 5e-324, 1e-200, 1e-160, -5.0]),
        1 => {
            for k in 0..3 {
                let ulps = 1 << d.below(45);
                i[13 + k] = d.near(i[10 + k], ulps);
            }
        }
        2 => i[6] = d.magnitude(-1022, -500),
        _ => {
            let n = across(d, v(&i[7..]));
            put(&mut i[16..], n);
        }
    }
}

/// An end at the centre or on the axis.
fn no_direction(d: &mut Draw, i: &mut [f64]) {
    rim_and_sums(d, i);
    let along = if d.below(2) == 0 { 0.0 } else { d.whole(-9, 9) as f64 };
    let p = v(i) + v(&i[7..]) * along;
    put(&mut i[if d.below(2) == 0 { 10 } else { 13 }..], p);
}

fn rim_numbers(d: &mut Draw, i: &mut [f64], fill: fn(&mut Draw, &mut [f64])) {
    fill(d, &mut i[..22]);
    some_sums(d, &mut i[22..]);
}

fn spoilt_rim(d: &mut Draw, i: &mut [f64]) {
    rim_and_sums(d, i);
    classes::spoil(d, i);
}

const RIMS: &[Class] = &[
    ("rims of faces", rim),
    ("onto sums", rim_and_sums),
    ("thin slices", thin_rim),
    ("from the centre or the axis", no_direction),
    ("nice whole numbers", |d, i| rim_numbers(d, i, classes::whole)),
    ("wild", |d, i| rim_numbers(d, i, classes::wild)),
    ("tiny and subnormal", |d, i| rim_numbers(d, i, classes::tiny)),
    ("signed zeros", |d, i| rim_numbers(d, i, classes::zeros)),
    ("every bit pattern", |d, i| rim_numbers(d, i, classes::every)),
    ("rims spoilt", spoilt_rim),
];

// --- paths of faces ---

/// Longer paths take long and say no more.
const PIECES: u64 = 40;

/// A piece over which there is not too much to sum, nearly always; seldom one of as many pieces as are
/// accepted, or one more.
fn short_piece(d: &mut Draw, shape: Shape) -> [f64; PIECE] {
    if shape == Shape::Limits && d.below(1_000) == 0 {
        let mut w = [0.0; PIECE];
        pieces::many_pieces(d, &mut w, std::f64::consts::FRAC_PI_4);
        return w;
    }
    for _ in 0..40 {
        let w = shapes::piece(d, shape);
        let mut n = [0];
        let refused = pieces::second::piece_quadrature_pieces(at(&w, 0), w[26] as u32, w[27] as u32, &mut n) != 0;
        if refused || n[0] <= PIECES || d.below(20_000) == 0 {
            return w;
        }
    }
    shapes::piece(d, Shape::Straight)
}

/// A piece of any of the realistic shapes about the cone's axis, either way.
fn piece_about(d: &mut Draw, c: &[f64], shape: Shape) -> [f64; PIECE] {
    let mut w = short_piece(d, shape);
    let axis = v(&c[3..]);
    put(&mut w, v(c) + axis * d.between(-300.0, 300.0));
    put(&mut w[3..], axis * d.sign());
    let start = across(d, axis);
    put(&mut w[6..], start);
    w
}

/// An arc about the cone's axis, either way: its seven numbers and two ends.
fn arc_about(d: &mut Draw, c: &[f64], i: &mut [f64]) {
    let (o, a) = (v(c), v(&c[3..]));
    let z = if d.below(8) == 0 { 0.0 } else { d.between(-300.0, 300.0) };
    let (centre, r) = (o + a * z, c[6] + c[7] * z);
    put(i, centre);
    put(&mut i[3..], a * d.sign());
    i[6] = r;
    let (x, y) = (across(d, a), across(d, a));
    put(&mut i[7..], centre + x * r);
    put(&mut i[10..], if d.below(4) == 0 { centre + x * r } else { centre + y * r });
}

fn realistic(d: &mut Draw) -> Shape {
    [Shape::Straight, Shape::Arc, Shape::Wave, Shape::Branch, Shape::Hole][d.below(5) as usize]
}

/// Cone 8, o 3.
fn cone_from(d: &mut Draw, i: &mut [f64]) {
    cone(d, i);
    i[8..11].fill_with(|| d.between(-2000.0, 2000.0));
}

fn spoilt_cone(d: &mut Draw, i: &mut [f64]) {
    cone_from(d, i);
    classes::spoil(d, &mut i[..11]);
}

const OPENED: &[Class] = &[("cones", cone_from), ("cones spoilt", spoilt_cone), NUMBERS[0], NUMBERS[2], NUMBERS[3], NUMBERS[4], NUMBERS[5]];

/// Then an arc 7, its ends 6, running sums 8.
fn arc_path(d: &mut Draw, i: &mut [f64]) {
    cone_from(d, i);
    let (c, rest) = i.split_at_mut(11);
    arc_about(d, c, rest);
    i[24..].fill(0.0);
}

fn arc_onto_sums(d: &mut Draw, i: &mut [f64]) {
    arc_path(d, i);
    some_sums(d, &mut i[24..]);
    if d.below(4) == 0 {
        classes::spoil(d, &mut i[..24]);
    }
}

fn arc_numbers(d: &mut Draw, i: &mut [f64], fill: fn(&mut Draw, &mut [f64])) {
    fill(d, &mut i[..24]);
    if d.below(2) == 0 { i[24..].fill(0.0) } else { some_sums(d, &mut i[24..]) }
}

const ARC_PATHS: &[Class] = &[
    ("arcs about cylinders and cones", arc_path),
    ("onto running sums", arc_onto_sums),
    ("nice whole numbers", |d, i| arc_numbers(d, i, classes::whole)),
    ("wild", |d, i| arc_numbers(d, i, classes::wild)),
    ("tiny and subnormal", |d, i| arc_numbers(d, i, classes::tiny)),
    ("signed zeros", |d, i| arc_numbers(d, i, classes::zeros)),
    ("every bit pattern", |d, i| arc_numbers(d, i, classes::every)),
];

/// A cone, o, a piece 28, running sums 8.
const SUMS: usize = 11 + PIECE;

fn piece_path(d: &mut Draw, i: &mut [f64], shape: Shape) {
    cone_from(d, i);
    i[7] = d.pick(&[0.0, -0.0]);
    let free = matches!(shape, Shape::Whole | Shape::Wild | Shape::Tiny | Shape::Zeros | Shape::Every | Shape::Refused);
    let w = if free { short_piece(d, shape) } else { piece_about(d, i, shape) };
    i[11..SUMS].copy_from_slice(&w);
    i[SUMS..].fill(0.0);
    if free {
        match d.below(4) {
            0 => some_sums(d, &mut i[SUMS..]),
            1 => i[7] = d.pick(&[1.0, 5e-324, -5e-324, 0.25, 1_048_576.0]),
            2 if matches!(shape, Shape::Every | Shape::Refused) => classes::spoil(d, &mut i[..11]),
            _ => {}
        }
    }
}

fn piece_onto_sums(d: &mut Draw, i: &mut [f64]) {
    let shape = realistic(d);
    piece_path(d, i, shape);
    some_sums(d, &mut i[SUMS..]);
}

fn piece_on_cone(d: &mut Draw, i: &mut [f64]) {
    let shape = realistic(d);
    piece_path(d, i, shape);
    i[7] = d.pick(&[1.0, 5e-324, -5e-324, 0.25, -0.25, 0.0, -0.0]);
    if d.below(4) == 0 {
        some_sums(d, &mut i[SUMS..]);
    }
}

// --- closing: cone 8, convex, running sums 8, sums 8 ---

fn closing(d: &mut Draw, i: &mut [f64]) {
    cone(d, i);
    i[8] = d.sign();
    i[9..].fill_with(|| d.magnitude(-20, 50));
}

fn closing_any(d: &mut Draw, i: &mut [f64]) {
    closing(d, i);
    some_sums(d, &mut i[9..17]);
    some_sums(d, &mut i[17..]);
    if d.below(4) == 0 {
        classes::spoil(d, &mut i[..8]);
    }
}

const CLOSED: &[Class] = &[("faces of a body", closing), ("any sums", closing_any)];

// --- walls: a piece 28, r0, r1, o 3, sums 8 ---

const WALL_SUMS: usize = PIECE + 5;

fn wall(d: &mut Draw, i: &mut [f64], shape: Shape) {
    i[..PIECE].copy_from_slice(&short_piece(d, shape));
    let r = i[9].abs().min(1000.0) * d.between(0.8, 1.0);
    i[PIECE] = r;
    i[PIECE + 1] = r + d.between(0.5, 20.0);
    i[PIECE + 2..WALL_SUMS].fill_with(|| d.between(-2000.0, 2000.0));
    i[WALL_SUMS..].fill(0.0);
    let free = matches!(shape, Shape::Whole | Shape::Wild | Shape::Tiny | Shape::Zeros | Shape::Every | Shape::Refused | Shape::Limits);
    if free {
        match d.below(4) {
            0 => some_sums(d, &mut i[WALL_SUMS..]),
            1 => i[PIECE..WALL_SUMS].fill_with(|| d.pick(&[0.0, -0.0, 1.0, 5.0, 1_048_576.0, 5e-324])),
            2 if matches!(shape, Shape::Every | Shape::Refused) => classes::spoil(d, &mut i[PIECE..WALL_SUMS]),
            _ => {}
        }
    }
}

fn wall_onto_sums(d: &mut Draw, i: &mut [f64]) {
    let shape = realistic(d);
    wall(d, i, shape);
    some_sums(d, &mut i[WALL_SUMS..]);
}

// --- whole faces: cone 8, o 3, convex, how many paths, four paths (kind, 28 numbers), sums 8 ---

const PATH: usize = 1 + PIECE;
const PATHS: usize = 4;
const FIRST: usize = 13;
const FACE_SUMS: usize = FIRST + PATHS * PATH;
const FACE: usize = FACE_SUMS + 8;

fn face(d: &mut Draw, i: &mut [f64], any: bool) {
    cone_from(d, i);
    if d.below(2) == 0 {
        i[7] = d.pick(&[0.0, -0.0]);
    }
    i[11] = d.sign();
    i[12] = d.below(5) as f64;
    let (c, paths) = i.split_at_mut(FIRST);
    for path in paths[..PATHS * PATH].chunks_exact_mut(PATH) {
        path.fill(0.0);
        // No piece on a cone, but for a refusal.
        let is_arc = d.below(2) == 0 || (c[7] != 0.0 && !(any && d.below(8) == 0));
        path[0] = if is_arc { 0.0 } else { 1.0 };
        if is_arc {
            arc_about(d, c, &mut path[1..]);
            continue;
        }
        let shape = realistic(d);
        let other = shapes::ALL[d.below(shapes::ALL.len() as u64) as usize];
        let w = if any && d.below(4) == 0 { short_piece(d, other) } else { piece_about(d, c, shape) };
        path[1..].copy_from_slice(&w);
    }
    i[FACE_SUMS..].fill(0.0);
    if any {
        some_sums(d, &mut i[FACE_SUMS..]);
        if d.below(4) == 0 {
            let k = FIRST + d.below((PATHS * PATH) as u64) as usize;
            if !(k - FIRST).is_multiple_of(PATH) && (k - FIRST) % PATH < 27 {
                i[k] = d.pick(SPECIAL);
            }
        }
    }
}

/// The calls on a face, and the way through them: open, a call for each path, close. The sums are
/// lent at the end.
struct Calls {
    open: fn(&[f64; 8], &[f64; 3], &mut [f64; 8]) -> u32,
    add_arc: fn(&[f64; 8], &[f64; 3], &[f64; 7], &[f64; 3], &[f64; 3], &mut [f64; 8]) -> u32,
    add_piece: fn(&[f64; 8], &[f64; 3], &[f64; 26], u32, u32, &mut [f64; 8]) -> u32,
    close: fn(&[f64; 8], bool, &[f64; 8], &mut [f64; 8]) -> u32,
}

fn in_turn(i: &[f64], o: &mut [f64], calls: &Calls) -> u32 {
    let (c, from) = (at(i, 0), at(i, 8));
    o.copy_from_slice(&i[FACE_SUMS..]);
    let mut running = [f64::NAN; 8];
    let number = (calls.open)(c, from, &mut running);
    if number != 0 {
        return number;
    }
    for path in i[FIRST..FACE_SUMS].chunks_exact(PATH).take(i[12] as usize) {
        let number = if path[0] == 0.0 {
            (calls.add_arc)(c, from, at(path, 1), at(path, 8), at(path, 11), &mut running)
        } else {
            (calls.add_piece)(c, from, at(path, 1), path[27] as u32, path[28] as u32, &mut running)
        };
        if number != 0 {
            return number;
        }
    }
    (calls.close)(c, i[11] > 0.0, &running, out(o))
}

fn whole_face(i: &[f64], o: &mut [f64]) -> u32 {
    use crate::curve::{self, Path};
    o.copy_from_slice(&i[FACE_SUMS..]);
    let paths = i[FIRST..FACE_SUMS].chunks_exact(PATH).take(i[12] as usize).map(|path| match path[0] {
        0.0 => Path::Arc(crate::arcs::rust::arc(at(path, 1)), v(&path[8..]), v(&path[11..])),
        _ => Path::Rolled(pieces::rust::rolled(&path[1..], path[27] as u32, path[28] as u32)),
    });
    let mut s = rust::sums(at(o, 0));
    curve::revolution(&mut s, &rust::cone(at(i, 0), i[11] > 0.0), paths, v(&i[8..]));
    rust::store(&s, out(o))
}

const PORT: Calls = Calls {
    open: |c, o, running| jr_revolution_open(c, o, running),
    add_arc: |c, o, a, u, v, running| jr_revolution_add_arc(c, o, a, u, v, running),
    add_piece: |c, o, w, arc, trace, running| jr_revolution_add_piece(c, o, w, arc, trace, running),
    close: |c, convex, running, sums| jr_revolution_close(c, convex, running, sums),
};

const SECOND: Calls = Calls {
    open: second::revolution_open,
    add_arc: second::revolution_add_arc,
    add_piece: second::revolution_add_piece,
    close: second::revolution_close,
};

const FULL: u64 = 5_000_000;
const DEAR: u64 = 1_000_000;

pub const ENTRIES: &[Entry] = &[
    Entry {
        timed: 1,
        ..entry!(segment, jr_segment, SEGMENT, 8, FULL, RIMS, |f, i, o| {
            o.copy_from_slice(&i[22..]);
            f(out(o), at(i, 0), at(i, 7), at(i, 10), at(i, 13), at(i, 16), at(i, 19))
        })
    },
    entry!(cone_frame, jr_cone_frame, 8, 12, FULL, CONES, |f, i, o| f(at(i, 0), out(o))),
    entry!(frame_angle, jr_frame_angle, 15, 1, FULL, ANGLES, |f, i, o| f(at(i, 0), at(i, 12), out(o))),
    entry!(frame_point, jr_frame_point, 15, 3, FULL, POINTS, |f, i, o| f(at(i, 0), i[12], i[13], i[14], out(o))),
    entry!(revolution_open, jr_revolution_open, 11, 8, FULL, OPENED, |f, i, o| f(at(i, 0), at(i, 8), out(o))),
    Entry {
        timed: 1,
        ..entry!(revolution_add_arc, jr_revolution_add_arc, 32, 8, DEAR, ARC_PATHS, |f, i, o| {
            o.copy_from_slice(&i[24..]);
            f(at(i, 0), at(i, 8), at(i, 11), at(i, 18), at(i, 21), out(o))
        })
    },
    Entry {
        whole_inputs: &[37, 38],
        timed: shapes::TIMED,
        ..entry!(
            revolution_add_piece,
            jr_revolution_add_piece,
            SUMS + 8,
            8,
            DEAR,
            shapes!(piece_path; ("onto running sums", piece_onto_sums); ("on a cone", piece_on_cone)),
            |f, i, o| {
                o.copy_from_slice(&i[SUMS..]);
                f(at(i, 0), at(i, 8), at(i, 11), i[37] as u32, i[38] as u32, out(o))
            }
        )
    },
    Entry {
        flags: &[8],
        timed: 0,
        ..entry!(revolution_close, jr_revolution_close, 25, 8, FULL, CLOSED, |f, i, o| {
            o.copy_from_slice(&i[17..]);
            f(at(i, 0), i[8] > 0.0, at(i, 9), out(o))
        })
    },
    Entry {
        whole_inputs: &[26, 27],
        timed: shapes::TIMED,
        ..entry!(wall, jr_wall, WALL_SUMS + 8, 8, DEAR, shapes!(wall; ("onto sums", wall_onto_sums)), |f, i, o| {
            o.copy_from_slice(&i[WALL_SUMS..]);
            f(out(o), at(i, 0), i[26] as u32, i[27] as u32, i[PIECE], i[PIECE + 1], at(i, PIECE + 2))
        })
    },
];

/// Whole faces, which the replayed list does not have.
pub const WHOLE: &[Entry] = &[Entry {
    name: "revolution",
    port_name: "jr_revolution_open jr_revolution_add_arc jr_revolution_add_piece jr_revolution_close",
    takes: FACE,
    gives: 8,
    full: DEAR,
    zeros_alike: false,
    flags: &[11],
    whole_inputs: &[],
    whole_outputs: &[],
    row: false,
    replayed: false,
    classes: &[
        ("faces of pipes and cones", |d, i| face(d, i, false)),
        ("faces, any sums, some refused", |d, i| face(d, i, true)),
    ],
    timed: 1,
    port: |i, o| in_turn(i, o, &PORT),
    rust: whole_face,
    second: |i, o| in_turn(i, o, &SECOND),
}];

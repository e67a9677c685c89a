//! Pieces of a development: 26 numbers, and the tags of the arc and of the trace.

use std::f64::consts::{FRAC_PI_4, PI, TAU};

use crate::draw::{Draw, SPECIAL};
use crate::entry::{Entry, UNTOUCHED, at, entry, out};
use crate::shapes::{self, PIECE, Shape, TIMED, shapes};
use crate::track::MOST;

unsafe extern "C" {
    safe fn jr_piece_uv_box(w: &[f64; 26], arc: u32, trace: u32, out: &mut [f64; 4]) -> u32;
    safe fn jr_piece_polyline(w: &[f64; 26], arc: u32, trace: u32, deviation: f64, out: &mut [u64; 1]) -> u32;
    safe fn jr_piece_reversed(w: &[f64; 26], arc: u32, trace: u32, out: &mut [f64; 26], tags: &mut [u32; 2]) -> u32;
    safe fn jr_piece_at(w: &[f64; 26], arc: u32, trace: u32, t: f64, out: &mut [f64; 4]) -> u32;
    safe fn jr_piece_second(w: &[f64; 26], arc: u32, trace: u32, t: f64, out: &mut [f64; 2]) -> u32;
    safe fn jr_piece_normal(w: &[f64; 26], arc: u32, trace: u32, p: &[f64; 2], r: f64, out: &mut [f64; 3]) -> u32;
    safe fn jr_piece_measure(w: &[f64; 26], arc: u32, trace: u32, out: &mut [f64; 3]) -> u32;
    safe fn jr_piece_quadrature_pieces(w: &[f64; 26], arc: u32, trace: u32, out: &mut [u64; 1]) -> u32;
    safe fn jr_piece_chords(w: &[f64; 26], arc: u32, trace: u32, r: f64, chord: f64, out: &mut [u64; 1]) -> u32;
}

pub mod rust {
    use datum_math::Vec2;

    use crate::ProfileArc;
    use crate::curve::{Rolled, Trace};
    use crate::developments::rust::development;
    use crate::traces::rust::trace;

    fn vec2(w: &[f64]) -> Vec2 {
        Vec2::new(w[0], w[1])
    }

    pub fn rolled(w: &[f64], arc: u32, kind: u32) -> Rolled {
        let arc = (arc != 0).then(|| ProfileArc { center: vec2(&w[14..]), ccw: arc == 1 });
        Rolled { dev: development(w), from: vec2(&w[10..]), to: vec2(&w[12..]), arc, trace: trace(&w[16..], kind) }
    }

    /// The numbers that the tags use, and the tags.
    pub fn store(w: &Rolled, out: &mut [f64]) -> [u32; 2] {
        out[..10].copy_from_slice(&w.dev.floats());
        out[10..14].copy_from_slice(&[w.from.x, w.from.y, w.to.x, w.to.y]);
        let mut tags = [0, 0];
        if let Some(a) = w.arc {
            out[14..16].copy_from_slice(&[a.center.x, a.center.y]);
            tags[0] = if a.ccw { 1 } else { 2 };
        }
        match w.trace {
            None => {}
            Some(Trace::Wave(t)) => {
                out[16..19].copy_from_slice(&[t.a, t.b, t.c]);
                tags[1] = 1;
            }
            Some(Trace::Meet(m)) => {
                let (o, a) = (m.origin, m.axis);
                out[16..24].copy_from_slice(&[o.x, o.y, o.z, a.x, a.y, a.z, m.radius, m.own]);
                tags[1] = 2;
                if let Some(turn) = m.turn {
                    out[24..26].copy_from_slice(&turn);
                    tags[1] = 3;
                }
            }
        }
        tags
    }

    #[inline(never)]
    pub fn piece_uv_box(w: &[f64; 26], arc: u32, trace: u32, out: &mut [f64; 4]) -> u32 {
        let [u, v] = rolled(w, arc, trace).uv_box();
        *out = [u[0], u[1], v[0], v[1]];
        0
    }
    #[inline(never)]
    pub fn piece_polyline(w: &[f64; 26], arc: u32, trace: u32, deviation: f64, out: &mut [u64; 1]) -> u32 {
        out[0] = rolled(w, arc, trace).polyline(deviation) as u64;
        0
    }
    #[inline(never)]
    pub fn piece_reversed(w: &[f64; 26], arc: u32, trace: u32, out: &mut [f64; 26], tags: &mut [u32; 2]) -> u32 {
        *tags = store(&rolled(w, arc, trace).reversed(), out);
        0
    }
    #[inline(never)]
    pub fn piece_at(w: &[f64; 26], arc: u32, trace: u32, t: f64, out: &mut [f64; 4]) -> u32 {
        let (p, d) = rolled(w, arc, trace).at(t);
        *out = [p.x, p.y, d.x, d.y];
        0
    }
    #[inline(never)]
    pub fn piece_second(w: &[f64; 26], arc: u32, trace: u32, t: f64, out: &mut [f64; 2]) -> u32 {
        let d = rolled(w, arc, trace).second(t);
        *out = [d.x, d.y];
        0
    }
    #[inline(never)]
    pub fn piece_normal(w: &[f64; 26], arc: u32, trace: u32, p: &[f64; 2], r: f64, out: &mut [f64; 3]) -> u32 {
        *out = rolled(w, arc, trace).normal(vec2(p), r).to_array();
        0
    }
    #[inline(never)]
    pub fn piece_measure(w: &[f64; 26], arc: u32, trace: u32, out: &mut [f64; 3]) -> u32 {
        *out = rolled(w, arc, trace).measure().into();
        0
    }
    #[inline(never)]
    pub fn piece_quadrature_pieces(w: &[f64; 26], arc: u32, trace: u32, out: &mut [u64; 1]) -> u32 {
        out[0] = rolled(w, arc, trace).quadrature_pieces() as u64;
        0
    }
    #[inline(never)]
    pub fn piece_chords(w: &[f64; 26], arc: u32, trace: u32, r: f64, chord: f64, out: &mut [u64; 1]) -> u32 {
        out[0] = rolled(w, arc, trace).chords(r, chord) as u64;
        0
    }
}

pub mod second {
    use std::f64::consts::{FRAC_PI_4, TAU};

    use crate::arcs::second::{chords_per_turn, turned};
    use crate::developments::second::{Development, development, is_no_radius};
    use crate::entry::UNKNOWN;
    use crate::shapes::trace_numbers;
    use crate::traces::second::{Meet, Trace, trace};
    use crate::track::{Num, Path, Vec2, Vec3, answer, first_failed, in_range, num, settle, vec2};

    pub struct Piece {
        pub dev: Development,
        pub from: Vec2,
        pub to: Vec2,
        /// The centre, and whether it runs counterclockwise.
        pub arc: Option<(Vec2, bool)>,
        pub trace: Option<Trace>,
    }

    pub fn piece(w: &[f64], arc: u32, kind: u32) -> Piece {
        let arc = (arc != 0).then(|| (vec2(&w[14..]), arc == 1));
        Piece { dev: development(w), from: vec2(&w[10..]), to: vec2(&w[12..]), arc, trace: trace(&w[16..], kind) }
    }

    pub fn are_unknown(arc: u32, trace: u32) -> bool {
        arc > 2 || trace > 3
    }

    /// Numbers 1, 2 and 3, of what the tags use.
    pub fn fails_1(w: &[f64], arc: u32, trace: u32) -> bool {
        let centre = if arc == 0 { &[] } else { &w[14..16] };
        !in_range(&[&w[..14], centre, &w[16..16 + trace_numbers(trace)]])
    }

    pub fn fails_2(w: &[f64]) -> bool {
        is_no_radius(w[9])
    }

    pub fn fails_3(arc: u32, trace: u32) -> bool {
        arc != 0 && trace != 0
    }

    fn due(w: &[f64; 26], arc: u32, trace: u32, others: &[&[f64]], fails_5: bool) -> u32 {
        if are_unknown(arc, trace) {
            return UNKNOWN;
        }
        let one = fails_1(w, arc, trace) || !in_range(others);
        first_failed(&[(1, one), (2, fails_2(w)), (3, fails_3(arc, trace)), (5, fails_5)])
    }

    fn scaled(v: [Num; 2]) -> Vec2 {
        Vec2 { x: v[0], y: v[1] }
    }

    impl Piece {
        /// The point, its first and its second derivative along a meet.
        fn meet_at(&self, m: &Meet, t: Num) -> [Vec2; 3] {
            let n = self.dev.neutral;
            let Some([f0, f1]) = m.turn else {
                let du = self.to.x - self.from.x;
                let u = self.from.x + du * t;
                let k = du / n;
                let [q, q1, q2] = m.point(u / n, n);
                return [scaled([u, q.z]), scaled([du, q1.z * k]), scaled([num(0.0), q2.z * k * k])];
            };
            let k = f1 - f0;
            let [q, q1, q2] = m.point(f0 * (num(1.0) - t) + f1 * t, n);
            let r2 = q.x * q.x + q.y * q.y;
            let turn = n * num(TAU);
            let u = n * q.y.atan2(q.x);
            let u = u + turn * ((self.from.x - u) / turn).round();
            let cross = q.x * q1.y - q.y * q1.x;
            let th1 = cross / r2;
            let th2 = ((q.x * q2.y - q.y * q2.x) * r2 - cross * num(2.0) * (q.x * q1.x + q.y * q1.y)) / (r2 * r2);
            [scaled([u, q.z]), scaled([n * th1 * k, q1.z * k]), scaled([n * th2 * k * k, q2.z * k * k])]
        }

        /// All samples, then the halvings, window by window. Of a sample in between only the
        /// derivative is read, and at a halving only that along the window's axis.
        fn meet_box(&self, m: &Meet, path: &mut Path) -> [[Num; 2]; 2] {
            let place = |k: usize| num(k as f64 / 64.0);
            let samples: [[Vec2; 3]; 65] = std::array::from_fn(|k| self.meet_at(m, place(k)));
            let (first, last) = (samples[0][0], samples[64][0]);
            let mut bounds = [[first.x.least(last.x), first.x.greatest(last.x)], [first.y.least(last.y), first.y.greatest(last.y)]];
            let slope = |p: &[Vec2; 3], axis: usize| if axis == 0 { p[1].x } else { p[1].y };
            for x in [first.x, first.y, last.x, last.y] {
                path.reads(x);
            }
            let rises = samples.map(|p| [0, 1].map(|axis| path.reads(slope(&p, axis)) > 0.0));
            if path.due() != 0 {
                return bounds;
            }
            for k in 0..64 {
                for axis in 0..2 {
                    let (before, after) = (rises[k][axis], rises[k + 1][axis]);
                    if before == after {
                        continue;
                    }
                    let (mut low, mut high) = (place(k), place(k + 1));
                    for _ in 0..60 {
                        let mid = num(0.5) * (low + high);
                        let rises = path.reads(slope(&self.meet_at(m, mid), axis)) > 0.0;
                        // The end towards which the slope has the middle's sign comes to the
                        // middle.
                        *(if rises == after { &mut high } else { &mut low }) = mid;
                    }
                    let p = self.meet_at(m, num(0.5) * (low + high))[0];
                    for (b, x) in bounds.iter_mut().zip([p.x, p.y]) {
                        path.reads(x);
                        *b = [b[0].least(x), b[1].greatest(x)];
                    }
                    if path.due() != 0 {
                        return bounds;
                    }
                }
            }
            bounds
        }

        /// Least and greatest u, least and greatest v.
        pub fn uv_box(&self, path: &mut Path) -> [[Num; 2]; 2] {
            let (f, g) = (self.from, self.to);
            let mut u = [f.x.least(g.x), f.x.greatest(g.x)];
            let mut v = [f.y.least(g.y), f.y.greatest(g.y)];
            match &self.trace {
                Some(Trace::Meet(m)) => return self.meet_box(m, path),
                Some(Trace::Wave(w)) => v = w.range(f.x, g.x, self.dev.neutral, path),
                None => {}
            }
            if let Some((centre, _)) = self.arc {
                let rho = (f.x - centre.x).hypot(f.y - centre.y);
                u = [u[0].least(centre.x - rho), u[1].greatest(centre.x + rho)];
                v = [v[0].least(centre.y - rho), v[1].greatest(centre.y + rho)];
            }
            [u, v]
        }

        pub fn polyline(&self, deviation: Num, path: &mut Path) -> u64 {
            let chords = match &self.trace {
                None => return 1,
                Some(Trace::Wave(w)) => {
                    let (du, n) = ((self.to.x - self.from.x).abs(), self.dev.neutral);
                    let amplitude = w.b.hypot(w.c);
                    let length = du * (num(1.0) + (amplitude / n) * (amplitude / n)).sqrt();
                    length * (amplitude / (n * n) / (num(8.0) * deviation)).sqrt()
                }
                Some(Trace::Meet(m)) => {
                    let mut bend = num(0.0);
                    for k in 0..=256 {
                        let d = self.meet_at(m, num(k as f64 / 256.0))[2];
                        bend = bend.greatest(d.x.hypot(d.y));
                    }
                    (bend / (num(8.0) * deviation)).sqrt()
                }
            };
            path.count(chords.ceil()).max(2)
        }

        /// The point, and its derivative.
        pub fn at(&self, t: Num) -> (Vec2, Vec2) {
            let (f, g) = (self.from, self.to);
            match (&self.trace, self.arc) {
                (Some(Trace::Meet(m)), _) => {
                    let [p, d, _] = self.meet_at(m, t);
                    (p, d)
                }
                (Some(Trace::Wave(w)), _) => {
                    let du = g.x - f.x;
                    let u = f.x + du * t;
                    let [v, dv, _] = w.at(u, self.dev.neutral);
                    (scaled([u, v]), scaled([du, dv * du]))
                }
                (None, None) => {
                    let d = scaled([g.x - f.x, g.y - f.y]);
                    (scaled([f.x + d.x * t, f.y + d.y * t]), d)
                }
                (None, Some((centre, ccw))) => {
                    let (dx, dy, phi) = (f.x - centre.x, f.y - centre.y, turned(centre, ccw, f, g));
                    let (s, c) = (phi * t).sincos();
                    let (x, y) = (dx * c - dy * s, dx * s + dy * c);
                    (scaled([centre.x + x, centre.y + y]), scaled([-phi * y, phi * x]))
                }
            }
        }

        pub fn second(&self, t: Num) -> Vec2 {
            match (&self.trace, self.arc) {
                (Some(Trace::Wave(w)), _) => {
                    let du = self.to.x - self.from.x;
                    scaled([num(0.0), w.at(self.from.x + du * t, self.dev.neutral)[2] * du * du])
                }
                (Some(Trace::Meet(m)), _) => self.meet_at(m, t)[2],
                (None, None) => scaled([num(0.0), num(0.0)]),
                (None, Some((centre, ccw))) => {
                    let (p, phi) = (self.at(t).0, turned(centre, ccw, self.from, self.to));
                    scaled([-phi * phi * (p.x - centre.x), -phi * phi * (p.y - centre.y)])
                }
            }
        }

        pub fn normal(&self, p: Vec2, r: Num, path: &mut Path) -> Vec3 {
            let du = self.to.x - self.from.x;
            let d = match (self.arc, &self.trace) {
                (Some((centre, true)), _) => scaled([centre.y - p.y, p.x - centre.x]),
                (Some((centre, false)), _) => scaled([p.y - centre.y, centre.x - p.x]),
                (None, None) => scaled([du, self.to.y - self.from.y]),
                (None, Some(Trace::Wave(w))) => scaled([du, w.at(p.x, self.dev.neutral)[1] * du]),
                (None, Some(Trace::Meet(m))) if m.turn.is_some() => self.across(m, p, path),
                (None, Some(Trace::Meet(_))) => self.at((p.x - self.from.x) / du).1,
            };
            let v = self.dev.radial(p.x).cross(self.dev.along(p, d, r));
            v * (num(1.0) / v.dot(v).sqrt())
        }

        /// The direction of a hole's edge: along the level line, the way that the piece runs at its
        /// middle.
        fn across(&self, m: &Meet, p: Vec2, path: &mut Path) -> Vec2 {
            let n = self.dev.neutral;
            let gradient = |p: Vec2| {
                let (s, c) = (p.x / n).sincos();
                let q = Vec3 { x: m.own * c, y: m.own * s, z: p.y } - m.origin;
                let w = q - m.axis * q.dot(m.axis);
                let pu = Vec3 { x: -s, y: c, z: num(0.0) } * (m.own / n);
                scaled([w.dot(pu), w.z])
            };
            let g = gradient(p);
            let d = scaled([-g.y, g.x]);
            let (mid, along) = self.at(num(0.5));
            let gm = gradient(mid);
            if path.reads(gm.x * along.y - gm.y * along.x) >= 0.0 { d } else { scaled([-d.x, -d.y]) }
        }

        /// The radius, the turn and the length.
        pub fn measure(&self) -> [Num; 3] {
            let (f, g) = (self.from, self.to);
            if self.trace.is_some() {
                let points: [(Vec2, Vec2); 33] = std::array::from_fn(|k| self.at(num(k as f64 / 32.0)));
                let (mut length, mut turn) = (num(0.0), num(0.0));
                for k in 0..32 {
                    let (p, q) = (points[k].0, points[k + 1].0);
                    length = length + (q.x - p.x).hypot(q.y - p.y);
                }
                for k in 0..32 {
                    let (d, e) = (points[k].1, points[k + 1].1);
                    turn = turn + (d.x * e.y - d.y * e.x).atan2(d.x * e.x + d.y * e.y).abs();
                }
                return [num(0.0), turn, length];
            }
            match self.arc {
                None => [num(0.0), num(0.0), (g.x - f.x).hypot(g.y - f.y)],
                Some((centre, ccw)) => {
                    let rho = (f.x - centre.x).hypot(f.y - centre.y);
                    let turn = turned(centre, ccw, f, g).abs();
                    [rho, turn, rho * turn]
                }
            }
        }

        pub fn quadrature_pieces(&self, path: &mut Path) -> u64 {
            let [_, turn, length] = self.measure();
            let pieces = (turn.greatest(length / self.dev.neutral) / num(FRAC_PI_4)).ceil();
            path.count(pieces).max(1)
        }

        pub fn chords(&self, r: Num, chord: Num, path: &mut Path) -> u64 {
            let [rho, turn, length] = self.measure();
            let own = turn / num(TAU) * if self.trace.is_some() { num(64.0) } else { chords_per_turn(rho, chord, path) };
            let bend = length / self.dev.neutral / num(TAU) * chords_per_turn(r, chord, path);
            path.count(own.greatest(bend).ceil()).max(1)
        }
    }

    /// A count as an answer.
    fn counted(path: Path, n: u64, out: &mut [u64; 1]) -> u32 {
        if path.due() == 0 {
            out[0] = n;
        }
        path.due()
    }

    pub fn piece_uv_box(w: &[f64; 26], arc: u32, trace: u32, out: &mut [f64; 4]) -> u32 {
        match due(w, arc, trace, &[], false) {
            0 => {
                let mut path = Path::new();
                let [u, v] = piece(w, arc, trace).uv_box(&mut path);
                settle(path, out, [u[0], u[1], v[0], v[1]])
            }
            number => number,
        }
    }

    pub fn piece_polyline(w: &[f64; 26], arc: u32, trace: u32, deviation: f64, out: &mut [u64; 1]) -> u32 {
        match due(w, arc, trace, &[&[deviation]], !(deviation > 0.0)) {
            0 => {
                let mut path = Path::new();
                let n = piece(w, arc, trace).polyline(num(deviation), &mut path);
                counted(path, n, out)
            }
            number => number,
        }
    }

    /// The numbers that the tags use, exchanged where the ends are.
    pub fn reverse(w: &[f64], arc: u32, trace: u32, out: &mut [f64]) -> [u32; 2] {
        out[..10].copy_from_slice(&w[..10]);
        out[10..14].copy_from_slice(&[w[12], w[13], w[10], w[11]]);
        if arc != 0 {
            out[14..16].copy_from_slice(&w[14..16]);
        }
        let end = 16 + trace_numbers(trace);
        out[16..end].copy_from_slice(&w[16..end]);
        if trace == 3 {
            out[24..26].copy_from_slice(&[w[25], w[24]]);
        }
        [[0, 2, 1][arc as usize], trace]
    }

    pub fn piece_reversed(w: &[f64; 26], arc: u32, trace: u32, out: &mut [f64; 26], tags: &mut [u32; 2]) -> u32 {
        let number = due(w, arc, trace, &[], false);
        if number == 0 {
            *tags = reverse(w, arc, trace, out);
        }
        number
    }

    pub fn piece_at(w: &[f64; 26], arc: u32, trace: u32, t: f64, out: &mut [f64; 4]) -> u32 {
        match due(w, arc, trace, &[&[t]], false) {
            0 => {
                let (p, d) = piece(w, arc, trace).at(num(t));
                answer(out, [p.x, p.y, d.x, d.y])
            }
            number => number,
        }
    }

    pub fn piece_second(w: &[f64; 26], arc: u32, trace: u32, t: f64, out: &mut [f64; 2]) -> u32 {
        match due(w, arc, trace, &[&[t]], false) {
            0 => {
                let d = piece(w, arc, trace).second(num(t));
                answer(out, [d.x, d.y])
            }
            number => number,
        }
    }

    pub fn piece_normal(w: &[f64; 26], arc: u32, trace: u32, p: &[f64; 2], r: f64, out: &mut [f64; 3]) -> u32 {
        match due(w, arc, trace, &[p, &[r]], false) {
            0 => {
                let mut path = Path::new();
                let v = piece(w, arc, trace).normal(vec2(p), num(r), &mut path);
                settle(path, out, [v.x, v.y, v.z])
            }
            number => number,
        }
    }

    pub fn piece_measure(w: &[f64; 26], arc: u32, trace: u32, out: &mut [f64; 3]) -> u32 {
        match due(w, arc, trace, &[], false) {
            0 => answer(out, piece(w, arc, trace).measure()),
            number => number,
        }
    }

    pub fn piece_quadrature_pieces(w: &[f64; 26], arc: u32, trace: u32, out: &mut [u64; 1]) -> u32 {
        match due(w, arc, trace, &[], false) {
            0 => {
                let mut path = Path::new();
                let n = piece(w, arc, trace).quadrature_pieces(&mut path);
                counted(path, n, out)
            }
            number => number,
        }
    }

    pub fn piece_chords(w: &[f64; 26], arc: u32, trace: u32, r: f64, chord: f64, out: &mut [u64; 1]) -> u32 {
        match due(w, arc, trace, &[&[r, chord]], chord < 0.0) {
            0 => {
                let mut path = Path::new();
                let n = piece(w, arc, trace).chords(num(r), num(chord), &mut path);
                counted(path, n, out)
            }
            number => number,
        }
    }
}

/// A piece, and numbers after it that stay as they are.
fn alone(d: &mut Draw, i: &mut [f64], shape: Shape) {
    i[..PIECE].copy_from_slice(&shapes::piece(d, shape));
}

/// Numbers after the piece, spoilt where the class is one of any numbers.
fn spoil(d: &mut Draw, i: &mut [f64], shape: Shape) {
    if matches!(shape, Shape::Every | Shape::Refused) && d.below(8) == 0 {
        i[PIECE + d.below((i.len() - PIECE) as u64) as usize] = d.pick(SPECIAL);
    }
}

/// A place on the piece: mostly between its ends, at samples, beyond, far off.
fn with_place(d: &mut Draw, i: &mut [f64], shape: Shape) {
    alone(d, i, shape);
    i[PIECE] = match d.below(8) {
        0 => d.whole(0, 64) as f64 / 64.0,
        1 => d.pick(&[0.0, -0.0, 1.0, 0.5, 0.25]),
        2 => d.between(-3.0, 4.0),
        3 if matches!(shape, Shape::Limits | Shape::Wild) => d.near(1_048_576.0 / TAU, 4) * d.sign(),
        3 => d.magnitude(-30, 19),
        _ => d.fraction(),
    };
    spoil(d, i, shape);
}

fn with_deviation(d: &mut Draw, i: &mut [f64], shape: Shape) {
    alone(d, i, shape);
    i[PIECE] = match d.below(16) {
        0 => d.pick(&[0.0, -0.0, -1.0, -5e-324, 5e-324]),
        1 => d.magnitude(-1022, -30).abs(),
        2 | 3 => d.magnitude(-40, 19).abs(),
        _ => d.between(0.001, 1.0),
    };
    spoil(d, i, shape);
}

/// A distance from the axis and a chord.
fn with_chord(d: &mut Draw, i: &mut [f64], shape: Shape) {
    alone(d, i, shape);
    let r = match d.below(8) {
        0 => d.pick(&[0.0, -0.0, -5.0, 1_048_576.0]),
        1 => i[9],
        _ => i[9] * d.between(0.9, 1.1),
    };
    i[PIECE] = r;
    i[PIECE + 1] = chord(d, r);
    spoil(d, i, shape);
}

pub fn chord(d: &mut Draw, r: f64) -> f64 {
    match d.below(16) {
        0 => d.pick(&[0.0, -0.0]),
        1 => r,
        2 => -d.magnitude(-30, 10).abs(),
        3 | 4 => r * (1.0 - (PI / d.whole(2, 70) as f64).cos()),
        5 => d.magnitude(-30, 10).abs(),
        _ => d.between(0.001, 2.0),
    }
}

/// A point of the wall over the piece, or any.
fn with_point(d: &mut Draw, i: &mut [f64], shape: Shape) {
    alone(d, i, shape);
    let known = !second::are_unknown(i[26] as u32, i[27] as u32);
    let (p, _) = if known { rust::rolled(i, i[26] as u32, i[27] as u32).at(d.fraction()) } else { Default::default() };
    let off = d.below(8) == 0 || (!(p.x.abs().max(p.y.abs()) <= 1_048_576.0) && d.below(8) != 0);
    let (x, y) = if off || p.x.is_nan() { (d.between(-500.0, 500.0), d.between(-500.0, 500.0)) } else { (p.x, p.y) };
    let r = if d.below(16) == 0 { d.pick(&[0.0, -0.0, -5.0]) } else { i[9] * d.between(0.9, 1.1) };
    i[PIECE..].copy_from_slice(&[x, y, r]);
    if d.below(16) == 0 {
        i[PIECE] = i[if d.below(2) == 0 { 10 } else { 14 }];
    }
    spoil(d, i, shape);
}

/// About as many pieces as are accepted: straight, so that the length over the neutral radius alone
/// counts.
pub fn many_pieces(d: &mut Draw, i: &mut [f64], each: f64) {
    i[..PIECE].copy_from_slice(&shapes::piece(d, Shape::Straight));
    i[9] = d.magnitude(-8, 3).abs();
    (i[10], i[11], i[13]) = (0.0, 0.0, 0.0);
    let whole = MOST + d.whole(-1, 1) as f64;
    let count = if d.below(2) == 0 { whole } else { whole + d.between(-1.0, 1.0) };
    i[12] = (i[9] * count * each).min(1_048_576.0);
}

fn most_pieces(d: &mut Draw, i: &mut [f64], shape: Shape) {
    alone(d, i, shape);
    if shape == Shape::Limits && d.below(4) == 0 {
        many_pieces(d, i, FRAC_PI_4);
    }
}

fn most_chords(d: &mut Draw, i: &mut [f64], shape: Shape) {
    with_chord(d, i, shape);
    if shape == Shape::Limits && d.below(4) == 0 {
        many_pieces(d, i, TAU / 64.0);
        i[PIECE] = i[9];
        i[PIECE + 1] = 0.0;
    }
}

/// About as many chords as are accepted: the deviation from the Rust's own formula backwards.
fn most_deviations(d: &mut Draw, i: &mut [f64], shape: Shape) {
    with_deviation(d, i, shape);
    let traced = [1.0, 2.0, 3.0].contains(&i[27]) && i[26] == 0.0;
    if shape == Shape::Limits && traced && d.below(4) == 0 {
        // At deviation 1 so many chords are due; they go with the root of its inverse.
        let chords = rust::rolled(i, 0, i[27] as u32).polyline(1e-12) as f64;
        let ratio = chords / (MOST + d.between(-2.0, 2.0));
        let deviation = 1e-12 * ratio * ratio;
        if deviation.is_finite() && deviation > 0.0 {
            i[PIECE] = deviation;
        }
    }
}

/// The ends and the senses are exchanged whatever the shape.
const REVERSED: &[crate::entry::Class] = &[
    ("pieces of all shapes", |d, i| {
        let shape = shapes::ALL[d.below(shapes::ALL.len() as u64) as usize];
        alone(d, i, shape)
    }),
    ("arcs of cuts", |d, i| alone(d, i, Shape::Arc)),
    ("holes for a branch", |d, i| alone(d, i, Shape::Hole)),
    ("signed zeros", |d, i| alone(d, i, Shape::Zeros)),
    ("refused radii, traces and tags", |d, i| alone(d, i, Shape::Refused)),
    ("every bit pattern", |d, i| alone(d, i, Shape::Every)),
];

/// A count that was written, else what stood there.
fn count(refusal: u32, n: [u64; 1], o: &mut [f64]) -> u32 {
    o[0] = n[0] as f64;
    refusal
}

const NO_COUNT: [u64; 1] = [77];

/// Tags before a call; where they are not written, they count as untouched.
pub const NO_TAGS: [u32; 2] = [77, 77];

pub fn tag_as_number(tag: u32) -> f64 {
    if tag == NO_TAGS[0] { UNTOUCHED } else { tag as f64 }
}

const TAGS: &[usize] = &[26, 27];
const FULL: u64 = 5_000_000;
const DEAR: u64 = 1_000_000;

/// With the tags of a piece, and the realistic shapes timed.
const fn tagged(e: Entry) -> Entry {
    Entry { whole_inputs: TAGS, timed: TIMED, ..e }
}

const fn counting(e: Entry) -> Entry {
    Entry { whole_outputs: &[0], ..tagged(e) }
}

pub const ENTRIES: &[Entry] = &[
    Entry {
        zeros_alike: true,
        ..tagged(entry!(piece_uv_box, jr_piece_uv_box, PIECE, 4, DEAR, shapes!(alone), |f, i, o| f(at(i, 0), i[26] as u32, i[27] as u32, out(o))))
    },
    counting(entry!(piece_polyline, jr_piece_polyline, PIECE + 1, 1, DEAR, shapes!(most_deviations), |f, i, o| {
        let mut n = NO_COUNT;
        count(f(at(i, 0), i[26] as u32, i[27] as u32, i[PIECE], &mut n), n, o)
    })),
    Entry {
        whole_outputs: TAGS,
        ..tagged(entry!(piece_reversed, jr_piece_reversed, PIECE, PIECE, FULL, REVERSED, |f, i, o| {
            let mut tags = NO_TAGS;
            let refusal = f(at(i, 0), i[26] as u32, i[27] as u32, out(o), &mut tags);
            o[26..].copy_from_slice(&tags.map(tag_as_number));
            refusal
        }))
    },
    tagged(entry!(piece_at, jr_piece_at, PIECE + 1, 4, FULL, shapes!(with_place), |f, i, o| f(at(i, 0), i[26] as u32, i[27] as u32, i[PIECE], out(o)))),
    tagged(entry!(piece_second, jr_piece_second, PIECE + 1, 2, FULL, shapes!(with_place), |f, i, o| {
        f(at(i, 0), i[26] as u32, i[27] as u32, i[PIECE], out(o))
    })),
    tagged(entry!(piece_normal, jr_piece_normal, PIECE + 3, 3, FULL, shapes!(with_point), |f, i, o| {
        f(at(i, 0), i[26] as u32, i[27] as u32, at(i, PIECE), i[PIECE + 2], out(o))
    })),
    tagged(entry!(piece_measure, jr_piece_measure, PIECE, 3, FULL, shapes!(alone), |f, i, o| f(at(i, 0), i[26] as u32, i[27] as u32, out(o)))),
    counting(entry!(piece_quadrature_pieces, jr_piece_quadrature_pieces, PIECE, 1, FULL, shapes!(most_pieces), |f, i, o| {
        let mut n = NO_COUNT;
        count(f(at(i, 0), i[26] as u32, i[27] as u32, &mut n), n, o)
    })),
    counting(entry!(piece_chords, jr_piece_chords, PIECE + 2, 1, FULL, shapes!(most_chords), |f, i, o| {
        let mut n = NO_COUNT;
        count(f(at(i, 0), i[26] as u32, i[27] as u32, i[PIECE], i[PIECE + 1], &mut n), n, o)
    })),
];

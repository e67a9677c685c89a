//! Curves of edges (an arc, or a piece at a radius: 27 numbers and three tags) and surfaces of
//! faces (26 numbers, and tags).

use std::ops::Range;

use datum_math::Vec2;

use crate::arcs::{self, Kind};
use crate::classes;
use crate::draw::{Draw, SPECIAL};
use crate::entry::{Entry, at, entry, out};
use crate::pieces::{self, NO_TAGS, chord, tag_as_number};
use crate::shapes::{self, Shape, TIMED, put, shapes, v};
use crate::track::MOST;

unsafe extern "C" {
    safe fn jr_curve_reversed(c: &[f64; 27], kind: u32, arc: u32, trace: u32, out: &mut [f64; 27], tags: &mut [u32; 2]) -> u32;
    safe fn jr_curve_moved(c: &[f64; 27], kind: u32, arc: u32, trace: u32, m: &[f64; 12], out: &mut [f64; 27]) -> u32;
    safe fn jr_curve_arc(c: &[f64; 27], kind: u32, arc: u32, trace: u32, out: &mut [f64; 7]) -> u32;
    // A row is lent as its start and its length; `row` below is always of that length.
    safe fn jr_curve_inner_points(c: &[f64; 27], kind: u32, arc: u32, trace: u32, from: &[f64; 3], to: &[f64; 3], chord: f64, row: *mut f64, length: usize, written: &mut [u64; 1]) -> u32;
    safe fn jr_curve_extend_bounds(c: &[f64; 27], kind: u32, arc: u32, trace: u32, from: &[f64; 3], to: &[f64; 3], bounds: &mut [f64; 6]) -> u32;
    safe fn jr_surface_plane(s: &[f64; 26], kind: u32, convex: bool, arc: u32, trace: u32, out: &mut [f64; 6]) -> u32;
    safe fn jr_surface_revolution(s: &[f64; 26], kind: u32, convex: bool, arc: u32, trace: u32, out: &mut [f64; 8]) -> u32;
    safe fn jr_surface_moved(s: &[f64; 26], kind: u32, convex: bool, arc: u32, trace: u32, m: &[f64; 12], out: &mut [f64; 26]) -> u32;
    safe fn jr_surface_normal_at(s: &[f64; 26], kind: u32, convex: bool, arc: u32, trace: u32, p: &[f64; 3], out: &mut [f64; 3]) -> u32;
}

pub mod rust {
    use datum_math::{Rigid, Vec3};

    use crate::Plane;
    use crate::arcs::rust::arc as arc_of;
    use crate::curve::{Arc, Cone, Curve, Cylinder, Surface};
    use crate::entry::ABSENT;
    use crate::pieces::rust::{rolled, store};
    use crate::shapes::v;

    fn curve(c: &[f64; 27], kind: u32, arc: u32, trace: u32) -> Curve {
        if kind == 0 {
            return Curve::Arc(arc_of(c.first_chunk().unwrap()));
        }
        Curve::Rolled { piece: rolled(c, arc, trace), radius: c[26] }
    }

    fn surface(s: &[f64; 26], kind: u32, convex: bool, arc: u32, trace: u32) -> Surface {
        let (origin, axis, radius, slope) = (v(s), v(&s[3..]), s[6], s[7]);
        match kind {
            0 => Surface::Plane(Plane { origin, normal: axis }),
            1 => Surface::Cylinder(Cylinder { origin, axis, radius, convex }),
            2 => Surface::Cone(Cone { origin, axis, radius, slope, convex }),
            _ => Surface::Wall(rolled(s, arc, trace)),
        }
    }

    fn store_all(parts: &[Vec3], numbers: &[f64], out: &mut [f64]) {
        for (k, p) in parts.iter().enumerate() {
            out[3 * k..3 * k + 3].copy_from_slice(&p.to_array());
        }
        out[3 * parts.len()..3 * parts.len() + numbers.len()].copy_from_slice(numbers);
    }

    fn store_arc(a: &Arc, out: &mut [f64]) {
        store_all(&[a.center, a.axis], &[a.radius], out);
    }

    fn store_curve(c: &Curve, out: &mut [f64; 27], tags: &mut [u32; 2]) {
        match c {
            Curve::Arc(a) => store_arc(a, out),
            Curve::Rolled { piece, radius } => {
                *tags = store(piece, out);
                out[26] = *radius;
            }
        }
    }

    #[inline(never)]
    pub fn curve_reversed(c: &[f64; 27], kind: u32, arc: u32, trace: u32, out: &mut [f64; 27], tags: &mut [u32; 2]) -> u32 {
        store_curve(&curve(c, kind, arc, trace).reversed(), out, tags);
        0
    }
    #[inline(never)]
    pub fn curve_moved(c: &[f64; 27], kind: u32, arc: u32, trace: u32, m: &[f64; 12], out: &mut [f64; 27]) -> u32 {
        store_curve(&curve(c, kind, arc, trace).moved(&Rigid::of_numbers(m)), out, &mut [0, 0]);
        0
    }
    #[inline(never)]
    pub fn curve_arc(c: &[f64; 27], kind: u32, arc: u32, trace: u32, out: &mut [f64; 7]) -> u32 {
        match curve(c, kind, arc, trace).arc() {
            Some(a) => {
                store_arc(a, out);
                0
            }
            None => ABSENT,
        }
    }
    #[inline(never)]
    pub fn curve_inner_points(c: &[f64; 27], kind: u32, arc: u32, trace: u32, from: &[f64; 3], to: &[f64; 3], chord: f64, row: *mut f64, length: usize, written: &mut [u64; 1]) -> u32 {
        let row = unsafe { std::slice::from_raw_parts_mut(row, length) };
        let points = curve(c, kind, arc, trace).inner_points(v(from), v(to), chord);
        for (place, p) in row.chunks_exact_mut(3).zip(&points) {
            place.copy_from_slice(&p.to_array());
        }
        written[0] = 3 * points.len() as u64;
        0
    }
    #[inline(never)]
    pub fn curve_extend_bounds(c: &[f64; 27], kind: u32, arc: u32, trace: u32, from: &[f64; 3], to: &[f64; 3], bounds: &mut [f64; 6]) -> u32 {
        let (mut low, mut high) = (v(bounds), v(&bounds[3..]));
        curve(c, kind, arc, trace).extend_bounds(v(from), v(to), &mut low, &mut high);
        store_all(&[low, high], &[], bounds);
        0
    }
    #[inline(never)]
    pub fn surface_plane(s: &[f64; 26], kind: u32, convex: bool, arc: u32, trace: u32, out: &mut [f64; 6]) -> u32 {
        match surface(s, kind, convex, arc, trace).plane() {
            Some(p) => {
                store_all(&[p.origin, p.normal], &[], out);
                0
            }
            None => ABSENT,
        }
    }
    #[inline(never)]
    pub fn surface_revolution(s: &[f64; 26], kind: u32, convex: bool, arc: u32, trace: u32, out: &mut [f64; 8]) -> u32 {
        match surface(s, kind, convex, arc, trace).revolution() {
            Some(c) => {
                assert_eq!(c.convex, convex);
                store_all(&[c.origin, c.axis], &[c.radius, c.slope], out);
                0
            }
            None => ABSENT,
        }
    }
    #[inline(never)]
    pub fn surface_moved(s: &[f64; 26], kind: u32, convex: bool, arc: u32, trace: u32, m: &[f64; 12], out: &mut [f64; 26]) -> u32 {
        match surface(s, kind, convex, arc, trace).moved(&Rigid::of_numbers(m)) {
            Surface::Plane(p) => store_all(&[p.origin, p.normal], &[], out),
            Surface::Cylinder(c) => store_all(&[c.origin, c.axis], &[c.radius], out),
            Surface::Cone(c) => store_all(&[c.origin, c.axis], &[c.radius, c.slope], out),
            Surface::Wall(w) => {
                store(&w, out);
            }
        }
        0
    }
    #[inline(never)]
    pub fn surface_normal_at(s: &[f64; 26], kind: u32, convex: bool, arc: u32, trace: u32, p: &[f64; 3], out: &mut [f64; 3]) -> u32 {
        *out = surface(s, kind, convex, arc, trace).normal_at(v(p)).to_array();
        0
    }
}

pub mod second {
    use crate::arcs::second::{self as arcs, Arc, greatest, least};
    use crate::developments::second::{applied, development, turned};
    use crate::entry::{ABSENT, UNKNOWN};
    use crate::pieces::second::{Piece, are_unknown, fails_1, fails_2, fails_3, piece, reverse};
    use crate::shapes::trace_numbers;
    use crate::track::{Num, Path, Vec2, Vec3, answer, answer_vec3, first_failed, has_nan, in_range, num, settle, vec3};

    fn first_7(c: &[f64]) -> &[f64; 7] {
        c.first_chunk().unwrap()
    }

    /// What the curve, the numbers beside it, the box and the chord are refused by.
    fn curve_due(c: &[f64; 27], kind: u32, arc: u32, trace: u32, others: &[&[f64]], fails_4: bool, fails_5: bool) -> u32 {
        let is_piece = kind == 1;
        if kind > 1 || (is_piece && are_unknown(arc, trace)) {
            return UNKNOWN;
        }
        let one = if is_piece { fails_1(c, arc, trace) || !in_range(&[&c[26..]]) } else { !in_range(&[&c[..7]]) };
        first_failed(&[
            (1, one || !in_range(others)),
            (2, is_piece && fails_2(c)),
            (3, is_piece && fails_3(arc, trace)),
            (4, fails_4),
            (5, fails_5),
        ])
    }

    /// The numbers of a plane, a cylinder, a cone.
    const NUMBERS: [usize; 3] = [6, 7, 8];
    const WALL: u32 = 3;

    fn surface_due(s: &[f64; 26], kind: u32, arc: u32, trace: u32, others: &[&[f64]]) -> u32 {
        let is_wall = kind == WALL;
        if kind > WALL || (is_wall && are_unknown(arc, trace)) {
            return UNKNOWN;
        }
        let one = if is_wall { fails_1(s, arc, trace) } else { !in_range(&[&s[..NUMBERS[kind as usize]]]) };
        first_failed(&[(1, one || !in_range(others)), (2, is_wall && fails_2(s)), (3, is_wall && fails_3(arc, trace))])
    }

    pub fn curve_reversed(c: &[f64; 27], kind: u32, arc: u32, trace: u32, out: &mut [f64; 27], tags: &mut [u32; 2]) -> u32 {
        let number = curve_due(c, kind, arc, trace, &[], false, false);
        if number == 0 && kind == 0 {
            out[..7].copy_from_slice(&[c[0], c[1], c[2], -c[3], -c[4], -c[5], c[6]]);
        } else if number == 0 {
            *tags = reverse(c, arc, trace, out);
            out[26] = c[26];
        }
        number
    }

    /// The numbers of a piece that its tags use, the development's moved.
    fn moved_piece(w: &[f64], arc: u32, trace: u32, m: &[f64; 12], out: &mut [f64]) -> u32 {
        let mut dev = [0.0; 10];
        let number = answer(&mut dev, development(w).moved(m).numbers());
        if number == 0 {
            out[..10].copy_from_slice(&dev);
            out[10..14].copy_from_slice(&w[10..14]);
            if arc != 0 {
                out[14..16].copy_from_slice(&w[14..16]);
            }
            let end = 16 + trace_numbers(trace);
            out[16..end].copy_from_slice(&w[16..end]);
        }
        number
    }

    /// A place and a direction, moved, and then the numbers that stay.
    fn moved_axis(s: &[f64], numbers: usize, m: &[f64; 12], out: &mut [f64]) -> u32 {
        let (o, a) = (applied(m, vec3(s)), turned(m, vec3(&s[3..])));
        let mut first = [0.0; 6];
        let number = answer(&mut first, [o.x, o.y, o.z, a.x, a.y, a.z]);
        if number == 0 {
            out[..6].copy_from_slice(&first);
            out[6..numbers].copy_from_slice(&s[6..numbers]);
        }
        number
    }

    pub fn curve_moved(c: &[f64; 27], kind: u32, arc: u32, trace: u32, m: &[f64; 12], out: &mut [f64; 27]) -> u32 {
        let number = curve_due(c, kind, arc, trace, &[m], false, false);
        if number != 0 {
            return number;
        }
        if kind == 0 {
            return moved_axis(c, 7, m, out);
        }
        let number = moved_piece(c, arc, trace, m, out);
        if number == 0 {
            out[26] = c[26];
        }
        number
    }

    pub fn curve_arc(c: &[f64; 27], kind: u32, arc: u32, trace: u32, out: &mut [f64; 7]) -> u32 {
        match (curve_due(c, kind, arc, trace, &[], false, false), kind) {
            (0, 0) => {
                *out = *first_7(c);
                0
            }
            (0, _) => ABSENT,
            (number, _) => number,
        }
    }

    pub fn curve_inner_points(c: &[f64; 27], kind: u32, arc: u32, trace: u32, from: &[f64; 3], to: &[f64; 3], chord: f64, row: *mut f64, length: usize, written: &mut [u64; 1]) -> u32 {
        let number = curve_due(c, kind, arc, trace, &[from, to, &[chord]], false, chord < 0.0);
        if number != 0 {
            return number;
        }
        if kind == 0 {
            return arcs::inner_points(first_7(c), from, to, chord, row, length, written);
        }
        let (piece, radius) = (piece(c, arc, trace), num(c[26]));
        let mut path = Path::new();
        let n = piece.chords(radius, num(chord), &mut path);
        if path.due() != 0 {
            return path.due();
        }
        if (length as u64) < 3 * (n - 1) {
            return 6;
        }
        let mut points = Vec::new();
        for k in 1..n {
            // Of the place on the piece the derivative is not read.
            let p = piece.at(num(k as f64) / num(n as f64)).0;
            points.extend_from_slice(&piece.dev.point(p, radius).read(&mut path));
        }
        if path.due() == 0 {
            let row = unsafe { std::slice::from_raw_parts_mut(row, length) };
            row[..points.len()].copy_from_slice(&points);
            written[0] = points.len() as u64;
        }
        path.due()
    }

    /// The ends and extreme points of the two arcs about the axis at the two ends of the box along
    /// v.
    fn extremes(piece: &Piece, radius: Num, path: &mut Path) -> Vec<[f64; 3]> {
        let [u, v] = piece.uv_box(path);
        let mut taken = Vec::new();
        for along in v {
            let dev = &piece.dev;
            let arc = Arc { centre: dev.origin + dev.axis * along, axis: dev.axis, radius };
            let [a, b] = u.map(|u| dev.point(Vec2 { x: u, y: along }, radius));
            taken.extend(arc.extremes(a, b, path));
        }
        taken
    }

    pub fn curve_extend_bounds(c: &[f64; 27], kind: u32, arc: u32, trace: u32, from: &[f64; 3], to: &[f64; 3], bounds: &mut [f64; 6]) -> u32 {
        let number = curve_due(c, kind, arc, trace, &[from, to], has_nan(bounds), false);
        if number != 0 {
            return number;
        }
        let mut path = Path::new();
        let taken = match kind {
            0 => arcs::arc(first_7(c)).extremes(vec3(from), vec3(to), &mut path),
            _ => extremes(&piece(c, arc, trace), num(c[26]), &mut path),
        };
        if path.due() == 0 {
            for p in taken {
                for k in 0..3 {
                    bounds[k] = least(bounds[k], p[k]);
                    bounds[k + 3] = greatest(bounds[k + 3], p[k]);
                }
            }
        }
        path.due()
    }

    pub fn surface_plane(s: &[f64; 26], kind: u32, _convex: bool, arc: u32, trace: u32, out: &mut [f64; 6]) -> u32 {
        match (surface_due(s, kind, arc, trace, &[]), kind) {
            (0, 0) => {
                out.copy_from_slice(&s[..6]);
                0
            }
            (0, _) => ABSENT,
            (number, _) => number,
        }
    }

    pub fn surface_revolution(s: &[f64; 26], kind: u32, _convex: bool, arc: u32, trace: u32, out: &mut [f64; 8]) -> u32 {
        match (surface_due(s, kind, arc, trace, &[]), kind) {
            (0, 1) => {
                out[..7].copy_from_slice(&s[..7]);
                out[7] = 0.0;
                0
            }
            (0, 2) => {
                out.copy_from_slice(&s[..8]);
                0
            }
            (0, _) => ABSENT,
            (number, _) => number,
        }
    }

    pub fn surface_moved(s: &[f64; 26], kind: u32, _convex: bool, arc: u32, trace: u32, m: &[f64; 12], out: &mut [f64; 26]) -> u32 {
        match (surface_due(s, kind, arc, trace, &[m]), kind) {
            (0, WALL) => moved_piece(s, arc, trace, m, out),
            (0, _) => moved_axis(s, NUMBERS[kind as usize], m, out),
            (number, _) => number,
        }
    }

    fn unit(v: Vec3) -> Vec3 {
        v * (num(1.0) / v.dot(v).sqrt())
    }

    pub fn surface_normal_at(s: &[f64; 26], kind: u32, convex: bool, arc: u32, trace: u32, p: &[f64; 3], out: &mut [f64; 3]) -> u32 {
        let number = surface_due(s, kind, arc, trace, &[p]);
        if number != 0 {
            return number;
        }
        let (origin, axis, p) = (vec3(s), vec3(&s[3..]), vec3(p));
        let from_axis = || {
            let d = p - origin;
            unit(d - axis * d.dot(axis))
        };
        let outward = |n: Vec3| if convex { n } else { -n };
        match kind {
            0 => answer_vec3(out, unit(axis)),
            1 => answer_vec3(out, outward(from_axis())),
            2 => answer_vec3(out, outward(unit(from_axis() - axis * num(s[7])))),
            _ => {
                let mut path = Path::new();
                let wall = piece(s, arc, trace);
                let (q, r) = wall.dev.unroll(p, wall.from.x);
                let n = wall.normal(q, r, &mut path);
                settle(path, out, [n.x, n.y, n.z])
            }
        }
    }
}

// --- curves ---

/// 27 numbers, the kind, the tags of the arc and of the trace.
const CURVE: usize = 30;

#[derive(Clone, Copy)]
enum Edge {
    Piece(Shape),
    Arc(Kind),
}

impl Edge {
    /// Numbers beside the curve are spoilt too.
    fn is_spoilt(self) -> bool {
        matches!(self, Edge::Piece(Shape::Every | Shape::Refused) | Edge::Arc(Kind::Every))
    }
}

/// A curve; its ends, for an arc, come back.
fn curve(d: &mut Draw, i: &mut [f64], edge: Edge) -> Option<[f64; 6]> {
    match edge {
        Edge::Piece(shape) => {
            let w = shapes::piece(d, shape);
            i[..26].copy_from_slice(&w[..26]);
            i[26] = match d.below(16) {
                0 => d.pick(&[0.0, -0.0, -5.0, 5e-324]),
                1 => w[9],
                2 if edge.is_spoilt() => d.pick(SPECIAL),
                _ if matches!(shape, Shape::Zeros | Shape::Whole) => d.whole(-2, 5) as f64,
                _ => w[9] * d.between(0.9, 1.1),
            };
            i[27] = if edge.is_spoilt() && d.below(16) == 0 { 2.0 } else { 1.0 };
            i[28..30].copy_from_slice(&w[26..]);
            None
        }
        Edge::Arc(kind) => {
            let arc = arcs::edge(d, kind);
            i[..27].fill_with(|| d.pick(SPECIAL));
            i[..7].copy_from_slice(&arc[..7]);
            if edge.is_spoilt() && d.below(2) == 0 {
                classes::spoil(d, &mut i[..7]);
            }
            i[27] = 0.0;
            // An arc's tags are not read.
            i[28..30].fill_with(|| d.pick(&[0.0, 1.0, 2.0, 7.0, 4_294_967_295.0]));
            arc[7..].try_into().ok()
        }
    }
}

fn spoil(d: &mut Draw, i: &mut [f64], edge: Edge) {
    if edge.is_spoilt() && d.below(8) == 0 {
        classes::spoil(d, i);
    }
}

fn alone(d: &mut Draw, i: &mut [f64], edge: Edge) {
    curve(d, i, edge);
}

fn with_motion(d: &mut Draw, i: &mut [f64], edge: Edge) {
    curve(d, i, edge);
    i[CURVE..CURVE + 12].copy_from_slice(&shapes::motion(d));
    spoil(d, &mut i[CURVE..], edge);
}

/// The two ends: an arc's own, else any.
fn with_ends(d: &mut Draw, i: &mut [f64], edge: Edge) {
    let ends = curve(d, i, edge);
    let ends = ends.unwrap_or_else(|| [0; 6].map(|_| d.between(-2000.0, 2000.0)));
    i[CURVE..CURVE + 6].copy_from_slice(&ends);
    spoil(d, &mut i[CURVE..CURVE + 6], edge);
}

/// The longest row that is lent.
const ROW: usize = 900;

/// Mostly about the length that is needed.
fn row_length(d: &mut Draw, i: &[f64], most: usize) -> f64 {
    let (kind, arc, trace) = (i[27] as u32, i[28] as u32, i[29] as u32);
    let mut n = [1];
    if kind == 1 {
        pieces::second::piece_chords(at(i, 0), arc, trace, i[26], i[CURVE + 6], &mut n);
    } else if kind == 0 {
        let (arc, from, to) = (arcs::rust::arc(at(i, 0)), v(&i[CURVE..]), v(&i[CURVE + 3..]));
        n[0] += arc.inner_points(from, to, i[CURVE + 6]).count() as u64;
    }
    let due = 3 * (n[0] as i64 - 1);
    let length = match d.below(8) {
        0 => d.whole(0, most as i64),
        1..=3 => due,
        _ => due + d.whole(-4, 4),
    };
    length.clamp(0, most as i64) as f64
}

fn with_row(d: &mut Draw, i: &mut [f64], edge: Edge) {
    with_ends(d, i, edge);
    let radius = if matches!(edge, Edge::Arc(_)) { i[6] } else { i[26] };
    i[CURVE + 6] = chord(d, radius);
    i[CURVE + 7] = row_length(d, i, ROW);
}

/// Room for more points than any curve has.
const LONG_ROW: usize = 3 * MOST as usize;

/// Pieces that turn many times about the axis, of about so many chords.
fn with_long_row(d: &mut Draw, i: &mut [f64], chords: Range<f64>) {
    with_ends(d, i, Edge::Piece(Shape::Straight));
    i[9] = d.magnitude(-8, 3).abs();
    let turns = d.between(chords.start, chords.end) / 64.0;
    (i[10], i[12]) = (0.0, (i[9] * std::f64::consts::TAU * turns).min(1_048_576.0));
    i[13] = i[11] + i[9] * d.between(-1.0, 1.0);
    i[26] = i[9];
    i[CURVE + 6] = 0.0;
    i[CURVE + 7] = row_length(d, i, LONG_ROW);
}

/// The place at which a later point is refused: the angle gets too large along the way.
fn refused_later(d: &mut Draw, i: &mut [f64]) {
    with_ends(d, i, Edge::Piece(Shape::Straight));
    i[9] = d.magnitude(-4, -1).abs();
    let limit = 1_048_576.0 * i[9];
    // At 64 chords a turn fewer than are accepted.
    let length = i[9] * d.between(10.0, 400.0);
    i[10] = limit - length * d.fraction();
    (i[12], i[13]) = (i[10] + length, i[11]);
    i[26] = i[9];
    i[CURVE + 6] = 0.0;
    i[CURVE + 7] = row_length(d, i, LONG_ROW);
}

fn bounds(d: &mut Draw, corners: &mut [f64]) {
    let (low, high) = (f64::INFINITY, f64::NEG_INFINITY);
    let empty = [low, low, low, high, high, high];
    match d.below(8) {
        0..=2 => corners.copy_from_slice(&empty),
        3 => corners.iter_mut().zip(empty).for_each(|(c, x)| *c = if d.below(2) == 0 { x } else { -x }),
        4 => corners.fill_with(|| d.between(-2000.0, 2000.0)),
        5 => classes::zeros(d, corners),
        6 => corners.fill_with(|| d.pick(SPECIAL)),
        _ => {
            corners.copy_from_slice(&empty);
            classes::spoil(d, corners);
        }
    }
}

fn with_box(d: &mut Draw, i: &mut [f64], edge: Edge) {
    with_ends(d, i, edge);
    bounds(d, &mut i[CURVE + 6..]);
}

/// A piece of any shape.
fn any_shape(d: &mut Draw) -> Shape {
    shapes::ALL[d.below(shapes::ALL.len() as u64) as usize]
}

/// For entries that only hand on what a piece holds.
macro_rules! few_edges {
    ($draw:ident) => {{
        const CLASSES: &[crate::entry::Class] = &[
            ("pieces of all shapes", |d, i| {
                let shape = any_shape(d);
                $draw(d, i, Edge::Piece(shape))
            }),
            ("refused radii, traces and tags", |d, i| $draw(d, i, Edge::Piece(Shape::Refused))),
            ("every bit pattern", |d, i| $draw(d, i, Edge::Piece(Shape::Every))),
            ("edges: pipes", |d, i| $draw(d, i, Edge::Arc(Kind::Pipe))),
            ("edges: signed zeros", |d, i| $draw(d, i, Edge::Arc(Kind::Zeros))),
            ("edges: degenerate", |d, i| $draw(d, i, Edge::Arc(Kind::Degenerate))),
            ("edges: every bit pattern", |d, i| $draw(d, i, Edge::Arc(Kind::Every))),
        ];
        CLASSES
    }};
}

macro_rules! edges {
    ($draw:ident) => {
        shapes!($draw, Edge::Piece;
            ("edges: pipes", |d, i| $draw(d, i, Edge::Arc(Kind::Pipe)));
            ("edges: nice whole numbers", |d, i| $draw(d, i, Edge::Arc(Kind::Nice)));
            ("edges: degenerate", |d, i| $draw(d, i, Edge::Arc(Kind::Degenerate)));
            ("edges: every bit pattern", |d, i| $draw(d, i, Edge::Arc(Kind::Every))))
    };
}

// --- lists of box calls ---

const EDGE: usize = CURVE + 6;
const EDGES: usize = 5;
/// Calls of the second round: each edge once or more, shuffled.
const SHUFFLED: usize = 8;
/// Where the box stands, and behind it the places of the second round's edges.
const BOX: usize = EDGES * EDGE;
const PLACES: usize = BOX + 6;

/// Edges of all kinds, arcs and pieces mixed, some of them refused, a box, and an order of calls.
fn list(d: &mut Draw, i: &mut [f64], any: bool) {
    for edge in i[..BOX].chunks_exact_mut(EDGE) {
        let shape = [Shape::Straight, Shape::Arc, Shape::Wave, Shape::Branch, Shape::Hole][d.below(5) as usize];
        let spoilt = [Shape::Touching, Shape::Limits, Shape::Refused, Shape::Every, Shape::Zeros, Shape::Wild, Shape::Tiny][d.below(7) as usize];
        let chosen = match d.below(6) {
            0 | 1 if any => Edge::Piece(spoilt),
            0 | 1 => Edge::Piece(shape),
            2 => Edge::Arc(Kind::Pipe),
            3 => Edge::Arc(if any { Kind::Every } else { Kind::Nice }),
            _ => Edge::Piece(shape),
        };
        with_ends(d, edge, chosen);
    }
    bounds(d, &mut i[BOX..PLACES]);
    if !any {
        let (low, high) = (f64::INFINITY, f64::NEG_INFINITY);
        i[BOX..PLACES].copy_from_slice(&[low, low, low, high, high, high]);
    }
    let places = &mut i[PLACES..];
    for k in 0..SHUFFLED {
        places[k] = if k < EDGES { k as f64 } else { d.below(EDGES as u64) as f64 };
        places.swap(k, d.below(k as u64 + 1) as usize);
    }
}

/// The edge that the k-th call of the second round is for.
fn place(i: &[f64], k: usize) -> usize {
    i[PLACES + k] as usize
}

type BoxCall = fn(&[f64], &mut [f64; 6]) -> u32;

/// What each call answers, the box after all of them, and both once more, from the first box, for the
/// calls of the second round.
fn called(i: &[f64], o: &mut [f64], call: BoxCall) -> u32 {
    let handed: &[f64; 6] = at(i, BOX);
    let mut corners = *handed;
    for (k, edge) in i[..BOX].chunks_exact(EDGE).enumerate() {
        o[k] = call(edge, &mut corners) as f64;
    }
    o[EDGES..EDGES + 6].copy_from_slice(&corners);
    corners = *handed;
    for k in 0..SHUFFLED {
        o[EDGES + 6 + k] = call(&i[place(i, k) * EDGE..][..EDGE], &mut corners) as f64;
    }
    o[EDGES + 6 + SHUFFLED..].copy_from_slice(&corners);
    0
}

fn port_box_call(i: &[f64], corners: &mut [f64; 6]) -> u32 {
    // An arc goes by its own entry every other time.
    if i[27] == 0.0 && i[28] == 0.0 {
        return arcs::port_extend_bounds(at(i, 0), at(i, CURVE), at(i, CURVE + 3), corners);
    }
    jr_curve_extend_bounds(at(i, 0), i[27] as u32, i[28] as u32, i[29] as u32, at(i, CURVE), at(i, CURVE + 3), corners)
}

fn second_box_call(i: &[f64], corners: &mut [f64; 6]) -> u32 {
    second::curve_extend_bounds(at(i, 0), i[27] as u32, i[28] as u32, i[29] as u32, at(i, CURVE), at(i, CURVE + 3), corners)
}

/// The Rust on the edges that the second reading accepts.
fn rust_box_call(i: &[f64], corners: &mut [f64; 6]) -> u32 {
    let number = second_box_call(i, &mut corners.clone());
    if number == 0 {
        rust::curve_extend_bounds(at(i, 0), i[27] as u32, i[28] as u32, i[29] as u32, at(i, CURVE), at(i, CURVE + 3), corners);
    }
    number
}

/// The least and the greatest of each edge's own box, from the empty one, and of the box handed in:
/// no order of calls.
fn least_and_greatest(i: &[f64], o: &mut [f64]) -> u32 {
    let (low, high) = (f64::INFINITY, f64::NEG_INFINITY);
    let handed: &[f64; 6] = at(i, BOX);
    let mut corners = *handed;
    for (k, edge) in i[..BOX].chunks_exact(EDGE).enumerate() {
        let mut own = [low, low, low, high, high, high];
        let number = second_box_call(edge, &mut own);
        let nan = handed.iter().any(|x| x.is_nan());
        // A box with a NaN is tried after the edge's own numbers and before its arithmetic.
        o[k] = if nan && !(1..=3).contains(&number) && number != crate::entry::UNKNOWN { 4.0 } else { number as f64 };
        if o[k] == 0.0 {
            for c in 0..3 {
                corners[c] = arcs::second::least(corners[c], own[c]);
                corners[c + 3] = arcs::second::greatest(corners[c + 3], own[c + 3]);
            }
        }
    }
    o[EDGES..EDGES + 6].copy_from_slice(&corners);
    for k in 0..SHUFFLED {
        o[EDGES + 6 + k] = o[place(i, k)];
    }
    o[EDGES + 6 + SHUFFLED..].copy_from_slice(&corners);
    0
}

// --- surfaces: 26 numbers, the kind, convex, the tags of a wall's arc and trace ---

const SURFACE: usize = 30;

#[derive(Clone, Copy)]
enum Face {
    Wall(Shape),
    Plane,
    Cylinder,
    Cone,
    /// Any of these three, of any numbers.
    Numbers(fn(&mut Draw, &mut [f64])),
}

fn surface(d: &mut Draw, i: &mut [f64], face: Face) {
    i[..SURFACE].fill_with(|| d.pick(SPECIAL));
    i[27] = d.sign();
    // What is no wall has no tags that are read.
    i[28..30].fill_with(|| d.pick(&[0.0, 1.0, 2.0, 9.0, 4_294_967_295.0]));
    let mut turned = |i: &mut [f64]| {
        i[..3].fill_with(|| d.between(-2000.0, 2000.0));
        i[3..6].copy_from_slice(&d.direction());
        i[6] = shapes::radius(d);
        i[7] = if d.below(8) == 0 { d.pick(&[0.0, -0.0]) } else { d.between(-2.0, 2.0) };
    };
    match face {
        Face::Wall(shape) => {
            let w = shapes::piece(d, shape);
            i[..26].copy_from_slice(&w[..26]);
            i[28..30].copy_from_slice(&w[26..]);
            i[26] = 3.0;
            if matches!(shape, Shape::Refused) && d.below(8) == 0 {
                i[26] = 4.0;
            }
        }
        Face::Plane => {
            turned(i);
            i[26] = 0.0;
        }
        Face::Cylinder => {
            turned(i);
            i[26] = 1.0;
        }
        Face::Cone => {
            turned(i);
            i[26] = 2.0;
        }
        Face::Numbers(fill) => {
            // A plane has six numbers, a cylinder one more, a cone two.
            let kind = d.below(3) as usize;
            i[26] = kind as f64;
            fill(d, &mut i[..6 + kind]);
        }
    }
}

fn face_alone(d: &mut Draw, i: &mut [f64], face: Face) {
    surface(d, i, face);
}

fn face_with_motion(d: &mut Draw, i: &mut [f64], face: Face) {
    surface(d, i, face);
    i[SURFACE..].copy_from_slice(&shapes::motion(d));
    if matches!(face, Face::Wall(Shape::Every | Shape::Refused)) && d.below(8) == 0 {
        classes::spoil(d, &mut i[SURFACE..]);
    }
    if let Face::Numbers(fill) = face {
        fill(d, &mut i[SURFACE..]);
    }
}

/// A point of the surface, up to rounding, or beside it, or on its axis.
fn face_with_point(d: &mut Draw, i: &mut [f64], face: Face) {
    surface(d, i, face);
    let p = match face {
        Face::Wall(_) => {
            let (arc, trace) = (i[28] as u32, i[29] as u32);
            let known = !pieces::second::are_unknown(arc, trace);
            let (p, _) = if known { pieces::rust::rolled(i, arc, trace).at(d.fraction()) } else { (Vec2::new(0.0, 0.0), Vec2::new(0.0, 0.0)) };
            let p = crate::developments::rust::development(i).point(p, i[9] * d.between(0.9, 1.1));
            let p = p.to_array();
            // Where the piece has no such point, another.
            p.map(|x| if x.abs() <= 1_048_576.0 { x } else { d.between(-500.0, 500.0) })
        }
        Face::Numbers(fill) => {
            let mut p = [0.0; 3];
            fill(d, &mut p);
            p
        }
        _ => {
            let (o, a) = (v(i), v(&i[3..]));
            let along = d.between(-300.0, 300.0);
            let out = if d.below(16) == 0 { 0.0 } else { i[6] };
            (o + a * along + shapes::across(d, a) * out).to_array()
        }
    };
    put(&mut i[SURFACE..], v(&p));
    if d.below(8) == 0 {
        i[SURFACE..].fill_with(|| d.between(-2000.0, 2000.0));
    }
}

/// For entries that only hand on what a wall holds.
macro_rules! few_faces {
    ($draw:ident) => {{
        const CLASSES: &[crate::entry::Class] = &[
            ("walls of all shapes", |d, i| {
                let shape = any_shape(d);
                $draw(d, i, Face::Wall(shape))
            }),
            ("refused radii, traces and tags", |d, i| $draw(d, i, Face::Wall(Shape::Refused))),
            ("every bit pattern", |d, i| $draw(d, i, Face::Wall(Shape::Every))),
            ("planes", |d, i| $draw(d, i, Face::Plane)),
            ("cylinders", |d, i| $draw(d, i, Face::Cylinder)),
            ("cones", |d, i| $draw(d, i, Face::Cone)),
            ("no walls, wild", |d, i| $draw(d, i, Face::Numbers(classes::wild))),
            ("no walls, signed zeros", |d, i| $draw(d, i, Face::Numbers(classes::zeros))),
            ("no walls, every bit pattern", |d, i| $draw(d, i, Face::Numbers(classes::every))),
        ];
        CLASSES
    }};
}

macro_rules! faces {
    ($draw:ident) => {
        shapes!($draw, Face::Wall;
            ("planes", |d, i| $draw(d, i, Face::Plane));
            ("cylinders", |d, i| $draw(d, i, Face::Cylinder));
            ("cones", |d, i| $draw(d, i, Face::Cone));
            ("no walls, whole numbers", |d, i| $draw(d, i, Face::Numbers(classes::whole)));
            ("no walls, wild", |d, i| $draw(d, i, Face::Numbers(classes::wild)));
            ("no walls, tiny and subnormal", |d, i| $draw(d, i, Face::Numbers(classes::tiny)));
            ("no walls, signed zeros", |d, i| $draw(d, i, Face::Numbers(classes::zeros)));
            ("no walls, every bit pattern", |d, i| $draw(d, i, Face::Numbers(classes::every))))
    };
}

const FULL: u64 = 5_000_000;
const DEAR: u64 = 1_000_000;
const CURVE_TAGS: &[usize] = &[27, 28, 29];
const SURFACE_TAGS: &[usize] = &[26, 28, 29];

const fn curve_entry(e: Entry) -> Entry {
    Entry { whole_inputs: CURVE_TAGS, timed: TIMED, ..e }
}

/// Of surfaces the classes that are no walls' are timed too.
const fn surface_entry(e: Entry) -> Entry {
    Entry { whole_inputs: SURFACE_TAGS, flags: &[27], ..e }
}

const fn row_entry(e: Entry) -> Entry {
    Entry { whole_inputs: &[27, 28, 29, CURVE + 7], whole_outputs: &[0], row: true, timed: TIMED, ..e }
}

macro_rules! with_row {
    ($most:expr, $full:expr, $classes:expr) => {
        row_entry(entry!(curve_inner_points, jr_curve_inner_points, CURVE + 8, 1 + $most, $full, $classes, |f, i, o| {
            let (mut written, length) = ([7], i[CURVE + 7] as usize);
            let row = &mut o[1..1 + length];
            let refusal = f(
                at(i, 0),
                i[27] as u32,
                i[28] as u32,
                i[29] as u32,
                at(i, CURVE),
                at(i, CURVE + 3),
                i[CURVE + 6],
                row.as_mut_ptr(),
                length,
                &mut written,
            );
            o[0] = written[0] as f64;
            refusal
        }))
    };
}

pub const ENTRIES: &[Entry] = &[
    Entry {
        whole_outputs: &[27, 28],
        ..curve_entry(entry!(curve_reversed, jr_curve_reversed, CURVE, 29, FULL, few_edges!(alone), |f, i, o| {
            let mut tags = NO_TAGS;
            let refusal = f(at(i, 0), i[27] as u32, i[28] as u32, i[29] as u32, out(o), &mut tags);
            o[27..].copy_from_slice(&tags.map(tag_as_number));
            refusal
        }))
    },
    curve_entry(entry!(curve_moved, jr_curve_moved, CURVE + 12, 27, FULL, few_edges!(with_motion), |f, i, o| {
        f(at(i, 0), i[27] as u32, i[28] as u32, i[29] as u32, at(i, CURVE), out(o))
    })),
    curve_entry(entry!(curve_arc, jr_curve_arc, CURVE, 7, FULL, few_edges!(alone), |f, i, o| f(at(i, 0), i[27] as u32, i[28] as u32, i[29] as u32, out(o)))),
    with_row!(ROW, FULL, edges!(with_row)),
    Entry {
        zeros_alike: true,
        ..curve_entry(entry!(curve_extend_bounds, jr_curve_extend_bounds, CURVE + 12, 6, DEAR, edges!(with_box), |f, i, o| {
            o.copy_from_slice(&i[CURVE + 6..]);
            f(at(i, 0), i[27] as u32, i[28] as u32, i[29] as u32, at(i, CURVE), at(i, CURVE + 3), out(o))
        }))
    },
    surface_entry(entry!(surface_plane, jr_surface_plane, SURFACE, 6, FULL, few_faces!(face_alone), |f, i, o| {
        f(at(i, 0), i[26] as u32, i[27] > 0.0, i[28] as u32, i[29] as u32, out(o))
    })),
    surface_entry(entry!(surface_revolution, jr_surface_revolution, SURFACE, 8, FULL, few_faces!(face_alone), |f, i, o| {
        f(at(i, 0), i[26] as u32, i[27] > 0.0, i[28] as u32, i[29] as u32, out(o))
    })),
    surface_entry(entry!(surface_moved, jr_surface_moved, SURFACE + 12, 26, FULL, few_faces!(face_with_motion), |f, i, o| {
        f(at(i, 0), i[26] as u32, i[27] > 0.0, i[28] as u32, i[29] as u32, at(i, SURFACE), out(o))
    })),
    surface_entry(entry!(surface_normal_at, jr_surface_normal_at, SURFACE + 3, 3, FULL, faces!(face_with_point), |f, i, o| {
        f(at(i, 0), i[26] as u32, i[27] > 0.0, i[28] as u32, i[29] as u32, at(i, SURFACE), out(o))
    })),
];

/// Several calls each, which the replayed list does not have.
pub const LISTS: &[Entry] = &[
    Entry {
        name: "curve_box_lists",
        port_name: "jr_curve_extend_bounds jr_arc_extend_bounds",
        takes: PLACES + SHUFFLED,
        gives: EDGES + 6 + SHUFFLED + 6,
        full: DEAR / 4,
        zeros_alike: true,
        flags: &[],
        whole_inputs: &[],
        whole_outputs: &[],
        row: false,
        replayed: false,
        classes: &[("accepted edges", |d, i| list(d, i, false)), ("refused ones between", |d, i| list(d, i, true))],
        timed: 0,
        port: |i, o| called(i, o, port_box_call),
        rust: |i, o| called(i, o, rust_box_call),
        second: least_and_greatest,
    },
    Entry {
        name: "curve_long_rows",
        replayed: false,
        timed: 0,
        ..with_row!(LONG_ROW, 20_000, &[
            ("about 64 points", |d, i| with_long_row(d, i, 0.0..130.0)),
            ("hundreds of points", |d, i| with_long_row(d, i, 0.0..1000.0)),
            ("up to the most points", |d, i| with_long_row(d, i, 0.0..MOST)),
            ("about the most points", |d, i| with_long_row(d, i, MOST - 2.0..MOST + 2.0)),
            ("refused on the way", refused_later),
        ])
    },
];

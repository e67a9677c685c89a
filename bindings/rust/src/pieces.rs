//! Pieces of a development: what a cut follows.

use crate::developments::Trace;
use crate::ffi::{self, laid_out, part};
use crate::{Development, ProfileArc, Refusal, Vec2, Vec3};

/// A piece of a development from `from` to `to`: straight, or along an arc, or along a trace. At a
/// distance from the axis it is an edge (see [`Curve`](crate::Curve)), swept along the radius the
/// wall of a cut (see [`Surface`](crate::Surface)).
#[derive(Clone, Copy, Debug, PartialEq)]
#[repr(C)]
pub struct Rolled {
    /// The development that it lies in.
    pub dev: Development,
    /// Its first end.
    pub from: Vec2,
    /// Its last end.
    pub to: Vec2,
    /// The arc that it follows; never with `trace`.
    pub arc: Option<ProfileArc>,
    /// The trace that it follows; never with `arc`.
    pub trace: Option<Trace>,
}

// The arc and the trace may be missing, so that the places behind the ends are filled for a call.
laid_out!(Rolled begins 14: dev at 0, from at 10, to at 12);

const STRAIGHT: u32 = 0;
const COUNTERCLOCKWISE: u32 = 1;
const CLOCKWISE: u32 = 2;

impl Rolled {
    /// The box of the piece in its development: least and greatest `u`, least and greatest `v`. Of
    /// an arc it is the whole circle's. A straight piece's points, `t` from 0 to 1, lie at most
    /// 2⁻³³ mm outside it.
    #[inline]
    pub fn uv_box(&self) -> Result<[[f64; 2]; 2], Refusal> {
        ffi::numbers(|out| self.lend(|w, arc, trace| ffi::jr_piece_uv_box(w, arc, trace, out)))
            .map(|[u0, u1, v0, v1]| [[u0, u1], [v0, v1]])
    }

    /// How many chords follow the piece's trace to within `deviation` in the development: 1 without
    /// a trace, at least 2 with one.
    #[inline]
    pub fn polyline(&self, deviation: f64) -> Result<usize, Refusal> {
        ffi::count(|out| {
            self.lend(|w, arc, trace| ffi::jr_piece_polyline(w, arc, trace, deviation, out))
        })
    }

    /// The same piece run the other way.
    #[inline]
    pub fn reversed(&self) -> Result<Self, Refusal> {
        let mut tags = [0; 2];
        ffi::numbers(|out| {
            self.lend(|w, arc, trace| ffi::jr_piece_reversed(w, arc, trace, out, &mut tags))
        })
        .map(|numbers| Self::of(&numbers, tags))
    }

    /// The point at `t`, from 0 at the first end to 1 at the last, and its derivative in `t`.
    #[inline]
    pub fn at(&self, t: f64) -> Result<(Vec2, Vec2), Refusal> {
        ffi::numbers(|out| self.lend(|w, arc, trace| ffi::jr_piece_at(w, arc, trace, t, out)))
            .map(|[x, y, dx, dy]| (Vec2::new(x, y), Vec2::new(dx, dy)))
    }

    /// The second derivative in `t` of the point at `t`.
    #[inline]
    pub fn second(&self, t: f64) -> Result<Vec2, Refusal> {
        ffi::numbers(|out| self.lend(|w, arc, trace| ffi::jr_piece_second(w, arc, trace, t, out)))
            .map(Vec2::of)
    }

    /// The normal, of length 1, of the wall over the piece at the coordinates `p` and at `r` from
    /// the axis: to the left of the way that the piece runs.
    #[inline]
    pub fn normal(&self, p: Vec2, r: f64) -> Result<Vec3, Refusal> {
        ffi::numbers(|out| {
            self.lend(|w, arc, trace| ffi::jr_piece_normal(w, arc, trace, p.numbers(), r, out))
        })
        .map(Vec3::of)
    }

    /// The radius of the piece's arc, the angle that it turns, its length. A straight piece has the
    /// radius and the angle 0; a trace has the radius 0.
    #[inline]
    pub fn measure(&self) -> Result<(f64, f64, f64), Refusal> {
        ffi::numbers(|out| self.lend(|w, arc, trace| ffi::jr_piece_measure(w, arc, trace, out)))
            .map(|[radius, turn, length]| (radius, turn, length))
    }

    /// How many stretches an integral along the piece is summed over: each turns at most an eighth
    /// of a circle, in the development and about the axis.
    #[inline]
    pub fn quadrature_pieces(&self) -> Result<usize, Refusal> {
        ffi::count(|out| {
            self.lend(|w, arc, trace| ffi::jr_piece_quadrature_pieces(w, arc, trace, out))
        })
    }

    /// How many chords draw the piece at `r` from the axis, each within `chord` of it.
    #[inline]
    pub fn chords(&self, r: f64, chord: f64) -> Result<usize, Refusal> {
        ffi::count(|out| {
            self.lend(|w, arc, trace| ffi::jr_piece_chords(w, arc, trace, r, chord, out))
        })
    }

    /// Hands the piece on as the library takes it: its numbers, and the tags of its arc and trace.
    #[inline]
    pub(crate) fn lend(&self, call: impl FnOnce(&[f64; 26], u32, u32) -> u32) -> u32 {
        let mut numbers = [0.0; 26];
        let [arc, trace] = self.put(&mut numbers);
        call(&numbers, arc, trace)
    }

    /// Puts the piece's numbers into an array of zeros, and gives the two tags. Places that the tags
    /// do not use decide nothing.
    #[inline]
    pub(crate) fn put(&self, numbers: &mut [f64; 26]) -> [u32; 2] {
        numbers[..14].copy_from_slice(self.numbers());
        let arc = self.arc.as_ref().map_or(STRAIGHT, |a| {
            numbers[14..16].copy_from_slice(a.center.numbers());
            if a.ccw { COUNTERCLOCKWISE } else { CLOCKWISE }
        });
        let along = numbers.last_chunk_mut().expect("ten numbers of 26");
        [arc, self.trace.as_ref().map_or(0, |t| t.put(along))]
    }

    /// The piece of the first 26 numbers and two tags.
    #[inline]
    pub(crate) fn of(numbers: &[f64], [arc, trace]: [u32; 2]) -> Self {
        let [from, to, center] = [10, 12, 14].map(|k| Vec2::of(part(numbers, k)));
        Self {
            dev: Development::of(part(numbers, 0)),
            from,
            to,
            arc: (arc != STRAIGHT).then_some(ProfileArc { center, ccw: arc == COUNTERCLOCKWISE }),
            trace: Trace::of(&numbers[16..], trace),
        }
    }
}

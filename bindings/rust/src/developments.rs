//! Rolled sheet that lies flat, and the curves in it that a formula gives.

use crate::ffi::{self, laid_out, part};
use crate::{Refusal, Rigid, Vec2, Vec3};

/// The development of a cylinder: the coordinates in which a rolled sheet lies flat. `u` is the
/// length along the neutral layer, `v` the one along the axis; at the angle `u / neutral` from
/// `start`, counterclockwise about `axis`, lies what has the coordinate `u`.
#[derive(Clone, Copy, Debug, PartialEq)]
#[repr(C)]
pub struct Development {
    /// The point of the axis where `v` is 0.
    pub origin: Vec3,
    /// The direction of the axis, of length 1.
    pub axis: Vec3,
    /// The direction across the axis where `u` is 0, of length 1.
    pub start: Vec3,
    /// The radius of the neutral layer, which keeps its length as the sheet is rolled.
    pub neutral: f64,
}

laid_out!(Development is 10: origin at 0, axis at 3, start at 6, neutral at 9);

impl Development {
    /// The direction away from the axis at `u`, of length 1.
    #[inline]
    pub fn radial(&self, u: f64) -> Result<Vec3, Refusal> {
        ffi::numbers(|out| ffi::jr_development_radial(self.numbers(), u, out)).map(Vec3::of)
    }

    /// The point in space of the coordinates `p`, at `r` from the axis.
    #[inline]
    pub fn point(&self, p: Vec2, r: f64) -> Result<Vec3, Refusal> {
        ffi::numbers(|out| ffi::jr_development_point(self.numbers(), p.numbers(), r, out))
            .map(Vec3::of)
    }

    /// How the point in space moves as the coordinates move from `p` along `d`, at `r` from the
    /// axis.
    #[inline]
    pub fn along(&self, p: Vec2, d: Vec2, r: f64) -> Result<Vec3, Refusal> {
        let (p, d) = (p.numbers(), d.numbers());
        ffi::numbers(|out| ffi::jr_development_along(self.numbers(), p, d, r, out)).map(Vec3::of)
    }

    /// The coordinates of a point in space, `u` within half a turn of `near`, and its distance from
    /// the axis.
    #[inline]
    pub fn unroll(&self, q: Vec3, near: f64) -> Result<(Vec2, f64), Refusal> {
        ffi::numbers(|out| ffi::jr_development_unroll(self.numbers(), q.numbers(), near, out))
            .map(|[u, v, r]| (Vec2::new(u, v), r))
    }

    /// The development moved by `m`.
    #[inline]
    pub fn moved(&self, m: &Rigid) -> Result<Self, Refusal> {
        ffi::numbers(|out| ffi::jr_development_moved(self.numbers(), m.numbers(), out))
            .map(Self::of)
    }
}

/// Where a plane cuts the neutral layer, in its development:
/// `v = a + b·cos(u / n) + c·sin(u / n)`, `n` the neutral radius.
#[derive(Clone, Copy, Debug, PartialEq)]
#[repr(C)]
pub struct Wave {
    /// The mean of `v`.
    pub a: f64,
    /// The height of the cosine.
    pub b: f64,
    /// The height of the sine.
    pub c: f64,
}

laid_out!(Wave is 3: a at 0, b at 1, c at 2);

impl Wave {
    /// `v` at `u`, and its first and second derivative in `u`, for the neutral radius `n`.
    #[inline]
    pub fn at(&self, u: f64, n: f64) -> Result<[f64; 3], Refusal> {
        ffi::numbers(|out| ffi::jr_wave_at(self.numbers(), u, n, out))
    }

    /// The least and the greatest `v` from `u0` to `u1`, for the neutral radius `n`.
    #[inline]
    pub fn range(&self, u0: f64, u1: f64, n: f64) -> Result<[f64; 2], Refusal> {
        ffi::numbers(|out| ffi::jr_wave_range(self.numbers(), u0, u1, n, out))
    }
}

/// Where the generatrices of a pipe first meet a cylinder, in the axes of a development: `x` along
/// its `start`, `z` along its axis, from its origin.
///
/// One of the two is the development's own cylinder, and `origin`, `axis` and `radius` give the
/// other. Without `turn` the pipe is the development's own, of its neutral radius: the end of a
/// branch that is cut to fit a main pipe. With `turn` the pipe is the other one: the hole for a
/// branch in the main pipe.
///
/// A generatrix that misses the cylinder is refused, where curve.rs gives NaN:
///
/// ```
/// use juniperreef::{Meet, Refusal, Vec3};
///
/// let (origin, axis) = (Vec3::new(0.0, 0.0, 20.0), Vec3::new(1.0, 0.0, 0.0));
/// let main = Meet { origin, axis, radius: 10.0, own: 1.0, turn: None };
/// let quarter = std::f64::consts::FRAC_PI_2;
/// // A branch of radius 5 fits, and one of 12 is wider than the main pipe.
/// assert!(main.point(quarter, 5.0).is_ok());
/// assert_eq!(main.point(quarter, 12.0), Err(Refusal::NotFinite));
/// ```
#[derive(Clone, Copy, Debug, PartialEq)]
#[repr(C)]
pub struct Meet {
    /// A point of the other cylinder's axis.
    pub origin: Vec3,
    /// The direction of the other cylinder's axis, of length 1.
    pub axis: Vec3,
    /// The other cylinder's radius.
    pub radius: f64,
    /// Without `turn`: 1 where the generatrices run along `z`, −1 where they run against it. With
    /// `turn`: the radius of the development's own cylinder that they run towards.
    pub own: f64,
    /// The angles about the other cylinder at the two ends of the piece, from `z × axis`.
    pub turn: Option<[f64; 2]>,
}

laid_out!(Meet begins 8: origin at 0, axis at 3, radius at 6, own at 7);

impl Meet {
    /// The point that the generatrix at the angle `phi` meets, and its first and second derivative
    /// in `phi`, for the neutral radius `n`.
    #[inline]
    pub fn point(&self, phi: f64, n: f64) -> Result<[Vec3; 3], Refusal> {
        let (mut meet, turn) = ([0.0; 10], self.turn.is_some() as u32);
        self.put(&mut meet);
        ffi::numbers::<9>(|out| ffi::jr_meet_point(&meet, turn, phi, n, out))
            .map(|p| [0, 3, 6].map(|k| Vec3::of(part(&p, k))))
    }

    /// Puts the meet's numbers into an array of zeros.
    #[inline]
    fn put(&self, numbers: &mut [f64; 10]) {
        numbers[..8].copy_from_slice(self.numbers());
        if let Some(angles) = &self.turn {
            numbers[8..].copy_from_slice(angles);
        }
    }
}

/// A curve of a development that a formula gives.
#[derive(Clone, Copy, Debug, PartialEq)]
pub enum Trace {
    /// Where a plane cuts the neutral layer.
    Wave(Wave),
    /// Where the generatrices of a pipe meet a cylinder.
    Meet(Meet),
}

impl Trace {
    /// `v` at `u` for the neutral radius `n`; none for a meet with `turn`, which has no `v` of
    /// every `u`.
    #[inline]
    pub fn v(&self, u: f64, n: f64) -> Result<Option<f64>, Refusal> {
        let mut trace = [0.0; 10];
        let kind = self.put(&mut trace);
        ffi::some_numbers(|out| ffi::jr_trace_v(&trace, kind, u, n, out))
            .map(|found| found.map(|[v]| v))
    }

    /// Puts the trace's numbers into an array of zeros, and gives the tag of its kind.
    #[inline]
    pub(crate) fn put(&self, numbers: &mut [f64; 10]) -> u32 {
        match self {
            Self::Wave(w) => {
                numbers[..3].copy_from_slice(w.numbers());
                WAVE
            }
            Self::Meet(m) => {
                m.put(numbers);
                if m.turn.is_none() { MEET } else { HOLE }
            }
        }
    }

    /// The trace of ten numbers and a tag; none for the tag of no trace.
    #[inline]
    pub(crate) fn of(numbers: &[f64], kind: u32) -> Option<Self> {
        match kind {
            WAVE => Some(Self::Wave(Wave::of(part(numbers, 0)))),
            MEET | HOLE => {
                let [origin, axis] = [0, 3].map(|k| Vec3::of(part(numbers, k)));
                let turn = (kind == HOLE).then(|| part(numbers, 8));
                let (radius, own) = (numbers[6], numbers[7]);
                Some(Self::Meet(Meet { origin, axis, radius, own, turn }))
            }
            _ => None,
        }
    }
}

const WAVE: u32 = 1;
const MEET: u32 = 2;
const HOLE: u32 = 3;

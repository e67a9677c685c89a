//! Curves of edges.

#[cfg(feature = "alloc")]
use alloc::{vec, vec::Vec};

use crate::arcs::Arc;
#[cfg(feature = "alloc")]
use crate::arcs::{ARC_ROW, points};
use crate::ffi::{self, part};
use crate::{Bounds, Refusal, Rigid, Rolled, Vec3};

/// A row of so many numbers takes the inner points of every curve: three for each of 4,095 points, one
/// point fewer than the most chords.
pub const CURVE_ROW: usize = 12_285;

/// The curve of an edge: an arc, or a piece of a development at a distance from its axis.
///
/// The box of a saddle, the end of a branch of radius 30 that is cut to fit a main pipe of radius
/// 50 whose axis crosses 100 above. It runs once around, so it is handed over in halves (see
/// [`Curve::extend_bounds`]):
///
/// ```
/// use std::f64::consts::PI;
/// use juniperreef::{Bounds, Curve, Development, Meet, Refusal, Rolled, Trace, Vec2, Vec3};
///
/// let (x, z) = (Vec3::new(1.0, 0.0, 0.0), Vec3::new(0.0, 0.0, 1.0));
/// let dev = Development { origin: Vec3::ZERO, axis: z, start: x, neutral: 30.0 };
/// let origin = Vec3::new(0.0, 0.0, 100.0);
/// let main = Meet { origin, axis: x, radius: 50.0, own: 1.0, turn: None };
/// let mut bounds = Bounds::EMPTY;
/// for half in [0.0, 1.0] {
///     let from = Vec2::new(30.0 * PI * half, 50.0);
///     let to = Vec2::new(30.0 * PI * (half + 1.0), 50.0);
///     let piece = Rolled { dev, from, to, arc: None, trace: Some(Trace::Meet(main)) };
///     let ends = [dev.point(from, 30.0)?, dev.point(to, 30.0)?];
///     Curve::Rolled { piece, radius: 30.0 }.extend_bounds(ends[0], ends[1], &mut bounds)?;
/// }
/// // From where the branch meets the main pipe first, 50 below its axis, to where it does last.
/// assert!((bounds.low.z - 50.0).abs() < 1e-9);
/// assert!((bounds.high.z - 60.0).abs() < 1e-9);
/// assert!((bounds.high.x - 30.0).abs() < 1e-9 && (bounds.low.x + 30.0).abs() < 1e-9);
/// # Ok::<(), Refusal>(())
/// ```
#[derive(Clone, Copy, Debug, PartialEq)]
pub enum Curve {
    /// An arc, from one end of the edge to the other.
    Arc(Arc),
    /// A piece of a development, which has ends of its own.
    Rolled {
        /// The piece.
        piece: Rolled,
        /// Its distance from the axis.
        radius: f64,
    },
}

const ARC: u32 = 0;
const PIECE: u32 = 1;

impl Curve {
    /// The same curve run the other way.
    #[inline]
    pub fn reversed(&self) -> Result<Self, Refusal> {
        let mut tags = [0; 2];
        ffi::numbers(|out| {
            self.lend(|c, kind, arc, trace| {
                ffi::jr_curve_reversed(c, kind, arc, trace, out, &mut tags)
            })
        })
        .map(|numbers| self.alike(&numbers, tags))
    }

    /// The curve moved by `m`.
    #[inline]
    pub fn moved(&self, m: &Rigid) -> Result<Self, Refusal> {
        let mut tags = [0; 2];
        ffi::numbers(|out| {
            self.lend(|c, kind, arc, trace| {
                tags = [arc, trace];
                ffi::jr_curve_moved(c, kind, arc, trace, m.numbers(), out)
            })
        })
        .map(|numbers| self.alike(&numbers, tags))
    }

    /// The arc, where the curve is one. Numbers of either are tried.
    #[inline]
    pub fn arc(&self) -> Result<Option<&Arc>, Refusal> {
        let found = ffi::some_numbers(|out| {
            self.lend(|c, kind, arc, trace| ffi::jr_curve_arc(c, kind, arc, trace, out))
        })?;
        // The library hands the arc on as it is, so the caller gets a view of his own.
        Ok(match (self, found) {
            (Self::Arc(a), Some(numbers)) => {
                debug_assert_eq!(Arc::of(numbers), *a);
                Some(a)
            }
            _ => None,
        })
    }

    /// Writes points between `from` and `to`, for chords that stay within `chord` of the curve, to
    /// the start of `row`, three numbers each, and gives the part written. The rest of the row
    /// keeps its content. A row of [`CURVE_ROW`] numbers always suffices. A piece has ends of its
    /// own: there `from` and `to` are tried and not used.
    #[inline]
    pub fn inner_points<'row>(
        &self,
        from: Vec3,
        to: Vec3,
        chord: f64,
        row: &'row mut [f64],
    ) -> Result<&'row mut [f64], Refusal> {
        let (from, to) = (from.numbers(), to.numbers());
        let written = ffi::count(|written| {
            let (start, length) = (row.as_mut_ptr(), row.len());
            // SAFETY: `row` is borrowed for this call alone, and these are its start and length.
            self.lend(|c, kind, arc, trace| unsafe {
                ffi::jr_curve_inner_points(
                    c, kind, arc, trace, from, to, chord, start, length, written,
                )
            })
        })?;
        Ok(&mut row[..written])
    }

    /// The points of [`Curve::inner_points`] as a `Vec`.
    #[cfg(feature = "alloc")]
    #[inline]
    pub fn inner_points_vec(&self, from: Vec3, to: Vec3, chord: f64) -> Result<Vec<Vec3>, Refusal> {
        let mut row = [0.0; ARC_ROW];
        match (self.inner_points(from, to, chord, &mut row), self) {
            // A piece of more points than any arc has: as many as it has chords, but for the last.
            (Err(Refusal::RowTooShort), Self::Rolled { piece, radius }) => {
                let mut row = vec![0.0; 3 * (piece.chords(*radius, chord)? - 1)];
                self.inner_points(from, to, chord, &mut row).map(|row| points(row))
            }
            (answer, _) => answer.map(|row| points(row)),
        }
    }

    /// Widens the box to hold the curve from `from` to `to`. A piece has ends of its own: there
    /// `from` and `to` are tried and not used, and the box is widened by the two arcs about the
    /// axis at the ends of the piece's own box along `v`. An arc turns at most once, so the box of a
    /// piece over more than a turn is too small, and over exactly a turn it is up to rounding: hand
    /// over such a piece in halves.
    #[inline]
    pub fn extend_bounds(&self, from: Vec3, to: Vec3, bounds: &mut Bounds) -> Result<(), Refusal> {
        let (from, to, corners) = (from.numbers(), to.numbers(), bounds.numbers_mut());
        ffi::settle(self.lend(|c, kind, arc, trace| {
            ffi::jr_curve_extend_bounds(c, kind, arc, trace, from, to, corners)
        }))
    }

    /// Hands the curve on as the library takes it: its numbers, the tag of its kind, and those of its
    /// piece's arc and trace.
    #[inline]
    fn lend(&self, call: impl FnOnce(&[f64; 27], u32, u32, u32) -> u32) -> u32 {
        let mut numbers = [0.0; 27];
        match self {
            Self::Arc(a) => {
                numbers[..7].copy_from_slice(a.numbers());
                call(&numbers, ARC, 0, 0)
            }
            Self::Rolled { piece, radius } => {
                numbers[26] = *radius;
                let [arc, trace] = piece.put(numbers.first_chunk_mut().expect("26 numbers of 27"));
                call(&numbers, PIECE, arc, trace)
            }
        }
    }

    /// The curve of the same kind of these numbers and a piece's tags.
    #[inline]
    fn alike(&self, numbers: &[f64; 27], tags: [u32; 2]) -> Self {
        match self {
            Self::Arc(_) => Self::Arc(Arc::of(part(numbers, 0))),
            Self::Rolled { .. } => {
                Self::Rolled { piece: Rolled::of(numbers, tags), radius: numbers[26] }
            }
        }
    }
}

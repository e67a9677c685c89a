//! Arcs of a profile and arcs in space.

#[cfg(feature = "alloc")]
use alloc::vec::Vec;

use crate::ffi::{self, laid_out};
use crate::{Bounds, Refusal, Vec2, Vec3};

/// An arc of a flat profile about `center`.
#[derive(Clone, Copy, Debug, PartialEq)]
pub struct ProfileArc {
    /// The centre of its circle.
    pub center: Vec2,
    /// Whether it runs counterclockwise.
    pub ccw: bool,
}

impl ProfileArc {
    /// The angle turned about the centre from `a` to `b`: above 0 and at most 2π counterclockwise,
    /// below 0 and at least −2π clockwise. One point twice is a full circle.
    ///
    /// ```
    /// use juniperreef::{ProfileArc, Refusal, Vec2};
    ///
    /// let clockwise = ProfileArc { center: Vec2::new(0.0, 0.0), ccw: false };
    /// let p = Vec2::new(5.0, 0.0);
    /// assert_eq!(clockwise.turn(p, p)?, -std::f64::consts::TAU);
    /// # Ok::<(), Refusal>(())
    /// ```
    #[inline]
    pub fn turn(&self, a: Vec2, b: Vec2) -> Result<f64, Refusal> {
        ffi::number(|out| {
            let center = self.center.numbers();
            ffi::jr_profile_arc_turn(center, self.ccw, a.numbers(), b.numbers(), out)
        })
    }
}

/// How many chords a full turn of a circle takes to stay within `chord` of it: a whole number from
/// 12 to 64. Where the chord is not below the radius it is 12.
#[inline]
pub fn per_turn(radius: f64, chord: f64) -> Result<f64, Refusal> {
    ffi::number(|out| ffi::jr_per_turn(radius, chord, out))
}

/// A row of so many numbers takes the inner points of every arc.
pub const ARC_ROW: usize = 189;

/// An arc in space: counterclockwise about `axis`, from one point given with a call to another.
///
/// The box of a flange, all of whose edges are circles:
///
/// ```
/// use juniperreef::{Arc, Bounds, Refusal, Vec3};
///
/// let mut bounds = Bounds::EMPTY;
/// for z in [0.0, 20.0] {
///     for radius in [110.0, 53.55] {
///         let axis = Vec3::new(0.0, 0.0, 1.0);
///         let rim = Arc { center: Vec3::new(0.0, 0.0, z), axis, radius };
///         let start = Vec3::new(radius, 0.0, z);
///         // One point twice: a full circle.
///         rim.extend_bounds(start, start, &mut bounds)?;
///     }
/// }
/// assert_eq!(bounds.low, Vec3::new(-110.0, -110.0, 0.0));
/// assert_eq!(bounds.high, Vec3::new(110.0, 110.0, 20.0));
/// # Ok::<(), Refusal>(())
/// ```
#[derive(Clone, Copy, Debug, PartialEq)]
#[repr(C)]
pub struct Arc {
    /// The centre of its circle.
    pub center: Vec3,
    /// The direction that it turns about, of length 1.
    pub axis: Vec3,
    /// The radius of its circle.
    pub radius: f64,
}

laid_out!(Arc is 7: center at 0, axis at 3, radius at 6);

impl Arc {
    /// The same circle turned about the other way, so that an arc from `a` to `b` is one from `b`
    /// to `a`.
    #[inline]
    pub fn reversed(&self) -> Result<Self, Refusal> {
        ffi::numbers(|out| ffi::jr_arc_reversed(self.numbers(), out)).map(Self::of)
    }

    /// The angle from `from` to `to`, above 0 and at most 2π. One point twice is a full circle.
    #[inline]
    pub fn sweep(&self, from: Vec3, to: Vec3) -> Result<f64, Refusal> {
        ffi::number(|out| ffi::jr_arc_sweep(self.numbers(), from.numbers(), to.numbers(), out))
    }

    /// The point at the angle `t` from `from`. A `from` on the axis is refused.
    #[inline]
    pub fn at(&self, from: Vec3, t: f64) -> Result<Vec3, Refusal> {
        ffi::numbers(|out| ffi::jr_arc_at(self.numbers(), from.numbers(), t, out)).map(Vec3::of)
    }

    /// Writes points between `from` and `to`, for chords that stay within `chord` of the arc, to
    /// the start of `row`, three numbers each, and gives the part written. The rest of the row
    /// keeps its content. A row of [`ARC_ROW`] numbers always suffices.
    ///
    /// ```
    /// use juniperreef::{ARC_ROW, Arc, Refusal, Vec3};
    ///
    /// let axis = Vec3::new(0.0, 0.0, 1.0);
    /// let arc = Arc { center: Vec3::ZERO, axis, radius: 5.0 };
    /// let (from, to) = (Vec3::new(5.0, 0.0, 0.0), Vec3::new(0.0, 5.0, 0.0));
    /// let mut row = [0.0; ARC_ROW];
    /// assert_eq!(arc.inner_points(from, to, 5.0, &mut row)?.len(), 3 * 2);
    /// assert_eq!(arc.inner_points(from, to, 0.0, &mut []), Err(Refusal::RowTooShort));
    /// # Ok::<(), Refusal>(())
    /// ```
    #[inline]
    pub fn inner_points<'row>(
        &self,
        from: Vec3,
        to: Vec3,
        chord: f64,
        row: &'row mut [f64],
    ) -> Result<&'row mut [f64], Refusal> {
        let (arc, from, to) = (self.numbers(), from.numbers(), to.numbers());
        let written = ffi::count(|written| {
            let (start, length) = (row.as_mut_ptr(), row.len());
            // SAFETY: `row` is borrowed for this call alone, and these are its start and length.
            unsafe { ffi::jr_arc_inner_points(arc, from, to, chord, start, length, written) }
        })?;
        Ok(&mut row[..written])
    }

    /// The points of [`Arc::inner_points`] as a `Vec`.
    #[cfg(feature = "alloc")]
    #[inline]
    pub fn inner_points_vec(&self, from: Vec3, to: Vec3, chord: f64) -> Result<Vec<Vec3>, Refusal> {
        let mut row = [0.0; ARC_ROW];
        self.inner_points(from, to, chord, &mut row).map(|row| points(row))
    }

    /// Widens the box to hold the arc from `from` to `to`: both ends, and what lies on the arc of
    /// the six points where its circle is extreme along a coordinate.
    #[inline]
    pub fn extend_bounds(&self, from: Vec3, to: Vec3, bounds: &mut Bounds) -> Result<(), Refusal> {
        let (arc, from, to) = (self.numbers(), from.numbers(), to.numbers());
        ffi::settle(ffi::jr_arc_extend_bounds(arc, from, to, bounds.numbers_mut()))
    }
}

/// The points of a row.
#[cfg(feature = "alloc")]
#[inline]
pub(crate) fn points(row: &[f64]) -> Vec<Vec3> {
    row.chunks_exact(3).map(|p| Vec3::new(p[0], p[1], p[2])).collect()
}

//! Surfaces of faces.

use crate::ffi::{self, laid_out, part};
use crate::{Refusal, Rigid, Rolled, Vec3};

/// A plane. Its normal points out of the body and may have any length but 0.
#[derive(Clone, Copy, Debug, PartialEq)]
#[repr(C)]
pub struct Plane {
    /// A point of the plane.
    pub origin: Vec3,
    /// The direction out of the body.
    pub normal: Vec3,
}

/// A circular cylinder.
#[derive(Clone, Copy, Debug, PartialEq)]
pub struct Cylinder {
    /// A point of its axis.
    pub origin: Vec3,
    /// The direction of its axis, of length 1.
    pub axis: Vec3,
    /// Its radius.
    pub radius: f64,
    /// Whether the body lies inside, as a boss; else outside, as round a hole.
    pub convex: bool,
}

/// A circular cone.
#[derive(Clone, Copy, Debug, PartialEq)]
#[repr(C)]
pub struct Cone {
    /// A point of its axis.
    pub origin: Vec3,
    /// The direction of its axis, of length 1.
    pub axis: Vec3,
    /// Its radius at `origin`.
    pub radius: f64,
    /// What the radius gains on each millimetre along the axis; 0 for a cylinder.
    pub slope: f64,
    /// Whether the body lies inside.
    pub convex: bool,
}

laid_out!(Plane is 6: origin at 0, normal at 3);
laid_out!(Cone begins 8: origin at 0, axis at 3, radius at 6, slope at 7);

impl From<Cylinder> for Cone {
    #[inline]
    fn from(c: Cylinder) -> Self {
        let Cylinder { origin, axis, radius, convex } = c;
        Self { origin, axis, radius, slope: 0.0, convex }
    }
}

impl Cone {
    /// The cone of the first eight numbers.
    #[inline]
    fn of(numbers: &[f64], convex: bool) -> Self {
        let [origin, axis] = [0, 3].map(|k| Vec3::of(part(numbers, k)));
        Self { origin, axis, radius: numbers[6], slope: numbers[7], convex }
    }
}

/// The surface that a face lies on.
///
/// ```
/// use juniperreef::{Cylinder, Refusal, Surface, Vec3};
///
/// let axis = Vec3::new(0.0, 0.0, 1.0);
/// let bore = Cylinder { origin: Vec3::ZERO, axis, radius: 5.0, convex: false };
/// // Out of the body, which lies round the bore: towards the axis.
/// let n = Surface::Cylinder(bore).normal_at(Vec3::new(5.0, 0.0, 40.0))?;
/// assert_eq!(n, Vec3::new(-1.0, 0.0, 0.0));
/// # Ok::<(), Refusal>(())
/// ```
#[derive(Clone, Copy, Debug, PartialEq)]
pub enum Surface {
    /// A plane.
    Plane(Plane),
    /// A circular cylinder.
    Cylinder(Cylinder),
    /// A circular cone.
    Cone(Cone),
    /// The wall of a cut through a rolled sheet: the piece swept along the radius. The piece runs
    /// with the body to its right in the development (see [`wall`](crate::wall)).
    Wall(Rolled),
}

/// Puts numbers into a surface's row from the k-th place on, in one go. The library reads a vector of
/// a surface as two numbers and one, and a processor that finds those in two of its last writes waits
/// for both: so a surface goes into its row vector by vector.
#[inline(always)]
fn put<const N: usize>(row: &mut [f64; 26], k: usize, numbers: &[f64; N]) {
    row[k..k + N].copy_from_slice(numbers);
}

/// What the library takes beside a surface's numbers.
#[derive(Clone, Copy, Default)]
struct Tags {
    kind: u32,
    convex: bool,
    arc: u32,
    trace: u32,
}

const PLANE: u32 = 0;
const CYLINDER: u32 = 1;
const CONE: u32 = 2;
const WALL: u32 = 3;

impl Surface {
    /// The plane, where the surface is one. Numbers of every surface are tried.
    #[inline]
    pub fn plane(&self) -> Result<Option<&Plane>, Refusal> {
        let found = ffi::some_numbers(|out| {
            self.lend(|s, t| ffi::jr_surface_plane(s, t.kind, t.convex, t.arc, t.trace, out))
        })?;
        // The library hands the plane on as it is, so the caller gets a view of his own.
        Ok(match (self, found) {
            (Self::Plane(p), Some(numbers)) => {
                debug_assert_eq!(Plane::of(numbers), *p);
                Some(p)
            }
            _ => None,
        })
    }

    /// A cylinder as a cone of no slope, a cone as itself, and none of the others.
    #[inline]
    pub fn revolution(&self) -> Result<Option<Cone>, Refusal> {
        let mut convex = true;
        let found = ffi::some_numbers::<8>(|out| {
            self.lend(|s, t| {
                convex = t.convex;
                ffi::jr_surface_revolution(s, t.kind, t.convex, t.arc, t.trace, out)
            })
        })?;
        Ok(found.map(|numbers| Cone::of(&numbers, convex)))
    }

    /// The surface moved by `m`.
    #[inline]
    pub fn moved(&self, m: &Rigid) -> Result<Self, Refusal> {
        let (m, mut tags) = (m.numbers(), Tags::default());
        ffi::numbers(|out| {
            self.lend(|s, t| {
                tags = t;
                ffi::jr_surface_moved(s, t.kind, t.convex, t.arc, t.trace, m, out)
            })
        })
        .map(|numbers| self.alike(&numbers, tags))
    }

    /// The normal, of length 1, out of the body at `p`, a point of the surface.
    #[inline]
    pub fn normal_at(&self, p: Vec3) -> Result<Vec3, Refusal> {
        ffi::numbers(|out| {
            self.lend(|s, t| {
                ffi::jr_surface_normal_at(s, t.kind, t.convex, t.arc, t.trace, p.numbers(), out)
            })
        })
        .map(Vec3::of)
    }

    /// Hands the surface on as the library takes it.
    #[inline]
    fn lend(&self, call: impl FnOnce(&[f64; 26], Tags) -> u32) -> u32 {
        let mut numbers = [0.0; 26];
        let tags = match self {
            Self::Plane(p) => {
                put(&mut numbers, 0, p.origin.numbers());
                put(&mut numbers, 3, p.normal.numbers());
                Tags { kind: PLANE, ..Tags::default() }
            }
            Self::Cylinder(c) => {
                put(&mut numbers, 0, c.origin.numbers());
                put(&mut numbers, 3, c.axis.numbers());
                numbers[6] = c.radius;
                Tags { kind: CYLINDER, convex: c.convex, ..Tags::default() }
            }
            Self::Cone(c) => {
                put(&mut numbers, 0, c.origin.numbers());
                put(&mut numbers, 3, c.axis.numbers());
                put(&mut numbers, 6, &[c.radius, c.slope]);
                Tags { kind: CONE, convex: c.convex, ..Tags::default() }
            }
            Self::Wall(w) => {
                let [arc, trace] = w.put(&mut numbers);
                Tags { kind: WALL, convex: false, arc, trace }
            }
        };
        call(&numbers, tags)
    }

    /// The surface of the same kind of these numbers and tags.
    #[inline]
    fn alike(&self, numbers: &[f64; 26], tags: Tags) -> Self {
        let cone = Cone::of(numbers, tags.convex);
        let Cone { origin, axis, radius, convex, .. } = cone;
        match self {
            Self::Plane(_) => Self::Plane(Plane::of(part(numbers, 0))),
            Self::Cylinder(_) => Self::Cylinder(Cylinder { origin, axis, radius, convex }),
            Self::Cone(_) => Self::Cone(cone),
            Self::Wall(_) => Self::Wall(Rolled::of(numbers, [tags.arc, tags.trace])),
        }
    }
}

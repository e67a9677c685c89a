//! Integrals over faces: volume, centre of mass, area.

use core::borrow::Borrow;

use crate::ffi::{self, laid_out};
use crate::{Arc, Cone, Refusal, Rolled, Vec3};

/// What is integrated over the faces of a body, measured from a point `o` that all calls share.
/// Over all faces of a closed body, `six_v / 6` is its volume, `o + moment / (4 · six_v)` its
/// centre of mass, and `area_vector` is 0. A moment is soon above 1,048,576, which `Vec3`'s operators
/// refuse: work the centre out in plain numbers, as the example `closed_body` does.
#[derive(Clone, Copy, Debug, PartialEq, Default)]
#[repr(C)]
pub struct Integrals {
    /// Six times the volume between `o` and the faces.
    pub six_v: f64,
    /// 24 times the first moment about `o` of that volume.
    pub moment: Vec3,
    /// The area.
    pub area: f64,
    /// The normals out of the body, summed over the area.
    pub area_vector: Vec3,
}

laid_out!(Integrals is 8: six_v at 0, moment at 1, area at 4, area_vector at 5);

/// Adds to the sums of a plane face what lies between an arc from `u` to `v`, turning about `k`,
/// and its chord: so much more than the polygon of the corners where the arc bulges out of the
/// face, so much less where it bulges in. `n` is the face's normal, of length 1, and `k` the axis
/// that its boundary turns about on this arc, which runs as every boundary does (see [`Path`]). The
/// area of the sums is left as it is.
#[inline]
pub fn segment(
    acc: &mut Integrals,
    arc: &Arc,
    k: Vec3,
    u: Vec3,
    v: Vec3,
    n: Vec3,
    o: Vec3,
) -> Result<(), Refusal> {
    let ([k, u, v], [n, o]) = ([&k, &u, &v].map(Vec3::numbers), [&n, &o].map(Vec3::numbers));
    ffi::settle(ffi::jr_segment(acc.numbers_mut(), arc.numbers(), k, u, v, n, o))
}

/// Coordinates about the axis of a surface of revolution: the direction at the angle `θ` is
/// `e1·cos θ + e2·sin θ`.
#[derive(Clone, Copy, Debug, PartialEq)]
#[repr(C)]
pub struct Frame {
    /// The direction of the axis.
    pub axis: Vec3,
    /// A point of the axis.
    pub origin: Vec3,
    /// The direction across the axis at the angle 0.
    pub e1: Vec3,
    /// The direction across the axis at a quarter turn.
    pub e2: Vec3,
}

/// The frame of a cone or cylinder: `e1` is next to the coordinate axis that lies least along the
/// cone's own.
#[inline]
pub fn frame(c: &Cone) -> Result<Frame, Refusal> {
    ffi::numbers(|out| ffi::jr_cone_frame(c.numbers(), out)).map(Frame::of)
}

laid_out!(Frame is 12: axis at 0, origin at 3, e1 at 6, e2 at 9);

impl Frame {
    /// The angle of the point `p` about the axis, from −π to π.
    #[inline]
    pub fn angle(&self, p: Vec3) -> Result<f64, Refusal> {
        ffi::number(|out| ffi::jr_frame_angle(self.numbers(), p.numbers(), out))
    }

    /// The point at the angle `theta`, at `z` along the axis and `r` from it.
    #[inline]
    pub fn point(&self, theta: f64, z: f64, r: f64) -> Result<Vec3, Refusal> {
        ffi::numbers(|out| ffi::jr_frame_point(self.numbers(), theta, z, r, out)).map(Vec3::of)
    }
}

/// A curve in the boundary of a face on a surface of revolution, the way that the boundary runs.
/// Straight edges along the surface add nothing and are left out.
///
/// **The boundary of a face runs with the face to its left, seen from outside the body**, where the
/// normal points to the eye: counterclockwise round the whole, clockwise round a hole in it. So on a
/// boss (`convex`) the rim that lies lower along the axis runs about it and the upper one against it,
/// and in a bore the other way round; an edge is run one way by one of its two faces and the other
/// way by the other.
#[derive(Clone, Copy, Debug, PartialEq)]
pub enum Path {
    /// An arc about the surface's axis, from one point to another; it turns about its own axis.
    Arc(Arc, Vec3, Vec3),
    /// A piece of a development of the surface, which is then to be a cylinder.
    Rolled(Rolled),
}

/// Adds to the sums a face on a cone or cylinder, given by the curves in its boundary.
///
/// The volume of a pipe's plug, 50 in radius and 100 long:
///
/// ```
/// use std::f64::consts::PI;
/// use juniperreef::{Arc, Cone, Integrals, Path, Refusal, Vec3, revolution, segment};
///
/// let (up, down) = (Vec3::new(0.0, 0.0, 1.0), Vec3::new(0.0, 0.0, -1.0));
/// let side = Cone { origin: Vec3::ZERO, axis: up, radius: 50.0, slope: 0.0, convex: true };
/// let o = Vec3::new(7.0, -3.0, 11.0);
/// let mut sums = Integrals::default();
/// let mut boundary = Vec::new();
/// // The lower rim runs about the axis, the upper one against it.
/// for (z, way) in [(0.0, up), (100.0, down)] {
///     let (center, p) = (Vec3::new(0.0, 0.0, z), Vec3::new(50.0, 0.0, z));
///     let rim = Arc { center, axis: way, radius: 50.0 };
///     boundary.push(Path::Arc(rim, p, p));
///     // A disk is all segment: the polygon of its one corner is empty.
///     let out = (-way)?;
///     segment(&mut sums, &rim, out, p, p, out, o)?;
/// }
/// revolution(&mut sums, &side, &boundary, o)?;
///
/// let volume = PI * 50.0 * 50.0 * 100.0;
/// assert!((sums.six_v / 6.0 - volume).abs() < 1e-12 * volume);
/// assert!((sums.area - 2.0 * PI * 50.0 * 100.0).abs() < 1e-9);
/// # Ok::<(), Refusal>(())
/// ```
///
/// It opens a [`Revolution`], adds the paths in their order and closes it. A refusal on the way
/// leaves the sums as they were. A face whose boundary runs the wrong way (see [`Path`]) takes from
/// the area and the volume what it should add.
#[inline]
pub fn revolution(
    acc: &mut Integrals,
    c: &Cone,
    paths: impl IntoIterator<Item = impl Borrow<Path>>,
    o: Vec3,
) -> Result<(), Refusal> {
    let mut face = Revolution::open(c, o)?;
    for path in paths {
        face.add(path.borrow())?;
    }
    face.close(acc)
}

/// A face on a cone or cylinder whose paths come one by one: opened, its paths added, closed. What
/// [`revolution`] does in one call, without a list.
///
/// ```
/// use juniperreef::{Arc, Cone, Integrals, Path, Refusal, Revolution, Vec3, revolution};
///
/// let axis = Vec3::new(0.0, 0.0, 1.0);
/// let side = Cone { origin: Vec3::ZERO, axis, radius: 50.0, slope: -0.25, convex: true };
/// let (o, p) = (Vec3::ZERO, Vec3::new(0.0, 40.0, 40.0));
/// let rim = Arc { center: Vec3::new(0.0, 0.0, 40.0), axis: (-axis)?, radius: 40.0 };
/// let path = Path::Arc(rim, p, p);
///
/// let (mut one, mut other) = (Integrals::default(), Integrals::default());
/// Revolution::open(&side, o)?.add(&path)?.close(&mut one)?;
/// revolution(&mut other, &side, [path], o)?;
/// assert_eq!(one, other);
/// # Ok::<(), Refusal>(())
/// ```
#[derive(Clone, Debug, PartialEq)]
pub struct Revolution {
    /// The cone or cylinder.
    pub cone: Cone,
    /// The point that volumes are measured from.
    pub o: Vec3,
    /// The sums over the paths so far; their area has no sign yet.
    pub running: Integrals,
}

impl Revolution {
    /// A face with no path yet.
    #[inline]
    pub fn open(c: &Cone, o: Vec3) -> Result<Self, Refusal> {
        ffi::numbers(|out| ffi::jr_revolution_open(c.numbers(), o.numbers(), out))
            .map(|running| Self { cone: *c, o, running: Integrals::of(running) })
    }

    /// Adds a path. A refused one is not added, and the face is as it was.
    #[inline]
    pub fn add(&mut self, path: &Path) -> Result<&mut Self, Refusal> {
        let (c, o, sums) = (self.cone.numbers(), self.o.numbers(), self.running.numbers_mut());
        ffi::settle(match path {
            Path::Arc(arc, u, v) => {
                ffi::jr_revolution_add_arc(c, o, arc.numbers(), u.numbers(), v.numbers(), sums)
            }
            Path::Rolled(w) => {
                w.lend(|w, arc, trace| ffi::jr_revolution_add_piece(c, o, w, arc, trace, sums))
            }
        })?;
        Ok(self)
    }

    /// Adds the face to the sums of its body.
    #[inline]
    pub fn close(&self, acc: &mut Integrals) -> Result<(), Refusal> {
        let (c, running) = (self.cone.numbers(), self.running.numbers());
        ffi::settle(ffi::jr_revolution_close(c, self.cone.convex, running, acc.numbers_mut()))
    }
}

/// Adds to the sums the wall over the piece `w`, from `r0` to a greater `r1` from the axis of its
/// development.
///
/// **The piece of a wall runs with the body to its right in the development**, `u` to the right and
/// `v` up: the wall's normal, which is to the left, then points out of the body. So it runs as the
/// boundary of the sheet's inner face does there, and against that of its outer face. The example
/// `closed_body` has them all.
#[inline]
pub fn wall(acc: &mut Integrals, w: &Rolled, r0: f64, r1: f64, o: Vec3) -> Result<(), Refusal> {
    let (sums, o) = (acc.numbers_mut(), o.numbers());
    ffi::settle(w.lend(|w, arc, trace| ffi::jr_wall(sums, w, arc, trace, r0, r1, o)))
}

//! Vectors, motions and boxes.

use core::ops::{Add, Mul, Neg, Sub};

use crate::Refusal;
use crate::ffi::{self, laid_out};

/// A point or vector of a plane, as of a sheet that lies flat.
#[derive(Clone, Copy, Debug, PartialEq, Default)]
#[repr(C)]
pub struct Vec2 {
    /// The first coordinate; `u` in a development.
    pub x: f64,
    /// The second coordinate; `v` in a development.
    pub y: f64,
}

laid_out!(Vec2 is 2: x at 0, y at 1);

impl Vec2 {
    /// A vector of these coordinates. Makers refuse nothing.
    #[inline]
    pub const fn new(x: f64, y: f64) -> Self {
        Self { x, y }
    }

    /// The coordinates in order.
    #[inline]
    pub const fn to_array(self) -> [f64; 2] {
        [self.x, self.y]
    }
}

impl From<[f64; 2]> for Vec2 {
    #[inline]
    fn from([x, y]: [f64; 2]) -> Self {
        Self::new(x, y)
    }
}

impl From<Vec2> for [f64; 2] {
    #[inline]
    fn from(v: Vec2) -> Self {
        v.to_array()
    }
}

/// A point or vector in space.
///
/// The operators answer as the methods do, so a sum of three is `((a + b)? + c)?`:
///
/// ```
/// use juniperreef::{Refusal, Vec3};
///
/// let (a, b) = (Vec3::new(1.0, 2.0, 3.0), Vec3::new(4.0, 5.0, 6.0));
/// assert_eq!((a + b)?, Vec3::new(5.0, 7.0, 9.0));
/// assert_eq!(a.cross(b)?, Vec3::new(-3.0, 6.0, -3.0));
/// assert_eq!(a * f64::INFINITY, Err(Refusal::OutOfRange));
/// # Ok::<(), Refusal>(())
/// ```
#[derive(Clone, Copy, Debug, PartialEq, Default)]
#[repr(C)]
pub struct Vec3 {
    /// The first coordinate.
    pub x: f64,
    /// The second coordinate.
    pub y: f64,
    /// The third coordinate.
    pub z: f64,
}

laid_out!(Vec3 is 3: x at 0, y at 1, z at 2);

impl Vec3 {
    /// The zero vector.
    pub const ZERO: Self = Self::new(0.0, 0.0, 0.0);

    /// A vector of these coordinates. Makers refuse nothing.
    #[inline]
    pub const fn new(x: f64, y: f64, z: f64) -> Self {
        Self { x, y, z }
    }

    /// The coordinates in order, whatever they are.
    #[inline]
    pub const fn to_array(self) -> [f64; 3] {
        [self.x, self.y, self.z]
    }

    /// The scalar product, added from left to right.
    #[inline]
    pub fn dot(self, o: Self) -> Result<f64, Refusal> {
        ffi::number(|out| ffi::jr_vec3_dot(self.numbers(), o.numbers(), out))
    }

    /// The vector product.
    #[inline]
    pub fn cross(self, o: Self) -> Result<Self, Refusal> {
        ffi::numbers(|out| ffi::jr_vec3_cross(self.numbers(), o.numbers(), out)).map(Self::of)
    }

    /// Both added, coordinate by coordinate; also `self + o`.
    #[inline]
    pub fn sum(self, o: Self) -> Result<Self, Refusal> {
        ffi::numbers(|out| ffi::jr_vec3_sum(self.numbers(), o.numbers(), out)).map(Self::of)
    }

    /// `o` taken away, coordinate by coordinate; also `self - o`.
    #[inline]
    pub fn difference(self, o: Self) -> Result<Self, Refusal> {
        ffi::numbers(|out| ffi::jr_vec3_difference(self.numbers(), o.numbers(), out)).map(Self::of)
    }

    /// The opposite vector; also `-self`.
    #[inline]
    pub fn negation(self) -> Result<Self, Refusal> {
        ffi::numbers(|out| ffi::jr_vec3_negation(self.numbers(), out)).map(Self::of)
    }

    /// Every coordinate times `k`; also `self * k`.
    #[inline]
    pub fn times(self, k: f64) -> Result<Self, Refusal> {
        ffi::numbers(|out| ffi::jr_vec3_times(self.numbers(), k, out)).map(Self::of)
    }

    /// Which coordinate is greatest in magnitude: 0, 1 or 2, the first of equals.
    #[inline]
    pub fn dominant_axis(self) -> Result<usize, Refusal> {
        ffi::count(|out| ffi::jr_vec3_dominant_axis(self.numbers(), out))
    }
}

impl From<[f64; 3]> for Vec3 {
    #[inline]
    fn from([x, y, z]: [f64; 3]) -> Self {
        Self::new(x, y, z)
    }
}

impl From<Vec3> for [f64; 3] {
    #[inline]
    fn from(v: Vec3) -> Self {
        v.to_array()
    }
}

impl Add for Vec3 {
    type Output = Result<Self, Refusal>;
    #[inline]
    fn add(self, o: Self) -> Self::Output {
        self.sum(o)
    }
}

impl Sub for Vec3 {
    type Output = Result<Self, Refusal>;
    #[inline]
    fn sub(self, o: Self) -> Self::Output {
        self.difference(o)
    }
}

impl Neg for Vec3 {
    type Output = Result<Self, Refusal>;
    #[inline]
    fn neg(self) -> Self::Output {
        self.negation()
    }
}

impl Mul<f64> for Vec3 {
    type Output = Result<Self, Refusal>;
    #[inline]
    fn mul(self, k: f64) -> Self::Output {
        self.times(k)
    }
}

/// The vector of length 1 in the direction of `v`. A `v` whose squared length rounds to 0 is
/// refused.
#[inline]
pub fn unit(v: Vec3) -> Result<Vec3, Refusal> {
    ffi::numbers(|out| ffi::jr_unit(v.numbers(), out)).map(Vec3::of)
}

/// A rigid motion: a rotation, then a shift.
///
/// ```
/// use juniperreef::{Refusal, Rigid, Vec3};
///
/// let (x, y, z) = (Vec3::new(1.0, 0.0, 0.0), Vec3::new(0.0, 1.0, 0.0), Vec3::new(0.0, 0.0, 1.0));
/// let shift = Rigid::frame(Vec3::new(0.0, 0.0, 40.0), x, y, z)?;
/// assert_eq!(shift.apply(x)?, Vec3::new(1.0, 0.0, 40.0));
/// assert_eq!(shift.apply_vector(x)?, x);
/// # Ok::<(), Refusal>(())
/// ```
#[derive(Clone, Copy, Debug, PartialEq)]
#[repr(C)]
pub struct Rigid {
    rot: [Vec3; 3],
    shift: Vec3,
}

laid_out!(Rigid is 12: rot at 0, shift at 9);

impl Rigid {
    /// The rotation by `angle` radians about `axis`, of any length but 0, through the origin.
    #[inline]
    pub fn rotation(axis: Vec3, angle: f64) -> Result<Self, Refusal> {
        ffi::numbers(|out| ffi::jr_rigid_rotation(axis.numbers(), angle, out)).map(Self::of)
    }

    /// The motion that takes the origin to `origin` and the three axes to `x`, `y` and `z`, which
    /// are to be of length 1, at right angles and right-handed.
    #[inline]
    pub fn frame(origin: Vec3, x: Vec3, y: Vec3, z: Vec3) -> Result<Self, Refusal> {
        ffi::numbers(|out| {
            ffi::jr_rigid_frame(origin.numbers(), x.numbers(), y.numbers(), z.numbers(), out)
        })
        .map(Self::of)
    }

    /// A point moved.
    #[inline]
    pub fn apply(&self, p: Vec3) -> Result<Vec3, Refusal> {
        ffi::numbers(|out| ffi::jr_rigid_apply(self.numbers(), p.numbers(), out)).map(Vec3::of)
    }

    /// A direction moved: the rotation alone.
    #[inline]
    pub fn apply_vector(&self, v: Vec3) -> Result<Vec3, Refusal> {
        ffi::numbers(|out| ffi::jr_rigid_apply_vector(self.numbers(), v.numbers(), out))
            .map(Vec3::of)
    }
}

/// The three rows of the rotation, then the shift. A maker: it refuses nothing, and the numbers
/// are tried where the motion is used.
impl From<[f64; 12]> for Rigid {
    #[inline]
    fn from(m: [f64; 12]) -> Self {
        Self::of(m)
    }
}

/// The three rows of the rotation, then the shift.
impl From<Rigid> for [f64; 12] {
    #[inline]
    fn from(m: Rigid) -> Self {
        *m.numbers()
    }
}

/// A box along the coordinate axes, by its low and its high corner. Corners may be infinite.
#[derive(Clone, Copy, Debug, PartialEq)]
#[repr(C)]
pub struct Bounds {
    /// The least of each coordinate.
    pub low: Vec3,
    /// The greatest of each coordinate.
    pub high: Vec3,
}

laid_out!(Bounds is 6: low at 0, high at 3);

impl Bounds {
    /// The box that holds nothing, from which others are widened: its low corner is +∞, its high
    /// one −∞.
    pub const EMPTY: Self = Self {
        low: Vec3::new(f64::INFINITY, f64::INFINITY, f64::INFINITY),
        high: Vec3::new(f64::NEG_INFINITY, f64::NEG_INFINITY, f64::NEG_INFINITY),
    };
}

impl Default for Bounds {
    #[inline]
    fn default() -> Self {
        Self::EMPTY
    }
}

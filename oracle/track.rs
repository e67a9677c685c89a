//! A second reading of the refusals by the arithmetic: numbers that carry the first refusal they
//! depend on.
//!
//! A number is met by a refusal where it is produced: by 9 if it is not finite, by 8 as the sine or
//! cosine of an angle too large, by 10 as a count too large. What is worked out from it carries
//! that on; of two, the one met earlier. A comparison that decides the way goes into the `Path`,
//! which the results of that way depend on.

use std::cell::Cell;
use std::ops::{Add, Div, Mul, Neg, Sub};

thread_local!(static MET: Cell<u64> = const { Cell::new(0) });

/// A refusal that was met: when, and below it the number. `NONE` is later than all.
type Met = u64;
const NONE: Met = u64::MAX;

fn meet(number: u64) -> Met {
    MET.set(MET.get() + 1);
    MET.get() << 8 | number
}

#[derive(Clone, Copy)]
pub struct Num {
    pub value: f64,
    met: Met,
}

/// A number at hand: handed in, tried already, or a literal.
pub fn num(value: f64) -> Num {
    Num { value, met: NONE }
}

/// A number produced from what was met before.
fn produced(value: f64, met: Met) -> Num {
    Num { value, met: if met == NONE && !value.is_finite() { meet(9) } else { met } }
}

impl Add for Num {
    type Output = Num;
    fn add(self, o: Num) -> Num {
        produced(self.value + o.value, self.met.min(o.met))
    }
}

impl Sub for Num {
    type Output = Num;
    fn sub(self, o: Num) -> Num {
        produced(self.value - o.value, self.met.min(o.met))
    }
}

impl Mul for Num {
    type Output = Num;
    fn mul(self, o: Num) -> Num {
        produced(self.value * o.value, self.met.min(o.met))
    }
}

impl Div for Num {
    type Output = Num;
    fn div(self, o: Num) -> Num {
        produced(self.value / o.value, self.met.min(o.met))
    }
}

impl Neg for Num {
    type Output = Num;
    fn neg(self) -> Num {
        Num { value: -self.value, met: self.met }
    }
}

impl Num {
    pub fn sqrt(self) -> Num {
        produced(self.value.sqrt(), self.met)
    }

    pub fn ceil(self) -> Num {
        produced(self.value.ceil(), self.met)
    }

    pub fn round(self) -> Num {
        produced(libm::round(self.value), self.met)
    }

    pub fn abs(self) -> Num {
        Num { value: self.value.abs(), met: self.met }
    }

    pub fn hypot(self, y: Num) -> Num {
        produced(libm::hypot(self.value, y.value), self.met.min(y.met))
    }

    /// Of two zeros of unlike sign the negative one. What either has met, the lesser one has: a
    /// comparison reads both.
    pub fn least(self, o: Num) -> Num {
        let first = self.value < o.value || (self.value == o.value && self.value.is_sign_negative());
        Num { value: if first { self.value } else { o.value }, met: self.met.min(o.met) }
    }

    pub fn greatest(self, o: Num) -> Num {
        -(-self).least(-o)
    }

    pub fn acos(self) -> Num {
        produced(libm::acos(self.value), self.met)
    }

    pub fn atan2(self, x: Num) -> Num {
        produced(libm::atan2(self.value, x.value), self.met.min(x.met))
    }

    /// What an angle has met once its sine is due.
    fn as_angle(self) -> Met {
        let too_large = self.value.is_finite() && self.value.abs() > 1_048_576.0;
        if self.met == NONE && too_large { meet(8) } else { self.met }
    }

    pub fn sin(self) -> Num {
        let met = self.as_angle();
        produced(libm::sin(self.value), met)
    }

    pub fn sincos(self) -> (Num, Num) {
        let met = self.as_angle();
        let (s, c) = libm::sincos(self.value);
        (produced(s, met), produced(c, met))
    }

    /// A quotient that may be infinite, since a clamp follows that takes it.
    pub fn over_clamped(self, o: Num) -> Num {
        let value = self.value / o.value;
        let met = self.met.min(o.met);
        if value.is_infinite() { Num { value, met } } else { produced(value, met) }
    }

    /// Rounded up and held between `low` and `high`.
    pub fn ceil_clamp(self, low: f64, high: f64) -> Num {
        produced(self.value.ceil().clamp(low, high), self.met)
    }
}

/// The most chords or pieces that are accepted.
pub const MOST: f64 = 4_096.0;

/// What the way taken so far, and its results, have met.
pub struct Path(Met);

impl Path {
    pub fn new() -> Self {
        Path(NONE)
    }

    pub fn reads(&mut self, x: Num) -> f64 {
        self.0 = self.0.min(x.met);
        x.value
    }

    /// A refusal that the way itself meets, where none was met before.
    pub fn meets(&mut self, number: u64) {
        if self.0 == NONE {
            self.0 = meet(number);
        }
    }

    /// A count of chords or pieces, already whole.
    pub fn count(&mut self, x: Num) -> u64 {
        let n = self.reads(x);
        if n > MOST {
            self.meets(10);
        }
        n as u64
    }

    /// The refusal due, 0 for none.
    pub fn due(&self) -> u32 {
        if self.0 == NONE { 0 } else { (self.0 & 0xff) as u32 }
    }
}

#[derive(Clone, Copy)]
pub struct Vec2 {
    pub x: Num,
    pub y: Num,
}

pub fn vec2(v: &[f64]) -> Vec2 {
    Vec2 { x: num(v[0]), y: num(v[1]) }
}

#[derive(Clone, Copy)]
pub struct Vec3 {
    pub x: Num,
    pub y: Num,
    pub z: Num,
}

pub fn vec3(v: &[f64]) -> Vec3 {
    Vec3 { x: num(v[0]), y: num(v[1]), z: num(v[2]) }
}

impl Vec3 {
    pub fn dot(self, o: Vec3) -> Num {
        self.x * o.x + self.y * o.y + self.z * o.z
    }

    pub fn cross(self, o: Vec3) -> Vec3 {
        Vec3 { x: self.y * o.z - self.z * o.y, y: self.z * o.x - self.x * o.z, z: self.x * o.y - self.y * o.x }
    }

    pub fn read(self, path: &mut Path) -> [f64; 3] {
        [path.reads(self.x), path.reads(self.y), path.reads(self.z)]
    }
}

impl Add for Vec3 {
    type Output = Vec3;
    fn add(self, o: Vec3) -> Vec3 {
        Vec3 { x: self.x + o.x, y: self.y + o.y, z: self.z + o.z }
    }
}

impl Sub for Vec3 {
    type Output = Vec3;
    fn sub(self, o: Vec3) -> Vec3 {
        Vec3 { x: self.x - o.x, y: self.y - o.y, z: self.z - o.z }
    }
}

impl Mul<Num> for Vec3 {
    type Output = Vec3;
    fn mul(self, k: Num) -> Vec3 {
        Vec3 { x: self.x * k, y: self.y * k, z: self.z * k }
    }
}

impl Neg for Vec3 {
    type Output = Vec3;
    fn neg(self) -> Vec3 {
        Vec3 { x: -self.x, y: -self.y, z: -self.z }
    }
}

/// Number 1: whether a number handed in is finite and at most 1,048,576 in magnitude.
pub fn in_range(numbers: &[&[f64]]) -> bool {
    numbers.iter().all(|row| row.iter().all(|x| x.is_finite() && x.abs() <= 1_048_576.0))
}

/// The least number whose test fails, 0 for none: what was handed in is tried in rising order.
pub fn first_failed(tests: &[(u32, bool)]) -> u32 {
    debug_assert!(tests.is_sorted_by_key(|(number, _)| *number));
    tests.iter().find(|(_, fails)| *fails).map_or(0, |(number, _)| *number)
}

/// Number 4 for a box, and for sums.
pub fn has_nan(numbers: &[f64]) -> bool {
    numbers.iter().any(|x| x.is_nan())
}

pub fn has_unbounded(numbers: &[f64]) -> bool {
    numbers.iter().any(|x| !x.is_finite())
}

/// The answer of an entry: the refusal due, or the numbers written.
pub fn answer<const N: usize>(out: &mut [f64; N], numbers: [Num; N]) -> u32 {
    settle(Path::new(), out, numbers)
}

/// The same, where the way to the numbers may have met something.
pub fn settle<const N: usize>(mut path: Path, out: &mut [f64; N], numbers: [Num; N]) -> u32 {
    let values = numbers.map(|x| path.reads(x));
    if path.due() == 0 {
        *out = values;
    }
    path.due()
}

pub fn answer_vec3(out: &mut [f64; 3], v: Vec3) -> u32 {
    answer(out, [v.x, v.y, v.z])
}

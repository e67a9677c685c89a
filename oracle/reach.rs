//! A way to the numbers of a `Rigid`, whose fields are private.

use crate::{Rigid, Vec3};

impl Rigid {
    /// The three rows of the rotation, then the shift.
    pub fn numbers(&self) -> [f64; 12] {
        let [a, b, c, s] = [self.rot[0], self.rot[1], self.rot[2], self.shift];
        [a.x, a.y, a.z, b.x, b.y, b.z, c.x, c.y, c.z, s.x, s.y, s.z]
    }

    pub fn of_numbers(m: &[f64; 12]) -> Self {
        let row = |k: usize| Vec3::new(m[k], m[k + 1], m[k + 2]);
        Self { rot: [row(0), row(3), row(6)], shift: row(9) }
    }
}

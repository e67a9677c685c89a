//! A way to the numbers of a `Frame`, whose fields are private.

use super::{Frame, Vec3};

impl Frame {
    /// The axis, the origin, and the two directions across.
    pub fn numbers(&self) -> [f64; 12] {
        let [a, o, e1, e2] = [self.axis, self.origin, self.e1, self.e2];
        [a.x, a.y, a.z, o.x, o.y, o.z, e1.x, e1.y, e1.z, e2.x, e2.y, e2.z]
    }

    pub fn of_numbers(f: &[f64; 12]) -> Self {
        let at = |k: usize| Vec3::new(f[k], f[k + 1], f[k + 2]);
        Self { axis: at(0), origin: at(3), e1: at(6), e2: at(9) }
    }
}

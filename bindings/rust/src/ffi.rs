//! The library's C functions, and the way their answers are read.
//!
//! Records pass as arrays of numbers, enums as tags. The answer is 0, and the result is written; or
//! a refusal's number, and nothing is.

use crate::Refusal;

// SAFETY: these are the signatures of crates/exports_c, whose functions are proved to read and
// write within the arrays that they are handed and to finish for every bit pattern. So those that
// take arrays alone are safe to call with any; the two that take a row as a pointer and a length
// are not, and stand last.
unsafe extern "C" {
    // the layout that these declarations are for
    pub safe fn jr_layout_1() -> u32;

    // vectors and motions
    pub safe fn jr_vec3_dot(a: &[f64; 3], b: &[f64; 3], out: &mut [f64; 1]) -> u32;
    pub safe fn jr_vec3_cross(a: &[f64; 3], b: &[f64; 3], out: &mut [f64; 3]) -> u32;
    pub safe fn jr_vec3_sum(a: &[f64; 3], b: &[f64; 3], out: &mut [f64; 3]) -> u32;
    pub safe fn jr_vec3_difference(a: &[f64; 3], b: &[f64; 3], out: &mut [f64; 3]) -> u32;
    pub safe fn jr_vec3_negation(a: &[f64; 3], out: &mut [f64; 3]) -> u32;
    pub safe fn jr_vec3_times(a: &[f64; 3], k: f64, out: &mut [f64; 3]) -> u32;
    pub safe fn jr_vec3_dominant_axis(a: &[f64; 3], out: &mut [u64; 1]) -> u32;
    pub safe fn jr_unit(v: &[f64; 3], out: &mut [f64; 3]) -> u32;
    pub safe fn jr_rigid_rotation(axis: &[f64; 3], angle: f64, out: &mut [f64; 12]) -> u32;
    pub safe fn jr_rigid_frame(
        origin: &[f64; 3],
        x: &[f64; 3],
        y: &[f64; 3],
        z: &[f64; 3],
        out: &mut [f64; 12],
    ) -> u32;
    pub safe fn jr_rigid_apply(m: &[f64; 12], p: &[f64; 3], out: &mut [f64; 3]) -> u32;
    pub safe fn jr_rigid_apply_vector(m: &[f64; 12], v: &[f64; 3], out: &mut [f64; 3]) -> u32;

    // arcs: centre, axis, radius
    pub safe fn jr_profile_arc_turn(
        center: &[f64; 2],
        ccw: bool,
        a: &[f64; 2],
        b: &[f64; 2],
        out: &mut [f64; 1],
    ) -> u32;
    pub safe fn jr_per_turn(radius: f64, chord: f64, out: &mut [f64; 1]) -> u32;
    pub safe fn jr_arc_reversed(arc: &[f64; 7], out: &mut [f64; 7]) -> u32;
    pub safe fn jr_arc_sweep(
        arc: &[f64; 7],
        from: &[f64; 3],
        to: &[f64; 3],
        out: &mut [f64; 1],
    ) -> u32;
    pub safe fn jr_arc_at(arc: &[f64; 7], from: &[f64; 3], t: f64, out: &mut [f64; 3]) -> u32;
    pub safe fn jr_arc_extend_bounds(
        arc: &[f64; 7],
        from: &[f64; 3],
        to: &[f64; 3],
        bounds: &mut [f64; 6],
    ) -> u32;

    // developments: origin, axis, start, neutral
    pub safe fn jr_development_radial(dev: &[f64; 10], u: f64, out: &mut [f64; 3]) -> u32;
    pub safe fn jr_development_point(
        dev: &[f64; 10],
        p: &[f64; 2],
        r: f64,
        out: &mut [f64; 3],
    ) -> u32;
    pub safe fn jr_development_along(
        dev: &[f64; 10],
        p: &[f64; 2],
        d: &[f64; 2],
        r: f64,
        out: &mut [f64; 3],
    ) -> u32;
    pub safe fn jr_development_unroll(
        dev: &[f64; 10],
        q: &[f64; 3],
        near: f64,
        out: &mut [f64; 3],
    ) -> u32;
    pub safe fn jr_development_moved(dev: &[f64; 10], m: &[f64; 12], out: &mut [f64; 10]) -> u32;

    // waves, meets (origin, axis, radius, own, two angles), traces
    pub safe fn jr_wave_at(wave: &[f64; 3], u: f64, n: f64, out: &mut [f64; 3]) -> u32;
    pub safe fn jr_wave_range(wave: &[f64; 3], u0: f64, u1: f64, n: f64, out: &mut [f64; 2])
    -> u32;
    pub safe fn jr_meet_point(
        meet: &[f64; 10],
        turn: u32,
        phi: f64,
        n: f64,
        out: &mut [f64; 9],
    ) -> u32;
    pub safe fn jr_trace_v(trace: &[f64; 10], kind: u32, u: f64, n: f64, out: &mut [f64; 1])
    -> u32;

    // pieces: development, from, to, the arc's centre, trace
    pub safe fn jr_piece_uv_box(piece: &[f64; 26], arc: u32, trace: u32, out: &mut [f64; 4])
    -> u32;
    pub safe fn jr_piece_polyline(
        piece: &[f64; 26],
        arc: u32,
        trace: u32,
        deviation: f64,
        out: &mut [u64; 1],
    ) -> u32;
    pub safe fn jr_piece_reversed(
        piece: &[f64; 26],
        arc: u32,
        trace: u32,
        out: &mut [f64; 26],
        tags: &mut [u32; 2],
    ) -> u32;
    pub safe fn jr_piece_at(
        piece: &[f64; 26],
        arc: u32,
        trace: u32,
        t: f64,
        out: &mut [f64; 4],
    ) -> u32;
    pub safe fn jr_piece_second(
        piece: &[f64; 26],
        arc: u32,
        trace: u32,
        t: f64,
        out: &mut [f64; 2],
    ) -> u32;
    pub safe fn jr_piece_normal(
        piece: &[f64; 26],
        arc: u32,
        trace: u32,
        p: &[f64; 2],
        r: f64,
        out: &mut [f64; 3],
    ) -> u32;
    pub safe fn jr_piece_measure(
        piece: &[f64; 26],
        arc: u32,
        trace: u32,
        out: &mut [f64; 3],
    ) -> u32;
    pub safe fn jr_piece_quadrature_pieces(
        piece: &[f64; 26],
        arc: u32,
        trace: u32,
        out: &mut [u64; 1],
    ) -> u32;
    pub safe fn jr_piece_chords(
        piece: &[f64; 26],
        arc: u32,
        trace: u32,
        r: f64,
        chord: f64,
        out: &mut [u64; 1],
    ) -> u32;

    // curves: an arc, or a piece and then the radius
    pub safe fn jr_curve_reversed(
        curve: &[f64; 27],
        kind: u32,
        arc: u32,
        trace: u32,
        out: &mut [f64; 27],
        tags: &mut [u32; 2],
    ) -> u32;
    pub safe fn jr_curve_moved(
        curve: &[f64; 27],
        kind: u32,
        arc: u32,
        trace: u32,
        m: &[f64; 12],
        out: &mut [f64; 27],
    ) -> u32;
    pub safe fn jr_curve_arc(
        curve: &[f64; 27],
        kind: u32,
        arc: u32,
        trace: u32,
        out: &mut [f64; 7],
    ) -> u32;
    pub safe fn jr_curve_extend_bounds(
        curve: &[f64; 27],
        kind: u32,
        arc: u32,
        trace: u32,
        from: &[f64; 3],
        to: &[f64; 3],
        bounds: &mut [f64; 6],
    ) -> u32;

    // surfaces: a plane, a cylinder, a cone or a wall's piece
    pub safe fn jr_surface_plane(
        surface: &[f64; 26],
        kind: u32,
        convex: bool,
        arc: u32,
        trace: u32,
        out: &mut [f64; 6],
    ) -> u32;
    pub safe fn jr_surface_revolution(
        surface: &[f64; 26],
        kind: u32,
        convex: bool,
        arc: u32,
        trace: u32,
        out: &mut [f64; 8],
    ) -> u32;
    pub safe fn jr_surface_moved(
        surface: &[f64; 26],
        kind: u32,
        convex: bool,
        arc: u32,
        trace: u32,
        m: &[f64; 12],
        out: &mut [f64; 26],
    ) -> u32;
    pub safe fn jr_surface_normal_at(
        surface: &[f64; 26],
        kind: u32,
        convex: bool,
        arc: u32,
        trace: u32,
        p: &[f64; 3],
        out: &mut [f64; 3],
    ) -> u32;

    // faces: cones are origin, axis, radius, slope; sums are six_v, moment, area, area vector
    pub safe fn jr_cone_frame(cone: &[f64; 8], out: &mut [f64; 12]) -> u32;
    pub safe fn jr_frame_angle(frame: &[f64; 12], p: &[f64; 3], out: &mut [f64; 1]) -> u32;
    pub safe fn jr_frame_point(
        frame: &[f64; 12],
        theta: f64,
        z: f64,
        r: f64,
        out: &mut [f64; 3],
    ) -> u32;
    pub safe fn jr_segment(
        sums: &mut [f64; 8],
        arc: &[f64; 7],
        k: &[f64; 3],
        u: &[f64; 3],
        v: &[f64; 3],
        n: &[f64; 3],
        o: &[f64; 3],
    ) -> u32;
    pub safe fn jr_revolution_open(cone: &[f64; 8], o: &[f64; 3], running: &mut [f64; 8]) -> u32;
    pub safe fn jr_revolution_add_arc(
        cone: &[f64; 8],
        o: &[f64; 3],
        arc: &[f64; 7],
        u: &[f64; 3],
        v: &[f64; 3],
        running: &mut [f64; 8],
    ) -> u32;
    pub safe fn jr_revolution_add_piece(
        cone: &[f64; 8],
        o: &[f64; 3],
        piece: &[f64; 26],
        arc: u32,
        trace: u32,
        running: &mut [f64; 8],
    ) -> u32;
    pub safe fn jr_revolution_close(
        cone: &[f64; 8],
        convex: bool,
        running: &[f64; 8],
        sums: &mut [f64; 8],
    ) -> u32;
    pub safe fn jr_wall(
        sums: &mut [f64; 8],
        piece: &[f64; 26],
        arc: u32,
        trace: u32,
        r0: f64,
        r1: f64,
        o: &[f64; 3],
    ) -> u32;

    // rows: `row` is the start of `length` numbers that nothing else has hold of
    pub fn jr_arc_inner_points(
        arc: &[f64; 7],
        from: &[f64; 3],
        to: &[f64; 3],
        chord: f64,
        row: *mut f64,
        length: usize,
        written: &mut [u64; 1],
    ) -> u32;
    pub fn jr_curve_inner_points(
        curve: &[f64; 27],
        kind: u32,
        arc: u32,
        trace: u32,
        from: &[f64; 3],
        to: &[f64; 3],
        chord: f64,
        row: *mut f64,
        length: usize,
        written: &mut [u64; 1],
    ) -> u32;
}

/// The layout by its name, in every program that links this crate: an archive of another layout does
/// not have it, and the linker says so. A name alone is the same whatever an array holds.
#[used]
static LAYOUT: extern "C" fn() -> u32 = jr_layout_1;

/// No such thing: an answer that is no refusal.
const NONE: u32 = 255;

/// The refusal that a function answered, if any.
#[inline]
pub fn settle(answer: u32) -> Result<(), Refusal> {
    match answer {
        0 => Ok(()),
        number => Err(refused(number)),
    }
}

/// The tags of this crate are all known, and so is every refusal of this layout.
#[cold]
fn refused(answer: u32) -> Refusal {
    Refusal::from_number(answer).unwrap_or_else(|| {
        panic!(
            "the linked library answered {answer}, which this release of the crate does not know"
        )
    })
}

/// What a call writes.
#[inline]
pub fn numbers<const N: usize>(
    call: impl FnOnce(&mut [f64; N]) -> u32,
) -> Result<[f64; N], Refusal> {
    let mut out = [0.0; N];
    settle(call(&mut out))?;
    Ok(out)
}

/// What a call writes, where there is such a thing.
#[inline]
pub fn some_numbers<const N: usize>(
    call: impl FnOnce(&mut [f64; N]) -> u32,
) -> Result<Option<[f64; N]>, Refusal> {
    let mut out = [0.0; N];
    match call(&mut out) {
        NONE => Ok(None),
        answer => settle(answer).map(|()| Some(out)),
    }
}

/// The one number that a call writes.
#[inline]
pub fn number(call: impl FnOnce(&mut [f64; 1]) -> u32) -> Result<f64, Refusal> {
    numbers(call).map(|[x]| x)
}

/// The count that a call writes. None is above `CURVE_ROW`, so every `usize` holds it.
#[inline]
pub fn count(call: impl FnOnce(&mut [u64; 1]) -> u32) -> Result<usize, Refusal> {
    let mut out = [0];
    settle(call(&mut out))?;
    Ok(out[0] as usize)
}

/// The N numbers from the k-th on.
#[inline]
pub fn part<const N: usize>(numbers: &[f64], k: usize) -> [f64; N] {
    core::array::from_fn(|i| numbers[k + i])
}

/// Lets a record cross as it is: its fields stand where the numbers of its array do, from the first
/// on. `RECORD is COUNT` is all numbers, and an array can become one; `RECORD begins COUNT` has a
/// flag or more behind its numbers. What is said is checked as the crate is compiled.
macro_rules! laid_out {
    ($record:ident begins $count:literal: $($field:ident at $place:literal),+) => {
        const _: () = {
            assert!(size_of::<$record>() >= 8 * $count);
            assert!(align_of::<$record>() == align_of::<[f64; $count]>());
            $(assert!(core::mem::offset_of!($record, $field) == 8 * $place);)+
        };

        #[allow(dead_code, reason = "a record takes what it needs")]
        impl $record {
            /// The record's numbers, as they stand.
            #[inline]
            pub(crate) const fn numbers(&self) -> &[f64; $count] {
                // SAFETY: the record begins with so many numbers and nothing between them, as is
                // checked above, and is as aligned as they are.
                unsafe { &*(&raw const *self).cast() }
            }
        }
    };
    ($record:ident is $count:literal: $($field:ident at $place:literal),+) => {
        $crate::ffi::laid_out!($record begins $count: $($field at $place),+);
        const _: () = assert!(size_of::<$record>() == 8 * $count);

        #[allow(dead_code, reason = "a record takes what it needs")]
        impl $record {
            /// The record of numbers, as they stand.
            #[inline]
            pub(crate) const fn of(numbers: [f64; $count]) -> Self {
                // SAFETY: the record is so many numbers and nothing else, as is checked above.
                unsafe { core::mem::transmute(numbers) }
            }

            /// The record lent to be written. A refused call writes nothing.
            #[inline]
            pub(crate) const fn numbers_mut(&mut self) -> &mut [f64; $count] {
                // SAFETY: the record is so many numbers and nothing else, as is checked above, and
                // any number may be written to each.
                unsafe { &mut *(&raw mut *self).cast() }
            }
        }
    };
}
pub(crate) use laid_out;

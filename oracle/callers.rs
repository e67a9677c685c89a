//! What a Rust program calls: a method of curve.rs and the same of the crate `juniperreef`, on
//! records that were made before the clock starts. oracle/calls.rs has the records and the calls
//! once, and is read here for each side.

use std::ops::Range;

/// Nanoseconds that the calls on these records take.
pub type Side = Box<dyn FnMut(Range<usize>) -> f64>;

/// Makes the records of flat inputs, so many numbers each, and keeps them for the calls.
pub type Ready = fn(&[f64], usize) -> Side;

/// The call that tables have for an entry.
fn named(tables: [&[(&str, Ready)]; 2], name: &str) -> Option<Ready> {
    tables.into_iter().flatten().find(|(known, _)| *known == name).map(|(_, ready)| *ready)
}

/// The crate's calls and curve.rs's of an entry, where a Rust program has such a call.
pub fn sides(name: &str) -> Option<[Ready; 2]> {
    let (port, rust) = ([by_crate::SMALL, by_crate::CALLS], [by_rust::SMALL, by_rust::CALLS]);
    named(port, name).zip(named(rust, name)).map(|(port, rust)| [port, rust])
}

/// Whether the call is one of the archive's too. A `Vec` is Rust's alone, and a face of one path is opened, added to and closed.
pub fn is_one(name: &str) -> bool {
    !name.ends_with("_vec") && !name.starts_with("revolution_add")
}

/// Calls for which the crate has another form that hands over a `Vec`.
pub fn also(name: &str) -> Option<&'static str> {
    match name {
        "inner_points" => Some("inner_points_vec"),
        "curve_inner_points" => Some("curve_inner_points_vec"),
        _ => None,
    }
}

/// `NAME: the records of flat inputs, what is lent to all calls, the call;` each, by a function that makes them ready.
macro_rules! calls {
    ($how:ident; $($name:ident: |$i:ident| $make:expr, $lent:expr, |$x:pat_param, $l:pat_param| $call:expr;)*) => {
        &[$((stringify!($name), |inputs, takes| $how(inputs, takes, |$i| $make, $lent, |$x, $l| $call))),*]
    };
}

/// How both sides are timed: a loop over the records, with what is lent handed to every call.
macro_rules! timed {
    ($given:ty, |$answer:ident| $settled:expr) => {
        fn ready<T: 'static, L: 'static, R>(
            inputs: &[f64],
            takes: usize,
            make: impl Fn(&[f64]) -> T,
            mut lent: L,
            call: impl Fn(&T, &mut L) -> $given + 'static,
        ) -> Side {
            let records: Vec<T> = inputs.chunks_exact(takes).map(make).collect();
            Box::new(move |range| {
                let start = Instant::now();
                for record in &records[range] {
                    let $answer = call(black_box(record), black_box(&mut lent));
                    black_box($settled);
                }
                start.elapsed().as_nanos() as f64
            })
        }
    };
}

mod by_rust {
    use std::hint::black_box;
    use std::time::Instant;

    use super::{Ready, Side};
    use crate::curve::*;
    use crate::entry::at;
    use crate::{Plane, ProfileArc};
    use datum_math::{Rigid, Vec2, Vec3};

    timed!(R, |answer| answer);
    include!("calls.rs");

    /// Made ready, for a call that stays one: a program's own crate does not have curve.rs's methods in its loop.
    fn reached<T: 'static, L: 'static, R: 'static>(
        inputs: &[f64],
        takes: usize,
        make: impl Fn(&[f64]) -> T,
        lent: L,
        call: impl Fn(&T, &mut L) -> R + 'static,
    ) -> Side {
        #[inline(never)]
        fn apart<T, L, R>(call: impl Fn(&T, &mut L) -> R, record: &T, lent: &mut L) -> R {
            call(record, lent)
        }
        ready(inputs, takes, make, lent, move |record, lent| apart(&call, record, lent))
    }

    const EMPTY: [Vec3; 2] =
        [Vec3::new(f64::INFINITY, f64::INFINITY, f64::INFINITY), Vec3::new(f64::NEG_INFINITY, f64::NEG_INFINITY, f64::NEG_INFINITY)];

    fn motion(i: &[f64], k: usize) -> Rigid {
        Rigid::of_numbers(at(i, k))
    }

    fn axes(i: &[f64]) -> Frame {
        Frame::of_numbers(at(i, 0))
    }

    fn widen(a: &Arc, from: Vec3, to: Vec3, [low, high]: &mut [Vec3; 2]) {
        a.extend_bounds(from, to, low, high)
    }

    fn widen_by_curve(c: &Curve, from: Vec3, to: Vec3, [low, high]: &mut [Vec3; 2]) {
        c.extend_bounds(from, to, low, high)
    }

    fn put<'a>(points: impl Iterator<Item = Vec3>, row: &'a mut [f64]) -> usize {
        points.zip(row.chunks_exact_mut(3)).map(|(p, to)| to.copy_from_slice(&p.to_array())).count()
    }

    fn drawn(a: &Arc, from: Vec3, to: Vec3, chord: f64, row: &mut [f64]) -> usize {
        put(a.inner_points(from, to, chord), row)
    }

    fn drawn_vec(a: &Arc, from: Vec3, to: Vec3, chord: f64) -> Vec<Vec3> {
        a.inner_points(from, to, chord).collect()
    }

    fn drawn_curve(c: &Curve, from: Vec3, to: Vec3, chord: f64, row: &mut [f64]) -> usize {
        put(c.inner_points(from, to, chord).into_iter(), row)
    }

    fn drawn_curve_vec(c: &Curve, from: Vec3, to: Vec3, chord: f64) -> Vec<Vec3> {
        c.inner_points(from, to, chord)
    }

    fn arc_of(c: &Curve) -> Option<Arc> {
        c.arc().copied()
    }

    fn plane_of(s: &Surface) -> Option<Plane> {
        s.plane().copied()
    }

    fn face(acc: &mut Integrals, c: &Cone, paths: &[Path], o: Vec3) {
        let again = |path: &Path| match path {
            Path::Arc(arc, u, v) => Path::Arc(*arc, *u, *v),
            Path::Rolled(w) => Path::Rolled(*w),
        };
        revolution(acc, c, paths.iter().map(again), o)
    }
}

mod by_crate {
    use std::hint::black_box;
    use std::time::Instant;

    use super::{Ready, Side};
    use crate::entry::at;
    use juniperreef::*;

    timed!(Result<R, Refusal>, |answer| answer.expect("an accepted input"));
    include!("calls.rs");

    // The crate is one of its own here too.
    use self::ready as reached;

    const EMPTY: Bounds = Bounds::EMPTY;

    fn motion(i: &[f64], k: usize) -> Rigid {
        (*at(i, k)).into()
    }

    fn axes(i: &[f64]) -> Frame {
        Frame { axis: v3(i, 0), origin: v3(i, 3), e1: v3(i, 6), e2: v3(i, 9) }
    }

    fn widen(a: &Arc, from: Vec3, to: Vec3, bounds: &mut Bounds) -> Result<(), Refusal> {
        a.extend_bounds(from, to, bounds)
    }

    fn widen_by_curve(c: &Curve, from: Vec3, to: Vec3, bounds: &mut Bounds) -> Result<(), Refusal> {
        c.extend_bounds(from, to, bounds)
    }

    fn drawn(a: &Arc, from: Vec3, to: Vec3, chord: f64, row: &mut [f64]) -> Result<usize, Refusal> {
        a.inner_points(from, to, chord, row).map(|row| row.len())
    }

    fn drawn_vec(a: &Arc, from: Vec3, to: Vec3, chord: f64) -> Result<Vec<Vec3>, Refusal> {
        a.inner_points_vec(from, to, chord)
    }

    fn drawn_curve(c: &Curve, from: Vec3, to: Vec3, chord: f64, row: &mut [f64]) -> Result<usize, Refusal> {
        c.inner_points(from, to, chord, row).map(|row| row.len())
    }

    fn drawn_curve_vec(c: &Curve, from: Vec3, to: Vec3, chord: f64) -> Result<Vec<Vec3>, Refusal> {
        c.inner_points_vec(from, to, chord)
    }

    fn arc_of(c: &Curve) -> Result<Option<Arc>, Refusal> {
        c.arc().map(|arc| arc.copied())
    }

    fn plane_of(s: &Surface) -> Result<Option<Plane>, Refusal> {
        s.plane().map(|plane| plane.copied())
    }

    fn face(acc: &mut Integrals, c: &Cone, paths: &[Path], o: Vec3) -> Result<(), Refusal> {
        revolution(acc, c, paths, o)
    }
}

//! Volume, centre of mass and surface of a closed body: a stub of pipe, its foot plane, its head cut
//! as a saddle.
//!
//! Which way things run:
//! - the boundary of a face runs with the face to its left, seen from outside the body, where the
//!   normal points to the eye. So an edge is run one way by one of its two faces and the other way by
//!   the other;
//! - the piece of a wall runs with the body to its right in the development, u to the right and v
//!   up: the wall's normal, to the left, then points out of the body.
//!
//! What shows that something runs the wrong way: a face of revolution that takes from the area, and
//! area vectors of all faces that do not add up to 0.
//!
//!     cargo run --example closed_body

use std::f64::consts::TAU;

use juniperreef::{
    Arc, Cylinder, Development, Integrals, Meet, Path, Refusal, Rolled, Trace, Vec2, Vec3,
    revolution, segment, wall,
};

const UP: Vec3 = Vec3::new(0.0, 0.0, 1.0);
const DOWN: Vec3 = Vec3::new(0.0, 0.0, -1.0);
const INNER: f64 = 27.0;
const NEUTRAL: f64 = 30.0;
const OUTER: f64 = 33.0;

/// The trace of the saddle: the main pipe's axis, along x, crosses 100 above the foot.
fn main_pipe() -> Trace {
    let (origin, axis) = (Vec3::new(0.0, 0.0, 100.0), Vec3::new(1.0, 0.0, 0.0));
    Trace::Meet(Meet { origin, axis, radius: 50.0, own: 1.0, turn: None })
}

/// The saddle once round, the way that u grows: the body, below it, is to its right.
fn saddle() -> Result<Rolled, Refusal> {
    let start = Vec3::new(1.0, 0.0, 0.0);
    let dev = Development { origin: Vec3::ZERO, axis: UP, start, neutral: NEUTRAL };
    let v = main_pipe().v(0.0, NEUTRAL)?.expect("a branch's meet");
    let (from, to) = (Vec2::new(0.0, v), Vec2::new(NEUTRAL * TAU, v));
    Ok(Rolled { dev, from, to, arc: None, trace: Some(main_pipe()) })
}

/// A circle of the foot, turning about `axis`, and its one corner.
fn rim(radius: f64, axis: Vec3) -> (Arc, Vec3) {
    (Arc { center: Vec3::ZERO, axis, radius }, Vec3::new(radius, 0.0, 0.0))
}

fn stub(o: Vec3) -> Result<Integrals, Refusal> {
    let mut sums = Integrals::default();
    let head = saddle()?;

    // Outside, seen from without: the lower rim about the axis, the head against u. The cylinder's
    // origin is any point of its axis.
    let origin = Vec3::new(0.0, 0.0, -40.0);
    let side = Cylinder { origin, axis: UP, radius: OUTER, convex: true };
    let (circle, p) = rim(OUTER, UP);
    let boundary = [Path::Arc(circle, p, p), Path::Rolled(head.reversed()?)];
    revolution(&mut sums, &side.into(), boundary, o)?;
    assert!(sums.area > 0.0, "the outside runs the wrong way");

    // Inside, seen from the axis: the other way round.
    let (bore, before) = (Cylinder { radius: INNER, convex: false, ..side }, sums.area);
    let (circle, p) = rim(INNER, DOWN);
    let boundary = [Path::Arc(circle, p, p), Path::Rolled(head)];
    revolution(&mut sums, &bore.into(), boundary, o)?;
    assert!(sums.area > before, "the inside runs the wrong way");

    // The head: its wall's normal points up.
    wall(&mut sums, &head, INNER, OUTER, o)?;

    // The foot, seen from below: the outer rim counterclockwise, the inner one clockwise. Its polygon
    // is empty, as each rim has one corner; and segments leave the area alone.
    for (radius, turning) in [(OUTER, DOWN), (INNER, UP)] {
        let (circle, p) = rim(radius, turning);
        segment(&mut sums, &circle, turning, p, p, DOWN, o)?;
    }
    sums.area += TAU / 2.0 * (OUTER * OUTER - INNER * INNER);
    Ok(sums)
}

/// The volume by a sum over the angle: the height there, times the ring's sector.
fn by_hand() -> Result<f64, Refusal> {
    const STEPS: usize = 4096;
    let mut sum = 0.0;
    for k in 0..STEPS {
        let u = NEUTRAL * TAU * k as f64 / STEPS as f64;
        sum += main_pipe().v(u, NEUTRAL)?.expect("a branch's meet");
    }
    Ok(sum * TAU / STEPS as f64 * (OUTER * OUTER - INNER * INNER) / 2.0)
}

fn main() -> Result<(), Refusal> {
    // Volumes are measured from here, which is any point that all calls share.
    let o = Vec3::new(7.0, -3.0, 11.0);
    let sums = stub(o)?;
    let (volume, due) = (sums.six_v / 6.0, by_hand()?);
    // In plain numbers: a moment is soon beyond 1,048,576, and `Vec3` refuses that.
    let centre = [
        o.x + sums.moment.x / (4.0 * sums.six_v),
        o.y + sums.moment.y / (4.0 * sums.six_v),
        o.z + sums.moment.z / (4.0 * sums.six_v),
    ];
    println!("volume {volume:.3}, by hand {due:.3}");
    println!("centre of mass {centre:.6?}");
    println!("area {:.3}", sums.area);
    println!("area vector {:?}", sums.area_vector.to_array());

    assert!(
        sums.area_vector.to_array().iter().all(|x| x.abs() < 1e-9),
        "a face runs the wrong way"
    );
    assert!((volume - due).abs() < 1e-9 * due);
    assert!(centre[0].abs() < 1e-9 && centre[1].abs() < 1e-9);
    Ok(())
}

//! The box of a body's edges: one box, widened by each. A refused edge is left out by name, and the
//! box is as it was before it.
//!
//!     cargo run --example box_of_edges

use juniperreef::{Arc, Bounds, Curve, Development, ProfileArc, Refusal, Rolled, Vec2, Vec3};

fn main() -> Result<(), Refusal> {
    let (x, z) = (Vec3::new(1.0, 0.0, 0.0), Vec3::new(0.0, 0.0, 1.0));
    let circle = |height: f64, radius: f64| {
        let start = Vec3::new(radius, 0.0, height);
        let rim = Arc { center: Vec3::new(0.0, 0.0, height), axis: z, radius };
        // One point twice is a full circle.
        (Curve::Arc(rim), start, start)
    };

    // A round window of radius 20 in a rolled pipe of radius 50, at the height 60: half of its edge at a time.
    let pipe = Development { origin: Vec3::ZERO, axis: z, start: x, neutral: 50.0 };
    let window = ProfileArc { center: Vec2::new(0.0, 60.0), ccw: true };
    let half = |from: f64, to: f64| {
        let (from, to) = (Vec2::new(from, 60.0), Vec2::new(to, 60.0));
        let piece = Rolled { dev: pipe, from, to, arc: Some(window), trace: None };
        Ok((Curve::Rolled { piece, radius: 50.0 }, pipe.point(from, 50.0)?, pipe.point(to, 50.0)?))
    };

    let broken = Vec3::new(f64::NAN, 0.0, 0.0);
    let edges = [
        ("window, upper half", half(20.0, -20.0)?),
        ("window, lower half", half(-20.0, 20.0)?),
        ("lower rim", circle(0.0, 50.0)),
        ("upper rim", circle(120.0, 50.0)),
        (
            "an edge with a broken end",
            (Curve::Arc(Arc { center: Vec3::ZERO, axis: z, radius: 1.0 }), broken, x),
        ),
    ];

    let mut bounds = Bounds::EMPTY;
    for (name, (curve, from, to)) in edges {
        let before = bounds;
        match curve.extend_bounds(from, to, &mut bounds) {
            Ok(()) => {
                println!("{name}: {:?} to {:?}", bounds.low.to_array(), bounds.high.to_array())
            }
            Err(why) => {
                println!("{name}: {why}");
                assert_eq!((why, bounds), (Refusal::OutOfRange, before));
            }
        }
    }
    assert_eq!(bounds.low, Vec3::new(-50.0, -50.0, 0.0));
    assert_eq!(bounds.high, Vec3::new(50.0, 50.0, 120.0));
    Ok(())
}

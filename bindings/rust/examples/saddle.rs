//! A saddle: the end of a branch, 60 in diameter, cut to fit a main pipe of 100 whose axis crosses
//! its own, 100 above. The cut in the sheet that lies flat, its box, its chords, points to draw.
//!
//!     cargo run --example saddle

use std::f64::consts::{PI, TAU};

use juniperreef::{Bounds, Curve, Development, Meet, Refusal, Rolled, Trace, Vec2, Vec3};

fn main() -> Result<(), Refusal> {
    // The branch stands on the origin along z; u is 0 where x is greatest.
    let (x, z) = (Vec3::new(1.0, 0.0, 0.0), Vec3::new(0.0, 0.0, 1.0));
    let neutral = 30.0;
    let branch = Development { origin: Vec3::ZERO, axis: z, start: x, neutral };

    // Where its generatrices, along z, first meet the main pipe, in the branch's own axes.
    let origin = Vec3::new(0.0, 0.0, 100.0);
    let main = Trace::Meet(Meet { origin, axis: x, radius: 50.0, own: 1.0, turn: None });
    println!("  u (mm)   v (mm)");
    for eighth in 0..=8 {
        let u = neutral * TAU * eighth as f64 / 8.0;
        // There is a v for every u: only a hole's meet has none.
        let v = main.v(u, neutral)?.expect("a branch's meet");
        println!("{u:8.3} {v:8.3}");
    }

    // The piece of the cut, once round. Its ends lie on the trace.
    let start = main.v(0.0, neutral)?.expect("a branch's meet");
    let (from, to) = (Vec2::new(0.0, start), Vec2::new(neutral * TAU, start));
    let cut = Rolled { dev: branch, from, to, arc: None, trace: Some(main) };
    let [u, v] = cut.uv_box()?;
    println!("in the flat sheet: u {:.3} to {:.3}, v {:.3} to {:.3}", u[0], u[1], v[0], v[1]);
    let (_, _, length) = cut.measure()?;
    println!("length of the cut: {length:.3}");
    println!("a plotter draws it within 0.05 by {} chords", cut.polyline(0.05)?);

    // The edge on the outside of the sheet, 3 beyond its neutral layer.
    let outside = Curve::Rolled { piece: cut, radius: 33.0 };
    let end = branch.point(from, 33.0)?;
    let mut bounds = Bounds::EMPTY;
    // A box call takes less than a turn: in halves.
    for half in [0.0, 1.0] {
        let at = |halves: f64| Vec2::new(neutral * PI * halves, start);
        let piece = Rolled { from: at(half), to: at(half + 1.0), ..cut };
        let half = Curve::Rolled { piece, radius: 33.0 };
        half.extend_bounds(end, end, &mut bounds)?;
    }
    println!("box of the outer edge: {:?} to {:?}", bounds.low.to_array(), bounds.high.to_array());
    let points = outside.inner_points_vec(end, end, 0.1)?;
    println!(
        "drawn by {} chords, so by {} points between its ends",
        cut.chords(33.0, 0.1)?,
        points.len()
    );
    println!("the first of them: {:?}", points[0].to_array());

    assert!((v[0] - 50.0).abs() < 1e-9 && (v[1] - 60.0).abs() < 1e-9);
    assert_eq!(points.len() + 1, cut.chords(33.0, 0.1)?);
    Ok(())
}

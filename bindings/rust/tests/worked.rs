//! Cases worked out by hand, through the crate. Those of the program that prints a box are run by
//! `scripts/try_samples`.

use std::f64::consts::{FRAC_PI_2, PI, TAU};

use juniperreef::{
    ARC_ROW, Arc, Bounds, Curve, Development, Meet, ProfileArc, Refusal, Rolled, Trace, Vec2, Vec3,
    Wave, per_turn,
};

type Answer = Result<(), Refusal>;

const X: Vec3 = Vec3::new(1.0, 0.0, 0.0);
const Z: Vec3 = Vec3::new(0.0, 0.0, 1.0);
const RIGHT: Vec3 = Vec3::new(5.0, 0.0, 0.0);
const UP: Vec3 = Vec3::new(0.0, 5.0, 0.0);
const LEFT: Vec3 = Vec3::new(-5.0, 0.0, 0.0);

/// The arc that most cases are about.
const A: Arc = Arc { center: Vec3::ZERO, axis: Z, radius: 5.0 };

/// A main pipe across the development's axis, 20 along it.
const MAIN: Meet =
    Meet { origin: Vec3::new(0.0, 0.0, 20.0), axis: X, radius: 10.0, own: 1.0, turn: None };

fn piece(from: Vec2, to: Vec2) -> Rolled {
    let dev = Development { origin: Vec3::ZERO, axis: Z, start: X, neutral: 10.0 };
    Rolled { dev, from, to, arc: None, trace: None }
}

/// How many inner points there are, by the row and by the `Vec`.
fn inner(arc: Arc, from: Vec3, to: Vec3, chord: f64) -> Result<usize, Refusal> {
    let mut row = [0.0; ARC_ROW];
    let points = arc.inner_points(from, to, chord, &mut row)?.len() / 3;
    assert_eq!(arc.inner_points_vec(from, to, chord)?.len(), points);
    Ok(points)
}

fn bounds_of(arc: Arc, from: Vec3, to: Vec3) -> Result<Bounds, Refusal> {
    let (mut by_arc, mut by_curve) = (Bounds::EMPTY, Bounds::EMPTY);
    arc.extend_bounds(from, to, &mut by_arc)?;
    Curve::Arc(arc).extend_bounds(from, to, &mut by_curve)?;
    assert_eq!(by_arc, by_curve);
    Ok(by_arc)
}

#[test]
fn one_point_twice_is_a_full_circle() -> Answer {
    assert_eq!(A.sweep(RIGHT, RIGHT)?, TAU);
    assert_eq!(inner(A, RIGHT, RIGHT, 5.0)?, 11);
    assert_eq!(inner(A, RIGHT, RIGHT, 0.0)?, 63);
    let clockwise = ProfileArc { center: Vec2::new(0.0, 0.0), ccw: false };
    assert_eq!(clockwise.turn(Vec2::new(5.0, 0.0), Vec2::new(5.0, 0.0))?, -TAU);
    Ok(())
}

#[test]
fn a_quarter_turn() -> Answer {
    assert_eq!(A.sweep(RIGHT, UP)?, FRAC_PI_2);
    assert_eq!(inner(A, RIGHT, UP, 5.0)?, 2);
    assert_eq!(inner(A, RIGHT, UP, 0.0)?, 15);
    let b = bounds_of(A, RIGHT, UP)?;
    assert_eq!((b.low, b.high), (Vec3::ZERO, Vec3::new(5.0, 5.0, 0.0)));
    Ok(())
}

#[test]
fn the_other_way_round() -> Answer {
    let back = A.reversed()?;
    assert_eq!(back.sweep(RIGHT, UP)?, 1.5 * PI);
    assert_eq!(inner(back, RIGHT, UP, 5.0)?, 8);
    assert_eq!(Curve::Arc(A).reversed()?, Curve::Arc(back));
    Ok(())
}

#[test]
fn half_a_circle() -> Answer {
    let b = bounds_of(A, RIGHT, LEFT)?;
    assert_eq!((b.low, b.high), (LEFT, Vec3::new(5.0, 5.0, 0.0)));
    Ok(())
}

#[test]
fn chords_of_a_turn() -> Answer {
    assert_eq!(per_turn(5.0, 5.0)?, 12.0);
    assert_eq!(per_turn(5.0, 0.0)?, 64.0);
    assert_eq!(per_turn(5.0, -0.0)?, 64.0);
    Ok(())
}

#[test]
fn a_straight_piece() -> Answer {
    let w = piece(Vec2::new(0.0, 0.0), Vec2::new(8.0, 4.0));
    assert_eq!(w.at(0.25)?, (Vec2::new(2.0, 1.0), Vec2::new(8.0, 4.0)));
    assert_eq!(w.polyline(1.0)?, 1);
    assert_eq!(w.polyline(0.0), Err(Refusal::BadTolerance));
    Ok(())
}

/// The difference of the ends rounds up: no straight piece's point lies farther outside its box.
#[test]
fn a_straight_piece_that_ends_outside_its_box() -> Answer {
    const LIMIT: f64 = 1_048_576.0;
    let w = piece(Vec2::new(-LIMIT, 0.0), Vec2::new(LIMIT.next_down(), 0.0));
    let ([[_, high], _], (end, _)) = (w.uv_box()?, w.at(1.0)?);
    assert_eq!((high, end.x), (LIMIT.next_down(), LIMIT));
    assert_eq!(end.x - high, 1.0 / (1u64 << 33) as f64);
    assert_eq!(w.at(-0.0)?.0.x, -LIMIT);
    Ok(())
}

#[test]
fn the_box_of_an_arc_in_a_development_is_the_circles() -> Answer {
    let arc = Some(ProfileArc { center: Vec2::new(0.0, 0.0), ccw: true });
    let w = Rolled { arc, ..piece(Vec2::new(5.0, 0.0), Vec2::new(0.0, 5.0)) };
    assert_eq!(w.uv_box()?, [[-5.0, 5.0], [-5.0, 5.0]]);
    Ok(())
}

#[test]
fn waves() -> Answer {
    let w = Wave { a: 2.0, b: 3.0, c: 0.0 };
    assert_eq!(w.at(0.0, 10.0)?, [5.0, 0.0, -3.0 / 100.0]);
    assert_eq!(Trace::Wave(w).v(0.0, 10.0)?, Some(5.0));
    let flat = Trace::Wave(Wave { a: 2.0, b: 0.0, c: 0.0 });
    let w = Rolled { trace: Some(flat), ..piece(Vec2::new(0.0, 2.0), Vec2::new(8.0, 2.0)) };
    assert_eq!(w.polyline(1.0)?, 2);
    Ok(())
}

#[test]
fn meets() -> Answer {
    assert_eq!(Trace::Meet(MAIN).v(0.0, 5.0)?, Some(10.0));
    assert_eq!(Trace::Meet(MAIN).v(20.0 * FRAC_PI_2, 20.0), Err(Refusal::NotFinite));
    let hole = Meet { turn: Some([0.0, TAU]), ..MAIN };
    assert_eq!(Trace::Meet(hole).v(0.0, 5.0)?, None);
    Ok(())
}

#[test]
fn neutral_radii_and_angles() -> Answer {
    let w = Wave { a: 2.0, b: 3.0, c: 0.0 };
    assert_eq!(w.at(0.0, -0.0), Err(Refusal::NeutralNotPositive));
    assert_eq!(w.at(1_000_000.0, 0.5), Err(Refusal::AngleTooLarge));
    assert!(w.at(524_288.0, 0.5).is_ok());
    Ok(())
}

#[test]
fn the_ends_of_the_range() -> Answer {
    let limit = Vec3::new(1_048_576.0, 0.0, 0.0);
    assert!(A.sweep(limit, UP).is_ok());
    let above = Vec3::new(1_048_576.0_f64.next_up(), 0.0, 0.0);
    assert_eq!(A.sweep(above, UP), Err(Refusal::OutOfRange));
    Ok(())
}

#[test]
fn from_its_own_centre() -> Answer {
    assert_eq!(A.sweep(Vec3::ZERO, RIGHT)?, TAU);
    let mut row = [0.0; ARC_ROW];
    assert_eq!(A.inner_points(Vec3::ZERO, RIGHT, 0.0, &mut row), Err(Refusal::NotFinite));
    let short = &mut row[..ARC_ROW - 1];
    assert_eq!(A.inner_points(Vec3::ZERO, RIGHT, 0.0, short), Err(Refusal::RowTooShort));
    Ok(())
}

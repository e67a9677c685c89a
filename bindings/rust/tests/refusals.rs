//! Every refusal once, and that it leaves boxes, rows and sums as they were.

use std::error::Error;
use std::f64::consts::FRAC_PI_2;

use juniperreef::{
    ARC_ROW, Arc, Bounds, CURVE_ROW, Cone, Curve, Development, Integrals, Meet, Path, ProfileArc,
    Refusal, Revolution, Rolled, Trace, Vec2, Vec3, Wave, per_turn, revolution, segment, unit,
    wall,
};

const X: Vec3 = Vec3::new(1.0, 0.0, 0.0);
const Y: Vec3 = Vec3::new(0.0, 1.0, 0.0);
const Z: Vec3 = Vec3::new(0.0, 0.0, 1.0);
const RIM: Arc = Arc { center: Vec3::ZERO, axis: Z, radius: 1.0 };
const FLAT: Wave = Wave { a: 0.0, b: 1.0, c: 0.0 };

fn piece() -> Rolled {
    let dev = Development { origin: Vec3::ZERO, axis: Z, start: X, neutral: 10.0 };
    Rolled { dev, from: Vec2::new(0.0, 0.0), to: Vec2::new(8.0, 4.0), arc: None, trace: None }
}

/// Along the axis of a pipe whose neutral radius is 48.
fn along(length: f64) -> Rolled {
    let dev = Development { neutral: 48.0, ..piece().dev };
    Rolled { dev, from: Vec2::new(0.0, 0.0), to: Vec2::new(0.0, length), ..piece() }
}

fn spoilt() -> Integrals {
    Integrals { area: f64::INFINITY, ..Integrals::default() }
}

#[test]
fn refusal_1_out_of_range() {
    for x in [f64::NAN, f64::INFINITY, 1_048_577.0] {
        assert_eq!(Vec3::new(x, 0.0, 0.0).dot(X), Err(Refusal::OutOfRange));
        assert_eq!(per_turn(x, 0.1), Err(Refusal::OutOfRange));
    }
}

#[test]
fn refusal_2_neutral_not_positive() {
    let mut w = piece();
    w.dev.neutral = 0.0;
    assert_eq!(w.at(0.5), Err(Refusal::NeutralNotPositive));
    assert_eq!(w.dev.radial(0.0), Err(Refusal::NeutralNotPositive));
    assert_eq!(FLAT.at(0.0, -1.0), Err(Refusal::NeutralNotPositive));
}

#[test]
fn refusal_3_arc_and_trace() {
    let arc = Some(ProfileArc { center: Vec2::new(4.0, 2.0), ccw: true });
    let w = Rolled { arc, trace: Some(Trace::Wave(FLAT)), ..piece() };
    assert_eq!(w.uv_box(), Err(Refusal::ArcAndTrace));
    assert_eq!(w.reversed(), Err(Refusal::ArcAndTrace));
    assert_eq!(Curve::Rolled { piece: w, radius: 10.0 }.arc(), Err(Refusal::ArcAndTrace));
}

#[test]
fn refusal_4_bad_box_or_sums() {
    let mut bounds = Bounds { low: Vec3::new(f64::NAN, 0.0, 0.0), high: Y };
    assert_eq!(RIM.extend_bounds(X, Y, &mut bounds), Err(Refusal::BadBoxOrSums));
    assert!(bounds.low.x.is_nan() && bounds.high == Y);

    let mut sums = spoilt();
    assert_eq!(segment(&mut sums, &RIM, Z, X, Y, Z, X), Err(Refusal::BadBoxOrSums));
    assert_eq!(wall(&mut sums, &piece(), 9.0, 11.0, X), Err(Refusal::BadBoxOrSums));
    assert_eq!(sums, spoilt());
}

#[test]
fn refusal_5_bad_tolerance() {
    assert_eq!(per_turn(5.0, -1.0), Err(Refusal::BadTolerance));
    assert_eq!(piece().polyline(0.0), Err(Refusal::BadTolerance));
    assert_eq!(piece().chords(10.0, -0.1), Err(Refusal::BadTolerance));
}

#[test]
fn refusal_6_row_too_short() {
    let mut row = [7.0; ARC_ROW - 1];
    assert_eq!(RIM.inner_points(X, X, 0.0, &mut row), Err(Refusal::RowTooShort));
    assert_eq!(row, [7.0; ARC_ROW - 1]);

    // A piece of many turns has more points than any arc; its `Vec` is as long as they need.
    let to = Vec2::new(2000.0, 4.0);
    let curve = Curve::Rolled { piece: Rolled { to, ..piece() }, radius: 10.0 };
    assert_eq!(curve.inner_points(X, X, 0.0, &mut row), Err(Refusal::RowTooShort));
    let points = curve.inner_points_vec(X, X, 0.0).unwrap();
    assert_eq!(points.len(), 2037);

    // The most chords that a curve may have, and one number too few for their points.
    let mut row = [7.0; CURVE_ROW];
    let curve = Curve::Rolled { piece: along(19_301.0), radius: 48.0 };
    let short = &mut row[..CURVE_ROW - 1];
    assert_eq!(curve.inner_points(X, X, 0.0, short), Err(Refusal::RowTooShort));
    assert_eq!(row, [7.0; CURVE_ROW]);
    assert_eq!(curve.inner_points(X, X, 0.0, &mut row).map(|row| row.len()), Ok(CURVE_ROW));
    assert_eq!(row[CURVE_ROW - 1], 19_301.0 * (4_095.0 / 4_096.0));
    assert_eq!(curve.inner_points_vec(X, X, 0.0).map(|points| points.len()), Ok(4_095));
}

#[test]
fn refusal_7_piece_on_cone() {
    let cone = Cone { origin: Vec3::ZERO, axis: Z, radius: 10.0, slope: 0.5, convex: true };
    let paths = [Path::Arc(RIM, X, Y), Path::Rolled(piece())];
    let mut sums = Integrals { six_v: 3.0, ..Integrals::default() };
    assert_eq!(revolution(&mut sums, &cone, paths, X), Err(Refusal::PieceOnCone));
    assert_eq!(sums, Integrals { six_v: 3.0, ..Integrals::default() });

    // The path refused is not added, and the face may go on.
    let mut face = Revolution::open(&cone, X).unwrap();
    face.add(&paths[0]).unwrap();
    let before = face.clone();
    assert_eq!(face.add(&paths[1]).err(), Some(Refusal::PieceOnCone));
    assert_eq!(face, before);
}

#[test]
fn refusal_8_angle_too_large() {
    assert_eq!(FLAT.at(1_000_000.0, 0.5), Err(Refusal::AngleTooLarge));
}

#[test]
fn refusal_9_not_finite() {
    assert_eq!(unit(Vec3::ZERO), Err(Refusal::NotFinite));
    assert_eq!(RIM.at(Vec3::ZERO, 1.0), Err(Refusal::NotFinite));
    // An equal tee: the branch touches the main pipe at a quarter turn, where its cut has a corner.
    let origin = Vec3::new(0.0, 0.0, 20.0);
    let main = Meet { origin, axis: X, radius: 10.0, own: 1.0, turn: None };
    assert!(main.point(FRAC_PI_2, 9.0).is_ok());
    let why = main.point(FRAC_PI_2, 10.0).unwrap_err();
    assert_eq!(why, Refusal::NotFinite);
    assert!(why.to_string().contains("only touched"), "{why}");
}

#[test]
fn refusal_10_count_too_large() {
    assert_eq!(FLAT.range(0.0, 1_000_000.0, 1.0), Err(Refusal::CountTooLarge));
    let w = Rolled { to: Vec2::new(1_000_000.0, 0.0), ..piece() };
    assert_eq!(w.quadrature_pieces(), Err(Refusal::CountTooLarge));

    // 64 chords a turn: 4,096 of them, and one more.
    assert_eq!(along(19_301.0).chords(48.0, 0.0), Ok(4_096));
    assert_eq!(along(19_302.0).chords(48.0, 0.0), Err(Refusal::CountTooLarge));
    let mut row = [7.0; CURVE_ROW];
    let curve = Curve::Rolled { piece: along(19_302.0), radius: 48.0 };
    assert_eq!(curve.inner_points(X, X, 0.0, &mut row), Err(Refusal::CountTooLarge));
    assert_eq!(curve.inner_points(X, X, 0.0, &mut []), Err(Refusal::CountTooLarge));
    assert_eq!(row, [7.0; CURVE_ROW]);

    // A piece to integrate over for each 45 degrees: 48 pi/4 of length.
    assert_eq!(along(154_404.0).quadrature_pieces(), Ok(4_096));
    assert_eq!(along(154_416.0).quadrature_pieces(), Err(Refusal::CountTooLarge));
    let mut sums = Integrals { area: 3.0, ..Integrals::default() };
    let pipe = Cone { origin: Vec3::ZERO, axis: Z, radius: 48.0, slope: 0.0, convex: true };
    let paths = |to| [Path::Rolled(along(to))];
    assert_eq!(revolution(&mut sums, &pipe, paths(154_416.0), X), Err(Refusal::CountTooLarge));
    assert_eq!(wall(&mut sums, &along(154_416.0), 48.0, 48.0, X), Err(Refusal::CountTooLarge));
    assert_eq!(sums, Integrals { area: 3.0, ..Integrals::default() });
    assert_eq!(revolution(&mut sums, &pipe, paths(154_404.0), X), Ok(()));
    assert_eq!(wall(&mut sums, &along(154_404.0), 48.0, 48.0, X), Ok(()));

    // A wave of one chord for each unit of 1.25 u.
    let cut = |to| {
        let dev = Development { neutral: 1.0, ..piece().dev };
        let wave = Wave { a: 0.0, b: 0.75, c: 0.0 };
        let (from, to) = (Vec2::new(0.0, 0.0), Vec2::new(to, 0.0));
        Rolled { dev, from, to, arc: None, trace: Some(Trace::Wave(wave)) }
    };
    assert_eq!(cut(3276.75).polyline(0.09375), Ok(4_096));
    assert_eq!(cut(3277.0).polyline(0.09375), Err(Refusal::CountTooLarge));
}

#[test]
fn the_lowest_number_wins() {
    let mut w = piece();
    w.dev.neutral = 0.0;
    w.dev.origin.x = f64::NAN;
    assert_eq!(w.polyline(0.0), Err(Refusal::OutOfRange));
    w.dev.origin.x = 0.0;
    assert_eq!(w.polyline(0.0), Err(Refusal::NeutralNotPositive));
}

#[test]
fn numbers_and_sentences() {
    for (k, refusal) in Refusal::ALL.into_iter().enumerate() {
        assert_eq!(refusal.number(), k as u32 + 1);
        assert_eq!(Refusal::from_number(refusal.number()), Some(refusal));
        let said = refusal.to_string();
        assert!(said.starts_with(&format!("refusal {}: ", k + 1)), "{said}");
        // What is wrong, and what to do about it.
        assert_eq!(said.matches(": ").count(), 2, "{said}");
    }
    for number in [0, 11, 254, 255] {
        assert_eq!(Refusal::from_number(number), None);
    }
    let boxed: Box<dyn Error + Send + Sync> = Refusal::NotFinite.into();
    assert!(boxed.source().is_none());
}

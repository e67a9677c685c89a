//! Rolled sheets and what is cut into them: developments, waves, meets, pieces, as rows of numbers
//! and tags.

use std::f64::consts::{FRAC_PI_2, PI, TAU};

use datum_math::{Rigid, Vec3};

use crate::classes;
use crate::draw::{Draw, SPECIAL};
use crate::track::MOST;

/// Classes of a development's numbers and of those beside it.
#[derive(Clone, Copy)]
pub enum Rolls {
    Pipe,
    Limits,
    Whole,
    Wild,
    Tiny,
    Zeros,
    Refused,
    Every,
}

pub fn v(a: &[f64]) -> Vec3 {
    Vec3::new(a[0], a[1], a[2])
}

pub fn put(i: &mut [f64], p: Vec3) {
    i[..3].copy_from_slice(&p.to_array());
}

/// A unit vector across `a`, up to rounding.
pub fn across(d: &mut Draw, a: Vec3) -> Vec3 {
    loop {
        let e = v(&d.direction());
        let w = e - a * e.dot(a);
        let length = w.dot(w).sqrt();
        if length > 0.1 {
            return w * (1.0 / length);
        }
    }
}

pub fn motion(d: &mut Draw) -> [f64; 12] {
    let (axis, angle) = (v(&d.direction()), d.between(-7.0, 7.0));
    let mut m = Rigid::rotation(axis, angle).numbers();
    m[9..].fill_with(|| d.between(-2000.0, 2000.0));
    m
}

/// A neutral radius in the range of pipes.
pub fn radius(d: &mut Draw) -> f64 {
    if d.below(2) == 0 { d.whole(5, 500) as f64 } else { d.between(5.0, 500.0) }
}

/// A neutral radius at the ends of what is accepted, and where its square leaves the format.
pub fn limit_radius(d: &mut Draw) -> f64 {
    match d.below(6) {
        0 => d.pick(&[5e-324, 1e-323, f64::MIN_POSITIVE, 1.0, 0.5, 0.25, 1_048_576.0, 1_048_575.0]),
        1 => d.subnormal().abs().max(5e-324),
        2 => d.magnitude(-1022, -1000).abs(),
        3 => d.magnitude(-560, -490).abs(),
        4 => d.magnitude(-30, 0).abs(),
        _ => d.magnitude(10, 19).abs(),
    }
}

pub fn development(d: &mut Draw, rolls: Rolls) -> [f64; 10] {
    let mut i = [0.0; 10];
    i[..3].fill_with(|| d.between(-2000.0, 2000.0));
    let axis = v(&d.direction());
    put(&mut i[3..], axis);
    let start = across(d, axis);
    put(&mut i[6..], start);
    i[9] = if matches!(rolls, Rolls::Limits) { limit_radius(d) } else { radius(d) };
    i
}

/// All numbers of a row that begins with a development, for the classes that know no shape; the
/// neutral radius is above 0.
pub fn numbers(d: &mut Draw, i: &mut [f64], rolls: Rolls) {
    match rolls {
        Rolls::Whole => classes::whole(d, i),
        Rolls::Wild => classes::wild(d, i),
        Rolls::Tiny => classes::tiny(d, i),
        Rolls::Zeros => classes::zeros(d, i),
        Rolls::Every => return spoil_or_fill(d, i),
        _ => return,
    }
    i[9] = i[9].abs();
    if i[9] == 0.0 && d.below(8) != 0 {
        i[9] = 1.0;
    }
}

/// Some numbers replaced by any pattern; one row in eight is all patterns.
pub fn spoil_or_fill(d: &mut Draw, i: &mut [f64]) {
    if d.below(8) == 0 {
        return i.fill_with(|| d.pattern());
    }
    classes::spoil(d, i);
}

/// No neutral radius: a zero of either sign, or below it.
pub fn refused_neutral(d: &mut Draw, neutral: &mut f64, rolls: Rolls) {
    if matches!(rolls, Rolls::Refused) {
        *neutral = match d.below(4) {
            0 => d.pick(&[0.0, -0.0, -5e-324, -1_048_576.0]),
            1 => -*neutral,
            2 => -limit_radius(d),
            _ => d.pick(SPECIAL),
        };
    }
}

// --- waves and meets ---

/// A wave of a plane through a pipe of this radius.
pub fn wave(d: &mut Draw, n: f64) -> [f64; 3] {
    let steep = d.between(0.0, 2.0) * n;
    let toward = if d.below(3) == 0 { d.whole(-4, 4) as f64 * FRAC_PI_2 } else { d.between(-PI, PI) };
    let mut w = [d.between(-500.0, 500.0), steep * toward.cos(), steep * toward.sin()];
    if d.below(6) == 0 {
        w[1 + d.below(2) as usize] = d.pick(&[0.0, -0.0]);
    }
    w
}

/// A level direction, or an oblique one, never along z.
fn oblique(d: &mut Draw) -> Vec3 {
    let around = if d.below(3) == 0 { d.whole(-4, 4) as f64 * PI / 4.0 } else { d.between(-PI, PI) };
    let tilt = match d.below(3) {
        0 => 0.0,
        1 => d.pick(&[PI / 6.0, PI / 4.0, PI / 3.0]) * d.sign(),
        _ => d.between(-1.3, 1.3),
    };
    if tilt == 0.0 && d.below(2) == 0 {
        return d_level(d);
    }
    Vec3::new(around.cos() * tilt.cos(), around.sin() * tilt.cos(), tilt.sin())
}

fn d_level(d: &mut Draw) -> Vec3 {
    if d.below(2) == 0 { Vec3::new(d.sign(), 0.0, 0.0) } else { Vec3::new(0.0, d.sign(), 0.0) }
}

/// How far the pipe of radius `n` lies within the cylinder of radius `m`.
#[derive(Clone, Copy, PartialEq)]
pub enum Fit {
    Within,
    /// The outermost generatrix touches, or nearly does, or misses.
    Touching,
    /// As wide as the main pipe, axes crossing.
    Equal,
    /// The axis of the other pipe lies along z, or nearly so.
    Parallel,
}

/// An offset of the axes and the greater radius, so that the pipe of radius `n` fits so.
fn fitted(d: &mut Draw, n: f64, fit: Fit) -> (f64, f64) {
    let offset = if d.below(3) == 0 { 0.0 } else { n * d.between(-0.5, 0.5) };
    match fit {
        Fit::Within => (offset, (n + offset.abs()) * d.between(1.01, 4.0)),
        Fit::Touching => {
            let close = match d.below(4) {
                0 => 1.0,
                1 => 1.0 + d.magnitude(-52, -20),
                2 => 1.0 + d.magnitude(-20, -4),
                _ => d.between(0.3, 1.1),
            };
            (offset, d.near((n + offset.abs()) * close, 2))
        }
        Fit::Equal => (0.0, if d.below(8) == 0 { d.near(n, 2) } else { n }),
        Fit::Parallel => (offset, n * d.between(0.2, 3.0)),
    }
}

fn axis_for(d: &mut Draw, fit: Fit) -> Vec3 {
    match fit {
        Fit::Equal if d.below(4) != 0 => d_level(d),
        Fit::Parallel if d.below(2) == 0 => Vec3::new(d.pick(&[0.0, -0.0]), d.pick(&[0.0, -0.0]), d.sign()),
        Fit::Parallel => {
            let tilt = d.whole(-180, -8);
            Vec3::new(d.magnitude(tilt - 10, tilt), d.magnitude(tilt, tilt + 8), d.sign())
        }
        _ => oblique(d),
    }
}

/// A unit vector across both, or any one.
fn beside(a: Vec3, b: Vec3) -> Vec3 {
    let w = a.cross(b);
    let length = w.dot(w).sqrt();
    if length > 0.0 { w * (1.0 / length) } else { Vec3::new(1.0, 0.0, 0.0) }
}

const Z: Vec3 = Vec3::new(0.0, 0.0, 1.0);

/// The main pipe that a branch of radius `n` meets, without turn: the branch runs along or against
/// z.
pub fn branch(d: &mut Draw, n: f64, fit: Fit) -> [f64; 10] {
    let (offset, main) = fitted(d, n, fit);
    let axis = axis_for(d, fit);
    let own = d.sign();
    let origin = beside(Z, axis) * offset + Z * (d.between(0.0, 1000.0) + main) * own + axis * d.between(-50.0, 50.0);
    let mut m = [0.0; 10];
    put(&mut m, origin);
    put(&mut m[3..], axis);
    m[6] = main;
    m[7] = own;
    m
}

/// The branch whose hole is cut into a main pipe of radius `own`, with turn.
pub fn hole(d: &mut Draw, own: f64, fit: Fit) -> [f64; 10] {
    let branch = own * d.between(0.1, 0.9);
    // The offset is the branch's, so that its outermost generatrix fits as is asked for.
    let (offset, reach) = fitted(d, branch, fit);
    let scale = if fit == Fit::Parallel { 1.0 } else { own / reach };
    let axis = axis_for(d, fit);
    let origin = axis * (-3.0 * own) + beside(Z, axis) * (offset * scale) + Z * d.between(-300.0, 300.0);
    let mut m = [0.0; 10];
    put(&mut m, origin);
    put(&mut m[3..], axis);
    m[6] = branch * scale;
    m[7] = own;
    let from = if d.below(2) == 0 { 0.0 } else { d.between(-PI, PI) };
    let turn = if d.below(3) == 0 { d.between(-TAU, TAU) } else { TAU * d.sign() };
    (m[8], m[9]) = (from, from + turn);
    m
}

// --- pieces: 26 numbers, then the tags of the arc and of the trace ---

pub const PIECE: usize = 28;
const ARC: usize = 26;
const TRACE: usize = 27;

#[derive(Clone, Copy, PartialEq)]
pub enum Shape {
    Straight,
    Arc,
    Wave,
    Branch,
    Hole,
    ByHand,
    Touching,
    EqualTee,
    Parallel,
    ManyTurns,
    Limits,
    Whole,
    Wild,
    Tiny,
    Zeros,
    Refused,
    Every,
}

pub const ALL: &[Shape] = &[
    Shape::Straight,
    Shape::Arc,
    Shape::Wave,
    Shape::Branch,
    Shape::Hole,
    Shape::ByHand,
    Shape::Touching,
    Shape::EqualTee,
    Shape::Parallel,
    Shape::ManyTurns,
    Shape::Limits,
    Shape::Whole,
    Shape::Wild,
    Shape::Tiny,
    Shape::Zeros,
];

/// How many numbers a trace of this kind has.
pub fn trace_numbers(kind: u32) -> usize {
    [0, 3, 8, 10].get(kind as usize).copied().unwrap_or(0)
}

/// Two places along u, within a turn or so.
fn span(d: &mut Draw, i: &mut [f64], n: f64) {
    let from = if d.below(3) == 0 { 0.0 } else { n * d.between(-PI, PI) };
    let turn = match d.below(6) {
        0 => TAU,
        1 => d.whole(1, 8) as f64 * PI / 4.0,
        2 => 0.0,
        _ => d.between(0.0, TAU),
    };
    i[10] = from;
    i[12] = from + n * turn * d.sign();
}

fn straight(d: &mut Draw, i: &mut [f64; PIECE]) {
    let n = i[9];
    span(d, i, n);
    if d.below(6) == 0 {
        i[12] = i[10];
    }
    (i[11], i[13]) = (d.between(-500.0, 500.0), d.between(-500.0, 500.0));
    if d.below(6) == 0 {
        i[13] = i[11];
    }
}

/// An arc in the development: either way round, a full circle, an end off the circle.
fn arc(d: &mut Draw, i: &mut [f64; PIECE]) {
    let (x, y, r) = (d.between(-500.0, 500.0), d.between(-500.0, 500.0), d.between(1.0, 200.0));
    let angle = |d: &mut Draw| if d.below(3) == 0 { d.whole(-8, 8) as f64 * PI / 8.0 } else { d.between(-PI, PI) };
    let (a, b) = (angle(d), angle(d));
    i[10..16].copy_from_slice(&[x + r * a.cos(), y + r * a.sin(), x + r * b.cos(), y + r * b.sin(), x, y]);
    match d.below(8) {
        0 | 1 => (i[12], i[13]) = (i[10], i[11]),
        2 => (i[12], i[13]) = (d.between(-500.0, 500.0), d.between(-500.0, 500.0)),
        3 => (i[12], i[13]) = (d.near(i[10], 1), d.near(i[11], 1)),
        _ => {}
    }
    i[ARC] = d.whole(1, 2) as f64;
}

fn with_wave(d: &mut Draw, i: &mut [f64; PIECE]) {
    let n = i[9];
    straight(d, i);
    span(d, i, n);
    i[16..19].copy_from_slice(&wave(d, n));
    i[TRACE] = 1.0;
}

fn with_branch(d: &mut Draw, i: &mut [f64; PIECE], fit: Fit) {
    let n = i[9];
    straight(d, i);
    span(d, i, n);
    i[16..26].copy_from_slice(&branch(d, n, fit));
    if fit == Fit::Equal && d.below(2) == 0 {
        // Where the tangent generatrices are not reached.
        let middle = if i[19] == 0.0 { 0.0 } else { FRAC_PI_2 };
        (i[10], i[12]) = (n * (middle + d.between(-1.5, 1.5)), n * (middle + d.between(-1.5, 1.5)));
    }
    i[TRACE] = 2.0;
}

fn with_hole(d: &mut Draw, i: &mut [f64; PIECE], fit: Fit) {
    let n = i[9];
    straight(d, i);
    let own = if d.below(3) == 0 { n } else { n + d.between(0.25, 10.0) };
    i[16..26].copy_from_slice(&hole(d, own, fit));
    // Near where the branch enters, as a sketch would have it.
    i[10] = n * ((-i[20]).atan2(-i[19]) + d.between(-1.0, 1.0) + d.whole(-1, 1) as f64 * TAU);
    i[TRACE] = 3.0;
}

fn any_trace(d: &mut Draw, i: &mut [f64; PIECE], fit: Fit) {
    if d.below(2) == 0 { with_branch(d, i, fit) } else { with_hole(d, i, fit) }
}

/// Waves with about as many turning points as are taken, to both sides of the limit, and far more.
fn many_turns(d: &mut Draw, i: &mut [f64; PIECE]) {
    i[9] = if d.below(2) == 0 { d.whole(1, 60) as f64 } else { d.magnitude(-12, 5).abs() };
    let n = i[9];
    straight(d, i);
    i[16..19].copy_from_slice(&wave(d, n));
    let turns = match d.below(8) {
        0 => d.between(0.0, 100.0),
        1 => d.between(4000.0, 5000.0),
        2 => d.between(4098.0, 20_000.0),
        _ => 4096.0 + d.whole(-2, 2) as f64 + if d.below(2) == 0 { 0.0 } else { d.between(-0.6, 0.6) },
    };
    // Such a first one that a turning point lies at an end, or near it.
    let first = i[18].atan2(i[17]) * n;
    let low = match d.below(3) {
        0 => first + PI * n * d.whole(-5000, 5) as f64,
        1 => first - d.between(0.0, 0.01) * n,
        _ => -n * turns * PI * d.fraction(),
    };
    let low = d.near(low, 3);
    (i[10], i[12]) = (low, low + turns * PI * n);
    if d.below(2) == 0 {
        i.swap(10, 12);
    }
    for k in [10, 12] {
        i[k] = i[k].clamp(-1_048_576.0, 1_048_576.0);
    }
    i[TRACE] = 1.0;
}

/// Document 01's cases, and those beside them.
fn by_hand(d: &mut Draw, i: &mut [f64; PIECE]) {
    i.fill(0.0);
    (i[5], i[6], i[9]) = (1.0, 1.0, 10.0);
    (i[12], i[13]) = (8.0, 4.0);
    match d.below(5) {
        0 => {}
        1 => {
            i[10..16].copy_from_slice(&[5.0, 0.0, 0.0, 5.0, 0.0, 0.0]);
            i[ARC] = d.whole(1, 2) as f64;
        }
        2 => {
            i[16] = d.pick(&[0.0, 2.0]);
            i[17] = d.pick(&[0.0, 3.0]);
            i[TRACE] = 1.0;
        }
        3 => {
            i[9] = d.pick(&[5.0, 20.0, 10.0]);
            i[12] = d.pick(&[8.0, 20.0 * FRAC_PI_2, 10.0 * FRAC_PI_2, 31.0]);
            i[16..24].copy_from_slice(&[0.0, 0.0, 20.0, 1.0, 0.0, 0.0, 10.0, 1.0]);
            i[TRACE] = 2.0;
        }
        _ => {
            i[16..26].copy_from_slice(&[20.0, 0.0, 0.0, -1.0, 0.0, 0.0, 5.0, 10.0, 0.0, TAU]);
            i[TRACE] = 3.0;
        }
    }
    if d.below(4) == 0 {
        (i[12], i[13]) = (i[10], i[11]);
    }
}

/// Any of the realistic shapes.
fn any_shape(d: &mut Draw, i: &mut [f64; PIECE]) {
    match d.below(6) {
        0 => straight(d, i),
        1 => arc(d, i),
        2 => with_wave(d, i),
        3 => with_branch(d, i, Fit::Within),
        4 => with_hole(d, i, Fit::Within),
        _ => any_trace(d, i, Fit::Touching),
    }
}

/// A realistic shape on a neutral radius at the ends of what is accepted, its angles at their
/// limit.
fn at_limits(d: &mut Draw, i: &mut [f64; PIECE]) {
    any_shape(d, i);
    if d.below(3) == 0 {
        // Scaled as a whole: it fits as before.
        let scale = limit_radius(d) / i[9];
        let lengths: &[usize] = &[0, 1, 2, 9, 10, 11, 12, 13, 14, 15, 16, 17, 18, 22];
        lengths.iter().for_each(|k| i[*k] *= scale);
        // A wave's three numbers are all lengths; of a meet 19 to 21 is the axis, and `own` a
        // length where there is a turn.
        if i[TRACE] == 3.0 {
            i[23] *= scale;
        }
    } else {
        i[9] = limit_radius(d);
    }
    // Beyond the limit at one end, while the quotient of the whole length may leave the format.
    let far = i[9] * d.pick(&[1_048_576.0, 1.0, 100_000.0, 3_000_000.0]);
    let far = d.near(far, 3);
    if far.abs() <= 1_048_576.0 && d.below(2) == 0 {
        i[if d.below(2) == 0 { 10 } else { 12 }] = far * d.sign();
    }
    if d.below(8) == 0 {
        // About as many pieces or chords as are accepted.
        let most = i[9] * MOST * d.pick(&[PI / 4.0, TAU / 12.0, TAU / 64.0]) * d.between(0.999, 1.001);
        (i[10], i[11], i[13]) = (0.0, 0.0, 0.0);
        i[12] = d.near(most, 2);
    }
    for k in [24, 25] {
        if d.below(16) == 0 {
            i[k] = d.near(1_048_576.0, 1).min(1_048_576.0) * d.sign();
        }
    }
}

/// Tags for numbers of no shape: an arc or a trace, seldom both.
fn any_tags(d: &mut Draw, i: &mut [f64; PIECE]) {
    match d.below(16) {
        0 => (i[ARC], i[TRACE]) = (d.whole(0, 2) as f64, d.whole(0, 3) as f64),
        1..=3 => (i[ARC], i[TRACE]) = (d.whole(0, 2) as f64, 0.0),
        _ => (i[ARC], i[TRACE]) = (0.0, d.whole(1, 3) as f64),
    }
}

/// No neutral radius, an arc with a trace, tags that nobody knows, and more of these at once.
fn refused(d: &mut Draw, i: &mut [f64; PIECE]) {
    any_shape(d, i);
    for _ in 0..=d.below(3) {
        match d.below(4) {
            0 => refused_neutral(d, &mut i[9], Rolls::Refused),
            1 => (i[ARC], i[TRACE]) = (d.whole(1, 2) as f64, d.whole(1, 3) as f64),
            2 if d.below(2) == 0 => i[if d.below(2) == 0 { ARC } else { TRACE }] = unknown_tag(d),
            _ => {
                let k = d.below(26) as usize;
                i[k] = d.pick(SPECIAL);
            }
        }
    }
}

pub fn unknown_tag(d: &mut Draw) -> f64 {
    d.pick(&[4.0, 5.0, 255.0, 256.0, 4_294_967_295.0, 2_147_483_648.0])
}

/// The numbers that the tags do not use hold anything: nobody reads them.
fn junk(d: &mut Draw, i: &mut [f64; PIECE]) {
    let used = 16 + trace_numbers(i[TRACE] as u32);
    for k in if i[ARC] == 0.0 { 14..16 } else { 0..0 }.chain(used..26) {
        i[k] = if d.below(2) == 0 { d.pick(SPECIAL) } else { d.pattern() };
    }
}

pub fn piece(d: &mut Draw, shape: Shape) -> [f64; PIECE] {
    let mut i = [0.0; PIECE];
    i[..10].copy_from_slice(&development(d, Rolls::Pipe));
    let free = |d: &mut Draw, i: &mut [f64; PIECE], rolls| {
        any_tags(d, i);
        numbers(d, &mut i[..26], rolls);
    };
    match shape {
        Shape::Straight => straight(d, &mut i),
        Shape::Arc => arc(d, &mut i),
        Shape::Wave => with_wave(d, &mut i),
        Shape::Branch => with_branch(d, &mut i, Fit::Within),
        Shape::Hole => with_hole(d, &mut i, Fit::Within),
        Shape::ByHand => by_hand(d, &mut i),
        Shape::Touching => any_trace(d, &mut i, Fit::Touching),
        Shape::EqualTee => any_trace(d, &mut i, Fit::Equal),
        Shape::Parallel => any_trace(d, &mut i, Fit::Parallel),
        Shape::ManyTurns => many_turns(d, &mut i),
        Shape::Limits => at_limits(d, &mut i),
        Shape::Whole => free(d, &mut i, Rolls::Whole),
        Shape::Wild => free(d, &mut i, Rolls::Wild),
        Shape::Tiny => free(d, &mut i, Rolls::Tiny),
        Shape::Zeros => free(d, &mut i, Rolls::Zeros),
        Shape::Refused => refused(d, &mut i),
        Shape::Every => {
            if d.below(2) == 0 { any_shape(d, &mut i) } else { free(d, &mut i, Rolls::Wild) }
            spoil_or_fill(d, &mut i[..26]);
        }
    }
    junk(d, &mut i);
    i
}

/// The classes of an entry whose inputs `$draw` draws for a shape, or for a case that holds one,
/// and more classes; the first five are timed.
macro_rules! shapes {
    ($draw:ident $(, $case:path)? $(; $more:expr)*) => {{
        use crate::shapes::Shape;
        const CLASSES: &[crate::entry::Class] = &[
            ("straight cuts of pipes", |d, i| $draw(d, i, $($case)?(Shape::Straight))),
            ("arcs of cuts", |d, i| $draw(d, i, $($case)?(Shape::Arc))),
            ("waves", |d, i| $draw(d, i, $($case)?(Shape::Wave))),
            ("branches on a main", |d, i| $draw(d, i, $($case)?(Shape::Branch))),
            ("holes for a branch", |d, i| $draw(d, i, $($case)?(Shape::Hole))),
            ("worked out by hand", |d, i| $draw(d, i, $($case)?(Shape::ByHand))),
            ("meets that touch or miss", |d, i| $draw(d, i, $($case)?(Shape::Touching))),
            ("equal tees", |d, i| $draw(d, i, $($case)?(Shape::EqualTee))),
            ("axes along z", |d, i| $draw(d, i, $($case)?(Shape::Parallel))),
            ("waves of many turns", |d, i| $draw(d, i, $($case)?(Shape::ManyTurns))),
            ("neutral radii and angles at their limits", |d, i| $draw(d, i, $($case)?(Shape::Limits))),
            ("whole numbers", |d, i| $draw(d, i, $($case)?(Shape::Whole))),
            ("wild", |d, i| $draw(d, i, $($case)?(Shape::Wild))),
            ("tiny and subnormal", |d, i| $draw(d, i, $($case)?(Shape::Tiny))),
            ("signed zeros", |d, i| $draw(d, i, $($case)?(Shape::Zeros))),
            ("refused radii, traces and tags", |d, i| $draw(d, i, $($case)?(Shape::Refused))),
            ("every bit pattern", |d, i| $draw(d, i, $($case)?(Shape::Every))),
            $($more),*
        ];
        CLASSES
    }};
}
pub(crate) use shapes;
pub const TIMED: usize = 5;

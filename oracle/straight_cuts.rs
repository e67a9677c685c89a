//! How far outside its box a straight piece's point can lie: a search for the worst case, over
//! curve.rs's functions and the port's.
//!
//! Distances are whole numbers of units of 2^-1074 mm, of which every f64 is one, so that nothing is
//! rounded on the way.

use crate::classes;
use crate::compare::all_alike;
use crate::draw::Draw;
use crate::entry::{Entry, UNTOUCHED};
use crate::pieces;
use crate::shapes::{self, PIECE, Rolls};

const LIMIT: f64 = 1_048_576.0;

// --- distances ---

/// A whole number below 2^1152, the highest 64 bits first.
type Whole = [u64; 18];

const fn power(k: usize) -> Whole {
    let mut n = [0; 18];
    n[17 - k / 64] = 1 << (k % 64);
    n
}

/// How far out a point may lie by what is proved: 2^-33 mm, a quarter of the guard.
const LEAST_GUARD: Whole = power(1074 - 33);
/// What a guard widens by, where it works in f64: 2^-31 mm.
const GUARD: f64 = 1.0 / (1u64 << 31) as f64;
/// Added to every number, so that none is below 0.
const MIDDLE: Whole = power(1100);

fn plus(a: &Whole, b: &Whole) -> Whole {
    let (mut sum, mut carry) = ([0; 18], false);
    for k in (0..18).rev() {
        let (s, c) = a[k].overflowing_add(b[k]);
        let (s, d) = s.overflowing_add(carry as u64);
        (sum[k], carry) = (s, c | d);
    }
    sum
}

/// a less b, which is no larger.
fn less(a: &Whole, b: &Whole) -> Whole {
    let (mut rest, mut borrow) = ([0; 18], false);
    for k in (0..18).rev() {
        let (r, c) = a[k].overflowing_sub(b[k]);
        let (r, d) = r.overflowing_sub(borrow as u64);
        (rest[k], borrow) = (r, c | d);
    }
    assert!(!borrow);
    rest
}

/// The units in x, and `MIDDLE`.
fn scaled(x: f64) -> Whole {
    let field = (x.to_bits() >> 52 & 0x7ff) as usize;
    let tail = x.to_bits() & ((1 << 52) - 1);
    let (m, shift) = if field == 0 { (tail, 0) } else { (tail | 1 << 52, field - 1) };
    let mut n = [0; 18];
    let wide = (m as u128) << (shift % 64);
    n[17 - shift / 64] = wide as u64;
    n[16 - shift / 64] = (wide >> 64) as u64;
    if x.is_sign_negative() { less(&MIDDLE, &n) } else { plus(&MIDDLE, &n) }
}

/// How far x lies outside the numbers from low to high.
fn outside(low: f64, x: f64, high: f64) -> Whole {
    let (low, x, high) = (scaled(low), scaled(x), scaled(high));
    if x < low {
        less(&low, &x)
    } else if high < x {
        less(&x, &high)
    } else {
        [0; 18]
    }
}

/// A distance as a multiple of 2^-31 mm, to read.
fn of_guard(w: &Whole) -> f64 {
    (0..18).map(|k| w[k] as f64 * 2f64.powi(64 * (17 - k as i32) - 1043)).sum()
}

// --- pieces ---

fn near_limit(d: &mut Draw) -> f64 {
    d.near(LIMIT, 16).min(LIMIT)
}

/// Where a coordinate begins and where it ends.
type Ends = (&'static str, fn(&mut Draw) -> [f64; 2]);

const ENDS: &[Ends] = &[
    ("opposite ends near the limit", |d| {
        let s = d.sign();
        [-s * near_limit(d), s * near_limit(d)]
    }),
    ("opposite ends, one near the limit", |d| {
        let (s, x) = (d.sign(), d.between(0.0, LIMIT));
        let ends = [-s * near_limit(d), s * x];
        if d.below(2) == 0 { ends } else { [ends[1], ends[0]] }
    }),
    ("one end near the limit, one of any size", |d| {
        let ends = [d.sign() * near_limit(d), d.magnitude(-1022, 19)];
        if d.below(2) == 0 { ends } else { [ends[1], ends[0]] }
    }),
    ("both near powers of two", |d| {
        [(); 2].map(|()| {
            let power = 2f64.powi(d.whole(-60, 20) as i32);
            d.sign() * d.near(power, 3).min(LIMIT)
        })
    }),
    ("large, of every bit", |d| [(); 2].map(|()| d.magnitude(15, 19))),
    ("lengths of cuts", |d| [(); 2].map(|()| d.between(-3000.0, 3000.0))),
    ("wild", |d| [(); 2].map(|()| d.magnitude(-1022, 19))),
    ("tiny, subnormal and zeros", |d| {
        let mut ends = [0.0; 2];
        classes::tiny(d, &mut ends);
        ends
    }),
];

/// A part of the way: of every size, and near the ends.
fn part(d: &mut Draw) -> f64 {
    match d.below(6) {
        0 => d.whole(0, 64) as f64 / 64.0,
        1 => d.magnitude(-1022, -1).abs(),
        2 => 1.0 - d.magnitude(-53, -1).abs(),
        3 => d.subnormal().abs(),
        _ => d.fraction(),
    }
}

const BELOW_ONE: f64 = 1.0 - f64::EPSILON / 2.0;

/// The port's answer, where it is that of curve.rs.
fn answer(e: &Entry, input: &[f64]) -> Result<[f64; 4], String> {
    let (mut port, mut rust) = ([UNTOUCHED; 4], [UNTOUCHED; 4]);
    let refusal = (e.port)(input, &mut port);
    (e.rust)(input, &mut rust);
    match refusal {
        0 if all_alike(&port, &rust, e.zeros_alike) => Ok(port),
        0 => Err(format!("{}: port {port:?}, the Rust {rust:?}", e.name)),
        number => Err(format!("{}: refused by {number}", e.name)),
    }
}

/// How far the point at t lies outside the piece's box, by the coordinate that lies farther out. A
/// guard that widens the box in f64 must let it pass.
fn farthest(box_of: &Entry, at: &Entry, input: &mut [f64], t: f64) -> Result<Whole, String> {
    let [u0, u1, v0, v1] = answer(box_of, &input[..PIECE])?;
    input[PIECE] = t;
    let [u, v, ..] = answer(at, input)?;
    let passes = |low: f64, x: f64, high: f64| low - GUARD <= x && x <= high + GUARD;
    if !(passes(u0, u, u1) && passes(v0, v, v1)) {
        return Err(format!("({u:?}, {v:?}) does not pass the guard in f64"));
    }
    Ok(outside(u0, u, u1).max(outside(v0, v, v1)))
}

/// Whether every point lies as near to its box as is proved. Prints of each class how many pieces
/// have a point outside the box, and how far the farthest lies outside.
pub fn straight_cuts(count: u64, seed: u64) -> bool {
    let named = |name| pieces::ENTRIES.iter().find(|e| e.name == name).unwrap();
    let (box_of, at) = (named("piece_uv_box"), named("piece_at"));
    let each = count.div_ceil(ENDS.len() as u64);
    let (mut worst, mut worst_case, mut wrong) = ([0; 18], [0.0; 5], 0u64);
    println!("{:<42} {:>9} {:>9}  {}", "ends along a coordinate", "pieces", "outside", "farthest, in 2^-31 mm");
    for (k, (class, ends)) in ENDS.iter().enumerate() {
        let mut d = Draw::new(seed.wrapping_mul(0x1_0000_0000_01b3).wrapping_add(k as u64));
        let (mut out, mut most) = (0u64, [0; 18]);
        for _ in 0..each {
            let mut input = [0.0; PIECE + 1];
            input[..10].copy_from_slice(&shapes::development(&mut d, Rolls::Pipe));
            let (u, v) = (ends(&mut d), ends(&mut d));
            input[10..14].copy_from_slice(&[u[0], v[0], u[1], v[1]]);
            let mut piece = [0; 18];
            for t in [0.0, -0.0, 1.0, BELOW_ONE, part(&mut d)] {
                match farthest(box_of, at, &mut input, t) {
                    Ok(w) => {
                        piece = piece.max(w);
                        if w > worst {
                            (worst, worst_case) = (w, [u[0], v[0], u[1], v[1], t]);
                        }
                    }
                    Err(why) => {
                        wrong += 1;
                        if wrong == 1 {
                            println!("from {:?} to {:?} at {t:e}: {why}", [u[0], v[0]], [u[1], v[1]]);
                        }
                    }
                }
            }
            most = most.max(piece);
            out += (piece > [0; 18]) as u64;
        }
        println!("{class:<42} {each:>9} {out:>9}  {:e}", of_guard(&most));
    }
    let [fu, fv, tu, tv, t] = worst_case;
    println!("the farthest: from ({fu:?}, {fv:?}) to ({tu:?}, {tv:?}) at {t:?}");
    let well = wrong == 0 && worst <= LEAST_GUARD;
    println!(
        "seed {seed}: {} straight pieces, the farthest point {} of 2^-31 mm outside its box: {}",
        each * ENDS.len() as u64,
        of_guard(&worst),
        if well { "as near as is proved".into() } else { format!("beyond 2^-33, or wrong in {wrong} calls") }
    );
    well
}

//! Every call of the crate beside the Rust, on inputs that the oracle draws, bit by bit.
//!
//! `oracle/build` makes the oracle from the Rust's own source. Where that can't be had, one line
//! says so and nothing is compared. `JUNIPERREEF_CALLS` sets the calls of each entry, else 100,000;
//! words on the command line choose the entries whose names hold one of them.

use std::io::{self, BufReader, Read};
use std::path::{Path as File, PathBuf};
use std::process::{Command, ExitCode, Stdio};

use juniperreef::*;

/// What an entry gives on flat inputs: the numbers that come out, or the answer in their place.
type Call = fn(&[f64]) -> Result<Vec<f64>, u32>;

/// There is no such thing; and a tag that nobody knows.
const NONE: u32 = 255;
const UNKNOWN: u32 = 254;

/// The oracle's mark for a number that a call does not write.
const UNTOUCHED: f64 = f64::from_bits(0x8123_4567_89ab_cdef);

fn main() -> ExitCode {
    let words: Vec<String> = std::env::args().skip(1).filter(|w| !w.starts_with('-')).collect();
    let Some(driver) = oracle() else {
        println!("against_the_rust: nothing was compared with the Rust");
        return ExitCode::SUCCESS;
    };
    let chosen = |name: &str| words.is_empty() || words.iter().any(|w| name.contains(w.as_str()));
    let mut same = true;
    println!(
        "{:<24} {:>9} {:>9} {:>9} {:>9} {:>9}",
        "entry", "equal", "refused", "none", "left out", "different"
    );
    for (name, call) in CALLS.iter().filter(|(name, _)| chosen(name)) {
        let found = compare(&driver, name, *call).expect("the oracle's answers");
        println!("{name:<24} {found}");
        same &= found.different == 0;
    }
    if same { ExitCode::SUCCESS } else { ExitCode::FAILURE }
}

/// The oracle's program, or nothing where it can't be built here; then it said why.
fn oracle() -> Option<PathBuf> {
    let build = File::new(env!("CARGO_MANIFEST_DIR")).join("../../oracle/build");
    if !build.is_file() {
        println!("against_the_rust: no oracle beside the crate ({})", build.display());
        return None;
    }
    let made = Command::new(&build).args(["--library", "none"]).stderr(Stdio::inherit()).output();
    let made = made.expect("oracle/build");
    match made.status.code() {
        Some(77) => None,
        Some(0) => Some(String::from_utf8(made.stdout).expect("a path").trim_end().into()),
        _ => panic!("oracle/build failed"),
    }
}

/// Calls by what came of them. Refused and none are alike on both sides; left out are tags that no
/// value of this crate has.
#[derive(Default)]
struct Found {
    equal: u64,
    refused: u64,
    none: u64,
    left_out: u64,
    different: u64,
}

impl Found {
    fn count(&mut self, due: Result<&[f64], u32>, given: &Result<Vec<f64>, u32>) {
        *match (due, given) {
            (Err(NONE), Err(NONE)) => &mut self.none,
            (Err(a), Err(b)) if a == *b => &mut self.refused,
            (Ok(a), Ok(b)) if same_bits(a, b) => &mut self.equal,
            _ => &mut self.different,
        } += 1;
    }
}

impl std::fmt::Display for Found {
    fn fmt(&self, f: &mut std::fmt::Formatter<'_>) -> std::fmt::Result {
        let Self { equal, refused, none, left_out, different } = self;
        write!(f, "{equal:>9} {refused:>9} {none:>9} {left_out:>9} {different:>9}")
    }
}

fn compare(driver: &File, name: &str, call: Call) -> io::Result<Found> {
    let count = std::env::var("JUNIPERREEF_CALLS").unwrap_or("100000".into());
    let mut child = Command::new(driver)
        .args(["answers", "--only", name, "--count", &count])
        .stdout(Stdio::piped())
        .spawn()?;
    let mut answers = BufReader::with_capacity(1 << 16, child.stdout.take().expect("a pipe"));
    let takes = words(&mut answers, 1)?.expect("the count of inputs")[0] as usize;
    let mut found = Found::default();
    while let Some(head) = words(&mut answers, 2)? {
        let numbers = words(&mut answers, takes + head[1] as usize)?.expect("a whole call");
        let numbers: Vec<f64> = numbers.into_iter().map(f64::from_bits).collect();
        let (input, out) = numbers.split_at(takes);
        let due = if head[0] == 0 { Ok(out) } else { Err(head[0] as u32) };
        if due == Err(UNKNOWN) {
            found.left_out += 1;
            continue;
        }
        let (before, given) = (found.different, call(input));
        found.count(due, &given);
        if before == 0 && found.different == 1 {
            println!("{name} of {input:?}\n  due   {due:?}\n  given {given:?}");
        }
    }
    assert!(child.wait()?.success(), "the oracle failed on {name}");
    assert!(found.equal > 0, "no call of {name} was accepted");
    Ok(found)
}

/// So many words, or nothing at the end of the input.
fn words(from: &mut impl Read, count: usize) -> io::Result<Option<Vec<u64>>> {
    let mut bytes = vec![0; 8 * count];
    match from.read_exact(&mut bytes) {
        Err(why) if why.kind() == io::ErrorKind::UnexpectedEof => return Ok(None),
        other => other?,
    }
    let word = |b: &[u8]| u64::from_le_bytes(b.try_into().expect("eight bytes"));
    Ok(Some(bytes.chunks_exact(8).map(word).collect()))
}

/// Bit by bit, where something was due.
fn same_bits(due: &[f64], given: &[f64]) -> bool {
    let alike =
        |(a, b): (&f64, &f64)| a.to_bits() == UNTOUCHED.to_bits() || a.to_bits() == b.to_bits();
    due.len() == given.len() && due.iter().zip(given).all(alike)
}

// --- values from flat numbers ---

fn v2(i: &[f64], k: usize) -> Vec2 {
    Vec2::new(i[k], i[k + 1])
}

fn v3(i: &[f64], k: usize) -> Vec3 {
    Vec3::new(i[k], i[k + 1], i[k + 2])
}

fn arc(i: &[f64], k: usize) -> Arc {
    Arc { center: v3(i, k), axis: v3(i, k + 3), radius: i[k + 6] }
}

fn motion(i: &[f64], k: usize) -> Rigid {
    <[f64; 12]>::try_from(&i[k..k + 12]).expect("twelve numbers").into()
}

fn dev(i: &[f64]) -> Development {
    Development { origin: v3(i, 0), axis: v3(i, 3), start: v3(i, 6), neutral: i[9] }
}

fn wave(i: &[f64]) -> Wave {
    Wave { a: i[0], b: i[1], c: i[2] }
}

fn meet(i: &[f64], with_turn: bool) -> Meet {
    let turn = with_turn.then_some([i[8], i[9]]);
    Meet { origin: v3(i, 0), axis: v3(i, 3), radius: i[6], own: i[7], turn }
}

fn trace(i: &[f64], tag: f64) -> Option<Trace> {
    match tag as u32 {
        0 => None,
        1 => Some(Trace::Wave(wave(i))),
        kind => Some(Trace::Meet(meet(i, kind == 3))),
    }
}

fn piece(i: &[f64], tags: &[f64]) -> Rolled {
    let arc = (tags[0] != 0.0).then_some(ProfileArc { center: v2(i, 14), ccw: tags[0] == 1.0 });
    let trace = trace(&i[16..], tags[1]);
    Rolled { dev: dev(i), from: v2(i, 10), to: v2(i, 12), arc, trace }
}

/// A piece and its tags side by side.
fn cut(i: &[f64]) -> Rolled {
    piece(i, &i[26..])
}

fn curve(i: &[f64]) -> Curve {
    match i[27] {
        0.0 => Curve::Arc(arc(i, 0)),
        _ => Curve::Rolled { piece: piece(i, &i[28..]), radius: i[26] },
    }
}

fn cone(i: &[f64], convex: bool) -> Cone {
    Cone { origin: v3(i, 0), axis: v3(i, 3), radius: i[6], slope: i[7], convex }
}

fn surface(i: &[f64]) -> Surface {
    let (origin, axis, radius, convex) = (v3(i, 0), v3(i, 3), i[6], i[27] > 0.0);
    match i[26] as u32 {
        0 => Surface::Plane(Plane { origin, normal: axis }),
        1 => Surface::Cylinder(Cylinder { origin, axis, radius, convex }),
        2 => Surface::Cone(cone(i, convex)),
        _ => Surface::Wall(piece(i, &i[28..])),
    }
}

fn axes(i: &[f64]) -> Frame {
    Frame { axis: v3(i, 0), origin: v3(i, 3), e1: v3(i, 6), e2: v3(i, 9) }
}

fn sums(i: &[f64], k: usize) -> Integrals {
    Integrals { six_v: i[k], moment: v3(i, k + 1), area: i[k + 4], area_vector: v3(i, k + 5) }
}

fn bounds(i: &[f64], k: usize) -> Bounds {
    Bounds { low: v3(i, k), high: v3(i, k + 3) }
}

// --- and back ---

trait Flat {
    fn flat(&self) -> Vec<f64>;
}

impl Flat for f64 {
    fn flat(&self) -> Vec<f64> {
        vec![*self]
    }
}

impl Flat for usize {
    fn flat(&self) -> Vec<f64> {
        vec![*self as f64]
    }
}

impl Flat for Vec2 {
    fn flat(&self) -> Vec<f64> {
        vec![self.x, self.y]
    }
}

impl Flat for Vec3 {
    fn flat(&self) -> Vec<f64> {
        vec![self.x, self.y, self.z]
    }
}

impl<T: Flat, const N: usize> Flat for [T; N] {
    fn flat(&self) -> Vec<f64> {
        self.iter().flat_map(T::flat).collect()
    }
}

impl<A: Flat, B: Flat> Flat for (A, B) {
    fn flat(&self) -> Vec<f64> {
        [self.0.flat(), self.1.flat()].concat()
    }
}

impl<A: Flat, B: Flat, C: Flat> Flat for (A, B, C) {
    fn flat(&self) -> Vec<f64> {
        [self.0.flat(), self.1.flat(), self.2.flat()].concat()
    }
}

impl Flat for Rigid {
    fn flat(&self) -> Vec<f64> {
        <[f64; 12]>::from(*self).to_vec()
    }
}

impl Flat for Arc {
    fn flat(&self) -> Vec<f64> {
        (self.center, self.axis, self.radius).flat()
    }
}

impl Flat for Development {
    fn flat(&self) -> Vec<f64> {
        ([self.origin, self.axis, self.start], self.neutral).flat()
    }
}

impl Flat for Bounds {
    fn flat(&self) -> Vec<f64> {
        [self.low, self.high].flat()
    }
}

impl Flat for Frame {
    fn flat(&self) -> Vec<f64> {
        [self.axis, self.origin, self.e1, self.e2].flat()
    }
}

impl Flat for Integrals {
    fn flat(&self) -> Vec<f64> {
        ((self.six_v, self.moment), (self.area, self.area_vector)).flat()
    }
}

impl Flat for Cone {
    fn flat(&self) -> Vec<f64> {
        ([self.origin, self.axis], [self.radius, self.slope]).flat()
    }
}

impl Flat for Plane {
    fn flat(&self) -> Vec<f64> {
        [self.origin, self.normal].flat()
    }
}

/// A piece has 26 numbers and two tags.
impl Flat for Rolled {
    fn flat(&self) -> Vec<f64> {
        let center = self.arc.map_or(Vec2::default(), |a| a.center);
        let mut out = (self.dev, [self.from, self.to, center]).flat();
        let kind = match self.trace {
            None => 0.0,
            Some(Trace::Wave(w)) => {
                out.extend([w.a, w.b, w.c]);
                1.0
            }
            Some(Trace::Meet(m)) => {
                out.extend(([m.origin, m.axis], [m.radius, m.own]).flat());
                out.extend(m.turn.unwrap_or_default());
                if m.turn.is_none() { 2.0 } else { 3.0 }
            }
        };
        out.resize(26, 0.0);
        out.push(self.arc.map_or(0.0, |a| if a.ccw { 1.0 } else { 2.0 }));
        out.push(kind);
        out
    }
}

/// A curve has 27 numbers and two tags.
impl Flat for Curve {
    fn flat(&self) -> Vec<f64> {
        match self {
            Self::Arc(a) => {
                let mut out = a.flat();
                out.resize(29, 0.0);
                out
            }
            Self::Rolled { piece, radius } => {
                let mut out = piece.flat();
                out.insert(26, *radius);
                out
            }
        }
    }
}

/// A surface has 26 numbers.
impl Flat for Surface {
    fn flat(&self) -> Vec<f64> {
        let mut out = match self {
            Self::Plane(p) => p.flat(),
            Self::Cylinder(c) => ([c.origin, c.axis], c.radius).flat(),
            Self::Cone(c) => c.flat(),
            Self::Wall(w) => w.flat(),
        };
        out.resize(26, 0.0);
        out
    }
}

// --- answers ---

fn answer<T: Flat>(given: Result<T, Refusal>) -> Result<Vec<f64>, u32> {
    given.map(|value| value.flat()).map_err(Refusal::number)
}

/// None is an answer of its own.
fn found<T: Flat>(given: Result<Option<T>, Refusal>) -> Result<Vec<f64>, u32> {
    given.map_err(Refusal::number)?.map(|value| value.flat()).ok_or(NONE)
}

/// A call on something lent, which a refusal leaves as it was.
fn lent<T: Flat, R>(
    mut value: T,
    call: impl FnOnce(&mut T) -> Result<R, Refusal>,
) -> Result<Vec<f64>, u32> {
    let before = value.flat();
    let given = call(&mut value).map(|_| ()).map_err(Refusal::number);
    assert!(given.is_ok() || same_bits(&before, &value.flat()), "changed by a refused call");
    given.map(|()| value.flat())
}

/// A call on a lent row of so many numbers, and the same as a `Vec`.
fn row(
    length: f64,
    call: impl FnOnce(&mut [f64]) -> Result<usize, Refusal>,
    as_vec: Result<Vec<Vec3>, Refusal>,
) -> Result<Vec<f64>, u32> {
    let mut row = vec![UNTOUCHED; length as usize];
    let given = call(&mut row).map_err(Refusal::number);
    let rest = &row[*given.as_ref().unwrap_or(&0)..];
    assert!(rest.iter().all(|x| x.to_bits() == UNTOUCHED.to_bits()), "more was written");
    let given = given.map(|written| [vec![written as f64], row[..written].to_vec()].concat());
    let listed = as_vec.map_err(Refusal::number).map(|points| {
        let numbers: Vec<f64> = points.iter().flat_map(Vec3::flat).collect();
        [vec![numbers.len() as f64], numbers].concat()
    });
    // A `Vec` is never too short; what then comes instead is not known here.
    if given != Err(Refusal::RowTooShort.number()) {
        assert_eq!(given, listed, "row and Vec");
    }
    given
}

fn moved_curve(i: &[f64]) -> Result<Vec<f64>, u32> {
    let mut out = answer(curve(i).moved(&motion(i, 30)))?;
    out.truncate(27);
    Ok(out)
}

/// Whether the body lies inside, where the surface says so.
fn convex(s: &Surface) -> Option<bool> {
    match s {
        Surface::Cylinder(c) => Some(c.convex),
        Surface::Cone(c) => Some(c.convex),
        Surface::Plane(_) | Surface::Wall(_) => None,
    }
}

/// No number of a surface says on which side the body lies, so this is seen to here.
fn moved_surface(i: &[f64]) -> Result<Vec<f64>, u32> {
    let (before, after) = (surface(i), surface(i).moved(&motion(i, 30)));
    assert!(!matches!(after, Ok(after) if convex(&after) != convex(&before)));
    answer(after)
}

fn as_cone(i: &[f64]) -> Result<Vec<f64>, u32> {
    let cone = surface(i).revolution();
    assert!(!matches!(cone, Ok(Some(c)) if Some(c.convex) != convex(&surface(i))));
    found(cone)
}

fn opened(i: &[f64]) -> Result<Vec<f64>, u32> {
    answer(Revolution::open(&cone(i, true), v3(i, 8)).map(|face| face.running))
}

/// A path added to running sums.
fn added(i: &[f64], path: Path, running: usize) -> Result<Vec<f64>, u32> {
    lent(sums(i, running), |running| {
        let mut face = Revolution { cone: cone(i, true), o: v3(i, 8), running: *running };
        let given = face.add(&path).map(|_| ());
        *running = face.running;
        given
    })
}

fn closed(i: &[f64]) -> Result<Vec<f64>, u32> {
    let face = Revolution { cone: cone(i, i[8] > 0.0), o: Vec3::ZERO, running: sums(i, 9) };
    lent(sums(i, 17), |acc| face.close(acc))
}

/// A whole face of up to four paths.
fn whole(i: &[f64]) -> Result<Vec<f64>, u32> {
    const PATH: usize = 29;
    let path = |p: &[f64]| match p[0] {
        0.0 => Path::Arc(arc(p, 1), v3(p, 8), v3(p, 11)),
        _ => Path::Rolled(cut(&p[1..])),
    };
    let paths: Vec<Path> = i[13..].chunks_exact(PATH).take(i[12] as usize).map(path).collect();
    lent(sums(i, 13 + 4 * PATH), |acc| revolution(acc, &cone(i, i[11] > 0.0), &paths, v3(i, 8)))
}

const CALLS: &[(&str, Call)] = &[
    ("dot", |i| answer(v3(i, 0).dot(v3(i, 3)))),
    ("cross", |i| answer(v3(i, 0).cross(v3(i, 3)))),
    ("sum", |i| answer(v3(i, 0) + v3(i, 3))),
    ("difference", |i| answer(v3(i, 0) - v3(i, 3))),
    ("negation", |i| answer(-v3(i, 0))),
    ("times", |i| answer(v3(i, 0) * i[3])),
    ("dominant_axis", |i| answer(v3(i, 0).dominant_axis())),
    ("rotation", |i| answer(Rigid::rotation(v3(i, 0), i[3]))),
    ("frame", |i| answer(Rigid::frame(v3(i, 0), v3(i, 3), v3(i, 6), v3(i, 9)))),
    ("apply", |i| answer(motion(i, 0).apply(v3(i, 12)))),
    ("apply_vector", |i| answer(motion(i, 0).apply_vector(v3(i, 12)))),
    ("turn", |i| {
        let arc = ProfileArc { center: v2(i, 0), ccw: i[2] > 0.0 };
        answer(arc.turn(v2(i, 3), v2(i, 5)))
    }),
    ("unit", |i| answer(unit(v3(i, 0)))),
    ("per_turn", |i| answer(per_turn(i[0], i[1]))),
    ("reversed", |i| answer(arc(i, 0).reversed())),
    ("sweep", |i| answer(arc(i, 0).sweep(v3(i, 7), v3(i, 10)))),
    ("at", |i| answer(arc(i, 0).at(v3(i, 7), i[10]))),
    ("inner_points", |i| {
        let (arc, from, to, chord) = (arc(i, 0), v3(i, 7), v3(i, 10), i[13]);
        let call = |row: &mut [f64]| arc.inner_points(from, to, chord, row).map(|p| p.len());
        row(i[14], call, arc.inner_points_vec(from, to, chord))
    }),
    ("extend_bounds", |i| lent(bounds(i, 13), |b| arc(i, 0).extend_bounds(v3(i, 7), v3(i, 10), b))),
    ("development_radial", |i| answer(dev(i).radial(i[10]))),
    ("development_point", |i| answer(dev(i).point(v2(i, 10), i[12]))),
    ("development_along", |i| answer(dev(i).along(v2(i, 10), v2(i, 12), i[14]))),
    ("development_unroll", |i| answer(dev(i).unroll(v3(i, 10), i[13]))),
    ("development_moved", |i| answer(dev(i).moved(&motion(i, 10)))),
    ("wave_at", |i| answer(wave(i).at(i[3], i[4]))),
    ("wave_range", |i| answer(wave(i).range(i[3], i[4], i[5]))),
    ("meet_point", |i| answer(meet(i, i[10] == 1.0).point(i[11], i[12]))),
    ("trace_v", |i| found(trace(i, i[10]).expect("a trace").v(i[11], i[12]))),
    ("piece_uv_box", |i| answer(cut(i).uv_box())),
    ("piece_polyline", |i| answer(cut(i).polyline(i[28]))),
    ("piece_reversed", |i| answer(cut(i).reversed())),
    ("piece_at", |i| answer(cut(i).at(i[28]))),
    ("piece_second", |i| answer(cut(i).second(i[28]))),
    ("piece_normal", |i| answer(cut(i).normal(v2(i, 28), i[30]))),
    ("piece_measure", |i| answer(cut(i).measure())),
    ("piece_quadrature_pieces", |i| answer(cut(i).quadrature_pieces())),
    ("piece_chords", |i| answer(cut(i).chords(i[28], i[29]))),
    ("curve_reversed", |i| answer(curve(i).reversed())),
    ("curve_moved", moved_curve),
    ("curve_arc", |i| found(curve(i).arc().map(|arc| arc.copied()))),
    ("curve_inner_points", |i| {
        let (curve, from, to, chord) = (curve(i), v3(i, 30), v3(i, 33), i[36]);
        let call = |row: &mut [f64]| curve.inner_points(from, to, chord, row).map(|p| p.len());
        row(i[37], call, curve.inner_points_vec(from, to, chord))
    }),
    ("curve_extend_bounds", |i| {
        lent(bounds(i, 36), |b| curve(i).extend_bounds(v3(i, 30), v3(i, 33), b))
    }),
    ("surface_plane", |i| found(surface(i).plane().map(|plane| plane.copied()))),
    ("surface_revolution", as_cone),
    ("surface_moved", moved_surface),
    ("surface_normal_at", |i| answer(surface(i).normal_at(v3(i, 30)))),
    ("segment", |i| {
        let [k, u, v, n, o] = [7, 10, 13, 16, 19].map(|at| v3(i, at));
        lent(sums(i, 22), |acc| segment(acc, &arc(i, 0), k, u, v, n, o))
    }),
    ("cone_frame", |i| answer(frame(&cone(i, true)))),
    ("frame_angle", |i| answer(axes(i).angle(v3(i, 12)))),
    ("frame_point", |i| answer(axes(i).point(i[12], i[13], i[14]))),
    ("revolution_open", opened),
    ("revolution_add_arc", |i| added(i, Path::Arc(arc(i, 11), v3(i, 18), v3(i, 21)), 24)),
    ("revolution_add_piece", |i| added(i, Path::Rolled(cut(&i[11..])), 39)),
    ("revolution_close", closed),
    ("wall", |i| lent(sums(i, 33), |acc| wall(acc, &cut(i), i[28], i[29], v3(i, 30)))),
    ("revolution", whole),
];

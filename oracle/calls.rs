// The records of flat inputs and the calls on them, by the names that curve.rs and the crate share.
// Read by callers.rs for each side; what the sides say differently stands there.

fn v2(i: &[f64], k: usize) -> Vec2 {
    Vec2::new(i[k], i[k + 1])
}

fn v3(i: &[f64], k: usize) -> Vec3 {
    Vec3::new(i[k], i[k + 1], i[k + 2])
}

fn arc(i: &[f64], k: usize) -> Arc {
    Arc { center: v3(i, k), axis: v3(i, k + 3), radius: i[k + 6] }
}

fn profile_arc(i: &[f64], k: usize, ccw: bool) -> ProfileArc {
    ProfileArc { center: v2(i, k), ccw }
}

fn dev(i: &[f64]) -> Development {
    Development { origin: v3(i, 0), axis: v3(i, 3), start: v3(i, 6), neutral: i[9] }
}

fn wave(i: &[f64]) -> Wave {
    Wave { a: i[0], b: i[1], c: i[2] }
}

fn meet(i: &[f64], with_turn: bool) -> Meet {
    let turn = with_turn.then_some([i[8], i[9]]);
    Meet { origin: v3(i, 0), axis: v3(i, 3), radius: i[6], own: i[7], turn }
}

fn trace(i: &[f64], tag: f64) -> Option<Trace> {
    match tag as u32 {
        0 => None,
        1 => Some(Trace::Wave(wave(i))),
        kind => Some(Trace::Meet(meet(i, kind == 3))),
    }
}

fn piece(i: &[f64], tags: &[f64]) -> Rolled {
    let arc = (tags[0] != 0.0).then_some(profile_arc(i, 14, tags[0] == 1.0));
    Rolled { dev: dev(i), from: v2(i, 10), to: v2(i, 12), arc, trace: trace(&i[16..], tags[1]) }
}

/// A piece and its tags side by side.
fn cut(i: &[f64]) -> Rolled {
    piece(i, &i[26..])
}

fn curve(i: &[f64]) -> Curve {
    match i[27] {
        0.0 => Curve::Arc(arc(i, 0)),
        _ => Curve::Rolled { piece: piece(i, &i[28..]), radius: i[26] },
    }
}

fn cone(i: &[f64], convex: bool) -> Cone {
    Cone { origin: v3(i, 0), axis: v3(i, 3), radius: i[6], slope: i[7], convex }
}

fn surface(i: &[f64]) -> Surface {
    let (origin, axis, radius, convex) = (v3(i, 0), v3(i, 3), i[6], i[27] > 0.0);
    match i[26] as u32 {
        0 => Surface::Plane(Plane { origin, normal: axis }),
        1 => Surface::Cylinder(Cylinder { origin, axis, radius, convex }),
        2 => Surface::Cone(cone(i, convex)),
        _ => Surface::Wall(piece(i, &i[28..])),
    }
}

/// The paths of a whole face: how many there are, then 29 numbers each.
fn paths(i: &[f64]) -> Vec<Path> {
    let path = |p: &[f64]| match p[0] {
        0.0 => Path::Arc(arc(p, 1), v3(p, 8), v3(p, 11)),
        _ => Path::Rolled(cut(&p[1..])),
    };
    i[1..].chunks_exact(29).take(i[0] as usize).map(path).collect()
}

/// The longest row that a curve can ask for: three numbers for each point, one point fewer than chords.
const ROW: usize = 3 * 4_095;

/// datum-math's methods, which the compiler puts into the loops of other crates.
pub const SMALL: &[(&str, Ready)] = calls! {
    ready;
    dot: |i| (v3(i, 0), v3(i, 3)), (), |(a, b), ()| a.dot(*b);
    cross: |i| (v3(i, 0), v3(i, 3)), (), |(a, b), ()| a.cross(*b);
    sum: |i| (v3(i, 0), v3(i, 3)), (), |(a, b), ()| *a + *b;
    difference: |i| (v3(i, 0), v3(i, 3)), (), |(a, b), ()| *a - *b;
    negation: |i| v3(i, 0), (), |a, ()| -*a;
    times: |i| (v3(i, 0), i[3]), (), |(a, k), ()| *a * *k;
    dominant_axis: |i| v3(i, 0), (), |a, ()| a.dominant_axis();
    rotation: |i| (v3(i, 0), i[3]), (), |(axis, angle), ()| Rigid::rotation(*axis, *angle);
    frame: |i| [0, 3, 6, 9].map(|k| v3(i, k)), (), |[o, x, y, z], ()| Rigid::frame(*o, *x, *y, *z);
    apply: |i| (motion(i, 0), v3(i, 12)), (), |(m, p), ()| m.apply(*p);
    apply_vector: |i| (motion(i, 0), v3(i, 12)), (), |(m, v), ()| m.apply_vector(*v);
};

/// Methods and functions of curve.rs and of what it asks profile.rs for.
pub const CALLS: &[(&str, Ready)] = calls! {
    reached;
    turn: |i| (profile_arc(i, 0, i[2] > 0.0), v2(i, 3), v2(i, 5)), (), |(arc, a, b), ()| arc.turn(*a, *b);
    unit: |i| v3(i, 0), (), |v, ()| unit(*v);
    per_turn: |i| (i[0], i[1]), (), |(radius, chord), ()| per_turn(*radius, *chord);
    reversed: |i| arc(i, 0), (), |a, ()| a.reversed();
    sweep: |i| (arc(i, 0), v3(i, 7), v3(i, 10)), (), |(a, from, to), ()| a.sweep(*from, *to);
    at: |i| (arc(i, 0), v3(i, 7), i[10]), (), |(a, from, t), ()| a.at(*from, *t);
    inner_points: |i| (arc(i, 0), v3(i, 7), v3(i, 10), i[13]), vec![0.0; ROW], |(a, from, to, chord), row| drawn(a, *from, *to, *chord, row);
    inner_points_vec: |i| (arc(i, 0), v3(i, 7), v3(i, 10), i[13]), (), |(a, from, to, chord), ()| drawn_vec(a, *from, *to, *chord);
    extend_bounds: |i| (arc(i, 0), v3(i, 7), v3(i, 10)), EMPTY, |(a, from, to), bounds| widen(a, *from, *to, bounds);
    development_radial: |i| (dev(i), i[10]), (), |(d, u), ()| d.radial(*u);
    development_point: |i| (dev(i), v2(i, 10), i[12]), (), |(d, p, r), ()| d.point(*p, *r);
    development_along: |i| (dev(i), v2(i, 10), v2(i, 12), i[14]), (), |(d, p, way, r), ()| d.along(*p, *way, *r);
    development_unroll: |i| (dev(i), v3(i, 10), i[13]), (), |(d, q, near), ()| d.unroll(*q, *near);
    development_moved: |i| (dev(i), motion(i, 10)), (), |(d, m), ()| d.moved(m);
    wave_at: |i| (wave(i), i[3], i[4]), (), |(w, u, n), ()| w.at(*u, *n);
    wave_range: |i| (wave(i), i[3], i[4], i[5]), (), |(w, u0, u1, n), ()| w.range(*u0, *u1, *n);
    meet_point: |i| (meet(i, i[10] == 1.0), i[11], i[12]), (), |(m, phi, n), ()| m.point(*phi, *n);
    trace_v: |i| (trace(i, i[10]).expect("a trace"), i[11], i[12]), (), |(t, u, n), ()| t.v(*u, *n);
    piece_uv_box: |i| cut(i), (), |w, ()| w.uv_box();
    piece_polyline: |i| (cut(i), i[28]), (), |(w, deviation), ()| w.polyline(*deviation);
    piece_reversed: |i| cut(i), (), |w, ()| w.reversed();
    piece_at: |i| (cut(i), i[28]), (), |(w, t), ()| w.at(*t);
    piece_second: |i| (cut(i), i[28]), (), |(w, t), ()| w.second(*t);
    piece_normal: |i| (cut(i), v2(i, 28), i[30]), (), |(w, p, r), ()| w.normal(*p, *r);
    piece_measure: |i| cut(i), (), |w, ()| w.measure();
    piece_quadrature_pieces: |i| cut(i), (), |w, ()| w.quadrature_pieces();
    piece_chords: |i| (cut(i), i[28], i[29]), (), |(w, r, chord), ()| w.chords(*r, *chord);
    curve_reversed: |i| curve(i), (), |c, ()| c.reversed();
    curve_moved: |i| (curve(i), motion(i, 30)), (), |(c, m), ()| c.moved(m);
    curve_arc: |i| curve(i), (), |c, ()| arc_of(c);
    curve_inner_points: |i| (curve(i), v3(i, 30), v3(i, 33), i[36]), vec![0.0; ROW], |(c, from, to, chord), row| drawn_curve(c, *from, *to, *chord, row);
    curve_inner_points_vec: |i| (curve(i), v3(i, 30), v3(i, 33), i[36]), (), |(c, from, to, chord), ()| drawn_curve_vec(c, *from, *to, *chord);
    curve_extend_bounds: |i| (curve(i), v3(i, 30), v3(i, 33)), EMPTY, |(c, from, to), bounds| widen_by_curve(c, *from, *to, bounds);
    surface_plane: |i| surface(i), (), |s, ()| plane_of(s);
    surface_revolution: |i| surface(i), (), |s, ()| s.revolution();
    surface_moved: |i| (surface(i), motion(i, 30)), (), |(s, m), ()| s.moved(m);
    surface_normal_at: |i| (surface(i), v3(i, 30)), (), |(s, p), ()| s.normal_at(*p);
    segment: |i| (arc(i, 0), [7, 10, 13, 16, 19].map(|k| v3(i, k))), Integrals::default(), |(a, [k, u, v, n, o]), acc| segment(acc, a, *k, *u, *v, *n, *o);
    cone_frame: |i| cone(i, true), (), |c, ()| frame(c);
    frame_angle: |i| (axes(i), v3(i, 12)), (), |(f, p), ()| f.angle(*p);
    frame_point: |i| (axes(i), i[12], i[13], i[14]), (), |(f, theta, z, r), ()| f.point(*theta, *z, *r);
    revolution_add_arc: |i| (cone(i, true), v3(i, 8), [Path::Arc(arc(i, 11), v3(i, 18), v3(i, 21))]), Integrals::default(), |(c, o, paths), acc| face(acc, c, paths, *o);
    revolution_add_piece: |i| (cone(i, true), v3(i, 8), [Path::Rolled(cut(&i[11..]))]), Integrals::default(), |(c, o, paths), acc| face(acc, c, paths, *o);
    revolution: |i| (cone(i, i[11] > 0.0), v3(i, 8), paths(&i[12..])), Integrals::default(), |(c, o, paths), acc| face(acc, c, paths, *o);
    wall: |i| (cut(i), i[28], i[29], v3(i, 30)), Integrals::default(), |(w, r0, r1, o), acc| wall(acc, w, *r0, *r1, *o);
};

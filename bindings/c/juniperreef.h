/* Juniperreef: arcs in space, cuts through rolled sheet, their chords and boxes, and the volumes of
   the bodies that they bound. Lengths are millimetres, angles radians.

   Made by scripts/make_header from the sources; do not edit.

   A record is an array of numbers, laid out as said below. A function that answers by a uint32_t
   answers JR_OK, the result being written, or another of the numbers below, nothing being written.
   Every function takes every bit pattern of its numbers and finishes. Axes and normals are meant to
   have length 1 and the ends of an arc to lie on it; nothing tests that, and what comes out is the
   formula's.

   To know before the first call:
   - No pointer is null, and an array has at least the places in its brackets, read or not; a
     compiler sees that at best where it sees the array. An array that is written overlaps no other
     array of the same call: to move a point in place, copy it first.
   - A function keeps nothing, allocates nothing and prints nothing; none aborts, throws or jumps.
     Any thread may call at any time. Of the C library the archive needs memcpy and memset, no -lm.
   - Results are those of the floating-point environment that C starts a program with: to nearest,
     no subnormal flushed. fesetround changes that, and so does linking by gcc with -ffast-math or
     -Ofast, for the whole program; what is proved does not hold there.
   - The archive is for Linux on x86-64, any processor of that kind, and position-independent: it
     links into programs and shared libraries alike. Its names begin with jr_, those here with jr_
     and JR_. A program made for another layout of records and answers than the archive's does not
     link: what is missing then is the name of the function jr_layout_N.

   SPDX-License-Identifier: MIT OR Apache-2.0 */

#ifndef JUNIPERREEF_H
#define JUNIPERREEF_H

#include <stdbool.h>
#include <stddef.h>
#include <stdint.h>

#define JR_VERSION "0.1.0"

#ifdef __cplusplus
extern "C" {
#endif

/* Answers. Refusals 1 to 5 and 7 come first, the lowest winning. */
enum jr_answer {
    JR_OK = 0,                   /* No refusal */
    JR_OUT_OF_RANGE = 1,         /* A number handed in is not finite, or above 1,048,576 in
                                    magnitude */
    JR_NEUTRAL_NOT_POSITIVE = 2, /* A neutral radius is not greater than 0 */
    JR_ARC_AND_TRACE = 3,        /* A piece has both an arc and a trace */
    JR_BAD_BOX_OR_SUMS = 4,      /* A box holds a NaN, or sums hold a NaN or an infinity */
    JR_BAD_TOLERANCE = 5,        /* A chord is below 0, or a deviation is not above 0 */
    JR_ROW_TOO_SHORT = 6,        /* A row is shorter than three times the points due */
    JR_PIECE_ON_CONE = 7,        /* A development's piece is among the paths of a cone whose slope
                                    is not 0 */
    JR_ANGLE_TOO_LARGE = 8,      /* A finite angle above 1,048,576 in magnitude is due for a sine or
                                    cosine */
    JR_NOT_FINITE = 9,           /* A number that the result depends on is not finite: a direction
                                    of no length, a point on its axis, a pipe that is missed, or a
                                    pipe that is only touched, as by a branch as wide as its main
                                    pipe */
    JR_COUNT_TOO_LARGE = 10,     /* A count, or a corner to print, is above its limit: more than
                                    4,096 chords or pieces, or more than 4,096 turning points of a
                                    wave */
    JR_MALFORMED_FILE = 11,      /* The bytes are not those of an edge file */
    JR_UNKNOWN_TAG = 254,        /* A tag is none of those below */
    JR_NONE = 255,               /* There is no such result */
};

/* The name of an answer, without JR_. */
static inline const char *jr_name(uint32_t answer)
{
    switch (answer) {
    case JR_OK: return "OK";
    case JR_OUT_OF_RANGE: return "OUT_OF_RANGE";
    case JR_NEUTRAL_NOT_POSITIVE: return "NEUTRAL_NOT_POSITIVE";
    case JR_ARC_AND_TRACE: return "ARC_AND_TRACE";
    case JR_BAD_BOX_OR_SUMS: return "BAD_BOX_OR_SUMS";
    case JR_BAD_TOLERANCE: return "BAD_TOLERANCE";
    case JR_ROW_TOO_SHORT: return "ROW_TOO_SHORT";
    case JR_PIECE_ON_CONE: return "PIECE_ON_CONE";
    case JR_ANGLE_TOO_LARGE: return "ANGLE_TOO_LARGE";
    case JR_NOT_FINITE: return "NOT_FINITE";
    case JR_COUNT_TOO_LARGE: return "COUNT_TOO_LARGE";
    case JR_MALFORMED_FILE: return "MALFORMED_FILE";
    case JR_UNKNOWN_TAG: return "UNKNOWN_TAG";
    case JR_NONE: return "NONE";
    default: return "no answer of this library";
    }
}

/* Records: how many numbers each has, and which. Places that the tags do not use are neither used
   nor written. */
enum {
    JR_VEC2 = 2,         /* x, y; in a development u, v */
    JR_VEC3 = 3,         /* x, y, z */
    JR_RIGID = 12,       /* a motion: the three rows of its rotation, its shift */
    JR_BOUNDS = 6,       /* a box: low corner, high corner; the empty one has +infinity low,
                            -infinity high */
    JR_ARC = 7,          /* centre, axis, radius; it runs counterclockwise about the axis */
    JR_DEVELOPMENT = 10, /* origin, axis, start (where u is 0, across the axis), neutral radius */
    JR_WAVE = 3,         /* a, b, c of v = a + b cos(u / neutral) + c sin(u / neutral) */
    JR_MEET = 10,        /* origin, axis and radius of the other pipe; own, which is 1 or -1, along
                            or against the axis, or with a turn this pipe's radius; the turn's two
                            angles */
    JR_TRACE = 10,       /* a wave's three numbers, or a meet's ten */
    JR_PIECE = 26,       /* development; from (2); to (2); the arc's centre (2); trace */
    JR_CURVE = 27,       /* an arc's seven numbers, or a piece's 26 and its distance from the
                            axis */
    JR_SURFACE = 26,     /* a plane's origin and normal, a cylinder's origin, axis and radius, a
                            cone's eight numbers, or a piece's 26 */
    JR_CONE = 8,         /* origin, axis, radius at the origin, slope; a cylinder has slope 0 */
    JR_FRAME = 12,       /* axis, origin, two unit vectors across the axis */
    JR_SUMS = 8,         /* over a face, about a point: 6 times the volume, 24 times its moment (3),
                            area, area vector (3) */
};

/* Where the parts of a record start, and how many numbers a part has. A part that is a record
   itself has its own places from there: the axis of a piece's meet is at JR_PIECE_TRACE +
   JR_MEET_AXIS. */
enum {
    JR_RIGID_X = 0,             /* 3 numbers */
    JR_RIGID_Y = 3,             /* 3 numbers */
    JR_RIGID_Z = 6,             /* 3 numbers */
    JR_RIGID_SHIFT = 9,         /* 3 numbers */
    JR_BOUNDS_LOW = 0,          /* 3 numbers */
    JR_BOUNDS_HIGH = 3,         /* 3 numbers */
    JR_ARC_CENTER = 0,          /* 3 numbers */
    JR_ARC_AXIS = 3,            /* 3 numbers */
    JR_ARC_RADIUS = 6,          /* 1 number */
    JR_DEVELOPMENT_ORIGIN = 0,  /* 3 numbers */
    JR_DEVELOPMENT_AXIS = 3,    /* 3 numbers */
    JR_DEVELOPMENT_START = 6,   /* 3 numbers */
    JR_DEVELOPMENT_NEUTRAL = 9, /* 1 number */
    JR_WAVE_A = 0,              /* 1 number */
    JR_WAVE_B = 1,              /* 1 number */
    JR_WAVE_C = 2,              /* 1 number */
    JR_MEET_ORIGIN = 0,         /* 3 numbers */
    JR_MEET_AXIS = 3,           /* 3 numbers */
    JR_MEET_RADIUS = 6,         /* 1 number */
    JR_MEET_OWN = 7,            /* 1 number */
    JR_MEET_TURN = 8,           /* 2 numbers */
    JR_PIECE_DEV = 0,           /* 10 numbers */
    JR_PIECE_FROM = 10,         /* 2 numbers */
    JR_PIECE_TO = 12,           /* 2 numbers */
    JR_PIECE_CENTER = 14,       /* 2 numbers */
    JR_PIECE_TRACE = 16,        /* 10 numbers */
    JR_CONE_ORIGIN = 0,         /* 3 numbers */
    JR_CONE_AXIS = 3,           /* 3 numbers */
    JR_CONE_RADIUS = 6,         /* 1 number */
    JR_CONE_SLOPE = 7,          /* 1 number */
    JR_FRAME_AXIS = 0,          /* 3 numbers */
    JR_FRAME_ORIGIN = 3,        /* 3 numbers */
    JR_FRAME_E1 = 6,            /* 3 numbers */
    JR_FRAME_E2 = 9,            /* 3 numbers */
    JR_SUMS_SIX_V = 0,          /* 1 number */
    JR_SUMS_MOMENT = 1,         /* 3 numbers */
    JR_SUMS_AREA = 4,           /* 1 number */
    JR_SUMS_AREA_VECTOR = 5,    /* 3 numbers */
    JR_CURVE_RADIUS = 26,       /* 1 number, a piece's */
    JR_PLANE_ORIGIN = 0,        /* 3 numbers, a surface's */
    JR_PLANE_NORMAL = 3,        /* 3 numbers, a surface's */
    JR_CYLINDER_ORIGIN = 0,     /* 3 numbers, a surface's */
    JR_CYLINDER_AXIS = 3,       /* 3 numbers, a surface's */
    JR_CYLINDER_RADIUS = 6,     /* 1 number, a surface's */
    JR_PIECE_AT_POINT = 0,      /* 2 numbers, what jr_piece_at writes */
    JR_PIECE_AT_DERIVATIVE = 2, /* 2 numbers, what jr_piece_at writes */
    JR_UV_BOX_U = 0,            /* 2 numbers, what jr_piece_uv_box writes */
    JR_UV_BOX_V = 2,            /* 2 numbers, what jr_piece_uv_box writes */
    JR_MEASURE_RADIUS = 0,      /* 1 number, what jr_piece_measure writes */
    JR_MEASURE_TURN = 1,        /* 1 number, what jr_piece_measure writes */
    JR_MEASURE_LENGTH = 2,      /* 1 number, what jr_piece_measure writes */
    JR_UNROLLED_UV = 0,         /* 2 numbers, what jr_development_unroll writes */
    JR_UNROLLED_RADIUS = 2,     /* 1 number, what jr_development_unroll writes */
};

/* Rows that inner points always fit in, three numbers for each point: a call that lends one is
   never refused by JR_ROW_TOO_SHORT. A piece has one point fewer than jr_piece_chords says. */
enum {
    JR_ARC_ROW = 189,     /* of any arc: 63 points */
    JR_CURVE_ROW = 12285, /* of any curve: 4,095 points */
};

/* The tag `arc` of a piece: counterclockwise or clockwise. */
enum {
    JR_ARC_NONE = 0,
    JR_ARC_CCW = 1,
    JR_ARC_CW = 2,
};

/* The tag `trace` of a piece, and `kind` of a trace, which is never 0. */
enum {
    JR_TRACE_NONE = 0,
    JR_TRACE_WAVE = 1,
    JR_TRACE_MEET = 2,
    JR_TRACE_MEET_TURN = 3,
};

/* The tag `turn` of a meet. */
enum {
    JR_TURN_NONE = 0,
    JR_TURN_ANGLES = 1,
};

/* The tag `kind` of a curve; an arc's other tags are not read. */
enum {
    JR_CURVE_ARC = 0,
    JR_CURVE_PIECE = 1,
};

/* The tag `kind` of a surface; the tags `arc` and `trace` are read of a wall only. */
enum {
    JR_SURFACE_PLANE = 0,
    JR_SURFACE_CYLINDER = 1,
    JR_SURFACE_CONE = 2,
    JR_SURFACE_WALL = 3,
};

/* ---- The layout of records and answers */

/* The number of this layout of arrays and answers, which is also in the name, so that a program
   made for another one does not link. */
uint32_t jr_layout_1(void);

/* Every file that includes this header refers to that function: linked with an archive of another
   layout, the program is refused by the linker, which says that there is no such name. */
#if defined(__GNUC__)
#if defined(__has_attribute)
#if __has_attribute(retain)
__attribute__((retain))
#endif
#endif
__attribute__((used)) static uint32_t (*const jr_layout_due)(void) = jr_layout_1;
#endif

/* ---- Square root, rounding to whole numbers, and the functions of libm */

/* The square root of x, rounded once; a NaN where x is below 0. */
double jr_sqrt(double x);

/* The least whole number that is not below x. */
double jr_ceil(double x);

/* The whole number nearest to x, halves away from 0. */
double jr_round(double x);

/* The angle of the point (x, y) in radians, -pi to pi, by libm's atan2 of y and x. */
double jr_atan2(double y, double x);

/* The angle whose cosine is x, 0 to pi, by libm's acos; a NaN where x is not in -1 to 1. */
double jr_acos(double x);

/* The length of (x, y), by libm's hypot. */
double jr_hypot(double x, double y);

/* The sine of the angle x. */
uint32_t jr_sin(double x, double out[1]);

/* The sine and the cosine of the angle x. */
uint32_t jr_sincos(double x, double out[2]);

/* ---- Vectors */

/* The scalar product of a and b. */
uint32_t jr_vec3_dot(const double a[JR_VEC3], const double b[JR_VEC3], double out[1]);

/* The vector product of a and b. */
uint32_t jr_vec3_cross(const double a[JR_VEC3], const double b[JR_VEC3], double out[JR_VEC3]);

/* The sum of a and b. */
uint32_t jr_vec3_sum(const double a[JR_VEC3], const double b[JR_VEC3], double out[JR_VEC3]);

/* The difference a - b. */
uint32_t jr_vec3_difference(const double a[JR_VEC3], const double b[JR_VEC3], double out[JR_VEC3]);

/* The vector a with the sign of each coordinate turned. */
uint32_t jr_vec3_negation(const double a[JR_VEC3], double out[JR_VEC3]);

/* The vector a times the number k. */
uint32_t jr_vec3_times(const double a[JR_VEC3], double k, double out[JR_VEC3]);

/* Which coordinate of a is the largest in magnitude, 0, 1 or 2, the first of equal ones. */
uint32_t jr_vec3_dominant_axis(const double a[JR_VEC3], uint64_t out[1]);

/* ---- Motions */

/* The rotation by the angle about an axis of any length through the origin. */
uint32_t jr_rigid_rotation(const double axis[JR_VEC3], double angle, double out[JR_RIGID]);

/* The motion from the coordinates of a frame, its axes x, y and z at `origin`, to those of the
   world. */
uint32_t jr_rigid_frame(const double origin[JR_VEC3], const double x[JR_VEC3],
    const double y[JR_VEC3], const double z[JR_VEC3], double out[JR_RIGID]);

/* The point p moved by m. */
uint32_t jr_rigid_apply(const double m[JR_RIGID], const double p[JR_VEC3], double out[JR_VEC3]);

/* The direction p turned by m, whose shift is left out. */
uint32_t jr_rigid_apply_vector(const double m[JR_RIGID], const double p[JR_VEC3],
    double out[JR_VEC3]);

/* ---- Directions, profile arcs and arcs */

/* The vector of length 1 in the direction of v. */
uint32_t jr_unit(const double v[JR_VEC3], double out[JR_VEC3]);

/* The angle turned about `center` from a to b: above 0 and at most 2 pi where `ccw`, else below 0
   and at least -2 pi. */
uint32_t jr_profile_arc_turn(const double center[JR_VEC2], bool ccw, const double a[JR_VEC2],
    const double b[JR_VEC2], double out[1]);

/* The arc a run the other way: its axis turned round. */
uint32_t jr_arc_reversed(const double a[JR_ARC], double out[JR_ARC]);

/* The angle of the arc a from `from` to `to`, above 0 and at most 2 pi: one point twice is a full
   circle. */
uint32_t jr_arc_sweep(const double a[JR_ARC], const double from[JR_VEC3], const double to[JR_VEC3],
    double out[1]);

/* The point of the arc a at the angle t from `from`, counterclockwise about its axis. */
uint32_t jr_arc_at(const double a[JR_ARC], const double from[JR_VEC3], double t,
    double out[JR_VEC3]);

/* Widens the box b to hold the arc a from `from` to `to`. */
uint32_t jr_arc_extend_bounds(const double a[JR_ARC], const double from[JR_VEC3],
    const double to[JR_VEC3], double b[JR_BOUNDS]);

/* How many chords a full turn of a circle takes to stay within `chord` of it, at least 12 and at
   most 64. */
uint32_t jr_per_turn(double radius, double chord, double out[1]);

/* Writes the points of the arc a strictly between `from` and `to`, for as many chords a turn as
   `jr_per_turn` says, three numbers each from the start of `row`, and how many numbers these are to
   `written`. */
uint32_t jr_arc_inner_points(const double a[JR_ARC], const double from[JR_VEC3],
    const double to[JR_VEC3], double chord, double *row, size_t row_length, uint64_t written[1]);

/* ---- Developments */

/* The unit vector away from the axis of the development at u. */
uint32_t jr_development_radial(const double dev[JR_DEVELOPMENT], double u, double out[JR_VEC3]);

/* The point at p = (u, v) of the development, r away from its axis. */
uint32_t jr_development_point(const double dev[JR_DEVELOPMENT], const double p[JR_VEC2], double r,
    double out[JR_VEC3]);

/* How the point at p of the development, r away from its axis, moves as p moves by d. */
uint32_t jr_development_along(const double dev[JR_DEVELOPMENT], const double p[JR_VEC2],
    const double d[JR_VEC2], double r, double out[JR_VEC3]);

/* The u and v of the point q in the development, u within half a turn of `near`, and the distance
   of q from its axis. */
uint32_t jr_development_unroll(const double dev[JR_DEVELOPMENT], const double q[JR_VEC3],
    double near, double out[3]);

/* The development moved by m. */
uint32_t jr_development_moved(const double dev[JR_DEVELOPMENT], const double m[JR_RIGID],
    double out[JR_DEVELOPMENT]);

/* ---- Waves, meets and traces */

/* The v of the wave w at u and its first and second derivatives, the neutral radius being n. */
uint32_t jr_wave_at(const double w[JR_WAVE], double u, double n, double out[3]);

/* The least and the greatest v of the wave w from u0 to u1, the neutral radius being n. */
uint32_t jr_wave_range(const double w[JR_WAVE], double u0, double u1, double n, double out[2]);

/* The point of the meet m on the generatrix at phi and its first and second derivatives, the
   neutral radius being n. */
uint32_t jr_meet_point(const double m[JR_MEET], uint32_t turn, double phi, double n, double out[9]);

/* The v of the trace t at u, the neutral radius being n; 255 for a meet with `turn`, which has
   none. */
uint32_t jr_trace_v(const double t[JR_TRACE], uint32_t kind, double u, double n, double out[1]);

/* ---- Pieces of a development */

/* The box of the piece w in its development: the least and the greatest u, the least and the
   greatest v; a straight piece's points, t from 0 to 1, lie at most 2^-33 mm outside it. */
uint32_t jr_piece_uv_box(const double w[JR_PIECE], uint32_t arc, uint32_t trace, double out[4]);

/* How many chords through the piece w stay within `deviation` of it in its development. */
uint32_t jr_piece_polyline(const double w[JR_PIECE], uint32_t arc, uint32_t trace, double deviation,
    uint64_t out[1]);

/* The piece w run the other way, and to `tags` its tags `arc` and `trace`. */
uint32_t jr_piece_reversed(const double w[JR_PIECE], uint32_t arc, uint32_t trace,
    double out[JR_PIECE], uint32_t tags[2]);

/* The point (u, v) of the piece w at t, which is 0 at its start and 1 at its end, and its
   derivative. */
uint32_t jr_piece_at(const double w[JR_PIECE], uint32_t arc, uint32_t trace, double t,
    double out[4]);

/* The second derivative of the piece w at t. */
uint32_t jr_piece_second(const double w[JR_PIECE], uint32_t arc, uint32_t trace, double t,
    double out[2]);

/* The unit normal of the wall over the piece w at p, r away from the axis: to the left of the way
   that the piece runs. */
uint32_t jr_piece_normal(const double w[JR_PIECE], uint32_t arc, uint32_t trace,
    const double p[JR_VEC2], double r, double out[JR_VEC3]);

/* The radius of the piece w, 0 where it is no arc, the angle that it turns, and its length. */
uint32_t jr_piece_measure(const double w[JR_PIECE], uint32_t arc, uint32_t trace, double out[3]);

/* How many parts the piece w is integrated over, none of which turns more than an eighth of a
   circle. */
uint32_t jr_piece_quadrature_pieces(const double w[JR_PIECE], uint32_t arc, uint32_t trace,
    uint64_t out[1]);

/* How many chords within `chord` of it draw the piece w, r away from the axis. */
uint32_t jr_piece_chords(const double w[JR_PIECE], uint32_t arc, uint32_t trace, double r,
    double chord, uint64_t out[1]);

/* ---- Curves in space: an arc, or a piece of a development at a radius from its axis */

/* A box holds a piece that runs over less than a turn about its axis. The points that widen it are
   those of two arcs from the piece's least u to its greatest, and whether the ends of a turn are a
   full circle or none is up to rounding: hand over a cut that runs once around in two halves, a
   call each, as the example does. */

/* The curve c run the other way, and to `tags` the tags `arc` and `trace` of a piece; an arc has
   none. */
uint32_t jr_curve_reversed(const double c[JR_CURVE], uint32_t kind, uint32_t arc, uint32_t trace,
    double out[JR_CURVE], uint32_t tags[2]);

/* The curve c moved by m, its tags as they were. */
uint32_t jr_curve_moved(const double c[JR_CURVE], uint32_t kind, uint32_t arc, uint32_t trace,
    const double m[JR_RIGID], double out[JR_CURVE]);

/* The arc that the curve c is; 255 for a piece, which is none. */
uint32_t jr_curve_arc(const double c[JR_CURVE], uint32_t kind, uint32_t arc, uint32_t trace,
    double out[JR_ARC]);

/* Writes the points of the curve c strictly between `from` and `to`, a piece's between its own
   ends, for chords within `chord` of it, three numbers each from the start of `row`, and how many
   numbers these are to `written`. */
uint32_t jr_curve_inner_points(const double c[JR_CURVE], uint32_t kind, uint32_t arc,
    uint32_t trace, const double from[JR_VEC3], const double to[JR_VEC3], double chord, double *row,
    size_t row_length, uint64_t written[1]);

/* Widens the box b to hold the curve c, an arc from `from` to `to`, a piece from its own start to
   its end. */
uint32_t jr_curve_extend_bounds(const double c[JR_CURVE], uint32_t kind, uint32_t arc,
    uint32_t trace, const double from[JR_VEC3], const double to[JR_VEC3], double b[JR_BOUNDS]);

/* ---- The surfaces of faces: planes, cylinders, cones, and walls over a piece */

/* The plane that the surface s is, its origin and its normal; 255 where it is none. */
uint32_t jr_surface_plane(const double s[JR_SURFACE], uint32_t kind, bool convex, uint32_t arc,
    uint32_t trace, double out[6]);

/* The cone that the surface s is, a cylinder with slope 0; 255 where it is neither. */
uint32_t jr_surface_revolution(const double s[JR_SURFACE], uint32_t kind, bool convex, uint32_t arc,
    uint32_t trace, double out[JR_CONE]);

/* The surface s moved by m, its tags as they were. */
uint32_t jr_surface_moved(const double s[JR_SURFACE], uint32_t kind, bool convex, uint32_t arc,
    uint32_t trace, const double m[JR_RIGID], double out[JR_SURFACE]);

/* The unit normal of the surface s at its point p, out of the body. */
uint32_t jr_surface_normal_at(const double s[JR_SURFACE], uint32_t kind, bool convex, uint32_t arc,
    uint32_t trace, const double p[JR_VEC3], double out[JR_VEC3]);

/* ---- Frames of cones */

/* The frame of the cone c, the same whichever side the body is on. */
uint32_t jr_cone_frame(const double c[JR_CONE], double out[JR_FRAME]);

/* The angle of the point p about the axis of the frame f, -pi to pi. */
uint32_t jr_frame_angle(const double f[JR_FRAME], const double p[JR_VEC3], double out[1]);

/* The point at the angle theta about the axis of the frame f, z along it and r away from it. */
uint32_t jr_frame_point(const double f[JR_FRAME], double theta, double z, double r,
    double out[JR_VEC3]);

/* ---- What is integrated over faces */

/* Over all faces of a closed body, measured from one point o: its volume is JR_SUMS_SIX_V / 6, its
   centre of mass o + moment / (4 times that sum), and the area vector is 0, which tells a face that
   is missing or runs the wrong way. A face's boundary runs with the face on its left, seen from
   outside the body: of a pipe's outer side the lower rim runs about the axis and the upper one
   against it, of its bore, which is not convex, the other way round. A wall's piece runs with the
   body on its right in the development, u to the right and v up, so that the normal, which is on
   its left, points out of the body: at a pipe's upper end towards greater u, at its lower end
   towards lesser u. */

/* Corrects the sums `acc` of a plane face, o being their point and n the face's unit normal, for an
   edge that is no chord from u to v but the arc a about k. */
uint32_t jr_segment(double acc[JR_SUMS], const double a[JR_ARC], const double k[JR_VEC3],
    const double u[JR_VEC3], const double v[JR_VEC3], const double n[JR_VEC3],
    const double o[JR_VEC3]);

/* Opens the running sums of a face on the cone c, o being their point. */
uint32_t jr_revolution_open(const double c[JR_CONE], const double o[JR_VEC3],
    double running[JR_SUMS]);

/* Adds the arc a from u to v, an edge of the face on the cone c, to the running sums, o being their
   point. */
uint32_t jr_revolution_add_arc(const double c[JR_CONE], const double o[JR_VEC3],
    const double a[JR_ARC], const double u[JR_VEC3], const double v[JR_VEC3],
    double running[JR_SUMS]);

/* Adds the piece w, an edge of the face on the cone c, to the running sums, o being their point. */
uint32_t jr_revolution_add_piece(const double c[JR_CONE], const double o[JR_VEC3],
    const double w[JR_PIECE], uint32_t arc, uint32_t trace, double running[JR_SUMS]);

/* Adds the running sums of a face on the cone c, with the body inside where `convex`, to the sums
   `acc`. */
uint32_t jr_revolution_close(const double c[JR_CONE], bool convex, const double running[JR_SUMS],
    double acc[JR_SUMS]);

/* Adds the wall over the piece w, from r0 to r1 away from the axis, to the sums `acc`, o being
   their point. */
uint32_t jr_wall(double acc[JR_SUMS], const double w[JR_PIECE], uint32_t arc, uint32_t trace,
    double r0, double r1, const double o[JR_VEC3]);

#ifdef __cplusplus
}
#endif

#endif

/* Calls every function through the header on a case that can be worked out by hand, and says where
   the answer is another one. Refused calls must leave what they are lent as it was. */
#include <juniperreef.h>
#include <math.h>
#include <stdarg.h>
#include <stdio.h>

#define PI 3.141592653589793
#define UNTOUCHED 77.0
#define LENT 12

static double out[LENT];
static uint64_t whole[1];
static int cases, wrong;

static void number(int line, double got, double due)
{
    cases++;
    if (!(fabs(got - due) <= 1e-11 * (1 + fabs(due)))) {
        printf("cases.c:%d: %.17g is due, not %.17g\n", line, due, got);
        wrong++;
    }
}

static void answered(int line, uint32_t got, uint32_t due)
{
    cases++;
    if (got != due) {
        printf("cases.c:%d: answer %u is due, not %u %s\n", line, (unsigned)due, (unsigned)got, jr_name(got));
        wrong++;
    }
}

/* Of `out` so many numbers are due, and the rest is untouched; then all of it is made so. */
static void written(int line, uint32_t got, int count, ...)
{
    va_list due;
    va_start(due, count);
    answered(line, got, JR_OK);
    for (int k = 0; k < LENT; k++) {
        number(line, out[k], k < count ? va_arg(due, double) : UNTOUCHED);
        out[k] = UNTOUCHED;
    }
    va_end(due);
}

static void refused(int line, uint32_t got, uint32_t due)
{
    answered(line, got, due);
    for (int k = 0; k < LENT; k++)
        number(line, out[k], UNTOUCHED);
}

static void counted(int line, uint32_t got, uint64_t due)
{
    answered(line, got, JR_OK);
    number(line, (double)whole[0], (double)due);
}

/* What a call adds to, put into `out`. */
static double *old(int count, ...)
{
    va_list numbers;
    va_start(numbers, count);
    for (int k = 0; k < count; k++)
        out[k] = va_arg(numbers, double);
    va_end(numbers);
    return out;
}

#define NUMBER(got, due) number(__LINE__, got, due)
#define WRITTEN(call, ...) written(__LINE__, call, __VA_ARGS__)
#define REFUSED(call, due) refused(__LINE__, call, due)
#define COUNTED(call, due) counted(__LINE__, call, due)
#define NO_SUMS old(8, 0.0, 0.0, 0.0, 0.0, 0.0, 0.0, 0.0, 0.0)

static const double zero[3] = {0, 0, 0}, x[3] = {1, 0, 0}, y[3] = {0, 1, 0}, z[3] = {0, 0, 1};

static void numbers(void)
{
    NUMBER(jr_layout_1(), 1);
    NUMBER(jr_sqrt(2.25), 1.5);
    NUMBER(jr_ceil(1.25), 2);
    NUMBER(jr_round(-2.5), -3);
    NUMBER(jr_atan2(1, 0), PI / 2);
    NUMBER(jr_acos(-1), PI);
    NUMBER(jr_hypot(3, 4), 5);
    WRITTEN(jr_sin(PI / 6, out), 1, 0.5);
    WRITTEN(jr_sincos(PI / 6, out), 2, 0.5, jr_sqrt(0.75));
    REFUSED(jr_sin(2e6, out), JR_ANGLE_TOO_LARGE);
}

static void vectors(void)
{
    const double a[3] = {1, 2, 3}, b[3] = {4, -7, 6}, m[3] = {1048576, 0, 0}, far[3] = {1048577, 0, 0};
    WRITTEN(jr_vec3_dot(a, b, out), 1, 8.0);
    WRITTEN(jr_vec3_cross(a, b, out), 3, 33.0, 6.0, -15.0);
    WRITTEN(jr_vec3_sum(a, b, out), 3, 5.0, -5.0, 9.0);
    WRITTEN(jr_vec3_difference(a, b, out), 3, -3.0, 9.0, -3.0);
    WRITTEN(jr_vec3_negation(a, out), 3, -1.0, -2.0, -3.0);
    WRITTEN(jr_vec3_times(a, 2, out), 3, 2.0, 4.0, 6.0);
    COUNTED(jr_vec3_dominant_axis(b, whole), 1);
    WRITTEN(jr_vec3_negation(m, out), 3, -1048576.0, 0.0, 0.0);
    REFUSED(jr_vec3_negation(far, out), JR_OUT_OF_RANGE);
}

static void motions(void)
{
    const double axis[3] = {0, 0, 2}, at[3] = {1, 2, 3}, back[3] = {-1, 0, 0};
    double m[JR_RIGID];
    WRITTEN(jr_rigid_rotation(axis, PI / 2, out), 12, 0.0, -1.0, 0.0, 1.0, 0.0, 0.0, 0.0, 0.0, 1.0, 0.0, 0.0, 0.0);
    WRITTEN(jr_rigid_frame(at, y, back, z, out), 12, 0.0, -1.0, 0.0, 1.0, 0.0, 0.0, 0.0, 0.0, 1.0, 1.0, 2.0, 3.0);
    answered(__LINE__, jr_rigid_frame(at, y, back, z, m), JR_OK);
    WRITTEN(jr_rigid_apply(m, x, out), 3, 1.0, 3.0, 3.0);
    WRITTEN(jr_rigid_apply_vector(m, x, out), 3, 0.0, 1.0, 0.0);
}

static void arcs(void)
{
    const double v[3] = {0, 3, 4}, o2[2] = {0, 0}, a2[2] = {1, 0}, b2[2] = {0, 1};
    const double a[JR_ARC] = {0, 0, 0, 0, 0, 1, 5}, from[3] = {5, 0, 0}, to[3] = {0, 5, 0};
    double row[JR_ARC_ROW];
    WRITTEN(jr_unit(v, out), 3, 0.0, 0.6, 0.8);
    REFUSED(jr_unit(zero, out), JR_NOT_FINITE);
    WRITTEN(jr_profile_arc_turn(o2, true, a2, b2, out), 1, PI / 2);
    WRITTEN(jr_profile_arc_turn(o2, false, a2, b2, out), 1, -1.5 * PI);
    WRITTEN(jr_arc_reversed(a, out), 7, 0.0, 0.0, 0.0, 0.0, 0.0, -1.0, 5.0);
    WRITTEN(jr_arc_sweep(a, from, to, out), 1, PI / 2);
    WRITTEN(jr_arc_sweep(a, from, from, out), 1, 2 * PI);
    WRITTEN(jr_arc_at(a, from, PI / 2, out), 3, 0.0, 5.0, 0.0);
    WRITTEN(jr_arc_extend_bounds(a, to, from, old(6, -6.0, 0.0, 0.0, 1.0, 0.0, 0.5)), 6, -6.0, -5.0, 0.0, 5.0, 5.0, 0.5);
    answered(__LINE__, jr_arc_extend_bounds(a, to, from, old(6, 0.0, 0.0, 0.0, NAN, 0.0, 0.0)), JR_BAD_BOX_OR_SUMS);
    old(6, UNTOUCHED, UNTOUCHED, UNTOUCHED, UNTOUCHED, UNTOUCHED, UNTOUCHED);
    WRITTEN(jr_per_turn(5, 5, out), 1, 12.0);
    WRITTEN(jr_per_turn(5, 0, out), 1, 64.0);
    REFUSED(jr_per_turn(5, -1, out), JR_BAD_TOLERANCE);
    COUNTED(jr_arc_inner_points(a, from, from, 5, row, JR_ARC_ROW, whole), 33);
    COUNTED(jr_arc_inner_points(a, from, from, 0, row, JR_ARC_ROW, whole), JR_ARC_ROW);
    NUMBER(row[3 * 31], -5);
    answered(__LINE__, jr_arc_inner_points(a, from, from, 0, row, JR_ARC_ROW - 1, whole), JR_ROW_TOO_SHORT);
    COUNTED(jr_arc_inner_points(a, from, to, 5, out, 6, whole), 6);
    WRITTEN(JR_OK, 6, 5 * jr_sqrt(0.75), 2.5, 0.0, 2.5, 5 * jr_sqrt(0.75), 0.0);
}

static void developments(void)
{
    const double dev[JR_DEVELOPMENT] = {0, 0, 0, 0, 0, 1, 1, 0, 0, 10};
    const double flat[JR_DEVELOPMENT] = {0, 0, 0, 0, 0, 1, 1, 0, 0, 0};
    const double m[JR_RIGID] = {0, -1, 0, 1, 0, 0, 0, 0, 1, 1, 2, 3};
    const double p[2] = {5 * PI, 3}, d[2] = {1, 2}, q[3] = {0, 4, 3};
    WRITTEN(jr_development_radial(dev, 5 * PI, out), 3, 0.0, 1.0, 0.0);
    WRITTEN(jr_development_point(dev, p, 4, out), 3, 0.0, 4.0, 3.0);
    WRITTEN(jr_development_along(dev, p, d, 20, out), 3, -2.0, 0.0, 2.0);
    WRITTEN(jr_development_unroll(dev, q, 20 * PI, out), 3, 25 * PI, 3.0, 4.0);
    WRITTEN(jr_development_moved(dev, m, out), 10, 1.0, 2.0, 3.0, 0.0, 0.0, 1.0, 0.0, 1.0, 0.0, 10.0);
    REFUSED(jr_development_radial(flat, 0, out), JR_NEUTRAL_NOT_POSITIVE);
}

static void traces(void)
{
    const double wave[JR_WAVE] = {2, 3, 0}, cut[JR_TRACE] = {2, 3, 0};
    const double end[JR_TRACE] = {0, 0, 20, 1, 0, 0, 10, 1, 0, 0};
    const double hole[JR_MEET] = {20, 0, 0, -1, 0, 0, 3, 10, 0, 2 * PI};
    const double r = jr_sqrt(91);
    WRITTEN(jr_wave_at(wave, 0, 10, out), 3, 5.0, 0.0, -0.03);
    WRITTEN(jr_wave_range(wave, 0, 10 * PI, 10, out), 2, -1.0, 5.0);
    WRITTEN(jr_meet_point(end, JR_TURN_NONE, 0, 5, out), 9, 5.0, 0.0, 10.0, 0.0, 5.0, 0.0, -5.0, 0.0, 2.5);
    WRITTEN(jr_meet_point(hole, JR_TURN_ANGLES, 0, 10, out), 9, r, -3.0, 0.0, 0.0, 0.0, 3.0, 9 / r, 3.0, 0.0);
    REFUSED(jr_meet_point(hole, JR_TURN_ANGLES + 1, 0, 10, out), JR_UNKNOWN_TAG);
    WRITTEN(jr_trace_v(cut, JR_TRACE_WAVE, 0, 10, out), 1, 5.0);
    WRITTEN(jr_trace_v(end, JR_TRACE_MEET, 0, 5, out), 1, 10.0);
    REFUSED(jr_trace_v(end, JR_TRACE_MEET_TURN, 0, 5, out), JR_NONE);
    REFUSED(jr_trace_v(end, JR_TRACE_NONE, 0, 5, out), JR_UNKNOWN_TAG);
    REFUSED(jr_trace_v(end, JR_TRACE_MEET_TURN + 1, 0, 5, out), JR_UNKNOWN_TAG);
    REFUSED(jr_trace_v(end, JR_TRACE_MEET, 10 * PI, 20, out), JR_NOT_FINITE);
}

/* Of a sheet with neutral radius 10: a segment, an arc of radius 5, a level wave. */
static const double line[JR_PIECE] = {0, 0, 0, 0, 0, 1, 1, 0, 0, 10, 0, 0, 8, 4};
static const double round5[JR_PIECE] = {0, 0, 0, 0, 0, 1, 1, 0, 0, 10, 5, 0, 0, 5};
static const double level[JR_PIECE] = {0, 0, 0, 0, 0, 1, 1, 0, 0, 10, 0, 2, 8, 2, 0, 0, 2};

static void pieces(void)
{
    const double p[2] = {5 * PI, 0};
    WRITTEN(jr_piece_uv_box(line, JR_ARC_NONE, JR_TRACE_NONE, out), 4, 0.0, 8.0, 0.0, 4.0);
    WRITTEN(jr_piece_uv_box(round5, JR_ARC_CCW, JR_TRACE_NONE, out), 4, -5.0, 5.0, -5.0, 5.0);
    COUNTED(jr_piece_polyline(line, JR_ARC_NONE, JR_TRACE_NONE, 1, whole), 1);
    COUNTED(jr_piece_polyline(level, JR_ARC_NONE, JR_TRACE_WAVE, 1, whole), 2);
    WRITTEN(jr_piece_at(line, JR_ARC_NONE, JR_TRACE_NONE, 0.25, out), 4, 2.0, 1.0, 8.0, 4.0);
    WRITTEN(jr_piece_second(round5, JR_ARC_CCW, JR_TRACE_NONE, 0, out), 2, -5 * PI * PI / 4, 0.0);
    WRITTEN(jr_piece_normal(level, JR_ARC_NONE, JR_TRACE_NONE, p, 10, out), 3, 0.0, 0.0, 1.0);
    WRITTEN(jr_piece_measure(round5, JR_ARC_CCW, JR_TRACE_NONE, out), 3, 5.0, PI / 2, 2.5 * PI);
    WRITTEN(jr_piece_measure(round5, JR_ARC_CW, JR_TRACE_NONE, out), 3, 5.0, 1.5 * PI, 7.5 * PI);
    COUNTED(jr_piece_quadrature_pieces(round5, JR_ARC_CW, JR_TRACE_NONE, whole), 6);
    COUNTED(jr_piece_chords(round5, JR_ARC_CW, JR_TRACE_NONE, 10, 10, whole), 9);
    REFUSED(jr_piece_measure(level, JR_ARC_CCW, JR_TRACE_WAVE, out), JR_ARC_AND_TRACE);
    REFUSED(jr_piece_measure(level, JR_ARC_CW + 1, JR_TRACE_NONE, out), JR_UNKNOWN_TAG);
    REFUSED(jr_piece_measure(level, JR_ARC_NONE, JR_TRACE_MEET_TURN + 1, out), JR_UNKNOWN_TAG);
}

/* So many numbers of an array are due. */
static void filled(int line, uint32_t got, const double *numbers, int count, ...)
{
    va_list due;
    va_start(due, count);
    answered(line, got, JR_OK);
    for (int k = 0; k < count; k++)
        number(line, numbers[k], va_arg(due, double));
    va_end(due);
}

#define FILLED(call, ...) filled(__LINE__, call, __VA_ARGS__)

/* A quarter turn about z, then a shift by (1, 2, 3). */
static const double move[JR_RIGID] = {0, -1, 0, 1, 0, 0, 0, 0, 1, 1, 2, 3};

/* A row of which the last place lies behind the longest curve's points. */
static double most[JR_CURVE_ROW + 1];

static uint32_t drawn(const double c[JR_CURVE], size_t length)
{
    return jr_curve_inner_points(c, JR_CURVE_PIECE, JR_ARC_NONE, JR_TRACE_NONE, zero, zero, 0, most, length, whole);
}

/* Along the axis of a pipe, 64 chords a turn: 4,096 for 19,301 mm, the most that there may be, and one more for 19,302. */
static void longest(void)
{
    double c[JR_CURVE] = {0, 0, 0, 0, 0, 1, 1, 0, 0, 48, 0, 0, 0, 19301};
    c[JR_CURVE_RADIUS] = 48;
    for (int k = 0; k <= JR_CURVE_ROW; k++)
        most[k] = UNTOUCHED;
    COUNTED(jr_piece_chords(c, JR_ARC_NONE, JR_TRACE_NONE, 48, 0, whole), 4096);
    answered(__LINE__, drawn(c, JR_CURVE_ROW - 1), JR_ROW_TOO_SHORT);
    c[JR_PIECE_TO + 1] = 19302;
    answered(__LINE__, jr_piece_chords(c, JR_ARC_NONE, JR_TRACE_NONE, 48, 0, whole), JR_COUNT_TOO_LARGE);
    answered(__LINE__, drawn(c, JR_CURVE_ROW + 1), JR_COUNT_TOO_LARGE);
    answered(__LINE__, drawn(c, 0), JR_COUNT_TOO_LARGE);
    int changed = 0;
    for (int k = 0; k <= JR_CURVE_ROW; k++)
        changed += most[k] != UNTOUCHED;
    NUMBER(changed, 0);
    c[JR_PIECE_TO + 1] = 19301;
    COUNTED(drawn(c, JR_CURVE_ROW), JR_CURVE_ROW);
    NUMBER(most[0], 48);
    NUMBER(most[2], 19301.0 / 4096);
    NUMBER(most[JR_CURVE_ROW - 1], 19301 * 4095.0 / 4096);
    NUMBER(most[JR_CURVE_ROW], UNTOUCHED);
}

static void curves(void)
{
    const double a[JR_CURVE] = {0, 0, 0, 0, 0, 1, 5}, from[3] = {5, 0, 0}, to[3] = {0, 5, 0};
    double w[JR_CURVE] = {0, 0, 0, 0, 0, 1, 1, 0, 0, 10, 0, 1, 5 * PI, 2}, got[JR_CURVE] = {0};
    double row[9];
    uint32_t tags[2] = {9, 9};
    w[26] = 10;
    FILLED(jr_piece_reversed(round5, JR_ARC_CCW, JR_TRACE_NONE, got, tags), got, 16, 0.0, 0.0, 0.0, 0.0, 0.0, 1.0, 1.0, 0.0, 0.0, 10.0, 0.0, 5.0, 5.0, 0.0, 0.0, 0.0);
    answered(__LINE__, tags[0], JR_ARC_CW);
    answered(__LINE__, tags[1], JR_TRACE_NONE);
    FILLED(jr_curve_reversed(a, JR_CURVE_ARC, 9, 9, got, tags), got, 7, 0.0, 0.0, 0.0, 0.0, 0.0, -1.0, 5.0);
    answered(__LINE__, tags[0], JR_ARC_CW);
    FILLED(jr_curve_reversed(w, JR_CURVE_PIECE, JR_ARC_NONE, JR_TRACE_NONE, got, tags), got + 10, 4, 5 * PI, 2.0, 0.0, 1.0);
    NUMBER(got[26], 10);
    answered(__LINE__, tags[0], JR_ARC_NONE);
    FILLED(jr_curve_moved(a, JR_CURVE_ARC, 0, 0, move, got), got, 7, 1.0, 2.0, 3.0, 0.0, 0.0, 1.0, 5.0);
    FILLED(jr_curve_moved(w, JR_CURVE_PIECE, JR_ARC_NONE, JR_TRACE_NONE, move, got), got, 10, 1.0, 2.0, 3.0, 0.0, 0.0, 1.0, 0.0, 1.0, 0.0, 10.0);
    WRITTEN(jr_curve_arc(a, JR_CURVE_ARC, 0, 0, out), 7, 0.0, 0.0, 0.0, 0.0, 0.0, 1.0, 5.0);
    REFUSED(jr_curve_arc(w, JR_CURVE_PIECE, JR_ARC_NONE, JR_TRACE_NONE, out), JR_NONE);
    REFUSED(jr_curve_arc(w, JR_CURVE_PIECE + 1, JR_ARC_NONE, JR_TRACE_NONE, out), JR_UNKNOWN_TAG);
    COUNTED(jr_curve_inner_points(a, JR_CURVE_ARC, 0, 0, from, to, 5, out, LENT, whole), 6);
    WRITTEN(JR_OK, 6, 5 * jr_sqrt(0.75), 2.5, 0.0, 2.5, 5 * jr_sqrt(0.75), 0.0);
    COUNTED(jr_curve_inner_points(w, JR_CURVE_PIECE, JR_ARC_NONE, JR_TRACE_NONE, from, to, 10, row, 9, whole), 9);
    answered(__LINE__, jr_sincos(PI / 8, out), JR_OK);
    NUMBER(row[0], 10 * out[1]);
    NUMBER(row[1], 10 * out[0]);
    NUMBER(row[2], 1.25);
    NUMBER(row[8], 1.75);
    old(2, UNTOUCHED, UNTOUCHED);
    REFUSED(jr_curve_inner_points(w, JR_CURVE_PIECE, JR_ARC_NONE, JR_TRACE_NONE, from, to, 10, out, 8, whole), JR_ROW_TOO_SHORT);
    longest();
    WRITTEN(jr_curve_extend_bounds(a, JR_CURVE_ARC, 0, 0, to, from, old(6, 0.0, 0.0, 0.0, 0.0, 0.0, 0.0)), 6, -5.0, -5.0, 0.0, 5.0, 5.0, 0.0);
    WRITTEN(jr_curve_extend_bounds(w, JR_CURVE_PIECE, JR_ARC_NONE, JR_TRACE_NONE, from, to, old(6, 1.0, 1.0, 1.0, 1.0, 1.0, 1.0)), 6, 0.0, 0.0, 1.0, 10.0, 10.0, 2.0);
}

static void surfaces(void)
{
    const double plane[JR_SURFACE] = {1, 2, 3, 0, 0, 2}, pipe[JR_SURFACE] = {0, 0, 0, 0, 0, 1, 5};
    const double taper[JR_SURFACE] = {0, 0, 0, 0, 0, 1, 5, 0.75}, p[3] = {0, 5, 0};
    const double cut[JR_SURFACE] = {0, 0, 0, 0, 0, 1, 1, 0, 0, 10, 0, 0, 10, 0};
    double got[JR_SURFACE] = {0};
    WRITTEN(jr_surface_plane(plane, JR_SURFACE_PLANE, true, 0, 0, out), 6, 1.0, 2.0, 3.0, 0.0, 0.0, 2.0);
    REFUSED(jr_surface_plane(pipe, JR_SURFACE_CYLINDER, true, 0, 0, out), JR_NONE);
    WRITTEN(jr_surface_revolution(pipe, JR_SURFACE_CYLINDER, true, 0, 0, out), 8, 0.0, 0.0, 0.0, 0.0, 0.0, 1.0, 5.0, 0.0);
    WRITTEN(jr_surface_revolution(taper, JR_SURFACE_CONE, true, 0, 0, out), 8, 0.0, 0.0, 0.0, 0.0, 0.0, 1.0, 5.0, 0.75);
    REFUSED(jr_surface_revolution(cut, JR_SURFACE_WALL, true, 0, 0, out), JR_NONE);
    REFUSED(jr_surface_revolution(cut, JR_SURFACE_WALL + 1, true, 0, 0, out), JR_UNKNOWN_TAG);
    FILLED(jr_surface_moved(plane, JR_SURFACE_PLANE, true, 0, 0, move, got), got, 6, -1.0, 3.0, 6.0, 0.0, 0.0, 2.0);
    WRITTEN(jr_surface_normal_at(plane, JR_SURFACE_PLANE, true, 0, 0, p, out), 3, 0.0, 0.0, 1.0);
    WRITTEN(jr_surface_normal_at(pipe, JR_SURFACE_CYLINDER, true, 0, 0, p, out), 3, 0.0, 1.0, 0.0);
    WRITTEN(jr_surface_normal_at(pipe, JR_SURFACE_CYLINDER, false, 0, 0, p, out), 3, 0.0, -1.0, 0.0);
    WRITTEN(jr_surface_normal_at(taper, JR_SURFACE_CONE, true, 0, 0, p, out), 3, 0.0, 0.8, -0.6);
    WRITTEN(jr_surface_normal_at(cut, JR_SURFACE_WALL, true, JR_ARC_NONE, JR_TRACE_NONE, p, out), 3, 0.0, 0.0, 1.0);
}

static void faces(void)
{
    const double c[JR_CONE] = {0, 0, 0, 0, 0, 1, 10, 0}, taper[JR_CONE] = {0, 0, 0, 0, 0, 1, 10, 1};
    const double f[JR_FRAME] = {0, 0, 1, 0, 0, 0, 1, 0, 0, 0, 1, 0}, p[3] = {0, 7, 1}, down[3] = {0, 0, -1};
    const double half[JR_ARC] = {0, 0, 0, 0, 0, 1, 2}, u[3] = {2, 0, 0}, v[3] = {-2, 0, 0};
    const double rim[JR_ARC] = {0, 0, 4, 0, 0, -1, 10}, at[3] = {10, 0, 4};
    const double top[JR_PIECE] = {0, 0, 0, 0, 0, 1, 1, 0, 0, 10, 10, 4, 0, 4};
    const double cut[JR_PIECE] = {0, 0, 0, 0, 0, 1, 1, 0, 0, 10, 0, 0, 10, 0};
    double side[JR_SUMS], s = 0, k = 0;
    answered(__LINE__, jr_sincos(1, out), JR_OK);
    s = out[0], k = 1 - out[1];
    old(2, UNTOUCHED, UNTOUCHED);
    WRITTEN(jr_cone_frame(c, out), 12, 0.0, 0.0, 1.0, 0.0, 0.0, 0.0, 1.0, 0.0, 0.0, 0.0, 1.0, 0.0);
    WRITTEN(jr_frame_angle(f, p, out), 1, PI / 2);
    WRITTEN(jr_frame_point(f, PI / 2, 3, 4, out), 3, 0.0, 4.0, 3.0);
    WRITTEN(jr_segment(NO_SUMS, half, z, u, v, z, down), 8, 4 * PI, 0.0, 32.0, 12 * PI, 0.0, 0.0, 0.0, 2 * PI);
    WRITTEN(jr_revolution_open(c, zero, out), 8, 0.0, 0.0, 0.0, 0.0, 0.0, 0.0, 0.0, 0.0);
    WRITTEN(jr_revolution_add_arc(c, zero, rim, at, at, NO_SUMS), 8, 1600 * PI, 0.0, 0.0, 9600 * PI, 80 * PI, 0.0, 0.0, 0.0);
    WRITTEN(jr_revolution_add_piece(c, zero, top, JR_ARC_NONE, JR_TRACE_NONE, NO_SUMS), 8, 800.0, 24000 * s, 24000 * k, 4800.0, 40.0, 40 * s, 40 * k, 0.0);
    for (int q = 0; q < JR_SUMS; q++)
        side[q] = q + 1;
    WRITTEN(jr_revolution_close(c, false, side, NO_SUMS), 8, 1.0, 2.0, 3.0, 4.0, -5.0, 6.0, 7.0, 8.0);
    WRITTEN(jr_wall(NO_SUMS, cut, JR_ARC_NONE, JR_TRACE_NONE, 9, 11, down), 8, 40.0, 1204 * s, 1204 * k, 120.0, 20.0, 0.0, 0.0, 20.0);
    answered(__LINE__, jr_revolution_add_piece(taper, zero, top, JR_ARC_NONE, JR_TRACE_NONE, NO_SUMS), JR_PIECE_ON_CONE);
}

/* Numbers put into an array from a place on. */
static void put(double *array, int at, int count, ...)
{
    va_list numbers;
    va_start(numbers, count);
    for (int k = 0; k < count; k++)
        array[at + k] = va_arg(numbers, double);
    va_end(numbers);
}

/* So many numbers of an array are due from a place on. */
static void there(int line, const double *array, int at, int count, ...)
{
    va_list due;
    va_start(due, count);
    for (int k = 0; k < count; k++)
        number(line, array[at + k], va_arg(due, double));
    va_end(due);
}

static void accepted(int line, uint32_t got)
{
    answered(line, got, JR_OK);
}

#define THERE(array, ...) there(__LINE__, array, __VA_ARGS__)
#define ACCEPTED(call) accepted(__LINE__, call)

/* The box of a piece at v = 1 from one angle to another about z, neutral radius and radius being r. */
static void turned(double r, double from, double to, double box[JR_BOUNDS])
{
    const double w[JR_CURVE] = {0, 0, 0, 0, 0, 1, 1, 0, 0, r, from * r, 1, to * r, 1, 0, 0, 0, 0, 0, 0, 0, 0, 0, 0, 0, 0, r};
    ACCEPTED(jr_curve_extend_bounds(w, JR_CURVE_PIECE, JR_ARC_NONE, JR_TRACE_NONE, zero, zero, box));
}

/* Once around, the box is whole or has no width, by how u over the neutral radius rounds; in halves it is
   whole. */
static void once_around(void)
{
    double whole28[JR_BOUNDS] = {28, 0, 1, 28, 0, 1}, whole52[JR_BOUNDS] = {52, 0, 1, 52, 0, 1};
    turned(28, 0, 2 * PI, whole28);
    THERE(whole28, 0, 6, -28.0, -28.0, 1.0, 28.0, 28.0, 1.0);
    turned(52, 0, 2 * PI, whole52);
    THERE(whole52, 0, 6, 52.0, 0.0, 1.0, 52.0, 0.0, 1.0);
    turned(52, 0, PI, whole52);
    turned(52, PI, 2 * PI, whole52);
    THERE(whole52, 0, 6, -52.0, -52.0, 1.0, 52.0, 52.0, 1.0);
}

/* Each place by its name, in calls whose answers another place would change. */
static const double side[3] = {6, 2, 3};

static void places_of_arcs(void)
{
    double m[JR_RIGID], a[JR_ARC], box[JR_BOUNDS], got[3];
    put(m, JR_RIGID_X, 3, 0.0, -1.0, 0.0);
    put(m, JR_RIGID_Y, 3, 0.0, 0.0, -1.0);
    put(m, JR_RIGID_Z, 3, 1.0, 0.0, 0.0);
    put(m, JR_RIGID_SHIFT, 3, 10.0, 20.0, 30.0);
    ACCEPTED(jr_rigid_apply(m, side, got));
    THERE(got, 0, 3, 8.0, 17.0, 36.0);
    put(a, JR_ARC_CENTER, 3, 1.0, 2.0, 3.0);
    put(a, JR_ARC_AXIS, 3, 0.0, 1.0, 0.0);
    put(a, JR_ARC_RADIUS, 1, 4.0);
    ACCEPTED(jr_arc_at(a, side, PI / 2, got));
    THERE(got, 0, 3, 1.0, 2.0, -1.0);
    put(box, JR_BOUNDS_LOW, 3, 0.0, 0.0, 0.0);
    put(box, JR_BOUNDS_HIGH, 3, 1.0, 1.0, 1.0);
    ACCEPTED(jr_arc_extend_bounds(a, side, side, box));
    THERE(box, JR_BOUNDS_LOW, 3, -3.0, 0.0, -1.0);
    THERE(box, JR_BOUNDS_HIGH, 3, 6.0, 2.0, 7.0);
}

/* A sheet of neutral radius 10 about the line through (1, 2, 3) along y; u begins towards z and turns
   towards x. */
static void put_sheet(double *dev)
{
    put(dev, JR_DEVELOPMENT_ORIGIN, 3, 1.0, 2.0, 3.0);
    put(dev, JR_DEVELOPMENT_AXIS, 3, 0.0, 1.0, 0.0);
    put(dev, JR_DEVELOPMENT_START, 3, 0.0, 0.0, 1.0);
    put(dev, JR_DEVELOPMENT_NEUTRAL, 1, 10.0);
}

static void places_of_developments(void)
{
    const double quarter[2] = {5 * PI, 7};
    double dev[JR_DEVELOPMENT], wave[JR_WAVE], p[3], got[3];
    put_sheet(dev);
    ACCEPTED(jr_development_point(dev, quarter, 4, p));
    THERE(p, 0, 3, 5.0, 9.0, 3.0);
    ACCEPTED(jr_development_unroll(dev, p, 0, got));
    THERE(got, JR_UNROLLED_UV, 2, 5 * PI, 7.0);
    THERE(got, JR_UNROLLED_RADIUS, 1, 4.0);
    put(wave, JR_WAVE_A, 1, 2.0);
    put(wave, JR_WAVE_B, 1, 30.0);
    put(wave, JR_WAVE_C, 1, 400.0);
    ACCEPTED(jr_wave_at(wave, 0, 10, got));
    THERE(got, 0, 3, 32.0, 40.0, -0.3);
}

/* A hole for a branch of radius 3 along -x in a pipe of radius 10, from an angle of 0 to half a turn. */
static void places_of_meets(void)
{
    const double u = 10 * jr_atan2(3, jr_sqrt(91));
    double w[JR_PIECE] = {0}, got[9], *meet = w + JR_PIECE_TRACE;
    put_sheet(w + JR_PIECE_DEV);
    put(w, JR_PIECE_FROM, 2, -u, 5.0);
    put(w, JR_PIECE_TO, 2, u, 5.0);
    put(meet, JR_MEET_ORIGIN, 3, 20.0, 0.0, 5.0);
    put(meet, JR_MEET_AXIS, 3, -1.0, 0.0, 0.0);
    put(meet, JR_MEET_RADIUS, 1, 3.0);
    put(meet, JR_MEET_OWN, 1, 10.0);
    put(meet, JR_MEET_TURN, 2, 0.0, PI);
    ACCEPTED(jr_meet_point(meet, JR_TURN_ANGLES, 0, 10, got));
    THERE(got, 0, 3, jr_sqrt(91), -3.0, 5.0);
    for (int k = 0; k < 3; k++) {
        ACCEPTED(jr_piece_at(w, JR_ARC_NONE, JR_TRACE_MEET_TURN, 0.5 * k, got));
        THERE(got, JR_PIECE_AT_POINT, 2, (k - 1) * u, k == 1 ? 8.0 : 5.0);
    }
}

/* Half a circle of radius 2 about (1, 2), then a segment over a quarter turn, 6 away from the axis. */
static void places_of_pieces(void)
{
    double c[JR_CURVE] = {0}, got[4], box[JR_BOUNDS] = {5, 5, 5, 5, 5, 5};
    put_sheet(c + JR_PIECE_DEV);
    put(c, JR_PIECE_FROM, 2, 3.0, 2.0);
    put(c, JR_PIECE_TO, 2, -1.0, 2.0);
    put(c, JR_PIECE_CENTER, 2, 1.0, 2.0);
    ACCEPTED(jr_piece_at(c, JR_ARC_CCW, JR_TRACE_NONE, 0.5, got));
    THERE(got, JR_PIECE_AT_POINT, 2, 1.0, 4.0);
    THERE(got, JR_PIECE_AT_DERIVATIVE, 2, -2 * PI, 0.0);
    ACCEPTED(jr_piece_uv_box(c, JR_ARC_CCW, JR_TRACE_NONE, got));
    THERE(got, JR_UV_BOX_U, 2, -1.0, 3.0);
    THERE(got, JR_UV_BOX_V, 2, 0.0, 4.0);
    ACCEPTED(jr_piece_measure(c, JR_ARC_CCW, JR_TRACE_NONE, got));
    THERE(got, JR_MEASURE_RADIUS, 1, 2.0);
    THERE(got, JR_MEASURE_TURN, 1, PI);
    THERE(got, JR_MEASURE_LENGTH, 1, 2 * PI);
    put(c, JR_PIECE_FROM, 2, 0.0, 0.0);
    put(c, JR_PIECE_TO, 2, 5 * PI, 4.0);
    put(c, JR_CURVE_RADIUS, 1, 6.0);
    ACCEPTED(jr_curve_extend_bounds(c, JR_CURVE_PIECE, JR_ARC_NONE, JR_TRACE_NONE, zero, zero, box));
    THERE(box, JR_BOUNDS_LOW, 3, 1.0, 2.0, 3.0);
    THERE(box, JR_BOUNDS_HIGH, 3, 7.0, 6.0, 9.0);
}

static void places_of_surfaces(void)
{
    const double up[3] = {6, 9, 3};
    double plane[JR_SURFACE] = {0}, cylinder[JR_SURFACE] = {0}, cone[JR_SURFACE] = {0}, got[JR_SURFACE];
    put(plane, JR_PLANE_ORIGIN, 3, 1.0, 2.0, 3.0);
    put(plane, JR_PLANE_NORMAL, 3, 0.0, 5.0, 0.0);
    ACCEPTED(jr_surface_moved(plane, JR_SURFACE_PLANE, true, 0, 0, move, got));
    THERE(got, JR_PLANE_ORIGIN, 3, -1.0, 3.0, 6.0);
    THERE(got, JR_PLANE_NORMAL, 3, -5.0, 0.0, 0.0);
    put(cylinder, JR_CYLINDER_ORIGIN, 3, 1.0, 2.0, 3.0);
    put(cylinder, JR_CYLINDER_AXIS, 3, 0.0, 1.0, 0.0);
    put(cylinder, JR_CYLINDER_RADIUS, 1, 5.0);
    ACCEPTED(jr_surface_normal_at(cylinder, JR_SURFACE_CYLINDER, true, 0, 0, up, got));
    THERE(got, 0, 3, 1.0, 0.0, 0.0);
    ACCEPTED(jr_surface_revolution(cylinder, JR_SURFACE_CYLINDER, true, 0, 0, got));
    THERE(got, JR_CONE_RADIUS, 1, 5.0);
    put(cone, JR_CONE_ORIGIN, 3, 1.0, 2.0, 3.0);
    put(cone, JR_CONE_AXIS, 3, 0.0, 1.0, 0.0);
    put(cone, JR_CONE_SLOPE, 1, 0.75);
    ACCEPTED(jr_surface_normal_at(cone, JR_SURFACE_CONE, true, 0, 0, up, got));
    THERE(got, 0, 3, 0.8, -0.6, 0.0);
}

/* The side of a cone from its origin, where its radius is 5, up to the height 4, where it is 8: the slant
   is 5, and the normal lies 3 parts in 5 against the axis, 4 away from the origin. */
static void places_of_faces(void)
{
    const double o[3] = {1, 2, 3}, p[3] = {9, 6, 3}, rim[JR_ARC] = {1, 6, 3, 0, -1, 0, 8};
    double cone[JR_CONE], frame[JR_FRAME], sums[JR_SUMS], got[3];
    put(cone, JR_CONE_ORIGIN, 3, 1.0, 2.0, 3.0);
    put(cone, JR_CONE_AXIS, 3, 0.0, 1.0, 0.0);
    put(cone, JR_CONE_RADIUS, 1, 5.0);
    put(cone, JR_CONE_SLOPE, 1, 0.75);
    ACCEPTED(jr_cone_frame(cone, frame));
    THERE(frame, JR_FRAME_AXIS, 3, 0.0, 1.0, 0.0);
    THERE(frame, JR_FRAME_ORIGIN, 3, 1.0, 2.0, 3.0);
    THERE(frame, JR_FRAME_E1, 3, 1.0, 0.0, 0.0);
    THERE(frame, JR_FRAME_E2, 3, 0.0, 0.0, -1.0);
    ACCEPTED(jr_frame_point(frame, PI / 2, 10, 100, got));
    THERE(got, 0, 3, 1.0, 12.0, -97.0);
    ACCEPTED(jr_revolution_open(cone, o, sums));
    ACCEPTED(jr_revolution_add_arc(cone, o, rim, p, p, sums));
    THERE(sums, JR_SUMS_SIX_V, 1, 2 * 4 * 65 * PI);
    THERE(sums, JR_SUMS_MOMENT, 3, 0.0, 6 * 4 * 140 * PI, 0.0);
    THERE(sums, JR_SUMS_AREA, 1, 65 * PI);
    THERE(sums, JR_SUMS_AREA_VECTOR, 3, 0.0, -39 * PI, 0.0);
}

/* A pipe about z with the radii 46 and 50 whose upper end is cut to fit a main pipe of radius 60 along x,
   150 above its foot; o is no point of it. */
enum { LOWER, UPPER };
static const double o[3] = {7, -3, 11};

/* An end of the pipe once around, towards greater u or towards lesser u, and its tag. */
static uint32_t put_end(double *w, int end, bool greater)
{
    const double foot = end == LOWER ? 0 : 90, u[2] = {0, 96 * PI};
    for (int k = 0; k < JR_PIECE; k++)
        w[k] = 0;
    put(w + JR_PIECE_DEV, JR_DEVELOPMENT_AXIS, 3, 0.0, 0.0, 1.0);
    put(w + JR_PIECE_DEV, JR_DEVELOPMENT_START, 3, 1.0, 0.0, 0.0);
    put(w + JR_PIECE_DEV, JR_DEVELOPMENT_NEUTRAL, 1, 48.0);
    put(w, JR_PIECE_FROM, 2, u[!greater], foot);
    put(w, JR_PIECE_TO, 2, u[greater], foot);
    put(w + JR_PIECE_TRACE, JR_MEET_ORIGIN, 3, 0.0, 0.0, 150.0);
    put(w + JR_PIECE_TRACE, JR_MEET_AXIS, 3, 1.0, 0.0, 0.0);
    put(w + JR_PIECE_TRACE, JR_MEET_RADIUS, 1, 60.0);
    put(w + JR_PIECE_TRACE, JR_MEET_OWN, 1, 1.0);
    return end == LOWER ? JR_TRACE_NONE : JR_TRACE_MEET;
}

/* The side of a radius, which is the pipe's outer one or its bore. Seen from outside the body the face is
   on the left of both edges. */
static void add_side(double radius, bool convex, double *sums)
{
    const double c[JR_CONE] = {0, 0, 0, 0, 0, 1, radius, 0};
    double w[JR_PIECE], running[JR_SUMS];
    ACCEPTED(jr_revolution_open(c, o, running));
    for (int end = LOWER; end <= UPPER; end++) {
        uint32_t trace = put_end(w, end, (end == LOWER) == convex);
        ACCEPTED(jr_revolution_add_piece(c, o, w, JR_ARC_NONE, trace, running));
    }
    ACCEPTED(jr_revolution_close(c, convex, running, sums));
}

/* The wall of an end, with the body on the right of the piece. */
static void add_end(int end, double *sums)
{
    double w[JR_PIECE];
    uint32_t trace = put_end(w, end, end == UPPER);
    ACCEPTED(jr_wall(sums, w, JR_ARC_NONE, trace, 46, 50, o));
}

/* The volume is the pipe's cross section times the mean height of the cut, and the area vector is 0. */
static void closed_body(void)
{
    double sums[JR_SUMS] = {0}, w[JR_PIECE], v[1], mean = 0;
    put_end(w, UPPER, true);
    for (int k = 0; k < 64; k++) {
        ACCEPTED(jr_trace_v(w + JR_PIECE_TRACE, JR_TRACE_MEET, 96 * PI * k / 64, 48, v));
        mean += v[0] / 64;
    }
    add_side(50, true, sums);
    add_side(46, false, sums);
    add_end(LOWER, sums);
    add_end(UPPER, sums);
    for (int k = 0; k < 3; k++)
        NUMBER(1e-5 * sums[JR_SUMS_AREA_VECTOR + k], 0);
    NUMBER(sums[JR_SUMS_SIX_V] / 6, PI * (50 * 50 - 46 * 46) * mean);
    for (int k = 0; k < 2; k++)
        NUMBER(1e-2 * (o[k] + sums[JR_SUMS_MOMENT + k] / (4 * sums[JR_SUMS_SIX_V])), 0);
    /* One face run the wrong way is told by the area vector. */
    add_end(LOWER, sums);
    NUMBER(sums[JR_SUMS_AREA_VECTOR + 2], -PI * (50 * 50 - 46 * 46));
}

int main(void)
{
    for (int k = 0; k < LENT; k++)
        out[k] = UNTOUCHED;
    numbers();
    vectors();
    motions();
    arcs();
    developments();
    traces();
    pieces();
    curves();
    surfaces();
    faces();
    once_around();
    places_of_arcs();
    places_of_developments();
    places_of_meets();
    places_of_pieces();
    places_of_surfaces();
    places_of_faces();
    closed_body();
    printf("%d numbers and answers, %d wrong\n", cases, wrong);
    return wrong != 0;
}

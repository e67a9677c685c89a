/* Saddle cuts: the upper end of a branch pipe, cut to fit a main pipe that runs along x and whose
   axis crosses the branch's axis z. Reads cuts, five numbers each: the outer radius of the branch
   and its neutral radius, the radius of the main pipe, the height of that one's axis, and how far a
   chord may be off the cut. Prints of each cut the box of its blank's edge, its box in space and the
   points that draw it, or its refusal. */
#include <juniperreef.h>
#include <math.h>
#include <stdio.h>
#include <string.h>

#define HALF_A_TURN 3.141592653589793

struct cut {
    double outer, neutral, main, height, chord;
};

static int read_cut(struct cut *c)
{
    return scanf("%lf %lf %lf %lf %lf", &c->outer, &c->neutral, &c->main, &c->height, &c->chord) == 5;
}

static void print(const char *word, const double *numbers, int count)
{
    printf("%s", word);
    for (int k = 0; k < count; k++)
        printf(" %.3f", numbers[k]);
    printf("\n");
}

/* The edge of the cut on the outside of the branch, once around it: a piece of its development that
   follows the meet with the main pipe, and its distance from the axis. */
static void edge_of(const struct cut *c, double edge[JR_CURVE])
{
    double *dev = edge + JR_PIECE_DEV, *meet = edge + JR_PIECE_TRACE;
    for (int k = 0; k < JR_CURVE; k++)
        edge[k] = 0;
    dev[JR_DEVELOPMENT_AXIS + 2] = 1;
    dev[JR_DEVELOPMENT_START + 0] = 1;
    dev[JR_DEVELOPMENT_NEUTRAL] = c->neutral;
    meet[JR_MEET_ORIGIN + 2] = c->height;
    meet[JR_MEET_AXIS + 0] = 1;
    meet[JR_MEET_RADIUS] = c->main;
    meet[JR_MEET_OWN] = 1;
    edge[JR_PIECE_FROM + 0] = 0;
    edge[JR_PIECE_FROM + 1] = c->height - c->main;
    edge[JR_PIECE_TO + 0] = 2 * HALF_A_TURN * c->neutral;
    edge[JR_PIECE_TO + 1] = c->height - c->main;
    edge[JR_CURVE_RADIUS] = c->outer;
}

/* A piece has ends of its own: those that a call takes are tried and not used. */
static const double none[JR_VEC3] = {0, 0, 0};

/* The box with the edge, one half of it after the other: a box call takes less than a turn. */
static uint32_t widen(const struct cut *c, const double edge[JR_CURVE], double box[JR_BOUNDS])
{
    double half[JR_CURVE];
    uint32_t answer = JR_OK;
    memcpy(half, edge, sizeof half);
    for (int k = 0; k < 2 && answer == JR_OK; k++) {
        half[JR_PIECE_FROM] = k * HALF_A_TURN * c->neutral;
        half[JR_PIECE_TO] = (k + 1) * HALF_A_TURN * c->neutral;
        answer = jr_curve_extend_bounds(half, JR_CURVE_PIECE, JR_ARC_NONE, JR_TRACE_MEET, none, none, box);
    }
    return answer;
}

/* What the points of an edge are written to: no curve asks for more. */
static double row[JR_CURVE_ROW];

int main(void)
{
    struct cut c;
    for (int k = 1; read_cut(&c); k++) {
        double edge[JR_CURVE], blank[4];
        double box[JR_BOUNDS] = {INFINITY, INFINITY, INFINITY, -INFINITY, -INFINITY, -INFINITY};
        uint64_t count = 0;
        edge_of(&c, edge);
        uint32_t answer = jr_piece_uv_box(edge, JR_ARC_NONE, JR_TRACE_MEET, blank);
        if (answer == JR_OK)
            answer = widen(&c, edge, box);
        if (answer == JR_OK)
            answer = jr_curve_inner_points(edge, JR_CURVE_PIECE, JR_ARC_NONE, JR_TRACE_MEET, none, none, c.chord, row,
                                           JR_CURVE_ROW, &count);
        if (answer == JR_OK) {
            printf("cut %d: %d points between its ends\n", k, (int)(count / JR_VEC3));
            print("  blank, u from and to", blank + JR_UV_BOX_U, 2);
            print("  blank, v from and to", blank + JR_UV_BOX_V, 2);
            print("  box, low corner", box + JR_BOUNDS_LOW, JR_VEC3);
            print("  box, high corner", box + JR_BOUNDS_HIGH, JR_VEC3);
            for (uint64_t at = 0; at < count; at += JR_VEC3)
                print("   ", row + at, JR_VEC3);
        } else {
            printf("cut %d: refused, %u %s\n", k, (unsigned)answer, jr_name(answer));
        }
    }
    return 0;
}

/* The header from C: every function is called, on document 01's worked numbers where there are some. */
#include "../tasulogi.h"
#include "../tasulogi_refusals.h"

#include <float.h>
#include <math.h>
#include <stdio.h>
#include <string.h>

static int passed, failed;

static void expect(bool holds, const char *what)
{
    if (holds) {
        passed++;
    } else {
        failed++;
        printf("FAILED: %s\n", what);
    }
}

static bool same(double a, double b)
{
    return memcmp(&a, &b, sizeof a) == 0;
}

/* A run of six marked numbers, of which the inner four are lent. */
static double run[6];

static double *lent(void)
{
    for (int i = 0; i < 6; i++) {
        run[i] = 7.0;
    }
    return run + 1;
}

static bool left(double a, double b)
{
    return same(run[0], 7.0) && same(run[1], a) && same(run[2], b) && same(run[3], 0.0) && same(run[4], 0.0) && same(run[5], 7.0);
}

static void doubles(void)
{
    double t = ldexp(1.0, -1074);
    expect(tasulogi_is_nan(NAN) && !tasulogi_is_nan(1.0), "is_nan");
    expect(tasulogi_is_finite(-1.0) && !tasulogi_is_finite(INFINITY) && !tasulogi_is_finite(NAN), "is_finite");
    expect(same(tasulogi_next_up(-t), -0.0), "next_up of -2^-1074 is -0.0");
    expect(same(tasulogi_next_up(0.0), t) && same(tasulogi_next_up(-0.0), t), "next_up of either zero is 2^-1074");
    expect(same(tasulogi_next_down(0.0), -t), "next_down of 0");
    expect(same(tasulogi_min(1.0, NAN), 1.0) && same(tasulogi_max(NAN, 2.0), 2.0), "min and max of a number and NaN");
    expect(tasulogi_place(0.0) == 0 && tasulogi_place(-t) == -1 && tasulogi_place(NAN) == 0, "place");
    expect(tasulogi_steps(-t, t) == 2 && tasulogi_steps(1.0, -1.0) == 0, "steps");
    expect(tasulogi_steps(-INFINITY, INFINITY) == 2 * UINT64_C(0x7ff0000000000000), "steps over the whole line");
}

static void intervals(void)
{
    double ulp = ldexp(1.0, -51);
    double t = ldexp(1.0, -1074);
    expect(tasulogi_interval_add(1.0, 1.0, 2.0, 2.0, lent(), 4) == TASULOGI_DONE && left(3.0 - ulp, 3.0 + ulp), "[1,1] + [2,2]");
    expect(tasulogi_interval_mul(0.0, 0.0, 5.0, 5.0, lent(), 4) == TASULOGI_DONE && left(-t, t), "[0,0] * [5,5]");
    expect(tasulogi_interval_sqr(-1.0, 2.0, lent(), 4) == TASULOGI_DONE && left(0.0, 4.0 + 2 * ulp), "sqr of [-1,2]");
    expect(tasulogi_interval_sub(1.0, 2.0, 0.0, 1.0, lent(), 4) == TASULOGI_DONE && left(-t, nextafter(2.0, 3.0)), "[1,2] - [0,1]");
    expect(tasulogi_interval_neg(-1.0, 2.0, lent(), 4) == TASULOGI_DONE && left(-2.0, 1.0), "-[-1,2]");
    expect(tasulogi_interval_hull(-1.0, 0.5, 0.25, 2.0, lent(), 4) == TASULOGI_DONE && left(-1.0, 2.0), "hull");
    expect(tasulogi_interval_new(1.0, 2.0, lent(), 4) == TASULOGI_DONE && left(1.0, 2.0), "new");
    expect(tasulogi_interval_entire(lent(), 4) == TASULOGI_DONE && left(-INFINITY, INFINITY), "entire");
    expect(tasulogi_interval_point(NAN, lent(), 4) == TASULOGI_DONE && left(-INFINITY, INFINITY), "the point of NaN");
    expect(tasulogi_interval_width(1.0, 2.0, lent(), 4) == TASULOGI_DONE && left(nextafter(1.0, 2.0), 0.0), "width");
    expect(tasulogi_interval_contains(0.0, 1.0, -0.0) == 1 && tasulogi_interval_contains(0.0, 1.0, 2.0) == 0, "contains");
    expect(tasulogi_interval_sign(1.0, 2.0) == TASULOGI_SIGN_POSITIVE && tasulogi_interval_sign(-2.0, -1.0) == TASULOGI_SIGN_NEGATIVE, "sign");
    expect(tasulogi_interval_sign(-0.0, 0.0) == TASULOGI_SIGN_ZERO && tasulogi_interval_sign(-1.0, 1.0) == TASULOGI_SIGN_UNKNOWN, "no sign");
    expect(tasulogi_interval_divide(1.0, 1.0, 2.0, 2.0, lent(), 4) == TASULOGI_DONE && run[1] < 0.5 && run[2] > 0.5, "[1,1] / [2,2]");
}

static void refusals(void)
{
    expect(tasulogi_interval_divide(1.0, 1.0, -1.0, 1.0, lent(), 4) == TASULOGI_DIVISOR_CONTAINS_ZERO && left(0.0, 0.0), "a divisor with 0");
    expect(tasulogi_interval_new(2.0, 1.0, lent(), 4) == TASULOGI_NO_INTERVAL && left(0.0, 0.0), "ends the wrong way round");
    expect(tasulogi_interval_add(1.0, 1.0, NAN, 1.0, lent(), 4) == TASULOGI_NO_INTERVAL && left(0.0, 0.0), "a NaN end");
    lent();
    expect(tasulogi_interval_add(1.0, 1.0, 2.0, 2.0, run + 4, 1) == TASULOGI_TOO_LITTLE_ROOM && same(run[4], 0.0) && same(run[5], 7.0), "a run one short");
    expect(tasulogi_interval_entire(run, 0) == TASULOGI_TOO_LITTLE_ROOM, "an empty run");
}

/* Table A of document 01. */
static const double knots[] = { 0, 0, 0, 1, 2, 2, 2 };
static const double points[] = { 0, 0, 0, 2, 0, 0, 4, 0, 0, 6, 0, 0 };
static const double none[1];

static uint64_t curve(size_t degree, size_t knots_n, size_t points_n)
{
    return tasulogi_curve_refusal(degree, knots, knots_n, points, points_n, false, none, 0);
}

static void tables(void)
{
    expect(tasulogi_class_of(5) == TASULOGI_DEGENERATE && tasulogi_class_of(31) == TASULOGI_CAPACITY, "classes");
    expect(tasulogi_class_of(TASULOGI_OUTSIDE_DOMAIN) == TASULOGI_INVALID, "the class of 43");
    expect(tasulogi_class_of(0) == TASULOGI_NO_CLASS && tasulogi_class_of(34) == TASULOGI_NO_CLASS, "no class");
    expect(curve(2, 7, 12) == 0, "table A");
    expect(curve(0, 7, 12) == 1 && curve(4, 7, 12) == 2 && curve(2, 6, 12) == 3 && curve(2, 7, 11) == 32, "refusals of a curve");
    static const double ends[] = { 0, 0, 1, 1 };
    uint64_t r = tasulogi_surface_refusal(2, 1, knots, 7, ends, 4, 2, 2, points, 12, false, none, 0);
    expect(TASULOGI_REFUSAL(r) == 2 && TASULOGI_DIRECTION(r) == 1, "a refusal along u");
    r = tasulogi_surface_refusal(1, 0, ends, 4, ends, 4, 2, 2, points, 12, false, none, 0);
    expect(TASULOGI_REFUSAL(r) == 1 && TASULOGI_DIRECTION(r) == 2, "a refusal along v");
    expect(tasulogi_surface_refusal(1, 1, ends, 4, ends, 4, 2, 2, points, 12, false, none, 0) == 0, "a surface");
}

/* tasulogi_refusals.h has the proved classes, each number at its place. */
static void texts(void)
{
    const uint32_t rows = sizeof tasulogi_refusals / sizeof *tasulogi_refusals;
    uint32_t texts = 0;
    for (uint32_t n = 0; n < 100; n++) {
        uint8_t class = tasulogi_class_of(n);
        bool text = strcmp(tasulogi_refusal_text(n), "no refusal of document 01") != 0;
        texts += text;
        expect(text == (class != TASULOGI_NO_CLASS), "a text of each number that has a class, and of no other");
        expect(n < rows ? tasulogi_refusals[n].number == n && tasulogi_refusals[n].letter == "IDUCN-"[class] : !text, "the class of a text");
    }
    expect(strcmp(tasulogi_refusal_text(12), "evaluation parameter not finite") == 0, "a text");
    expect(strcmp(tasulogi_refusal_text(43), "evaluation parameter outside the domain") == 0, "a text behind a gap");
    expect(strcmp(tasulogi_refusal_text(28), "quotient interval cannot be formed; never given") == 0, "the mark of 28");
    expect(strcmp(tasulogi_refusal_text(29), "weight enclosures do not meet; never given") == 0, "the mark of 29");
    expect(texts == 34 && rows == 55, "how many texts");
}

static void spans(void)
{
    static const double u[] = { 0, 0.5, 1, 2, -1, 3 };
    static const uint64_t at[] = { 2, 2, 3, 3, 2, 3 };
    for (int i = 0; i < 6; i++) {
        expect(tasulogi_find_span_clamped(2, 4, knots, 7, u[i]) == at[i], "spans of A, and outside its domain");
        expect(TASULOGI_SPAN_REFUSAL(tasulogi_find_span(2, 4, knots, 7, u[i])) == (i < 4 ? 0 : 43), "refused outside");
    }
    expect(TASULOGI_SPAN_REFUSAL(tasulogi_find_span(2, 4, knots, 7, NAN)) == 12, "a NaN parameter");
    expect(tasulogi_next_span(2, 4, knots, 7, 0) == 2 && tasulogi_next_span(2, 4, knots, 7, 3) == 3, "next_span");
    expect(tasulogi_next_span(2, 4, knots, 7, 4) == 4, "no next span");
    expect(same(tasulogi_clamp(2, 4, 3.0, knots, 7), 2.0) && same(tasulogi_clamp(2, 4, -0.0, knots, 7), -0.0), "clamp");
}

static void boxes(void)
{
    double box[TASULOGI_BOX + 1];
    box[TASULOGI_BOX] = 7.0;
    expect(tasulogi_bound_curve(2, knots, 7, points, 12, false, none, 0, 0.5, 0.5, box, TASULOGI_BOX + 1) == TASULOGI_DONE, "a bound of A");
    expect(box[0] < 1.75 && box[1] > 1.75 && box[1] - box[0] < 1e-12 && same(box[TASULOGI_BOX], 0.0), "the point of A at 0.5, and the tail");
    expect(box[6] < 3.0 && box[7] > 3.0 && box[7] - box[6] < 1e-12, "its derivative, of x = 4t - t^2");
    expect(box[12] <= 0.0 && box[13] >= 0.0 && box[13] - box[12] < 1e-300, "a curve's dv is 0");
    expect(tasulogi_bound_curve(2, knots, 7, points, 12, false, none, 0, 0.5, 1.5, box, TASULOGI_BOX) == 25 && same(box[0], 0.0), "A on [0.5, 1.5]");
    expect(tasulogi_bound_curve(2, knots, 7, points, 12, false, none, 0, 0.5, 0.5, box, TASULOGI_BOX - 1) == TASULOGI_TOO_LITTLE_ROOM, "a box one short");
    double point[TASULOGI_POINT_BOX + 1];
    point[TASULOGI_POINT_BOX] = 7.0;
    tasulogi_bound_curve(2, knots, 7, points, 12, false, none, 0, 0.0, 1.0, box, TASULOGI_BOX);
    expect(tasulogi_bound_point(2, knots, 7, points, 12, false, none, 0, 0.0, 1.0, point, TASULOGI_POINT_BOX + 1) == TASULOGI_DONE, "a bound of A's point");
    expect(memcmp(point, box, TASULOGI_POINT_BOX * sizeof *point) == 0 && same(point[TASULOGI_POINT_BOX], 0.0), "the point of the box, and the tail");
    expect(tasulogi_bound_point(2, knots, 7, points, 12, false, none, 0, 0.5, 1.5, point, TASULOGI_POINT_BOX) == 25 && same(point[0], 0.0), "the point of A on [0.5, 1.5]");
    expect(tasulogi_bound_point(2, knots, 7, points, 12, false, none, 0, 0.5, 0.5, point, TASULOGI_POINT_BOX - 1) == TASULOGI_TOO_LITTLE_ROOM, "a point's box one short");
    static const double ends[] = { 0, 0, 1, 1 };
    expect(tasulogi_bound_surface(1, 1, ends, 4, ends, 4, 2, 2, points, 12, false, none, 0, 0.5, 0.5, 0.5, 0.5, box, TASULOGI_BOX) == TASULOGI_DONE, "a bound of a surface");
    expect(box[0] < 3.0 && box[1] > 3.0 && box[1] - box[0] < 1e-12, "its point");
    expect(box[6] < 4.0 && box[7] > 4.0 && box[7] - box[6] < 1e-12, "its derivative along u, of x = 4u + 2v");
    expect(box[12] < 2.0 && box[13] > 2.0 && box[13] - box[12] < 1e-12, "along v");
    expect(tasulogi_bound_surface(0, 1, ends, 4, ends, 4, 2, 2, points, 12, false, none, 0, 0.5, 0.5, 0.5, 0.5, box, TASULOGI_BOX) == 101, "degree 0 along u");
}

static void evaluations(void)
{
    double out[10];
    out[6] = 7.0;
    expect(tasulogi_eval(2, knots, 7, points, 12, false, none, 0, 0.5, out, 7) == TASULOGI_DONE, "a point of A");
    expect(same(out[0], 1.75) && same(out[3], 3.0) && same(out[6], 0.0), "A at 0.5, its derivative, and the tail");
    expect(tasulogi_eval(2, knots, 7, points, 12, false, none, 0, NAN, out, 6) == 12 && same(out[0], 0.0), "at a NaN");
    expect(tasulogi_eval(2, knots, 7, points, 12, false, none, 0, 0.5, out, 5) == TASULOGI_TOO_LITTLE_ROOM, "a point one short");
    expect(tasulogi_eval2(2, knots, 7, points, 12, false, none, 0, 0.5, out, 9) == TASULOGI_DONE && same(out[6], -2.0), "second derivative");
    static const double ends[] = { 0, 0, 1, 1 };
    expect(tasulogi_eval_surface(1, 1, ends, 4, ends, 4, 2, 2, points, 12, false, none, 0, 0.5, 0.5, out, 9) == TASULOGI_DONE, "a surface");
    expect(same(out[0], 3.0) && same(out[3], 4.0) && same(out[6], 2.0), "its point and derivatives");
}

static void many(void)
{
    static const double ts[] = { 0.5, NAN, 2 };
    uint32_t numbers[4] = { 7, 7, 7, 7 };
    double rows[28];
    rows[18] = rows[27] = 7.0;
    expect(tasulogi_eval_many(2, knots, 7, points, 12, false, none, 0, ts, 3, numbers, 4, rows, 19) == TASULOGI_DONE, "points of A");
    expect(numbers[0] == 0 && numbers[1] == 12 && numbers[2] == 0 && numbers[3] == 0, "their refusals");
    expect(same(rows[0], 1.75) && same(rows[3], 3.0) && same(rows[6], 0.0) && same(rows[12], 6.0) && same(rows[18], 0.0), "their numbers");
    expect(tasulogi_eval_many(2, knots, 7, points, 12, false, none, 0, ts, 3, numbers, 2, rows, 18) == 30 && numbers[1] == 0 && same(rows[0], 0.0), "no room for points");
    expect(tasulogi_eval2_many(2, knots, 7, points, 12, false, none, 0, ts, 3, numbers, 3, rows, 28) == TASULOGI_DONE, "two derivatives");
    expect(numbers[1] == 12 && same(rows[6], -2.0) && same(rows[18], 6.0) && same(rows[27], 0.0), "their numbers");
    uint32_t marks[5] = { 7, 7, 7, 7, 7 };
    double boxes[2 * TASULOGI_BOX], box[TASULOGI_BOX];
    expect(tasulogi_bound_spans(2, knots, 7, points, 12, false, none, 0, marks, 5, boxes, 2 * TASULOGI_BOX) == 2, "the spans of A");
    expect(marks[0] == 2 && marks[1] == 0 && marks[2] == 3 && marks[3] == 0 && marks[4] == 0, "their places");
    tasulogi_bound_curve(2, knots, 7, points, 12, false, none, 0, 1.0, 2.0, box, TASULOGI_BOX);
    expect(memcmp(box, boxes + TASULOGI_BOX, sizeof box) == 0, "the box of one span");
    expect(TASULOGI_SPAN_REFUSAL(tasulogi_bound_spans(0, knots, 7, points, 12, false, none, 0, marks, 5, boxes, 36)) == 1 && marks[0] == 0 && same(boxes[0], 0.0), "no curve");
    expect(tasulogi_bound_points(2, knots, 7, points, 12, false, none, 0, marks, 5, boxes, 2 * TASULOGI_POINT_BOX + 1) == 2, "the points of A's spans");
    expect(marks[0] == 2 && marks[1] == 0 && marks[2] == 3 && marks[3] == 0 && marks[4] == 0, "their places");
    expect(memcmp(box, boxes + TASULOGI_POINT_BOX, TASULOGI_POINT_BOX * sizeof *box) == 0 && same(boxes[2 * TASULOGI_POINT_BOX], 0.0), "the point of one span, and the tail");
    expect(TASULOGI_SPAN_REFUSAL(tasulogi_bound_points(0, knots, 7, points, 12, false, none, 0, marks, 5, boxes, 12)) == 1 && marks[0] == 0 && same(boxes[0], 0.0), "no curve");
}

static void made(void)
{
    double k[8], p[12], w[4];
    k[7] = 7.0;
    expect(tasulogi_reversed(2, knots, 7, points, 12, false, none, 0, k, 8, p, 12, w, 0) == TASULOGI_DONE, "A reversed");
    expect(same(k[0], 0.0) && same(k[6], 2.0) && same(k[7], 0.0) && same(p[0], 6.0) && same(p[9], 0.0), "its runs");
    expect(tasulogi_reversed(2, knots, 7, points, 12, false, none, 0, k, 7, p, 11, w, 0) == 30 && same(k[6], 0.0), "no room");
    static const double ends[] = { 0, 0, 1, 1 };
    expect(tasulogi_iso_curve(1, 1, ends, 4, ends, 4, 2, 2, points, 12, false, none, 0, true, 0.5, p, 6, w, 2) == TASULOGI_DONE, "an isocurve");
    expect(same(p[0], 2.0) && same(p[3], 4.0) && same(w[0], 1.0) && same(w[1], 1.0), "its points and weights");
    expect(tasulogi_iso_curve(1, 1, ends, 4, ends, 4, 2, 2, points, 12, false, none, 0, true, 1.5, p, 6, w, 2) == 22, "outside");
}

static bool formed(uint64_t returned, size_t count)
{
    return TASULOGI_EDIT_REFUSAL(returned) == TASULOGI_DONE && TASULOGI_EDIT_COUNT(returned) == count;
}

static bool refused(uint64_t returned, uint32_t number)
{
    return TASULOGI_EDIT_REFUSAL(returned) == number && TASULOGI_PLACE(returned) == 0;
}

/* Document 01: inserting 1 into A gives x = 0 2 3 4 6, knots 0 0 0 1 1 2 2 2; trimming A to [0, 1] gives x = 0 2 3,
 * knots 0 0 0 1 1 1; a line from 0 to 2 raised to 2 gives x = 0 1 2; A raised to 3 has 7 points. */
static void edits(void)
{
    static const double knots[] = { 0, 0, 0, 1, 2, 2, 2 }, points[] = { 0, 0, 0, 2, 0, 0, 4, 0, 0, 6, 0, 0 };
    static const double one[] = { 1 }, two[] = { 2 }, none[1];
    double k[8], p[15], w[1], scratch[56];
    expect(formed(tasulogi_insert_knots(2, knots, 7, points, 12, false, none, 0, one, 1, k, 8, p, 15, w, 0, scratch, 56), 5), "1 into A");
    expect(same(k[3], 1.0) && same(k[4], 1.0) && same(k[5], 2.0), "its knots");
    expect(same(p[0], 0.0) && same(p[3], 2.0) && same(p[6], 3.0) && same(p[9], 4.0) && same(p[12], 6.0), "its points");
    expect(same(scratch[0], 0.0) && same(scratch[55], 0.0), "scratch");
    expect(refused(tasulogi_insert_knots(2, knots, 7, points, 12, false, none, 0, two, 1, k, 8, p, 15, w, 0, scratch, 56), 13) && same(k[7], 0.0), "an end");
    expect(refused(tasulogi_insert_knots(2, knots, 7, points, 12, false, none, 0, one, 1, k, 8, p, 15, w, 0, scratch, 55), 30), "no scratch");

    double trimmed[66];
    expect(formed(tasulogi_trim(2, knots, 7, points, 12, false, none, 0, 0.0, 1.0, k, 7, p, 10, w, 0, trimmed, 66), 3), "A trimmed");
    expect(same(k[2], 0.0) && same(k[3], 1.0) && same(k[5], 1.0) && same(k[6], 0.0), "its knots, and the tail");
    expect(same(p[0], 0.0) && same(p[3], 2.0) && same(p[6], 3.0) && same(p[9], 0.0) && same(trimmed[65], 0.0), "its points, the tail, scratch");
    expect(refused(tasulogi_trim(2, knots, 7, points, 12, false, none, 0, 1.0, 1.0, k, 6, p, 9, w, 0, trimmed, 66), 15) && same(k[3], 0.0), "empty");
    expect(refused(tasulogi_trim(2, knots, 7, points, 12, false, none, 0, 0.0, 1.0, k, 6, p, 9, w, 0, trimmed, 65), 30), "no scratch");

    static const double ends[] = { 0, 0, 1, 1 }, line[] = { 0, 0, 0, 2, 0, 0 };
    double high[11], raised[21], spare[66];
    expect(formed(tasulogi_elevate_degree(1, ends, 4, line, 6, false, none, 0, 2, high, 6, raised, 9, w, 0, spare, 24), 3), "a line raised");
    expect(same(high[2], 0.0) && same(high[3], 1.0) && same(high[5], 1.0), "its knots");
    expect(same(raised[0], 0.0) && same(raised[3], 1.0) && same(raised[6], 2.0) && same(spare[0], 0.0), "its points, scratch");
    expect(formed(tasulogi_elevate_degree(2, knots, 7, points, 12, false, none, 0, 3, high, 11, raised, 21, w, 0, spare, 66), 7), "A raised");
    expect(same(high[3], 0.0) && same(high[4], 1.0) && same(high[6], 1.0) && same(high[10], 2.0) && same(raised[18], 6.0), "its 7 points");
    expect(refused(tasulogi_elevate_degree(2, knots, 7, points, 12, false, none, 0, 3, high, 11, raised, 20, w, 0, spare, 66), 30), "no room for 7");
    expect(refused(tasulogi_elevate_degree(2, knots, 7, points, 12, false, none, 0, 1, high, 11, raised, 21, w, 0, spare, 66), 16) && same(high[10], 0.0), "a lower degree");
    expect(refused(tasulogi_elevate_degree(2, knots, 7, points, 12, false, none, 0, 65, high, 11, raised, 21, w, 0, spare, 66), 18), "degree 65");
}

#include "check_nulls.h"
#include "check_places.h"
#include "check_domain.h"

int main(void)
{
    doubles();
    intervals();
    refusals();
    tables();
    texts();
    spans();
    boxes();
    evaluations();
    many();
    made();
    edits();
    nulls_of_intervals();
    nulls_of_tables();
    nulls_of_clamped();
    nulls_of_many();
    nulls_of_curves();
    places_of_knots();
    places_of_points();
    places_of_surfaces();
    places_of_spans();
    places_of_calls();
    places_of_edits();
    places_of_formed_curves();
    places_of_edited_curves();
    places_beside_numbers();
    domain_of_spans();
    domain_of_points();
    domain_of_many();
    domain_of_knots();
    domain_of_surfaces();
    printf("C: %d passed, %d failed\n", passed, failed);
    return failed != 0;
}

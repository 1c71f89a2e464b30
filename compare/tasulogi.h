/* The exported functions of the proved crates. Link target/staticlib/libexports.a.
 *
 * Conventions:
 * - Only numbers and runs of numbers cross. A run is a pointer and a length: so many numbers stand from the pointer on,
 *   which is aligned to one of them. Of a run of length 0 the pointer is never looked at: it may be NULL.
 * - A lent run is one that is written: those whose pointer has no const. It overlaps no other run of the same call,
 *   neither one that is read nor another that is lent: it may be cleared before the others are read. Runs that are only
 *   read may overlap.
 * - A function with a lent run `out` returns 0 and writes its answer to the front of the run; every number behind the
 *   answer is then +0.0. Otherwise it returns a refusal, and every number of the run is +0.0.
 * - Refusal numbers are those of document 01; tasulogi_refusals.h has the class and the text of each. 99 is no refusal
 *   number: two doubles that were passed as the ends of an interval are none, since the low end is above the high one or
 *   an end is NaN.
 * - 30 is said of two things. An input run has more than 1,048,576 numbers: this comes before every other refusal. Or a
 *   lent run is too short: this comes after every other refusal, but where a curve is made from a curve or a surface. There
 *   it comes before what is refused while the curve is formed (13, 14, 19, 20, 23) and before 1 to 10 of the curve that
 *   was formed. Each function on curves and surfaces says its order; an interval function looks for 99, then 26, then 30.
 * - Refusals 1 to 7 of a surface say their direction: 101 to 107 along u, 201 to 207 along v.
 * - Refusals 4, 7, 8 and 10 say a place, from 0. 4: the first knot that is not finite, wherever it stands; where all are
 *   finite, the first that exceeds the next. 7: the first of the equal knots. Of a surface both count in the knots of their
 *   direction. 8: the first point with a coordinate that is not finite. 10: the first weight that is none; of a surface both
 *   are i * v_count + j. Where a call refuses the curve that it has formed, the place is in that curve.
 * - 43: a finite parameter lies outside the domain, knots[degree] to knots[count] with both ends, both zeros being one
 *   number. A function whose name ends in _clamped takes the nearer end, and is otherwise the one without _clamped.
 * - What a call on curves or surfaces returns has the refusal in its low half, which a uint32_t keeps, and the place in
 *   its high half: at most 2^32 - 1, and 0 where there is none; of an edit that forms a curve the high half is the count of
 *   its points. find_span, clamped or not, bound_spans and bound_points answer in the low half, and refuse with the
 *   halves exchanged.
 * - A function with no lent run returns its answer.
 * - An interval is passed by its ends, low before high, and answered as two doubles, low before high. Infinite ends
 *   are allowed.
 * - A NaN has no sign and no payload of its own: any NaN may be answered for another.
 * - A curve is a degree, knots, points (x, y, z of each, one after the other) and, where `rational` is true, a weight
 *   for each point; else `weights` is not looked at. A surface has its points row by row, i * v_count + j.
 * - No function keeps a pointer, allocates, or needs to be started. All may be called from any thread.
 */
#ifndef TASULOGI_H
#define TASULOGI_H

#include <stdbool.h>
#include <stddef.h>
#include <stdint.h>

#ifdef __cplusplus
extern "C" {
#endif

/* The returned numbers of the interval functions, and that by which a loop sees that it ran past the end of a table. */
enum {
    TASULOGI_DONE = 0,
    TASULOGI_DIVISOR_CONTAINS_ZERO = 26,
    TASULOGI_NO_QUOTIENT = 28, /* never given */
    TASULOGI_TOO_LITTLE_ROOM = 30,
    TASULOGI_OUTSIDE_DOMAIN = 43,
    TASULOGI_NO_INTERVAL = 99
};

/* Of what a call returns, but find_span, clamped or not, bound_spans and bound_points: the number without its direction; the
 * direction: 0 none, 1 u, 2 v; and the place of 4, 7, 8 and 10. Compare these, and not the whole that was returned. */
#define TASULOGI_REFUSAL(r) ((uint32_t)(r) % 100)
#define TASULOGI_DIRECTION(r) ((uint32_t)(r) / 100)
#define TASULOGI_PLACE(r) ((size_t)((uint64_t)(r) >> 32))

/* The refusal of find_span, clamped or not, bound_spans and bound_points, and its place; where the refusal is 0, what was
 * returned is the span or the count. */
#define TASULOGI_SPAN_REFUSAL(r) ((uint32_t)((r) >> 32))
#define TASULOGI_SPAN_PLACE(r) ((size_t)(uint32_t)(r))

/* The refusal of an edit, and where it is 0 how many points the curve has that was formed. */
#define TASULOGI_EDIT_REFUSAL(r) ((uint32_t)(r))
#define TASULOGI_EDIT_COUNT(r) ((size_t)((r) >> 32))

/* How many numbers a box has: point, du, dv, each x, y, z, each low before high.
 *   [0] to [5]    x, y, z of the point
 *   [6] to [11]   x, y, z of du, the first derivative along u; of a curve along its one parameter
 *   [12] to [17]  x, y, z of dv, the first derivative along v; of a curve 0
 * What a box holds: at every fraction of its closed range, ends and doubles among them, and of a surface at every pair of a
 * fraction of the u range and one of the v range, the point and its derivatives lie between their ends. They are those worked
 * out exactly on the first nonempty span, of each direction, that contains the range; an infinite end sets no limit. The
 * calls that make boxes never give 28 or 29. The calls for the point alone write the first six. */
#define TASULOGI_BOX 18
#define TASULOGI_POINT_BOX 6

/* What tasulogi_class_of returns. */
enum {
    TASULOGI_INVALID = 0,
    TASULOGI_DEGENERATE = 1,
    TASULOGI_UNIMPLEMENTED = 2,
    TASULOGI_CAPACITY = 3,
    TASULOGI_INTERNAL = 4,
    TASULOGI_NO_CLASS = 5
};

/* What tasulogi_interval_sign returns, beside 99. */
enum { TASULOGI_SIGN_UNKNOWN = 0, TASULOGI_SIGN_POSITIVE = 1, TASULOGI_SIGN_NEGATIVE = 2, TASULOGI_SIGN_ZERO = 3 };

/* Doubles. */

bool tasulogi_is_nan(double x);
bool tasulogi_is_finite(double x);

/* The least double above x; NaN and plus infinity are their own. Of either zero it is 2^-1074, of -2^-1074 -0.0. */
double tasulogi_next_up(double x);

/* The greatest double below x; NaN and minus infinity are their own. Of either zero it is -2^-1074. */
double tasulogi_next_down(double x);

/* The lesser and the greater; of a NaN and a number, the number; of two equal numbers, the first. */
double tasulogi_min(double a, double b);
double tasulogi_max(double a, double b);

/* The place among all doubles: 0 for both zeros and for NaN, one more for the next double up. */
int64_t tasulogi_place(double x);

/* How many steps to the next double lead from lo up to hi; 0 where lo <= hi does not hold. */
uint64_t tasulogi_steps(double lo, double hi);

/* Intervals. The answer has two doubles unless another number is given. */

/* The whole line. */
uint32_t tasulogi_interval_entire(double *out, size_t n);

/* The interval from lo to hi, or 99. */
uint32_t tasulogi_interval_new(double lo, double hi, double *out, size_t n);

/* The interval of x alone; of NaN the whole line. */
uint32_t tasulogi_interval_point(double x, double *out, size_t n);

/* The width rounded up: one double. */
uint32_t tasulogi_interval_width(double lo, double hi, double *out, size_t n);

/* 1 inside, 0 outside, 99. */
uint32_t tasulogi_interval_contains(double lo, double hi, double x);

/* One of TASULOGI_SIGN_..., or 99. */
uint32_t tasulogi_interval_sign(double lo, double hi);

/* The square, which unlike a product is never negative. */
uint32_t tasulogi_interval_sqr(double lo, double hi, double *out, size_t n);

/* The interval of the opposite numbers. */
uint32_t tasulogi_interval_neg(double lo, double hi, double *out, size_t n);

/* The least interval with both in it. */
uint32_t tasulogi_interval_hull(double al, double ah, double bl, double bh, double *out, size_t n);

/* Outward arithmetic: each end rounded to nearest, then one double outward; the whole line where a NaN is met. */
uint32_t tasulogi_interval_add(double al, double ah, double bl, double bh, double *out, size_t n);
uint32_t tasulogi_interval_sub(double al, double ah, double bl, double bh, double *out, size_t n);
uint32_t tasulogi_interval_mul(double al, double ah, double bl, double bh, double *out, size_t n);

/* The first times the outward interval of both reciprocals of the second. 26 where the second contains 0. 28 is never
 * given. */
uint32_t tasulogi_interval_divide(double al, double ah, double bl, double bh, double *out, size_t n);

/* Curves and surfaces. */

/* The class of a refusal number, without its direction; 5 for any other number. */
uint8_t tasulogi_class_of(uint32_t number);

/* 0 for a valid curve, else 30, 32, 1 to 10, the first in this order. */
uint64_t tasulogi_curve_refusal(size_t degree, const double *knots, size_t knots_n, const double *points,
                                size_t points_n, bool rational, const double *weights, size_t weights_n);

/* 0 for a valid surface, else 30, 32, 11, 101 to 107, 201 to 207, 8 to 10, the first in this order. */
uint64_t tasulogi_surface_refusal(size_t u_degree, size_t v_degree, const double *u_knots, size_t u_knots_n,
                                  const double *v_knots, size_t v_knots_n, size_t u_count, size_t v_count,
                                  const double *points, size_t points_n, bool rational, const double *weights,
                                  size_t weights_n);

/* The span of u for `count` points, else a refusal: 30, 1 to 7, 12, 43, the first in this order. */
uint64_t tasulogi_find_span(size_t degree, size_t count, const double *knots, size_t knots_n, double u);
uint64_t tasulogi_find_span_clamped(size_t degree, size_t count, const double *knots, size_t knots_n, double u);

/* The first nonempty span from `from` on, in degree..=count-1, or `count` where there is none. Any knots are taken. */
size_t tasulogi_next_span(size_t degree, size_t count, const double *knots, size_t knots_n, size_t from);

/* u, or the nearer end of the domain where u lies outside; a NaN stays one, a zero keeps its sign. */
double tasulogi_clamp(size_t degree, size_t count, double u, const double *knots, size_t knots_n);

/* The box of a curve over the range from lo to hi: see TASULOGI_BOX. Refusals in this order: those of the curve, 31, 24, 25,
 * 27, 26, then 30 for the lent run. */
uint64_t tasulogi_bound_curve(size_t degree, const double *knots, size_t knots_n, const double *points,
                              size_t points_n, bool rational, const double *weights, size_t weights_n, double lo,
                              double hi, double *out, size_t n);

/* The point of that box alone, 6 numbers with the same bits; the same refusals, but 30 only where the run has fewer than 6. Faster, where no derivative is asked for. */
uint64_t tasulogi_bound_point(size_t degree, const double *knots, size_t knots_n, const double *points,
                              size_t points_n, bool rational, const double *weights, size_t weights_n, double lo,
                              double hi, double *out, size_t n);

/* The box of a surface over a range of u and one of v: see TASULOGI_BOX. Refusals in this order: those of the surface, 31, 24
 * and 25 for u, 24 and 25 for v, 27, 26, then 30 for the lent run. */
uint64_t tasulogi_bound_surface(size_t u_degree, size_t v_degree, const double *u_knots, size_t u_knots_n,
                                const double *v_knots, size_t v_knots_n, size_t u_count, size_t v_count,
                                const double *points, size_t points_n, bool rational, const double *weights,
                                size_t weights_n, double u_lo, double u_hi, double v_lo, double v_hi, double *out,
                                size_t n);

/* Points and derivatives: x, y, z of each. */

/* The point and the first derivative: 6 numbers. Refusals: those of the curve, 31, 12, 43, then 30 for the lent run. */
uint64_t tasulogi_eval(size_t degree, const double *knots, size_t knots_n, const double *points, size_t points_n,
                       bool rational, const double *weights, size_t weights_n, double t, double *out, size_t n);
uint64_t tasulogi_eval_clamped(size_t degree, const double *knots, size_t knots_n, const double *points, size_t points_n,
                               bool rational, const double *weights, size_t weights_n, double t, double *out, size_t n);

/* The point and two derivatives: 9 numbers. 21 after 43 where one of them is not finite. */
uint64_t tasulogi_eval2(size_t degree, const double *knots, size_t knots_n, const double *points, size_t points_n,
                        bool rational, const double *weights, size_t weights_n, double t, double *out, size_t n);
uint64_t tasulogi_eval2_clamped(size_t degree, const double *knots, size_t knots_n, const double *points, size_t points_n,
                                bool rational, const double *weights, size_t weights_n, double t, double *out, size_t n);

/* The point, du and dv: 9 numbers. Refusals: those of the surface, 31, 12 and 43 for u, both for v, 30 for the lent run. */
uint64_t tasulogi_eval_surface(size_t u_degree, size_t v_degree, const double *u_knots, size_t u_knots_n,
                               const double *v_knots, size_t v_knots_n, size_t u_count, size_t v_count,
                               const double *points, size_t points_n, bool rational, const double *weights,
                               size_t weights_n, double u, double v, double *out, size_t n);
uint64_t tasulogi_eval_surface_clamped(size_t u_degree, size_t v_degree, const double *u_knots, size_t u_knots_n,
                                       const double *v_knots, size_t v_knots_n, size_t u_count, size_t v_count,
                                       const double *points, size_t points_n, bool rational, const double *weights,
                                       size_t weights_n, double u, double v, double *out, size_t n);

/* Many at once: the table is checked once. A row is the answer of the single call, with its bits, and +0.0 throughout
 * where that is refused: those refusals have no place. What stands behind the rows is 0 and +0.0. After a refusal of the
 * whole call both runs are 0 and +0.0. */

/* The point and the first derivative at each of ts_n parameters: `numbers` gets the refusal of each, 12 or 43, or 0, and
 * `rows` 6 numbers of each. Refusals: 30 for more than 1,048,576 parameters, those of the curve, 31, 30 for a lent run. */
uint64_t tasulogi_eval_many(size_t degree, const double *knots, size_t knots_n, const double *points, size_t points_n,
                            bool rational, const double *weights, size_t weights_n, const double *ts, size_t ts_n,
                            uint32_t *numbers, size_t numbers_n, double *rows, size_t rows_n);
uint64_t tasulogi_eval_many_clamped(size_t degree, const double *knots, size_t knots_n, const double *points,
                                    size_t points_n, bool rational, const double *weights, size_t weights_n,
                                    const double *ts, size_t ts_n, uint32_t *numbers, size_t numbers_n, double *rows,
                                    size_t rows_n);

/* The same with two derivatives: 9 numbers of each, and 21 among the refusals. */
uint64_t tasulogi_eval2_many(size_t degree, const double *knots, size_t knots_n, const double *points, size_t points_n,
                             bool rational, const double *weights, size_t weights_n, const double *ts, size_t ts_n,
                             uint32_t *numbers, size_t numbers_n, double *rows, size_t rows_n);
uint64_t tasulogi_eval2_many_clamped(size_t degree, const double *knots, size_t knots_n, const double *points,
                                     size_t points_n, bool rational, const double *weights, size_t weights_n,
                                     const double *ts, size_t ts_n, uint32_t *numbers, size_t numbers_n, double *rows,
                                     size_t rows_n);

/* The box of each nonempty span over its own range, in order: `marks` gets the span and its refusal, or 0, and
 * `boxes` 18 numbers of each: see TASULOGI_BOX. Where the refusal is not 0 they are +0.0 and hold nothing. Returns how many
 * rows there are, which is never more than count - degree; else a refusal: those of the curve, 31, 30 for a lent run. */
uint64_t tasulogi_bound_spans(size_t degree, const double *knots, size_t knots_n, const double *points, size_t points_n,
                              bool rational, const double *weights, size_t weights_n, uint32_t *marks, size_t marks_n,
                              double *boxes, size_t boxes_n);

/* The same of the point alone: `boxes` gets 6 numbers of each, those of bound_point. */
uint64_t tasulogi_bound_points(size_t degree, const double *knots, size_t knots_n, const double *points, size_t points_n,
                               bool rational, const double *weights, size_t weights_n, uint32_t *marks, size_t marks_n,
                               double *boxes, size_t boxes_n);

/* Curves made of others. Each run starts with the made numbers and ends with +0.0; after a refusal all is +0.0. */

/* The curve run backwards. Refusals: those of the curve, 30 for a lent run, 1 to 10 of the curve that is made. */
uint64_t tasulogi_reversed(size_t degree, const double *knots, size_t knots_n, const double *points, size_t points_n,
                           bool rational, const double *weights, size_t weights_n, double *out_knots, size_t out_knots_n,
                           double *out_points, size_t out_points_n, double *out_weights, size_t out_weights_n);

/* The curve at u = t where constant_u, else at v = t; its knots are the surface's other ones. Refusals: those of the
 * surface, 31, 22, 30 for a lent run, 23, 1 to 10 of the curve that is made. Its points are as many as the surface has
 * along the other direction, and it has a weight for each also where the surface has none: lend room for both, or it is 30. */
uint64_t tasulogi_iso_curve(size_t u_degree, size_t v_degree, const double *u_knots, size_t u_knots_n,
                            const double *v_knots, size_t v_knots_n, size_t u_count, size_t v_count, const double *points,
                            size_t points_n, bool rational, const double *weights, size_t weights_n, bool constant_u,
                            double t, double *out_points, size_t out_points_n, double *out_weights, size_t out_weights_n);

/* Edits: the curve that is formed goes to the front of the three output runs, +0.0 behind it, and scratch is left
 * +0.0. After a refusal all four are +0.0. What is returned has the refusal in its low half and, where that is 0, the
 * count of points of the curve in its high half, else the place: TASULOGI_EDIT_REFUSAL, TASULOGI_EDIT_COUNT,
 * TASULOGI_PLACE. So runs may be lent that are longer than needed; a count has count + degree + 1 knots, 3 count
 * coordinates and, where the curve is rational, count weights. */

/* Knots inserted one after the other, into runs for count + inserted_n points, with scratch of
 * 10 (count + inserted_n) + 2 (degree + 1) numbers. Refusals: 30 for a run that is too long, those of the curve, 17,
 * 30 for a lent run, then per knot 13, 14, 19, 20, and 1 to 10 of the curve that is formed. */
uint64_t tasulogi_insert_knots(size_t degree, const double *knots, size_t knots_n, const double *points,
                               size_t points_n, bool rational, const double *weights, size_t weights_n,
                               const double *inserted, size_t inserted_n, double *out_knots, size_t out_knots_n,
                               double *out_points, size_t out_points_n, double *out_weights, size_t out_weights_n,
                               double *scratch, size_t scratch_n);

/* The part from lo to hi, a full break being taken from inside. With a and b for how often lo and hi are missing from
 * degree + 1 of them among the knots, and c(x) for the knots below x: into runs for c(hi) + a - c(lo) points, with
 * scratch of 10 (count + a + b) + 2 (degree + 1) numbers. Refusals: 30 for a run that is too long, those of the curve,
 * 17, 15, 30 for a lent run, then 19, 20, and 1 to 10 of a curve that is formed. */
uint64_t tasulogi_trim(size_t degree, const double *knots, size_t knots_n, const double *points, size_t points_n,
                       bool rational, const double *weights, size_t weights_n, double lo, double hi, double *out_knots,
                       size_t out_knots_n, double *out_points, size_t out_points_n, double *out_weights,
                       size_t out_weights_n, double *scratch, size_t scratch_n);

/* The curve with a higher degree e = raised, or a copy where it is the same. With b distinct knots inside the domain, f
 * of them degree + 1 times: into runs for (e + 1) (b + 1) - b + f points, count for a copy, with scratch of
 * 10 (degree + 1) (b + 1) + 2 (degree + 1) numbers. Refusals: 30 for a run that is too long, those of the curve, 17, 16,
 * 18, 30 for a lent run, then 19, 20, and 1 to 10 of a curve that is formed. */
uint64_t tasulogi_elevate_degree(size_t degree, const double *knots, size_t knots_n, const double *points,
                                 size_t points_n, bool rational, const double *weights, size_t weights_n, size_t raised,
                                 double *out_knots, size_t out_knots_n, double *out_points, size_t out_points_n,
                                 double *out_weights, size_t out_weights_n, double *scratch, size_t scratch_n);

#ifdef __cplusplus
}
#endif

#endif

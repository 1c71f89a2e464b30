/* The part of check.c that asks for the places of refusals 4, 7, 8 and 10. */

/* The low half is the number, with its direction in the hundreds; the high half is the place. */
static bool at(uint64_t returned, uint32_t number, size_t place)
{
    return (uint32_t)returned == number && TASULOGI_PLACE(returned) == place;
}

/* The refusal of degree 2 and four points on other knots, and of degree 1 and five points. */
static uint64_t on(const double *k)
{
    return tasulogi_curve_refusal(2, k, 7, points, 12, false, NULL, 0);
}

static uint64_t on_lines(const double *k)
{
    static const double five[15];
    return tasulogi_curve_refusal(1, k, 7, five, 15, false, NULL, 0);
}

/* The refusal of table A with x for one knot, coordinate or weight. */
static uint64_t with_knot(size_t i, double x)
{
    double k[7];
    memcpy(k, knots, sizeof k);
    k[i] = x;
    return on(k);
}

static uint64_t with_coordinate(size_t i, double x)
{
    double p[12];
    memcpy(p, points, sizeof p);
    p[i] = x;
    return tasulogi_curve_refusal(2, knots, 7, p, 12, false, NULL, 0);
}

static uint64_t with_weight(size_t i, double x)
{
    double w[] = { 1, 1, 1, 1 };
    w[i] = x;
    return tasulogi_curve_refusal(2, knots, 7, points, 12, true, w, 4);
}

static void places_of_knots(void)
{
    expect(at(with_knot(0, 0.5), 4, 0) && at(with_knot(3, 2.5), 4, 3) && at(with_knot(6, 1.5), 4, 5), "a knot that exceeds the next");
    expect(at(with_knot(0, NAN), 4, 0) && at(with_knot(3, NAN), 4, 3) && at(with_knot(6, NAN), 4, 6), "a NaN knot");
    expect(at(with_knot(0, -INFINITY), 4, 0) && at(with_knot(6, INFINITY), 4, 6), "an infinite knot in order");
    expect(at(on((const double[]){ 0, 3, 1, NAN, 2, 2, 2 }), 4, 3), "a NaN behind a descent");
    expect(at(on((const double[]){ 0, 3, 1, 2, 1, 2, 2 }), 4, 1), "the first of two descents");
    expect(at(on_lines((const double[]){ 0, 0, 0, 1, 2, 3, 4 }), 7, 0), "equal knots at the front");
    expect(at(on_lines((const double[]){ 0, 1, 2, 2, 2, 3, 4 }), 7, 2), "equal knots in the middle");
    expect(at(on_lines((const double[]){ 0, 1, 2, 3, 4, 4, 4 }), 7, 4), "equal knots at the end");
    expect(at(on_lines((const double[]){ 0, 1, 1, 1, 1, 2, 3 }), 7, 1), "more equal knots than it takes");
    expect(at(on_lines((const double[]){ -1, -0.0, 0.0, -0.0, 1, 2, 3 }), 7, 1), "both zeros as one knot");
}

static void places_of_points(void)
{
    expect(at(with_coordinate(0, NAN), 8, 0) && at(with_coordinate(2, INFINITY), 8, 0), "the first point");
    expect(at(with_coordinate(4, -INFINITY), 8, 1) && at(with_coordinate(6, NAN), 8, 2), "a point in the middle");
    expect(at(with_coordinate(9, NAN), 8, 3) && at(with_coordinate(11, NAN), 8, 3), "the last point");
    expect(at(with_weight(0, -1), 10, 0) && at(with_weight(2, 0), 10, 2) && at(with_weight(3, NAN), 10, 3), "a weight");
    expect(at(with_weight(1, INFINITY), 10, 1) && at(with_weight(1, -0.0), 10, 1), "an infinite weight, a zero");
}

/* Degree 1 both ways, 2 by 3 points of which (1, 0) has place 3. */
static uint64_t net(const double *u, const double *v, const double *p, const double *w)
{
    return tasulogi_surface_refusal(1, 1, u, 4, v, 5, 2, 3, p, 18, w != NULL, w, w == NULL ? 0 : 6);
}

/* The same with the directions exchanged. */
static uint64_t net_across(const double *u, const double *v)
{
    static const double p[18];
    return tasulogi_surface_refusal(1, 1, u, 5, v, 4, 3, 2, p, 18, false, NULL, 0);
}

static void places_of_surfaces(void)
{
    static const double u[] = { 0, 0, 1, 1 }, v[] = { 0, 0, 1, 2, 2 }, p[18];
    double moved[18] = { 0 }, w[] = { 1, 1, 1, 1, 1, 1 };
    expect(net(u, v, p, w) == 0, "a net");
    expect(at(net((const double[]){ 0, 0, 1, NAN }, v, p, NULL), 104, 3), "a knot along u");
    expect(at(net(u, (const double[]){ 0, 0, 3, 2, 2 }, p, NULL), 204, 2), "a knot along v");
    expect(at(net(u, (const double[]){ 0, 0, 1, 1, 1 }, p, NULL), 207, 2), "equal knots along v");
    expect(at(net_across((const double[]){ 0, 0, 1, 1, 1 }, u), 107, 2), "equal knots along u");
    uint64_t r = net(u, (const double[]){ 0, 0, 3, 2, 2 }, p, NULL);
    expect(TASULOGI_REFUSAL(r) == 4 && TASULOGI_DIRECTION(r) == 2 && TASULOGI_PLACE(r) == 2, "number, direction and place");
    moved[10] = NAN;
    expect(at(net(u, v, moved, NULL), 8, 3), "the point (1, 0)");
    w[5] = 0;
    expect(at(net(u, v, p, w), 10, 5), "the last weight");
}

/* The halves exchanged. */
static bool span_at(uint64_t returned, uint32_t number, size_t place)
{
    return TASULOGI_SPAN_REFUSAL(returned) == number && TASULOGI_SPAN_PLACE(returned) == place;
}

/* Table A with 2.5 for knot 3, and a plane whose point (1, 0) is none. */
static const double bent[] = { 0, 0, 0, 2.5, 2, 2, 2 };
static const double line[] = { 0, 0, 1, 1 };
static const double torn[] = { 0, 0, 0, 2, 0, 0, 4, 0, NAN, 6, 0, 0 };
#define BENT 2, bent, 7, points, 12, false, NULL, 0
#define TORN 1, 1, line, 4, line, 4, 2, 2, torn, 12, false, NULL, 0

static void places_of_spans(void)
{
    uint32_t marks[4] = { 7, 7, 7, 7 };
    double rows[2 * TASULOGI_BOX];
    expect(span_at(tasulogi_find_span(2, 4, bent, 7, 0.5), 4, 3), "find_span on a bad knot");
    expect(span_at(tasulogi_find_span(1, 5, (const double[]){ 0, 1, 2, 2, 2, 3, 4 }, 7, 0.5), 7, 2), "find_span on equal knots");
    expect(span_at(tasulogi_find_span(2, 4, knots, 7, NAN), 12, 0) && span_at(tasulogi_find_span(2, 4, knots, 7, 3.0), 43, 0), "find_span at a NaN, outside");
    expect(span_at(tasulogi_find_span_clamped(2, 4, bent, 7, 3.0), 4, 3), "find_span_clamped on a bad knot");
    expect(span_at(tasulogi_find_span_clamped(2, 4, knots, 7, NAN), 12, 0), "find_span_clamped at a NaN");
    expect(span_at(tasulogi_bound_spans(BENT, marks, 4, rows, 36), 4, 3) && marks[0] == 0, "bound_spans on a bad knot");
    expect(span_at(tasulogi_bound_spans(1, line, 4, torn + 3, 6, false, NULL, 0, marks, 4, rows, 36), 8, 1), "bound_spans on a bad point");
    expect(span_at(tasulogi_bound_points(BENT, marks, 4, rows, 12), 4, 3) && marks[0] == 0, "bound_points on a bad knot");
    expect(span_at(tasulogi_bound_points(1, line, 4, torn + 3, 6, false, NULL, 0, marks, 4, rows, 12), 8, 1), "bound_points on a bad point");
}

static void places_of_calls(void)
{
    static const double ts[] = { 0.5 };
    uint32_t numbers[1];
    double out[TASULOGI_BOX], more[12], most[12];
    expect(at(tasulogi_eval(BENT, 0.5, out, 6), 4, 3) && at(tasulogi_eval2(BENT, 0.5, out, 9), 4, 3), "evaluations");
    expect(at(tasulogi_eval_clamped(BENT, 3.0, out, 6), 4, 3) && at(tasulogi_eval2_clamped(BENT, 3.0, out, 9), 4, 3), "clamped ones");
    expect(at(tasulogi_bound_curve(BENT, 0.5, 0.5, out, TASULOGI_BOX), 4, 3), "a bound");
    expect(at(tasulogi_bound_point(BENT, 0.5, 0.5, out, TASULOGI_POINT_BOX), 4, 3), "a point's bound");
    expect(at(tasulogi_eval_many(BENT, ts, 1, numbers, 1, out, 6), 4, 3), "points at once");
    expect(at(tasulogi_eval2_many(BENT, ts, 1, numbers, 1, out, 9), 4, 3), "two derivatives at once");
    expect(at(tasulogi_eval_many_clamped(BENT, ts, 1, numbers, 1, out, 6), 4, 3), "clamped points at once");
    expect(at(tasulogi_eval2_many_clamped(BENT, ts, 1, numbers, 1, out, 9), 4, 3), "two derivatives of them");
    expect(at(tasulogi_eval_surface(TORN, 0.5, 0.5, out, 9), 8, 2), "a surface's evaluation");
    expect(at(tasulogi_eval_surface_clamped(TORN, 2.0, 0.5, out, 9), 8, 2), "a surface's clamped evaluation");
    expect(at(tasulogi_bound_surface(TORN, 0.5, 0.5, 0.5, 0.5, out, TASULOGI_BOX), 8, 2), "a surface's bound");
    expect(at(tasulogi_reversed(BENT, out, 7, more, 12, NULL, 0), 4, 3), "a reversal");
    expect(at(tasulogi_iso_curve(TORN, true, 0.5, more, 6, most, 2), 8, 2), "an isocurve");
}

static void places_of_edits(void)
{
    static const double one[] = { 1 };
    double k[11], p[21], scratch[66];
    uint64_t r = tasulogi_insert_knots(BENT, one, 1, k, 11, p, 21, NULL, 0, scratch, 66);
    expect(TASULOGI_EDIT_REFUSAL(r) == 4 && TASULOGI_PLACE(r) == 3, "an insertion");
    expect(at(tasulogi_trim(BENT, 0.0, 1.0, k, 11, p, 21, NULL, 0, scratch, 66), 4, 3), "a trim");
    expect(at(tasulogi_elevate_degree(BENT, 3, k, 11, p, 21, NULL, 0, scratch, 66), 4, 3), "an elevation");
}

/* The place is one of the curve that was formed, where what was given had nothing to refuse. */
static void places_of_formed_curves(void)
{
    static const double near[] = { 0, 0, 0x1p-60, 1, 1 }, far[] = { -DBL_MAX, DBL_MAX / 2, 0.75 * DBL_MAX, DBL_MAX };
    static const double high[] = { 0, 0, 0, 1, 0, 0, 0, 0, 0, 1e308, 0, 0 }, w[] = { 1, 1, 1, 10 };
    double k[5] = { 7, 7, 7, 7, 7 }, p[9], weights[2];
    expect(at(tasulogi_reversed(1, near, 5, points, 9, false, NULL, 0, k, 5, p, 9, NULL, 0), 7, 2) && same(k[4], 0.0), "knots that meet");
    expect(at(tasulogi_reversed(1, far, 4, points, 6, false, NULL, 0, k, 4, p, 6, NULL, 0), 4, 3), "a knot that overflows");
    expect(at(tasulogi_iso_curve(1, 1, line, 4, line, 4, 2, 2, high, 12, true, w, 4, true, 0.5, p, 6, weights, 2), 8, 1), "a point that overflows");
}

/* Between the last two points rounding makes a quotient that is greater than both of them. */
static void places_of_edited_curves(void)
{
    static const double k[] = { 0, 0, 1, 2, 2 }, p[] = { 0, 0, 0, DBL_MAX, 0, 0, DBL_MAX, 0, 0 }, w[] = { 1, 0.1, 0.5 };
    static const double t[] = { 1.5 };
    double out_k[8], out_p[15], out_w[5], scratch[54];
    expect(tasulogi_curve_refusal(1, k, 5, p, 9, true, w, 3) == 0, "a curve with nothing to refuse");
    expect(at(tasulogi_insert_knots(1, k, 5, p, 9, true, w, 3, t, 1, out_k, 8, out_p, 15, out_w, 5, scratch, 54), 8, 2), "a point of an insertion");
    expect(at(tasulogi_trim(1, k, 5, p, 9, true, w, 3, 0.0, 1.5, out_k, 8, out_p, 15, out_w, 5, scratch, 54), 8, 2), "a point of a trim");
    expect(at(tasulogi_elevate_degree(1, k, 5, p, 9, true, w, 3, 2, out_k, 8, out_p, 15, out_w, 5, scratch, 54), 8, 3), "a point of an elevation");
}

static void places_beside_numbers(void)
{
    uint32_t number = with_knot(3, 2.5);
    uint64_t r = with_knot(3, 2.5);
    expect(number == 4, "32 bits keep the number alone");
    expect(TASULOGI_REFUSAL(r) == 4 && TASULOGI_DIRECTION(r) == 0, "the number of a word with a place");
    expect(at(curve(0, 7, 12), 1, 0) && at(curve(2, 7, 11), 32, 0) && curve(2, 7, 12) == 0, "no place");
}

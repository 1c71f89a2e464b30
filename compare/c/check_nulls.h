/* The part of check.c that passes NULL for each run that may be empty. */
/* A run of no numbers has any pointer. Lent, it is too short. */
static void nulls_of_intervals(void)
{
    expect(tasulogi_interval_entire(NULL, 0) == 30 && tasulogi_interval_new(1, 2, NULL, 0) == 30, "entire, new into NULL");
    expect(tasulogi_interval_point(1, NULL, 0) == 30 && tasulogi_interval_width(1, 2, NULL, 0) == 30, "point, width into NULL");
    expect(tasulogi_interval_sqr(1, 2, NULL, 0) == 30 && tasulogi_interval_neg(1, 2, NULL, 0) == 30, "sqr, neg into NULL");
    expect(tasulogi_interval_hull(1, 2, 1, 2, NULL, 0) == 30 && tasulogi_interval_add(1, 2, 1, 2, NULL, 0) == 30, "hull, add into NULL");
    expect(tasulogi_interval_sub(1, 2, 1, 2, NULL, 0) == 30 && tasulogi_interval_mul(1, 2, 1, 2, NULL, 0) == 30, "sub, mul into NULL");
    expect(tasulogi_interval_divide(1, 2, 1, 2, NULL, 0) == 30, "divide into NULL");
    expect(tasulogi_interval_divide(1, 2, 0, 2, NULL, 0) == 26 && tasulogi_interval_new(2, 1, NULL, 0) == 99, "other refusals with NULL");
}

#define A 2, knots, 7, points, 12, false, NULL, 0
#define PLANE 1, 1, ends, 4, ends, 4, 2, 2, points, 12, false, NULL, 0

static void nulls_of_tables(void)
{
    static const double ends[] = { 0, 0, 1, 1 };
    double out[TASULOGI_BOX];
    expect(tasulogi_curve_refusal(A) == 0 && tasulogi_surface_refusal(PLANE) == 0, "tables without weights");
    expect(tasulogi_curve_refusal(2, NULL, 0, points, 12, false, NULL, 0) == 3, "no knots");
    expect(tasulogi_curve_refusal(2, knots, 7, NULL, 0, false, NULL, 0) == 2, "no points");
    expect(tasulogi_curve_refusal(2, knots, 7, points, 12, true, NULL, 0) == 9, "weights that are missing");
    expect(TASULOGI_SPAN_REFUSAL(tasulogi_find_span(2, 4, NULL, 0, 0.5)) == 3, "find_span without knots");
    expect(TASULOGI_SPAN_REFUSAL(tasulogi_find_span_clamped(2, 4, NULL, 0, 0.5)) == 3, "find_span_clamped without knots");
    expect(tasulogi_next_span(2, 4, NULL, 0, 0) == 4 && same(tasulogi_clamp(2, 4, 0.5, NULL, 0), 0.5), "next_span, clamp without knots");
    expect(tasulogi_bound_curve(A, 0.5, 0.5, out, TASULOGI_BOX) == 0 && out[0] < 1.75, "bound_curve without weights");
    expect(tasulogi_bound_point(A, 0.5, 0.5, out, TASULOGI_POINT_BOX) == 0 && out[0] < 1.75, "bound_point without weights");
    expect(tasulogi_bound_point(A, 0.5, 0.5, NULL, 0) == 30, "bound_point into NULL");
    expect(tasulogi_bound_surface(PLANE, 0.5, 0.5, 0.5, 0.5, out, TASULOGI_BOX) == 0 && out[0] < 3.0, "bound_surface without weights");
    expect(tasulogi_bound_curve(A, 0.5, 0.5, NULL, 0) == 30 && tasulogi_bound_surface(PLANE, 0.5, 0.5, 0.5, 0.5, NULL, 0) == 30, "bounds into NULL");
    expect(tasulogi_eval(A, 0.5, out, 6) == 0 && same(out[0], 1.75), "eval without weights");
    expect(tasulogi_eval2(A, 0.5, out, 9) == 0 && same(out[6], -2.0), "eval2 without weights");
    expect(tasulogi_eval_surface(PLANE, 0.5, 0.5, out, 9) == 0 && same(out[0], 3.0), "eval_surface without weights");
    expect(tasulogi_eval(A, 0.5, NULL, 0) == 30 && tasulogi_eval2(A, 0.5, NULL, 0) == 30 && tasulogi_eval_surface(PLANE, 0.5, 0.5, NULL, 0) == 30, "points into NULL");
    expect(tasulogi_eval(A, NAN, NULL, 0) == 12 && tasulogi_eval(A, 3.0, NULL, 0) == 43, "other refusals with NULL");
}

static void nulls_of_clamped(void)
{
    static const double ends[] = { 0, 0, 1, 1 }, ts[] = { 3 };
    uint32_t numbers[1];
    double out[9];
    expect(tasulogi_eval_clamped(A, 3.0, out, 6) == 0 && same(out[0], 6.0), "eval_clamped without weights");
    expect(tasulogi_eval2_clamped(A, 3.0, out, 9) == 0 && same(out[0], 6.0), "eval2_clamped without weights");
    expect(tasulogi_eval_surface_clamped(PLANE, 2.0, 2.0, out, 9) == 0 && same(out[0], 6.0), "eval_surface_clamped without weights");
    expect(tasulogi_eval_clamped(A, 3.0, NULL, 0) == 30 && tasulogi_eval2_clamped(A, 3.0, NULL, 0) == 30 && tasulogi_eval_surface_clamped(PLANE, 2.0, 2.0, NULL, 0) == 30, "clamped points into NULL");
    expect(tasulogi_eval_clamped(A, NAN, NULL, 0) == 12, "another refusal with NULL");
    expect(tasulogi_eval_many_clamped(A, ts, 1, numbers, 1, out, 6) == 0 && same(out[0], 6.0), "eval_many_clamped without weights");
    expect(tasulogi_eval2_many_clamped(A, ts, 1, numbers, 1, out, 9) == 0 && same(out[0], 6.0), "eval2_many_clamped without weights");
    expect(tasulogi_eval_many_clamped(A, NULL, 0, NULL, 0, NULL, 0) == 0 && tasulogi_eval2_many_clamped(A, NULL, 0, NULL, 0, NULL, 0) == 0, "no parameters");
    expect(tasulogi_eval_many_clamped(A, ts, 1, NULL, 0, out, 6) == 30 && tasulogi_eval_many_clamped(A, ts, 1, numbers, 1, NULL, 0) == 30, "eval_many_clamped into NULL");
    expect(tasulogi_eval2_many_clamped(A, ts, 1, NULL, 0, out, 9) == 30 && tasulogi_eval2_many_clamped(A, ts, 1, numbers, 1, NULL, 0) == 30, "eval2_many_clamped into NULL");
}

static void nulls_of_many(void)
{
    static const double ts[] = { 0.5 };
    uint32_t numbers[4];
    double rows[2 * TASULOGI_BOX];
    expect(tasulogi_eval_many(A, ts, 1, numbers, 1, rows, 6) == 0 && same(rows[0], 1.75), "eval_many without weights");
    expect(tasulogi_eval2_many(A, ts, 1, numbers, 1, rows, 9) == 0 && same(rows[6], -2.0), "eval2_many without weights");
    expect(tasulogi_eval_many(A, NULL, 0, NULL, 0, NULL, 0) == 0 && tasulogi_eval2_many(A, NULL, 0, NULL, 0, NULL, 0) == 0, "no parameters");
    expect(tasulogi_eval_many(A, ts, 1, NULL, 0, rows, 6) == 30 && tasulogi_eval_many(A, ts, 1, numbers, 1, NULL, 0) == 30, "eval_many into NULL");
    expect(tasulogi_eval2_many(A, ts, 1, NULL, 0, rows, 9) == 30 && tasulogi_eval2_many(A, ts, 1, numbers, 1, NULL, 0) == 30, "eval2_many into NULL");
    expect(tasulogi_bound_spans(A, numbers, 4, rows, 2 * TASULOGI_BOX) == 2, "bound_spans without weights");
    expect(TASULOGI_SPAN_REFUSAL(tasulogi_bound_spans(A, NULL, 0, rows, 36)) == 30 && TASULOGI_SPAN_REFUSAL(tasulogi_bound_spans(A, numbers, 4, NULL, 0)) == 30, "bound_spans into NULL");
    expect(tasulogi_bound_points(A, numbers, 4, rows, 2 * TASULOGI_POINT_BOX) == 2, "bound_points without weights");
    expect(TASULOGI_SPAN_REFUSAL(tasulogi_bound_points(A, NULL, 0, rows, 12)) == 30 && TASULOGI_SPAN_REFUSAL(tasulogi_bound_points(A, numbers, 4, NULL, 0)) == 30, "bound_points into NULL");
}

static void nulls_of_curves(void)
{
    static const double ends[] = { 0, 0, 1, 1 }, one[] = { 1 };
    double k[11], p[21], w[2], scratch[66];
    expect(tasulogi_reversed(A, k, 7, p, 12, NULL, 0) == 0 && same(p[0], 6.0), "reversed without weights");
    expect(tasulogi_reversed(A, NULL, 0, p, 12, NULL, 0) == 30 && tasulogi_reversed(A, k, 7, NULL, 0, NULL, 0) == 30, "reversed into NULL");
    expect(tasulogi_iso_curve(PLANE, true, 0.5, p, 6, w, 2) == 0 && same(p[0], 2.0), "iso_curve without weights");
    expect(tasulogi_iso_curve(PLANE, true, 0.5, NULL, 0, w, 2) == 30 && tasulogi_iso_curve(PLANE, true, 0.5, p, 6, NULL, 0) == 30, "iso_curve into NULL");
    expect(formed(tasulogi_insert_knots(A, one, 1, k, 8, p, 15, NULL, 0, scratch, 56), 5) && same(p[6], 3.0), "insert_knots without weights");
    expect(formed(tasulogi_insert_knots(A, NULL, 0, k, 11, p, 21, NULL, 0, scratch, 66), 4) && same(p[9], 6.0) && same(p[12], 0.0), "no knots inserted");
    expect(refused(tasulogi_insert_knots(A, one, 1, NULL, 0, NULL, 0, NULL, 0, NULL, 0), 30), "insert_knots into NULL");
    expect(formed(tasulogi_trim(A, 0.0, 1.0, k, 11, p, 21, NULL, 0, scratch, 66), 3) && same(p[6], 3.0), "trim without weights");
    expect(refused(tasulogi_trim(A, 0.0, 1.0, NULL, 0, NULL, 0, NULL, 0, NULL, 0), 30), "trim into NULL");
    expect(formed(tasulogi_elevate_degree(A, 3, k, 11, p, 21, NULL, 0, scratch, 66), 7) && same(p[18], 6.0), "elevate_degree without weights");
    expect(refused(tasulogi_elevate_degree(A, 3, NULL, 0, NULL, 0, NULL, 0, NULL, 0), 30), "elevate_degree into NULL");
    expect(refused(tasulogi_trim(A, 1.0, 1.0, NULL, 0, NULL, 0, NULL, 0, NULL, 0), 15), "15 before 30 of a lent run");
    expect(refused(tasulogi_insert_knots(A, points + 9, 1, NULL, 0, NULL, 0, NULL, 0, NULL, 0), 30), "30 of a lent run before 13");
}

/* The part of check.c that asks at, inside and outside the domain: 12, then 43, and what a clamped call takes instead. */

/* A parameter of table A, whose domain is from 0 to 2; the number that refuses it; the parameter that a clamped call looks
 * at; and the span of that. */
struct asked {
    double t;
    uint32_t number;
    double looked;
    uint64_t span;
};

enum { ASKED = 15 };

static void ask(struct asked *all)
{
    const double low = nextafter(0.0, 1.0), high = nextafter(2.0, 0.0), above = nextafter(2.0, 3.0);
    const struct asked these[ASKED] = {
        { 0.0, 0, 0.0, 2 }, { -0.0, 0, -0.0, 2 }, { 2.0, 0, 2.0, 3 },
        { low, 0, low, 2 }, { 0.5, 0, 0.5, 2 }, { high, 0, high, 3 },
        { -low, 43, 0.0, 2 }, { -1.0, 43, 0.0, 2 }, { -DBL_MAX, 43, 0.0, 2 },
        { above, 43, 2.0, 3 }, { 3.0, 43, 2.0, 3 }, { DBL_MAX, 43, 2.0, 3 },
        { NAN, 12, NAN, 0 }, { -INFINITY, 12, NAN, 0 }, { INFINITY, 12, NAN, 0 },
    };
    memcpy(all, these, sizeof these);
}

/* The refusal of a clamped call. */
static uint32_t but_43(uint32_t number)
{
    return number == TASULOGI_OUTSIDE_DOMAIN ? 0 : number;
}

static bool bits(const double *a, const double *b, size_t n)
{
    return memcmp(a, b, n * sizeof *a) == 0;
}

static void domain_of_spans(void)
{
    struct asked all[ASKED];
    ask(all);
    for (int i = 0; i < ASKED; i++) {
        uint64_t plain = tasulogi_find_span(2, 4, knots, 7, all[i].t), clamped = tasulogi_find_span_clamped(2, 4, knots, 7, all[i].t);
        expect(all[i].number == 0 ? plain == all[i].span : span_at(plain, all[i].number, 0), "find_span by the domain");
        expect(but_43(all[i].number) == 0 ? clamped == all[i].span : span_at(clamped, 12, 0), "find_span_clamped by the domain");
    }
}

/* eval and eval2, clamped or not, answer n numbers at t. */
typedef uint64_t evaluation(size_t, const double *, size_t, const double *, size_t, bool, const double *, size_t, double, double *, size_t);

static void domain_of_one(evaluation *plain, evaluation *clamped, size_t n)
{
    static const double zeros[9];
    struct asked all[ASKED];
    ask(all);
    for (int i = 0; i < ASKED; i++) {
        double at[9], near[9], end[9];
        expect(plain(A, all[i].t, at, n) == all[i].number, "a point by the domain");
        expect(clamped(A, all[i].t, near, n) == but_43(all[i].number), "a clamped point by the domain");
        expect(plain(A, all[i].looked, end, n) == but_43(all[i].number), "the point that is looked at");
        expect(bits(near, end, n) && bits(at, all[i].number == 0 ? end : zeros, n), "their bits");
    }
}

static void domain_of_points(void)
{
    domain_of_one(tasulogi_eval, tasulogi_eval_clamped, 6);
    domain_of_one(tasulogi_eval2, tasulogi_eval2_clamped, 9);
}

/* eval_many and eval2_many, clamped or not, answer n numbers at each parameter: those of the single call. */
typedef uint64_t evaluations_at(size_t, const double *, size_t, const double *, size_t, bool, const double *, size_t, const double *, size_t, uint32_t *, size_t, double *, size_t);

static void rows_of(evaluations_at *many, evaluation *one, size_t n)
{
    struct asked all[ASKED];
    ask(all);
    double ts[ASKED], rows[9 * ASKED], row[9];
    uint32_t numbers[ASKED];
    for (int i = 0; i < ASKED; i++) {
        ts[i] = all[i].t;
    }
    expect(many(A, ts, ASKED, numbers, ASKED, rows, n * ASKED) == TASULOGI_DONE, "rows by the domain");
    for (int i = 0; i < ASKED; i++) {
        expect(numbers[i] == one(A, ts[i], row, n) && bits(rows + n * i, row, n), "a row is the single call");
    }
}

static void domain_of_many(void)
{
    rows_of(tasulogi_eval_many, tasulogi_eval, 6);
    rows_of(tasulogi_eval_many_clamped, tasulogi_eval_clamped, 6);
    rows_of(tasulogi_eval2_many, tasulogi_eval2, 9);
    rows_of(tasulogi_eval2_many_clamped, tasulogi_eval2_clamped, 9);
}

/* The domain is from knots[degree] to knots[count] also where knots lie outside it; an end may be -0.0. */
static void domain_of_knots(void)
{
    static const double inner[] = { 0, 1, 2, 3 }, minus[] = { -1, -0.0, 1, 2 };
    double out[6], end[6];
    expect(tasulogi_eval(1, inner, 4, points, 6, false, NULL, 0, 0.5, out, 6) == 43 && tasulogi_eval(1, inner, 4, points, 6, false, NULL, 0, 2.5, out, 6) == 43, "between the knots outside");
    expect(tasulogi_eval(1, inner, 4, points, 6, false, NULL, 0, 2.0, end, 6) == 0 && same(end[0], 2.0), "at the end");
    expect(tasulogi_eval_clamped(1, inner, 4, points, 6, false, NULL, 0, 2.5, out, 6) == 0 && bits(out, end, 6), "clamped to the end");
    expect(tasulogi_find_span(1, 2, minus, 4, 0.0) == 1 && tasulogi_find_span(1, 2, minus, 4, -0.0) == 1, "0.0 of a domain from -0.0");
    expect(TASULOGI_SPAN_REFUSAL(tasulogi_find_span(1, 2, minus, 4, nextafter(0.0, -1.0))) == 43, "below both zeros");
}

static void domain_of_surfaces(void)
{
    static const double ends[] = { 0, 0, 1, 1 };
    double out[9], end[9];
    /* Both have 12 before 43, and u comes before v. */
    expect(tasulogi_eval_surface(PLANE, NAN, 2.0, out, 9) == 12 && tasulogi_eval_surface(PLANE, 2.0, NAN, out, 9) == 43, "u's refusal first");
    expect(tasulogi_eval_surface(PLANE, 0.5, NAN, out, 9) == 12 && tasulogi_eval_surface(PLANE, 0.5, 2.0, out, 9) == 43, "v's where u has none");
    expect(tasulogi_eval_surface(PLANE, NAN, NAN, out, 9) == 12 && tasulogi_eval_surface(PLANE, 2.0, -1.0, out, 9) == 43 && same(out[0], 0.0), "both the same");
    expect(tasulogi_eval_surface(PLANE, -0.0, 1.0, out, 9) == 0 && tasulogi_eval_surface(PLANE, 1.0, -0.0, out, 9) == 0, "ends are inside");
    expect(tasulogi_eval_surface(PLANE, nextafter(0.0, -1.0), 0.5, out, 9) == 43 && tasulogi_eval_surface(PLANE, 0.5, nextafter(1.0, 2.0), out, 9) == 43, "one double outside");
    expect(tasulogi_eval_surface_clamped(PLANE, NAN, 2.0, out, 9) == 12 && tasulogi_eval_surface_clamped(PLANE, 2.0, NAN, out, 9) == 12, "12 of either when clamped");
    expect(tasulogi_eval_surface_clamped(PLANE, 2.0, -1.0, out, 9) == 0 && tasulogi_eval_surface(PLANE, 1.0, 0.0, end, 9) == 0 && bits(out, end, 9), "clamped to a corner");
    expect(tasulogi_eval_surface_clamped(PLANE, 0.25, 2.0, out, 9) == 0 && tasulogi_eval_surface(PLANE, 0.25, 1.0, end, 9) == 0 && bits(out, end, 9), "clamped to an edge");
    expect(tasulogi_eval_surface_clamped(PLANE, 0.25, 0.5, out, 9) == 0 && tasulogi_eval_surface(PLANE, 0.25, 0.5, end, 9) == 0 && bits(out, end, 9), "clamped inside");
}

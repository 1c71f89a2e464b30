/* A first program: a cam's table is checked, evaluated, walked past its end, bounded with its speed and given another knot.
 * cc -std=c11 compare/c/example.c target/staticlib/libexports.a -o example && ./example; it prints example.out. */
#include "../tasulogi.h"
#include "../tasulogi_refusals.h"

#include <stdio.h>

/* A rise of 12 mm between two dwells: x is the angle in degrees, y the lift. */
enum { DEGREE = 3, COUNT = 6, KNOTS = COUNT + DEGREE + 1 };
static const double knots[KNOTS] = { 0, 0, 0, 0, 90, 210, 360, 360, 360, 360 };
static const double points[3 * COUNT] = { 0, 0, 0, 30, 0, 0, 100, 0, 0, 220, 12, 0, 310, 12, 0, 360, 12, 0 };

/* The table as each call takes it. It has no weights: a run of no numbers. */
#define CAM DEGREE, knots, KNOTS, points, 3 * COUNT, false, NULL, 0

/* What a refusal's place counts; most refusals have none. */
static const char *part(uint32_t number)
{
    return number == 4 || number == 7 ? "knot" : number == 8 ? "point" : number == 10 ? "weight" : NULL;
}

/* Whether a call passed; where it did not, its refusal is printed. */
static bool passed(const char *call, uint32_t number, size_t place)
{
    if (number == TASULOGI_DONE) {
        return true;
    }
    printf("%s: refusal %u", call, (unsigned)number);
    if (part(number) != NULL) {
        printf(" at %s %zu", part(number), place);
    }
    printf(", class %c: %s\n", "IDUCN?"[tasulogi_class_of(number)], tasulogi_refusal_text(number));
    return false;
}

static bool done(const char *call, uint64_t returned)
{
    return passed(call, TASULOGI_REFUSAL(returned), TASULOGI_PLACE(returned));
}

/* The loop runs past the end of the domain, 360 degrees, and is told so: it does not get the last point again and again. A
 * plotter that wants that point asks for it by name. */
static void walk(double step)
{
    double at[6], angle = 0;
    while (done("eval", tasulogi_eval(CAM, angle, at, 6))) {
        printf("at %.17g degrees the lift is %.17g\n", angle, at[1]);
        angle += step;
    }
    if (done("eval_clamped", tasulogi_eval_clamped(CAM, angle, at, 6))) {
        printf("at %.17g degrees, clamped, it is %.17g\n", angle, at[1]);
    }
}

/* At every angle from lo to hi the exact lift lies between y[0] and y[1], and the exact rise per degree, its first
 * derivative, between du_y[0] and du_y[1]; a shorter range has a narrower box. */
static void bound(double lo, double hi)
{
    double box[TASULOGI_BOX];
    if (done("bound", tasulogi_bound_curve(CAM, lo, hi, box, TASULOGI_BOX))) {
        const double *y = box + 2, *du_y = box + 6 + 2;
        printf("from %.17g to %.17g degrees the lift is from %.17g to %.17g\n", lo, hi, y[0], y[1]);
        printf("  and it rises by %.17g to %.17g mm per degree\n", du_y[0], du_y[1]);
    }
}

/* The sizes are those that tasulogi.h states for count + inserted_n points. */
static void insert(double knot)
{
    enum { N = COUNT + 1 };
    double more[N + DEGREE + 1], moved[3 * N], scratch[10 * N + 2 * (DEGREE + 1)];
    uint64_t returned = tasulogi_insert_knots(CAM, &knot, 1, more, N + DEGREE + 1, moved, 3 * N, NULL, 0, scratch, 10 * N + 2 * (DEGREE + 1));
    if (!done("insert", returned)) {
        return;
    }
    printf("with a knot at %.17g there are %zu points:\n", knot, TASULOGI_EDIT_COUNT(returned));
    for (size_t i = 0; i < TASULOGI_EDIT_COUNT(returned); i++) {
        printf("  %.17g %.17g\n", moved[3 * i], moved[3 * i + 1]);
    }
}

int main(void)
{
    /* A point was forgotten; a knot has a digit too many; then the table as it should be. */
    static const double mistyped[KNOTS] = { 0, 0, 0, 0, 90, 2100, 360, 360, 360, 360 };
    done("check", tasulogi_curve_refusal(DEGREE, knots, KNOTS, points, 3 * (COUNT - 1), false, NULL, 0));
    done("check", tasulogi_curve_refusal(DEGREE, mistyped, KNOTS, points, 3 * COUNT, false, NULL, 0));
    if (!done("check", tasulogi_curve_refusal(CAM))) {
        return 1;
    }
    uint64_t span = tasulogi_find_span(DEGREE, COUNT, knots, KNOTS, 120.0);
    if (!passed("find_span", TASULOGI_SPAN_REFUSAL(span), TASULOGI_SPAN_PLACE(span))) {
        return 1;
    }
    double at[6];
    if (!done("eval", tasulogi_eval(CAM, 120.0, at, 6))) {
        return 1;
    }
    printf("at 120 degrees, span %u: lift %.17g mm, rising %.17g mm per degree\n", (unsigned)span, at[1], at[4]);
    walk(120.0);
    bound(knots[span], knots[span + 1]);
    bound(119.0, 121.0);
    bound(knots[span], 220.0);
    insert(150.0);
    insert(400.0);
    return 0;
}

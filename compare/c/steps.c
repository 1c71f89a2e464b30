/* steps.h from C: each step is called, on document 01's table A. */
#include "../steps.h"

#include <math.h>
#include <stdio.h>

static const double knots[] = { 0, 0, 0, 1, 2, 2, 2 };
static const double ends[] = { 0, 0, 1, 1 };
static const double points[] = { 0, 0, 0, 2, 0, 0, 4, 0, 0, 6, 0, 0 };

static double basis[195];

/* The basis of a line's span, all +0.0 where it is out of reach. */
static bool cleared(size_t span, size_t n, const double *knots, size_t knots_n)
{
    bool zero = true;
    basis[0] = basis[65] = basis[194] = 7.0;
    tasulogi_step_basis_derivatives(span, 0.5, 1, n, knots, knots_n, basis, 195);
    for (size_t i = 0; i < 195; i++) {
        zero = zero && basis[i] == 0.0 && !signbit(basis[i]);
    }
    return zero;
}

int main(void)
{
    double at[6];
    tasulogi_step_basis_derivatives(2, 0.5, 2, 1, knots, 7, basis, 195);
    bool holds[] = {
        basis[0] == 0.25 && basis[65] == -1.0 && basis[3] == 0.0,
        tasulogi_step_span_of(2, 4, 0.5, knots, 7) == 2 && tasulogi_step_span_of(2, 4, 2.0, knots, 7) == 3,
        tasulogi_step_eval_at(2, knots, 7, points, 12, false, NULL, 0, 0.5, at, 6) == 0 && at[0] == 1.75 && at[3] == 3.0,
        tasulogi_step_eval_at(2, knots, 7, points, 12, false, NULL, 0, NAN, at, 6) == 12 && at[0] == 0.0,
        tasulogi_step_eval_at(2, knots, 7, points, 12, false, NULL, 0, 3.0, at, 6) == 43 && at[0] == 0.0,
        /* On knots that are not valid the two that are looked at say what lies outside: here from 2 to 1. */
        tasulogi_step_eval_at(1, (const double[]){ 0, 2, 1, 3 }, 4, points, 6, false, NULL, 0, 1.5, at, 6) == 43,
        /* What docs/DIFFERENCES.md says of a span of degree - 1 and of an order above 2. */
        cleared(0, 0, knots + 2, 2) && !cleared(1, 2, ends, 4) && cleared(1, 3, ends, 4),
    };
    int failed = 0;
    for (size_t i = 0; i < sizeof holds; i++) {
        failed += !holds[i];
    }
    printf("Steps: %d passed, %d failed\n", (int)sizeof holds - failed, failed);
    return failed != 0;
}

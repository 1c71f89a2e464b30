/* Steps of the calls, for the comparison and its times alone: no part of what the library promises. They take tables that
 * were validated before, and on others their answers mean nothing; a user takes tasulogi.h, whose calls check what they
 * are given. Link target/staticlib/libstep_exports.a, which has these steps and nothing else.
 *
 * Runs are as in tasulogi.h. Each step is total: on any input it ends, and leaves its runs as is said here.
 */
#ifndef TASULOGI_STEPS_H
#define TASULOGI_STEPS_H

#include <stdbool.h>
#include <stddef.h>
#include <stdint.h>

#ifdef __cplusplus
extern "C" {
#endif

/* The search of tasulogi_find_span alone, for a u of the domain; on knots that are not valid some place, or the degree. */
size_t tasulogi_step_span_of(size_t degree, size_t count, double u, const double *knots, size_t knots_n);

/* The basis functions of a span and their derivatives up to order n, at most 2, into a run of 195 numbers: three rows
 * of 65. A run of any other length, and any input outside degrees 1 to 64 and the knots, leaves +0.0. */
void tasulogi_step_basis_derivatives(size_t span, double u, size_t degree, size_t n, const double *knots,
                                     size_t knots_n, double *out, size_t out_n);

/* tasulogi_eval without validation: only lengths, the degree, the parameter and the two ends of the domain are looked at.
 * Refusals in this order: 32, 1, 2, 3, 9, 31, 12, 43, then 30 for the lent run. None has a place: the high half is 0. */
uint64_t tasulogi_step_eval_at(
    size_t degree, const double *knots, size_t knots_n, const double *points, size_t points_n, bool rational,
    const double *weights, size_t weights_n,
    double t, double *out, size_t n);

#ifdef __cplusplus
}
#endif

#endif

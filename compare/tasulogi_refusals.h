/* The refusals of document 01: number, class and text of each. Made by compare/refusals from docs/refusals.txt. */
#ifndef TASULOGI_REFUSALS_H
#define TASULOGI_REFUSALS_H

#include <stdint.h>

struct tasulogi_refusal {
    uint32_t number;
    char letter; /* of its class: I invalid, D degenerate, U unimplemented, C capacity, N internal; - none */
    const char *text;
};

/* Each number from 0 to 54 stands at its own place. One that document 01 does not have has the letter and the text of 0. */
static const struct tasulogi_refusal tasulogi_refusals[] = {
    { 0, '-', "no refusal of document 01" },
    { 1, 'I', "degree 0" },
    { 2, 'I', "count <= degree" },
    { 3, 'I', "knots are not count + degree + 1" },
    { 4, 'I', "a knot is not finite, or one exceeds the next" },
    { 5, 'D', "knots[degree] >= knots[count]" },
    { 6, 'I', "the rounded domain width is infinite" },
    { 7, 'I', "degree + 2 knots are equal" },
    { 8, 'I', "a control coordinate is not finite" },
    { 9, 'I', "weights are given and not one per point" },
    { 10, 'I', "a weight is not finite and above 0" },
    { 11, 'I', "net size is not u_count · v_count, or that product overflows" },
    { 12, 'I', "evaluation parameter not finite" },
    { 13, 'I', "inserted knot not finite or not strictly inside the domain" },
    { 14, 'I', "inserted knot already has multiplicity degree + 1" },
    { 15, 'I', "trim ends not finite, lo >= hi, or outside the domain" },
    { 16, 'I', "elevated degree below the curve's" },
    { 17, 'U', "an edit of a curve with unclamped ends" },
    { 18, 'C', "elevation to a higher degree above 64" },
    { 19, 'D', "a homogeneous coordinate not finite, or scaled weight <= 0" },
    { 20, 'D', "an edited homogeneous number not finite, or weight <= 0" },
    { 21, 'D', "eval2 result not finite" },
    { 22, 'I', "isoparameter not finite or outside" },
    { 23, 'D', "isocurve weight not finite or <= 0" },
    { 24, 'I', "bound range not finite or reversed" },
    { 25, 'I', "no nonempty span contains the bound range" },
    { 26, 'U', "a de Boor denominator interval contains 0" },
    { 27, 'U', "lower end of smallest/largest weight <= 0" },
    { 28, 'D', "quotient interval cannot be formed; never given" },
    { 29, 'N', "weight enclosures do not meet; never given" },
    { 30, 'C', "an input run over 1,048,576 numbers, an output smaller than the answer, or too little scratch" },
    { 31, 'C', "evaluation, bounds or isocurve with a degree above 64" },
    { 32, 'I', "point run not a multiple of three" },
    { 33, 'I', "malformed table record" },
    { 34, '-', "no refusal of document 01" },
    { 35, '-', "no refusal of document 01" },
    { 36, '-', "no refusal of document 01" },
    { 37, '-', "no refusal of document 01" },
    { 38, '-', "no refusal of document 01" },
    { 39, '-', "no refusal of document 01" },
    { 40, '-', "no refusal of document 01" },
    { 41, '-', "no refusal of document 01" },
    { 42, '-', "no refusal of document 01" },
    { 43, 'I', "evaluation parameter outside the domain" },
    { 44, '-', "no refusal of document 01" },
    { 45, '-', "no refusal of document 01" },
    { 46, '-', "no refusal of document 01" },
    { 47, '-', "no refusal of document 01" },
    { 48, '-', "no refusal of document 01" },
    { 49, '-', "no refusal of document 01" },
    { 50, '-', "no refusal of document 01" },
    { 51, '-', "no refusal of document 01" },
    { 52, '-', "no refusal of document 01" },
    { 53, '-', "no refusal of document 01" },
    { 54, '-', "no refusal of document 01" },
};

/* When a number is given, without its direction, in document 01's words. */
static inline const char *tasulogi_refusal_text(uint32_t number)
{
    const uint32_t count = sizeof tasulogi_refusals / sizeof *tasulogi_refusals;
    return tasulogi_refusals[number < count ? number : 0].text;
}

#endif

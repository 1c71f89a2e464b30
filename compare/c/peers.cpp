/* Times of our calls beside Open CASCADE's and SISL's on the same curves, as lines for compare/peers: the call, the points,
 * and the nanoseconds of ours, Open CASCADE's and SISL's. All three have to agree first. */
#include "../tasulogi.h"

#include <Geom_BSplineCurve.hxx>
#include <TColStd_Array1OfInteger.hxx>
#include <TColStd_Array1OfReal.hxx>
#include <TColgp_Array1OfPnt.hxx>
#include <sisl.h>

#include <algorithm>
#include <chrono>
#include <cmath>
#include <cstdio>
#include <cstdlib>
#include <random>
#include <vector>

typedef std::vector<double> Run;
typedef Handle(Geom_BSplineCurve) Occt;

static const size_t DEGREE = 3, PARAMETERS = 1024, INSERTED = 16;
static const double CLOSE = 1e-12, ROUND = 1e-3;

static void need(bool holds, const char *what, size_t count)
{
    if (!holds) {
        fprintf(stderr, "compare/peers: %s, %zu points\n", what, count);
        exit(1);
    }
}

/* A rational cubic with knots 0, 1, 2 and so on, clamped: as ours and SISL's calls take it. */
struct Curve {
    size_t count;
    Run knots, points, weights, homogeneous;

    Curve(size_t count, std::mt19937_64 &random) : count(count)
    {
        std::uniform_real_distribution<double> unit(0, 1);
        for (size_t i = 0; i < count + DEGREE + 1; i++) {
            knots.push_back(std::clamp(double(i) - double(DEGREE), 0.0, end()));
        }
        for (size_t i = 0; i < count; i++) {
            weights.push_back(0.5 + unit(random));
            for (int k = 0; k < 3; k++) {
                points.push_back(unit(random));
                homogeneous.push_back(points.back() * weights[i]);
            }
            homogeneous.push_back(weights[i]);
        }
    }

    double end() const { return double(count - DEGREE); }

    SISLCurve *sisl() { return newCurve(int(count), DEGREE + 1, knots.data(), homogeneous.data(), 2, 3, 1); }

    Occt occt() const
    {
        int inner = int(count - DEGREE);
        TColgp_Array1OfPnt p(1, int(count));
        TColStd_Array1OfReal w(1, int(count)), k(1, inner + 1);
        TColStd_Array1OfInteger times(1, inner + 1);
        for (size_t i = 0; i < count; i++) {
            p(int(i) + 1) = gp_Pnt(points[3 * i], points[3 * i + 1], points[3 * i + 2]);
            w(int(i) + 1) = weights[i];
        }
        for (int i = 0; i <= inner; i++) {
            k(i + 1) = i;
            times(i + 1) = i == 0 || i == inner ? int(DEGREE) + 1 : 1;
        }
        return new Geom_BSplineCurve(p, w, k, times, int(DEGREE));
    }
};

/* Nanoseconds of one item of a pass, the best of `rounds`, each at least a millisecond long. */
template <typename Pass> static double best(int rounds, size_t items, Pass pass)
{
    auto round = [&](long passes) {
        auto start = std::chrono::steady_clock::now();
        for (long i = 0; i < passes; i++) {
            pass();
        }
        return std::chrono::duration<double>(std::chrono::steady_clock::now() - start).count();
    };
    long passes = std::max(1L, long(std::ceil(ROUND / round(1))));
    double least = INFINITY;
    for (int i = 0; i < rounds; i++) {
        least = std::min(least, round(passes));
    }
    return least * 1e9 / double(items * size_t(passes));
}

/* Two runs of vectors of `n` numbers, which differ by no more than CLOSE of the vector's largest number. */
static bool agree(const Run &a, const Run &b, size_t n)
{
    if (a.size() != b.size()) {
        return false;
    }
    for (size_t i = 0; i < a.size(); i += n) {
        double size = 0, off = 0;
        for (size_t k = i; k < i + n; k++) {
            size = std::max(size, std::fabs(a[k]));
            off = std::max(off, std::fabs(a[k] - b[k]));
        }
        if (!(off <= CLOSE * size)) {
            return false;
        }
    }
    return true;
}

/* The point and the first derivative at many parameters. */
static void evaluation(int rounds, Curve &c, std::mt19937_64 &random)
{
    Run ts(PARAMETERS), ours(6 * PARAMETERS), occts(ours.size()), sisls(ours.size());
    std::vector<uint32_t> numbers(PARAMETERS);
    std::uniform_real_distribution<double> inside(0, c.end());
    for (double &t : ts) {
        t = inside(random);
    }
    Occt occt = c.occt();
    SISLCurve *sisl = c.sisl();
    bool done = true;
    auto we = [&] {
        done &= 0 == tasulogi_eval_many(DEGREE, c.knots.data(), c.knots.size(), c.points.data(), c.points.size(), true, c.weights.data(), c.weights.size(),
                                        ts.data(), ts.size(), numbers.data(), numbers.size(), ours.data(), ours.size());
    };
    auto they = [&] {
        gp_Pnt at;
        gp_Vec along;
        for (size_t i = 0; i < PARAMETERS; i++) {
            occt->D1(ts[i], at, along);
            at.Coord(occts[6 * i], occts[6 * i + 1], occts[6 * i + 2]);
            along.Coord(occts[6 * i + 3], occts[6 * i + 4], occts[6 * i + 5]);
        }
    };
    auto others = [&] {
        int left = 0, status = 0;
        for (size_t i = 0; i < PARAMETERS; i++) {
            s1227(sisl, 1, ts[i], &left, &sisls[6 * i], &status);
            done &= status >= 0;
        }
    };
    we(), they(), others();
    need(done && *std::max_element(numbers.begin(), numbers.end()) == 0, "a parameter was refused", c.count);
    need(agree(ours, occts, 3), "another point or derivative than Open CASCADE's", c.count);
    need(agree(ours, sisls, 3), "another point or derivative than SISL's", c.count);
    double a = best(rounds, PARAMETERS, we), b = best(rounds, PARAMETERS, they), d = best(rounds, PARAMETERS, others);
    need(done, "a parameter was refused", c.count);
    printf("point and first derivative\t%zu\t%.3f\t%.3f\t%.3f\n", c.count, a, b, d);
    freeCurve(sisl);
}

/* Points and weights as four numbers each; the weights over the first, for ours are divided by the largest. */
static Run fours(size_t count, const double *points, const double *weights)
{
    Run out;
    for (size_t i = 0; i < count; i++) {
        out.insert(out.end(), { points[3 * i], points[3 * i + 1], points[3 * i + 2], weights[i] / weights[0] });
    }
    return out;
}

static Run fours(const Occt &c)
{
    Run points, weights;
    for (int i = 1; i <= c->NbPoles(); i++) {
        gp_Pnt p = c->Pole(i);
        points.insert(points.end(), { p.X(), p.Y(), p.Z() });
        weights.push_back(c->Weight(i));
    }
    return fours(weights.size(), points.data(), weights.data());
}

static Run fours(const SISLCurve *c)
{
    Run weights;
    for (int i = 0; i < c->in; i++) {
        weights.push_back(c->rcoef[4 * i + 3]);
    }
    return fours(weights.size(), c->ecoef, weights.data());
}

/* One knot inserted, each time into the same curve. */
static void insertion(int rounds, Curve &c, std::mt19937_64 &random)
{
    size_t n = c.count + 1;
    Run ts(INSERTED), knots(n + DEGREE + 1), points(3 * n), weights(n), scratch(10 * n + 2 * (DEGREE + 1));
    std::uniform_real_distribution<double> inside(0, c.end());
    for (double &t : ts) {
        t = inside(random);
    }
    Occt occt = c.occt();
    SISLCurve *sisl = c.sisl();
    bool done = true;
    auto we = [&](double &t) {
        done &= TASULOGI_EDIT_COUNT(tasulogi_insert_knots(DEGREE, c.knots.data(), c.knots.size(), c.points.data(), c.points.size(), true, c.weights.data(),
                                                          c.weights.size(), &t, 1, knots.data(), knots.size(), points.data(), points.size(),
                                                          weights.data(), weights.size(), scratch.data(), scratch.size())) == n;
    };
    auto they = [&](double &t) {
        Occt made = Occt::DownCast(occt->Copy());
        made->InsertKnot(t);
        done &= made->NbPoles() == int(n);
        return made;
    };
    auto others = [&](double &t) {
        SISLCurve *made = nullptr;
        int status = 0;
        s1018(sisl, &t, 1, &made, &status);
        done &= status >= 0 && made->in == int(n);
        return made;
    };
    for (double &t : ts) {
        we(t);
        need(done, "a knot was refused", c.count);
        Run ours = fours(n, points.data(), weights.data());
        SISLCurve *made = others(t);
        need(agree(ours, fours(they(t)), 4) && done, "another curve with a knot more than Open CASCADE's", c.count);
        need(agree(ours, fours(made), 4) && done, "another curve with a knot more than SISL's", c.count);
        freeCurve(made);
    }
    double a = best(rounds, INSERTED, [&] { for (double &t : ts) we(t); });
    double b = best(rounds, INSERTED, [&] { for (double &t : ts) they(t); });
    double d = best(rounds, INSERTED, [&] { for (double &t : ts) freeCurve(others(t)); });
    need(done, "a knot was refused", c.count);
    printf("one knot inserted\t%zu\t%.3f\t%.3f\t%.3f\n", c.count, a, b, d);
    freeCurve(sisl);
}

int main(int, char **words)
{
    std::mt19937_64 random(7);
    std::vector<Curve> curves;
    for (size_t count : { 10, 100, 1000 }) {
        curves.emplace_back(count, random);
    }
    for (Curve &c : curves) {
        evaluation(atoi(words[1]), c, random);
    }
    for (Curve &c : curves) {
        insertion(atoi(words[1]), c, random);
    }
}

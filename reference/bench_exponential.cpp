// Times linear_pk_advance beside what a C++ program would take in its place, the
// exponential of the same block by Eigen and by GSL, in turns in one process, and
// measures the machine's rates for doubles in 128-bit registers.
//
// bench-exponential compiles this file twice: with EIGEN_PART the calls of Eigen,
// then all the rest. WITH_GSL asks for GSL. Kernels, amounts, rates and durations
// are those of bench.rs.
#include "linear_pk.h"

#include <cstddef>

// The arguments of an advance.
struct Question {
    std::size_t n;
    double kernel[LINEAR_PK_KERNEL_CELLS];
    double amounts[4];
    double rates[4];
    double duration;

    double rate(std::size_t i, std::size_t j) const { return kernel[5 + 4 * i + j]; }
};

// Writes n amounts.
using Advance = void(const Question &, double *result);

namespace eigen {
// Matrices whose size is read at run time, as ours is.
Advance advance;
// Matrices of a size that the program fixes for each n.
Advance advance_fixed;
const char *version();
} // namespace eigen

// The block [K·t, 1; 0, 0].
template <typename Cell>
static inline void make_block(const Question &asked, Cell cell) {
    const std::size_t n = asked.n;
    for (std::size_t i = 0; i < 2 * n; i++)
        for (std::size_t j = 0; j < 2 * n; j++)
            cell(i, j) = i >= n ? 0.0 : j < n ? asked.rate(i, j) * asked.duration : i + n == j;
}

// The amounts by the exponential of the block.
template <typename Cell>
static inline void sum_amounts(const Question &asked, Cell cell, double *result) {
    const std::size_t n = asked.n;
    for (std::size_t i = 0; i < n; i++) {
        double sum = 0.0;
        for (std::size_t j = 0; j < n; j++)
            sum += cell(i, j) * asked.amounts[j] + cell(i, j + n) * (asked.rates[j] * asked.duration);
        result[i] = sum;
    }
}

#ifdef EIGEN_PART

#include <Eigen/Core>
#include <unsupported/Eigen/MatrixFunctions>

namespace eigen {

template <typename Matrix>
static inline void advance_by(const Question &asked, Matrix block, double *result) {
    make_block(asked, [&](std::size_t i, std::size_t j) -> double & { return block(i, j); });
    const Matrix propagator = block.exp();
    sum_amounts(asked, [&](std::size_t i, std::size_t j) { return propagator(i, j); }, result);
}

void advance(const Question &asked, double *result) {
    advance_by(asked, Eigen::MatrixXd(2 * asked.n, 2 * asked.n), result);
}

void advance_fixed(const Question &asked, double *result) {
    switch (asked.n) {
    case 1: return advance_by(asked, Eigen::Matrix<double, 2, 2>(), result);
    case 2: return advance_by(asked, Eigen::Matrix<double, 4, 4>(), result);
    case 3: return advance_by(asked, Eigen::Matrix<double, 6, 6>(), result);
    case 4: return advance_by(asked, Eigen::Matrix<double, 8, 8>(), result);
    }
}

#define TEXT_OF(value) #value
#define TEXT(value) TEXT_OF(value)
const char *version() {
    return TEXT(EIGEN_WORLD_VERSION) "." TEXT(EIGEN_MAJOR_VERSION) "." TEXT(EIGEN_MINOR_VERSION);
}

} // namespace eigen

#else

#include <algorithm>
#include <chrono>
#include <cmath>
#include <cstdio>
#include <cstdlib>
#include <cstring>
#include <functional>
#include <vector>
#ifdef WITH_GSL
#include <gsl/gsl_linalg.h>
#include <gsl/gsl_version.h>
#endif

// Batches of each side for one line of the table.
const int BATCHES = 501;
// The least time of a batch, in nanoseconds.
const double BATCH = 200000.0;
const int HALVINGS[] = {1, 5, 20};
// The largest relative difference of an amount.
const double CLOSE = 1e-9;

static void fail(const char *why) {
    std::printf("bench-exponential: %s\n", why);
    std::exit(1);
}

static void ours(const Question &asked, double *result) {
    const std::size_t n = asked.n;
    if (linear_pk_advance(asked.kernel, LINEAR_PK_KERNEL_CELLS, asked.amounts, n, asked.rates, n,
                          asked.duration, result, n) != 0)
        fail("an advance was refused");
}

#ifdef WITH_GSL
// The two matrices are made once for each n; what GSL takes inside is its own.
static void gsl(const Question &asked, double *result) {
    static gsl_matrix *blocks[5], *propagators[5];
    gsl_matrix *&block = blocks[asked.n], *&propagator = propagators[asked.n];
    if (!block) {
        block = gsl_matrix_alloc(2 * asked.n, 2 * asked.n);
        propagator = gsl_matrix_alloc(2 * asked.n, 2 * asked.n);
    }
    make_block(asked, [&](std::size_t i, std::size_t j) -> double & { return *gsl_matrix_ptr(block, i, j); });
    gsl_linalg_exponential_ss(block, propagator, GSL_PREC_DOUBLE);
    sum_amounts(asked, [&](std::size_t i, std::size_t j) { return gsl_matrix_get(propagator, i, j); }, result);
}
#else
static Advance *const gsl = nullptr;
#define GSL_VERSION "-"
#endif

// Something to time: a loop of so many calls, or rounds.
struct Timed {
    std::function<void(long)> loop;
    long calls = 1;
    std::vector<double> times = {};

    double once() const {
        const auto start = std::chrono::steady_clock::now();
        loop(calls);
        return std::chrono::duration<double, std::nano>(std::chrono::steady_clock::now() - start).count();
    }
    void settle() {
        while (once() <= BATCH)
            calls *= 2;
    }
    void batch() { times.push_back(once() / calls); }
    // Nanoseconds of one call.
    double median() {
        std::sort(times.begin(), times.end());
        return times[times.size() / 2];
    }
};

static Timed timed(Advance *advance, const Question &asked) {
    return {[=](long calls) {
        double result[4];
        for (long k = 0; k < calls; k++) {
            const Question *given = &asked;
            asm volatile("" : "+r"(given) : "r"(result) : "memory");
            advance(*given, result);
        }
        asm volatile("" : : "r"(result) : "memory");
    }};
}

// A depot only for 4 states; a duration whose norm takes that many halvings.
static Question question(std::size_t n, int halvings) {
    const double volumes[] = {12.0, 25.5, 7.25}, exchange[] = {3.5, 1.75};
    const std::size_t count = std::min<std::size_t>(n, 3);
    Question asked = {n, {}, {100.0, 20.0, 5.0, 1.5}, {10.0, 0.0, 2.5, 0.125}, 0.0};
    if (linear_pk_new(4.2, volumes, count, exchange, count - 1, n == 4, 0.9, asked.kernel,
                      LINEAR_PK_KERNEL_CELLS) != 0)
        fail("a kernel was refused");
    double norm = 0.0;
    for (std::size_t i = 0; i < n; i++) {
        double sum = 0.0;
        for (std::size_t j = 0; j < n; j++)
            sum += std::fabs(asked.rate(i, j));
        norm = std::max(norm, sum);
    }
    // The block's norm is the duration times this one, and 1 more.
    const double product = halvings == 1 ? std::ldexp(1.0, -60) : std::ldexp(0.75, halvings - 1);
    asked.duration = product / norm;
    int taken = 0;
    for (double left = norm * asked.duration + 1.0; left > 0.5; left *= 0.5)
        taken++;
    if (taken != halvings)
        fail("a duration takes other halvings");
    return asked;
}

// A side of the table; without a call its columns are empty.
struct Side {
    const char *name;
    Advance *advance;
    // The largest relative difference from ours, and how many amounts have other bits.
    double apart = 0.0;
    int others = 0;

    void hold(const Question &asked) {
        double own[4], result[4];
        ours(asked, own);
        advance(asked, result);
        for (std::size_t i = 0; i < asked.n; i++) {
            const double difference = std::fabs(result[i] - own[i]) / own[i];
            if (!(difference <= CLOSE)) {
                std::printf("bench-exponential: n %zu, duration %g, state %zu: %s has %.17g, ours is %.17g\n",
                            asked.n, asked.duration, i, name, result[i], own[i]);
                std::exit(1);
            }
            apart = std::max(apart, difference);
            others += std::memcmp(&result[i], &own[i], sizeof(double)) != 0;
        }
    }
};

// Loops of operations on registers 0 to 13, which start from 4/3, by register 15,
// 1 + 2^-52: every result has a full fraction, and none leaves the normal doubles.
#define LOOP(name, operations)                                                                     \
    static void name(long rounds) {                                                                \
        static const double start = 4.0 / 3.0, step = 1.0 + 0x1p-52;                               \
        asm volatile("movsd %2, %%xmm15\n unpcklpd %%xmm15, %%xmm15\n"                             \
                     ".irp r,0,1,2,3,4,5,6,7,8,9,10,11,12,13\n"                                    \
                     " movsd %1, %%xmm\\r\n unpcklpd %%xmm\\r, %%xmm\\r\n"                         \
                     ".endr\n"                                                                     \
                     ".p2align 5\n"                                                                \
                     "1:\n" operations "dec %0\n jnz 1b\n"                                         \
                     : "+r"(rounds)                                                                \
                     : "m"(start), "m"(step)                                                       \
                     : "cc", "xmm0", "xmm1", "xmm2", "xmm3", "xmm4", "xmm5", "xmm6", "xmm7",       \
                       "xmm8", "xmm9", "xmm10", "xmm11", "xmm12", "xmm13", "xmm15");               \
    }
// 28 pairs, 28 divisions, chains of 32.
LOOP(pair_loop, ".rept 4\n"
                ".irp r,0,1,2,3,4,5,6\n mulpd %%xmm15, %%xmm\\r\n .endr\n"
                ".irp r,7,8,9,10,11,12,13\n addpd %%xmm15, %%xmm\\r\n .endr\n"
                ".endr\n")
LOOP(division_loop, ".rept 2\n"
                    ".irp r,0,1,2,3,4,5,6,7,8,9,10,11,12,13\n divpd %%xmm15, %%xmm\\r\n .endr\n"
                    ".endr\n")
LOOP(product_chain, ".rept 32\n mulsd %%xmm15, %%xmm0\n .endr\n")
LOOP(division_chain, ".rept 32\n divsd %%xmm15, %%xmm0\n .endr\n")

static void print_rates() {
    Timed loops[] = {{pair_loop}, {division_loop}, {product_chain}, {division_chain}};
    for (Timed &each : loops)
        each.settle();
    for (int k = 0; k < BATCHES; k++)
        for (Timed &each : loops)
            each.batch();
    const double pair = loops[0].median() / 28, division = loops[1].median() / 28;
    const double product_after = loops[2].median() / 32, division_after = loops[3].median() / 32;
    std::printf("\nmulpd and addpd, independent: %.3f ns a pair\n", pair);
    std::printf("divpd, independent: %.3f ns\n", division);
    std::printf("mulsd behind mulsd: %.3f ns\n", product_after);
    std::printf("divsd behind divsd: %.3f ns\n", division_after);

    // At n 4 a term has 4·4·4 multiply-adds and, but at the powers of two, 4·8
    // divisions; a squaring has 4·4·8 multiply-adds. Two doubles an operation.
    const int multiply_adds = 20 * 64 + 5 * 128, divisions = 15 * 32;
    const double adding = multiply_adds / 2 * pair, dividing = divisions / 2 * division;
    std::printf("\nn 4, 5 halvings, by these rates: %d multiply-adds %.0f ns, %d divisions %.0f ns; "
                "one behind the other %.0f ns, fully overlapped %.0f ns\n",
                multiply_adds, adding, divisions, dividing, adding + dividing, std::max(adding, dividing));
    std::printf("n 1, by these latencies: a chain of 20 products and 15 divisions %.0f ns\n",
                20 * product_after + 15 * division_after);
}

int main() {
    std::vector<Side> sides = {
        {"ours", ours}, {"Eigen", eigen::advance}, {"Eigen fixed", eigen::advance_fixed}, {"GSL", gsl}};
    std::printf("Eigen %s, GSL %s, compiler %s\n\n", eigen::version(), GSL_VERSION, __VERSION__);

    struct Line {
        Question asked;
        int halvings;
        std::vector<Timed> times;
    };
    std::vector<Line> lines;
    int amounts = 0;
    for (std::size_t n = 1; n <= 4; n++)
        for (int halvings : HALVINGS) {
            lines.push_back({question(n, halvings), halvings, {}});
            amounts += n;
        }
    for (Line &line : lines)
        for (Side &side : sides)
            if (side.advance) {
                side.hold(line.asked);
                line.times.push_back(timed(side.advance, line.asked));
                line.times.back().settle();
            }
    // Lines and sides take turns, so that a slow phase of the machine affects all alike.
    for (int k = 0; k < BATCHES; k++)
        for (Line &line : lines)
            for (Timed &each : line.times)
                each.batch();

    std::printf("| n | halvings |");
    for (const Side &side : sides)
        std::printf(" %s ns |", side.name);
    for (std::size_t k = 1; k < sides.size(); k++)
        std::printf(" %s/ours |", sides[k].name);
    std::printf("\n|---|---|---|---|---|---|---|---|---|\n");
    for (Line &line : lines) {
        std::printf("| %zu | %d |", line.asked.n, line.halvings);
        std::vector<double> medians;
        for (Timed &each : line.times) {
            medians.push_back(each.median());
            std::printf(" %.0f |", medians.back());
        }
        const char *none = medians.size() < sides.size() ? " - |" : "";
        std::printf("%s", none);
        for (std::size_t k = 1; k < medians.size(); k++)
            std::printf(" %.2f |", medians[k] / medians[0]);
        std::printf("%s\n", none);
    }

    std::printf("\nall amounts agree with ours to %g relative; other bits than ours:", CLOSE);
    const char *between = "";
    for (std::size_t k = 1; k < lines[0].times.size(); k++) {
        std::printf("%s %s %d of %d, by %.0e at most", between, sides[k].name, sides[k].others, amounts, sides[k].apart);
        between = ",";
    }
    std::printf("\n");
    print_rates();
}

#endif

/*
 * A linear patient: mammillary kinetics with one to three compartments and an
 * optional depot, its kernel, runs over lists of doses and resets, the steady
 * state of a repeated cycle, and the printouts of a sheet.
 *
 * Build the archive with `scripts/archive` and link target/staticlib/libcapi.a.
 * Its code is for x86-64 with SSE4.2 (x86-64-v2), for which it does not test.
 * It needs no heap, and of other libraries the C library's memcpy and memset alone.
 * Of stack rig_steady_sheet takes 80 KiB, linear_pk_periodic_steady_state 78 KiB,
 * rig_run_sheet 54 KiB, linear_pk_simulate 31 KiB, linear_pk_normalize_periodic_cycle
 * 24 KiB, every other function 5 KiB at most.
 *
 * States are the depot (if there is one), central, then the peripherals:
 * n is 1 to 4. Amounts, volumes and times are in one coherent set of units.
 *
 * A slice is a pointer and a count of doubles, of words or of bytes, of any
 * length and contents. No two slices of one call may overlap if one of them is
 * written. A pointer is never NULL: an empty slice has any aligned pointer and
 * the count 0.
 *
 * The bits of every answer rest on the floating-point environment of the caller,
 * which is neither set nor tested here: round to nearest, ties to even; no flush
 * to zero, no denormals-are-zero. A program that is linked with -ffast-math, or
 * calls fesetround, may have another, and then other answers.
 *
 * Each function but linear_pk_state_count replies 0, or the number of a refusal:
 *    1  parameters outside those that linear_pk_new takes, or a kernel with a count,
 *       a depot or a volume that it does not give
 *    2  a rate that is not finite
 *    3  a wrong count, or a value that is not finite or below 0
 *    4  an output slice that is too short
 *    5  more than 192 events (64 in a cycle or a sheet) or 256 samples
 *   10  a window: ends not finite or not increasing, rtol or atol not finite or not above 0
 *   11  a sample not finite or outside the window
 *   12  an event: see linear_pk_simulate
 *   13  more events than their budget
 *   14  more values than their budget
 *   15  a cycle: ends not finite, or its period not finite or not above 0
 *   16  an event of a cycle: its time not finite, before the start, or not before the end
 *   17  an infusion of a cycle: duration not finite or not above 0, amount not finite
 *       or below 0, or its stop not finite or not after its time
 *   18  the periods that an infusion lasts are not finite
 *   19  absolute not finite or not above 0, relative not finite or below 0
 *   20  the norm of the interval's matrix is not finite
 *   21  more than 60 halvings
 *   22  exponential, rate*duration or amount not finite, or an amount below 0
 *   23  a concentration that is not finite
 *   30  one advance beyond the budget of propagations
 *   31  a state that is not finite or below 0
 *   32  summed rates that are not finite
 *   33  a pivot that is not finite or too small: no single steady state
 *   34  a solution that is not finite or below 0
 *   35  the scale of a residual is not finite
 *   36  a scaled residual that is not finite or above 1
 *   40  words that are no events, or bytes that are no sheet
 * Where several hold, the first in the order that each function lists is given.
 *
 * What the written slices hold at a refusal: doubles, sides and words are as they
 * were, but for a run of linear_pk_simulate that stopped once begun, which leaves
 * its reckoned rows zero; the bytes of rig_run_sheet and rig_steady_sheet are the
 * `refused` line, and as they were where the printout has no room. Cells behind
 * an answer, behind the reckoned rows or behind a printout never change.
 */
#ifndef LINEAR_PK_H
#define LINEAR_PK_H

#include <stdbool.h>
#include <stddef.h>
#include <stdint.h>

#ifdef __cplusplus
extern "C" {
#endif

/* The cells of a kernel: the number of volumes, the depot as 0 or 1, three
 * volumes (+0 where unused), then the 4 by 4 matrix of rates row by row, the
 * rate from state j to state i at row i, column j (+0 outside the n by n part). */
#define LINEAR_PK_KERNEL_CELLS 21

/* The cells of a bound kernel: those of the kernel, then four amounts, +0 past n. */
#define LINEAR_PK_BOUND_CELLS 25

/* The kernel of a clearance, 1 to 3 volumes with central first, one exchange
 * clearance for each further volume, and first-order absorption from a depot
 * (read only if depot is true). Volumes are finite and above 0, all else finite
 * and at least 0. Replies 0, 1, 2, 4; on 0 the first 21 cells are the kernel. */
uint64_t linear_pk_new(double clearance,
                       const double *volumes, size_t volumes_len,
                       const double *exchange, size_t exchange_len,
                       bool depot, double absorption,
                       double *kernel, size_t kernel_len);

/* Replies n, the number of states, and no refusal: 0 where the cells hold no
 * kernel, which is fewer than 21 cells, a number of volumes other than 1, 2, 3,
 * or a depot other than 0, 1. Volumes and rates are not looked at. */
uint64_t linear_pk_state_count(const double *kernel, size_t kernel_len);

/* The amounts after a duration at constant input rates (amount by time), n of
 * each. Replies 0, 1, 2, 3, 4, 20, 21, 22; on 0 the first n cells of result are
 * the amounts. Duration 0 hands the amounts back. */
uint64_t linear_pk_advance(const double *kernel, size_t kernel_len,
                           const double *amounts, size_t amounts_len,
                           const double *rates, size_t rates_len,
                           double duration,
                           double *result, size_t result_len);

/* Amount by volume of central and the peripherals; the depot is skipped.
 * Replies 0, 1, 2, 3, 4, 23; on 0 the first cells of result, one for each
 * volume, are the concentrations. */
uint64_t linear_pk_concentrations(const double *kernel, size_t kernel_len,
                                  const double *amounts, size_t amounts_len,
                                  double *result, size_t result_len);

/* Initial amounts bound to a kernel. Replies 0, 1, 2, 3, 4; on 0 the first 25
 * cells of bound are the kernel and the amounts. */
uint64_t linear_pk_bind(const double *kernel, size_t kernel_len,
                        const double *initial, size_t initial_len,
                        double *bound, size_t bound_len);

/* The words of an event: kind (0 bolus, 1 infusion, 2 reset); the time's bits;
 * target; the bits of the amount or value; the duration's bits or a reset's
 * order, at most 65535; whether a reset stops the infusions that run on its
 * target, 0 or 1. Words that a kind lacks may hold anything. */
#define LINEAR_PK_EVENT_WORDS 6

/* The sides of rows: before the resets and boluses at a time, and after them or
 * at a sample. A row that is not reached has 0. */
#define LINEAR_PK_PRE 1
#define LINEAR_PK_POST 2

/* A run from start to end over a list of events, from n amounts.
 *
 * The budgets: propagations is the most advances, event_budget the most events,
 * output_budget the most values of the reckoned rows, R = 4 * events + samples + 2
 * rows of n values. An event's time is finite and in the window, ends included,
 * its target below n; a dose's amount is finite and at least 0; an infusion's
 * duration is finite and above 0, it ends after its start and in the window, and
 * amount by duration is finite; a reset's value is finite, and no two resets have
 * the same time and order, whatever their targets. Samples come in any order.
 *
 * Replies 0, or the first number that holds of 40, 5, 1, 2, 3, 13, 10, 11, 12,
 * 14, 4 ahead of the run, or the first that the run meets: at a boundary 31, of
 * the state and behind each reset and bolus; 32 of the summed rates; at
 * each reading, and then at the next boundary, 30, 3 (its time less the
 * boundary's overflows), 20, 21, 22. So an advance beyond the budget is 30 before
 * the kernel is asked. times and sides have R cells or more, values R * n or more.
 *
 * *time, *rows and *advances are written at every reply.
 *   0              the first *rows cells of times and sides are the rows, the
 *                  amounts of row k stand in values from place k * n on, and the
 *                  rest of the R rows is zero; *advances are those made, *time +0
 *   in the run     the R rows are zero and *rows is 0; *time is that of the row or
 *                  boundary where the run stopped (+0 for 32), *advances those made
 *                  up to there, a refused one counted, the one beyond the budget too
 *   ahead of it    the slices are as they were, *time +0, *rows 0, *advances 0 */
uint64_t linear_pk_simulate(const double *kernel, size_t kernel_len,
                            const double *amounts, size_t amounts_len,
                            double start, double end, double rtol, double atol,
                            uint64_t propagations, size_t event_budget, size_t output_budget,
                            const uint64_t *events, size_t events_len,
                            const double *samples, size_t samples_len,
                            double *times, size_t times_len,
                            uint8_t *sides, size_t sides_len,
                            double *values, size_t values_len,
                            double *time, size_t *rows, uint64_t *advances);

/* A cycle's events folded into one period, [start, end), which repeats: an
 * infusion that lasts past the end goes on from the start, and one that lasts
 * whole periods gives as many times the rate over all of it. An infusion becomes
 * at most three events, any other stays as it is, so that 192 are the most.
 *
 * The window, the budgets, the events' words and the samples are those of
 * linear_pk_simulate; of the budgets event_budget alone matters. At most 64
 * events.
 *
 * Replies 0, or the first number that holds of 40, 5, 1, 2, 15, 13, then event by
 * event 16, 17, 18, 13, then 10, 11, 12 on the folded list, and last 4: folded
 * has fewer than 6 * *count cells. On 0 the first 6 * *count cells of folded are
 * the events' words, those that a kind lacks 0. At a refusal folded stays as it
 * was and *count is 0. */
uint64_t linear_pk_normalize_periodic_cycle(const double *kernel, size_t kernel_len,
                                            double start, double end, double rtol, double atol,
                                            uint64_t propagations, size_t event_budget, size_t output_budget,
                                            const uint64_t *events, size_t events_len,
                                            const double *samples, size_t samples_len,
                                            uint64_t *folded, size_t folded_len, size_t *count);

/* The amounts just before the start of a cycle that repeats itself, with the
 * residuals of a run from them. The residual of a state is end - start, with its
 * sign: the amount at the end of that run less the one at its start. The scaled
 * residual is a magnitude, |end - start| over the scale, which is
 * absolute + relative * the larger of |start| and |end|.
 *
 * The events are folded as above. The runs that this takes, n + 2 of them, share
 * the budgets, each divided by n + 2; samples are tested, and not used. Accepted
 * is a solution that is finite and at least 0, whose own run reaches the end, and
 * whose scales are finite and scaled residuals finite and at most 1, state by
 * state.
 *
 * Replies 0, or the first number that holds of 40, 5, 1, 2, 19, those of
 * linear_pk_normalize_periodic_cycle from 15 on, 13 and 14 on the divided
 * budgets, 4, then 31, 32, 30, 20, 21, 22 in a run, as in linear_pk_simulate, 33,
 * 34, 22 or 31 in the run of the solution, 35, 36. On 0 the first n cells of
 * amounts and of residual are the answer, *maximum is the greatest scaled
 * residual and *time +0. At a refusal both slices stay as they were, *maximum is
 * +0, and *time is the time of the row or boundary where a run stopped, else +0. */
uint64_t linear_pk_periodic_steady_state(const double *kernel, size_t kernel_len,
                                         double start, double end, double rtol, double atol,
                                         uint64_t propagations, size_t event_budget, size_t output_budget,
                                         const uint64_t *events, size_t events_len,
                                         const double *samples, size_t samples_len,
                                         double absolute, double relative,
                                         double *amounts, size_t amounts_len,
                                         double *residual, size_t residual_len,
                                         double *time, double *maximum);

/* The most bytes of a sheet that is read, and of a printout. */
#define RIG_SHEET_BYTES 65536
#define RIG_PRINTOUT_BYTES 46294

/* The run of a sheet, as rig-run prints it: little-endian 64-bit words in, the
 * lines of the printout out, from the front of out; *length is how many bytes
 * they are. The reply is the printout's number: 0 where it tells a run that
 * reached its end, else the number of its `refused` line: 40, 5, 1, 2, 3, 13,
 * 10, 11, 12, 14 ahead of the run, or 31, 32, 30, 3, 20, 21, 22 in it. 5 stands
 * for more than 64 events or 256 samples. A propagation word of 0 is 1,000.
 * Where out is too short for the printout nothing is written and *length is 0; a
 * run that reached its end is then 4, a refusal keeps its number.
 * RIG_PRINTOUT_BYTES are enough for every sheet. */
uint64_t rig_run_sheet(const uint8_t *sheet, size_t sheet_len,
                       uint8_t *out, size_t out_len, size_t *length);

/* The most bytes of a closed cycle's printout. */
#define RIG_STEADY_BYTES 157

/* The closed cycle of a sheet, as rig-steady prints it: a line for each state,
 * its amount and its residual, end - start, then `max` and the greatest scaled
 * residual; or its `refused` line. The amounts of the sheet are passed over. The
 * reply, *length and out are as in rig_run_sheet; the numbers are 40, 5, 1, 2, 19,
 * then those of linear_pk_periodic_steady_state. RIG_STEADY_BYTES are enough for
 * every sheet. */
uint64_t rig_steady_sheet(const uint8_t *sheet, size_t sheet_len,
                          uint8_t *out, size_t out_len, size_t *length);

#ifdef __cplusplus
}
#endif

#endif

/* A day of a patient with a depot and two compartments: an oral dose, an infusion that a reset cuts short, readings every six hours. */
#include <stdio.h>
#include <string.h>

#include "linear_pk.h"

#define STATES 3
#define EVENTS 3
#define SAMPLES 3
#define ROWS (4 * EVENTS + SAMPLES + 2)

static uint64_t bits(double x) {
    uint64_t word;
    memcpy(&word, &x, sizeof word);
    return word;
}

int main(void) {
    const double volumes[] = {4.0, 8.0}, exchange[] = {1.0}, amounts[STATES] = {0.0, 0.0, 0.0};
    const double samples[SAMPLES] = {18.0, 6.0, 12.0};
    const uint64_t events[EVENTS * LINEAR_PK_EVENT_WORDS] = {
        0, bits(0.0), 0, bits(100.0), 0, 0,          /* 100 into the depot at 0 */
        1, bits(4.0), 1, bits(40.0), bits(10.0), 0,  /* 40 into central from 4 to 14 */
        2, bits(9.0), 1, bits(0.0), 0, 1,            /* central emptied at 9, its infusion stopped */
    };
    double kernel[LINEAR_PK_KERNEL_CELLS], times[ROWS], values[ROWS * STATES], time;
    uint8_t sides[ROWS];
    size_t rows;
    uint64_t advances;

    uint64_t number = linear_pk_new(2.0, volumes, 2, exchange, 1, true, 0.5, kernel, LINEAR_PK_KERNEL_CELLS);
    if (number == 0)
        number = linear_pk_simulate(kernel, LINEAR_PK_KERNEL_CELLS, amounts, STATES, 0.0, 24.0, 1e-6, 1e-9, 1000, 64, 1000,
                                    events, EVENTS * LINEAR_PK_EVENT_WORDS, samples, SAMPLES, times, ROWS, sides, ROWS,
                                    values, ROWS * STATES, &time, &rows, &advances);
    if (number != 0) {
        printf("refused %u\n", (unsigned)number);
        return 1;
    }
    for (size_t row = 0; row < rows; row++)
        printf("%5.2f %-4s depot %10.6f, central %9.6f, peripheral %9.6f\n", times[row], sides[row] == LINEAR_PK_PRE ? "pre" : "post",
               values[row * STATES], values[row * STATES + 1], values[row * STATES + 2]);
    printf("%u rows, %u advances\n", (unsigned)rows, (unsigned)advances);

    /* One advance fewer is refused at the end, and the rows are zeros. */
    number = linear_pk_simulate(kernel, LINEAR_PK_KERNEL_CELLS, amounts, STATES, 0.0, 24.0, 1e-6, 1e-9, advances - 1, 64, 1000,
                                events, EVENTS * LINEAR_PK_EVENT_WORDS, samples, SAMPLES, times, ROWS, sides, ROWS, values,
                                ROWS * STATES, &time, &rows, &advances);
    printf("refused %u at %.2f behind %u advances, depot %.6f\n", (unsigned)number, time, (unsigned)advances, values[0]);
    return 0;
}

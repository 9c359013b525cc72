/* A cycle of eight hours at steady state in two compartments: an infusion of twenty hours that is started six hours into each cycle, and a bolus. */
#include <stdio.h>
#include <string.h>

#include "linear_pk.h"

#define STATES 2
#define EVENTS 2

static uint64_t bits(double x) {
    uint64_t word;
    memcpy(&word, &x, sizeof word);
    return word;
}

static double number_of(uint64_t word) {
    double x;
    memcpy(&x, &word, sizeof x);
    return x;
}

int main(void) {
    const double volumes[] = {14.0, 22.0}, exchange[] = {3.0}, none[1] = {0.0};
    const uint64_t events[EVENTS * LINEAR_PK_EVENT_WORDS] = {
        1, bits(6.0), 0, bits(20.0), bits(20.0), 0,  /* 20 into central over 20 h from 6 on */
        0, bits(0.0), 0, bits(5.0), 0, 0,            /* 5 into central at 0 */
    };
    double kernel[LINEAR_PK_KERNEL_CELLS], amounts[STATES], residual[STATES], time, maximum;
    uint64_t folded[3 * EVENTS * LINEAR_PK_EVENT_WORDS];
    size_t count;

    uint64_t number = linear_pk_new(2.5, volumes, 2, exchange, 1, false, 0.0, kernel, LINEAR_PK_KERNEL_CELLS);
    if (number == 0)
        number = linear_pk_normalize_periodic_cycle(kernel, LINEAR_PK_KERNEL_CELLS, 0.0, 8.0, 1e-6, 1e-9, 1000, 64, 1000, events,
                                                    EVENTS * LINEAR_PK_EVENT_WORDS, none, 0, folded,
                                                    3 * EVENTS * LINEAR_PK_EVENT_WORDS, &count);
    if (number != 0) {
        printf("refused %u\n", (unsigned)number);
        return 1;
    }
    for (size_t i = 0; i < count; i++) {
        const uint64_t *event = folded + i * LINEAR_PK_EVENT_WORDS;
        printf("%s of %.6f at %.2f", event[0] == 1 ? "infusion" : "bolus", number_of(event[3]), number_of(event[1]));
        if (event[0] == 1)
            printf(" over %.2f", number_of(event[4]));
        printf("\n");
    }
    number = linear_pk_periodic_steady_state(kernel, LINEAR_PK_KERNEL_CELLS, 0.0, 8.0, 1e-6, 1e-9, 1000, 64, 1000, events,
                                             EVENTS * LINEAR_PK_EVENT_WORDS, none, 0, 1e-6, 1e-9, amounts, STATES, residual,
                                             STATES, &time, &maximum);
    if (number != 0) {
        printf("refused %u\n", (unsigned)number);
        return 1;
    }
    printf("central %.6f, peripheral %.6f at the start of each cycle\n", amounts[0], amounts[1]);
    printf("closed: %s\n", maximum <= 1.0 ? "yes" : "no");

    /* Without clearance there is no single steady state. */
    number = linear_pk_new(0.0, volumes, 2, exchange, 1, false, 0.0, kernel, LINEAR_PK_KERNEL_CELLS);
    if (number == 0)
        number = linear_pk_periodic_steady_state(kernel, LINEAR_PK_KERNEL_CELLS, 0.0, 8.0, 1e-6, 1e-9, 1000, 64, 1000, events,
                                                 EVENTS * LINEAR_PK_EVENT_WORDS, none, 0, 1e-6, 1e-9, amounts, STATES, residual,
                                                 STATES, &time, &maximum);
    printf("refused %u\n", (unsigned)number);
    return 0;
}

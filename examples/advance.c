/* An oral dose of 100 into a patient of two compartments: amounts and concentrations every quarter of an hour. */
#include <stdio.h>

#include "linear_pk.h"

int main(void) {
    const double volumes[] = {4.0, 8.0}, exchange[] = {1.0};
    double kernel[LINEAR_PK_KERNEL_CELLS];
    uint64_t number = linear_pk_new(2.0, volumes, 2, exchange, 1, true, 0.5, kernel, LINEAR_PK_KERNEL_CELLS);
    if (number != 0) {
        printf("refused %u\n", (unsigned)number);
        return 1;
    }
    printf("%u states\n", (unsigned)linear_pk_state_count(kernel, LINEAR_PK_KERNEL_CELLS));

    double amounts[] = {100.0, 0.0, 0.0}, rates[] = {0.0, 0.0, 0.0}, after[3], concentrations[2];
    for (int quarter = 1; quarter <= 4; quarter++) {
        number = linear_pk_advance(kernel, LINEAR_PK_KERNEL_CELLS, amounts, 3, rates, 3, 0.25, after, 3);
        if (number == 0)
            number = linear_pk_concentrations(kernel, LINEAR_PK_KERNEL_CELLS, after, 3, concentrations, 2);
        if (number != 0) {
            printf("refused %u\n", (unsigned)number);
            return 1;
        }
        for (int i = 0; i < 3; i++)
            amounts[i] = after[i];
        printf("%.2f: depot %.6f, central %.6f, peripheral %.6f; %.6f and %.6f\n", 0.25 * quarter, after[0], after[1],
               after[2], concentrations[0], concentrations[1]);
    }

    /* An amount below 0 is refused, and the slice stays as it was. */
    amounts[0] = -1.0;
    number = linear_pk_advance(kernel, LINEAR_PK_KERNEL_CELLS, amounts, 3, rates, 3, 0.25, after, 3);
    printf("refused %u, depot still %.6f\n", (unsigned)number, after[0]);
    return 0;
}

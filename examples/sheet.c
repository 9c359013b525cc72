/* What rig-run does, in C: a sheet on standard input, its printout on standard output. */
#include <stdio.h>

#include "linear_pk.h"

int main(void) {
    /* one byte more than a sheet can have: a longer file is refused as this much of it is */
    static uint8_t sheet[RIG_SHEET_BYTES + 1], printout[RIG_PRINTOUT_BYTES];
    size_t given = fread(sheet, 1, sizeof sheet, stdin), length;
    rig_run_sheet(sheet, given, printout, sizeof printout, &length);
    return fwrite(printout, 1, length, stdout) != length;
}

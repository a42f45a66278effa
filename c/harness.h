/* What the C tests share: the count of what held, and the sheet that they all use. A test ends with `return finish();`.
*/
#ifndef HARNESS_H
#define HARNESS_H

#include <stdint.h>
#include <stdio.h>

static unsigned passed, failed;

static void tally(int holds, const char *what)
{
    if (holds) {
        passed++;
    } else {
        failed++;
        printf("FAILED: %s\n", what);
    }
}

/* Prints the last line, 'N passed, M failed', and gives the exit status. */
static int finish(void)
{
    printf("%u passed, %u failed\n", passed, failed);
    return failed != 0;
}

/* What stands in a word that is lent, before the call; no place and no number is as large. */
#define BEFORE UINT64_C(0xA5A5A5A5A5A5A5A5)

/* Constant data may lie in memory that cannot be written: a call that wrote to its sheet would not live to answer. */
static const uint8_t smallest[22] = {
    'H', 'D', 1, 0, 0, 1,           /*  0: edition 1, no types, no qualified types, one procedure */
    'P', 'R', 0, 0, 0, 255, 1, 0,   /*  6: main: no owner, formals, variables or result; one instruction */
    'I', 'N', 17, 255, 255, 255, 0, 0 /* 14: return */
};

#endif

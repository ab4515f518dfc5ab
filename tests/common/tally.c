#include "tally.h"

#include <stdarg.h>
#include <stdio.h>

enum { SHOWN = 20 };

static int passed, failed;

void tally(bool ok, const char *words, ...)
{
    va_list list;

    if (ok) {
        passed++;
        return;
    }
    failed++;
    if (failed > SHOWN)
        return;
    printf("FAILED: ");
    va_start(list, words);
    vprintf(words, list);
    va_end(list);
    printf("\n");
    fflush(stdout);
}

int tally_end(void)
{
    if (failed > SHOWN)
        printf("and %d more that failed\n", failed - SHOWN);
    printf("%d passed, %d failed\n", passed, failed);
    return failed == 0 ? 0 : 1;
}

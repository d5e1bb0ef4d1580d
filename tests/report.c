#include "report.h"

#include <stdarg.h>
#include <stdio.h>

static unsigned passed, failed;

int report(int ok, const char *name, ...) {
    va_list arguments;
    printf("%s ", ok ? "ok    " : "FAILED");
    va_start(arguments, name);
    vprintf(name, arguments);
    va_end(arguments);
    printf("\n");
    fflush(stdout);
    if (ok)
        passed++;
    else
        failed++;
    return ok;
}

int report_end(void) {
    printf("%u passed, %u failed\n", passed, failed);
    return failed != 0 || passed == 0;
}

/* Named checks, counted. The last line of a test program is report_end's. */
#ifndef REPORT_H
#define REPORT_H

/* A check with its name; says so at once if it failed. Answers ok. */
int report(int ok, const char *name, ...) __attribute__((format(printf, 2, 3)));

/* "N passed, M failed"; answers the program's exit status. */
int report_end(void);

#endif

/* A counter that logs tenths of a picosecond: its readings become whole samples, and the answer says how many were changed. Then a damaged log. The
 * same lines come out of a program linked with -ffast-math, where the machine takes 5e-324 for nought: the library looks at the reading's bits. */
#include <inttypes.h>
#include <math.h>
#include <stdio.h>

#include "ploegelster.h"

#define N 8

/* The samples of a log with the Allan sum of them, or why there are none. */
static void told(const char *name, const double *log)
{
    int64_t samples[N];
    plg_float_sums_answer a = plg_float_sums(log, N, 1, samples, N);
    if (a.number != PLG_ANSWERED) {
        printf("%s: refused %" PRIu64 " (%s) at %" PRIu64 ", changed %" PRIu64 "\n", name, a.number, plg_refusal_text(a.number), a.place, a.changed);
        return;
    }
    printf("%s:", name);
    for (size_t i = 0; i < N; i++)
        printf(" %" PRId64, samples[i]);
    printf(", A = %" PRIu64 " of %" PRIu64 ", changed %" PRIu64 " of %d\n", a.allan.sum.low, a.allan.count, a.changed, N);
}

int main(void)
{
    const double tenths[N] = {-2.5, -0.0, 5e-324, 0.5, 1.5, 2.4, 2.6, 4};
    const double damaged[N] = {0.1, 0.2, 0.3, 0.4, 0.5, (double)PLG_SAMPLE_END + 0.5, NAN, 0.8};
    const double broken[N] = {0.1, 0.2, 0.3, 0.4, 0.5, 0.6, NAN, (double)PLG_SAMPLE_END + 0.5};

    told("tenths", tenths);
    told("damaged", damaged);
    told("broken", broken);
    return 0;
}

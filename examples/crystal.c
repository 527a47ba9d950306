/* Which of two crystals goes down: the one with the smaller Allan deviation at factor 2. Then the first record again, sample by sample. Every answer
 * is tested before anything of it is kept or passed on: a refused sum passed on looks like the best crystal. */
#include <inttypes.h>
#include <stdbool.h>
#include <stdio.h>

#include "ploegelster.h"

/* Writes a whole number of 128 bits in decimal digits: a half is two parts of 32 bits, and each part divided by ten hands its rest on. */
static void print_wide(plg_wide n)
{
    uint64_t part[4] = {n.high >> 32, n.high & 0xffffffff, n.low >> 32, n.low & 0xffffffff};
    char digits[40];
    int first = 39;
    digits[first] = 0;
    do {
        uint64_t rest = 0;
        for (int i = 0; i < 4; i++) {
            uint64_t here = rest << 32 | part[i];
            part[i] = here / 10;
            rest = here % 10;
        }
        digits[--first] = (char)('0' + rest);
    } while (part[0] | part[1] | part[2] | part[3]);
    printf("%s", digits + first);
}

/* Whether a call was answered; a line on why where it was not. */
static bool answered(const char *name, uint64_t number, uint64_t place)
{
    if (number == PLG_ANSWERED)
        return true;
    printf("%s: refused %" PRIu64 " (%s) at %" PRIu64 "\n", name, number, plg_refusal_text(number), place);
    return false;
}

/* The Allan deviation at factor m, in units of 2^-20 picoseconds per basic interval. It is kept only where both calls were answered. */
static bool deviation(const char *name, const int64_t *samples, size_t length, uint64_t m, uint64_t *kept)
{
    plg_sum_answer a = plg_allan_sum(samples, length, m);
    if (!answered(name, a.number, a.place))
        return false;
    plg_deviation_answer r = plg_allan_deviation(a.sum, m, a.count);
    if (!answered(name, r.number, r.place))
        return false;
    printf("%s: A = ", name);
    print_wide(a.sum);
    printf(" of %" PRIu64 ", deviation %" PRIu64 " (%.6f ps)\n", a.count, r.deviation, (double)r.deviation / PLG_UNITS_A_PICOSECOND);
    *kept = r.deviation;
    return true;
}

/* One part of a report, or that it is not due yet. */
static void print_part(const char *letter, plg_part part)
{
    if (part.number != PLG_ANSWERED) {
        printf(" %s not due", letter);
        return;
    }
    printf(" %s = ", letter);
    print_wide(part.sum);
    printf(" of %" PRIu64, part.count);
}

/* Feeds a meter of factor 2 sample by sample, and prints its report at the end. */
static void stream(const int64_t *samples, size_t length)
{
    int64_t ring[6] = {0};
    plg_meter_answer now = plg_meter_start((plg_meter){0}, 2, ring, 6);
    if (!answered("meter", now.number, now.place))
        return;
    for (size_t i = 0; i < length; i++) {
        now = plg_meter_sample(now.meter, ring, 6, samples[i]);
        if (!answered("meter", now.number, now.place))
            return;
    }
    plg_sums_answer report = plg_meter_report(now.meter);
    if (!answered("meter", report.number, report.place))
        return;
    printf("meter after %" PRIu64 ":", now.meter.n);
    print_part("A", report.allan);
    print_part("B", report.modified);
    printf("\n");
}

int main(void)
{
    const int64_t first[] = {0, 1, 4, 9, 16, 25};
    const int64_t second[] = {0, 0, 0, 1, 0, 0, 0};
    const int64_t widest[] = {PLG_SAMPLE_END, -PLG_SAMPLE_END, PLG_SAMPLE_END};
    const int64_t damaged[] = {0, 1, INT64_MAX, 9, 16, 25};
    uint64_t r1 = 0, r2 = 0, other = 0;

    if (deviation("first", first, 6, 2, &r1) && deviation("second", second, 7, 2, &r2))
        printf("goes down: %s\n", r1 < r2 ? "first" : "second");
    deviation("widest", widest, 3, 1, &other);
    deviation("damaged", damaged, 6, 2, &other);
    stream(first, 5);
    stream(first, 6);
    return 0;
}

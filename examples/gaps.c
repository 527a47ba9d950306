/* A live stream with gaps: the counter was off twice, and nobody knows for how long. The meter is told of each gap, and its report is the total over
 * the stretches; one that is too short adds nothing. Then the first two stretches with the gap kept from the meter, and a gap told to a meter that was
 * never started. */
#include <inttypes.h>
#include <stdio.h>

#include "ploegelster.h"

#define M 2

/* Whether a call was answered; if not, why. */
static int answered(const char *name, uint64_t number, uint64_t place)
{
    if (number != PLG_ANSWERED)
        printf("%s: refused %" PRIu64 " (%s) at %" PRIu64 "\n", name, number, plg_refusal_text(number), place);
    return number == PLG_ANSWERED;
}

/* A sum on a line. These are small: the high half is nought. */
static void told(const char *name, const char *letter, plg_wide sum, uint64_t count)
{
    printf("%s: %s = %" PRIu64 " of %" PRIu64 "\n", name, letter, sum.low, count);
}

/* Both sums of one stretch alone. */
static void alone(const char *name, const int64_t *samples, size_t length)
{
    plg_sum_answer a = plg_allan_sum(samples, length, M);
    if (answered(name, a.number, a.place))
        told(name, "A", a.sum, a.count);
    plg_sum_answer b = plg_modified_sum(samples, length, M);
    if (answered(name, b.number, b.place))
        told(name, "B", b.sum, b.count);
}

/* The meter's report. A part that is not due has its own number. */
static void reported(const char *name, plg_meter meter)
{
    plg_sums_answer r = plg_meter_report(meter);
    if (!answered(name, r.number, r.place))
        return;
    if (answered(name, r.allan.number, 0))
        told(name, "A", r.allan.sum, r.allan.count);
    if (answered(name, r.modified.number, 0))
        told(name, "B", r.modified.sum, r.modified.count);
}

/* The meter with the samples of a stretch; after a refusal the one before it. */
static plg_meter fed(plg_meter meter, int64_t *ring, const int64_t *samples, size_t length)
{
    for (size_t i = 0; i < length; i++) {
        plg_meter_answer now = plg_meter_sample(meter, ring, 3 * M, samples[i]);
        answered("sample", now.number, now.place);
        meter = now.meter;
    }
    return meter;
}

/* The meter with a new stretch begun. */
static plg_meter after_gap(plg_meter meter)
{
    plg_meter_answer now = plg_meter_gap(meter);
    answered("gap", now.number, now.place);
    return now.meter;
}

int main(void)
{
    const int64_t first[6] = {0, 1, 4, 9, 16, 25}, second[7] = {0, 0, 0, 1, 0, 0, 0}, third[4] = {3, 1, 4, 1};
    int64_t ring[3 * M] = {0};

    alone("first stretch", first, 6);
    alone("second stretch", second, 7);
    alone("third stretch", third, 4);

    plg_meter_answer start = plg_meter_start((plg_meter){0}, M, ring, 3 * M);
    if (!answered("start", start.number, start.place))
        return 1;
    plg_meter meter = fed(start.meter, ring, first, 6);
    meter = fed(after_gap(meter), ring, second, 7);
    reported("meter after two", meter);
    meter = fed(after_gap(meter), ring, third, 4);
    reported("meter after three", meter);
    printf("%" PRIu64 " samples, %" PRIu64 " since the gap\n", meter.n, meter.stretch);

    meter = fed(start.meter, ring, first, 6);
    reported("not told of the gap", fed(meter, ring, second, 7));
    after_gap((plg_meter){0});
    return 0;
}

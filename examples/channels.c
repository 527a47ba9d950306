/* A bench with several crystals at once: one ring for all channels, three of them fed in turn, and the counter of one was off for a while. Each
 * channel reports what a meter of its own would. Then what is refused: a channel above 15, and a ring that is too short for sixteen. Then which of two
 * crystals is the quieter, by their records, whichever is handed in first; a record with a bad sample is no quiet one. */
#include <inttypes.h>
#include <stdio.h>

#include "ploegelster.h"

#define M 2
#define RING (PLG_CHANNELS * 3 * M)

/* A crystal, the channel that it is on, and its samples; before sample number gap, if that is not 0, the counter was off. */
typedef struct {
    const char *name;
    uint64_t channel;
    const int64_t *samples;
    size_t length, gap;
} crystal;

/* Whether a call was answered; if not, why. */
static int answered(const char *name, uint64_t number, uint64_t place)
{
    if (number == PLG_BAD_CHANNEL)
        printf("%s: refused %" PRIu64 " (a channel above 15) at %" PRIu64 "\n", name, number, place);
    else if (number != PLG_ANSWERED)
        printf("%s: refused %" PRIu64 " (%s) at %" PRIu64 "\n", name, number, plg_refusal_text(number), place);
    return number == PLG_ANSWERED;
}

/* The meter of one turn later: with a gap where there is one, and with the sample. After a refusal it is the one before. */
static plg_meter turned(plg_meter meter, const crystal *one, int64_t *ring, size_t turn)
{
    if (one->gap > 0 && one->gap == turn) {
        plg_meter_answer after = plg_channel_gap(meter, one->channel);
        answered(one->name, after.number, after.place);
        meter = after.meter;
    }
    plg_meter_answer now = plg_channel_sample(meter, one->channel, ring, RING, one->samples[turn]);
    answered(one->name, now.number, now.place);
    return now.meter;
}

/* One part of a report on a line, or that it is not due. These sums are small: the high half is nought. */
static void told(const crystal *one, const char *letter, plg_part part)
{
    if (answered(one->name, part.number, 0))
        printf("%s, channel %" PRIu64 ": %s = %" PRIu64 " of %" PRIu64 "\n", one->name, one->channel, letter, part.sum.low, part.count);
}

/* Which of two crystals is the quieter. */
static void compared(const crystal *one, const crystal *two)
{
    plg_quieter_answer q = plg_quieter(one->samples, one->length, two->samples, two->length, M);
    if (answered("compared", q.number, q.place))
        printf("%s and %s: the quieter is %s\n", one->name, two->name, q.which == PLG_QUIETER_FIRST ? one->name : two->name);
}

int main(void)
{
    const int64_t squares[6] = {0, 1, 4, 9, 16, 25}, tick[7] = {0, 0, 0, 1, 0, 0, 0};
    const int64_t noise[12] = {3, 1, 4, 1, 5, 9, 2, 6, 5, 3, 5, 8}, bad[7] = {0, 0, 0, 1, 0, PLG_SAMPLE_END + 1, 0};
    const crystal crystals[3] = {{"ageing", 0, squares, 6, 0}, {"calm", 1, tick, 7, 0}, {"noisy", 15, noise, 12, 5}};
    const crystal damaged = {"damaged", 2, bad, 7, 0};
    plg_meter meters[3] = {{0}};
    int64_t ring[RING] = {0};

    for (size_t i = 0; i < 3; i++) {
        plg_meter_answer start = plg_channel_start(meters[i], crystals[i].channel, M, ring, RING);
        if (!answered(crystals[i].name, start.number, start.place))
            return 1;
        meters[i] = start.meter;
    }
    for (size_t turn = 0; turn < 12; turn++)
        for (size_t i = 0; i < 3; i++)
            if (turn < crystals[i].length)
                meters[i] = turned(meters[i], &crystals[i], ring, turn);
    for (size_t i = 0; i < 3; i++) {
        plg_sums_answer r = plg_channel_report(meters[i], crystals[i].channel);
        if (!answered(crystals[i].name, r.number, r.place))
            return 1;
        told(&crystals[i], "A", r.allan);
        told(&crystals[i], "B", r.modified);
    }
    printf("%s: %" PRIu64 " samples, %" PRIu64 " since the gap\n", crystals[2].name, meters[2].n, meters[2].stretch);

    plg_meter_answer none = plg_channel_start(meters[0], PLG_CHANNELS, M, ring, RING);
    answered("channel 16", none.number, none.place);
    plg_meter_answer crowded = plg_channel_start(meters[0], 0, M, ring, RING - 1);
    answered("a ring one entry short", crowded.number, crowded.place);

    compared(&crystals[0], &crystals[1]);
    compared(&crystals[1], &crystals[0]);
    compared(&crystals[1], &damaged);
    return 0;
}

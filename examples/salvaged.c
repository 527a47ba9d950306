/* What can still be had of a damaged file: three samples of which the last lost its end, then one whose second sample was changed, then one whose
 * header was. What was salvaged is read again, and salvaged again. */
#include <inttypes.h>
#include <stdio.h>

#include "ploegelster.h"

#define N 3

/* Whether a call was answered; if not, why. */
static int answered(const char *name, uint64_t number, uint64_t place)
{
    if (number != PLG_ANSWERED)
        printf("%s: refused %" PRIu64 " (%s) at %" PRIu64 "\n", name, number, plg_refusal_text(number), place);
    return number == PLG_ANSWERED;
}

/* What was salvaged of so many bytes, and the samples in it. The new file is no longer than the damaged one. */
static void told(const char *name, const uint8_t *damaged, size_t length)
{
    uint8_t file[PLG_FILE_LENGTH(N)];
    int64_t samples[N];
    plg_salvage_answer s = plg_salvage(damaged, length, file, sizeof file);
    if (!answered(name, s.number, s.place))
        return;
    printf("%s: kept %" PRIu64 " of %" PRIu64 ", %" PRIu64 " bytes left over%s:", name, s.new_count, s.old_count, s.left_over,
           s.met ? ", a value out of range met" : "");
    plg_record_answer r = plg_read_record(file, length - s.left_over, samples, N);
    if (!answered("read", r.number, r.place))
        return;
    for (uint64_t i = 0; i < r.count; i++)
        printf(" %" PRId64, samples[i]);
    printf("\n");
    if (s.left_over != 0)
        told("again", file, length - s.left_over);
}

int main(void)
{
    const int64_t samples[N] = {1, -1, 5};
    uint8_t file[PLG_FILE_LENGTH(N)];

    plg_count_answer f = plg_write_file(PLG_KIND_PHASE, samples, N, file, sizeof file);
    if (!answered("file", f.number, f.place))
        return 1;
    told("sound", file, f.count);
    told("cut off", file, f.count - 3);
    file[16 + 5] = 0x7F; /* a byte of the second sample */
    told("changed", file, f.count);
    file[5] = 7; /* the kind */
    told("of no kind", file, f.count);
    return 0;
}

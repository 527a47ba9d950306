/* A record kept as frequency from a known phase: its differences go to a file of version 2 with its first sample as the start, and come back as the
 * record. Then the same file for a reader of version 1, cut off within the start, and with a start that is no sample. */
#include <inttypes.h>
#include <stdio.h>

#include "ploegelster.h"

#define N 4

/* A list of whole numbers on a line. */
static void listed(const char *name, const int64_t *numbers, uint64_t count)
{
    printf("%s:", name);
    for (uint64_t i = 0; i < count; i++)
        printf(" %" PRId64, numbers[i]);
    printf("\n");
}

/* Whether a call was answered; if not, why. */
static int answered(const char *name, uint64_t number, uint64_t place)
{
    if (number != PLG_ANSWERED)
        printf("%s: refused %" PRIu64 " (%s) at %" PRIu64 "\n", name, number, plg_refusal_text(number), place);
    return number == PLG_ANSWERED;
}

/* The phases of a frequency record that a file holds, or why there are none. */
static void told(const char *name, const uint8_t *file, size_t length)
{
    int64_t readings[N], phases[N + 1];
    plg_record_answer r = plg_read_record(file, length, readings, N);
    if (!answered(name, r.number, r.place))
        return;
    printf("%s: version %" PRIu64 ", kind %" PRIu64 ", start %" PRId64 ", %" PRIu64 " values\n", name, r.version, r.kind, r.start, r.count);
    listed("readings", readings, r.count);
    plg_count_answer p = plg_phase_from_start(r.start, readings, r.count, phases, N + 1);
    if (answered("phases", p.number, p.place))
        listed("phases", phases, p.count);
}

int main(void)
{
    const int64_t record[N] = {5, 8, 7, 11};
    int64_t readings[N];
    uint8_t file[PLG_RECORD_LENGTH(N)];

    listed("record", record, N);
    plg_count_answer d = plg_frequency_from_phase(record, N, readings, N);
    if (!answered("readings", d.number, d.place))
        return 1;
    plg_count_answer f = plg_write_record(PLG_KIND_FREQUENCY, record[0], readings, d.count, file, sizeof file);
    if (!answered("file", f.number, f.place))
        return 1;
    told("file", file, f.count);

    plg_read_answer old = plg_read_file(file, f.count, readings, N);
    answered("reader of version 1", old.number, old.place);
    told("cut off", file, 12);
    file[13] = 2; /* 2^41 more than it was */
    told("start far off", file, f.count);
    return 0;
}

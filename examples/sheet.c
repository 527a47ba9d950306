/* The sheet of all factors, as the clerk staples it to a certificate: a phase record, a frequency record from its starting phase, a file that was cut off,
 * and the closing line over all of them. */
#include <inttypes.h>
#include <stdio.h>

#include "ploegelster.h"

/* The lines of a file's bytes; gives the totals with the record's. */
static plg_totals printed(const uint8_t *file, size_t length, plg_totals totals)
{
    uint8_t text[PLG_SHEET_ROOM];
    plg_sheet_answer s = plg_sheet_record(file, length, totals, text, sizeof text);
    if (s.number != PLG_ANSWERED)
        printf("refused %" PRIu64 " (%s)\n", s.number, plg_refusal_text(s.number));
    fwrite(text, 1, s.length, stdout);
    return s.totals;
}

int main(void)
{
    const int64_t samples[] = {0, 1, 4, 9, 16, 25};
    const int64_t readings[] = {3, -1, 4, -1, 5, -9, 2};
    uint8_t phase[PLG_FILE_LENGTH(6)], frequency[PLG_RECORD_LENGTH(7)], text[PLG_SHEET_ROOM];
    plg_totals totals = {0, 0};

    plg_count_answer p = plg_write_file(PLG_KIND_PHASE, samples, 6, phase, sizeof phase);
    plg_count_answer f = plg_write_record(PLG_KIND_FREQUENCY, 5, readings, 7, frequency, sizeof frequency);
    if (p.number != PLG_ANSWERED || f.number != PLG_ANSWERED)
        return 1;
    totals = printed(phase, p.count, totals);
    totals = printed(frequency, f.count, totals);
    totals = printed(phase, p.count - 1, totals);

    plg_count_answer t = plg_sheet_total(totals, text, sizeof text);
    if (t.number != PLG_ANSWERED)
        return 1;
    fwrite(text, 1, t.count, stdout);
    return 0;
}

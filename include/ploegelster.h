/**
 * Ploegelster: proved clock statistics, as a static library.
 *
 * The rules behind every entry stand in docs/RULES.md; what is proved of them in docs/STATEMENTS.md.
 *
 * Answers. Each answer carries a refusal's number and place. Number 0: the call was answered. Any other: every other value of the answer is nought, a
 * meter comes back as it was handed in, as do the totals of a sheet, and no byte of a lent buffer has changed. Tests are made in the order in which an entry lists them, and the
 * first that fails is the answer. Test the number before you pass a value on: the noughts beside a refusal, passed on, look like the best crystal.
 *
 *   1  too few samples, a count of 0, or M below 10 for bars                   place 0
 *   2  too many samples, readings, counts or M, or a total above 2^63          place 0
 *   3  a value outside its range                                               index of the first, else 0
 *   4  a float reading that is not a number                                    its index
 *   5  factor outside its range                                                place 0
 *   6  a lent buffer shorter than the output, or a ring or share below 3m      place 0
 *   7  the meter does not hold together                                        place 0
 *   8  a deviation of nought where a ratio or a bar is asked                   place 0
 *   9  bad file bytes or length                                                byte offset
 *  11  a channel above 15                                                      place 0
 *
 * Lent buffers. An entry that fills a buffer writes its output at the front, in one piece, and says how long it is. Entries past the output are
 * unchanged: a buffer may be longer than it must be, and what stood behind the output stands there still, answered or refused. An output buffer
 * may be fresh memory, as malloc gives it: nothing in it is read before it is written. After a refusal it is as fresh as it was, so that nothing in it
 * means anything. The meter's ring may be fresh too: a start writes nothing to it, and a sample call reads only slots that earlier sample calls wrote.
 *
 * What the caller owes, and nothing else:
 *   - a pointer is not null, is aligned for its type, and is good for as many entries as the length beside it says, also where that length is 0;
 *     what is only read (samples, readings, bytes, values) has been given values;
 *   - a buffer that the call may write overlaps no other buffer of the same call, and nobody else uses it before the call returns;
 *   - floating-point exceptions are masked, as they are where every C program starts. The modes are the caller's own: whichever way the machine rounds,
 *     and whether it takes subnormals for nought, as after linking with -ffast-math, every answer has the same bits.
 * The library keeps no state, takes no memory and calls nothing but memcpy, memmove and memset, which every C library has; calls on different
 * buffers may be made from different threads.
 *
 * Units. Samples are picoseconds, one a basic interval. The Allan and modified variances are in square picoseconds per basic interval squared, the
 * time variance in square picoseconds. Deviations are whole numbers of 2^-20 picoseconds (Allan: per basic interval): divide by
 * PLG_UNITS_A_PICOSECOND, and the Allan deviation by the basic interval in picoseconds too where the dimensionless figure is wanted.
 *
 * The record file. Three bytes 50 48 52 ("PHR"), the version in two, the kind in one (0 phase, 1 frequency), the count in two; in version 2 the
 * starting phase in eight; then each value in eight. A starting phase and a value are two's complement. Numbers of more than one byte have their low
 * byte first. Nothing follows.
 */
#ifndef PLOEGELSTER_H
#define PLOEGELSTER_H

#include <stddef.h>
#include <stdint.h>

#ifdef __cplusplus
extern "C" {
#endif

/** The version: the first number changes where a program that used the one before must be changed or compiled anew. */
#define PLG_VERSION_MAJOR 6
#define PLG_VERSION_MINOR 1
#define PLG_VERSION_PATCH 0

/* ---- limits, ends allowed */

/** Samples of a record, and a count that is handed in, at most. */
#define PLG_MOST_SAMPLES 32768
/** Readings of a frequency record, at most. */
#define PLG_MOST_READINGS 32767
/** The factor m runs from 1 to this. */
#define PLG_LARGEST_FACTOR 10922
/** The factor of a noise type of a record runs from 1 to this. */
#define PLG_LARGEST_NOISE_FACTOR 5461
/** A phase sample lies from minus this to this: 2^40 picoseconds. */
#define PLG_SAMPLE_END (INT64_C(1) << 40)
/** A frequency value of a file lies from minus this to this: 2^41 picoseconds per basic interval. */
#define PLG_FREQUENCY_END (INT64_C(1) << 41)
/** A deviation lies from 0 to this: 2^62. */
#define PLG_LARGEST_DEVIATION (UINT64_C(1) << 62)
/** M of bars runs from the first to the second. */
#define PLG_FEWEST_INTERVALS 10
#define PLG_MOST_INTERVALS 32767
/** A record on a sheet has at most so many samples, or readings. */
#define PLG_MOST_SHEET_SAMPLES 4096
#define PLG_MOST_SHEET_READINGS 4095
/** A sheet's totals, handed in, are at most this: 2^63. */
#define PLG_LARGEST_TOTAL (UINT64_C(1) << 63)
/** So many bytes are always enough for the lines of a record on a sheet, and for the closing line. */
#define PLG_SHEET_ROOM 4608
/** So many channels share a ring; they are numbered from 0. */
#define PLG_CHANNELS 16
/** So many units of a deviation are a picosecond: 2^20. */
#define PLG_UNITS_A_PICOSECOND 1048576

/* ---- refusals */

/** Refusal numbers. */
#define PLG_ANSWERED 0
#define PLG_TOO_FEW 1
#define PLG_TOO_MANY 2
#define PLG_OUT_OF_RANGE 3
#define PLG_NOT_A_NUMBER 4
#define PLG_BAD_FACTOR 5
#define PLG_NO_ROOM 6
#define PLG_BAD_METER 7
#define PLG_NO_DEVIATION 8
#define PLG_BAD_FILE 9
/** A channel above 15. Calls on channels alone give it, and plg_refusal_text has no words for it. */
#define PLG_BAD_CHANNEL 11

/** A refusal's number in words. Any number has words. */
static inline const char *plg_refusal_text(uint64_t number)
{
    switch (number) {
    case PLG_ANSWERED: return "answered";
    case PLG_TOO_FEW: return "too few samples, counts or intervals";
    case PLG_TOO_MANY: return "too many samples, readings, counts or intervals";
    case PLG_OUT_OF_RANGE: return "a value outside its range";
    case PLG_NOT_A_NUMBER: return "a reading that is not a number";
    case PLG_BAD_FACTOR: return "a factor outside its range";
    case PLG_NO_ROOM: return "a lent buffer or ring that is too short";
    case PLG_BAD_METER: return "a meter that does not hold together";
    case PLG_NO_DEVIATION: return "a deviation of nought where a ratio or a bar is asked";
    case PLG_BAD_FILE: return "bad bytes or a bad length in a file";
    default: return "no number of this library";
    }
}

/* ---- answers */

/** A whole number of 128 bits: high * 2^64 + low. */
typedef struct { uint64_t high, low; } plg_wide;

/** How many entries of the lent buffer were written. */
typedef struct { uint64_t number, place, count; } plg_count_answer;

/** A sum of squares, and how many squares. */
typedef struct { uint64_t number, place; plg_wide sum; uint64_t count; } plg_sum_answer;

/** One sum as a part of an answer: its own number is 1, beside noughts, where the sum is not due. That is no refusal of the call. */
typedef struct { uint64_t number; plg_wide sum; uint64_t count; } plg_part;

/** Both sums; number and place are the call's own, and each part has its own number besides. */
typedef struct { uint64_t number, place; plg_part allan, modified; } plg_sums_answer;

/** Both sums of float readings, and how many of the readings were changed: those with a fraction. */
typedef struct { uint64_t number, place; plg_part allan, modified; uint64_t changed; } plg_float_sums_answer;

/** Which of two records is the quieter. Beside a refusal it is none, which is no third answer. */
#define PLG_QUIETER_NONE 0
#define PLG_QUIETER_FIRST 1
#define PLG_QUIETER_SECOND 2
typedef struct { uint64_t number, place, which; } plg_quieter_answer;

/** A fraction in lowest terms. */
typedef struct { uint64_t number, place; plg_wide numerator; uint64_t denominator; } plg_fraction_answer;

/** A deviation in units of 2^-20 picoseconds. */
typedef struct { uint64_t number, place, deviation; } plg_deviation_answer;

/** The drift figure P over R. */
typedef struct { uint64_t number, place; int64_t p; uint64_t r; } plg_drift_answer;

/** A double to draw. */
typedef struct { uint64_t number, place; double value; } plg_drawn_answer;

/** What stands at a place of a plot, by its kind. The value is 0.0 but for a drawn dot. */
#define PLG_DOT_NOUGHT 0
#define PLG_DOT_DRAWN 1
#define PLG_DOT_TOO_FEW 2
typedef struct { uint64_t number, place, kind; double value; } plg_dot_answer;

/** A noise type by its alpha. Beside a refusal the alpha is 0, which means nothing there. */
#define PLG_WHITE_PHASE 2
#define PLG_FLICKER_PHASE 1
#define PLG_WHITE_FREQUENCY 0
#define PLG_FLICKER_FREQUENCY (-1)
#define PLG_RANDOM_WALK_FREQUENCY (-2)
typedef struct { uint64_t number, place; int64_t alpha; } plg_noise_answer;

/** A bar row: three doubles, drawn from r-h, r and r+h. */
typedef struct { double low, mid, high; } plg_bar;

/** A bar row. Where the call was answered, each of the three doubles is a drawn number, above nought. */
typedef struct { uint64_t number, place; plg_bar bar; } plg_bars_answer;

/**
 * The running meter: the factor m; n, the samples accepted since the start, in all; stretch, those of them since the latest gap; k and c, how many squares
 * there are in a and in b; and the window, the sum of the latest second differences since the gap, all of them up to m. At first all noughts; after that, as
 * the latest call gave it back. Any content is answered or refused.
 */
typedef struct { uint64_t m, n, stretch, k, c; plg_wide a, b; int64_t window; } plg_meter;

/** The meter as the call leaves it: after a refusal the one that was handed in. */
typedef struct { uint64_t number, place; plg_meter meter; } plg_meter_answer;

/** The kind of a file, and how many values it holds. */
#define PLG_KIND_PHASE 0
#define PLG_KIND_FREQUENCY 1
typedef struct { uint64_t number, place, kind, count; } plg_read_answer;

/** A record file of either version: its version, 1 or 2, its kind, its starting phase, which is 0 in version 1, and how many values it holds. */
typedef struct { uint64_t number, place, version, kind; int64_t start; uint64_t count; } plg_record_answer;

/**
 * What was salvaged of a damaged file: the count that its header says and how many values were kept, the bytes left over, which are the input's length less
 * the new file's, and met, 1 where a value out of range was met, else 0.
 */
typedef struct { uint64_t number, place, old_count, new_count, left_over, met; } plg_salvage_answer;

/** The totals of a sheet: K and C added up over its lines. All noughts at first; after that, as the latest record's answer gives them. */
typedef struct { uint64_t k, c; } plg_totals;

/** The lines of a record on a sheet: how many bytes of text were written, and the totals with the record's; after a refusal those handed in. */
typedef struct { uint64_t number, place, length; plg_totals totals; } plg_sheet_answer;

/** The length in bytes of the file of so many values, in version 1. */
#define PLG_FILE_LENGTH(count) (8 + 8 * (size_t)(count))
/** The same in version 2. */
#define PLG_RECORD_LENGTH(count) (16 + 8 * (size_t)(count))

/* ---- the published sums */

/**
 * The Allan sum A of squared second differences at factor m, with its count K = N-2m.
 * Refuses 5 (m not from 1 to 10,922), 2 (N above 32,768), 1 (N below 2m+1), 3 (at the first sample outside its range).
 */
plg_sum_answer plg_allan_sum(const int64_t *samples, size_t samples_length, uint64_t m);

/**
 * The modified sum B of squared window sums at factor m, with its count C = N-3m+1. The modified variance is B / (2 m^4 C).
 * Refuses 5, 2, 1 (N below 3m), 3 (at the first sample outside its range).
 */
plg_sum_answer plg_modified_sum(const int64_t *samples, size_t samples_length, uint64_t m);

/**
 * The Allan variance A / (2 m^2 K) in lowest terms; nought is 0/1.
 * Refuses 5 (m), 1 (count 0), 2 (count above 32,768), 3 (sum of 2^126 or more), all at place 0.
 */
plg_fraction_answer plg_allan_fraction(plg_wide sum, uint64_t m, uint64_t count);

/** The time variance B / (6 m^2 C) in lowest terms; nought is 0/1. Refuses as the Allan variance does. */
plg_fraction_answer plg_time_fraction(plg_wide sum, uint64_t m, uint64_t count);

/**
 * The Allan deviation r: the greatest whole number with r^2 (2 m^2 K) not above A times 2^40.
 * Refuses 5, 1, 2, 3 (sum), 3 (r above 2^62), all at place 0.
 */
plg_deviation_answer plg_allan_deviation(plg_wide sum, uint64_t m, uint64_t count);

/** The time deviation r: the greatest whole number with r^2 (6 m^2 C) not above B times 2^40. Refuses as the Allan deviation does. */
plg_deviation_answer plg_time_deviation(plg_wide sum, uint64_t m, uint64_t count);

/**
 * The quieter of two records at factor m: the one with the smaller Allan variance, on equality the first. The two variances A / (2 m^2 K) are compared as
 * exact fractions, so that records of different lengths may be compared, and none is drawn or rounded. Both are only read, and may overlap or be the same.
 * Refuses 5 (m not from 1 to 10,922); of the first record 2 (N above 32,768), 1 (N below 2m+1), 3 (at the first sample outside its range); then 2, 1, 3 of the
 * second. A place other than 0 is an index of the record that is refused: the second if plg_allan_sum answers for the first.
 */
plg_quieter_answer plg_quieter(const int64_t *first, size_t first_length, const int64_t *second, size_t second_length, uint64_t m);

/* ---- phase, frequency and drift */

/**
 * Phases from frequency readings: M readings give M+1 phases, from 0 on.
 * Refuses 2 (M above 32,767), 6 (buffer below M+1), 3 (at the first reading whose running phase leaves the sample range).
 */
plg_count_answer plg_phase_from_frequency(const int64_t *readings, size_t readings_length, int64_t *buffer, size_t buffer_length);

/**
 * Phases from frequency readings, from a start on: M readings give M+1 phases, of which the first is the start. With a record's first sample as the
 * start, its differences give the record back.
 * Refuses 2 (M above 32,767), 6 (buffer below M+1), 3 (start outside the sample range, at place 0), 3 (at the first reading whose running phase leaves
 * the sample range).
 */
plg_count_answer plg_phase_from_start(int64_t start, const int64_t *readings, size_t readings_length, int64_t *buffer, size_t buffer_length);

/**
 * Frequency readings from phases: N samples give N-1 differences.
 * Refuses 2 (N above 32,768), 1 (N = 0), 6 (buffer below N-1), 3 (at the first sample outside its range).
 */
plg_count_answer plg_frequency_from_phase(const int64_t *samples, size_t samples_length, int64_t *buffer, size_t buffer_length);

/**
 * The drift figure: with h the whole part of (N-1)/2, P = x_(2h) - 2 x_h + x_0, R = h^2. Where N is even, the last sample has no part in it.
 * Refuses 2 (N above 32,768), 1 (N below 3), 3 (at the first sample outside its range, whether P reads it or not).
 */
plg_drift_answer plg_drift_figure(const int64_t *samples, size_t samples_length);

/**
 * Drift removed: x_i - floor(P i (i-1) / (2R)), floored once, toward minus infinity, with P and R of plg_drift_figure. N samples give N results.
 * Refuses 2, 1, 6 (buffer below N), 3 (at the first sample outside its range), 3 (at the first result outside it).
 */
plg_count_answer plg_remove_drift(const int64_t *samples, size_t samples_length, int64_t *buffer, size_t buffer_length);

/* ---- float readings */

/**
 * Samples from doubles, written to the buffer, and both sums of them. A reading becomes the nearest whole number, on a tie the even one: 0.5 becomes 0,
 * 1.5 becomes 2, -2.5 becomes -2. How many readings had a fraction is answered as changed, so that 0 says that every sample is its reading exactly;
 * minus zero has no fraction, and a subnormal has one. The modified part has number 1 where N is below 3m.
 * Refuses 5, 2 (N above 32,768), 1 (N below 2m+1), 6 (buffer below N), then at the lowest index 3 (infinite, or beyond the sample range before rounding:
 * 2^40 - 0.5 is taken, 2^40 + 0.5 is not) or 4 (not a number).
 */
plg_float_sums_answer plg_float_sums(const double *readings, size_t readings_length, uint64_t m, int64_t *buffer, size_t buffer_length);

/* ---- what is drawn */

/** The greatest double not above r / 2^20. Refuses 3 (r not from 1 to 2^63; place 0). */
plg_drawn_answer plg_drawn_number(uint64_t r);

/** The dot of an Allan deviation; a count of 0 is the dot too few. Refuses 5, 2, 3 (sum), 3 (r above 2^62), all at place 0. */
plg_dot_answer plg_allan_dot(plg_wide sum, uint64_t m, uint64_t count);

/** The dot of a time deviation; a count of 0 is the dot too few. Refuses as the Allan dot does. */
plg_dot_answer plg_time_dot(plg_wide sum, uint64_t m, uint64_t count);

/** The noise type by the time deviations at m and 2m. Refuses 3 (either above 2^62), 8 (r1 = 0), both at place 0. */
plg_noise_answer plg_noise_type(uint64_t r1, uint64_t r2);

/**
 * The noise type of a record.
 * Refuses 5 (m not from 1 to 5,461), 2 (N above 32,768), 1 (N below 6m), 3 (at the first sample outside its range), 8 (a time deviation of nought at
 * m).
 */
plg_noise_answer plg_noise_of_record(const int64_t *samples, size_t samples_length, uint64_t m);

/**
 * The bars of deviation r, for noise of type alpha over M intervals, M the whole part of (N-1)/m: w is kappa, in hundredths, times r divided by 100,
 * floored; h is the greatest whole number with h^2 M not above w^2. Whatever is answered has h below r, so that r-h is at least 1 and no lower end is
 * nought: theorem plg-bars-half-below, crates/acceptance/proofs/Condition2.antt.
 * Refuses 3 (alpha not from -2 to 2), 8 (r = 0), 3 (r above 2^62), 1 (M below 10), 2 (M above 32,767), all at place 0.
 */
plg_bars_answer plg_bars(uint64_t r, int64_t alpha, uint64_t intervals);

/* ---- the running meter */

/**
 * A fresh meter at factor m in place of an old one. The ring becomes the meter's own: every sample call is lent it as the last one left it. It is
 * read for its length alone. Refuses 5, 6 (ring below 3m), both at place 0; never 7.
 */
plg_meter_answer plg_meter_start(plg_meter old, uint64_t m, const int64_t *ring, size_t ring_length);

/**
 * The meter with one more sample of the present stretch, which is written to its slot of the ring, stretch mod 3m, and nowhere else.
 * Refuses 7 (m not from 1 to 10,922; n above 32,768; stretch, k or c above n; the window beyond m times 2^42; a high half of 2^62 or more; the ring below
 * 3m; or an old slot that is to be read out of range: those of numbers stretch-m and stretch-2m from stretch = 2m on, and of stretch-3m from 3m on), 2 (n is
 * 32,768), 3 (the sample out of its range), all at place 0.
 */
plg_meter_answer plg_meter_sample(plg_meter meter, int64_t *ring, size_t ring_length, int64_t x);

/**
 * The meter after a gap in the stream: stretch and window are nought, all else is as it was, so that no second difference and no window spans the gap. Call
 * it wherever samples are missing, however many; a second call before the next sample changes nothing, nor does one before the first. No ring is read
 * or written: the next sample call is lent the same one.
 * Refuses 7 (as a sample call does, but for the ring), place 0.
 */
plg_meter_answer plg_meter_gap(plg_meter meter);

/**
 * Both sums of the samples accepted since the start, each the total over the stretches between the gaps: A with K, B with C, each with number 1 where its
 * term count is 0.
 * Refuses 7 (as a sample call does, but for the ring), place 0.
 */
plg_sums_answer plg_meter_report(plg_meter meter);

/* ---- sixteen channels
 *
 * Sixteen meters in one lent ring. The share is ring_length / 16, the whole part, and channel c has the entries from c times the share up to, and without,
 * (c+1) times the share; what is left behind the last, at most fifteen entries, is nobody's. Keep one plg_meter a channel, all noughts at first, and lend the
 * same ring, at the same length, to every call: then each channel is a meter of its own, and no call on another changes an answer, the meter or an entry of
 * it. A ring of 16 times 3m entries is enough for sixteen meters of factor m. A meter is not marked with its channel: hand it in with the one it was started
 * on.
 */

/**
 * A fresh meter at factor m on a channel, in place of an old one. The ring is read for its length alone.
 * Refuses 11 (channel above 15), 5, 6 (share below 3m), all at place 0; never 7.
 */
plg_meter_answer plg_channel_start(plg_meter old, uint64_t channel, uint64_t m, const int64_t *ring, size_t ring_length);

/**
 * The meter with one more sample, which is written to its slot of the channel's part of the ring, stretch mod 3m, and nowhere else.
 * Refuses 11 (channel above 15), then 7, 2 and 3 as plg_meter_sample does with the channel's part as the ring, all at place 0.
 */
plg_meter_answer plg_channel_sample(plg_meter meter, uint64_t channel, int64_t *ring, size_t ring_length, int64_t x);

/**
 * The meter after a gap in the channel's stream, as plg_meter_gap gives it. No ring is read or written.
 * Refuses 11 (channel above 15), 7, both at place 0.
 */
plg_meter_answer plg_channel_gap(plg_meter meter, uint64_t channel);

/**
 * Both sums of the samples that the channel accepted since its start, as plg_meter_report gives them.
 * Refuses 11 (channel above 15), 7, both at place 0.
 */
plg_sums_answer plg_channel_report(plg_meter meter, uint64_t channel);

/* ---- the record file */

/**
 * Reads the values of a file of version 1 into the buffer. A file of version 2 is refused 9 at byte 3.
 * Refuses 9 (at the lowest wrong header byte, else at the length where the header is short), 2 (too many values for the kind), 9 (at the shorter of
 * the true and the right length), 6 (buffer below the count), 3 (at the index of the first value outside its range).
 */
plg_read_answer plg_read_file(const uint8_t *bytes, size_t bytes_length, int64_t *buffer, size_t buffer_length);

/**
 * Writes the file, version 1, of a kind and its values; the count is the file's length in bytes.
 * Refuses 9 (any other kind, at place 5), 2 (too many values for the kind), 6 (buffer below the length), 3 (at the index of the first value outside
 * its range).
 */
plg_count_answer plg_write_file(uint64_t kind, const int64_t *values, size_t values_length, uint8_t *buffer, size_t buffer_length);

/**
 * Reads the values of a file of either version into the buffer. The starting phase of version 1 is 0. The phases of a frequency record are those of
 * plg_phase_from_start with the start that is answered here. A refusal at place 0 for its range is the start's or the first value's.
 * Refuses 9 (at the lowest wrong byte of the first eight, else at the length where the header is short, which has 16 bytes in version 2, else at
 * place 8 where the kind is 0 and the start is not 0), 2 (too many values for the kind), 9 (at the shorter of the true and the right length), 6 (buffer
 * below the count), 3 (start outside the sample range, at place 0), 3 (at the index of the first value outside its range).
 */
plg_record_answer plg_read_record(const uint8_t *bytes, size_t bytes_length, int64_t *buffer, size_t buffer_length);

/**
 * Writes the file, version 2, of a kind, a starting phase and values; the count is the file's length in bytes.
 * Refuses 9 (any other kind, at place 5), 9 (kind 0 with a start that is not 0, at place 8), 2 (too many values for the kind), 6 (buffer below the
 * length), 3 (start outside the sample range, at place 0), 3 (at the index of the first value outside its range).
 */
plg_count_answer plg_write_record(uint64_t kind, int64_t start, const int64_t *values, size_t values_length, uint8_t *buffer, size_t buffer_length);

/**
 * Writes what can still be had of a damaged file of either version with a sound header, as a proper file of the same version, kind and starting phase.
 * Looked at are the values that the header's count speaks of, as far as their eight bytes are all there; kept are those before the first that is
 * outside the range of its kind, all where none is. The new file has bytes_length - left_over bytes, and plg_read_record accepts it. A sound file comes
 * back byte for byte, with nothing left over. A buffer of bytes_length bytes is always long enough; it must be another one than the input's.
 * Refuses 9 (at the lowest wrong byte of the first eight, else at the length where the header is short, which has 16 bytes in version 2, else at
 * place 8 where the kind is 0 and the start is not 0), 2 (the header's count too large for the kind), 6 (buffer below the new file's length), 3 (start
 * outside the sample range, at place 0). A wrong length and a value outside its range are no refusal here.
 */
plg_salvage_answer plg_salvage(const uint8_t *bytes, size_t bytes_length, uint8_t *buffer, size_t buffer_length);

/* ---- the sheet of all factors */

/**
 * Writes the lines of one record on a sheet, from the bytes of its file, of either version. The text has no nought at its end: it is as many bytes as the
 * answer's length says. A frequency record is turned into phase first, from its start. There is a line for each factor m = 1, 2, 4, 8, .. while there are
 * at least 2m+1 samples, with the columns
 *
 *   m, Allan variance, K, Allan deviation, time variance, C, time deviation, alpha
 *
 * and one space between. Variances are fractions, as 2/3. The three time columns each read r1 under 3m samples; alpha reads - under 6m samples, and r8
 * where the time deviation at m is nought. The totals come back with K and C of all these lines more.
 *
 * A record that is refused as a whole has one line, as "refused 3 at 17", and leaves the totals as they are: for what plg_read_record refuses, though 2
 * where the header's count is above PLG_MOST_SHEET_SAMPLES or PLG_MOST_SHEET_READINGS, and never 6; for 3 at the index of the first reading whose phase
 * leaves the sample range; for 1 at place 0 under three samples. This is no refusal of the call, whose number is 0. Give no bytes, with a length of 0,
 * for a file that cannot be opened or read: its line is "refused 9 at 0".
 *
 * The call takes some 70,000 bytes of the stack.
 * Refuses 2 (a total that is handed in above PLG_LARGEST_TOTAL), 6 (buffer below the text's length; PLG_SHEET_ROOM bytes are always enough).
 */
plg_sheet_answer plg_sheet_record(const uint8_t *bytes, size_t bytes_length, plg_totals totals, uint8_t *text, size_t text_length);

/**
 * Writes the closing line of a sheet: "total", K and C, with one space between and a line feed at the end. The count is how many bytes.
 * Refuses 6 (buffer below the line's length; PLG_SHEET_ROOM bytes are always enough).
 */
plg_count_answer plg_sheet_total(plg_totals totals, uint8_t *text, size_t text_length);

#ifdef __cplusplus
}
#endif

#endif

/*
 * Salghemu: of many candidate flattenings of a camera picture, picks the one
 * that most printed marks agree with, and writes the records that it reads.
 * Link libsalghemu.a.
 *
 * All numbers in the records are little-endian; a double is an IEEE 754
 * binary64.
 */
#ifndef SALGHEMU_H
#define SALGHEMU_H

#include <stddef.h>
#include <stdint.h>

#ifdef __cplusplus
extern "C" {
#endif

/* Bytes of each record, and the most marks that a run takes. Options may also
   have the short length: without the ratio, which is then 1. */
#define SALGHEMU_OPTIONS_BYTES 40
#define SALGHEMU_OPTIONS_BYTES_SHORT 32
#define SALGHEMU_MARK_BYTES 32
#define SALGHEMU_STOP_BYTES 4
#define SALGHEMU_TRIAL_BYTES 152
#define SALGHEMU_WINNER_BYTES 88
#define SALGHEMU_INDEX_BYTES 4
#define SALGHEMU_MOST_MARKS 2000

/* The refusals. */
enum salghemu_refusal {
    /* A record of a wrong length, with a mark other than 0 or 1, filler or an
       unmarked number that is not zero bytes, a refit without a fit, or a
       number of a candidate that is not finite. A writer refuses with it the
       numbers of such a record, and a list of other than nine numbers. */
    SALGHEMU_RECORD = 1,
    /* The threshold is not finite or not above 0. */
    SALGHEMU_THRESH = 2,
    /* The confidence is not strictly between 0 and 1. */
    SALGHEMU_CONFIDENCE = 3,
    /* The most iterations are 0 or above 100,000. */
    SALGHEMU_ITERS = 4,
    /* The list of marks has not 32 bytes a mark, or is over 64,000 bytes. */
    SALGHEMU_SHAPE = 5,
    /* A number of a mark is not finite, or of magnitude above 1e9. */
    SALGHEMU_POINT = 6,
    /* Under four marks. Where two of them are doubled too, this comes
       first. */
    SALGHEMU_FEW = 7,
    /* The stop list has not one entry more than there are marks. */
    SALGHEMU_STOPS = 8,
    /* An output is too short. */
    SALGHEMU_ROOM = 9,
    /* A trial after the run's end; no function here answers it. */
    SALGHEMU_ENDED = 10,
    /* No trial was scored, so there is no winner. */
    SALGHEMU_NONE = 11,
    /* From 12 to 15 they are refusals of functions that this header does not
       have. */
    /* Points without spread. */
    SALGHEMU_SPREAD = 12,
    /* The marks lie on a line of the sheet. */
    SALGHEMU_SHEET_LINE = 13,
    /* Their pixels lie on a line. */
    SALGHEMU_PIXEL_LINE = 14,
    /* A number that has no root, or a coefficient out of range. */
    SALGHEMU_NUMBER = 15,
    /* The row ratio is not finite, or not from 0.01 to 100. */
    SALGHEMU_RATIO = 16,
    /* A number of a standing form's camera is not finite, or of magnitude
       above 1e9; no function here answers it. */
    SALGHEMU_CAMERA = 17,
    /* Two marks have one position and two pixels. The same mark twice is no
       fault. */
    SALGHEMU_DOUBLE = 18,
    /* From here on they are refusals to come; no function here answers them
       yet. */
    /* A number has no equal 32-bit float. */
    SALGHEMU_NARROW = 19,
    /* A point of a path can't be mapped. */
    SALGHEMU_PATH = 20,
    /* What a stop list is to be made of is out of range. */
    SALGHEMU_PLAN = 21,
    /* No thresholds, too many, or one that is not below the next. */
    SALGHEMU_LADDER = 22,
    /* A side or a cosine of a triangle is out of range. */
    SALGHEMU_TRIANGLE = 23
};

/*
 * The whole run: reads the trials in order until the stop list ends the run or
 * none are left, and writes the winner.
 *
 * options  40 bytes: threshold and confidence (double), most iterations and
 *          least marks of a scored trial (uint32_t), a byte 0 or 1 that asks
 *          for refits, seven zero bytes, the row ratio (double), by which a
 *          difference along v is multiplied before the distance is taken. Or
 *          the first 32 of them: the ratio is then 1.
 * marks    32 bytes each: sheet x, y and pixel u, v (double); n marks, 4 to
 *          2,000.
 * stops    n + 1 entries (uint32_t): entry k is how many trials are enough
 *          when one is scored with k marks.
 * trials   152 bytes each: a byte 0 or 1 for a fit, another for a refit, six
 *          zero bytes, nine doubles of the fit, nine of the refit.
 * winner   88 bytes are written: the count of marks, the trial's number from 1
 *          (uint32_t), the root mean square of the distances, the candidate's
 *          nine numbers (double).
 * indices  4n bytes are needed; an index (uint32_t) is written for each mark
 *          that agrees, ascending, and the winner's count says how many.
 *
 * It returns 0, or a refusal; of several that hold, the first in this order:
 * 1 for the options, 2 to 4, 16, 5, 6, 7, 18, 8, 1 for the length of the trial
 * list, 9, 1 for a trial that is reached, 11. Refused, it writes nothing. Bytes past
 * those said above stay as they were, and trials behind the end are not looked
 * at.
 *
 * The caller guarantees, since nothing here can test it: each pointer is valid
 * for its length, which is in bytes, the inputs for reading and the outputs
 * for writing; neither output overlaps the other or an input; nobody changes
 * any of them during the call. No alignment is needed. A length of 0 may go
 * with NULL.
 */
uint32_t salghemu_run(const uint8_t *options, size_t options_len,
                      const uint8_t *marks, size_t marks_len,
                      const uint8_t *stops, size_t stops_len,
                      const uint8_t *trials, size_t trials_len,
                      uint8_t *winner, size_t winner_len,
                      uint8_t *indices, size_t indices_len);

/*
 * Writes the options, 40 bytes as the run reads them, to the front of out.
 *
 * thresh, confidence      the threshold and the confidence.
 * max_iters, min_inliers  most iterations, least marks of a scored trial.
 * refit_mark              1 asks for refits, 0 does not.
 * ratio                   the row ratio; 1 where the pixels are square.
 * out                     40 bytes are needed.
 *
 * It returns 0, or a refusal; of several that hold, the first in this order:
 * 1 for the refit mark, 2 to 4, 16, 9. Refused, it writes nothing. Bytes past
 * the record stay as they were.
 *
 * The caller guarantees: out is valid for writing out_len bytes, and nobody
 * else uses them during the call. No alignment is needed. NULL may go with 0.
 */
uint32_t salghemu_write_options(double thresh, double confidence,
                                uint32_t max_iters, uint32_t min_inliers,
                                uint8_t refit_mark, double ratio,
                                uint8_t *out, size_t out_len);

/*
 * Writes a mark, 32 bytes as the run reads them, to the front of out.
 *
 * x, y  where it is printed on the sheet.
 * u, v  the pixel where the camera saw it.
 * out   32 bytes are needed.
 *
 * It returns 0, or a refusal; of several that hold, the first in this order:
 * 6, 9. Refused, it writes nothing. Bytes past the record stay as they were.
 *
 * The caller guarantees: out is valid for writing out_len bytes, and nobody
 * else uses them during the call. No alignment is needed. NULL may go with 0.
 */
uint32_t salghemu_write_mark(double x, double y, double u, double v,
                             uint8_t *out, size_t out_len);

/*
 * Writes a trial, 152 bytes as the run reads them, to the front of out.
 *
 * fit_mark    1 where the trial has a fit, else 0.
 * refit_mark  1 where it has a refit too, else 0.
 * fit, refit  nine numbers each; where the mark is 0 all are 0, and not -0.
 * out         152 bytes are needed.
 *
 * It returns 0, or a refusal; of several that hold, the first in this order:
 * 1 (a list of other than nine numbers, a mark other than 0 or 1, a refit
 * without a fit, a marked number that is not finite, an unmarked one whose
 * bits are not all zero), 9. Refused, it writes nothing. Bytes past the record
 * stay as they were.
 *
 * The caller guarantees: fit and refit are valid for reading fit_count and
 * refit_count doubles (a count is not in bytes), aligned as C aligns a double,
 * and may be the same list; out is valid for writing out_len bytes, needs no
 * alignment and overlaps neither of them; nobody changes any of them, or uses
 * out, during the call. NULL may go with 0.
 */
uint32_t salghemu_write_trial(uint8_t fit_mark, uint8_t refit_mark,
                              const double *fit, size_t fit_count,
                              const double *refit, size_t refit_count,
                              uint8_t *out, size_t out_len);

#ifdef __cplusplus
}
#endif

#endif

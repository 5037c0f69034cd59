/* The writers' refusals by the header's names, with NULL for what is empty, and
   the run's of options by their length and their ratio, and of few marks and
   marks of one position and two pixels.
   Exits with the line of the first that differs, or 0. */
#include <math.h>
#include <string.h>
#include "salghemu.h"

#define IS(name, call) \
    if ((call) != (name)) \
        return __LINE__

static uint32_t run(const uint8_t *options, size_t len)
{
    return salghemu_run(options, len, NULL, 0, NULL, 0, NULL, 0, NULL, 0, NULL, 0);
}

static uint8_t options[SALGHEMU_OPTIONS_BYTES], marks[4 * SALGHEMU_MARK_BYTES];

/* What the run answers to so many bytes of the marks; it has no stops. */
static uint32_t run_marks(size_t len)
{
    return salghemu_run(options, sizeof options, marks, len, NULL, 0, NULL, 0, NULL, 0, NULL, 0);
}

static uint32_t mark(int place, double x, double y, double u, double v)
{
    return salghemu_write_mark(x, y, u, v, marks + place * SALGHEMU_MARK_BYTES, SALGHEMU_MARK_BYTES);
}

/* What it answers to the first two marks, the first three and all four. */
static int answers(uint32_t two, uint32_t three, uint32_t four)
{
    return run_marks(2 * SALGHEMU_MARK_BYTES) == two && run_marks(3 * SALGHEMU_MARK_BYTES) == three
        && run_marks(sizeof marks) == four;
}

/* A mark by itself is written whatever the others are. Two or three are few,
   though two of them clash. */
static int doubles(void)
{
    IS(0, salghemu_write_options(2, 0.5, 1, 4, 1, 1, options, sizeof options));
    IS(0, mark(0, 0.0, 5, 0.0, 7));
    IS(0, mark(2, 1, 5, 1, 7));
    IS(0, mark(3, 0.0, 6, 1, 7));
    IS(0, mark(1, -0.0, 5, 1, 7));
    IS(1, answers(SALGHEMU_FEW, SALGHEMU_FEW, SALGHEMU_DOUBLE));
    IS(0, mark(1, 0.0, 5, 0.0, 8));
    IS(1, answers(SALGHEMU_FEW, SALGHEMU_FEW, SALGHEMU_DOUBLE));
    IS(0, mark(1, -0.0, 5, -0.0, 7));
    IS(1, answers(SALGHEMU_FEW, SALGHEMU_FEW, SALGHEMU_STOPS));
    IS(0, mark(3, 0.0, 5, 5e-324, 7));
    IS(1, answers(SALGHEMU_FEW, SALGHEMU_FEW, SALGHEMU_DOUBLE));
    IS(0, mark(2, 0.0, 5, 1, 7));
    IS(1, answers(SALGHEMU_FEW, SALGHEMU_FEW, SALGHEMU_DOUBLE));
    IS(SALGHEMU_SHAPE, run_marks(sizeof marks - 1));
    IS(SALGHEMU_SHAPE, run_marks(3 * SALGHEMU_MARK_BYTES - 1));
    memset(marks, 0xff, sizeof(double));
    IS(1, answers(SALGHEMU_POINT, SALGHEMU_POINT, SALGHEMU_POINT));
    return 0;
}

int main(void)
{
    const double zeros[10] = {0}, minus[9] = {-0.0};
    uint8_t out[SALGHEMU_TRIAL_BYTES] = {0}, zero_ratio[SALGHEMU_OPTIONS_BYTES] = {0};
    const size_t whole = SALGHEMU_OPTIONS_BYTES, cut = SALGHEMU_OPTIONS_BYTES_SHORT;
    IS(SALGHEMU_RECORD, salghemu_write_options(0, 1, 0, 4, 2, 0, NULL, 0));
    IS(SALGHEMU_THRESH, salghemu_write_options(0, 1, 0, 4, 1, 0, NULL, 0));
    IS(SALGHEMU_CONFIDENCE, salghemu_write_options(2, 1, 0, 4, 1, 0, NULL, 0));
    IS(SALGHEMU_ITERS, salghemu_write_options(2, 0.5, 0, 4, 1, 0, NULL, 0));
    IS(SALGHEMU_RATIO, salghemu_write_options(2, 0.5, 1, 4, 1, 0, NULL, 0));
    IS(SALGHEMU_RATIO, salghemu_write_options(2, 0.5, 1, 4, 1, NAN, out, sizeof out));
    IS(SALGHEMU_ROOM, salghemu_write_options(2, 0.5, 1, 4, 1, 0.01, NULL, 0));
    IS(SALGHEMU_ROOM, salghemu_write_options(2, 0.5, 1, 4, 1, 100, out, whole - 1));
    IS(0, salghemu_write_options(2, 0.5, 1, 4, 1, 100, out, whole));
    /* There are no marks, so accepted options are told by 7. */
    IS(SALGHEMU_FEW, run(out, whole));
    IS(SALGHEMU_FEW, run(out, cut));
    IS(SALGHEMU_RECORD, run(out, whole - 1));
    IS(SALGHEMU_RECORD, run(out, whole + 1));
    IS(SALGHEMU_RECORD, run(out, cut - 1));
    IS(SALGHEMU_RECORD, run(out, cut + 1));
    memcpy(zero_ratio, out, cut);
    IS(SALGHEMU_RATIO, run(zero_ratio, whole));
    IS(SALGHEMU_POINT, salghemu_write_mark(0, 0, 0, NAN, NULL, 0));
    IS(SALGHEMU_ROOM, salghemu_write_mark(0, 0, 0, 1e9, NULL, 0));
    IS(SALGHEMU_RECORD, salghemu_write_trial(1, 0, zeros, 9, NULL, 0, NULL, 0));
    IS(SALGHEMU_RECORD, salghemu_write_trial(1, 1, zeros, 10, zeros, 8, out, sizeof out));
    IS(SALGHEMU_RECORD, salghemu_write_trial(0, 0, zeros, 9, minus, 9, out, sizeof out));
    IS(SALGHEMU_ROOM, salghemu_write_trial(1, 1, zeros, 9, zeros, 9, out, sizeof out - 1));
    return doubles();
}

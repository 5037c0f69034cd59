/* Where a fitting program can start: writes the four files of examples/sheet
   from plain numbers, for examples/table.c to read. */
#include <stdio.h>
#include <stdlib.h>
#include "salghemu.h"

enum { MARKS = 5, TRIALS = 4 };

static const double marks[MARKS][4] = {
    {0, 0, 0, 0}, {100, 0, 100, 0}, {100, 100, 100, 100}, {0, 100, 0, 100}, {50, 50, 50, 53}};
static const uint32_t stops[MARKS + 1] = {9, 9, 9, 9, 3, 9};

/* What the trials fitted; what is not there is all zeros. None has a refit. */
static const double none[9], same[9] = {1, 0, 0, 0, 1, 0, 0, 0, 1};
static const double lower[9] = {1, 0, 0, 0, 1, 3, 0, 0, 1};
static const double *const fits[TRIALS] = {same, none, lower, same};

static uint8_t options_file[SALGHEMU_OPTIONS_BYTES];
static uint8_t marks_file[MARKS * SALGHEMU_MARK_BYTES];
static uint8_t stops_file[(MARKS + 1) * SALGHEMU_STOP_BYTES];
static uint8_t trials_file[TRIALS * SALGHEMU_TRIAL_BYTES];

static const char *const names[] = {"", "RECORD", "THRESH", "CONFIDENCE", "ITERS", "SHAPE",
    "POINT", "FEW", "STOPS", "ROOM", [SALGHEMU_RATIO] = "RATIO"};

static void check(uint32_t refusal)
{
    if (refusal == 0)
        return;
    const char *name = refusal <= SALGHEMU_RATIO ? names[refusal] : NULL;
    printf("refused: %s\n", name ? name : "unknown");
    exit(1);
}

static void save(const char *folder, const char *name, const uint8_t *bytes, size_t len)
{
    char path[4096];
    int whole = snprintf(path, sizeof path, "%s/%s", folder, name) < (int)sizeof path;
    FILE *file = whole ? fopen(path, "wb") : NULL;
    int written = file && fwrite(bytes, 1, len, file) == len;
    /* Closing writes what is left, and may fail as well. */
    if ((file && fclose(file) != 0) || !written) {
        printf("not written: %s/%s\n", folder, name);
        exit(1);
    }
}

int main(int count, char **words)
{
    const char *folder = count > 1 ? words[1] : ".";
    check(salghemu_write_options(2.0, 0.99, 10, 4, 0, 1.0, options_file, sizeof options_file));
    for (int k = 0; k < MARKS; k++)
        check(salghemu_write_mark(marks[k][0], marks[k][1], marks[k][2], marks[k][3],
            marks_file + k * SALGHEMU_MARK_BYTES, SALGHEMU_MARK_BYTES));
    for (int k = 0; k < TRIALS; k++)
        check(salghemu_write_trial(fits[k] != none, 0, fits[k], 9, none, 9,
            trials_file + k * SALGHEMU_TRIAL_BYTES, SALGHEMU_TRIAL_BYTES));
    /* A stop entry is a number by itself, its lowest byte first. */
    for (size_t k = 0; k < sizeof stops_file; k++)
        stops_file[k] = (uint8_t)(stops[k / 4] >> (8 * (k % 4)));

    save(folder, "options.bin", options_file, sizeof options_file);
    save(folder, "marks.bin", marks_file, sizeof marks_file);
    save(folder, "stops.bin", stops_file, sizeof stops_file);
    save(folder, "trials.bin", trials_file, sizeof trials_file);
    return 0;
}

/* Where a table's program can start: picks the winner of a folder's four files.
   For a machine whose numbers are little-endian. */
#include <stdio.h>
#include <string.h>
#include "salghemu.h"

/* Long enough for this sample; a longer file is cut, and so refused. */
static uint8_t options[64], marks[70000], stops[9000], trials[1 << 20];
static uint8_t winner[SALGHEMU_WINNER_BYTES];
static uint8_t indices[SALGHEMU_INDEX_BYTES * SALGHEMU_MOST_MARKS];

static const char *const names[] = {"", "RECORD", "THRESH", "CONFIDENCE", "ITERS", "SHAPE",
    "POINT", "FEW", "STOPS", "ROOM", "ENDED", "NONE", [SALGHEMU_RATIO] = "RATIO",
    [SALGHEMU_DOUBLE] = "DOUBLE"};

static size_t load(const char *folder, const char *name, uint8_t *to, size_t room)
{
    char path[4096];
    snprintf(path, sizeof path, "%s/%s", folder, name);
    FILE *file = fopen(path, "rb");
    size_t len = file ? fread(to, 1, room, file) : 0;
    if (file)
        fclose(file);
    return len;
}

static void show(void)
{
    uint32_t count, trial, index[SALGHEMU_MOST_MARKS];
    double rms, h[9];
    memcpy(&count, winner, 4);
    memcpy(&trial, winner + 4, 4);
    memcpy(&rms, winner + 8, 8);
    memcpy(h, winner + 16, 72);
    memcpy(index, indices, SALGHEMU_INDEX_BYTES * count);
    printf("trial %u, %u marks, rms %g\nmodel", (unsigned)trial, (unsigned)count, rms);
    for (int k = 0; k < 9; k++)
        printf(" %g", h[k]);
    printf("\nmarks");
    for (uint32_t k = 0; k < count; k++)
        printf(" %u", (unsigned)index[k]);
    printf("\n");
}

int main(int count, char **words)
{
    const char *folder = count > 1 ? words[1] : ".";
    size_t options_len = load(folder, "options.bin", options, sizeof options);
    size_t marks_len = load(folder, "marks.bin", marks, sizeof marks);
    size_t stops_len = load(folder, "stops.bin", stops, sizeof stops);
    size_t trials_len = load(folder, "trials.bin", trials, sizeof trials);
    uint32_t refusal = salghemu_run(options, options_len, marks, marks_len, stops, stops_len,
        trials, trials_len, winner, sizeof winner, indices, sizeof indices);
    if (refusal != 0) {
        const char *name = refusal <= SALGHEMU_DOUBLE ? names[refusal] : NULL;
        printf("refused: %s\n", name ? name : "unknown");
        return 1;
    }
    show();
    return 0;
}

/* A job on standard input, the list of where its bundles and routes cross on standard output: a count in two
 * bytes, the higher first, and for each crossing x and y as binary64, the bundle's id and the edge's:
 *
 *     cc crossings.c -I . -L ../../target/staticlib -lstage -o crossings
 *     ./crossings < ../crossings.job > crossings.list
 *
 * Exit codes: 0, listed. 1, refused. 2, the list could not be written.
 */
#include <stdio.h>

#include "stage.h"

static uint8_t job[65536];
static uint8_t answer[STAGE_BUFFER_SIZE];
static uint8_t crossings[STAGE_CROSSINGS_SIZE];

int main(void) {
    static const uint8_t no_plan[1];
    static uint8_t no_page[1];
    size_t length = fread(job, 1, sizeof job, stdin);
    stage_sheet(STAGE_WANT_CROSSINGS, job, length, no_plan, 0, answer, sizeof answer, no_page, 0, crossings,
                sizeof crossings);
    if (answer[STAGE_NUMBER_AT] != 0) {
        fprintf(stderr, "refused with %d\n", answer[STAGE_NUMBER_AT]);
        return 1;
    }
    size_t entries = (size_t)crossings[0] << 8 | crossings[1];
    size_t count = 2 + entries * STAGE_CROSSING_SIZE;
    if (fwrite(crossings, 1, count, stdout) != count || fflush(stdout) != 0) {
        return 2;
    }
    return 0;
}

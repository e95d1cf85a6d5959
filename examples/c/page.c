/* A job on standard input, its bundle page on standard output:
 *
 *     cc page.c -I . -L ../../target/staticlib -lstage -o page
 *     ./page < ../clock-board.job
 *
 * Exit codes: 0, printed. 1, refused. 2, the page could not be written.
 */
#include <stdio.h>

#include "stage.h"

static uint8_t job[65536];
static uint8_t answer[STAGE_BUFFER_SIZE];
static uint8_t page[STAGE_PAGE_SIZE];

int main(void) {
    size_t length = fread(job, 1, sizeof job, stdin);
    static const uint8_t no_plan[1];
    static uint8_t no_list[1];
    stage_sheet(STAGE_WANT_PAGE, job, length, no_plan, 0, answer, sizeof answer, page, sizeof page, no_list, 0);
    if (answer[STAGE_NUMBER_AT] != 0) {
        fprintf(stderr, "refused with %d\n", answer[STAGE_NUMBER_AT]);
        return 1;
    }
    size_t bundles = (size_t)answer[STAGE_BUNDLES_AT] << 8 | answer[STAGE_BUNDLES_AT + 1];
    size_t count = bundles * STAGE_PAGE_LINE_SIZE;
    if (fwrite(page, 1, count, stdout) != count || fflush(stdout) != 0) {
        return 2;
    }
    return 0;
}

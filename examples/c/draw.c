/* A job on standard input, its answer on standard output, as the program sheet does it:
 *
 *     cc draw.c -I . -L ../../target/staticlib -lstage -o draw
 *     ./draw < ../clock-board.job > clock-board.answer
 *
 * Exit codes: 0, drawn. 1, refused. 2, the answer could not be written.
 */
#include <stdio.h>

#include "stage.h"

static uint8_t job[65536];
static uint8_t answer[STAGE_BUFFER_SIZE];

int main(void) {
    size_t length = fread(job, 1, sizeof job, stdin);
    size_t count = stage(job, length, answer, sizeof answer);
    if (fwrite(answer, 1, count, stdout) != count || fflush(stdout) != 0) {
        return 2;
    }
    if (answer[STAGE_NUMBER_AT] != 0) {
        fprintf(stderr, "refused with %d\n", answer[STAGE_NUMBER_AT]);
        return 1;
    }
    return 0;
}

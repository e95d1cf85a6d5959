/* Plan first, draw later. A job on standard input; without a word its plan on standard output, with the
 * name of a file that holds a plan the answer that is drawn from it:
 *
 *     cc plan.c -I . -L ../../target/staticlib -lstage -o plan
 *     ./plan < ../clock-board.job > clock-board.plan
 *     ./plan clock-board.plan < ../clock-board.job > clock-board.answer
 *
 * Exit codes: 0, planned or drawn. 1, refused. 2, a file could not be read or written.
 */
#include <stdio.h>

#include "stage.h"

static uint8_t job[65536];
static uint8_t plan[STAGE_PLAN_SIZE];
/* One byte more, so that a file that is too long for a plan is none. */
static uint8_t kept[STAGE_PLAN_SIZE + 1];
static uint8_t answer[STAGE_BUFFER_SIZE];

/* Writes what came out; a notice has six bytes, a plan or an answer more. */
static int put(const uint8_t *bytes, size_t count) {
    if (fwrite(bytes, 1, count, stdout) != count || fflush(stdout) != 0) {
        return 2;
    }
    if (count == STAGE_NOTICE_SIZE) {
        fprintf(stderr, "refused with %d\n", bytes[STAGE_NUMBER_AT]);
        return 1;
    }
    return 0;
}

int main(int words, char **word) {
    size_t length = fread(job, 1, sizeof job, stdin);
    if (words < 2) {
        return put(plan, stage_plan(job, length, plan, sizeof plan));
    }
    FILE *file = fopen(word[1], "rb");
    if (file == NULL) {
        return 2;
    }
    size_t plan_length = fread(kept, 1, sizeof kept, file);
    fclose(file);
    return put(answer, stage_draw(job, length, kept, plan_length, answer, sizeof answer));
}

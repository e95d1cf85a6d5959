/* The proved bundle stage, libstage.a, for C and C++ on x86-64 Linux. */
#ifndef STAGE_H
#define STAGE_H

#include <stddef.h>
#include <stdint.h>

#ifdef __cplusplus
extern "C" {
#endif

/* The least size of the answer's buffer. */
#define STAGE_BUFFER_SIZE 65536
/* No answer is longer, and no accepted job. */
#define STAGE_ANSWER_SIZE_MAX 52484
#define STAGE_JOB_SIZE_MAX 49566
/* A refusal: 00 00 00 02 01 and the number. */
#define STAGE_NOTICE_SIZE 6
/* Where the number stands in an answer and in a notice: 0, drawn. */
#define STAGE_NUMBER_AT 5
/* Where an answer has its count of bundles, in two bytes, the higher first. */
#define STAGE_BUNDLES_AT 34
/* A plan: the least size of its buffer. No plan is longer. */
#define STAGE_PLAN_SIZE 297
/* The bundle page: the least size of its buffer, and the bytes of a line, one line for each bundle. */
#define STAGE_PAGE_SIZE 2432
#define STAGE_PAGE_LINE_SIZE 76
/* The list of crossings: the least size of its buffer, and the bytes of an entry behind the count's two. */
#define STAGE_CROSSINGS_SIZE 24578
#define STAGE_CROSSING_SIZE 24
/* Bits of what stage_sheet is told is given and wanted; those that are not listed say nothing. */
#define STAGE_PLAN_GIVEN 1u
#define STAGE_WANT_PAGE 2u
#define STAGE_WANT_CROSSINGS 4u
/* Stack that a call needs at most, as measured. */
#define STAGE_STACK_SIZE 656920

/*
 * Writes the answer to the job, or the notice of its refusal, to the front of the answer's buffer, and
 * gives how many bytes that are. Later bytes of the buffer stay as they were. A buffer under
 * STAGE_BUFFER_SIZE is not written to, and the result is 0.
 *
 * Job and answer must not overlap, not by one byte. Threads may call it at the same time.
 */
size_t stage(const uint8_t *job, size_t job_length, uint8_t *answer, size_t answer_length);

/*
 * Writes the plan of the job, or the notice of its refusal, to the front of the plan's buffer, and gives how
 * many bytes that are: 6 for a notice, 9 or more for a plan. A buffer under STAGE_PLAN_SIZE is not written
 * to, and the result is 0.
 */
size_t stage_plan(const uint8_t *job, size_t job_length, uint8_t *plan, size_t plan_length);

/*
 * Writes the answer to the job, drawn from the plan, or the notice of its refusal, as stage does. With the
 * plan that stage_plan gives for the job, this is stage. 17 is the refusal of a plan that does not fit the
 * job's bundles, 18 that of a planned number.
 */
size_t stage_draw(const uint8_t *job, size_t job_length, const uint8_t *plan, size_t plan_length,
                  uint8_t *answer, size_t answer_length);

/*
 * As stage, or as stage_draw if STAGE_PLAN_GIVEN says so; and the bundle page at the front of its buffer, if
 * STAGE_WANT_PAGE says so: a line of STAGE_PAGE_LINE_SIZE bytes for each bundle. Later bytes stay as they
 * were, and so does the whole page where the job is refused. A page's buffer under STAGE_PAGE_SIZE, where it
 * is wanted, is as an answer's buffer that is too short. 16 is the refusal of a page for a job that is not
 * said to be on the drafting grid (flag bit 2), after all others.
 *
 * The same of the list of crossings and STAGE_WANT_CROSSINGS: its count in two bytes, the higher first, then
 * for each crossing of a bundle and a route its place before the last shift, x and y as binary64, the bundle's
 * id and the edge's, all big-endian; by y, then x, then the job's order. 19 is the refusal of a list of more
 * than 1,024, before 16 and after all others.
 *
 * No two of job, plan, answer, page and list overlap. No pointer is null; a plan that is not given and an
 * output that is not wanted may have length 0.
 */
size_t stage_sheet(uint32_t wants, const uint8_t *job, size_t job_length, const uint8_t *plan,
                   size_t plan_length, uint8_t *answer, size_t answer_length, uint8_t *page,
                   size_t page_length, uint8_t *crossings, size_t crossings_length);

#ifdef __cplusplus
}
#endif

#endif

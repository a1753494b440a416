/* A job of a page: runs file A and prints what the planner found. Five nodes; node 4 holds exactly if 4, 3 and 2 of nodes 0, 1 and 2 reach
   6. Node 4 is marked sure, so node 0 is forced: without it the others reach 5. */

#include <inttypes.h>
#include <stdio.h>
#include <stdlib.h>
#include <string.h>

#include "planner.h"

static const uint8_t file_a[] = {
    PLANNER_KIND_HEADER, 5, 0,                             /* 5 nodes */
    PLANNER_KIND_THRESHOLD, 4, 0, 6, 0, 0, 0, 0, 0, 0, 0,  /* node 4, bound 6 */
    PLANNER_KIND_TERM, 0, 0, 4, 0, 0, 0,                   /* condition 0, weight 4 */
    PLANNER_KIND_TERM, 1, 0, 3, 0, 0, 0,                   /* condition 1, weight 3 */
    PLANNER_KIND_TERM, 2, 0, 2, 0, 0, 0,                   /* condition 2, weight 2 */
    PLANNER_KIND_SEAL,
    PLANNER_KIND_MARK, 4, 0, 1,                            /* node 4 sure */
    PLANNER_KIND_SETTLE
};

static void print_nodes(const struct planner_work *work, size_t count)
{
    for (size_t node = 0; node < count; node++) {
        const char *value = planner_is_sure(work, node) ? "sure" : planner_is_never(work, node) ? "never" : "undecided";
        printf("node %zu is %s\n", node, value);
    }
}

static void print_rows(const struct planner_work *work, size_t count)
{
    for (size_t row = 0; row < count; row++) {
        const int64_t *figures = work->figures[row];
        printf("row %zu: known %" PRId64 ", possible %" PRId64 ", at least %" PRId64, row, figures[0], figures[1], figures[2]);
        if (work->cursors[row][4])
            printf(", below %" PRId64, figures[3]);
        printf("\n");
    }
}

static void print_answers(const struct planner_work *work, size_t count)
{
    static const char *const steps[] = {"unchanged", "changed", "contradiction"};
    for (size_t i = 0; i < count; i++) {
        unsigned answer = work->answers[i][0];
        if (answer >= PLANNER_SIFT_UNCHANGED)
            printf("sift: %s, %u visits\n", steps[answer - PLANNER_SIFT_UNCHANGED], (unsigned)work->answers[i][1]);
        else
            printf("settle: %s\n", steps[answer]);
    }
}

int main(void)
{
    if (strcmp(planner_version(), PLANNER_VERSION)) {
        fprintf(stderr, "the library is version %s, the header %s\n", planner_version(), PLANNER_VERSION);
        return 3;
    }
    struct planner_work *work = malloc(sizeof *work);
    uint8_t *text = malloc(PLANNER_LISTING);
    if (!work || !text)
        return 3;
    struct planner_given given = planner_plan(work, file_a, sizeof file_a);
    if (given.refused)
        printf("refused by %u at byte %zu\n", given.refused, given.at);
    print_answers(work, given.answered);
    print_nodes(work, given.nodes);
    print_rows(work, given.rows);
    if (planner_contradicted(given))
        printf("no layout is left\n");
    if (planner_unsettled_marks(given, file_a))
        printf("marks wait for a settle\n");
    size_t length = planner_list(file_a, sizeof file_a, text, PLANNER_LISTING);
    printf("\nas a listing:\n%.*s", (int)length, (const char *)text);
    free(text);
    free(work);
    return 0;
}

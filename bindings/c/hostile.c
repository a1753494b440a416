/* Hostile input: noise, job files made at random and damaged, the longest input and one byte more, from several threads at once. Every buffer
   ends where memory that may not be touched begins, or begins where such memory ends, so that a step outside is a fault in any build; each
   file is run over two areas that held different bytes before, and must leave the same in both.
   usage: hostile [SEED [FILES [THREADS]]]      prints a sum over all that came out, the same for every thread */

#define _DEFAULT_SOURCE
#include <inttypes.h>
#include <pthread.h>
#include <stdio.h>
#include <stdlib.h>
#include <string.h>
#include <sys/mman.h>
#include <unistd.h>

#include "planner.h"

enum { BUFFERS = 21, MOST_THREADS = 64 };

#define PART(name) {offsetof(struct planner_work, name), sizeof ((struct planner_work *)0)->name}
static const struct { size_t at, size; } parts[BUFFERS] = {
    PART(raw_conditions), PART(raw_weights), PART(thresholds), PART(bounds), PART(row_conditions), PART(row_weights), PART(rows),
    PART(guard_bounds), PART(guard_nodes), PART(nodes), PART(edges), PART(links), PART(figures), PART(cursors), PART(sure), PART(never),
    PART(search), PART(gcds), PART(node_queue), PART(row_queues), PART(answers)};

static void fail(const char *what)
{
    fprintf(stderr, "hostile: %s\n", what);
    exit(1);
}

/* Memory of this size with memory that may not be touched on both sides; it ends where the one after it begins, or begins where the one before ends. */
static unsigned char *fenced(size_t size, int at_end)
{
    size_t page = (size_t)sysconf(_SC_PAGESIZE);
    size_t room = (size + page - 1) / page * page;
    unsigned char *all = mmap(NULL, room + 2 * page, PROT_NONE, MAP_PRIVATE | MAP_ANONYMOUS, -1, 0);
    if (all == MAP_FAILED || mprotect(all + page, room, PROT_READ | PROT_WRITE))
        fail("no memory");
    return all + page + (at_end ? room - size : 0);
}

struct area {
    unsigned char *buffers[BUFFERS];
    unsigned char *text;
    struct planner_given given;
    size_t listed;
};

static void make_area(struct area *area, int at_end, int old)
{
    for (int i = 0; i < BUFFERS; i++) {
        area->buffers[i] = fenced(parts[i].size, at_end);
        memset(area->buffers[i], old, parts[i].size);
    }
    area->text = fenced(PLANNER_LISTING, at_end);
}

static void run(struct area *area, const uint8_t *input, size_t length)
{
    void *const *b = (void *const *)area->buffers;
    area->given = planner_run(
        input, length, b[0], PLANNER_RAW_CONDITIONS, b[1], PLANNER_RAW_WEIGHTS, b[2], PLANNER_THRESHOLDS, b[3], PLANNER_BOUNDS, b[4],
        PLANNER_ROW_CONDITIONS, b[5], PLANNER_ROW_WEIGHTS, b[6], PLANNER_ROWS, b[7], PLANNER_GUARD_BOUNDS, b[8], PLANNER_GUARD_NODES, b[9],
        PLANNER_NODES, b[10], PLANNER_EDGES, b[11], PLANNER_LINKS, b[12], PLANNER_FIGURES, b[13], PLANNER_CURSORS, b[14], PLANNER_SURE, b[15],
        PLANNER_NEVER, b[16], PLANNER_SEARCH, b[17], PLANNER_GCDS, b[18], PLANNER_NODE_QUEUE, b[19], PLANNER_ROW_QUEUES, b[20],
        PLANNER_ANSWERS);
    area->listed = planner_list(input, length, area->text, PLANNER_LISTING);
}

static uint64_t next(uint64_t *seed)
{
    *seed ^= *seed << 13;
    *seed ^= *seed >> 7;
    *seed ^= *seed << 17;
    return *seed;
}

static size_t below(uint64_t *seed, size_t limit)
{
    return next(seed) % limit;
}

struct file {
    uint8_t bytes[PLANNER_MAX_INPUT + 1];
    size_t length;
};

/* A record of this kind with fields of 2, 4 or 8 bytes, if there is room. */
static void put(struct file *file, uint8_t kind, uint64_t first, size_t first_size, uint64_t second, size_t second_size)
{
    if (file->length + 1 + first_size + second_size > PLANNER_MAX_INPUT)
        return;
    file->bytes[file->length++] = kind;
    for (size_t i = 0; i < first_size; i++)
        file->bytes[file->length++] = (uint8_t)(first >> 8 * i);
    for (size_t i = 0; i < second_size; i++)
        file->bytes[file->length++] = (uint8_t)(second >> 8 * i);
}

/* A job with marks, settles and sifts. */
static void make_job(struct file *file, uint64_t *seed)
{
    static const size_t sizes[] = {3, 8, 40, 300, 4096};
    size_t nodes = sizes[below(seed, 5)];
    size_t thresholds = 1 + below(seed, nodes < 1024 ? nodes : 1024);
    size_t terms = 1 + below(seed, nodes < 12 ? nodes : 12);
    uint64_t weights = (uint64_t)1 << below(seed, 33);
    put(file, 1, nodes, 2, 0, 0);
    for (size_t t = 0; t < thresholds; t++) {
        put(file, 2, nodes - thresholds + t, 2, below(seed, terms * weights + 2), 8);
        for (size_t i = 0; i < terms; i++) {
            uint8_t kind = below(seed, 20) ? 3 : 8;
            size_t condition = below(seed, nodes);
            put(file, kind, condition, 2, below(seed, weights + 1), 4);
        }
    }
    put(file, 4, 0, 0, 0, 0);
    for (size_t i = 0; i < nodes && i < 600; i++) {
        size_t node = below(seed, nodes);
        put(file, 5, node, 2, below(seed, 2), 1);
        if (below(seed, 1 + nodes / 16) == 0)
            put(file, below(seed, 2) ? 6 : 7, 0, 0, 0, 0);
    }
    put(file, 7, 0, 0, 0, 0);
}

static void make_file(struct file *file, uint64_t *seed)
{
    file->length = 0;
    size_t kind = below(seed, 10);
    if (kind < 2) {
        file->length = below(seed, kind ? sizeof file->bytes + 1 : 100);
        for (size_t i = 0; i < file->length; i++)
            file->bytes[i] = (uint8_t)next(seed);
        return;
    }
    make_job(file, seed);
    if (kind == 2)
        file->length = below(seed, file->length + 1);
    if (kind == 3 || kind == 4)
        for (size_t i = below(seed, 4); i < 4 && file->length; i++) {
            size_t at = below(seed, file->length);
            file->bytes[at] = (uint8_t)next(seed);
        }
    if (kind == 5)
        while (file->length < sizeof file->bytes)
            file->bytes[file->length++] = (uint8_t)next(seed);
    if (kind == 6)
        while (file->length < PLANNER_MAX_INPUT)
            file->bytes[file->length++] = 6;
}

static uint64_t sum(uint64_t so_far, const void *bytes, size_t length)
{
    const unsigned char *at = bytes;
    for (size_t i = 0; i < length; i++)
        so_far = (so_far ^ at[i]) * UINT64_C(1099511628211);
    return so_far;
}

static uint64_t first_seed = 1;
static size_t file_count = 2000;

static void *work(void *result)
{
    struct area one, other;
    struct file *file = malloc(sizeof *file);
    uint64_t seed = first_seed, total = UINT64_C(14695981039346656037);
    if (!file)
        fail("no memory");
    make_area(&one, 1, 0x00);
    make_area(&other, 0, 0xFF);
    uint8_t *input = fenced(sizeof file->bytes, 1);
    for (size_t n = 0; n < file_count; n++) {
        make_file(file, &seed);
        /* The input ends at its fence as well. */
        uint8_t *lent = input + sizeof file->bytes - file->length;
        memcpy(lent, file->bytes, file->length);
        run(&one, lent, file->length);
        run(&other, lent, file->length);
        if (memcmp(lent, file->bytes, file->length))
            fail("the input was written");
        if ((one.given.refused == PLANNER_TOO_LONG) != (file->length > PLANNER_MAX_INPUT))
            fail("refusal 10 at another length");
        if (one.listed == 0 || one.listed != other.listed || memcmp(one.text, other.text, one.listed))
            fail("two listings of one file");
        for (int i = 0; i < BUFFERS && one.given.refused != PLANNER_TOO_LONG; i++) {
            if (memcmp(one.buffers[i], other.buffers[i], parts[i].size))
                fail("old memory is left");
            total = sum(total, one.buffers[i], parts[i].size);
        }
        total = sum(total, one.text, one.listed);
    }
    free(file);
    *(uint64_t *)result = total;
    return NULL;
}

/* Two marks of one node that differ, with a settle after them: the first mark alone leaves a layout. */
static void contradictions(void)
{
    static const uint8_t file[] = {
        PLANNER_KIND_HEADER, 2, 0, PLANNER_KIND_SEAL, PLANNER_KIND_MARK, 1, 0, 1, PLANNER_KIND_MARK, 1, 0, 0, PLANNER_KIND_SETTLE};
    static struct planner_work area;
    struct planner_given one = planner_plan(&area, file, 8), two = planner_plan(&area, file, 12), more = planner_plan(&area, file, 13);
    if (planner_contradicted(one) || !planner_contradicted(two) || !planner_contradicted(more))
        fail("a contradiction is missed or invented");
    if (planner_unsettled_marks(one, file) != 1 || planner_unsettled_marks(two, file) != 2)
        fail("other marks wait");
    if (one.refused || two.refused || more.refused != PLANNER_CONTRADICTED || more.at != 12)
        fail("refusal 9 at another place");
}

int main(int count, char **words)
{
    size_t threads = count > 3 ? strtoull(words[3], NULL, 10) : 4;
    pthread_t ids[MOST_THREADS];
    uint64_t totals[MOST_THREADS];
    if (count > 1)
        first_seed = strtoull(words[1], NULL, 10) * 2 + 1;
    if (count > 2)
        file_count = strtoull(words[2], NULL, 10);
    if (threads == 0 || threads > MOST_THREADS)
        fail("1 to 64 threads");
    contradictions();
    for (size_t i = 0; i < threads; i++)
        if (pthread_create(&ids[i], NULL, work, &totals[i]))
            fail("no thread");
    for (size_t i = 0; i < threads; i++)
        pthread_join(ids[i], NULL);
    for (size_t i = 1; i < threads; i++)
        if (totals[i] != totals[0])
            fail("two threads differ");
    printf("%zu files in each of %zu threads, sum %016" PRIx64 "\n", file_count, threads, totals[0]);
    return 0;
}

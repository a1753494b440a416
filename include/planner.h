/* The threshold planner for C and C++: link libplanner, static or shared (`pkg-config planner` once bindings/install has put it somewhere).

   One call runs a whole job file over buffers that its caller lends. The call clears them, takes each record or refuses it by a number, and
   leaves nodes, rows and answers in them. It keeps nothing between calls and needs no other memory but PLANNER_RUN_STACK bytes of stack, so
   that threads may call it at the same time, each with its own buffers. The shortest way is a `struct planner_work` and `planner_plan`; then
   ask whether a record was refused (given.refused), whether a layout is left (planner_contradicted) and whether marks wait for a settle
   (planner_unsettled_marks), before any node is believed.

   docs/FORMAT.md has the job file, record by record, and the listing, line by line.

   What planner_run and planner_list promise is proved, for every input and whatever the buffers held before. A caller keeps what C cannot test:
   - no pointer is null, also where the length is 0, and each is aligned for its elements;
   - each length is true: that many elements, not bytes, may be read and, unless it is const, written;
   - what is lent to be written overlaps nothing else that is lent to the same call, and nothing else touches it meanwhile. */

#ifndef PLANNER_H
#define PLANNER_H

#include <stddef.h>
#include <stdint.h>

#ifdef __cplusplus
extern "C" {
#endif

/* The version of this header: 0.N.P, where N is raised by every change of a function, a buffer, a limit or the format, and P by any other.
   planner_version() says that of the library which a program runs with: a static text, PLANNER_VERSION of the header that it was built by. */
#define PLANNER_VERSION_MAJOR 0
#define PLANNER_VERSION_MINOR 3
#define PLANNER_VERSION_PATCH 0
#define PLANNER_TEXT_OF(number) #number
#define PLANNER_TEXT(number) PLANNER_TEXT_OF(number)
#define PLANNER_VERSION PLANNER_TEXT(PLANNER_VERSION_MAJOR) "." PLANNER_TEXT(PLANNER_VERSION_MINOR) "." PLANNER_TEXT(PLANNER_VERSION_PATCH)

const char *planner_version(void);

/* Kinds of records: one byte, then the fields of the body, little-endian. docs/FORMAT.md has the turn and the limits of each. */
enum planner_kind {
    PLANNER_KIND_HEADER = 0x01,    /* nodes u16 */
    PLANNER_KIND_THRESHOLD = 0x02, /* node u16, bound i64 */
    PLANNER_KIND_TERM = 0x03,      /* condition u16, weight u32: of the open threshold */
    PLANNER_KIND_SEAL = 0x04,      /* no body */
    PLANNER_KIND_MARK = 0x05,      /* node u16, value u8: 1 sure, 0 never */
    PLANNER_KIND_SETTLE = 0x06,    /* no body */
    PLANNER_KIND_SIFT = 0x07,      /* no body */
    PLANNER_KIND_AREA = 0x08       /* condition u16, area u32 in hundredths: of the open threshold */
};

/* Limits of a job file; a record beyond one is refused by PLANNER_TOO_MANY, a longer input by PLANNER_TOO_LONG. */
enum {
    PLANNER_MAX_INPUT = 65536,
    PLANNER_MAX_NODES = 4096,
    PLANNER_MAX_THRESHOLDS = 1024,
    PLANNER_MAX_TERMS = 4096,
    PLANNER_MAX_TERMS_OF_ONE = 1024,
    PLANNER_MAX_ANSWERS = 64
};

/* How many elements each buffer has at least. A longer one is taken, cleared whole and used to this length; if one is shorter, the call
   gives PLANNER_TOO_LONG back and touches none. */
enum {
    PLANNER_RAW_CONDITIONS = 4096,
    PLANNER_RAW_WEIGHTS = 4096,
    PLANNER_THRESHOLDS = 1024,
    PLANNER_BOUNDS = 1024,
    PLANNER_ROW_CONDITIONS = 4096,
    PLANNER_ROW_WEIGHTS = 4096,
    PLANNER_ROWS = 1024,
    PLANNER_GUARD_BOUNDS = 1024,
    PLANNER_GUARD_NODES = 1024,
    PLANNER_NODES = 4096,
    PLANNER_EDGES = 4096,
    PLANNER_LINKS = 2048,
    PLANNER_FIGURES = 1024,
    PLANNER_CURSORS = 1024,
    PLANNER_SURE = 64,
    PLANNER_NEVER = 64,
    PLANNER_SEARCH = 4096,
    PLANNER_GCDS = 1025,
    PLANNER_NODE_QUEUE = 4096,
    PLANNER_ROW_QUEUES = 1024,
    PLANNER_ANSWERS = 64,
    PLANNER_LISTING = 262144 /* bytes of the buffer that a listing is made in */
};

/* Bytes of stack for a call of each function: what was measured (bindings/c/stack.c) and room above it. A thread needs some beside it. */
enum {
    PLANNER_RUN_STACK = 98304,  /* planner_run, planner_plan: 54 KB measured */
    PLANNER_LIST_STACK = 655360 /* planner_list: 464 KB measured */
};

/* Why a record is refused. The first that applies is given, in the order TOO_LONG, UNKNOWN_KIND, CUT_OFF, OUT_OF_TURN, CONTRADICTED,
   NO_SUCH_NODE, NOT_RISING, BOUND_OUTSIDE, NO_VALUE, TOO_MANY. What the records before it did stays. */
enum planner_refusal {
    PLANNER_ACCEPTED = 0,      /* every record was taken */
    PLANNER_CUT_OFF = 1,       /* the input ends inside the record */
    PLANNER_UNKNOWN_KIND = 2,  /* kind 0x00 or above 0x08 */
    PLANNER_OUT_OF_TURN = 3,   /* a header that is not first, a job record after the seal, a mark, settle or sift before it, .. */
    PLANNER_TOO_MANY = 4,      /* nodes, thresholds, terms, or settles and sifts beyond a limit */
    PLANNER_NO_SUCH_NODE = 5,  /* a node or condition not below the job's node count */
    PLANNER_NOT_RISING = 6,    /* a threshold's node not above that of the threshold before */
    PLANNER_BOUND_OUTSIDE = 7, /* a bound outside -2^52 to 2^52 */
    PLANNER_NO_VALUE = 8,      /* a mark's value neither 0 nor 1 */
    PLANNER_CONTRADICTED = 9,  /* an earlier record answered PLANNER_CONTRADICTION */
    PLANNER_TOO_LONG = 10      /* the input has more than PLANNER_MAX_INPUT bytes, or a buffer is too short */
};

/* What a seal, mark, settle or sift did. */
enum planner_step {
    PLANNER_UNCHANGED = 0,
    PLANNER_CHANGED = 1,
    PLANNER_CONTRADICTION = 2 /* no layout agrees with the marks */
};

/* What is in answers[i][0]: the step of a settle, or that of a sift and 4 more. */
enum planner_answer {
    PLANNER_SETTLE_UNCHANGED = 0,
    PLANNER_SETTLE_CHANGED = 1,
    PLANNER_SETTLE_CONTRADICTION = 2,
    PLANNER_SIFT_UNCHANGED = 4,
    PLANNER_SIFT_CHANGED = 5,
    PLANNER_SIFT_CONTRADICTION = 6
};

/* What the call gives back. */
struct planner_given {
    uint8_t refused; /* enum planner_refusal */
    uint8_t last;    /* enum planner_step of the last seal, mark, settle or sift */
    uint8_t sealed;  /* 1 if a seal was taken, else 0 */
    size_t at;       /* the refused record's offset, 0 of PLANNER_TOO_LONG; the input's length if all were taken */
    size_t nodes;    /* the job's nodes, 0 before a header */
    size_t rows;     /* its rows, 0 before the seal */
    size_t answered; /* how many settles and sifts were answered */
};

/* Whether no layout is left: a seal, mark, settle or sift found a contradiction. The nodes are then not to be used. */
static inline int planner_contradicted(struct planner_given given)
{
    return given.last == PLANNER_CONTRADICTION;
}

/* How many marks were taken after the last settle or sift of this input: what they force, and whether they leave a layout, is not worked
   out. It is 0 of a file that ends with a settle or a sift. */
static inline size_t planner_unsettled_marks(struct planner_given given, const uint8_t *input)
{
    static const uint8_t bodies[] = {0, 2, 10, 6, 0, 3, 0, 0, 6}; /* bytes after each byte of kind */
    size_t marks = 0;
    for (size_t at = 0; at < given.at; at += 1u + bodies[input[at]]) {
        if (input[at] == PLANNER_KIND_MARK)
            marks++;
        if (input[at] == PLANNER_KIND_SETTLE || input[at] == PLANNER_KIND_SIFT)
            marks = 0;
    }
    return marks;
}

/* THE CALL. Each buffer is followed by its number of elements; what it holds afterwards is said beside it in struct planner_work. */
struct planner_given planner_run(
    const uint8_t *input, size_t input_length,
    uint16_t *raw_conditions, size_t raw_conditions_length,
    uint64_t *raw_weights, size_t raw_weights_length,
    uint16_t (*thresholds)[2], size_t thresholds_length,
    int64_t *bounds, size_t bounds_length,
    uint16_t *row_conditions, size_t row_conditions_length,
    uint64_t *row_weights, size_t row_weights_length,
    uint16_t (*rows)[3], size_t rows_length,
    int64_t *guard_bounds, size_t guard_bounds_length,
    uint16_t *guard_nodes, size_t guard_nodes_length,
    uint16_t (*nodes)[3], size_t nodes_length,
    uint64_t (*edges)[2], size_t edges_length,
    uint16_t *links, size_t links_length,
    int64_t (*figures)[4], size_t figures_length,
    size_t (*cursors)[5], size_t cursors_length,
    uint64_t *sure, size_t sure_length,
    uint64_t *never, size_t never_length,
    uint64_t *search, size_t search_length,
    uint64_t *gcds, size_t gcds_length,
    uint16_t *node_queue, size_t node_queue_length,
    uint16_t (*row_queues)[4], size_t row_queues_length,
    uint16_t (*answers)[2], size_t answers_length);

/* THE LISTING of a job file, as bytes of text from the start of `out`: how many there are. The bytes after them stay as they were. Nothing is
   written and 0 is given back if `out` has fewer than PLANNER_LISTING bytes. The file is planned for it, over buffers of the call's own:
   PLANNER_LIST_STACK bytes of stack.

   NOT EVERY CONTRADICTION SHOWS IN A LISTING. That of a settle or sift has its line; that of a seal or mark has none, and shows only as
   refusal 9 of a record that comes after it. Where a mark is the last record, a listing of no layout looks like any other: whether one is
   left is what planner_contradicted says of planner_plan. */
size_t planner_list(const uint8_t *input, size_t input_length, uint8_t *out, size_t out_length);

/* All buffers at their listed lengths, and what they hold after the call; unused places are 0. A row is a list of terms that thresholds
   share, numbered by first use, and the terms, guards, edges and links of all rows lie one after the other. */
struct planner_work {
    /* The job that the records gave; areas of one condition in one threshold are one term, where the first was. */
    uint16_t raw_conditions[PLANNER_RAW_CONDITIONS]; /* condition of each term, in the order of the records */
    uint64_t raw_weights[PLANNER_RAW_WEIGHTS];       /* its weight; of areas that of their sum, rounded */
    uint16_t thresholds[PLANNER_THRESHOLDS][2];      /* node of each threshold; where its terms end in the two above */
    int64_t bounds[PLANNER_BOUNDS];                  /* its bound */
    /* What the seal built. */
    uint16_t row_conditions[PLANNER_ROW_CONDITIONS]; /* terms of row 0, of row 1, ..: condition */
    uint64_t row_weights[PLANNER_ROW_WEIGHTS];       /* merged weight, falling in each row */
    uint16_t rows[PLANNER_ROWS][3];                  /* where the row's terms, its guards and its neighbours end */
    int64_t guard_bounds[PLANNER_GUARD_BOUNDS];      /* thresholds of row 0, of row 1, ..: bound, rising in each row */
    uint16_t guard_nodes[PLANNER_GUARD_NODES];       /* their nodes */
    uint16_t nodes[PLANNER_NODES][3];                /* the node's threshold counted from 1 (0: none), that one's row, where the node's edges end */
    uint64_t edges[PLANNER_EDGES][2];                /* rows in which node 0 is a condition, node 1, ..: row and weight */
    uint16_t links[PLANNER_LINKS];                   /* neighbours of row 0, of row 1, .. over prefix links */
    /* What marks, settles and sifts change. */
    int64_t figures[PLANNER_FIGURES][4];             /* of each row: known, possible, lower, upper (0 where there is none) */
    size_t cursors[PLANNER_CURSORS][5];              /* of each row: four places of its scans; 1 if there is an upper */
    uint64_t sure[PLANNER_SURE];                     /* bit n % 64 of word n / 64: node n is sure */
    uint64_t never[PLANNER_NEVER];                   /* the same: it is never */
    uint64_t search[PLANNER_SEARCH];                 /* words of a sum search; zero again after the call */
    uint64_t gcds[PLANNER_GCDS];                     /* suffix gcds of the last residual that made them */
    uint16_t node_queue[PLANNER_NODE_QUEUE];         /* decided nodes that wait or waited */
    uint16_t row_queues[PLANNER_ROW_QUEUES][4];      /* rows that wait to hand on their bounds, 1 if this row does; the same of residuals */
    uint16_t answers[PLANNER_ANSWERS][2];            /* enum planner_answer of each settle and sift; a sift's visits */
};

/* The call over one work area. */
static inline struct planner_given planner_plan(struct planner_work *work, const uint8_t *input, size_t length)
{
    return planner_run(
        input, length,
        work->raw_conditions, PLANNER_RAW_CONDITIONS,
        work->raw_weights, PLANNER_RAW_WEIGHTS,
        work->thresholds, PLANNER_THRESHOLDS,
        work->bounds, PLANNER_BOUNDS,
        work->row_conditions, PLANNER_ROW_CONDITIONS,
        work->row_weights, PLANNER_ROW_WEIGHTS,
        work->rows, PLANNER_ROWS,
        work->guard_bounds, PLANNER_GUARD_BOUNDS,
        work->guard_nodes, PLANNER_GUARD_NODES,
        work->nodes, PLANNER_NODES,
        work->edges, PLANNER_EDGES,
        work->links, PLANNER_LINKS,
        work->figures, PLANNER_FIGURES,
        work->cursors, PLANNER_CURSORS,
        work->sure, PLANNER_SURE,
        work->never, PLANNER_NEVER,
        work->search, PLANNER_SEARCH,
        work->gcds, PLANNER_GCDS,
        work->node_queue, PLANNER_NODE_QUEUE,
        work->row_queues, PLANNER_ROW_QUEUES,
        work->answers, PLANNER_ANSWERS);
}

/* Whether a node below PLANNER_MAX_NODES is sure or never; it is undecided if it is neither. */
static inline int planner_is_sure(const struct planner_work *work, size_t node)
{
    return (int)(work->sure[node / 64] >> node % 64 & 1);
}

static inline int planner_is_never(const struct planner_work *work, size_t node)
{
    return (int)(work->never[node / 64] >> node % 64 & 1);
}

#ifdef __cplusplus
}
#endif

#endif

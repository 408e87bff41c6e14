/* jambtulip.h: the calls of libhost.a for a C host on x86-64 Linux, the structs that cross the border, and how to read the words of tables and record lists. */
#ifndef JAMBTULIP_H
#define JAMBTULIP_H

#include <stddef.h>
#include <stdint.h>

#ifdef __cplusplus
extern "C" {
#define JAMBTULIP_ASSERT static_assert
#else
#define JAMBTULIP_ASSERT _Static_assert
#endif

/* ---- What crosses the border

   Every struct is plain numbers and bytes, without padding: every content is a value, and two that hold the same are equal byte for byte.
   A size_t has 8 bytes. docs/GUIDE.md says what each field means. */

JAMBTULIP_ASSERT(sizeof(size_t) == 8, "a size_t has 8 bytes");

/* A record: its path is the first `depth` of the bytes, a decision each, 2 * item + 1 for take and 2 * item for skip. 96 bytes. */
struct jambtulip_record {
    uint64_t capacity; /*  0 */
    int64_t value;     /*  8 */
    int64_t bound;     /* 16 */
    uint64_t depth;    /* 24 */
    uint8_t path[64];  /* 32 */
};
JAMBTULIP_ASSERT(sizeof(struct jambtulip_record) == 96, "a record has 96 bytes");
JAMBTULIP_ASSERT(offsetof(struct jambtulip_record, value) == 8, "value is at 8");
JAMBTULIP_ASSERT(offsetof(struct jambtulip_record, bound) == 16, "bound is at 16");
JAMBTULIP_ASSERT(offsetof(struct jambtulip_record, depth) == 24, "depth is at 24");
JAMBTULIP_ASSERT(offsetof(struct jambtulip_record, path) == 32, "path is at 32");

/* The cutset's number: any number but 0 is the frontier. */
enum { JAMBTULIP_LAST_EXACT_LAYER = 0, JAMBTULIP_FRONTIER = 1 };

/* The mode's number: any number but 0 and 1 is relaxed. */
enum { JAMBTULIP_EXACT = 0, JAMBTULIP_RESTRICTED = 1, JAMBTULIP_RELAXED = 2 };

/* How a search is asked. 24 bytes, passed by value. */
struct jambtulip_terms {
    uint64_t page;  /*  0 */
    uint64_t width; /*  8 */
    uint64_t cut;   /* 16 */
};
JAMBTULIP_ASSERT(sizeof(struct jambtulip_terms) == 24, "terms have 24 bytes");
JAMBTULIP_ASSERT(offsetof(struct jambtulip_terms, width) == 8, "width is at 8");
JAMBTULIP_ASSERT(offsetof(struct jambtulip_terms, cut) == 16, "cut is at 16");

/* What a compile is asked. 136 bytes, passed by value. */
struct jambtulip_question {
    uint64_t page;                /*  0 */
    uint64_t width;               /*  8 */
    uint64_t mode;                /* 16 */
    uint64_t cut;                 /* 24 */
    int64_t lower;                /* 32 */
    struct jambtulip_record root; /* 40 */
};
JAMBTULIP_ASSERT(sizeof(struct jambtulip_question) == 136, "a question has 136 bytes");
JAMBTULIP_ASSERT(offsetof(struct jambtulip_question, mode) == 16, "mode is at 16");
JAMBTULIP_ASSERT(offsetof(struct jambtulip_question, cut) == 24, "cut is at 24");
JAMBTULIP_ASSERT(offsetof(struct jambtulip_question, lower) == 32, "lower is at 32");
JAMBTULIP_ASSERT(offsetof(struct jambtulip_question, root) == 40, "root is at 40");

/* What a compile found. A flag is 1 or 0; a value whose flag is 0 is 0, and so is its path. Refused, all is 0. 1,240 bytes. */
struct jambtulip_found {
    uint64_t exact;          /*   0: flag */
    uint64_t has_best;       /*   8: flag */
    int64_t best;            /*  16 */
    uint8_t path[64];        /*  24 */
    uint64_t has_best_exact; /*  88: flag */
    int64_t best_exact;      /*  96 */
    uint8_t exact_path[64];  /* 104 */
    size_t nodes;            /* 168: node rows written */
    size_t edges;            /* 176: edge rows written */
    size_t drained;          /* 184: records written */
    size_t layers;           /* 192: layers stored; layer i has the rows from[i] to to[i] - 1 */
    size_t from[65];         /* 200 */
    size_t to[65];           /* 720 */
};
JAMBTULIP_ASSERT(sizeof(struct jambtulip_found) == 1240, "what was found has 1,240 bytes");
JAMBTULIP_ASSERT(offsetof(struct jambtulip_found, has_best) == 8, "has_best is at 8");
JAMBTULIP_ASSERT(offsetof(struct jambtulip_found, best) == 16, "best is at 16");
JAMBTULIP_ASSERT(offsetof(struct jambtulip_found, path) == 24, "path is at 24");
JAMBTULIP_ASSERT(offsetof(struct jambtulip_found, has_best_exact) == 88, "has_best_exact is at 88");
JAMBTULIP_ASSERT(offsetof(struct jambtulip_found, best_exact) == 96, "best_exact is at 96");
JAMBTULIP_ASSERT(offsetof(struct jambtulip_found, exact_path) == 104, "exact_path is at 104");
JAMBTULIP_ASSERT(offsetof(struct jambtulip_found, nodes) == 168, "nodes is at 168");
JAMBTULIP_ASSERT(offsetof(struct jambtulip_found, edges) == 176, "edges is at 176");
JAMBTULIP_ASSERT(offsetof(struct jambtulip_found, drained) == 184, "drained is at 184");
JAMBTULIP_ASSERT(offsetof(struct jambtulip_found, layers) == 192, "layers is at 192");
JAMBTULIP_ASSERT(offsetof(struct jambtulip_found, from) == 200, "from is at 200");
JAMBTULIP_ASSERT(offsetof(struct jambtulip_found, to) == 720, "to is at 720");

/* A search: a path is held unless `held` is 0; a call writes 1 or 0. The records open are the first `opened` of the list. 96 bytes. */
struct jambtulip_search {
    int64_t best;     /*  0 */
    uint64_t held;    /*  8 */
    uint8_t path[64]; /* 16 */
    size_t opened;    /* 80 */
    uint64_t picks;   /* 88 */
};
JAMBTULIP_ASSERT(sizeof(struct jambtulip_search) == 96, "a search has 96 bytes");
JAMBTULIP_ASSERT(offsetof(struct jambtulip_search, held) == 8, "held is at 8");
JAMBTULIP_ASSERT(offsetof(struct jambtulip_search, path) == 16, "path is at 16");
JAMBTULIP_ASSERT(offsetof(struct jambtulip_search, opened) == 80, "opened is at 80");
JAMBTULIP_ASSERT(offsetof(struct jambtulip_search, picks) == 88, "picks is at 88");

/* A job's answer: its first `count` bytes. The bytes behind them are 0, and so is `end`: the text is a C string too. 680 bytes. */
struct jambtulip_page {
    size_t count;       /*   0 */
    uint8_t bytes[671]; /*   8 */
    uint8_t end;        /* 679 */
};
JAMBTULIP_ASSERT(sizeof(struct jambtulip_page) == 680, "a page has 680 bytes");
JAMBTULIP_ASSERT(offsetof(struct jambtulip_page, bytes) == 8, "bytes is at 8");
JAMBTULIP_ASSERT(offsetof(struct jambtulip_page, end) == 679, "end is at 679");

/* ---- The calls

   Each answers every input, and returns 0 for accepted or the number of the first refusal that applies, in the order 15, 1 to 6, 14, 7 to 9, then 10 to 13:

    1  weights and profits differ in number          8  the path doesn't name each item below depth exactly once
    2  more than 64 items                            9  taken weights plus capacity aren't the page, or taken profits aren't the value
    3  page above 65,535                            10  the run makes a 1,025th node in one layer
    4  a weight above 65,535                        11  the run needs a node row more than lent
    5  a profit above 1,000,000                     12  the run needs an edge row more than lent
    6  width 0 or above 256                         13  more records than the list has places for
    7  depth above the item count                   14  place not below opened, opened above the list's length, or picks at UINT64_MAX
   15  job text outside the grammar

   Of 10 to 12 the run's first need that isn't met decides.

   A slice is a pointer and a length in elements. The pointer is aligned, good for that many elements, and not null, even where the length is 0.
   What is lent to one call doesn't overlap, and nothing else touches it during the call. A call keeps nothing and allocates nothing.

   Tables and lists of drained records are lent as words, their lengths in words: JAMBTULIP_NODE_WORDS to a row of `nodes`, JAMBTULIP_EDGE_WORDS to a
   row of `edges`, JAMBTULIP_RECORD_WORDS to a place of `records` and `scratch`. Words behind the last whole row or place are none, and stay as they are.
   What the words hold before a call never matters. Open records are structs: the length of `list` is in records.

   Link with libhost.a, which tools/hosts/archive.sh leaves in target/staticlib; it needs memcpy and memset of the C library alone. */

/* Compiles question.root. The drained records stand in the first found->drained places of `records`; refused, `records` stays as it is. `found` is
   written, accepted or refused. Gives 1 to 13. */
uint64_t jambtulip_compile(const uint64_t *weights, size_t weights_len, const uint64_t *profits, size_t profits_len,
                           uint64_t *nodes, size_t nodes_len, uint64_t *edges, size_t edges_len,
                           uint64_t *records, size_t records_len,
                           struct jambtulip_question question, struct jambtulip_found *found);

/* Starts a search at that bound: the root record stands in the list's first place. Refused, search and list stay as they are. Gives 1 to 6 and 13. */
uint64_t jambtulip_start(const uint64_t *weights, size_t weights_len, const uint64_t *profits, size_t profits_len,
                         struct jambtulip_terms terms, int64_t bound,
                         struct jambtulip_record *list, size_t list_len, struct jambtulip_search *search);

/* Picks the open record in that place. `scratch` is the record list of the pick's compile: the drained records stand in its first places.
   Refused, search and list stay as they are. Gives 1 to 9 and 11 to 14. */
uint64_t jambtulip_pick(const uint64_t *weights, size_t weights_len, const uint64_t *profits, size_t profits_len,
                        uint64_t *nodes, size_t nodes_len, uint64_t *edges, size_t edges_len,
                        struct jambtulip_record *list, size_t list_len, uint64_t *scratch, size_t scratch_len,
                        struct jambtulip_terms terms, size_t place, struct jambtulip_search *search);

/* Answers a job's text. `page` is written, accepted or refused: a refused job's text is the word refused, a tab, the number and a line feed.
   A text outside the grammar leaves lists and tables as they were. Gives 2 to 6, 11 to 13 and 15; 14 only after 2^64 - 1 picks. */
uint64_t jambtulip_run_job(const uint8_t *text, size_t text_len,
                           uint64_t *nodes, size_t nodes_len, uint64_t *edges, size_t edges_len,
                           struct jambtulip_record *list, size_t list_len, uint64_t *scratch, size_t scratch_len,
                           struct jambtulip_page *page);

/* ---- The words of tables and record lists */

/* Words to a row of a table, and to a record. */
enum { JAMBTULIP_NODE_WORDS = 8, JAMBTULIP_EDGE_WORDS = 5, JAMBTULIP_RECORD_WORDS = 68 };

/* A node's flags. */
enum { JAMBTULIP_IS_EXACT = 1, JAMBTULIP_IS_RELAXED = 2, JAMBTULIP_IS_MARKED = 4, JAMBTULIP_IS_CUTSET = 8, JAMBTULIP_IS_DELETED = 16 };

/* No edge. */
#define JAMBTULIP_NO_EDGE UINT64_MAX

struct jambtulip_node {
    uint64_t capacity;
    uint64_t depth;
    int64_t top;          /* value from the top */
    int64_t bottom;       /* value from the bottom */
    uint64_t best_edge;   /* edge row, or JAMBTULIP_NO_EDGE */
    uint64_t newest_edge; /* edge row, or JAMBTULIP_NO_EDGE */
    int64_t fast_bound;
    uint64_t flags;
};

struct jambtulip_edge {
    uint64_t from;       /* node row */
    uint64_t to;         /* node row */
    uint64_t decision;   /* 2 * item + 1 for take, 2 * item for skip */
    uint64_t cost;
    uint64_t next_older; /* edge row, or JAMBTULIP_NO_EDGE */
};

/* An i64 stands in a word as its number + 2^63. */
static inline int64_t jambtulip_i64(uint64_t word) {
    return word >= UINT64_C(1) << 63 ? (int64_t)(word - (UINT64_C(1) << 63)) : (int64_t)word + INT64_MIN;
}

/* An edge stands in a word as its row + 1, and none as 0. */
static inline uint64_t jambtulip_edge_row(uint64_t word) {
    return word == 0 ? JAMBTULIP_NO_EDGE : word - 1;
}

/* Node row number `row` of a node table. */
static inline struct jambtulip_node jambtulip_node_at(const uint64_t *nodes, size_t row) {
    const uint64_t *w = nodes + row * JAMBTULIP_NODE_WORDS;
    struct jambtulip_node n = {w[0], w[1], jambtulip_i64(w[2]), jambtulip_i64(w[3]), jambtulip_edge_row(w[4]), jambtulip_edge_row(w[5]), jambtulip_i64(w[6]), w[7]};
    return n;
}

/* Edge row number `row` of an edge table. */
static inline struct jambtulip_edge jambtulip_edge_at(const uint64_t *edges, size_t row) {
    const uint64_t *w = edges + row * JAMBTULIP_EDGE_WORDS;
    struct jambtulip_edge e = {w[0], w[1], w[2], w[3], jambtulip_edge_row(w[4])};
    return e;
}

/* The record in that place of a record list, which has a word for each byte of its path. The caller sees that the list has the place. */
static inline struct jambtulip_record jambtulip_record_at(const uint64_t *records, size_t place) {
    const uint64_t *w = records + place * JAMBTULIP_RECORD_WORDS;
    struct jambtulip_record r = {w[0], jambtulip_i64(w[1]), jambtulip_i64(w[2]), w[3], {0}};
    for (size_t i = 0; i < sizeof r.path; i++) {
        r.path[i] = (uint8_t)w[4 + i];
    }
    return r;
}

#ifdef __cplusplus
}
#endif

#endif

/* layout.c: tests that this compiler's structs and the header's decode helpers read what the library writes, on case H and case R. */
#include <stdio.h>
#include <string.h>

#include "jambtulip.h"

/* That sizes and offsets are the stated ones is asserted in the header, so that a compiler which lays a struct out otherwise refuses this file. */

enum { ITEMS = 3, NODES = 9, EDGES = 12, RECORDS = 2, SCRATCH_WORDS = RECORDS * JAMBTULIP_RECORD_WORDS };

static const uint64_t weights[ITEMS] = {1, 1, 1};
static const uint64_t profits[ITEMS] = {4, 3, 2};

static uint64_t nodes[NODES * JAMBTULIP_NODE_WORDS];
static uint64_t edges[EDGES * JAMBTULIP_EDGE_WORDS];
static struct jambtulip_record list[RECORDS];
static uint64_t scratch[SCRATCH_WORDS];

static unsigned held;
static unsigned failed;

static void same(const char *what, int64_t is, int64_t due) {
    if (is == due) {
        held++;
    } else {
        failed++;
        printf("%s is %lld, not %lld\n", what, (long long)is, (long long)due);
    }
}

/* The path's bytes are these, and zeros behind them. */
static void same_path(const char *what, const uint8_t *path, const char *due) {
    uint8_t whole[64] = {0};
    memcpy(whole, due, strlen(due));
    same(what, memcmp(path, whole, sizeof whole), 0);
}

/* The figures of case H: T from the root record, relaxed at width 1, last exact layer, no lower bound. */
enum { E = JAMBTULIP_IS_EXACT, R = JAMBTULIP_IS_RELAXED, M = JAMBTULIP_IS_MARKED, C = JAMBTULIP_IS_CUTSET, D = JAMBTULIP_IS_DELETED };

#define NONE JAMBTULIP_NO_EDGE

static const struct jambtulip_node node_rows[NODES] = {
    {2, 0, 0, 9, NONE, NONE, 9, E | M},
    {1, 1, 4, 5, 0, 0, 5, E | M | C},
    {2, 1, 0, 5, 1, 1, 5, E | M | C},
    {1, 2, 4, INT64_MIN, 5, 5, INT64_MAX, E | D},
    {2, 2, 0, INT64_MIN, 3, 3, INT64_MAX, E | D},
    {0, 2, 7, INT64_MIN, 4, 4, INT64_MAX, E | D},
    {2, 2, 7, 2, 6, 9, 2, R | M},
    {1, 3, 9, 0, 10, 10, INT64_MAX, M},
    {2, 3, 7, 0, 11, 11, INT64_MAX, M},
};

static const struct jambtulip_edge edge_rows[EDGES] = {
    {0, 1, 1, 4, NONE}, {0, 2, 0, 0, NONE}, {2, 3, 3, 3, NONE}, {2, 4, 2, 0, NONE}, {1, 5, 3, 3, NONE}, {1, 3, 2, 0, 2},
    {1, 6, 3, 3, NONE}, {1, 6, 2, 0, 6},    {2, 6, 3, 3, 7},    {2, 6, 2, 0, 8},    {6, 7, 5, 2, NONE}, {6, 8, 4, 0, NONE},
};

static void test_nodes(void) {
    for (size_t i = 0; i < NODES; i++) {
        struct jambtulip_node is = jambtulip_node_at(nodes, i), due = node_rows[i];
        same("a node's capacity", (int64_t)is.capacity, (int64_t)due.capacity);
        same("a node's depth", (int64_t)is.depth, (int64_t)due.depth);
        same("a node's value from the top", is.top, due.top);
        same("a node's value from the bottom", is.bottom, due.bottom);
        same("a node's best edge", (int64_t)is.best_edge, (int64_t)due.best_edge);
        same("a node's newest edge", (int64_t)is.newest_edge, (int64_t)due.newest_edge);
        same("a node's fast bound", is.fast_bound, due.fast_bound);
        same("a node's flags", (int64_t)is.flags, (int64_t)due.flags);
    }
}

static void test_edges(void) {
    for (size_t i = 0; i < EDGES; i++) {
        struct jambtulip_edge is = jambtulip_edge_at(edges, i), due = edge_rows[i];
        same("where an edge comes from", (int64_t)is.from, (int64_t)due.from);
        same("where an edge ends", (int64_t)is.to, (int64_t)due.to);
        same("an edge's decision", (int64_t)is.decision, (int64_t)due.decision);
        same("an edge's cost", (int64_t)is.cost, (int64_t)due.cost);
        same("the next older edge", (int64_t)is.next_older, (int64_t)due.next_older);
    }
}

static void test_layers(const struct jambtulip_found *found) {
    static const size_t from[] = {0, 1, 3, 7}, to[] = {1, 3, 7, 9};
    same("layers", (int64_t)found->layers, 4);
    for (size_t i = 0; i < 65; i++) {
        same("a layer's first row", (int64_t)found->from[i], i < 4 ? (int64_t)from[i] : 0);
        same("the row behind a layer", (int64_t)found->to[i], i < 4 ? (int64_t)to[i] : 0);
    }
}

static void test_found(const struct jambtulip_found *found) {
    same("exact", (int64_t)found->exact, 0);
    same("has_best", (int64_t)found->has_best, 1);
    same("best", found->best, 9);
    same_path("path", found->path, "\5\3\1");
    same("has_best_exact", (int64_t)found->has_best_exact, 0);
    same("best_exact", found->best_exact, 0);
    same_path("exact_path", found->exact_path, "");
    same("nodes", (int64_t)found->nodes, NODES);
    same("edges", (int64_t)found->edges, EDGES);
    same("drained", (int64_t)found->drained, RECORDS);
    test_layers(found);
}

static void test_record(struct jambtulip_record is, uint64_t capacity, int64_t value, int64_t bound, const char *path) {
    same("a record's capacity", (int64_t)is.capacity, (int64_t)capacity);
    same("a record's value", is.value, value);
    same("a record's bound", is.bound, bound);
    same("a record's depth", (int64_t)is.depth, 1);
    same_path("a record's path", is.path, path);
}

/* The two records that the root's diagram drains: one takes item 0, the other's path is 0 and skips it. */
static void test_records(struct jambtulip_record first, struct jambtulip_record second) {
    test_record(first, 1, 4, 9, "\1");
    test_record(second, 2, 0, 5, "");
}

/* Case H at that width, with so many words of record list. All that is to be written holds other bytes before. */
static uint64_t compile(uint64_t width, size_t words, struct jambtulip_found *found) {
    struct jambtulip_question question = {2, width, JAMBTULIP_RELAXED, JAMBTULIP_LAST_EXACT_LAYER, INT64_MIN, {2, 0, INT64_MAX, 0, {0}}};
    memset(found, 0xaa, sizeof *found);
    memset(scratch, 0xaa, sizeof scratch);
    return jambtulip_compile(weights, ITEMS, profits, ITEMS, nodes, NODES * JAMBTULIP_NODE_WORDS, edges, EDGES * JAMBTULIP_EDGE_WORDS,
                             scratch, words, question, found);
}

/* A compile, its answer, both tables and the record list. */
static void test_compile(void) {
    struct jambtulip_found found;
    same("compile", (int64_t)compile(1, SCRATCH_WORDS, &found), 0);
    test_found(&found);
    test_nodes();
    test_edges();
    test_records(jambtulip_record_at(scratch, 0), jambtulip_record_at(scratch, 1));
}

/* A refused compile: its number, an answer that is all 0, and a record list that is as before. */
static void test_refusal(uint64_t width, size_t words, uint64_t number) {
    static const struct jambtulip_found nothing;
    uint64_t before[SCRATCH_WORDS];
    struct jambtulip_found found;
    memset(before, 0xaa, sizeof before);
    same("a refused compile", (int64_t)compile(width, words, &found), (int64_t)number);
    same("its answer", memcmp(&found, &nothing, sizeof found), 0);
    same("its record list", memcmp(scratch, before, sizeof before), 0);
}

static void test_search_is(const struct jambtulip_search *is, int64_t best, uint64_t holds, const char *path, size_t opened, uint64_t picks) {
    same("a search's best value", is->best, best);
    same("whether a path is held", (int64_t)is->held, (int64_t)holds);
    same_path("a search's path", is->path, path);
    same("records open", (int64_t)is->opened, (int64_t)opened);
    same("picks", (int64_t)is->picks, (int64_t)picks);
}

static uint64_t pick(size_t place, struct jambtulip_search *search) {
    struct jambtulip_terms terms = {2, 1, JAMBTULIP_LAST_EXACT_LAYER};
    return jambtulip_pick(weights, ITEMS, profits, ITEMS, nodes, NODES * JAMBTULIP_NODE_WORDS, edges, EDGES * JAMBTULIP_EDGE_WORDS,
                          list, RECORDS, scratch, SCRATCH_WORDS, terms, place, search);
}

/* The search of case R: the root opens two records, the first of them holds the optimum, the second can't beat it. */
static void test_search(void) {
    struct jambtulip_terms terms = {2, 1, JAMBTULIP_LAST_EXACT_LAYER};
    struct jambtulip_search search;
    memset(&search, 0xaa, sizeof search);
    same("start", (int64_t)jambtulip_start(weights, ITEMS, profits, ITEMS, terms, INT64_MIN, list, RECORDS, &search), 0);
    test_search_is(&search, INT64_MIN, 0, "", 1, 0);
    same("a pick", (int64_t)pick(0, &search), 0);
    test_search_is(&search, INT64_MIN, 0, "", 2, 1);
    test_records(list[0], list[1]);
    same("a pick of no record", (int64_t)pick(2, &search), 14);
    test_search_is(&search, INT64_MIN, 0, "", 2, 1);
    same("a pick", (int64_t)pick(0, &search), 0);
    test_search_is(&search, 7, 1, "\1\4\3", 1, 2);
    same("a pick", (int64_t)pick(0, &search), 0);
    test_search_is(&search, 7, 1, "\1\4\3", 0, 3);
}

/* A job's text: its number, its answer's bytes, and zeros behind them. */
static void test_job(const char *text, uint64_t number, const char *answer) {
    struct jambtulip_page page, due = {strlen(answer), {0}, 0};
    memcpy(due.bytes, answer, due.count);
    memset(&page, 0xaa, sizeof page);
    same("run_job", (int64_t)jambtulip_run_job((const uint8_t *)text, strlen(text), nodes, NODES * JAMBTULIP_NODE_WORDS,
                                               edges, EDGES * JAMBTULIP_EDGE_WORDS, list, RECORDS, scratch, SCRATCH_WORDS, &page), (int64_t)number);
    same("the page", memcmp(&page, &due, sizeof page), 0);
}

/* The job of case R, and the same without its last line's end. */
static void test_jobs(void) {
    test_job("cap\t2\nwidth\t1\ncut\tlel\nitem\t1\t4\nitem\t1\t3\nitem\t1\t2\n", 0, "best\t7\nitem\t0\t1\nitem\t1\t1\nitem\t2\t0\npicks\t3\n");
    test_job("cap\t2\nwidth\t1\ncut\tlel\nitem\t1\t4\nitem\t1\t3\nitem\t1\t2", 15, "refused\t15\n");
}

int main(void) {
    test_compile();
    test_refusal(257, SCRATCH_WORDS, 6);
    test_refusal(1, SCRATCH_WORDS - 1, 13); /* a word short of two places */
    test_search();
    test_jobs();
    printf("%u figures agree, %u differ\n", held, failed);
    return failed == 0 ? 0 : 1;
}

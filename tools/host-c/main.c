/* main.c: a C host: answers a job by picks of its own, or hands the whole text to the library with --run-job. */
#include <stdio.h>
#include <string.h>

#include "job.h"

/* What the program `page` lends, document 01's sizes, in rows and places. */
enum { NODE_ROWS = 1024, EDGE_ROWS = 1792, OPEN_PLACES = 384, SCRATCH_PLACES = 128 };
enum { NODE_WORDS = NODE_ROWS * JAMBTULIP_NODE_WORDS, EDGE_WORDS = EDGE_ROWS * JAMBTULIP_EDGE_WORDS, SCRATCH_WORDS = SCRATCH_PLACES * JAMBTULIP_RECORD_WORDS };

/* The refusal of a text outside the grammar. */
enum { NO_JOB = 15 };

static uint64_t nodes[NODE_WORDS];
static uint64_t edges[EDGE_WORDS];
static struct jambtulip_record list[OPEN_PLACES];
static uint64_t scratch[SCRATCH_WORDS];

/* The place to pick: the largest bound, the lowest place on a tie. */
static size_t largest_bound(size_t opened) {
    size_t best = 0;
    for (size_t i = 1; i < opened; i++) {
        if (list[i].bound > list[best].bound) {
            best = i;
        }
    }
    return best;
}

/* Picks until no record is open. Gives the number of the first refusal, or 0. */
static uint64_t pick_all(const struct job *job, struct jambtulip_search *search) {
    uint64_t refused = 0;
    while (refused == 0 && search->opened > 0) {
        refused = jambtulip_pick(job->weights, job->items, job->profits, job->items, nodes, NODE_WORDS, edges, EDGE_WORDS,
                                 list, OPEN_PLACES, scratch, SCRATCH_WORDS, job->terms, largest_bound(search->opened), search);
    }
    return refused;
}

/* A search from start to end, with no bound to beat. */
static uint64_t run_search(const struct job *job, struct jambtulip_search *search) {
    uint64_t refused = jambtulip_start(job->weights, job->items, job->profits, job->items, job->terms, INT64_MIN, list, OPEN_PLACES, search);
    return refused != 0 ? refused : pick_all(job, search);
}

/* Whether the path, which names each item once, takes this one. */
static bool takes(const struct jambtulip_search *search, size_t items, size_t item) {
    return memchr(search->path, (int)(2 * item + 1), items) != NULL;
}

static void print_page(const struct jambtulip_search *search, size_t items) {
    printf("best\t%lld\n", (long long)search->best);
    for (size_t i = 0; i < items; i++) {
        printf("item\t%zu\t%d\n", i, takes(search, items, i));
    }
    printf("picks\t%llu\n", (unsigned long long)search->picks);
}

/* Answers by picks of its own. */
static void answer(const uint8_t *text, size_t length) {
    static struct job job;
    struct jambtulip_search search;
    uint64_t refused = read_job(text, length, &job) ? run_search(&job, &search) : NO_JOB;
    if (refused != 0) {
        printf("refused\t%llu\n", (unsigned long long)refused);
    } else {
        print_page(&search, job.items);
    }
}

/* Answers by the library alone. */
static void answer_whole(const uint8_t *text, size_t length) {
    struct jambtulip_page page;
    jambtulip_run_job(text, length, nodes, NODE_WORDS, edges, EDGE_WORDS, list, OPEN_PLACES, scratch, SCRATCH_WORDS, &page);
    fwrite(page.bytes, 1, page.count, stdout);
}

/* Reads the file, or standard input for NULL, up to one byte more than a job's text may have. Says whether it could. */
static bool read_text(const char *name, uint8_t *text, size_t *length) {
    FILE *in = name == NULL ? stdin : fopen(name, "rb");
    bool ok = in != NULL;
    if (ok) {
        *length = fread(text, 1, MOST_BYTES + 1, in);
        ok = !ferror(in);
    }
    if (!ok) {
        perror(name == NULL ? "standard input" : name);
    }
    if (in != NULL && in != stdin) {
        fclose(in);
    }
    return ok;
}

int main(int count, char **words) {
    static uint8_t text[MOST_BYTES + 1];
    size_t length;
    bool whole = count > 1 && strcmp(words[1], "--run-job") == 0;
    int names = count - 1 - whole;
    if (names > 1) {
        fputs("usage: host-c [--run-job] [JOB FILE]\n", stderr);
        return 2;
    }
    if (!read_text(names == 1 ? words[count - 1] : NULL, text, &length)) {
        return 1;
    }
    (whole ? answer_whole : answer)(text, length);
    return fflush(stdout) == 0 ? 0 : 1;
}

/* job.c: reads a job's text from its first byte to its last. */
#include "job.h"

/* The bytes that are still to be read. */
struct rest {
    const uint8_t *at;
    const uint8_t *end;
};

/* Goes past the word if it comes next, and says whether it did. */
static bool skip(struct rest *r, const char *word) {
    const uint8_t *at = r->at;
    for (; *word != 0; word++, at++) {
        if (at == r->end || *at != (uint8_t)*word) {
            return false;
        }
    }
    r->at = at;
    return true;
}

static bool is_digit(const struct rest *r) {
    return r->at < r->end && '0' <= *r->at && *r->at <= '9';
}

/* Reads a number of one to nine digits without a leading zero. */
static bool number(struct rest *r, uint64_t *n) {
    const uint8_t *first = r->at;
    *n = 0;
    while (is_digit(r) && r->at - first < 9) {
        *n = *n * 10 + (uint64_t)(*r->at++ - '0');
    }
    return r->at > first && (*first != '0' || r->at == first + 1);
}

static bool number_after(struct rest *r, const char *word, uint64_t *n) {
    return skip(r, word) && number(r, n);
}

static bool cut(struct rest *r, uint64_t *kind) {
    *kind = JAMBTULIP_LAST_EXACT_LAYER;
    if (skip(r, "cut\tlel\n")) {
        return true;
    }
    *kind = JAMBTULIP_FRONTIER;
    return skip(r, "cut\tfrontier\n");
}

static bool head(struct rest *r, struct jambtulip_terms *terms) {
    return number_after(r, "cap\t", &terms->page) && number_after(r, "\nwidth\t", &terms->width) && skip(r, "\n") && cut(r, &terms->cut);
}

/* A text of at most MOST_BYTES has no line for an item that has no place. */
static bool item(struct rest *r, struct job *job) {
    size_t i = job->items++;
    return number_after(r, "item\t", &job->weights[i]) && number_after(r, "\t", &job->profits[i]) && skip(r, "\n");
}

bool read_job(const uint8_t *text, size_t length, struct job *job) {
    struct rest r = {text, text + length};
    job->items = 0;
    if (length > MOST_BYTES || !head(&r, &job->terms)) {
        return false;
    }
    while (r.at < r.end) {
        if (!item(&r, job)) {
            return false;
        }
    }
    return true;
}

/* job.h: a job as a C host holds it, and the reading of its text. */
#ifndef JOB_H
#define JOB_H

#include <stdbool.h>
#include <stddef.h>
#include <stdint.h>

#include "jambtulip.h"

/* The longest text of a job, and the most items that fit in it: an item's line has 9 bytes at least. */
enum { MOST_BYTES = 65535, MOST_ITEMS = MOST_BYTES / 9 };

struct job {
    struct jambtulip_terms terms;
    size_t items;
    uint64_t weights[MOST_ITEMS];
    uint64_t profits[MOST_ITEMS];
};

/* Reads a job's text, and says whether it is within the grammar (docs/GUIDE.md, 'Running a job'). What else is refused, the calls say. */
bool read_job(const uint8_t *text, size_t length, struct job *job);

#endif

/* What tests of the ring have in common: calls that are numbered, and a sink that follows whether each of them has its row. */
#ifndef FOLLOWED_H
#define FOLLOWED_H

#include <stdio.h>
#include <string.h>

#include "recorder.h"

/* Records a call that has its number as n1, so that it shows if it is missing. */
static void record_numbered(struct recorder *recorder, int64_t number)
{
    rec_call(recorder, &(struct rec_call){.service = REC_START, .n1 = number, .outcome = REC_NO_ERROR});
}

struct followed {
    char row[256];
    size_t length;
    long rows, lost, next;
    bool is_right; /* so far */
};

/* A row is the next call, or says how many are missing before it. */
static void follow_row(struct followed *followed)
{
    long seq, number;

    if (sscanf(followed->row, "%ld,call,0,0,START,%ld,,,,,0,NO_ERROR,,,,\n", &seq, &number) == 2) {
        followed->is_right = followed->is_right && number == followed->next;
        followed->next = number + 1;
    } else if (sscanf(followed->row, "%ld,lost,,,,%ld,", &seq, &number) == 2) {
        followed->is_right = followed->is_right && number > 0;
        followed->lost += number;
        followed->next += number;
    } else {
        seq = -1;
    }
    followed->is_right = followed->is_right && seq == followed->rows;
    followed->rows++;
}

static bool follow(void *to, const char *text, size_t length)
{
    struct followed *followed = to;

    if (length >= sizeof followed->row - followed->length)
        return false;
    memcpy(followed->row + followed->length, text, length);
    followed->length += length;
    followed->row[followed->length] = '\0';
    if (followed->row[followed->length - 1] == '\n') {
        follow_row(followed);
        followed->length = 0;
    }
    return true;
}

#endif

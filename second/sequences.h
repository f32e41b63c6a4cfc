/* A sequence of the papers: what it is built of, and what is stated of it. */
#ifndef SEQUENCES_H
#define SEQUENCES_H

#include "second.h"

typedef struct Sequence {
    const char *name;
    u32 builder;
    u32 a, b, c;
    const char *page; /* the whole page, or its beginning */
    u32 event;        /* this event's answer is stated, unless 0 */
    u32 reply;
    u32 wide; /* 1: with an image of version 2; 2: with a "UQP" one */
    u32 on, off; /* bits of the requests that must be on, or off, for what is stated */
} Sequence;

/* How a sequence is built; a, b and c are the builder's own. */
enum {
    ONE_THREAD, TWO_THREADS, WORN, WORN_WRITTEN, OVERTAKEN, WRITE_BACKS, HEAD_ONLY, ONE_EVENT, NO_BYTES, PAST_32, CUT_IMAGE, WORN_ON, WORN_SAME, QUEUE_AT, TWO_T,
    CAME_BACK, AT_FLUSH, EMPTY_ANSWER, ON_QUEUE, QUEUE_BYTE, ONE_EVENT_OF_3, COMES_BACK
};

/* building.c: the bytes of the sequence built last, their number, and the steps it gained because persists are two steps (request 104) */
extern u8 built[];
extern u64 built_length;
extern u32 added;
void build(const Sequence *s);

#endif

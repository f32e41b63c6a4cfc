/* The papers' sequences as bytes. */
#include "sequences.h"

u8 built[2 * MAX_SCHEDULE];
u64 built_length;
static u32 form; /* of the sequence at hand */
u32 added;

/* An image of zero nodes with a head index. */
static void open_schedule(u32 n, u32 t, u64 head_index)
{
    Schedule s;
    Content blank = {0, 0, 0, 0};
    s.t = t;
    s.event_count = 0;
    s.image.form = form;
    s.image.n = n;
    s.image.t = t;
    s.image.head_index = head_index;
    s.image.head_index_1 = head_index;
    for (u32 k = 0; k < MAX_THREADS; k++)
        s.image.desks[k] = head_index;
    for (u32 i = 0; i < n && i < MAX_NODES; i++)
        s.image.nodes[i] = blank;
    s.image.n = n > MAX_NODES ? MAX_NODES : n;
    built_length = schedule_to_bytes(&s, built);
    for (u32 i = MAX_NODES; i < n; i++)
        for (u32 j = 0; j < image_node(form); j++)
            built[built_length++] = 0;
    built[SCHEDULE_HEAD + 5] = (u8)n;
}

static void add(u32 kind, u32 number, u32 item)
{
    Event e = {kind, number, item};
    event_to_bytes(&e, built + built_length);
    built_length += EVENT_BYTES;
    put2(built + 6, get2(built + 6) + 1);
}

/* So many steps, with a persist passed among them so many times. */
static void steps(u32 thread, u32 count);
static void steps_persisting(u32 thread, u32 count, u32 persists)
{
    if (!on(FENCES))
        persists = 0;
    added += persists;
    steps(thread, count + persists);
}

static void steps(u32 thread, u32 count)
{
    while (count-- > 0)
        add(STEP, thread, 0);
}

/* P1 to P5 are one run, cut off ever later. */
static void build_p1_to_p5(u32 which)
{
    open_schedule(2, 1, 0);
    add(BEGIN_ENQUEUE, 0, 7);
    if (which == 7) {
        steps(0, 10); /* the flush, without its fence */
        return;
    }
    steps_persisting(0, which == 1 ? 9 : which == 2 ? 10 : 11, which > 1);
    if (which < 3)
        return;
    add(BEGIN_DEQUEUE, 0, 0);
    if (which == 8) {
        steps(0, form == DESKS ? 6 : 5); /* the same of D6 */
        return;
    }
    steps_persisting(0, which == 3 ? 3 : which == 4 ? 5 : form == DESKS ? 7 : 6, which > 3 && !(which == 4 && form == DESKS));
    if (which == 6)
        built_length -= EVENT_BYTES, put2(built + 6, get2(built + 6) - 1); /* all but the last step of the dequeue */
    if (which != 5)
        return;
    add(BEGIN_ENQUEUE, 0, 8);
    steps(0, 1);
}

static void build_p6_p7(u32 which)
{
    open_schedule(3, 2, 0);
    add(BEGIN_ENQUEUE, 0, 5);
    steps(0, 8);
    add(BEGIN_ENQUEUE, 1, 6);
    steps_persisting(1, 14, 1);
    if (which == 7)
        steps(0, 1);
}

/* Every enqueue wears out at its seventh step and leaves its item in node 1. */
static void build_worn(u32 enqueues)
{
    open_schedule(2, 1, largest_index(form));
    for (u32 i = 1; i <= enqueues; i++) {
        add(BEGIN_ENQUEUE, 0, i);
        steps(0, 7);
    }
}

/* Thread 0 stores ever higher indices, because thread 1 enqueues before each of its A8; then so many steps of thread 0, the third a flush. */
static void build_overtaken(u32 times, u32 more)
{
    open_schedule(64, 2, 0);
    add(BEGIN_ENQUEUE, 0, 9);
    steps(0, 7);
    for (u32 i = 0; i < times; i++) {
        add(BEGIN_ENQUEUE, 1, 1);
        steps_persisting(1, 11, 1);
        steps(0, 5);
    }
    steps(0, more);
}

/* A dequeue of an empty queue, whose head line is clean. */
static void build_empty_answer(void)
{
    open_schedule(2, 1, 0);
    add(BEGIN_DEQUEUE, 0, 0);
    steps_persisting(0, form == DESKS ? 4 : 3, 1);
}

/* The last index of 32 bits as the head index: in version 2 the enqueue goes on beyond it. */
static void build_past_32(void)
{
    open_schedule(2, 1, LARGEST);
    add(BEGIN_ENQUEUE, 0, 7);
    steps_persisting(0, 11, 1);
}

/* Queue 8 9 on nodes 1 and 2. Thread 0 has flushed its dequeue's head, thread 1 moves it on; then thread 0's fence, maybe behind a write-back of line 0 (1) or
   behind thread 1's own flush and fence (2), or not at all (3). */
static void build_at_flush(u32 behind)
{
    open_schedule(3, 2, 0);
    for (u32 i = 1; i <= 2; i++) {
        u8 *at = built + SCHEDULE_HEAD + image_head(form) + image_node(form) * i;
        at[0] = 1;
        put_index(form, at + 1, i);
        put4(at + 1 + index_bytes(form), 7 + i);
    }
    add(BEGIN_DEQUEUE, 0, 0);
    steps(0, 5);
    add(BEGIN_DEQUEUE, 1, 0);
    steps(1, 3);
    if (behind == 1)
        add(WRITE_BACK, 0, 0);
    if (behind == 2)
        steps(1, 3);
    steps(0, behind != 3);
}

/* Version 3, three nodes, node 1's queue byte 1 beforehand: an enqueue of 7 on one of the queues. */
static void build_on_queue(u32 queue, u32 count, u32 persists)
{
    open_schedule(3, 1, 0);
    built[SCHEDULE_HEAD + 22 + 14 + 1] = 1;
    add(queue == 1 ? BEGIN_ENQUEUE_1 : BEGIN_ENQUEUE, 0, 7);
    steps_persisting(0, count, persists);
}

/* Version 3, four nodes, node 1's queue byte 1 beforehand: 5, 6, 7 through queue 0, then 8 into queue 1 up to its A9. */
static void build_comes_back(void)
{
    open_schedule(4, 1, 0);
    built[SCHEDULE_HEAD + 22 + 14 + 1] = 1;
    for (u32 item = 5; item <= 7; item++) {
        add(BEGIN_ENQUEUE, 0, item);
        steps_persisting(0, 12, 1);
        add(BEGIN_DEQUEUE, 0, 0);
        steps_persisting(0, 6, 1);
    }
    add(BEGIN_ENQUEUE_1, 0, 8);
    steps(0, 10);
}

/* Node 1's item goes from 0 to 1 and back, so its line is clean when it is written back. */
static void build_came_back(void)
{
    open_schedule(2, 1, largest_index(form));
    add(BEGIN_ENQUEUE, 0, 1);
    steps(0, 7);
    add(BEGIN_ENQUEUE, 0, 0);
    steps(0, 7);
    add(WRITE_BACK, 2, 0);
}

/* Enqueues that wear out at their seventh step, on more than two nodes. */
static void build_worn_on(u32 n, u32 enqueues)
{
    open_schedule(n, 1, largest_index(form));
    for (u32 i = 1; i <= enqueues; i++) {
        add(BEGIN_ENQUEUE, 0, i);
        steps(0, 7);
    }
}

/* The same enqueue of 1 over and over on two nodes: it wears out, and stores what is there already. */
static void build_worn_same(u32 enqueues)
{
    open_schedule(2, 1, largest_index(form));
    for (u32 i = 0; i < enqueues; i++) {
        add(BEGIN_ENQUEUE, 0, 1);
        steps(0, 7);
    }
}

/* Four nodes; the one at `node` is queued with index 1 and item 4. An enqueue of 9 takes a node and stores its item. */
static void build_queue_at(u32 node)
{
    open_schedule(4, 1, 0);
    u8 *at = built + SCHEDULE_HEAD + image_head(form) + image_node(form) * node;
    at[0] = 1;
    put_index(form, at + 1, 1);
    put4(at + 1 + index_bytes(form), 4);
    add(BEGIN_ENQUEUE, 0, 9);
    steps(0, 2);
}

/* Only `left` bytes of an all-zero image. */
static void build_cut_image(u32 n, u32 left)
{
    open_schedule(n, 1, 0);
    built_length = SCHEDULE_HEAD + left;
}

static void build_write_backs(u32 n, u32 t, u32 events)
{
    open_schedule(n, t, 0);
    for (u32 i = 0; i < events; i++) {
        if (!on(CLEAN))
            add(WRITE_BACK, 0, 0);
        else if (i % 2 == 0) /* a write-back of a clean line is refused: dequeues begun, each cut off by a crash */
            add(BEGIN_DEQUEUE, 0, 0);
        else
            add(CRASH, 0, 0);
    }
}

void build(const Sequence *s)
{
    built_length = 0;
    added = 0;
    form = s->wide == 3 ? TWO : s->wide == 2 ? DESKS : s->wide == 1 ? WIDE : NARROW;
    switch (s->builder) {
    case ONE_THREAD: build_p1_to_p5(s->a); break;
    case TWO_THREADS: build_p6_p7(s->a); break;
    case WORN: build_worn(s->a); break;
    case WORN_WRITTEN: build_worn(s->a); add(WRITE_BACK, 2, 0); break;
    case ONE_EVENT: open_schedule(2, 1, 0); add(s->a, s->b, s->c); break;
    case OVERTAKEN: build_overtaken(s->a, s->b); break;
    case EMPTY_ANSWER: build_empty_answer(); break;
    case WRITE_BACKS: build_write_backs(s->a, s->b, s->c); break;
    case HEAD_ONLY: open_schedule(s->a, s->b, s->c); break;
    case PAST_32: build_past_32(); break;
    case CUT_IMAGE: build_cut_image(s->a, s->b); break;
    case WORN_ON: build_worn_on(s->a, s->b); break;
    case WORN_SAME: build_worn_same(s->a); break;
    case QUEUE_AT: build_queue_at(s->a); break;
    case CAME_BACK: build_came_back(); break;
    case AT_FLUSH: build_at_flush(s->a); break;
    case ON_QUEUE: build_on_queue(s->a, s->b, s->c); break;
    case QUEUE_BYTE: open_schedule(3, 1, 0); built[SCHEDULE_HEAD + 22 + 14 + 1] = (u8)s->a; break;
    case ONE_EVENT_OF_3: open_schedule(3, 1, 0); add(s->a, s->b, s->c); break;
    case COMES_BACK: build_comes_back(); break;
    case TWO_T: open_schedule(s->a, s->b, 0); built[5] = 1; break;
    default: break;
    }
}

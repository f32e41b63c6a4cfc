/* The machine record: its byte form and its ranges. */
#include "second.h"

static u64 low_bits(u32 count)
{
    return count >= 64 ? ~(u64)0 : bit(count) - 1;
}

static int is_node_or_none(const Machine *m, u32 node)
{
    return node < m->n || node == NONE;
}

/* "A record's index above its width is 18." */
static int index_in_range(const Machine *m, u64 index)
{
    return index <= largest_index(m->form);
}

static int node_in_range(const Machine *m, const Node *node)
{
    return index_in_range(m, node->cached.index) && index_in_range(m, node->persisted.index) && is_node_or_none(m, node->next) &&
           node->cached.linked <= 1 && node->persisted.linked <= 1 && (node->waits & ~low_bits(m->t)) == 0;
}

static int uses_own(u32 step)
{
    return step == A2 || step == A3 || step == A4 || (step >= A7 && step <= A11) || step == A10_FENCE || step == AQ;
}

static int uses_t(u32 step)
{
    return step == A6 || step == A7 || step == A8 || step == A11 || step == A12;
}

static int uses_head_read(u32 step)
{
    return step == D2 || step == D4 || step == D7 || step == S3;
}

static int uses_next_read(u32 step)
{
    return step == D4 || step == D5 || step == S6;
}

/* Steps 20 and 21 are of "UQP", 22 to 24 of request 104. */
int is_step_of(const Machine *m, u32 step)
{
    return step < STEPS || (m->form == DESKS && (step == S3 || step == S6)) || (on(FENCES) && step >= A10_FENCE && step <= D6_FENCE) ||
           (m->form == TWO && step == AQ);
}

static int thread_in_range(const Machine *m, const Thread *thread)
{
    if (!is_step_of(m, thread->step) || !index_in_range(m, thread->head_read_index))
        return 0;
    if (!is_node_or_none(m, thread->own) || !is_node_or_none(m, thread->t) || !is_node_or_none(m, thread->head_read) ||
        !is_node_or_none(m, thread->next_read) || !is_node_or_none(m, thread->held[0]))
        return 0;
    if (uses_own(thread->step) && thread->own == NONE)
        return 0;
    if (uses_t(thread->step) && thread->t == NONE)
        return 0;
    if (uses_head_read(thread->step) && thread->head_read == NONE)
        return 0;
    if (uses_next_read(thread->step) && thread->next_read == NONE)
        return 0;
    return thread->step != A12 || m->nodes[thread->t].next != NONE;
}

static int head_lines_in_range(const Machine *m)
{
    for (u32 line = 0; line < head_lines(m->form, m->t); line++)
        if (!index_in_range(m, m->lines[line]) || !index_in_range(m, m->persisted_lines[line]))
            return 0;
    return 1;
}

static int is_set(const Machine *m, u32 set)
{
    return (set & ~all_threads(m)) == 0;
}

/* Request 104: what each thread has flushed is a content, and each set is one of threads. That a thread at its fence has flushed its step says. */
static int flushes_in_range(const Machine *m)
{
    for (u32 k = 0; k < m->t; k++) {
        Content flushed = m->threads[k].flushed;
        if (flushed.linked > 1 || !index_in_range(m, flushed.index) || (m->form == TWO && flushed.queue > 1) || !is_set(m, m->late[k]))
            return 0;
    }
    for (u32 line = 0; line < head_lines(m->form, m->t); line++)
        if (!is_set(m, m->over_heads[line]))
            return 0;
    for (u32 i = 0; i < m->n; i++)
        if (!is_set(m, m->over_nodes[i]))
            return 0;
    return 1;
}

/* What version 3 alone has. */
static int queues_in_range(const Machine *m)
{
    if (m->head[1] >= m->n || m->tail[1] >= m->n)
        return 0;
    for (u32 i = 0; i < m->n; i++)
        if (m->nodes[i].cached.queue > 1 || m->nodes[i].persisted.queue > 1)
            return 0;
    for (u32 k = 0; k < m->t; k++)
        if (m->threads[k].queue > 1 || !is_node_or_none(m, m->threads[k].held[1]))
            return 0;
    return 1;
}

static int is_form(u32 form)
{
    return form == NARROW || form == WIDE || (form == DESKS && on(DESKS_TOO)) || (form == TWO && on(QUEUES_TOO));
}

int in_range(const Machine *m)
{
    if (!is_form(m->form))
        return 0;
    if (m->n < (m->form == TWO ? 3 : MIN_NODES) || m->n > MAX_NODES || m->t < 1 || m->t > MAX_THREADS)
        return 0;
    if (!head_lines_in_range(m))
        return 0;
    if (on(ROTATION) && m->last >= m->n)
        return 0;
    if (m->form == TWO && !queues_in_range(m))
        return 0;
    if (on(FENCES) && !flushes_in_range(m))
        return 0;
    if (m->head[0] >= m->n || m->tail[0] >= m->n || (m->free & ~low_bits(m->n)) != 0)
        return 0;
    for (u32 i = 0; i < m->n; i++)
        if (!node_in_range(m, &m->nodes[i]))
            return 0;
    for (u32 k = 0; k < m->t; k++)
        if (!thread_in_range(m, &m->threads[k]))
            return 0;
    return 1;
}

/* ---- the bytes: a mark, the version, the form, then every field in one order. The same walk writes and reads. */

typedef struct Walk {
    u8 *to;         /* where a field is written, or 0 when fields are read */
    const u8 *from; /* where a field is read */
    u64 at;
} Walk;

static void field(Walk *walk, u32 bytes, u64 *value)
{
    u64 read = 0;
    for (u32 i = 0; i < bytes; i++, walk->at++) {
        if (walk->to)
            walk->to[walk->at] = (u8)(*value >> 8 * i);
        else
            read |= (u64)walk->from[walk->at] << 8 * i;
    }
    if (!walk->to)
        *value = read;
}

static void field32(Walk *walk, u32 bytes, u32 *value)
{
    u64 wide = *value;
    field(walk, bytes, &wide);
    *value = (u32)wide;
}

static void walk_head_lines(Walk *walk, u64 *lines)
{
    for (u32 line = 0; line < record_head_lines(); line++)
        field(walk, 8, &lines[line]);
    for (u32 line = record_head_lines(); line < MAX_THREADS && !walk->to; line++)
        lines[line] = 0;
}

static void walk_node(Walk *walk, Node *node)
{
    field32(walk, 4, &node->cached.item);
    field32(walk, 1, &node->next);
    field32(walk, 1, &node->cached.linked);
    field(walk, 8, &node->cached.index);
    field32(walk, 1, &node->waits);
    field32(walk, 1, &node->persisted.linked);
    field(walk, 8, &node->persisted.index);
    field32(walk, 4, &node->persisted.item);
}

static void walk_thread(Walk *walk, Thread *thread)
{
    field32(walk, 1, &thread->step);
    field32(walk, 1, &thread->own);
    field32(walk, 1, &thread->t);
    field32(walk, 1, &thread->head_read);
    field(walk, 8, &thread->head_read_index);
    field32(walk, 1, &thread->next_read);
    field32(walk, 4, &thread->item);
    field32(walk, 1, &thread->held[0]);
}

/* Request 104: what each thread has flushed, then the sets. */
static void walk_flushes(Walk *walk, Machine *m)
{
    for (u32 k = 0; k < MAX_THREADS; k++) {
        field32(walk, 1, &m->threads[k].flushed.linked);
        field(walk, 8, &m->threads[k].flushed.index);
        field32(walk, 4, &m->threads[k].flushed.item);
    }
    for (u32 k = 0; k < MAX_THREADS; k++)
        field32(walk, 1, &m->late[k]);
    for (u32 line = 0; line < MAX_THREADS; line++)
        field32(walk, 1, &m->over_heads[line]);
    for (u32 i = 0; i < MAX_NODES; i++)
        field32(walk, 1, &m->over_nodes[i]);
}

/* Behind all else: the other queue's Head and Tail, each node's two queue bytes, each thread's queue, its other held node and the queue byte it flushed. */
static void walk_queues(Walk *walk, Machine *m)
{
    field32(walk, 1, &m->head[1]);
    field32(walk, 1, &m->tail[1]);
    for (u32 i = 0; i < MAX_NODES; i++) {
        field32(walk, 1, &m->nodes[i].cached.queue);
        field32(walk, 1, &m->nodes[i].persisted.queue);
    }
    for (u32 k = 0; k < MAX_THREADS; k++) {
        field32(walk, 1, &m->threads[k].queue);
        field32(walk, 1, &m->threads[k].held[1]);
        field32(walk, 1, &m->threads[k].flushed.queue);
    }
}

/* Behind the mark and the version. */
static void walk_machine(Walk *walk, Machine *m)
{
    field32(walk, 1, &m->form);
    field32(walk, 1, &m->n);
    field32(walk, 1, &m->t);
    field32(walk, 1, &m->head[0]);
    field32(walk, 1, &m->tail[0]);
    field(walk, 8, &m->free);
    walk_head_lines(walk, m->lines);
    walk_head_lines(walk, m->persisted_lines);
    for (u32 i = 0; i < MAX_NODES; i++)
        walk_node(walk, &m->nodes[i]);
    for (u32 k = 0; k < MAX_THREADS; k++)
        walk_thread(walk, &m->threads[k]);
    if (on(ROTATION))
        field32(walk, 1, &m->last);
    if (on(FENCES))
        walk_flushes(walk, m);
    if (on(QUEUES_TOO))
        walk_queues(walk, m);
}

/* What is on or off does not change while the program runs. */
u64 record_bytes(void)
{
    static u8 nowhere[MOST_RECORD];
    static Machine blank;
    static u64 known;
    if (known == 0) {
        Walk walk = {nowhere, 0, RECORD_MARK};
        walk_machine(&walk, &blank);
        known = walk.at;
    }
    return known;
}

void record_to_bytes(const Machine *m, u8 *bytes)
{
    Machine copy = *m;
    Walk walk = {bytes, 0, RECORD_MARK};
    bytes[0] = 'U';
    bytes[1] = 'Q';
    bytes[2] = 'M';
    put2(bytes + 3, record_version());
    walk_machine(&walk, &copy);
}

/* A record's bytes: a wrong length (1), a wrong mark or version (2), then 18. */
Verdict record_from_bytes(const u8 *bytes, u64 length, Machine *m)
{
    Walk walk = {0, bytes, RECORD_MARK};
    if (length != record_bytes())
        return verdict(WRONG_LENGTH, 0);
    *m = (Machine){0}; /* what the bytes do not have */
    m->by_sets = 1;    /* among it all times */
    walk_machine(&walk, m);
    if (bytes[0] != 'U' || bytes[1] != 'Q' || bytes[2] != 'M' || get2(bytes + 3) != record_version())
        return verdict(WRONG_MARK, 0);
    return verdict(in_range(m) ? TAKEN : OUT_OF_RANGE, 0);
}

/* At every moment each node is in exactly one of the six places. */
#include "second.h"

static int in_queue(const Machine *m, u32 node)
{
    int count = 0;
    for (u32 q = 0; q < queue_count(m->form); q++) {
        u32 at = m->head[q];
        for (u32 steps = 0; at != NONE && steps < m->n && at != node; steps++)
            at = m->nodes[at].next;
        count += at == node;
    }
    return count;
}

static int is_held(const Machine *m, u32 node)
{
    int count = 0;
    for (u32 k = 0; k < m->t; k++)
        for (u32 q = 0; q < queue_count(m->form); q++)
            count += m->threads[k].held[q] == node;
    return count;
}

/* owned by an enqueue before its A8 */
static int enqueue_owns(const Machine *m, u32 node)
{
    int count = 0;
    for (u32 k = 0; k < m->t; k++) {
        const Thread *thread = &m->threads[k];
        int before = (thread->step >= A2 && thread->step <= A8) || thread->step == A12 || thread->step == AQ;
        count += before && thread->own == node;
    }
    return count;
}

/* owned by a dequeue between D4 and D7 */
static int dequeue_owns(const Machine *m, u32 node)
{
    int count = 0;
    for (u32 k = 0; k < m->t; k++) {
        const Thread *thread = &m->threads[k];
        count += ((thread->step >= D5 && thread->step <= D7) || thread->step == S6 || thread->step == D6_FENCE) && thread->head_read == node;
    }
    return count;
}

/* How many nodes are in each place; a node that is in two counts in both. */
void count_places(const Machine *m, u32 *counts)
{
    for (u32 node = 0; node < m->n; node++) {
        counts[IN_QUEUE] += in_queue(m, node) != 0;
        counts[IS_FREE] += (m->free & bit(node)) != 0;
        counts[IS_WAITING] += m->nodes[node].waits != 0;
        counts[IS_HELD] += is_held(m, node) != 0;
        counts[ENQUEUE_OWNS] += enqueue_owns(m, node) != 0;
        counts[DEQUEUE_OWNS] += dequeue_owns(m, node) != 0;
    }
}

const char *misplaced(const Machine *m)
{
    for (u32 node = 0; node < m->n; node++) {
        int places = in_queue(m, node) + ((m->free & bit(node)) != 0) + (m->nodes[node].waits != 0) + is_held(m, node) +
                     enqueue_owns(m, node) + dequeue_owns(m, node);
        if (places != 1)
            return places == 0 ? "a node in no place" : "a node in two places";
    }
    return 0;
}

static int same_bytes(const u8 *a, const u8 *b)
{
    for (u32 i = 0; i < record_bytes(); i++)
        if (a[i] != b[i])
            return 0;
    return 1;
}

/* Performs the event twice: in the run, and on the record alone as it comes out of its bytes. */
static const char *next_event(const Schedule *s, u32 number)
{
    u8 before[MOST_RECORD], alone[MOST_RECORD], after[MOST_RECORD];
    Machine copy;
    Reply reply, reply_alone = {NOTHING, 0, NO_LINE, 0};
    Event e = event_at(s, number);
    record_to_bytes(&the_bench.machine, before);
    Verdict v_alone = record_from_bytes(before, record_bytes(), &copy);
    if (v_alone.number == TAKEN)
        v_alone = perform(&copy, &e, &reply_alone);
    Verdict v = bench_event(&the_bench, &e, number, &reply);
    if (v.number == TWINS || v.number == NO_DUMMY || v.number == OUT_OF_RANGE)
        return "a run was refused by 7, 8 or 18";
    record_to_bytes(&copy, alone);
    record_to_bytes(&the_bench.machine, after);
    if (v.number != v_alone.number || reply.number != reply_alone.number || reply.value != reply_alone.value ||
        !same_bytes(alone, after))
        return "the record's bytes do not hold all of the machine";
    return v.number == TAKEN ? 0 : "a refused event";
}

/* Looks after the start and after every event; meant for valid schedules. */
Finding places(const u8 *bytes, u64 length)
{
    Schedule s;
    Finding f = {AGREES, 0, "", 0};
    if (read_schedule(bytes, length, &s).number != TAKEN) {
        f.result = TOO_LARGE;
        return f;
    }
    bench_start(&the_bench, &s);
    for (u32 i = 0; i <= s.event_count; i++) {
        const char *why = misplaced(&the_bench.machine);
        f.work++;
        if (why) {
            Finding bad = {CONTRADICTS, i, why, f.work};
            return bad;
        }
        if (i == s.event_count)
            break;
        why = next_event(&s, i);
        if (why) {
            Finding bad = {CONTRADICTS, i, why, f.work};
            return bad;
        }
    }
    return f;
}

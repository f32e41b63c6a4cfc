/* The machine: one event at a time, and what the steps share. */
#include "second.h"

u32 wrong_machine = RIGHT;
int clean_waived;

u64 bit(u32 i)
{
    return (u64)1 << i;
}

/* Kinds 6 and 7 are 1 and 2 on queue 1. */
int begins(u32 kind)
{
    return kind == BEGIN_ENQUEUE || kind == BEGIN_DEQUEUE || kind == BEGIN_ENQUEUE_1 || kind == BEGIN_DEQUEUE_1;
}

int enqueues(u32 kind)
{
    return kind == BEGIN_ENQUEUE || kind == BEGIN_ENQUEUE_1;
}

u32 queue_of_kind(u32 kind)
{
    return kind == BEGIN_ENQUEUE_1 || kind == BEGIN_DEQUEUE_1;
}

u32 line_count(const Machine *m)
{
    return head_lines(m->form, m->t) + m->n;
}

Content cached_content(const Machine *m, u32 line)
{
    u32 heads = head_lines(m->form, m->t);
    Content head = {0, line < heads ? m->lines[line] : 0, 0, 0};
    return line < heads ? head : m->nodes[line - heads].cached;
}

Content persisted_content(const Machine *m, u32 line)
{
    u32 heads = head_lines(m->form, m->t);
    Content head = {0, line < heads ? m->persisted_lines[line] : 0, 0, 0};
    return line < heads ? head : m->nodes[line - heads].persisted;
}

/* The persisted content of a line becomes the one that its cached copy had at that moment. */
void put_persisted(Machine *m, u32 line, Content content, u64 moment)
{
    u32 heads = head_lines(m->form, m->t);
    if (line < heads)
        m->persisted_lines[line] = content.index;
    else
        m->nodes[line - heads].persisted = content;
    m->since[line] = moment;
}

/* A line is written back whole: no flush is of a later moment. */
void persist(Machine *m, u32 line, Reply *reply)
{
    put_persisted(m, line, cached_content(m, line), m->clock);
    if (wrong_machine != WRITE_BACK_FORGOTTEN)
        *over_line(m, line) = (u32)all_threads(m);
    reply->written = line;
}

/* A retired node waits for every other thread that has an operation at this moment. */
void retire(Machine *m, u32 k, u32 node)
{
    u32 others = 0;
    for (u32 j = 0; j < m->t; j++)
        if (j != k && m->threads[j].step != IDLE)
            others |= (u32)bit(j);
    if (wrong_machine == WAITS_FOR_NOBODY)
        others = 0;
    m->nodes[node].waits = others;
    if (others == 0)
        m->free |= bit(node);
    reach(others == 0 ? AT_RETIRED_FREE : AT_RETIRED_WAITS);
}

/* Thread k answers: nobody waits for it any longer, and a node that waited for it alone is free. */
void answer(Machine *m, u32 k, u32 number, u32 value, Reply *reply)
{
    blank_registers(&m->threads[k]);
    for (u32 i = 0; i < m->n; i++) {
        if (!(m->nodes[i].waits & bit(k)))
            continue;
        m->nodes[i].waits &= ~(u32)bit(k);
        if (m->nodes[i].waits == 0)
            m->free |= bit(i);
        reach(m->nodes[i].waits == 0 ? AT_ANSWER_FREES : AT_ANSWER_KEEPS_WAITING);
    }
    reply->number = number;
    reply->value = value;
    reach(AT_REPLY + number);
}

/* The step that comes next where the paper names no other. */
u32 following(u32 step)
{
    if (wrong_machine == INDEX_FIRST)
        return step == A3 ? A5 : step == A7 ? A4 : step == A4 ? A8 : step + 1;
    return step + 1;
}

/* Request 102: "a line whose cached and persisted contents are equal" */
int is_clean(const Machine *m, u32 line)
{
    Content cached = cached_content(m, line), persisted = persisted_content(m, line);
    if (wrong_machine == CLEAN_WITHOUT_ITEM)
        cached.item = persisted.item;
    if (wrong_machine == CLEAN_ITSELF)
        persisted = cached;
    if (wrong_machine == HEADS_NEVER_CLEAN && line < head_lines(m->form, m->t))
        return 0;
    return same_content(cached, persisted);
}

static int clean_write_back(const Machine *m, const Event *e)
{
    return on(CLEAN) && !clean_waived && e->kind == WRITE_BACK && is_clean(m, e->number);
}

/* 9, 10, 13, then 11 or 12 or 19; for a crash 7 and 8 after 13. The place is the event's, which the caller knows. */
Verdict test_event(const Machine *m, const Event *e)
{
    if (e->kind < BEGIN_ENQUEUE || e->kind > (m->form == TWO ? BEGIN_DEQUEUE_1 : CRASH))
        return verdict(UNKNOWN_KIND, 0);
    if (begins(e->kind) || e->kind == STEP)
        if (e->number >= m->t)
            return verdict(NUMBER_TOO_LARGE, 0);
    if (e->kind == WRITE_BACK && e->number >= line_count(m))
        return verdict(NUMBER_TOO_LARGE, 0);
    if (wrong_machine == CLEAN_BEFORE_ZEROS && clean_write_back(m, e))
        return verdict(CLEAN_LINE, 0);
    if (!enqueues(e->kind) && e->item != 0)
        return verdict(FIELD_NOT_ZERO, 0);
    if (e->kind == CRASH && e->number != 0)
        return verdict(FIELD_NOT_ZERO, 0);
    if (begins(e->kind))
        if (m->threads[e->number].step != IDLE)
            return verdict(BEGIN_ON_BUSY, 0);
    if (e->kind == STEP && m->threads[e->number].step == IDLE)
        return verdict(STEP_ON_IDLE, 0);
    if (clean_write_back(m, e))
        return verdict(CLEAN_LINE, 0);
    if (e->kind == CRASH) {
        Image image;
        persisted_image(m, &image);
        return test_recovered(&image);
    }
    return verdict(TAKEN, 0);
}

static int is_enqueue_step(u32 step)
{
    return (step != IDLE && step <= A12) || step == A10_FENCE || step == AQ;
}

static void begin(Machine *m, const Event *e)
{
    for (u32 j = 0; j < m->t; j++)
        if (enqueues(e->kind) && is_enqueue_step(m->threads[j].step) && m->threads[j].item == e->item)
            reach(AT_EQUAL_IN_FLIGHT);
    Thread *thread = &m->threads[e->number];
    blank_registers(thread);
    thread->item = e->item;
    thread->queue = queue_of_kind(e->kind);
    thread->step = enqueues(e->kind) ? A1 : D1;
    for (u32 j = 0; j < m->t; j++)
        if (m->threads[j].step != IDLE && m->threads[j].queue != thread->queue)
            reach(AT_BOTH_QUEUES);
    reach(enqueues(e->kind) ? AT_BEGIN_ENQUEUE : AT_BEGIN_DEQUEUE);
}

static void step(Machine *m, u32 k, Reply *reply)
{
    reach(AT_STEP + m->threads[k].step);
    if (is_enqueue_step(m->threads[k].step))
        step_of_enqueue(m, k, reply);
    else
        step_of_dequeue(m, k, reply);
}

static void write_back(Machine *m, u32 line, Reply *reply)
{
    reach(line < head_lines(m->form, m->t) ? AT_WRITE_BACK_HEAD : AT_WRITE_BACK_NODE);
    persist(m, line, reply);
}

/* One event on a record: 18 before all else, then the event's own tests. A refusal leaves the record as it was. */
Verdict perform(Machine *m, const Event *e, Reply *reply)
{
    Reply nothing = {NOTHING, 0, NO_LINE, 0};
    *reply = nothing;
    if (!in_range(m))
        return verdict(OUT_OF_RANGE, 0);
    Verdict v = test_event(m, e);
    if (v.number != TAKEN)
        return v;
    m->clock++;
    switch (e->kind) {
    case BEGIN_ENQUEUE:
    case BEGIN_DEQUEUE:
    case BEGIN_ENQUEUE_1:
    case BEGIN_DEQUEUE_1:
        begin(m, e);
        break;
    case STEP:
        step(m, e->number, reply);
        break;
    case WRITE_BACK:
        write_back(m, e->number, reply);
        break;
    case CRASH:
        reach(AT_CRASH);
        crash(m);
        reply->started = 1;
        break;
    }
    return verdict(TAKEN, 0);
}

/* Machine records with an event each: from runs, random within the ranges, and out of them. */
#include "second.h"

static u32 some_node(const Machine *m, u32 none_percent)
{
    return chance(none_percent) ? NONE : below(m->n);
}

/* Small, at the top of the form, and in version 2 about 2^32. */
static u64 some_index(u32 form)
{
    if (index_bytes(form) == 8 && chance(10))
        return (u64)LARGEST - 1 + below(4);
    return chance(10) ? largest_index(form) - below(2) : below(6);
}

static Content some_content(u32 form)
{
    Content c = {below(2), some_index(form), chance(50) ? below(4) : (u32)random_bits(), 0};
    if (form == TWO)
        c.queue = below(2);
    return c;
}

/* A step of the record's form, most often. */
static u32 some_step(const Machine *m)
{
    u32 step = below(LAST_STEP + 1);
    while (!is_step_of(m, step) && !chance(2))
        step = below(LAST_STEP + 1);
    return step;
}

static void random_thread(const Machine *m, Thread *thread)
{
    thread->step = chance(20) ? IDLE : some_step(m);
    thread->own = some_node(m, 2);
    thread->t = some_node(m, 2);
    thread->head_read = chance(50) ? m->head[0] : some_node(m, 2);
    thread->head_read_index = chance(50) ? m->lines[0] : some_index(m->form);
    thread->next_read = some_node(m, 2);
    thread->item = (u32)random_bits();
    thread->queue = m->form == TWO ? below(2) : 0;
    thread->held[0] = some_node(m, 30);
    thread->held[1] = some_node(m, 30);
    thread->flushed = some_content(m->form);
}

/* None, all, or some of the threads there are. */
static u32 some_set(const Machine *m)
{
    return chance(30) ? 0 : chance(20) ? (u32)all_threads(m) : (u32)(random_bits() & all_threads(m));
}

static void random_sets(Machine *m)
{
    for (u32 k = 0; k < MAX_THREADS; k++) {
        m->late[k] = some_set(m);
        m->over_heads[k] = some_set(m);
    }
    for (u32 i = 0; i < MAX_NODES; i++)
        m->over_nodes[i] = some_set(m);
}

/* 18: a thread that there is not in one of the sets, or a linked byte above 1 among what was flushed; or the same where the record ends already. */
static void flush_out_of_range(Machine *m)
{
    u32 heads = head_lines(m->form, m->t), threads = chance(70) ? m->t : MAX_THREADS;
    u32 set = (u32)(m->t < MAX_THREADS ? bit(m->t + below(MAX_THREADS - m->t)) : bit(below(MAX_THREADS)));
    switch (below(4)) {
    case 0: m->late[below(threads)] |= set; break;
    case 1: m->over_heads[below(chance(70) ? heads : MAX_THREADS)] |= set; break;
    case 2: m->over_nodes[below(chance(70) ? m->n : MAX_NODES)] |= set; break;
    default: m->threads[below(threads)].flushed.linked = 2 + below(254); break;
    }
}

/* Fields drawn within their ranges (now and then no node where one is used): mostly records that no run leads to. */
static void random_record(Machine *m)
{
    m->form = some_form();
    m->n = m->form == TWO ? 3 + below(4) : chance(70) ? 2 + below(4) : 2 + below(63);
    m->t = 1 + below(8);
    m->head[0] = below(m->n);
    m->head[1] = below(m->n);
    for (u32 line = 0; line < MAX_THREADS; line++)
        m->lines[line] = some_index(m->form);
    m->tail[0] = below(m->n);
    m->tail[1] = below(m->n);
    random_sets(m);
    m->last = below(m->n);
    m->free = chance(20) ? 0 : random_bits() & (m->n == 64 ? ~(u64)0 : bit(m->n) - 1);
    for (u32 line = 0; line < MAX_THREADS; line++)
        m->persisted_lines[line] = some_index(m->form);
    for (u32 i = 0; i < MAX_NODES; i++) {
        Node *node = &m->nodes[i];
        node->cached = some_content(m->form);
        node->persisted = some_content(m->form);
        node->next = some_node(m, 30);
        node->waits = chance(50) ? 0 : (u32)(random_bits() & (bit(m->t) - 1));
    }
    for (u32 k = 0; k < MAX_THREADS; k++)
        random_thread(m, &m->threads[k]);
}

/* A crash of this record is refused by 8: every node is recovered. */
static void no_dummy_left(Machine *m)
{
    for (u32 line = 0; line < MAX_THREADS; line++)
        m->persisted_lines[line] = below(3);
    for (u32 i = 0; i < m->n; i++) {
        m->nodes[i].persisted.linked = 1;
        m->nodes[i].persisted.index = 3 + i;
    }
}

/* 18: one index above the record's width, or one where the record ends already, which is no part of it. */
static void index_above_width(Machine *m)
{
    u64 index = (u64)LARGEST + 1 + below(2);
    m->form = m->form == DESKS ? DESKS : NARROW;
    switch (below(on(FENCES) ? 6 : 5)) {
    case 0: m->lines[below(record_head_lines())] = index; break;
    case 1: m->persisted_lines[below(record_head_lines())] = index; break;
    case 2: m->nodes[below(chance(80) ? m->n : MAX_NODES)].cached.index = index; break;
    case 3: m->nodes[below(chance(80) ? m->n : MAX_NODES)].persisted.index = index; break;
    case 4: m->threads[below(chance(80) ? m->t : MAX_THREADS)].head_read_index = index; break;
    default: m->threads[below(chance(80) ? m->t : MAX_THREADS)].flushed.index = index; break;
    }
}

/* The record some run has reached. */
static void record_of_run(Machine *m)
{
    static u8 bytes[MAX_SCHEDULE];
    Schedule s;
    u64 length = on(FENCES) && chance(30) ? generate_flushed(bytes) : generate_valid(bytes, chance(50));
    if (read_schedule(bytes, length, &s).number != TAKEN)
        stop("the generator made a schedule that is refused");
    run_schedule(&the_bench, &s);
    *m = the_bench.machine;
}

static void some_record_event(const Machine *m, u8 *at)
{
    u32 k = below(m->t);
    Event e = {STEP, k, 0};
    u32 which = below(10);
    if (which == 0)
        e.kind = BEGIN_ENQUEUE, e.item = (u32)random_bits();
    else if (which == 1)
        e.kind = BEGIN_DEQUEUE;
    else if (which == 2)
        e.kind = WRITE_BACK, e.number = below(line_count(m) + 1);
    else if (which == 3)
        e.kind = CRASH, e.number = chance(90) ? 0 : 1;
    else if (which == 4)
        e.kind = below(9), e.number = below(10), e.item = below(2);
    if (m->form == TWO && begins(e.kind) && e.kind <= BEGIN_DEQUEUE && chance(50))
        e.kind += BEGIN_ENQUEUE_1 - BEGIN_ENQUEUE;
    event_to_bytes(&e, at);
}

/* Makes stepping threads likely: most steps would otherwise meet an idle thread. */
static void aim_at_step(const Machine *m, u8 *at)
{
    for (u32 k = 0; k < m->t; k++)
        if (at[0] == STEP && m->threads[k].step != IDLE && chance(60))
            at[1] = (u8)k;
}

/* A wrong mark or version, which stands before 18; a form that there is not. */
static void spoil_beginning(u8 *item)
{
    if (chance(60))
        item[below(RECORD_MARK)] ^= (u8)(1 + below(255));
    else
        item[RECORD_MARK] = (u8)(chance(50) ? 0 : 3 + below(253));
}

void generate_record_item(u64 seed, u64 number, u8 *item)
{
    Machine m;
    u64 length = record_bytes();
    seed_random(seed, number);
    u32 kind = below(10);
    if (kind < 4)
        record_of_run(&m);
    else
        random_record(&m);
    int full = kind >= 4 && chance(3);
    if (full)
        no_dummy_left(&m);
    if (kind >= 4 && chance(5))
        index_above_width(&m);
    if (kind >= 4 && on(FENCES) && chance(8))
        flush_out_of_range(&m);
    record_to_bytes(&m, item);
    some_record_event(&m, item + length);
    aim_at_step(&m, item + length);
    if (full && chance(60))
        event_to_bytes(&(Event){CRASH, 0, 0}, item + length);
    u32 end = chance(10) ? 1 : on(FENCES) ? 340 : 150; /* the threads and what stands behind them */
    if (kind == 3 || kind == 9) /* one byte spoilt, most often out of range */
        item[chance(50) ? RECORD_MARK + below(28) : chance(50) ? length - 1 - below(end) : below((u32)length)] = (u8)random_bits();
    if (kind == 8 && chance(20)) /* every byte string is some record */
        for (u64 i = RECORD_MARK + 3; i < length; i++)
            item[i] = (u8)random_bits();
    if (chance(4))
        spoil_beginning(item);
}

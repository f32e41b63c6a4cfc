/* Request 104: a flush and its fence, by times and by sets of threads; and the two ways held against each other. */
#include "second.h"

u64 all_threads(const Machine *m)
{
    return bit(m->t) - 1;
}

/* The threads over a line: their last flush is no later than the line's persisted content. */
u32 *over_line(Machine *m, u32 line)
{
    u32 heads = head_lines(m->form, m->t);
    return line < heads ? &m->over_heads[line] : &m->over_nodes[line - heads];
}

int is_fence(u32 step)
{
    return step >= A10_FENCE && step <= D6_FENCE;
}

/* "Between the two the thread reads nothing": the line of a fence is that of its flush. */
u32 line_of_fence(const Machine *m, u32 k)
{
    return m->threads[k].step == A10_FENCE ? head_lines(m->form, m->t) + m->threads[k].own : own_line(m, k);
}

/* Those wrong machines that are wrong about the sets go by them, so that their pages are wrong too. */
int decides_by_sets(void)
{
    return wrong_machine >= WRITE_BACK_FORGOTTEN && wrong_machine <= OVER_LEFT;
}

/* A start knows of no flush. */
void forget_flushes(Machine *m)
{
    static const Content none = {0, 0, 0, 0};
    for (u32 k = 0; k < MAX_THREADS; k++) {
        m->threads[k].flushed = none;
        m->threads[k].flush_time = 0;
        m->late[k] = 0;
        m->over_heads[k] = 0;
    }
    for (u32 i = 0; i < MAX_NODES; i++)
        m->over_nodes[i] = 0;
}

/* "Between the two nothing is assured." */
void flush(Machine *m, u32 k, u32 line)
{
    m->threads[k].flushed = cached_content(m, line);
    m->threads[k].flush_time = m->clock;
    if (wrong_machine != OVER_LEFT)
        *over_line(m, line) &= ~(u32)bit(k);
    m->late[k] = 0;
    for (u32 u = 0; u < m->t; u++)
        if (u != k && wrong_machine != LATE_LEFT)
            m->late[u] |= (u32)bit(k);
}

static int later_by_times(const Machine *m, u32 k, u32 line)
{
    return m->since[line] > m->threads[k].flush_time;
}

static int later_by_sets(Machine *m, u32 k, u32 line)
{
    return (*over_line(m, line) & bit(k)) != 0;
}

static void count_fence(Machine *m, u32 k, u32 line, int later)
{
    reach(later ? AT_FENCE_STAYS : AT_FENCE_MOVES);
    for (u32 u = 0; u < m->t; u++)
        if (later && u != k && m->since[line] == m->threads[u].flush_time)
            reach(AT_FENCE_BEHIND_FENCE);
    if (!same_content(m->threads[k].flushed, cached_content(m, line)))
        reach(AT_FENCE_NOT_PRESENT);
}

/* "From the fence on, the line's contents start no earlier than the one at the flush; if a later one was persisted already, that one stays." */
void fence(Machine *m, u32 k, u32 line, Reply *reply)
{
    Thread *self = &m->threads[k];
    int later = m->by_sets ? later_by_sets(m, k, line) : later_by_times(m, k, line);
    count_fence(m, k, line, later);
    if (wrong_machine == FENCE_PRESENT)
        put_persisted(m, line, cached_content(m, line), m->clock);
    else if (!later || wrong_machine == FENCE_BACKWARDS)
        put_persisted(m, line, self->flushed, self->flush_time);
    if (!later)
        *over_line(m, line) |= (u32)(all_threads(m) & ~(wrong_machine == OVER_ALL ? 0 : m->late[k]));
    reply->written = line;
}

/* ---- the two ways */

/* What the times say of thread k's set of later threads. */
static u32 late_by_times(const Machine *m, u32 k)
{
    u32 set = 0;
    for (u32 u = 0; u < m->t; u++)
        if (m->threads[u].flush_time > m->threads[k].flush_time)
            set |= (u32)bit(u);
    return set;
}

/* Of a run by times: what the sets, the lines' histories and the flushed contents have to be. */
static const char *sets_by_times(Bench *bench)
{
    Machine *m = &bench->machine;
    for (u32 k = 0; k < m->t; k++) {
        if (m->late[k] != late_by_times(m, k))
            return "other threads are late by sets than by times";
        if (!is_fence(m->threads[k].step))
            continue;
        u32 line = line_of_fence(m, k);
        if (later_by_sets(m, k, line) != later_by_times(m, k, line))
            return "a fence finds something later by sets or by times alone";
        if (!same_content(m->threads[k].flushed, content_at(&bench->lines[line], m->threads[k].flush_time)))
            return "what was flushed is not what the line held at the flush";
    }
    for (u32 line = 0; line < line_count(m); line++)
        if (!same_content(persisted_content(m, line), content_at(&bench->lines[line], m->since[line])))
            return "what is persisted is not what the line held at its moment";
    return 0;
}

static int same_records(const Machine *a, const Machine *b)
{
    u8 one[MOST_RECORD], two[MOST_RECORD];
    record_to_bytes(a, one);
    record_to_bytes(b, two);
    for (u64 i = 0; i < record_bytes(); i++)
        if (one[i] != two[i])
            return 0;
    return 1;
}

/* One event in both runs; a planted disagreement is in what the sets say at the first fence. */
static const char *event_both_ways(Machine *sets, const Event *e, u32 number, u64 *fences)
{
    Reply reply, reply_by_sets;
    u32 k = e->number;
    if (e->kind == STEP && k < sets->t && is_fence(sets->threads[k].step) && ++*fences == 1 && plant_now)
        *over_line(sets, line_of_fence(sets, k)) ^= (u32)bit(k);
    Verdict v = bench_event(&the_bench, e, number, &reply), v_by_sets = perform(sets, e, &reply_by_sets);
    if (v.number != v_by_sets.number || reply.number != reply_by_sets.number || reply.value != reply_by_sets.value)
        return "another answer by sets";
    if (!same_records(&the_bench.machine, sets))
        return "another record by sets";
    const char *why = sets_by_times(&the_bench);
    return why ? why : v.number != TAKEN ? "" : 0;
}

/* Two runs of a schedule, one by times, one by sets from the start's record on: the same record at every moment, with sets that say what the times say.
   A run is looked at up to its first refused event. */
Finding by_times_and_sets(const u8 *bytes, u64 length)
{
    static Machine sets;
    u8 record[MOST_RECORD];
    Schedule s;
    Finding f = {AGREES, 0, "", 0};
    if (read_schedule(bytes, length, &s).number != TAKEN || !on(FENCES)) {
        f.result = TOO_LARGE;
        return f;
    }
    bench_start(&the_bench, &s);
    the_bench.machine.by_sets = 0;
    record_to_bytes(&the_bench.machine, record);
    record_from_bytes(record, record_bytes(), &sets);
    for (u32 i = 0; i < s.event_count; i++) {
        Event e = event_at(&s, i);
        const char *why = event_both_ways(&sets, &e, i, &f.work);
        if (why && !*why)
            return f;
        if (why) {
            Finding bad = {CONTRADICTS, i, why, f.work};
            return bad;
        }
    }
    return f;
}

/* Dequeue, step by step: one function a step, D1 to D7, and the two stores of "UQP". */
#include "second.h"

static void step_d1(Machine *m, Thread *self)
{
    self->head_read = m->head[self->queue];
    /* "Head is a node number only": the thread then has 0 for an index (docs/DECISIONS.md, R101c) */
    self->head_read_index = m->form != DESKS ? m->lines[self->queue] : 0;
    self->step = D2;
}

static void step_d2(Machine *m, Thread *self)
{
    self->next_read = m->nodes[self->head_read].next;
    reach(self->next_read == NONE ? AT_D2_NONE : AT_D2_SOME);
    self->step = self->next_read != NONE ? D4 : m->form == DESKS ? S3 : D3;
}

/* The line that D3 and D6 persist: Head's, or the desk's own. */
u32 own_line(const Machine *m, u32 k)
{
    if (m->form == DESKS)
        return wrong_machine != PERSIST_LINE_0 ? k : 0;
    return m->threads[k].queue;
}

/* "In place of D3 it does so with the index of the node it found last" */
static void step_s3(Machine *m, u32 k)
{
    Thread *self = &m->threads[k];
    m->lines[wrong_machine == S3_LINE_0 ? 0 : k] = m->nodes[self->head_read].cached.index;
    self->step = D3;
}

/* The persist of D3 or D6: one step, or (request 104) a flush and then a fence. Gives 1 when it is done, 0 while the fence is to come. */
static int persist_own(Machine *m, u32 k, u32 fence_step, int left_out, Reply *reply)
{
    Thread *self = &m->threads[k];
    int fenced = self->step == fence_step, flushes = on(FENCES) && !fenced;
    if (flushes)
        flush(m, k, own_line(m, k));
    else if (!left_out && fenced)
        fence(m, k, own_line(m, k), reply);
    else if (!left_out)
        persist(m, own_line(m, k), reply);
    self->step = flushes ? fence_step : self->step;
    return !flushes;
}

/* "D3 answers at the fence." */
static void step_d3(Machine *m, u32 k, Reply *reply)
{
    if (persist_own(m, k, D3_FENCE, wrong_machine == EMPTY_NO_PERSIST, reply) || wrong_machine == EMPTY_AT_FLUSH)
        answer(m, k, EMPTY, 0, reply);
}

static void step_d4(Machine *m, Thread *self)
{
    if (m->head[self->queue] == self->head_read && (m->form == DESKS || m->lines[self->queue] == self->head_read_index)) {
        reach(AT_D4_MOVES);
        m->head[self->queue] = self->next_read;
        if (m->form != DESKS)
            m->lines[self->queue] = m->nodes[self->next_read].cached.index;
        self->step = D5;
    } else {
        reach(AT_D4_FAILS);
        self->step = D1;
    }
}

static void step_d5(Machine *m, Thread *self)
{
    self->item = m->nodes[self->next_read].cached.item;
    self->step = m->form == DESKS ? S6 : D6;
}

/* "In place of D6 the thread stores the new dummy's index in its line, then persists that line as a second step" */
static void step_s6(Machine *m, u32 k)
{
    Thread *self = &m->threads[k];
    u32 stored = wrong_machine == S6_OLD_DUMMY ? self->head_read : self->next_read;
    m->lines[k] = m->nodes[stored].cached.index;
    self->step = D6;
}

static void step_d6(Machine *m, u32 k, Reply *reply)
{
    if (persist_own(m, k, D6_FENCE, wrong_machine == D6_NO_PERSIST, reply))
        m->threads[k].step = D7;
}

static void step_d7(Machine *m, u32 k, Reply *reply)
{
    Thread *self = &m->threads[k];
    u32 *place = &self->held[wrong_machine == ONE_HELD ? 0 : self->queue];
    u32 retired = *place;
    u32 held = self->head_read;
    if (wrong_machine == RETIRE_SAME_DEQUEUE) {
        retired = self->head_read;
        held = NONE;
    }
    reach(retired == NONE ? AT_D7_HELD_NONE : AT_D7_HELD_ONE);
    if (retired != NONE)
        retire(m, k, retired);
    *place = held;
    answer(m, k, AN_ITEM, self->item, reply);
}

void step_of_dequeue(Machine *m, u32 k, Reply *reply)
{
    Thread *self = &m->threads[k];
    switch (self->step) {
    case D1: step_d1(m, self); break;
    case D2: step_d2(m, self); break;
    case D3: step_d3(m, k, reply); break;
    case D4: step_d4(m, self); break;
    case D5: step_d5(m, self); break;
    case D6: step_d6(m, k, reply); break;
    case D7: step_d7(m, k, reply); break;
    case D3_FENCE: step_d3(m, k, reply); break;
    case D6_FENCE: step_d6(m, k, reply); break;
    case S3: step_s3(m, k); break;
    case S6: step_s6(m, k); break;
    }
}

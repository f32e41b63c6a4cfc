/* Enqueue, step by step: one function a step, A1 to A12. */
#include "second.h"

static u32 lowest_free(const Machine *m)
{
    for (u32 i = 0; i < m->n; i++)
        if (m->free & bit(i))
            return i;
    return NONE;
}

/* Request 106: "the first free node after the one last handed out, going round past the end", that one itself at the end of the round. */
static u32 next_free(const Machine *m)
{
    u32 first = wrong_machine == FROM_LAST ? 0 : 1;
    for (u32 i = first; i < first + m->n; i++)
        if (m->free & bit((m->last + i) % m->n))
            return (m->last + i) % m->n;
    return NONE;
}

static void hand_out(Machine *m, u32 node)
{
    if (node < m->last)
        reach(AT_A1_ROUND);
    if (node == m->last)
        reach(AT_A1_LAST_AGAIN);
    if (node != lowest_free(m))
        reach(AT_A1_NOT_LOWEST);
    if (wrong_machine != LAST_FORGOTTEN)
        m->last = node;
}

static void step_a1(Machine *m, u32 k, Reply *reply)
{
    Thread *self = &m->threads[k];
    u32 node = on(ROTATION) ? next_free(m) : lowest_free(m);
    if (node == NONE) {
        answer(m, k, FULL, 0, reply);
        return;
    }
    if (on(ROTATION))
        hand_out(m, node);
    m->free &= ~bit(node);
    self->own = node;
    if (m->nodes[node].cached.index != 0)
        reach(AT_A1_REUSED);
    if (m->nodes[node].cached.linked == 1)
        reach(AT_STALE_LINKED);
    self->step = following(A1);
}

static void step_a2(Machine *m, Thread *self)
{
    m->nodes[self->own].cached.item = self->item;
    self->step = following(A2);
}

static void step_a3(Machine *m, Thread *self)
{
    m->nodes[self->own].next = NONE;
    self->step = m->form == TWO && wrong_machine == QUEUE_BEFORE_LINKED ? AQ : following(A3);
}

static void step_a4(Machine *m, Thread *self)
{
    if (wrong_machine != A4_LEFT_OUT)
        m->nodes[self->own].cached.linked = 0;
    self->step = m->form != TWO ? following(A4) : wrong_machine == QUEUE_BEFORE_LINKED ? A5 : AQ;
}

/* Version 3: "The byte is stored after A4 and before A5." */
static void step_aq(Machine *m, Thread *self)
{
    m->nodes[self->own].cached.queue = self->queue;
    self->step = wrong_machine == QUEUE_BEFORE_LINKED ? A4 : A5;
}

static void step_a5(Machine *m, Thread *self)
{
    self->t = m->tail[self->queue];
    self->step = following(A5);
}

static void step_a6(Machine *m, Thread *self)
{
    int none = m->nodes[self->t].next == NONE;
    reach(none ? AT_A6_NONE : AT_A6_SOME);
    self->step = none ? following(A6) : A12;
}

static void step_a7(Machine *m, u32 k, Reply *reply)
{
    Thread *self = &m->threads[k];
    u64 index = m->nodes[self->t].cached.index;
    u64 largest = wrong_machine == WORN_BY_32 ? LARGEST : largest_index(m->form);
    if (index == largest) {
        reach(m->form == WIDE ? AT_WORN_WIDE : AT_WORN_NARROW);
        m->free |= bit(self->own);
        answer(m, k, WORN_OUT, 0, reply);
        return;
    }
    if (index + 1 == largest)
        reach(m->form == WIDE ? AT_A7_WIDE_TO_LARGEST : AT_A7_INDEX_TO_LARGEST);
    if (index == LARGEST)
        reach(AT_A7_PASSES_32);
    m->nodes[self->own].cached.index = index + 1;
    self->step = following(A7);
}

static void step_a8(Machine *m, Thread *self)
{
    if (m->nodes[self->t].next == NONE) {
        reach(AT_A8_LINKS);
        m->nodes[self->t].next = self->own;
        self->step = following(A8);
    } else {
        reach(AT_A8_FAILS);
        self->step = A12;
    }
}

static void step_a9(Machine *m, Thread *self)
{
    m->nodes[self->own].cached.linked = 1;
    self->step = following(A9);
}

/* One step, or (request 104) a flush and then a fence. */
static void step_a10(Machine *m, u32 k, Reply *reply)
{
    Thread *self = &m->threads[k];
    u32 line = head_lines(m->form, m->t) + self->own;
    int fenced = self->step == A10_FENCE, flushes = on(FENCES) && !fenced;
    if (flushes)
        flush(m, k, line);
    else if (wrong_machine != A10_NO_PERSIST && fenced)
        fence(m, k, line, reply);
    else if (wrong_machine != A10_NO_PERSIST)
        persist(m, line, reply);
    self->step = flushes ? A10_FENCE : following(A10);
}

static void step_a11(Machine *m, u32 k, Reply *reply)
{
    Thread *self = &m->threads[k];
    reach(m->tail[self->queue] == self->t ? AT_A11_MOVES : AT_A11_LEAVES);
    if (m->tail[self->queue] == self->t)
        m->tail[self->queue] = self->own;
    answer(m, k, DONE, 0, reply);
}

static void step_a12(Machine *m, Thread *self)
{
    reach(m->tail[self->queue] == self->t ? AT_A12_MOVES : AT_A12_LEAVES);
    if (m->tail[self->queue] == self->t)
        m->tail[self->queue] = m->nodes[self->t].next;
    self->step = A5;
}

void step_of_enqueue(Machine *m, u32 k, Reply *reply)
{
    Thread *self = &m->threads[k];
    switch (self->step) {
    case A1: step_a1(m, k, reply); break;
    case A2: step_a2(m, self); break;
    case A3: step_a3(m, self); break;
    case A4: step_a4(m, self); break;
    case AQ: step_aq(m, self); break;
    case A5: step_a5(m, self); break;
    case A6: step_a6(m, self); break;
    case A7: step_a7(m, k, reply); break;
    case A8: step_a8(m, self); break;
    case A9: step_a9(m, self); break;
    case A10: step_a10(m, k, reply); break;
    case A10_FENCE: step_a10(m, k, reply); break;
    case A11: step_a11(m, k, reply); break;
    case A12: step_a12(m, self); break;
    }
}

/* Recovery: what a start makes of the persisted copies. */
#include "second.h"

static const Content ZERO = {0, 0, 0, 0};

/* Every register of an operation; the held node stays, since it belongs to the thread and not to the operation, and so does what the thread flushed last. */
void blank_registers(Thread *thread)
{
    thread->step = IDLE;
    thread->queue = 0;
    thread->own = NONE;
    thread->t = NONE;
    thread->head_read = NONE;
    thread->head_read_index = 0;
    thread->next_read = NONE;
    thread->item = 0;
}

static void no_operations(Machine *m)
{
    for (u32 k = 0; k < MAX_THREADS; k++) {
        blank_registers(&m->threads[k]);
        m->threads[k].held[0] = NONE;
        m->threads[k].held[1] = m->form == TWO ? NONE : 0;
    }
}

/* The persisted contents are of the moment before; what the start stores is of this one. */
static void read_persisted_anew(Machine *m)
{
    m->clock++;
    for (u32 line = 0; line < MAX_LINES; line++)
        m->since[line] = m->clock;
    m->clock++;
    for (u32 line = 0; line < MAX_THREADS; line++) {
        if (line >= head_lines(m->form, m->t))
            m->persisted_lines[line] = 0;
        m->lines[line] = m->persisted_lines[line];
    }
    for (u32 i = 0; i < MAX_NODES; i++) {
        if (i >= m->n)
            m->nodes[i].persisted = ZERO;
        m->nodes[i].cached = m->nodes[i].persisted;
        m->nodes[i].next = NONE;
        m->nodes[i].waits = 0;
    }
}

/* The lowest-numbered node, from `from` on, that no queue has. */
static u32 lowest_spare(const Image *image, const u32 *taken, u32 from)
{
    for (u32 i = from; i < image->n; i++)
        if (!taken[i])
            return i;
    return NONE;
}

static void link_queue(Machine *m, u32 queue, u32 dummy, const u32 *order, u32 count)
{
    m->head[queue] = dummy;
    m->tail[queue] = dummy;
    m->free &= ~bit(dummy);
    for (u32 j = 0; j < count; j++) {
        m->nodes[m->tail[queue]].next = order[j];
        m->tail[queue] = order[j];
        m->free &= ~bit(order[j]);
    }
}

/* The dummy gets the head index; in version 3 recovery "clears the dummies' linked flags, stores queue and index". */
static void make_dummy(Machine *m, const Image *image, u32 queue, u32 dummy)
{
    Content *cached = &m->nodes[dummy].cached;
    if (cached->index != head_of(image, queue))
        reach(AT_DUMMY_INDEX_CHANGES);
    cached->index = head_of(image, queue);
    if (m->form != TWO)
        return;
    if (wrong_machine != DUMMIES_LINKED)
        cached->linked = 0;
    cached->queue = queue;
}

/* The image was tested before: no twins, and a dummy is left for each queue. */
static void recover(Machine *m)
{
    Image image;
    u32 order[QUEUES][MAX_NODES], count[QUEUES], taken[MAX_NODES] = {0}, dummy = 0;
    persisted_image(m, &image);
    for (u32 q = 0; q < queue_count(m->form); q++) {
        count[q] = recovered_in_order(&image, q, order[q]);
        for (u32 j = 0; j < count[q]; j++) {
            taken[order[q][j]] = 1;
            if (image.nodes[order[q][j]].index != head_of(&image, q) + 1 + j)
                reach(AT_GAP);
        }
    }
    read_persisted_anew(m);
    no_operations(m);
    forget_flushes(m);
    m->head[1] = m->tail[1] = 0;
    m->free = 0;
    for (u32 i = 0; i < m->n; i++)
        m->free |= bit(i);
    for (u32 q = 0; q < queue_count(m->form); q++) {
        dummy = lowest_spare(&image, taken, q == 0 ? 0 : dummy + 1);
        make_dummy(m, &image, q, dummy);
        link_queue(m, q, dummy, order[q], count[q]);
    }
    m->last = wrong_machine == TAIL_LAST ? m->tail[0] : dummy; /* "After a start the dummy counts as last handed out", of two the one of queue 1. */
}

void start(Machine *m, u32 t, const Image *image)
{
    m->clock = 0;
    m->by_sets = (u32)decides_by_sets();
    m->form = image->form;
    m->n = image->n;
    m->t = t;
    m->persisted_lines[0] = image->head_index;
    for (u32 k = 0; image->form == DESKS && k < t; k++)
        m->persisted_lines[k] = image->desks[k];
    if (image->form == TWO)
        m->persisted_lines[1] = image->head_index_1;
    for (u32 i = 0; i < image->n; i++)
        m->nodes[i].persisted = image->nodes[i];
    recover(m);
}

void persisted_image(const Machine *m, Image *image)
{
    image->form = m->form;
    image->n = m->n;
    image->t = m->t;
    image->head_index = m->persisted_lines[0];
    image->head_index_1 = m->form == TWO ? m->persisted_lines[1] : 0;
    for (u32 k = 0; image->form == DESKS && k < m->t; k++)
        image->desks[k] = m->persisted_lines[k];
    take_largest(image);
    for (u32 i = 0; i < m->n; i++)
        image->nodes[i] = m->nodes[i].persisted;
}

void crash(Machine *m)
{
    recover(m);
}

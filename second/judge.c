/* The judge: an ending is lawful when some order of the operations since the last start, keeping to real time, gives every
   answer that was given and leaves the ending's queue. All orders are gone through. */
#include "second.h"

enum { MOST_OPERATIONS = 60, LONGEST_QUEUE = 40, MOST_STATES = 1 << 16, TABLE = 1 << 17 };

typedef struct Operation {
    int enqueues;
    u32 item;
    u32 begun;    /* event number */
    u32 answered; /* event number, or NEVER */
    u32 reply;
    u32 value;
} Operation;

typedef struct Queue {
    u32 count;
    u32 items[LONGEST_QUEUE];
} Queue;

/* Where a search stands: the operations already placed, and the plain queue they leave. */
typedef struct State {
    u64 placed;
    Queue queue;
} State;

static Operation operations[MOST_OPERATIONS];
static u32 operation_count;
static Queue first_queue;
static State states[MOST_STATES];
static u32 state_count;
static u32 table[TABLE];
static int too_large;

static int same_queue(const Queue *a, const Queue *b)
{
    if (a->count != b->count)
        return 0;
    for (u32 i = 0; i < a->count; i++)
        if (a->items[i] != b->items[i])
            return 0;
    return 1;
}

static u32 judged; /* the queue whose operations are looked at */

static void queue_of_machine(const Machine *m, Queue *queue)
{
    queue->count = 0;
    for (u32 node = m->nodes[m->head[judged]].next; node != NONE; node = m->nodes[node].next) {
        if (queue->count == LONGEST_QUEUE) {
            too_large = 1;
            return;
        }
        queue->items[queue->count++] = m->nodes[node].cached.item;
    }
}

static void queue_of_image(const Image *image, Queue *queue)
{
    u32 order[MAX_NODES];
    u32 count = recovered_in_order(image, judged, order);
    queue->count = 0;
    for (u32 i = 0; i < count && i < LONGEST_QUEUE; i++)
        queue->items[queue->count++] = image->nodes[order[i]].item;
}

static void note_begin(const Event *e, u32 number, u32 *current)
{
    if (operation_count == MOST_OPERATIONS) {
        too_large = 1;
        return;
    }
    Operation op = {enqueues(e->kind), e->item, number, NEVER, NOTHING, 0};
    current[e->number] = operation_count;
    operations[operation_count++] = op;
}

static void note_event(const Machine *m, const Event *e, u32 number, const Reply *reply, u32 *current)
{
    if (begins(e->kind) && queue_of_kind(e->kind) != judged)
        current[e->number] = NEVER; /* an operation of the other queue */
    else if (begins(e->kind))
        note_begin(e, number, current);
    if (reply->started) {
        operation_count = 0;
        too_large = 0;
        queue_of_machine(m, &first_queue);
    }
    if (reply->number != NOTHING && !too_large && current[e->number] != NEVER) {
        Operation *op = &operations[current[e->number]];
        op->answered = number;
        op->reply = reply->number;
        op->value = reply->value;
    }
}

/* Runs the schedule and writes down the operations since the last start. */
static Verdict record_operations(const Schedule *s)
{
    u32 current[MAX_THREADS] = {0};
    operation_count = 0;
    too_large = 0;
    bench_start(&the_bench, s);
    queue_of_machine(&the_bench.machine, &first_queue);
    for (u32 i = 0; i < s->event_count; i++) {
        Reply reply;
        Event e = event_at(s, i);
        Verdict v = bench_event(&the_bench, &e, i, &reply);
        if (v.number != TAKEN)
            return v;
        note_event(&the_bench.machine, &e, i, &reply, current);
    }
    return verdict(TAKEN, 0);
}

static u64 hash_of(const State *state)
{
    u64 sum = state->placed * 0x9e3779b97f4a7c15u;
    for (u32 i = 0; i < state->queue.count; i++)
        sum = (sum ^ (state->queue.items[i] + 1u)) * 0xff51afd7ed558ccdu + 1;
    return sum >> 40;
}

static void add_state(const State *state)
{
    u64 at = hash_of(state) % TABLE;
    while (table[at] != 0) {
        const State *known = &states[table[at] - 1];
        if (known->placed == state->placed && same_queue(&known->queue, &state->queue))
            return;
        at = (at + 1) % TABLE;
    }
    if (state_count == MOST_STATES) {
        too_large = 1;
        return;
    }
    states[state_count++] = *state;
    table[at] = state_count;
}

/* An operation may come next when nothing unplaced was answered before it began. */
static int may_come_next(u64 placed, u32 op)
{
    if (placed & bit(op))
        return 0;
    for (u32 other = 0; other < operation_count; other++)
        if (!(placed & bit(other)) && operations[other].answered < operations[op].begun)
            return 0;
    return 1;
}

static int dequeue_on(Queue *queue, const Operation *op)
{
    if (op->answered != NEVER && op->reply == EMPTY)
        return queue->count == 0;
    if (op->answered != NEVER && (queue->count == 0 || queue->items[0] != op->value))
        return 0;
    for (u32 i = 1; i < queue->count; i++)
        queue->items[i - 1] = queue->items[i];
    if (queue->count > 0)
        queue->count--;
    return 1;
}

/* Carries the operation out on the plain queue; gives 0 where it could not have answered so. */
static int carry_out(Queue *queue, const Operation *op)
{
    if (op->reply == FULL || op->reply == WORN_OUT)
        return 1;
    if (!op->enqueues)
        return dequeue_on(queue, op);
    if (queue->count == LONGEST_QUEUE) {
        too_large = 1;
        return 0;
    }
    queue->items[queue->count++] = op->item;
    return 1;
}

static void go_through_all_orders(void)
{
    State first = {0, first_queue};
    for (u32 i = 0; i < TABLE; i++)
        table[i] = 0;
    state_count = 0;
    add_state(&first);
    for (u32 at = 0; at < state_count && !too_large; at++)
        for (u32 op = 0; op < operation_count; op++) {
            State next = states[at];
            if (!may_come_next(next.placed, op))
                continue;
            next.placed |= bit(op);
            if (carry_out(&next.queue, &operations[op]))
                add_state(&next);
        }
}

/* Every answered operation must have been placed; the others may have been. */
static int lawful(const Queue *queue)
{
    u64 answered = 0;
    for (u32 op = 0; op < operation_count; op++)
        if (operations[op].answered != NEVER)
            answered |= bit(op);
    for (u32 at = 0; at < state_count; at++)
        if ((states[at].placed & answered) == answered && same_queue(&states[at].queue, queue))
            return 1;
    return 0;
}

static Finding finding(u32 result, u64 ending, const char *why)
{
    Finding f = {result, ending, why, state_count};
    return f;
}

static Finding judge_endings(u64 count)
{
    for (u64 k = 0; k < count; k++) {
        Image image;
        Queue queue;
        ending_image(&the_bench, k, &image);
        u32 number = test_recovered(&image).number;
        if (number != TAKEN)
            return finding(CONTRADICTS, k, number == TWINS ? "refused by 7" : "refused by 8");
        queue_of_image(&image, &queue);
        if (plant_now && k == 0 && queue.count < LONGEST_QUEUE)
            queue.items[queue.count++] = 3000000019u; /* an item that nobody enqueued */
        if (!lawful(&queue))
            return finding(CONTRADICTS, k, "unlawful");
    }
    return finding(AGREES, count, "");
}

static Finding judge_queue(const Schedule *s)
{
    u64 count;
    state_count = 0;
    if (record_operations(s).number != TAKEN || count_endings(&the_bench, &count).number != TAKEN)
        return finding(TOO_LARGE, 0, "no page");
    if (!too_large)
        go_through_all_orders();
    if (too_large)
        return finding(TOO_LARGE, 0, "too many operations");
    return judge_endings(count);
}

/* "Demand 3 holds for each queue with its own operations." */
Finding judge(const u8 *bytes, u64 length)
{
    Schedule s;
    Finding f = finding(TOO_LARGE, 0, "no page");
    if (read_schedule(bytes, length, &s).number != TAKEN)
        return f;
    for (judged = 0; judged < queue_count(s.image.form); judged++) {
        f = judge_queue(&s);
        if (f.result != AGREES)
            break;
    }
    judged = 0;
    return f;
}

/* ---- the same operations and queues as histories of request 110 */

/* Runs a schedule; 0 where it has no page, or more operations than a history may have. */
int run_for_histories(const u8 *bytes, u64 length, u64 *endings)
{
    Schedule s;
    return read_schedule(bytes, length, &s).number == TAKEN && record_operations(&s).number == TAKEN
        && count_endings(&the_bench, endings).number == TAKEN && !too_large && operation_count <= 16;
}

static u64 put_number_of(u8 *to, u64 value, u32 bytes)
{
    for (u32 i = 0; i < bytes; i++, value >>= 8)
        to[i] = (u8)value;
    return bytes;
}

/* The history that ending k is: its length, or 0 where its queue is too long to be looked at here. */
u64 history_of_ending(u64 k, u8 *to)
{
    Image image;
    Queue last;
    u32 nodes[MAX_NODES];
    u64 at = 3;
    ending_image(&the_bench, k, &image);
    if (recovered_in_order(&image, judged, nodes) > LONGEST_QUEUE)
        return 0;
    queue_of_image(&image, &last);
    to[0] = (u8)operation_count;
    to[1] = (u8)first_queue.count;
    to[2] = (u8)last.count;
    for (u32 i = 0; i < first_queue.count; i++)
        at += put_number_of(to + at, first_queue.items[i], 4);
    for (u32 i = 0; i < last.count; i++)
        at += put_number_of(to + at, last.items[i], 4);
    for (u32 i = 0; i < operation_count; i++) {
        const Operation *op = &operations[i];
        int answered = op->answered != NEVER;
        at += put_number_of(to + at, op->enqueues ? 1 : 2, 1);
        at += put_number_of(to + at, op->begun, 8);
        at += put_number_of(to + at, answered ? op->answered : 0, 8);
        at += put_number_of(to + at, answered ? op->reply : NOTHING, 1);
        at += put_number_of(to + at, op->enqueues ? op->item : answered && op->reply == AN_ITEM ? op->value : 0, 4);
    }
    return at;
}

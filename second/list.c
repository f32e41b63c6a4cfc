/* Request 114: what became of every item enqueued since the last start, at one ending. */
#include "second.h"

enum { HANDED_OUT = 1, STILL_QUEUED, TURNED_AWAY, TAKEN_UNANSWERED, NEVER_IN };

/* An enqueue begun since the last start. */
typedef struct Begun {
    u32 item;
    u32 queue;
    int linked;  /* its link step was done */
    u32 node;
    u64 index;
    u32 reply;
    int out;     /* its dequeue answered with it */
} Begun;

static Begun list[MAX_EVENTS];
static u32 list_count;
static u32 current[MAX_THREADS]; /* the enqueue under way on a thread, or NEVER */
static u64 taking[MAX_THREADS];  /* the index that the dequeue under way has moved its Head to */
static u32 items_of_start;       /* dequeues that answered with an item of the start's queue */

/* "its dequeue": queue and index are used once between two starts. */
static void note_item(u32 queue, u64 index, u32 item)
{
    for (u32 i = 0; i < list_count; i++) {
        int its = wrong_machine == BY_ITEM ? list[i].item == item && !list[i].out : list[i].index == index;
        if (list[i].linked && list[i].queue == queue && its) {
            list[i].out = 1;
            return;
        }
    }
    items_of_start++;
}

static void note_begin(const Event *e)
{
    Begun begun = {e->item, queue_of_kind(e->kind), 0, NONE, 0, NOTHING, 0};
    current[e->number] = NEVER;
    if (enqueues(e->kind)) {
        current[e->number] = list_count;
        list[list_count++] = begun;
    }
}

/* What one event was, from the thread as it stood before and as it stands after. */
static void note_step(const Machine *m, u32 k, const Thread *before, const Reply *reply)
{
    const Thread *after = &m->threads[k];
    if (before->step == A8 && after->step == A9) {
        list[current[k]].linked = 1;
        list[current[k]].node = before->own;
        list[current[k]].index = m->nodes[before->own].cached.index;
    }
    if (before->step == D4 && after->step == D5)
        taking[k] = m->nodes[before->next_read].cached.index;
    if (reply->number == AN_ITEM)
        note_item(before->queue, taking[k], reply->value);
    else if (reply->number != NOTHING && reply->number != EMPTY)
        list[current[k]].reply = reply->number;
}

static Verdict run_list(const Schedule *s)
{
    list_count = items_of_start = 0;
    bench_start(&the_bench, s);
    for (u32 i = 0; i < s->event_count; i++) {
        Reply reply;
        Event e = event_at(s, i);
        Thread before = the_bench.machine.threads[e.number < MAX_THREADS ? e.number : 0];
        Verdict v = bench_event(&the_bench, &e, i, &reply);
        if (v.number != TAKEN)
            return v;
        if (e.kind == CRASH)
            list_count = items_of_start = 0;
        else if (begins(e.kind))
            note_begin(&e);
        else if (e.kind == STEP)
            note_step(&the_bench.machine, e.number, &before, &reply);
    }
    return verdict(TAKEN, 0);
}

/* The groups are tried in the order of the request, and the first one holds. */
static u32 group_of(const Begun *b, const Image *ending)
{
    const Content *node = b->linked ? &ending->nodes[b->node] : 0;
    if (b->out)
        return HANDED_OUT;
    if (b->linked && is_recovered(ending, b->node) && node->index == b->index && (ending->form != TWO || node->queue == b->queue))
        return STILL_QUEUED;
    if (b->reply == FULL || b->reply == WORN_OUT)
        return TURNED_AWAY;
    if (b->linked && b->index <= head_of(ending, ending->form == TWO ? b->queue : 0) && wrong_machine != UNANSWERED_NEVER_IN)
        return TAKEN_UNANSWERED;
    return NEVER_IN;
}

/* An input is the ending's number (4) and a schedule. A line: `refused N at P`, or `list COUNT` and ITEM:GROUP for each enqueue, in begin order. */
void print_listed(const u8 *bytes, u64 length)
{
    Schedule s;
    Image ending;
    u64 count;
    if (length < 4)
        stop("an ending's number has 4 bytes");
    Verdict v = read_schedule(bytes + 4, length - 4, &s);
    if (v.number == TAKEN)
        v = run_list(&s);
    if (v.number == TAKEN)
        v = count_endings(&the_bench, &count);
    if (v.number == TAKEN && get4(bytes) >= count)
        v = verdict(NO_SUCH_ENDING, 0);
    if (v.number != TAKEN) {
        print_refusal(v);
        return;
    }
    ending_image(&the_bench, get4(bytes), &ending);
    put_text("list ");
    put_number(list_count);
    for (u32 i = 0; i < list_count; i++) {
        put_text(" ");
        put_number(list[i].item);
        put_text(":");
        put_number(group_of(&list[i], &ending));
    }
    put_text("\n");
}

static Finding finding(u32 result, u64 ending, const char *why)
{
    Finding f = {result, ending, why, list_count};
    return f;
}

static u64 newest[QUEUES]; /* the last index of each queue at the last start: every index enqueued since is above it */

static void note_start(const Machine *m)
{
    for (u32 q = 0; q < queue_count(m->form); q++)
        newest[q] = m->nodes[m->tail[q]].cached.index;
}

/* The run once more, for what the start had; gives the number of answers with an item since. */
static u64 run_beside(const Schedule *s)
{
    static Machine m;
    u64 answers = 0;
    start(&m, s->t, &s->image);
    note_start(&m);
    for (u32 i = 0; i < s->event_count; i++) {
        Reply reply;
        Event e = event_at(s, i);
        perform(&m, &e, &reply);
        answers += reply.number == AN_ITEM;
        if (reply.started) {
            answers = 0;
            note_start(&m);
        }
    }
    return answers;
}

static const char *wrong_at(u64 k)
{
    Image ending;
    u32 queued = 0, recovered = 0;
    ending_image(&the_bench, k, &ending);
    for (u32 i = 0; i < ending.n; i++)
        recovered += is_recovered(&ending, i) && ending.nodes[i].index > newest[ending.form == TWO ? ending.nodes[i].queue : 0];
    for (u32 i = 0; i < list_count; i++) {
        u32 group = group_of(&list[i], &ending);
        queued += group == STILL_QUEUED;
        if (group == STILL_QUEUED && ending.nodes[list[i].node].item != list[i].item)
            return "a queued node has another item than was enqueued";
        if (group == NEVER_IN && list[i].linked && list[i].index <= head_of(&ending, ending.form == TWO ? list[i].queue : 0))
            return "linked and passed by the head, and never in";
    }
    return queued == recovered ? 0 : "still queued and recovered differ in number";
}

/* What the list must come to, told from the ending and the start alone: each recovered node that the start did not have is one item still queued, and the other way
   round; every answer with an item is of the start's queue or of one handed out; none is both below the head and never in though it was linked. */
Finding lists_hold(const u8 *bytes, u64 length)
{
    Schedule s;
    u64 count, out = 0;
    if (read_schedule(bytes, length, &s).number != TAKEN || run_list(&s).number != TAKEN || count_endings(&the_bench, &count).number != TAKEN)
        return finding(TOO_LARGE, 0, "no page");
    u64 answers = run_beside(&s);
    for (u32 i = 0; i < list_count; i++)
        out += (u64)list[i].out;
    if (out + items_of_start != answers + (u64)plant_now)
        return finding(CONTRADICTS, 0, "items handed out and answers differ in number");
    for (u64 k = 0; k < count && k < 64; k++) {
        const char *why = wrong_at(k);
        if (why)
            return finding(CONTRADICTS, k, why);
    }
    return finding(AGREES, 0, "");
}

/* Any schedule, damaged ones among them, with an ending's number that most often is one. */
u64 generate_listed(u64 number, u8 *bytes)
{
    static u8 schedule[4 * MAX_SCHEDULE];
    Schedule s;
    u64 count = 1, length = number % 8 == 0 ? generate_refused(random_bits() % 13, schedule) : generate_valid(schedule, chance(50));
    endings_of(schedule, length, &s, &the_bench, &count);
    put4(bytes, chance(90) ? (u32)(random_bits() % count) : chance(50) ? (u32)count : (u32)random_bits());
    for (u64 i = 0; i < length; i++)
        bytes[4 + i] = schedule[i];
    return length + 4;
}

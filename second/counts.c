/* How often each step, branch, answer and number given back was reached. */
#include "second.h"

u64 reached[POINTS];

static const char *const names[POINTS] = {
    [AT_STEP + A1] = "A1", [AT_STEP + A2] = "A2", [AT_STEP + A3] = "A3", [AT_STEP + A4] = "A4",
    [AT_STEP + A5] = "A5", [AT_STEP + A6] = "A6", [AT_STEP + A7] = "A7", [AT_STEP + A8] = "A8",
    [AT_STEP + A9] = "A9", [AT_STEP + A10] = "A10", [AT_STEP + A11] = "A11", [AT_STEP + A12] = "A12",
    [AT_STEP + D1] = "D1", [AT_STEP + D2] = "D2", [AT_STEP + D3] = "D3", [AT_STEP + D4] = "D4",
    [AT_STEP + D5] = "D5", [AT_STEP + D6] = "D6", [AT_STEP + D7] = "D7",
    [AT_STEP + S3] = "S3", [AT_STEP + S6] = "S6", [AT_STEP + A10_FENCE] = "fence of A10", [AT_STEP + D3_FENCE] = "fence of D3", [AT_STEP + D6_FENCE] = "fence of D6",
    [AT_FENCE_MOVES] = "a fence moves the persisted content", [AT_FENCE_STAYS] = "a fence finds a later one persisted",
    [AT_FENCE_BEHIND_FENCE] = "a fence finds one of a later flush persisted",
    [AT_FENCE_NOT_PRESENT] = "a fence leaves a later content behind", [AT_DESKS] = "image UQP",
    [AT_STEP + AQ] = "store of the queue byte", [AT_TWO] = "image version 3", [AT_BOTH_QUEUES] = "operations on both queues at once",
    [AT_LARGEST_NOT_FIRST] = "the largest index is not the first desk's",
    [AT_REPLY + DONE] = "answer Done", [AT_REPLY + FULL] = "answer Full", [AT_REPLY + WORN_OUT] = "answer Worn out",
    [AT_REPLY + AN_ITEM] = "answer item", [AT_REPLY + EMPTY] = "answer Empty",
    [AT_NUMBER + 0] = "taken", [AT_NUMBER + 1] = "refused 1", [AT_NUMBER + 2] = "refused 2",
    [AT_NUMBER + 3] = "refused 3", [AT_NUMBER + 4] = "refused 4", [AT_NUMBER + 5] = "refused 5",
    [AT_NUMBER + 6] = "refused 6", [AT_NUMBER + 7] = "refused 7", [AT_NUMBER + 8] = "refused 8",
    [AT_NUMBER + 9] = "refused 9", [AT_NUMBER + 10] = "refused 10", [AT_NUMBER + 11] = "refused 11",
    [AT_NUMBER + 12] = "refused 12", [AT_NUMBER + 13] = "refused 13", [AT_NUMBER + 14] = "refused 14",
    [AT_NUMBER + 15] = "refused 15", [AT_NUMBER + 16] = "refused 16", [AT_NUMBER + 17] = "refused 17", [AT_NUMBER + 19] = "refused 19",
    [AT_A6_NONE] = "A6 none", [AT_A6_SOME] = "A6 some", [AT_A8_LINKS] = "A8 links", [AT_A8_FAILS] = "A8 retries",
    [AT_A11_MOVES] = "A11 moves Tail", [AT_A11_LEAVES] = "A11 leaves Tail",
    [AT_A12_MOVES] = "A12 moves Tail", [AT_A12_LEAVES] = "A12 leaves Tail",
    [AT_D2_NONE] = "D2 none", [AT_D2_SOME] = "D2 some", [AT_D4_MOVES] = "D4 moves Head", [AT_D4_FAILS] = "D4 retries",
    [AT_D7_HELD_ONE] = "D7 retires the held node", [AT_D7_HELD_NONE] = "D7 held none before",
    [AT_RETIRED_FREE] = "retired, free at once", [AT_RETIRED_WAITS] = "retired, waits",
    [AT_ANSWER_FREES] = "answer frees a waiting node", [AT_ANSWER_KEEPS_WAITING] = "answer leaves a node waiting",
    [AT_A1_REUSED] = "A1 takes a used node", [AT_A7_INDEX_TO_LARGEST] = "A7 stores the largest index",
    [AT_WRITE_BACK_HEAD] = "write-back of line 0", [AT_WRITE_BACK_NODE] = "write-back of a node",
    [AT_BEGIN_ENQUEUE] = "begin of an enqueue", [AT_BEGIN_DEQUEUE] = "begin of a dequeue", [AT_CRASH] = "crash",
    [AT_DUMMY_INDEX_CHANGES] = "a start changes the dummy's index", [AT_GAP] = "a start with a gap",
    [AT_STALE_LINKED] = "A1 takes a node still linked", [AT_EQUAL_CONTENT] = "a content comes again",
    [AT_SIXTEEN] = "a line of 16 contents", [AT_MANY_CRASHES] = "several crashes in a schedule",
    [AT_LONGEST] = "4096 events", [AT_NODES_2] = "2 nodes", [AT_NODES_64] = "64 nodes",
    [AT_THREADS_1] = "1 thread", [AT_THREADS_8] = "8 threads", [AT_ITEM_0] = "item 0",
    [AT_ITEM_LARGEST] = "item 4294967295", [AT_EQUAL_IN_FLIGHT] = "equal items in flight",
    [AT_NARROW] = "image version 1", [AT_WIDE] = "image version 2", [AT_A7_PASSES_32] = "A7 stores 4294967296",
    [AT_A7_WIDE_TO_LARGEST] = "A7 stores the largest index of 64 bits",
    [AT_WORN_NARROW] = "Worn out at 32 bits", [AT_WORN_WIDE] = "Worn out at 64 bits",
    [AT_HIGH_HALF_DECIDES] = "recovered or not by the high half alone", [AT_LOW_HALVES_EQUAL] = "recovered nodes with equal low halves",
    [AT_A1_ROUND] = "A1 goes round past the end", [AT_A1_LAST_AGAIN] = "A1 hands the last one out again", [AT_A1_NOT_LOWEST] = "A1 takes another node than the lowest",
};

void reach(u32 point)
{
    if (point < POINTS)
        reached[point]++;
}

/* What a program that looked at 32 bits of an index would get wrong. */
static void count_halves(const Image *image)
{
    for (u32 i = 0; i < image->n; i++) {
        int by_low_half = (u32)image->nodes[i].index > (u32)head_of(image, image->form == TWO ? image->nodes[i].queue : 0);
        if (image->nodes[i].linked && by_low_half != is_recovered(image, i))
            reach(AT_HIGH_HALF_DECIDES);
        for (u32 j = 0; j < i; j++)
            if (is_recovered(image, i) && is_recovered(image, j) && (u32)image->nodes[i].index == (u32)image->nodes[j].index)
                reach(AT_LOW_HALVES_EQUAL);
    }
}

/* What the inputs are like, beyond the events themselves. */
void count_schedule(const Schedule *s)
{
    u32 crashes = 0;
    reach(s->image.form == TWO ? AT_TWO : s->image.form == DESKS ? AT_DESKS : s->image.form == WIDE ? AT_WIDE : AT_NARROW);
    count_halves(&s->image);
    for (u32 i = 0; i < s->event_count; i++) {
        Event e = event_at(s, i);
        crashes += e.kind == CRASH;
        if (!enqueues(e.kind))
            continue;
        if (e.item == 0)
            reach(AT_ITEM_0);
        if (e.item == LARGEST)
            reach(AT_ITEM_LARGEST);
    }
    if (crashes > 1)
        reach(AT_MANY_CRASHES);
    if (s->event_count == MAX_EVENTS)
        reach(AT_LONGEST);
    if (s->image.n == MIN_NODES)
        reach(AT_NODES_2);
    if (s->image.n == MAX_NODES)
        reach(AT_NODES_64);
    if (s->t == 1)
        reach(AT_THREADS_1);
    if (s->t == MAX_THREADS)
        reach(AT_THREADS_8);
}

/* A point of a request that is off cannot be reached. */
static int due(u32 point)
{
    if (point >= AT_A1_ROUND && point <= AT_A1_NOT_LOWEST)
        return on(ROTATION);
    if (point == AT_STEP + S3 || point == AT_STEP + S6 || point == AT_DESKS || point == AT_LARGEST_NOT_FIRST)
        return on(DESKS_TOO);
    if ((point >= AT_STEP + A10_FENCE && point <= AT_STEP + D6_FENCE) || (point >= AT_FENCE_MOVES && point <= AT_FENCE_NOT_PRESENT))
        return on(FENCES);
    if (point == AT_STEP + AQ || point == AT_TWO || point == AT_BOTH_QUEUES)
        return on(QUEUES_TOO);
    if (point == AT_NUMBER + CLEAN_LINE)
        return on(CLEAN);
    return 1;
}

/* Prints every point that has a name; gives the number of those never reached. */
int print_counts(void)
{
    int missing = 0;
    for (u32 i = 0; i < POINTS; i++) {
        if (!names[i] || !due(i))
            continue;
        put_number(reached[i]);
        put_text(" ");
        put_text(names[i]);
        put_text(reached[i] ? "\n" : " NEVER REACHED\n");
        missing += reached[i] == 0;
    }
    return missing;
}

/* Histories drawn from runs: what the endings of a schedule's page are to the judge of request 110, as they are or with one thing changed. */
#include "second.h"

enum { EACH = 8, OPERATION = 22, LONGEST = 3 + 4 * 63 + 4 * 63 + 16 * OPERATION };

static u8 history[LONGEST + 8];

static void put_framed(const u8 *bytes, u64 length)
{
    u8 head[4];
    put4(head, (u32)length);
    put_bytes(head, 4);
    put_bytes(bytes, length);
}

static u64 queues_end(void)
{
    return 3 + 4 * ((u64)history[1] + history[2]);
}

/* Some item that the history has, or another. */
static u32 some_item(u64 length)
{
    u32 items = history[1] + history[2], n = history[0], at = below(items + n + 1);
    if (at < items)
        return get4(history + 3 + 4 * at);
    return at < items + n ? get4(history + length - OPERATION * (u64)(n - (at - items)) + 18) : below(9);
}

/* The recovered queue loses an item, gains one, or has another in its place. */
static u64 change_queue(u64 length)
{
    u32 count = history[2];
    u64 end = queues_end(), at = end - 4 * (u64)below(count + 1);
    u32 item = some_item(length), change = below(3);
    if (change == 0 && count < 63) {
        for (u64 i = length; i > at; i--)
            history[i + 3] = history[i - 1];
        put4(history + at, item);
        history[2]++;
        return length + 4;
    }
    if (at == end)
        return length;
    if (change == 1) {
        for (u64 i = at; i + 4 < length; i++)
            history[i] = history[i + 4];
        history[2]--;
        return length - 4;
    }
    put4(history + at, item);
    return length;
}

/* An operation has another item, began at another time, lost its answer, or has one that its kind can have. */
static void change_operation(u64 length)
{
    u8 *at = history + queues_end() + OPERATION * (u64)below(history[0]);
    u32 event = below(200);
    switch (below(4)) {
    case 0:
        put4(at + 18, some_item(length));
        break;
    case 1:
        put4(at + 1, at[17] == NOTHING || event < get4(at + 9) ? event : get4(at + 9));
        break;
    case 2:
        at[17] = NOTHING;
        put4(at + 9, 0);
        break;
    default:
        at[17] = (u8)(at[0] == 1 ? 1 + below(3) : 4 + below(2));
        put4(at + 9, get4(at + 1) + below(40));
        if (at[17] == AN_ITEM)
            put4(at + 18, some_item(length));
    }
}

/* drawn: a stream of schedules; the histories of at most EACH endings of each, framed. drawn changed: each with one or two things changed. */
int mode_drawn(int count, char **words)
{
    u64 length, endings, inputs = 0;
    int changed = count == 1 && same_text(words[0], "changed");
    while (read_next(&length)) {
        u64 taken = run_for_histories(input, length, &endings) ? (endings < EACH ? endings : EACH) : 0;
        seed_random(110, ++inputs);
        for (u64 i = 0; i < taken; i++) {
            u64 size = history_of_ending(i * endings / taken, history);
            for (u32 changes = changed ? 1 + below(2) : 0; size > 0 && changes > 0; changes--) {
                if (history[0] > 0 && chance(60))
                    change_operation(size);
                else
                    size = change_queue(size);
            }
            if (size > 0)
                put_framed(history, size);
        }
    }
    return 0;
}

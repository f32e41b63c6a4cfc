/* A long run on one record. Each event is drawn from a number that follows from the last one; refused events count among the events. */
#include "second.h"

static u32 next_number(u32 x)
{
    return (u32)(((u64)x * 1103515245u + 12345u) % 2147483648u);
}

/* Of 16 events one begins an enqueue, one a dequeue, one is a write-back, the others are steps; now and then one is a crash. */
static Event drawn(u32 x)
{
    u32 thread = x / 134217728u % 8;
    u32 line = x / 16777216u % 64;
    Event begins_enqueue = {BEGIN_ENQUEUE, thread, x % 4096};
    Event begins_dequeue = {BEGIN_DEQUEUE, thread, 0};
    Event writes_back = {WRITE_BACK, line, 0};
    Event crashes = {CRASH, 0, 0};
    Event steps = {STEP, thread, 0};
    if (x / 65536u % 4096 == 0)
        return crashes;
    switch (x / 1048576u % 16) {
    case 0: return begins_enqueue;
    case 1: return begins_dequeue;
    case 2: return writes_back;
    default: return steps;
    }
}

/* An item is N, T, the first number (4 bytes) and how many events there are (4). */
void print_soak(const u8 *bytes, u64 length)
{
    static Machine machine;
    static Image image;
    u8 record[MOST_RECORD];
    u64 taken = 0, items = 0;
    if (length != 10)
        stop("a long run has 10 bytes");
    image.form = NARROW;
    image.n = bytes[0];
    image.head_index = 0;
    start(&machine, bytes[1], &image);
    u32 x = get4(bytes + 2);
    for (u32 left = get4(bytes + 6); left > 0; left--) {
        Reply reply;
        Event event = drawn(x);
        if (perform(&machine, &event, &reply).number == TAKEN) {
            taken++;
            items += reply.value;
        }
        x = next_number(x);
    }
    record_to_bytes(&machine, record);
    put_number(taken);
    put_text(" ");
    put_number(items);
    put_text(" ");
    put_sum(add_to_sum(NO_SUM, record, record_bytes()));
    put_text("\n");
}

/* What is printed of machine records: traces, single events, starts, place counts, saved images. */
#include "second.h"

static void print_reply(const Reply *reply, const u8 *record)
{
    put_number(reply->number);
    put_text(" ");
    put_number(reply->value);
    put_text(" ");
    put_hex(record, record_bytes());
    put_text("\n");
}

static void print_moment(const Machine *m, const Reply *reply)
{
    u8 record[MOST_RECORD];
    record_to_bytes(m, record);
    print_reply(reply, record);
}

/* The record's sum in the place of its bytes. */
static void print_moment_sum(const Machine *m, const Reply *reply)
{
    u8 record[MOST_RECORD];
    record_to_bytes(m, record);
    put_number(reply->number);
    put_text(" ");
    put_number(reply->value);
    put_text(" ");
    put_sum(add_to_sum(NO_SUM, record, record_bytes()));
    put_text("\n");
}

static void trace(const u8 *bytes, u64 length, void (*print)(const Machine *m, const Reply *reply))
{
    Schedule schedule;
    Reply reply = {NOTHING, 0, NO_LINE, 0};
    Verdict v = read_schedule(bytes, length, &schedule);
    if (v.number != TAKEN) {
        print_refusal(v);
        return;
    }
    bench_start(&the_bench, &schedule);
    print(&the_bench.machine, &reply);
    for (u32 i = 0; i < schedule.event_count; i++) {
        Event event = event_at(&schedule, i);
        v = bench_event(&the_bench, &event, i, &reply);
        if (v.number != TAKEN) {
            print_refusal(v);
            return;
        }
        print(&the_bench.machine, &reply);
    }
}

void print_trace(const u8 *bytes, u64 length)
{
    trace(bytes, length, print_moment);
}

void print_trace_sums(const u8 *bytes, u64 length)
{
    trace(bytes, length, print_moment_sum);
}

void print_verdict(Verdict v)
{
    put_number(v.number);
    put_text(" ");
    put_number(v.place);
    put_text(" ");
}

/* The bytes of the record that a schedule leads to, and an event behind it: an item of `record`. */
int mode_recorded(int count, char **words)
{
    u8 item[MOST_RECORD + EVENT_BYTES];
    Schedule schedule;
    u64 length = read_all();
    if (count != 2)
        stop("use: recorded KIND NUMBER");
    Event event = {(u32)number_from(words[0]), (u32)number_from(words[1]), 0};
    if (read_schedule(input, length, &schedule).number != TAKEN || run_schedule(&the_bench, &schedule).number != TAKEN)
        stop("the schedule is refused");
    record_to_bytes(&the_bench.machine, item);
    event_to_bytes(&event, item + record_bytes());
    put_bytes(item, record_bytes() + EVENT_BYTES);
    return 0;
}

/* A record with an event behind it. A record that is refused is printed as it was. */
void print_record_item(const u8 *bytes, u64 length)
{
    static u8 record[MOST_RECORD];
    Machine machine;
    Reply reply = {NOTHING, 0, NO_LINE, 0};
    const u8 *at = bytes + record_bytes();
    if (length != record_bytes() + EVENT_BYTES)
        stop("a record with an event behind it is expected");
    Event event = {at[0], at[1], get4(at + 2)};
    Verdict v = record_from_bytes(bytes, length - EVENT_BYTES, &machine);
    for (u64 i = 0; i < length - EVENT_BYTES; i++)
        record[i] = bytes[i];
    if (v.number == TAKEN)
        v = perform(&machine, &event, &reply);
    if (v.number == TAKEN)
        record_to_bytes(&machine, record);
    print_verdict(v);
    print_reply(&reply, record);
}

/* An image alone: its verdict and, when taken, the record that a start makes of it, with one thread or as many as it has index lines. */
void print_image(const u8 *bytes, u64 length)
{
    Image image;
    Machine machine;
    Reply reply = {NOTHING, 0, NO_LINE, 0};
    Verdict v = read_image(bytes, length, &image);
    if (v.number != TAKEN) {
        print_refusal(v);
        return;
    }
    start(&machine, image.form == DESKS ? image.t : 1, &image);
    print_moment(&machine, &reply);
}


/* How many nodes are in each of the six places. A record is tested for 18 first; the event behind it does not count. */
void print_place_counts(const u8 *bytes, u64 length)
{
    Machine machine;
    u32 counts[PLACES] = {0};
    if (length != record_bytes() + EVENT_BYTES)
        stop("a record with an event behind it is expected");
    Verdict v = record_from_bytes(bytes, length - EVENT_BYTES, &machine);
    if (v.number == TAKEN)
        count_places(&machine, counts);
    print_verdict(v);
    for (u32 i = 0; i < PLACES; i++) {
        put_number(counts[i]);
        put_text(i + 1 < PLACES ? " " : "\n");
    }
}

/* The persisted copies of a record as an image: 18, then as contents to be written. The two bytes behind the record give the room. */
void print_saved(const u8 *bytes, u64 length)
{
    static u8 buffer[65536];
    Machine machine;
    Image image;
    if (length != record_bytes() + EVENT_BYTES)
        stop("a record with an event behind it is expected");
    u64 room = get2(bytes + record_bytes());
    Verdict v = record_from_bytes(bytes, length - EVENT_BYTES, &machine);
    for (u64 i = 0; i < room; i++)
        buffer[i] = 0xaa; /* so that the bytes that stay can be seen */
    if (v.number == TAKEN) {
        persisted_image(&machine, &image);
        v = write_image(&image, buffer, room);
    }
    print_verdict(v);
    put_hex(buffer, room);
    put_text("\n");
}

/* A start from contents: 4, then 3, 6, 7, 8, 20. The last digit of the byte behind the nodes is T. */
void print_start(const u8 *bytes, u64 length)
{
    Machine machine;
    Image image;
    Verdict v;
    Reply reply = {NOTHING, 0, NO_LINE, 0};
    if (length != CONTENTS_BYTES && length != WIDE_CONTENTS_BYTES)
        stop("an item of contents has 583 bytes, or 844");
    u32 t = bytes[length - 2] % 10;
    contents_from_bytes(bytes, length, &image);
    v = t < 1 || t > MAX_THREADS ? verdict(WRONG_T, 0) : test_contents(&image);
    if (v.number == TAKEN)
        v = test_fits(&image);
    if (v.number != TAKEN) {
        print_refusal(v);
        return;
    }
    start(&machine, t, &image);
    print_moment(&machine, &reply);
}

/* "A fresh machine is the start of the all-zero image." Two bytes: N and T, refused as contents with T are. */
void print_fresh(const u8 *bytes, u64 length)
{
    static const Content zero = {0, 0, 0, 0};
    Machine machine;
    Image image;
    Reply reply = {NOTHING, 0, NO_LINE, 0};
    if (length != 2)
        stop("N and T have 2 bytes");
    image.form = NARROW;
    image.n = bytes[0];
    image.head_index = 0;
    for (u32 i = 0; i < MAX_NODES; i++)
        image.nodes[i] = zero;
    Verdict v = bytes[1] < 1 || bytes[1] > MAX_THREADS ? verdict(WRONG_T, 0) : test_contents(&image);
    if (v.number != TAKEN) {
        print_refusal(v);
        return;
    }
    start(&machine, bytes[1], &image);
    print_moment_sum(&machine, &reply);
}

/* What is printed: pages, endings, images, schedules, contents. */
#include "second.h"

u64 planted;
int plant_now;

void print_refusal(Verdict v)
{
    put_text("refused ");
    put_number(v.number);
    put_text(" at ");
    put_number(v.place);
    put_text("\n");
    reach(AT_NUMBER + v.number);
}

static void print_first_line(const Schedule *s, u64 count)
{
    put_text("UQS 1 threads ");
    put_number(s->t);
    put_text(" nodes ");
    put_number(s->image.n);
    put_text(" events ");
    put_number(s->event_count);
    put_text(" endings ");
    put_number(count);
    put_text("\n");
}

static void print_ending(const Image *image, u64 k)
{
    put_number(k);
    for (u32 q = 0; q < queue_count(image->form); q++) {
        u32 order[MAX_NODES];
        u32 count = recovered_in_order(image, q, order);
        put_text(q == 0 ? " " : " | ");
        put_number(head_of(image, q));
        for (u32 i = 0; i < count; i++) {
            put_text(" ");
            put_number(image->nodes[order[i]].item);
        }
        put_text(count == 0 ? " -" : "");
    }
    put_text("\n");
}

/* Gives the number of the verdict. */
u32 print_page(const u8 *bytes, u64 length)
{
    Schedule schedule;
    Image image;
    u64 count;
    Verdict v = endings_of(bytes, length, &schedule, &the_bench, &count);
    if (plant_now)
        v.place++;
    if (v.number != TAKEN) {
        print_refusal(v);
        return v.number;
    }
    reach(AT_NUMBER + TAKEN);
    print_first_line(&schedule, plant_now ? count + 1 : count);
    for (u64 k = 0; k < count; k++) {
        ending_image(&the_bench, k, &image);
        print_ending(&image, k);
    }
    return TAKEN;
}

u64 add_to_sum(u64 sum, const u8 *bytes, u64 length)
{
    for (u64 i = 0; i < length; i++)
        sum = (sum ^ bytes[i]) * 1099511628211u; /* FNV-1a, 64 bits */
    return sum;
}

void put_sum(u64 sum)
{
    u8 total[8];
    put4(total, (u32)sum);
    put4(total + 4, (u32)(sum >> 32));
    put_hex(total, 8);
}

static void print_ending_bytes(u64 whole, u64 count)
{
    enum { SHOWN = 32 };
    u8 buffer[MAX_IMAGE];
    u64 sum = NO_SUM;
    for (u64 k = 0; k < count; k++) {
        Image image;
        ending_image(&the_bench, k, &image);
        Verdict v = write_image(&image, buffer, whole);
        if (v.number != TAKEN) {
            print_refusal(v); /* 7 or 8: only a wrong machine leaves such an ending */
            continue;
        }
        if (count <= SHOWN) {
            put_hex(buffer, whole);
            put_text("\n");
        }
        sum = add_to_sum(sum, buffer, whole);
    }
    put_text("sum ");
    put_sum(sum);
    put_text("\n");
}

void print_endings(const u8 *bytes, u64 length)
{
    Schedule schedule;
    u8 buffer[MAX_IMAGE];
    u64 count;
    Verdict v = endings_of(bytes, length, &schedule, &the_bench, &count);
    if (v.number != TAKEN) {
        print_refusal(v);
        return;
    }
    u64 whole = length_of(&schedule.image);
    put_text("endings ");
    put_number(count);
    put_text("\n");
    print_ending_bytes(whole, count);
    print_refusal(write_ending(bytes, length, count, buffer, 0));
    print_refusal(write_ending(bytes, length, count - 1, buffer, whole - 1));
}

/* The image as it is written, in hex. */
static void print_written_again(const Image *image)
{
    u8 buffer[MAX_IMAGE];
    Verdict v = write_image(image, buffer, sizeof buffer);
    if (v.number != TAKEN)
        print_refusal(v);
    else
        put_hex(buffer, length_of(image));
}

/* An image alone: its verdict or, when taken, the image written again. */
void print_image_again(const u8 *bytes, u64 length)
{
    Image image;
    Verdict v = read_image(bytes, length, &image);
    if (v.number != TAKEN) {
        print_refusal(v);
        return;
    }
    print_written_again(&image);
    put_text("\n");
}

/* A schedule up to its events, which are not tried: its verdict or, when taken, T, the count, the image and every event. */
void print_schedule(const u8 *bytes, u64 length)
{
    Schedule schedule;
    Verdict v = read_schedule(bytes, length, &schedule);
    if (v.number != TAKEN) {
        print_refusal(v);
        return;
    }
    put_text("taken ");
    put_number(schedule.t);
    put_text(" ");
    put_number(schedule.event_count);
    put_text(" ");
    print_written_again(&schedule.image);
    put_text(" ");
    for (u32 i = 0; i < schedule.event_count; i++) {
        u8 six[EVENT_BYTES];
        Event event = event_at(&schedule, i);
        event_to_bytes(&event, six);
        put_hex(six, EVENT_BYTES);
    }
    put_text("\n");
}

/* Contents as bytes. Those of 583 bytes are for version 1: N, head index (4), 64 nodes of 9 bytes. Those of 844 say the version they are for:
   version (1), N, head index (8), 64 nodes of 13 bytes. The room of the lent buffer (2) is behind both. */
void contents_from_bytes(const u8 *bytes, u64 length, Image *image)
{
    u32 layout = length == WIDE_CONTENTS_BYTES ? WIDE : NARROW;
    image->form = NARROW;
    if (layout == WIDE)
        image->form = *bytes++ == 2 ? WIDE : NARROW;
    image->n = bytes[0];
    image->head_index = get_index(layout, bytes + 1);
    for (u32 i = 0; i < MAX_NODES; i++) {
        const u8 *at = bytes + 1 + index_bytes(layout) + image_node(layout) * i;
        image->nodes[i].queue = 0;
        image->nodes[i].linked = at[0];
        image->nodes[i].index = get_index(layout, at + 1);
        image->nodes[i].item = get4(at + 1 + index_bytes(layout));
    }
}

/* Contents to be written as an image, into a buffer whose room stands behind them. */
void print_contents_item(const u8 *item, u64 length)
{
    static u8 buffer[65536];
    Image image;
    if (length != CONTENTS_BYTES && length != WIDE_CONTENTS_BYTES)
        stop("an item of contents has 583 bytes, or 844");
    u64 room = get2(item + length - 2);
    contents_from_bytes(item, length, &image);
    for (u64 i = 0; i < room; i++)
        buffer[i] = 0xaa; /* so that the bytes that stay can be seen */
    Verdict v = write_image(&image, buffer, room);
    put_number(v.number);
    put_text(" ");
    put_number(v.place);
    put_text(" ");
    put_hex(buffer, room);
    put_text("\n");
}

/* Inputs: raw bytes, raw bytes behind a right beginning, and generated schedules spoilt. */
#include "fuzz.h"

static u64 raw(u8 *bytes, u64 length)
{
    for (u64 i = 0; i < length; i++)
        bytes[i] = (u8)random_bits();
    return length;
}

/* A right beginning with raw bytes behind it: the schedule's head, then the image's too, then a right length too. */
static u64 raw_behind_head(u8 *bytes, int image, int length_right)
{
    static const u8 head[5] = {'U', 'Q', 'S', 1, 0};
    u32 events = below(40), n = 2 + below(chance(80) ? 5 : 63), form = some_form();
    Image inner = {.form = form, .n = n, .t = 1 + below(8)};
    u64 length = raw(bytes, SCHEDULE_HEAD + length_of(&inner) + EVENT_BYTES * events);
    for (u32 i = 0; i < 5; i++)
        bytes[i] = head[i];
    if (!image)
        return below((u32)length + 1);
    bytes[5] = (u8)inner.t;
    put2(bytes + 6, events);
    bytes[SCHEDULE_HEAD] = 'U';
    bytes[SCHEDULE_HEAD + 1] = 'Q';
    bytes[SCHEDULE_HEAD + 2] = form == DESKS ? 'P' : 'I';
    put2(bytes + SCHEDULE_HEAD + 3, form == DESKS ? 1 : form);
    bytes[SCHEDULE_HEAD + 5] = (u8)n;
    if (form == DESKS && chance(95))
        bytes[SCHEDULE_HEAD + 6] = (u8)inner.t;
    if (!length_right)
        return below((u32)length + 20);
    for (u32 i = 0; i < n; i++) {
        u8 *node = bytes + SCHEDULE_HEAD + length_of(&inner) - image_node(form) * (n - i);
        node[0] &= chance(99);
        if (form == TWO)
            *++node &= chance(99);
        if (chance(50))
            put_index(form, node + 1, below(5));
    }
    for (u32 i = 0; i < events; i++) {
        u8 *event = bytes + SCHEDULE_HEAD + length_of(&inner) + EVENT_BYTES * i;
        event[0] = (u8)(chance(97) ? 1 + below(form == TWO ? 7 : 5) : event[0]);
        event[1] = (u8)below(chance(90) ? bytes[5] : 9);
        if (chance(95) && !enqueues(event[0]))
            put4(event + 2, 0);
        if (event[0] == CRASH && chance(95))
            event[1] = 0;
    }
    return length;
}

/* One to six changes: bytes, cuts, repeats, gaps. */
void spoil(u8 *bytes, u64 *length, u64 room)
{
    for (u32 changes = 1 + below(6); changes > 0 && *length > 0; changes--) {
        u64 at = below((u32)*length);
        switch (below(6)) {
        case 0:
            bytes[at] ^= (u8)(1u << below(8));
            break;
        case 1:
            bytes[at] = (u8)random_bits();
            break;
        case 2:
            bytes[at] = chance(50) ? 0 : 255;
            break;
        case 3:
            *length = at;
            break;
        case 4: /* six bytes twice: an event, most often */
            if (at + 12 <= *length)
                for (u32 i = 0; i < 6; i++)
                    bytes[at + 6 + i] = bytes[at + i];
            break;
        default: /* more bytes at the end */
            for (u32 i = below(9); i > 0 && *length < room; i--)
                bytes[(*length)++] = (u8)random_bits();
        }
    }
}

/* A history of request 110: generated, generated and spoilt, raw behind three right counts, or raw. */
u64 some_history(u64 seed, u64 number, u8 *bytes)
{
    u64 length = generate_history(seed, number, bytes);
    u32 kind = below(10);
    if (kind < 5)
        return length;
    if (kind < 8)
        return spoil(bytes, &length, LONGEST), length;
    length = raw(bytes, below(kind == 8 ? 900 : 20));
    if (kind == 8 && length >= 3) {
        bytes[0] = (u8)below(17);
        bytes[1] = (u8)below(64);
        bytes[2] = (u8)below(64);
        length = raw(bytes + 3, 4 * ((u64)bytes[1] + bytes[2]) + 22 * (u64)bytes[0]) + 3;
    }
    return length;
}

u64 some_input(u64 seed, u64 number, u8 *bytes)
{
    static const char *const shapes[] = {"tiny", "small", "deep", "bursts", "worn", "valid", "refused", "wild", "clean", "flushed"};
    u64 length;
    seed_random(seed, number);
    u32 kind = below(16);
    if (chance(1) && chance(5))
        return raw_behind_head(bytes, 1, 1), raw(bytes + 400, LONGEST - 400 - below(40000)) + 400;
    if (kind < 2)
        return raw(bytes, below(kind == 0 ? 40 : 700));
    if (kind < 4)
        return raw_behind_head(bytes, kind == 3, 0);
    if (kind < 9)
        return raw_behind_head(bytes, 1, 1);
    length = generate_input(seed + 1, number, shapes[below(sizeof shapes / sizeof shapes[0])], bytes);
    if (kind < 14)
        spoil(bytes, &length, LONGEST);
    return length;
}

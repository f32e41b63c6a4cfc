/* The schedule's bytes. */
#include "second.h"

/* "fewer than 8 bytes (1), 2, 4, 5" */
static Verdict read_schedule_head(const u8 *bytes, u64 length, Schedule *s)
{
    if (length < SCHEDULE_HEAD)
        return verdict(WRONG_LENGTH, 0);
    if (bytes[0] != 'U' || bytes[1] != 'Q' || bytes[2] != 'S' || get2(bytes + 3) != 1)
        return verdict(WRONG_MARK, 0);
    s->t = bytes[5];
    if (s->t < 1 || s->t > MAX_THREADS)
        return verdict(WRONG_T, 0);
    s->event_count = get2(bytes + 6);
    if (s->event_count > MAX_EVENTS)
        return verdict(TOO_MANY_EVENTS, 0);
    return verdict(TAKEN, 0);
}

Verdict read_schedule(const u8 *bytes, u64 length, Schedule *s)
{
    Verdict v = read_schedule_head(bytes, length, s);
    if (v.number != TAKEN)
        return v;
    v = read_image_head(bytes + SCHEDULE_HEAD, length - SCHEDULE_HEAD, &s->image);
    if (v.number == TAKEN && s->image.form == DESKS && s->image.t != s->t)
        v = verdict(WRONG_T, 0); /* "a schedule whose two T differ is 4, right after the image's own 4" */
    if (v.number != TAKEN)
        return v;
    u64 before_events = SCHEDULE_HEAD + length_of(&s->image);
    if (length != before_events + (u64)EVENT_BYTES * s->event_count)
        return verdict(WRONG_LENGTH, 0);
    s->events = bytes + before_events;
    return read_image_nodes(bytes + SCHEDULE_HEAD, &s->image);
}

Event event_at(const Schedule *s, u32 number)
{
    const u8 *at = s->events + EVENT_BYTES * number;
    Event e = {at[0], at[1], get4(at + 2)};
    return e;
}

void event_to_bytes(const Event *e, u8 *bytes)
{
    bytes[0] = (u8)e->kind;
    bytes[1] = (u8)e->number;
    put4(bytes + 2, e->item);
}

/* Writes the head and the image; the caller has put the events (or puts them) behind, at the length given back. */
u64 schedule_to_bytes(const Schedule *s, u8 *bytes)
{
    bytes[0] = 'U';
    bytes[1] = 'Q';
    bytes[2] = 'S';
    put2(bytes + 3, 1);
    bytes[5] = (u8)s->t;
    put2(bytes + 6, s->event_count);
    image_to_bytes(&s->image, bytes + SCHEDULE_HEAD);
    return SCHEDULE_HEAD + length_of(&s->image);
}

/* Request 104: where every fence follows its flush at once, all is as with one step; such a schedule is made from one without fences. */
#include "second.h"

static u8 twice[SCHEDULE_HEAD + MAX_IMAGE + 2 * EVENT_BYTES * MAX_EVENTS];

/* The schedule with a step added behind each one that passes a persist; gives its length, and 0 where it gets too long or is refused. */
static u64 add_fences(const u8 *bytes, u64 length)
{
    static Machine m;
    Schedule s;
    u32 count = 0;
    set(FENCES, 0);
    if (read_schedule(bytes, length, &s).number != TAKEN)
        return 0;
    u64 at = schedule_to_bytes(&s, twice);
    start(&m, s.t, &s.image);
    for (u32 i = 0; i < s.event_count; i++) {
        Reply reply;
        Event e = event_at(&s, i);
        u32 step = e.kind == STEP && e.number < s.t ? m.threads[e.number].step : IDLE;
        if (perform(&m, &e, &reply).number != TAKEN)
            return 0;
        for (u32 times = step == A10 || step == D3 || step == D6 ? 2 : 1; times > 0; times--, count++, at += EVENT_BYTES)
            event_to_bytes(&e, twice + at);
    }
    put2(twice + 6, count);
    return count > MAX_EVENTS ? 0 : at;
}

int mode_fenced(int count, char **words)
{
    u64 length = read_all();
    (void)count, (void)words;
    put_bytes(twice, add_fences(input, length));
    return 0;
}

static int same_bytes(const u8 *a, const u8 *b, u64 length)
{
    for (u64 i = 0; i < length; i++)
        if (a[i] != b[i])
            return 0;
    return 1;
}

/* The endings of the one without fences are those of the other. */
Finding same_when_fenced(const u8 *bytes, u64 length)
{
    static Bench other;
    Finding agrees = {AGREES, 0, "", 1}, left_out = {TOO_LARGE, 0, "no page", 0}, contradicts = {CONTRADICTS, 0, "other endings with fences", 1};
    Schedule s, fenced;
    u64 count, also, size = add_fences(bytes, length);
    if (size == 0 || endings_of(bytes, length, &s, &the_bench, &count).number != TAKEN)
        return left_out;
    set(FENCES, 1);
    if (endings_of(twice, size, &fenced, &other, &also).number != TAKEN || also != count + (u64)plant_now)
        return contradicts;
    for (u64 k = 0; k < count; k++) {
        u8 one[MAX_IMAGE], two[MAX_IMAGE];
        Image a, b;
        ending_image(&the_bench, k, &a);
        ending_image(&other, k, &b);
        image_to_bytes(&a, one);
        image_to_bytes(&b, two);
        if (!same_bytes(one, two, length_of(&a)))
            return contradicts;
    }
    return agrees;
}

/* Request 102: a schedule is turned away for a clean write-back, at the first one, or has the page that it had. */
#include "second.h"

enum { PAGE = 1 << 21 };

/* The first event that is a write-back of a line whose two contents are equal, or NEVER. The run is made without 19. */
static u32 first_clean(const Schedule *s)
{
    static Machine m;
    start(&m, s->t, &s->image);
    for (u32 i = 0; i < s->event_count; i++) {
        Reply reply;
        Event e = event_at(s, i);
        if (e.kind == WRITE_BACK && e.number < line_count(&m) && e.item == 0 && is_clean(&m, e.number))
            return i;
        if (perform(&m, &e, &reply).number != TAKEN)
            return NEVER;
    }
    return NEVER;
}

Finding clean_or_same(const u8 *bytes, u64 length)
{
    static u8 before[PAGE], after[PAGE];
    Finding agrees = {AGREES, 0, "", 1}, another = {CONTRADICTS, 0, "another page than without request 102", 1};
    Finding place = {CONTRADICTS, 0, "not refused by 19 at its first clean write-back", 1};
    Schedule s;
    set(CLEAN, 0);
    u32 first = read_schedule(bytes, length, &s).number == TAKEN ? first_clean(&s) : NEVER;
    capture_output(before, PAGE);
    print_page(bytes, length);
    u64 size = end_capture();
    set(CLEAN, 1);
    if (first != NEVER) {
        Verdict v = run_schedule(&the_bench, &s);
        return v.number == CLEAN_LINE && v.place == first + (u32)plant_now ? agrees : place;
    }
    capture_output(after, PAGE);
    print_page(bytes, length);
    if (end_capture() != size)
        return another;
    for (u64 i = 0; i < size; i++)
        if (before[i] != after[i])
            return another;
    return agrees;
}

/* The wrong machines by name, and the search for a schedule that shows one wrong. */
#include "second.h"

static const char *const machine_names[MACHINES] = {
    "right", "index-first", "retire-same-dequeue", "empty-no-persist", "consecutive", "equal-twice",
    "waits-for-nobody", "a10-no-persist", "d6-no-persist", "a4-left-out",
    "worn-by-32", "nodes-first", "low-half-twice", "lowest-cleared", "stops-at-first",
    "from-last", "tail-last", "last-forgotten",
    "s6-old-dummy", "s3-line-0", "persist-line-0", "first-desk", "last-desk",
    "clean-without-item", "clean-before-zeros", "clean-itself", "heads-never-clean",
    "fence-present", "fence-backwards", "empty-at-flush", "write-back-forgotten", "over-all", "late-left", "over-left",
    "one-held", "queue-before-linked", "dummies-linked",
    "by-item", "unanswered-never-in",
    "line-0-fastest", "repeats-kept",
};

u32 machine_of_name(const char *name)
{
    for (u32 i = 0; i < MACHINES; i++)
        if (same_text(name, machine_names[i]))
            return i;
    stop("no such machine");
    return RIGHT;
}

static u32 result_of(u32 machine, u32 shown, const u8 *bytes, u64 length)
{
    wrong_machine = shown;
    Finding f = machine == EQUAL_TWICE ? plain_way(bytes, length) : judge(bytes, length);
    wrong_machine = RIGHT;
    return f.result;
}

/* The schedule shows the machine wrong, and the right machine passes on it. */
static int shows(u32 machine, const u8 *bytes, u64 length)
{
    return result_of(machine, machine, bytes, length) == CONTRADICTS && result_of(machine, RIGHT, bytes, length) == AGREES;
}

static u8 trial[MAX_SCHEDULE];

static void copy(u8 *to, const u8 *from, u64 length)
{
    for (u64 i = 0; i < length; i++)
        to[i] = from[i];
}

static u64 events_from(const u8 *bytes)
{
    return SCHEDULE_HEAD + length_in(bytes + SCHEDULE_HEAD);
}

/* Leaves out the events whose entry in `drop` is set; keeps the shorter schedule if it still shows the machine wrong. */
static int try_without(u32 machine, u8 *bytes, u64 *length, const u8 *drop)
{
    u64 at = events_from(bytes), to = at;
    u32 count = get2(bytes + 6), kept = 0;
    copy(trial, bytes, at);
    for (u32 i = 0; i < count; i++)
        if (!drop[i]) {
            copy(trial + to, bytes + at + EVENT_BYTES * i, EVENT_BYTES);
            to += EVENT_BYTES;
            kept++;
        }
    put2(trial + 6, kept);
    if (kept == count || !shows(machine, trial, to))
        return 0;
    copy(bytes, trial, to);
    *length = to;
    return 1;
}

/* The events of one operation: its begin and the steps of its thread up to the next begin or crash. */
static void mark_operation(const u8 *bytes, u32 first, u8 *drop)
{
    const u8 *events = bytes + events_from(bytes);
    for (u32 i = first; i < get2(bytes + 6); i++) {
        const u8 *e = events + EVENT_BYTES * i;
        int same = (e[0] <= STEP || begins(e[0])) && e[1] == events[EVENT_BYTES * first + 1];
        if (e[0] == CRASH || (i > first && same && e[0] != STEP))
            return;
        if (same)
            drop[i] = 1;
    }
}

static int shrink_events(u32 machine, u8 *bytes, u64 *length)
{
    int shrunk = 0;
    for (u32 block = 64; block > 0; block /= 2)
        for (u32 first = 0; first < get2(bytes + 6); first++) {
            u8 drop[MAX_EVENTS] = {0};
            for (u32 i = first; i < first + block && i < MAX_EVENTS; i++)
                drop[i] = 1;
            shrunk |= try_without(machine, bytes, length, drop);
        }
    for (u32 first = 0; first < get2(bytes + 6); first++) {
        u8 drop[MAX_EVENTS] = {0};
        if ((bytes + events_from(bytes))[EVENT_BYTES * first] > BEGIN_DEQUEUE && !begins((bytes + events_from(bytes))[EVENT_BYTES * first]))
            continue;
        mark_operation(bytes, first, drop);
        shrunk |= try_without(machine, bytes, length, drop);
    }
    return shrunk;
}

static int try_byte(u32 machine, u8 *bytes, u64 length, u64 at, u8 value)
{
    u8 before = bytes[at];
    if (before == value)
        return 0;
    bytes[at] = value;
    if (shows(machine, bytes, length))
        return 1;
    bytes[at] = before;
    return 0;
}

/* Fewer threads, and zeros in the image. */
static int shrink_rest(u32 machine, u8 *bytes, u64 length)
{
    int shrunk = 0;
    if (bytes[5] > 1 && form_of(bytes + SCHEDULE_HEAD) != DESKS)
        shrunk |= try_byte(machine, bytes, length, 5, (u8)(bytes[5] - 1));
    for (u64 at = SCHEDULE_HEAD + 7; at < events_from(bytes); at++)
        shrunk |= try_byte(machine, bytes, length, at, 0);
    return shrunk;
}

/* Drops the last node when the schedule does without it. */
static int shrink_nodes(u32 machine, u8 *bytes, u64 *length)
{
    u64 from = events_from(bytes), node = image_node(form_of(bytes + SCHEDULE_HEAD));
    if (bytes[SCHEDULE_HEAD + 5] <= MIN_NODES + (form_of(bytes + SCHEDULE_HEAD) == TWO))
        return 0;
    copy(trial, bytes, from - node);
    copy(trial + from - node, bytes + from, *length - from);
    trial[SCHEDULE_HEAD + 5]--;
    if (!shows(machine, trial, *length - node))
        return 0;
    *length -= node;
    copy(bytes, trial, *length);
    return 1;
}

/* Puts the first schedule found on standard output, made as short as the steps above can. */
int search(u32 machine, u64 seed, u64 tries)
{
    for (u64 i = 0; i < tries; i++) {
        wrong_machine = machine;
        u64 length = generate_input(seed, i, i % 3 == 0 ? "small" : i % 3 == 1 ? "deep" : "bursts", input);
        if (!shows(machine, input, length))
            continue;
        while (shrink_events(machine, input, &length) | shrink_rest(machine, input, length) |
               shrink_nodes(machine, input, &length))
            continue;
        put_bytes(input, length);
        return 0;
    }
    return 1;
}

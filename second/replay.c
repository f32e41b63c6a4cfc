/* Request 112: a probe file replayed, from the request's words. */
#include "second.h"

enum { PROBE_EVENT = EVENT_BYTES + 6 }; /* the event's six bytes, the answer, the item (4), a zero byte */

/* What a probe recorded of an event, beside the event itself. */
typedef struct Recorded {
    u32 answer;
    u32 item;
    u32 last;
} Recorded;

typedef struct Difference {
    u32 found;
    u32 event;
    Recorded recorded;
    Reply given;
} Difference;

/* "mark "UQR", version 1, then T, event count and image as in a schedule", each event longer by six bytes; 01's order up to the events. */
static Verdict read_probe(const u8 *bytes, u64 length, Schedule *s)
{
    if (length < SCHEDULE_HEAD)
        return verdict(WRONG_LENGTH, 0);
    if (bytes[0] != 'U' || bytes[1] != 'Q' || bytes[2] != 'R' || get2(bytes + 3) != 1)
        return verdict(WRONG_MARK, 0);
    s->t = bytes[5];
    if (s->t < 1 || s->t > MAX_THREADS)
        return verdict(WRONG_T, 0);
    s->event_count = get2(bytes + 6);
    if (s->event_count > MAX_EVENTS)
        return verdict(TOO_MANY_EVENTS, 0);
    Verdict v = read_image_head(bytes + SCHEDULE_HEAD, length - SCHEDULE_HEAD, &s->image);
    if (v.number == TAKEN && s->image.form == DESKS && s->image.t != s->t)
        v = verdict(WRONG_T, 0);
    if (v.number != TAKEN)
        return v;
    u64 before_events = SCHEDULE_HEAD + length_of(&s->image);
    if (length != before_events + (u64)PROBE_EVENT * s->event_count)
        return verdict(WRONG_LENGTH, 0);
    s->events = bytes + before_events;
    return read_image_nodes(bytes + SCHEDULE_HEAD, &s->image);
}

static Event probed_event(const u8 *at)
{
    Event e = {at[0], at[1], get4(at + 2)};
    return e;
}

static Recorded recorded_at(const u8 *at)
{
    Recorded r = {at[6], get4(at + 7), at[11]};
    return r;
}

static int wrong_zero(Recorded r)
{
    return r.last != 0 || (r.answer != AN_ITEM && r.item != 0);
}

/* "an answer above 5 as 9 and a wrong zero as 13": each stands where 01's order has its number. */
static Verdict test_probed(const Machine *m, const Event *e, Recorded r)
{
    Verdict v = test_event(m, e);
    if (v.number == UNKNOWN_KIND || r.answer > EMPTY)
        return verdict(UNKNOWN_KIND, 0);
    if (v.number == NUMBER_TOO_LARGE)
        return v;
    return wrong_zero(r) ? verdict(FIELD_NOT_ZERO, 0) : v;
}

static int differs(Recorded r, const Reply *given)
{
    return r.answer != given->number || (r.answer == AN_ITEM && r.item != given->value);
}

/* "A refused event refuses the file, even where an earlier answer differed", so the run goes on behind a difference. */
static Verdict replay(const u8 *bytes, u64 length, Difference *d)
{
    Schedule s;
    Machine m;
    d->found = 0;
    Verdict v = read_probe(bytes, length, &s);
    if (v.number != TAKEN)
        return v;
    start(&m, s.t, &s.image);
    for (u32 i = 0; i < s.event_count; i++) {
        Reply reply;
        Event e = probed_event(s.events + PROBE_EVENT * i);
        Recorded r = recorded_at(s.events + PROBE_EVENT * i);
        v = test_probed(&m, &e, r);
        if (v.number == TAKEN)
            v = perform(&m, &e, &reply);
        if (v.number != TAKEN)
            return verdict(v.number, i);
        if (!d->found && differs(r, &reply)) {
            Difference first = {1, i, r, reply};
            *d = first;
            if (wrong_machine == STOPS_AT_FIRST)
                return v;
        }
    }
    return verdict(TAKEN, 0);
}

static void put_answer(const char *word, u32 answer, u32 item)
{
    put_text(word);
    put_number(answer);
    put_text(" ");
    put_number(item);
}

/* A line a file: `refused N at P`, `all agree`, or the first event whose answers differ, with both. */
static void print_replayed(const u8 *bytes, u64 length)
{
    Difference d;
    Verdict v = replay(bytes, length, &d);
    if (v.number != TAKEN) {
        print_refusal(v);
    } else if (!d.found) {
        put_text("all agree\n");
    } else {
        put_text("event ");
        put_number(d.event);
        put_answer(" recorded ", d.recorded.answer, d.recorded.item);
        put_answer(" given ", d.given.number, d.given.value);
        put_text("\n");
    }
}

int mode_replayed(int count, char **words)
{
    u64 length;
    (void)count, (void)words;
    while (read_next(&length))
        print_replayed(input, length);
    return 0;
}

/* ---- the same by the schedule that stands in the file, and by changed files */

static u8 copy[2 * MAX_SCHEDULE + PROBE_EVENT * MAX_EVENTS];

/* The schedule of a file whose length is right; gives its length. */
static u64 schedule_in(const u8 *bytes, u64 length, u64 before_events, u8 *to)
{
    u64 at = before_events;
    for (u64 i = 0; i < before_events; i++)
        to[i] = bytes[i];
    to[2] = bytes[2] == 'R' ? 'S' : 'R';
    for (u64 from = before_events; from < length; from += PROBE_EVENT)
        for (u32 i = 0; i < EVENT_BYTES; i++)
            to[at++] = bytes[from + i];
    return at;
}

/* What the file has to be refused with, from its schedule's verdict and from its first event that is recorded wrongly. */
static Verdict refused_by_parts(const u8 *events, u32 count, Verdict v)
{
    for (u32 i = 0; i < count; i++) {
        Recorded r = recorded_at(events + PROBE_EVENT * i);
        int refused_here = v.number >= UNKNOWN_KIND && v.place == i, refused_before = v.number >= UNKNOWN_KIND && v.place < i;
        if (refused_before || (v.number != TAKEN && v.number < UNKNOWN_KIND))
            return v;
        if (r.answer > EMPTY)
            return verdict(UNKNOWN_KIND, i);
        if (wrong_zero(r))
            return refused_here && v.number <= NUMBER_TOO_LARGE ? v : verdict(FIELD_NOT_ZERO, i);
    }
    return v;
}

static Finding finding(u32 result, u64 ending, const char *why)
{
    Finding f = {result, ending, why, 1};
    return f;
}

/* A file in which all agree: with the answer of any event changed, that event is the first that differs, with both answers. */
static Finding change_answers(u64 length, u8 *events, u32 count)
{
    for (u32 times = 0; times < 6 && count > 0; times++) {
        u32 event = below(count);
        u8 *at = events + PROBE_EVENT * event;
        Recorded before = recorded_at(at);
        Difference d;
        u32 answer = (before.answer + 1 + below(5)) % 6, item = answer == AN_ITEM ? (u32)random_bits() : 0;
        at[6] = (u8)answer;
        put4(at + 7, item);
        u32 number = replay(copy, length, &d).number;
        at[6] = (u8)before.answer;
        put4(at + 7, before.item);
        if (number != TAKEN || !d.found || d.event != event || d.recorded.answer != answer || d.recorded.item != item ||
            d.given.number != before.answer || d.given.value != before.item)
            return finding(CONTRADICTS, event, "a changed answer was not told");
    }
    return finding(AGREES, 0, "");
}

/* The first difference put right: the next one comes later, or all agree in the end. */
static Finding put_right(u64 length, u8 *events)
{
    Difference d;
    u32 before = 0, first = 1;
    while (replay(copy, length, &d).number == TAKEN && d.found) {
        u8 *at = events + PROBE_EVENT * d.event;
        if (!first && d.event <= before)
            return finding(CONTRADICTS, d.event, "an answer put right differs again");
        at[6] = (u8)d.given.number;
        put4(at + 7, d.given.value);
        before = d.event;
        first = 0;
    }
    return finding(AGREES, 0, "");
}

Finding replay_by_parts(const u8 *bytes, u64 length)
{
    static u8 schedule[2 * MAX_SCHEDULE];
    Schedule s;
    Difference d;
    Verdict v, given = replay(bytes, length, &d);
    if (length < SCHEDULE_HEAD + IMAGE_LEAST || length > sizeof copy || get2(bytes + 6) > MAX_EVENTS)
        return finding(given.number != TAKEN ? AGREES : CONTRADICTS, 0, "taken, and cannot be");
    u64 before_events = SCHEDULE_HEAD + length_in(bytes + SCHEDULE_HEAD);
    u32 count = get2(bytes + 6);
    if (length != before_events + (u64)PROBE_EVENT * count)
        return finding(given.number >= WRONG_LENGTH && given.number <= WRONG_T ? AGREES : CONTRADICTS, 0, "not refused for its length");
    for (u64 i = 0; i < length; i++)
        copy[i] = bytes[i];
    u64 rest = schedule_in(bytes, length, before_events, schedule);
    v = read_schedule(schedule, rest, &s);
    if (v.number == TAKEN)
        v = run_schedule(&the_bench, &s);
    v = refused_by_parts(bytes + before_events, count, v);
    if (plant_now)
        v.number++;
    if (v.number != given.number || v.place != given.place)
        return finding(CONTRADICTS, v.number, "the file's parts are refused otherwise");
    if (v.number != TAKEN)
        return finding(AGREES, 0, "");
    return d.found ? put_right(length, copy + before_events) : change_answers(length, copy + before_events, count);
}

/* ---- generated files */

/* The schedule's events with what the machine answers to each; behind a refused event nothing is recorded. Gives the file's length. */
static u64 recorded_run(const u8 *schedule, u64 length, u8 *bytes)
{
    Schedule s;
    Machine m;
    u64 before_events = SCHEDULE_HEAD + length_in(schedule + SCHEDULE_HEAD);
    int running = read_schedule(schedule, length, &s).number == TAKEN;
    if (before_events > length)
        before_events = length;
    u64 to = before_events;
    for (u64 i = 0; i < before_events; i++)
        bytes[i] = schedule[i];
    if (length > 2 && bytes[2] == 'S')
        bytes[2] = 'R';
    if (running)
        start(&m, s.t, &s.image);
    for (u64 from = before_events; from + EVENT_BYTES <= length; from += EVENT_BYTES, to += PROBE_EVENT) {
        Reply reply = {NOTHING, 0, NO_LINE, 0};
        Event e = probed_event(schedule + from);
        running = running && perform(&m, &e, &reply).number == TAKEN;
        event_to_bytes(&e, bytes + to);
        bytes[to + 6] = (u8)(running ? reply.number : NOTHING);
        put4(bytes + to + 7, running && reply.number == AN_ITEM ? reply.value : 0);
        bytes[to + 11] = 0;
    }
    return to;
}

/* One schedule to the true file of it. */
int mode_probed(int count, char **words)
{
    static u8 file[INPUT_KEPT * 2 + 1];
    u64 length = read_all();
    (void)count, (void)words;
    if (length > 2 * MAX_SCHEDULE)
        stop("too long");
    put_bytes(file, recorded_run(input, length, file));
    return 0;
}

/* One recorded answer changed to another lawful one, or the item of an answer 4. */
static void change_one_answer(u8 *events, u32 count)
{
    u8 *at = events + PROBE_EVENT * below(count);
    for (u32 tries = 0; tries < 20 && at[6] == NOTHING && chance(80); tries++)
        at = events + PROBE_EVENT * below(count); /* most events answer nothing */
    if (at[6] == AN_ITEM && chance(50)) {
        put4(at + 7, get4(at + 7) + 1 + below(3));
        return;
    }
    at[6] = (u8)((at[6] + 1 + below(5)) % 6);
    put4(at + 7, at[6] == AN_ITEM ? below(9) : 0);
}

/* An answer above 5, an item where there is none, a last byte that is not zero. */
static void record_wrongly(u8 *events, u32 count)
{
    u8 *at = events + PROBE_EVENT * below(count);
    switch (below(3)) {
    case 0: at[6] = (u8)(chance(50) ? 6 : 6 + below(250)); break;
    case 1: put4(at + 7, 1 + below(1000)); break;
    default: at[11] = (u8)(1 + below(255)); break;
    }
}

/* True files, files with one answer changed, and files that are refused, some of them behind a changed answer. */
u64 generate_probe(u64 number, u8 *bytes)
{
    static u8 schedule[4 * MAX_SCHEDULE];
    u32 kind = below(10);
    u64 length = kind < 7 ? generate_valid(schedule, chance(60)) : kind < 9 ? generate_refused(random_bits() % 14, schedule)
                                                                           : generate_damaged(number, schedule);
    length = recorded_run(schedule, length, bytes);
    u64 before_events = SCHEDULE_HEAD + length_in(bytes + SCHEDULE_HEAD);
    u32 count = length > before_events ? (u32)((length - before_events) / PROBE_EVENT) : 0;
    if (count > 0 && kind >= 3 && chance(80))
        change_one_answer(bytes + before_events, count);
    if (count > 0 && (kind == 6 || (kind > 6 && chance(30))))
        record_wrongly(bytes + before_events, count);
    if (kind == 9 && chance(20))
        length = below((u32)length + 1);
    return length;
}

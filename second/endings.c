/* The contents of each line since it was last written, and the endings they make. */
#include "second.h"

Bench the_bench;

int same_content(Content a, Content b)
{
    return a.linked == b.linked && a.index == b.index && a.item == b.item && a.queue == b.queue;
}

/* Equal contents count once, at the first appearance. */
static void list(History *line, Content content)
{
    u32 from = 0;
    if (wrong_machine == EQUAL_TWICE && line->count > 0)
        from = line->count - 1; /* looks at the last one only */
    for (u32 i = from; i < line->count; i++)
        if (same_content(line->list[i], content)) {
            if (i + 1 < line->count)
                reach(AT_EQUAL_CONTENT);
            return;
        }
    line->list[line->count++] = content;
}

/* What the cached copy holds from this moment on, where it is something else than before. */
static int note(History *line, Content content, u64 moment)
{
    if (line->noted > 0 && same_content(line->contents[line->noted - 1], content))
        return 0;
    line->contents[line->noted] = content;
    line->moments[line->noted++] = moment;
    return 1;
}

static u32 noted_at(const History *line, u64 moment)
{
    u32 at = 0;
    while (at + 1 < line->noted && line->moments[at + 1] <= moment)
        at++;
    return at;
}

/* What the line held at a moment since the last start. */
Content content_at(const History *line, u64 moment)
{
    return line->contents[noted_at(line, moment)];
}

/* Lists what the line held at the moment of the persisted content and later. */
static void list_since(History *line, u64 since)
{
    u32 first = noted_at(line, since);
    line->since = since;
    line->count = 0;
    for (u32 i = first; i < line->noted; i++)
        list(line, line->contents[i]);
}

static void note_line(Bench *bench, u32 line)
{
    History *history = &bench->lines[line];
    const Machine *m = &bench->machine;
    Content now = cached_content(m, line);
    if (note(history, now, m->clock))
        list(history, now);
    if (m->since[line] != history->since)
        list_since(history, m->since[line]);
}

static void note_all_lines(Bench *bench)
{
    for (u32 line = 0; line < line_count(&bench->machine); line++)
        note_line(bench, line);
}

/* After a start the persisted content is the oldest one. */
static void begin_all_lines(Bench *bench)
{
    for (u32 line = 0; line < line_count(&bench->machine); line++) {
        bench->lines[line].noted = 0;
        bench->lines[line].count = 0;
        bench->lines[line].since = bench->machine.since[line];
        note(&bench->lines[line], persisted_content(&bench->machine, line), bench->machine.since[line]);
        list(&bench->lines[line], persisted_content(&bench->machine, line));
    }
}

void bench_start(Bench *bench, const Schedule *schedule)
{
    start(&bench->machine, schedule->t, &schedule->image);
    begin_all_lines(bench);
    note_all_lines(bench);
}

/* One event of a schedule. 18 cannot come here with the right machine; wrong ones can run into it. */
Verdict bench_event(Bench *bench, const Event *event, u32 number, Reply *reply)
{
    Verdict v = perform(&bench->machine, event, reply);
    if (v.number != TAKEN)
        return verdict(v.number, number);
    if (reply->started)
        begin_all_lines(bench);
    note_all_lines(bench);
    return verdict(TAKEN, 0);
}

/* The first refused event ends the run. */
Verdict run_schedule(Bench *bench, const Schedule *schedule)
{
    bench_start(bench, schedule);
    for (u32 i = 0; i < schedule->event_count; i++) {
        Reply reply;
        Event event = event_at(schedule, i);
        Verdict v = bench_event(bench, &event, i, &reply);
        if (v.number != TAKEN)
            return v;
    }
    return verdict(TAKEN, 0);
}

/* 14, then 15. */
Verdict count_endings(const Bench *bench, u64 *count)
{
    *count = 1;
    for (u32 line = 0; line < line_count(&bench->machine); line++) {
        if (bench->lines[line].count > MAX_CONTENTS)
            return verdict(TOO_MANY_CONTENTS, line);
        if (bench->lines[line].count == MAX_CONTENTS)
            reach(AT_SIXTEEN);
    }
    for (u32 line = 0; line < line_count(&bench->machine); line++) {
        *count *= bench->lines[line].count;
        if (*count > MAX_ENDINGS)
            return verdict(TOO_MANY_ENDINGS, 0);
    }
    return verdict(TAKEN, 0);
}

/* From bytes to the count, or the first refusal. */
Verdict endings_of(const u8 *bytes, u64 length, Schedule *schedule, Bench *bench, u64 *count)
{
    Verdict v = read_schedule(bytes, length, schedule);
    if (v.number == TAKEN)
        v = run_schedule(bench, schedule);
    if (v.number == TAKEN)
        v = count_endings(bench, count);
    return v;
}

/* Line 0 turns slowest and the last node's line fastest. */
void ending_image(const Bench *bench, u64 k, Image *image)
{
    image->form = bench->machine.form; /* "endings keep the start image's form" */
    image->n = bench->machine.n;
    image->t = bench->machine.t;
    u32 heads = head_lines(image->form, image->t);
    for (u32 line = line_count(&bench->machine); line-- > 0;) {
        const History *history = &bench->lines[line];
        Content chosen = history->list[k % history->count];
        k /= history->count;
        if (line >= heads)
            image->nodes[line - heads] = chosen;
        else if (image->form == DESKS)
            image->desks[line] = chosen.index;
        else if (line == 0)
            image->head_index = chosen.index;
        else
            image->head_index_1 = chosen.index;
    }
    take_largest(image);
}

/* Ending k as an image in a lent buffer: the run, 14, 15, then 16, then 17. */
Verdict write_ending(const u8 *bytes, u64 length, u64 k, u8 *buffer, u64 room)
{
    Schedule schedule;
    Image image;
    u64 count;
    Verdict v = endings_of(bytes, length, &schedule, &the_bench, &count);
    if (v.number != TAKEN)
        return v;
    if (k >= count)
        return verdict(NO_SUCH_ENDING, 0);
    ending_image(&the_bench, k, &image);
    return write_image(&image, buffer, room);
}

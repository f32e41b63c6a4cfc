/* Valid schedules, seeded: images of every kind, and interleavings found by running the machine beside. */
#include "second.h"

/* What one schedule is to be like. */
typedef struct Plan {
    u32 events;
    u32 crash_per_mille;
    u32 write_back_percent;
    u32 enqueue_percent;
    u32 sticky_percent;
    u32 slow_thread; /* moves seldom; NONE for no such thread */
    u32 item_style;
    u64 limit; /* above this many endings a write-back is put in */
    u32 items_begun;
    u32 last_thread;
    u32 waiting_percent; /* how often a thread that is to take its fence is passed over */
    u32 ends_at_fence;   /* 1: the run ends, late enough, at a fence that finds another content persisted than its own */
    u32 in_bursts;  /* 1: threads run for a few steps or for a whole operation at a time */
    u32 burst_left;
} Plan;

static Bench side;

static u32 some_item(Plan *plan)
{
    static const u32 few[4] = {0, 4294967295u, 7, 0};
    plan->items_begun++;
    switch (plan->item_style) {
    case 0: return few[below(4)];
    case 1: return plan->items_begun;
    case 2: return (u32)random_bits();
    default: return plan->item_style;
    }
}

/* A line that may be written back. */
static int may_be_written(u32 line)
{
    return !on(CLEAN) || !is_clean(&side.machine, line);
}

/* The line of most contents among those that may be written back, or NO_LINE. */
static u64 endings_now(u32 *fullest)
{
    u64 product = 1;
    *fullest = NO_LINE;
    for (u32 line = 0; line < line_count(&side.machine); line++) {
        if (may_be_written(line) && (*fullest == NO_LINE || side.lines[line].count > side.lines[*fullest].count))
            *fullest = line;
        if (product < 1000000)
            product *= side.lines[line].count;
    }
    return product;
}

static Event make_event(u32 kind, u32 number, u32 item)
{
    Event e = {kind, number, item};
    return e;
}

/* A thread runs for a few steps, or until it has answered; so one thread can stand still while others finish much. */
static u32 thread_in_burst(Plan *plan)
{
    int idle = side.machine.threads[plan->last_thread].step == IDLE;
    if (plan->burst_left == 0 || (idle && plan->burst_left > 50)) {
        plan->last_thread = below(side.machine.t);
        plan->burst_left = chance(60) ? 100 : 1 + below(12);
        if (plan->burst_left == 100 && side.machine.threads[plan->last_thread].step == IDLE)
            return plan->last_thread; /* its begin opens the burst */
    }
    plan->burst_left--;
    return plan->last_thread;
}

static u32 some_thread(Plan *plan)
{
    if (plan->in_bursts)
        return thread_in_burst(plan);
    u32 k = below(side.machine.t);
    if (chance(plan->sticky_percent))
        k = plan->last_thread;
    if (k == plan->slow_thread && !chance(8))
        k = below(side.machine.t);
    for (u32 tries = 0; tries < 4 && is_fence(side.machine.threads[k].step) && chance(plan->waiting_percent); tries++)
        k = below(side.machine.t);
    plan->last_thread = k;
    return k;
}

static Event some_event(Plan *plan)
{
    u32 fullest;
    if (below(1000) < plan->crash_per_mille)
        return make_event(CRASH, 0, 0);
    if (endings_now(&fullest) > plan->limit && fullest != NO_LINE)
        return make_event(WRITE_BACK, fullest, 0);
    if (chance(plan->write_back_percent) && fullest != NO_LINE) {
        u32 line = chance(50) ? fullest : below(line_count(&side.machine));
        return make_event(WRITE_BACK, may_be_written(line) ? line : fullest, 0);
    }
    u32 k = some_thread(plan);
    if (side.machine.threads[k].step != IDLE)
        return make_event(STEP, k, 0);
    u32 other = side.machine.form == TWO && chance(50) ? BEGIN_ENQUEUE_1 - BEGIN_ENQUEUE : 0;
    if (chance(plan->enqueue_percent))
        return make_event(BEGIN_ENQUEUE + other, k, some_item(plan));
    return make_event(BEGIN_DEQUEUE + other, k, 0);
}

static void some_plan(Plan *plan, u32 threads)
{
    static const u32 sticky[5] = {0, 50, 80, 90, 97};
    static const u32 enqueue[5] = {20, 45, 55, 65, 90};
    plan->crash_per_mille = chance(50) ? 0 : 5 + below(30);
    plan->write_back_percent = chance(50) ? 0 : below(15);
    plan->enqueue_percent = enqueue[below(5)];
    plan->sticky_percent = sticky[below(5)];
    plan->slow_thread = chance(50) ? below(threads) : NONE;
    plan->item_style = chance(75) ? below(3) : 5;
    plan->items_begun = 0;
    plan->last_thread = 0;
    plan->waiting_percent = 0;
    plan->ends_at_fence = 0;
    plan->in_bursts = chance(30);
    plan->burst_left = 0;
}

/* The line whose fence this event is, or NO_LINE. */
static u32 fenced_line(const Event *e)
{
    return e->kind == STEP && is_fence(side.machine.threads[e->number].step) ? line_of_fence(&side.machine, e->number) : NO_LINE;
}

static int finds_another(u32 line, u32 k)
{
    return line != NO_LINE && !same_content(persisted_content(&side.machine, line), side.machine.threads[k].flushed);
}

/* Runs the plan and writes the schedule; every event is valid because the machine beside has taken it. */
static u64 run_plan(Plan *plan, Schedule *s, u8 *bytes)
{
    s->event_count = plan->events;
    u64 at = schedule_to_bytes(s, bytes);
    bench_start(&side, s);
    for (u32 i = 0; i < plan->events; i++) {
        Reply reply;
        Event e = some_event(plan);
        u32 line = fenced_line(&e);
        if (bench_event(&side, &e, i, &reply).number != TAKEN) {
            s->event_count = i; /* a wrong machine can refuse a crash: the schedule ends before */
            break;
        }
        event_to_bytes(&e, bytes + at);
        at += EVENT_BYTES;
        if (plan->ends_at_fence && i > plan->events / 4 && finds_another(line, e.number))
            s->event_count = i + 1;
        if (s->event_count <= i + 1)
            break;
    }
    put2(bytes + 6, s->event_count);
    return at;
}

/* few nodes, few threads, few events: for the plain way and the judge */
static u64 generate_small(u8 *bytes, u32 most_events)
{
    Schedule s;
    Plan plan;
    s.image.n = chance(40) ? 2 : 2 + below(4);
    s.t = chance(30) ? 1 : 1 + below(4);
    s.image.t = s.t;
    some_image(&s.image);
    some_plan(&plan, s.t);
    plan.events = below(most_events + 1);
    plan.limit = 600;
    if (chance(80))
        plan.crash_per_mille = 0;
    return run_plan(&plan, &s, bytes);
}

/* Within the limits of request 108 and a little beyond, most with few enough combinations of added write-backs; some begin in the middle of things. */
static u64 generate_plainest(u8 *bytes)
{
    Schedule s;
    Plan plan;
    s.image.n = chance(60) ? 2 : chance(60) ? 3 : 4 + (u32)chance(10);
    s.t = s.image.n == 2 ? 1 + below(2) : 1 + below(on(DESKS_TOO) ? 2 : 3);
    s.image.t = s.t;
    some_image(&s.image);
    some_plan(&plan, s.t);
    plan.events = chance(5) ? 13 : below(s.image.n == 2 ? 13 : s.image.n == 3 ? 10 : 6);
    plan.limit = 600;
    plan.write_back_percent = chance(50) ? 0 : 20;
    plan.crash_per_mille = chance(80) ? 0 : 60;
    return run_plan(&plan, &s, bytes);
}

/* Bursts on few threads without write-backs: nodes come round again while somebody still looks at them. */
static u64 generate_bursts(u8 *bytes)
{
    Schedule s;
    Plan plan;
    s.image.n = 4 + below(3);
    s.t = 2 + below(2);
    s.image.t = s.t;
    some_image(&s.image);
    some_plan(&plan, s.t);
    plan.in_bursts = 1;
    plan.crash_per_mille = 0;
    plan.write_back_percent = 0;
    plan.enqueue_percent = 50;
    plan.item_style = 1;
    plan.events = 50 + below(80);
    plan.limit = 600;
    return run_plan(&plan, &s, bytes);
}

/* Request 104: many threads between a flush and its fence at once, on one head line or their own, and write-backs among them. */
u64 generate_flushed(u8 *bytes)
{
    Schedule s;
    Plan plan;
    s.image.n = 3 + below(6);
    s.t = 2 + below(chance(60) ? 3 : 7);
    s.image.t = s.t;
    some_image(&s.image);
    some_plan(&plan, s.t);
    plan.in_bursts = 0;
    plan.sticky_percent = chance(50) ? 0 : 60;
    plan.waiting_percent = chance(20) ? 0 : 50 + below(50);
    plan.ends_at_fence = (u32)chance(50);
    plan.enqueue_percent = 20 + below(50);
    plan.write_back_percent = chance(40) ? 0 : below(12);
    plan.crash_per_mille = chance(70) ? 0 : 5;
    plan.events = 40 + below(120);
    plan.limit = 600;
    return run_plan(&plan, &s, bytes);
}

static u64 generate_any(u8 *bytes, u32 most_events)
{
    Schedule s;
    Plan plan;
    u32 size = below(5);
    s.image.n = size == 0 ? 64 : size == 1 ? 2 : size == 2 ? 2 + below(8) : 2 + below(63);
    s.t = chance(20) ? 8 : 1 + below(8);
    s.image.t = s.t;
    some_image(&s.image);
    some_plan(&plan, s.t);
    plan.events = chance(10) ? most_events : below(most_events + 1);
    plan.limit = chance(5) ? 65536 : 1 + below(chance(20) ? 2000 : 100);
    return run_plan(&plan, &s, bytes);
}

/* Two nodes at the top of the indices: enqueues wear out and store few items over and over, so contents come again. */
static u64 generate_worn(u8 *bytes)
{
    Schedule s;
    Plan plan;
    s.image.n = on(QUEUES_TOO) && chance(30) ? 3 : 2;
    s.t = 1 + below(2);
    s.image.t = s.t;
    some_image(&s.image);
    set_head_index(&s.image, largest_index(s.image.form) - below(2));
    if (test_recovered(&s.image).number != TAKEN)
        set_head_index(&s.image, largest_index(s.image.form));
    some_plan(&plan, s.t);
    plan.crash_per_mille = 0;
    plan.write_back_percent = chance(50) ? 0 : 3;
    plan.enqueue_percent = 90;
    plan.item_style = 0;
    plan.events = below(90);
    plan.limit = 600;
    return run_plan(&plan, &s, bytes);
}

/* Nothing is held down: many threads under way, lines with many contents, worn-out indices. */
static u64 generate_wild(u8 *bytes)
{
    Schedule s;
    Plan plan;
    u32 kind = below(3);
    s.image.n = kind == 0 ? 2 + below(3) : 20 + below(45);
    s.t = kind == 0 ? 1 + below(2) : 2 + below(7);
    s.image.t = s.t;
    some_image(&s.image);
    if (kind == 0) {
        s.image.n = 2;
        some_image(&s.image);
        set_head_index(&s.image, largest_index(s.image.form)); /* nothing is above it, so every enqueue wears out */
    }
    some_plan(&plan, s.t);
    plan.write_back_percent = chance(70) ? 0 : 2;
    plan.crash_per_mille = chance(80) ? 0 : 2;
    plan.enqueue_percent = 90;
    plan.slow_thread = 0;
    plan.events = 20 + below(kind == 0 ? 250 : 500);
    plan.limit = kind == 2 ? 3000 : 1000000000;
    return run_plan(&plan, &s, bytes);
}

/* Request 102: write-backs as a probe doubles them, of clean lines too, made as if 19 were not given. */
static u64 generate_clean(u64 number, u8 *bytes)
{
    u32 was = (u32)on(CLEAN);
    set(CLEAN, 0);
    u64 length = number % 4 == 0 ? generate_worn(bytes) : number % 4 == 1 ? generate_any(bytes, 120) : generate_small(bytes, 45);
    set(CLEAN, was);
    return length;
}

u64 generate_valid(u8 *bytes, int small)
{
    return small ? generate_small(bytes, 14) : generate_any(bytes, 120);
}

static u64 generate_mixed(u64 seed, u64 number, u8 *bytes)
{
    static const char *const shapes[16] = {"tiny", "small", "valid", "wild", "valid", "damaged", "refused", "small",
                                           "valid", "wild", "damaged", "refused", "valid", "small", "refused", "wild"};
    return generate_input(seed, number, number % 97 == 96 ? "long" : shapes[number % 16], bytes);
}

/* Input `number` of a seed and shape; gives its length. */
u64 generate_input(u64 seed, u64 number, const char *shape, u8 *bytes)
{
    seed_random(seed, number);
    if (same_text(shape, "tiny"))
        return generate_small(bytes, 14);
    if (same_text(shape, "small"))
        return generate_small(bytes, 45);
    if (same_text(shape, "deep"))
        return generate_small(bytes, 110);
    if (same_text(shape, "bursts"))
        return generate_bursts(bytes);
    if (same_text(shape, "flushed"))
        return generate_flushed(bytes);
    if (same_text(shape, "valid"))
        return generate_any(bytes, 300);
    if (same_text(shape, "long"))
        return generate_any(bytes, MAX_EVENTS);
    if (same_text(shape, "worn"))
        return generate_worn(bytes);
    if (same_text(shape, "wild"))
        return generate_wild(bytes);
    if (same_text(shape, "clean"))
        return generate_clean(number, bytes);
    if (same_text(shape, "damaged"))
        return generate_damaged(number, bytes);
    if (same_text(shape, "refused"))
        return generate_refused(number, bytes);
    if (same_text(shape, "lengths"))
        return generate_length(seed, number, bytes);
    if (same_text(shape, "bytes"))
        return generate_changed_byte(seed, number, bytes);
    if (same_text(shape, "longer"))
        return generate_longer(bytes);
    if (same_text(shape, "images"))
        return generate_image(number, bytes);
    if (same_text(shape, "conversions"))
        return generate_conversion(number, 0, bytes);
    if (same_text(shape, "conversions-room"))
        return generate_conversion(number, 1, bytes);
    if (same_text(shape, "mendable"))
        return generate_mendable(number, 0, bytes);
    if (same_text(shape, "mendable-room"))
        return generate_mendable(number, 1, bytes);
    if (same_text(shape, "imports"))
        return generate_import(number, bytes);
    if (same_text(shape, "exports"))
        return generate_export(number, bytes);
    if (same_text(shape, "listed"))
        return generate_listed(number, bytes);
    if (same_text(shape, "plainest"))
        return generate_plainest(bytes);
    if (same_text(shape, "probes"))
        return generate_probe(number, bytes);
    if (same_text(shape, "mixed"))
        return generate_mixed(seed, number, bytes);
    stop("no such shape");
    return 0;
}

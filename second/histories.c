/* Histories of a real machine, as request 110 has them: read from bytes, judged by the ordered search, and held against all orders. */
#include "second.h"

enum { MOST = 16, QUEUED = 63, OPERATION = 22, TRIES = 1000000, ROOM = QUEUED + MOST, KEPT = 1 << 15, SLOTS = 1 << 16 };

typedef struct Act {
    u32 kind, reply, item;
    u64 begun, ended;
} Act;

typedef struct Line {
    u32 count;
    u32 items[ROOM];
} Line;

static Act acts[MOST];
static u32 act_count;
static Line first_line, last_line;

static u64 history_length(const u8 *bytes)
{
    return 3 + 4 * ((u64)bytes[1] + bytes[2]) + OPERATION * (u64)bytes[0];
}

static const u8 *read_line(const u8 *from, u32 count, Line *line)
{
    line->count = count;
    for (u32 i = 0; i < count; i++, from += 4)
        line->items[i] = get4(from);
    return from;
}

static u32 test_act(const Act *a)
{
    if (a->kind == 1 ? a->reply > WORN_OUT : a->kind != 2 || (a->reply != NOTHING && a->reply != AN_ITEM && a->reply != EMPTY))
        return UNKNOWN_KIND;
    if (a->reply == NOTHING ? a->ended != 0 : a->ended < a->begun)
        return FIELD_NOT_ZERO;
    return TAKEN;
}

static Verdict read_history(const u8 *bytes, u64 length)
{
    if (length < 3 || bytes[0] > MOST || bytes[1] > QUEUED || bytes[2] > QUEUED || length != history_length(bytes))
        return verdict(WRONG_LENGTH, 0);
    act_count = bytes[0];
    const u8 *at = read_line(read_line(bytes + 3, bytes[1], &first_line), bytes[2], &last_line);
    for (u32 i = 0; i < act_count; i++, at += OPERATION) {
        Act a = {at[0], at[17], get4(at + 18), get8(at + 1), get8(at + 9)};
        u32 number = test_act(&a);
        if (number != TAKEN)
            return verdict(number, i);
        acts[i] = a;
    }
    return verdict(TAKEN, 0);
}

static int same_line(const Line *a, const Line *b)
{
    if (a->count != b->count)
        return 0;
    for (u32 i = 0; i < a->count; i++)
        if (a->items[i] != b->items[i])
            return 0;
    return 1;
}

/* The plain queue after the operation; 0 where it could not have answered so. */
static int serve_act(const Act *a, Line *line)
{
    if (a->kind == 1) {
        if (a->reply != FULL && a->reply != WORN_OUT)
            line->items[line->count++] = a->item;
        return 1;
    }
    if (a->reply == EMPTY)
        return line->count == 0;
    if (a->reply == AN_ITEM && (line->count == 0 || line->items[0] != a->item))
        return 0;
    if (line->count > 0) {
        line->count--;
        for (u32 i = 0; i < line->count; i++)
            line->items[i] = line->items[i + 1];
    }
    return 1;
}

static int in_time(u64 taken, u32 i)
{
    for (u32 j = 0; j < act_count; j++)
        if (!(taken & bit(j)) && acts[j].reply != NOTHING && acts[j].ended < acts[i].begun)
            return 0;
    return 1;
}

static int all_answered_taken(u64 taken)
{
    for (u32 j = 0; j < act_count; j++)
        if (!(taken & bit(j)) && acts[j].reply != NOTHING)
            return 0;
    return 1;
}

/* ---- the ordered search, to the letter */

enum { UNLAWFUL = 0, LAWFUL = 1, UNDECIDED = 2 };
static u32 order[MOST], order_count;
static u64 tries, limit, spent;

/* Wrong on purpose where `uncounted` is set: what was tried before going back is forgotten, though not by the limit. */
static int uncounted;

static u32 ordered_search(u64 taken, const Line *line, u32 depth)
{
    if (all_answered_taken(taken) && same_line(line, &last_line)) {
        order_count = depth;
        return LAWFUL;
    }
    for (u32 i = 0; i < act_count; i++) {
        Line next = *line;
        if ((taken & bit(i)) || !in_time(taken, i) || !serve_act(&acts[i], &next))
            continue;
        if (spent == limit)
            return UNDECIDED;
        spent++;
        u64 before = ++tries;
        order[depth] = i;
        u32 said = ordered_search(taken | bit(i), &next, depth + 1);
        if (said != UNLAWFUL)
            return said;
        if (uncounted)
            tries = before;
    }
    return UNLAWFUL;
}

static u32 judge_history(u64 most)
{
    tries = spent = 0;
    limit = most;
    order_count = 0;
    return ordered_search(0, &first_line, 0);
}

static void print_judged(const u8 *bytes, u64 length)
{
    static const char *const words[3] = {"unlawful ", "lawful ", "undecided "};
    Verdict v = read_history(bytes, length);
    if (v.number != TAKEN) {
        print_refusal(v);
        return;
    }
    u32 said = judge_history(TRIES);
    put_text(words[said]);
    put_number(tries);
    put_text(" tries");
    if (said == LAWFUL) {
        put_text(" order");
        for (u32 i = 0; i < order_count; i++) {
            put_text(" ");
            put_number(order[i]);
        }
    }
    put_text("\n");
}

int mode_judged(int count, char **words)
{
    u64 length;
    uncounted = count == 1 && same_text(words[0], "uncounted");
    while (read_next(&length))
        print_judged(input, length);
    return 0;
}

/* The verdict as uq_judge gives it: tries + 2^24 * verdict + 2^32 * length of the order, which goes into a buffer of `room` bytes; 17 last. */
Verdict judge_into(const u8 *bytes, u64 length, u8 *to, u64 room, u64 *value)
{
    Verdict v = read_history(bytes, length);
    *value = 0;
    if (v.number == TAKEN && room < act_count)
        v = verdict(BUFFER_TOO_SHORT, 0);
    if (v.number != TAKEN)
        return v;
    u32 said = judge_history(TRIES), numbers = said == LAWFUL ? order_count : 0;
    for (u32 i = 0; i < numbers; i++)
        to[i] = (u8)order[i];
    *value = tries + ((u64)said << 24) + ((u64)numbers << 32);
    return v;
}

/* ---- another way: every set of operations with every queue that some order of them leaves */

static struct {
    u64 taken;
    Line line;
} kept[KEPT];
static u32 kept_count, slots[SLOTS];

static int keep(u64 taken, const Line *line)
{
    u64 sum = taken * 0x9e3779b97f4a7c15u;
    for (u32 i = 0; i < line->count; i++)
        sum = (sum ^ (line->items[i] + 1u)) * 0xff51afd7ed558ccdu + 1;
    u64 at = (sum >> 40) % SLOTS;
    for (; slots[at] != 0; at = (at + 1) % SLOTS)
        if (kept[slots[at] - 1].taken == taken && same_line(&kept[slots[at] - 1].line, line))
            return 1;
    if (kept_count == KEPT)
        return 0;
    kept[kept_count].taken = taken;
    kept[kept_count++].line = *line;
    slots[at] = kept_count;
    return 1;
}

/* UNDECIDED where there are more than can be kept. */
static u32 by_sets(void)
{
    for (u32 i = 0; i < SLOTS; i++)
        slots[i] = 0;
    kept_count = 0;
    keep(0, &first_line);
    for (u32 at = 0; at < kept_count; at++) {
        if (all_answered_taken(kept[at].taken) && same_line(&kept[at].line, &last_line))
            return LAWFUL;
        for (u32 i = 0; i < act_count; i++) {
            Line next = kept[at].line;
            if (!(kept[at].taken & bit(i)) && in_time(kept[at].taken, i) && serve_act(&acts[i], &next) && !keep(kept[at].taken | bit(i), &next))
                return UNDECIDED;
        }
    }
    return UNLAWFUL;
}

/* The order given shows it: each at most once, none ahead of one answered before it began, every answer as given, the queue the recovered one. */
static int order_shows(void)
{
    u64 taken = 0;
    Line line = first_line;
    for (u32 i = 0; i < order_count; i++) {
        if ((taken & bit(order[i])) || !in_time(taken, order[i]) || !serve_act(&acts[order[i]], &line))
            return 0;
        taken |= bit(order[i]);
    }
    return all_answered_taken(taken) && same_line(&line, &last_line);
}

/* The ordered search against the sets; with the limit at the tries it needs, and one below. */
Finding hold_history(const u8 *bytes, u64 length)
{
    Finding f = {AGREES, 0, "", 0};
    if (read_history(bytes, length).number != TAKEN)
        return f;
    u32 said = judge_history(TRIES);
    u64 needed = tries;
    u32 sets = by_sets();
    f.work = needed;
    if (said == LAWFUL && !order_shows())
        f.result = CONTRADICTS, f.why = "the order does not show it";
    else if (said == UNDECIDED || sets == UNDECIDED)
        f.result = TOO_LARGE;
    else if (said != sets)
        f.result = CONTRADICTS, f.why = "the sets say otherwise";
    else if (judge_history(needed) != said || tries != needed)
        f.result = CONTRADICTS, f.why = "the limit at its tries";
    else if (needed > 0 && (judge_history(needed - 1) != UNDECIDED || tries != needed - 1))
        f.result = CONTRADICTS, f.why = "the limit below its tries";
    return f;
}

/* ---- generated histories: operations run on a plain queue by a moving clock, then perhaps spoilt */

static u32 some_reply(u32 kind)
{
    static const u32 replies[6] = {NOTHING, DONE, FULL, WORN_OUT, AN_ITEM, EMPTY};
    return chance(3) ? below(8) : kind == 1 ? replies[below(4)] : replies[below(2) ? 4 + below(2) : 0];
}

/* What the plain queue answers, or Full or Worn out, or nothing; the queue is changed where the operation takes effect. */
static u32 true_reply(u32 kind, u32 item, Line *line, u32 *given)
{
    int answers = chance(70), effect = answers || chance(50);
    *given = item;
    if (kind == 1) {
        if (answers && chance(15))
            return chance(50) ? FULL : WORN_OUT;
        if (effect)
            line->items[line->count++] = item;
        return answers ? DONE : NOTHING;
    }
    u32 found = line->count > 0;
    if (found && effect) {
        *given = line->items[0];
        line->count--;
        for (u32 i = 0; i < line->count; i++)
            line->items[i] = line->items[i + 1];
    }
    return !answers ? NOTHING : found ? AN_ITEM : EMPTY;
}

static u64 lay_out(u8 *to, u32 n, const Line *from, const Line *into)
{
    u64 at = 3;
    to[0] = (u8)n;
    to[1] = (u8)from->count;
    to[2] = (u8)(into->count > QUEUED ? QUEUED : into->count);
    for (u32 i = 0; i < from->count; i++, at += 4)
        put4(to + at, from->items[i]);
    for (u32 i = 0; i < to[2]; i++, at += 4)
        put4(to + at, into->items[i]);
    return at;
}

/* Sixteen enqueues without an answer, and a queue that none of their orders leaves: more tries than are allowed. */
static u64 hard_history(u8 *to)
{
    Line from = {0, {0}}, into = {1, {77}};
    u64 at = lay_out(to, MOST, &from, &into);
    for (u32 i = 0; i < MOST; i++, at += OPERATION) {
        for (u32 k = 0; k < OPERATION; k++)
            to[at + k] = 0;
        to[at] = chance(80) ? 1 : 2;
        put8(to + at + 1, below(4));
        put4(to + at + 18, below(3));
    }
    return at;
}

/* A search that ends undecided, for bench/judge: by turns short queues, two queues of 63 equal items that differ in the last, and operations answered late. */
u64 generate_search(u64 seed, u64 number, u8 *to)
{
    Line from = {0, {0}}, into = {1, {77}};
    seed_random(seed, number);
    if (number % 3 == 0)
        return hard_history(to);
    if (number % 3 == 1) {
        from.count = into.count = QUEUED;
        for (u32 i = 0; i < QUEUED; i++)
            from.items[i] = into.items[i] = 5;
        into.items[QUEUED - 1] = 6;
    }
    u64 at = lay_out(to, MOST, &from, &into);
    for (u32 i = 0; i < MOST; i++, at += OPERATION) {
        u32 answered = number % 3 == 2 && i % 4 == 0;
        to[at] = (u8)(1 + (i % 2 && number % 3 == 1));
        put8(to + at + 1, below(9));
        put8(to + at + 9, answered ? 100 + below(9) : 0);
        to[at + 17] = answered ? DONE : NOTHING;
        put4(to + at + 18, 5);
    }
    return at;
}

u64 generate_history(u64 seed, u64 number, u8 *to)
{
    Line from = {0, {0}}, into;
    Act made[MOST];
    seed_random(seed, number);
    if (below(400) == 0)
        return hard_history(to);
    u32 n = chance(80) ? below(8) : below(MOST + 1), values = 1 + below(4), spread = 1 + below(12);
    u64 clock = chance(90) ? below(5) : 18446744073709551000u;
    from.count = chance(80) ? below(5) : below(QUEUED + 1);
    for (u32 i = 0; i < from.count; i++)
        from.items[i] = chance(95) ? below(values) : (u32)random_bits();
    into = from;
    for (u32 i = 0; i < n; i++) {
        Act a = {1 + below(2), 0, below(values), 0, 0};
        clock += below(3);
        a.reply = true_reply(a.kind, a.item, &into, &a.item);
        a.begun = clock - (clock < spread ? clock : below(spread));
        a.ended = a.reply == NOTHING ? 0 : clock + below(spread);
        made[i] = a;
    }
    if (chance(15) && into.count > 0)
        into.items[below(into.count)] = below(values + 1);
    if (chance(10))
        into.count = below(into.count + 1);
    u64 at = lay_out(to, n, &from, &into);
    u32 turned = chance(50) ? 0 : below(n + 1);
    for (u32 i = 0; i < n; i++, at += OPERATION) {
        Act a = made[(i + turned) % n];
        if (chance(4))
            a.reply = some_reply(a.kind);
        if (chance(1))
            a.kind = below(5);
        if (chance(1))
            a.ended = below(4);
        to[at] = (u8)a.kind;
        put8(to + at + 1, a.begun);
        put8(to + at + 9, a.ended);
        to[at + 17] = (u8)a.reply;
        put4(to + at + 18, a.item);
    }
    if (chance(2))
        to[below(3)] = (u8)below(256);
    return chance(2) ? below((u32)at + 1) : at;
}

/* Schedules in words, both ways, from docs/WORDS.md. A line is cut into words first, then held against one pattern after another. */
#include "second.h"

enum { MOST_WORDS = 5, MOST_EVENTS = 65535, MOST_NODES = 255, MOST_DESKS = 255 };
enum { GOOD = 0, NOT_UNDERSTOOD = 1, NUMBER_TOO_BIG = 2, EVENTS_TOO_MANY = 3, NO_ROOM_FOR_IT = 4 };

typedef struct Piece {
    const u8 *from;
    u64 length;
} Piece;

typedef struct Cut_line {
    Piece words[MOST_WORDS];
    u32 count; /* one more than MOST_WORDS stands for all larger counts */
} Cut_line;

/* What has been said so far. */
typedef struct Telling {
    int named;     /* `nodes` has stood */
    int versioned; /* `version` or `desks` has stood */
    int indexed;   /* a `head` or `node` has stood */
    u32 n, t;
    u32 form;              /* NARROW or WIDE, by the version's number, or DESKS */
    u64 heads[MOST_DESKS]; /* one of each desk, or the first one alone */
    Content nodes[MOST_NODES];
    Event events[MOST_EVENTS];
    u32 event_count;
} Telling;

static Telling telling;

/* ---- words and numbers */

static int parts_words(u8 byte)
{
    return byte == ' ' || byte == '\t' || byte == '\r';
}

static Cut_line cut_line(const u8 *from, const u8 *end)
{
    Cut_line line;
    line.count = 0;
    for (const u8 *p = from; p < end; p++)
        if (*p == '#')
            end = p;
    while (from < end) {
        if (parts_words(*from)) {
            from++;
            continue;
        }
        const u8 *begin = from;
        while (from < end && !parts_words(*from))
            from++;
        if (line.count < MOST_WORDS) {
            line.words[line.count].from = begin;
            line.words[line.count].length = (u64)(from - begin);
        }
        if (line.count <= MOST_WORDS)
            line.count++;
    }
    return line;
}

static int is_name(Piece word, const char *name)
{
    u64 i = 0;
    while (i < word.length && name[i] && word.from[i] == (u8)name[i])
        i++;
    return i == word.length && !name[i];
}

/* The number that the word is; what is wrong with it, if anything. */
static u32 take_number(Piece word, u64 most, u64 *value)
{
    int big = 0;
    *value = 0;
    for (u64 i = 0; i < word.length; i++) {
        if (word.from[i] < '0' || word.from[i] > '9')
            return NOT_UNDERSTOOD;
        u64 digit = (u64)(word.from[i] - '0');
        if (big || *value > (most - digit) / 10)
            big = 1;
        else
            *value = *value * 10 + digit;
    }
    return big ? NUMBER_TOO_BIG : GOOD;
}

/* ---- patterns: `%` stands for a number, `^` for an index, other words for themselves */

typedef struct Pattern {
    const char *words[MOST_WORDS];
    u64 most[MOST_WORDS];
    u32 count;
    u32 what; /* a kind of event, or one of those below */
} Pattern;

enum { ANY_KIND = 100, NODES, THREADS, DESKS_LINE, VERSION, HEAD, HEAD_OF_DESK, NODE };

#define BYTE 255u
#define WORD 4294967295u
#define BITS_64 18446744073709551615u

static const Pattern patterns[] = {
    {{"nodes", "%"}, {0, BITS_64}, 2, NODES},
    {{"threads", "%"}, {0, BYTE}, 2, THREADS},
    {{"desks", "%"}, {0, BYTE}, 2, DESKS_LINE},
    {{"version", "%"}, {0, BITS_64}, 2, VERSION},
    {{"head", "^"}, {0}, 2, HEAD},
    {{"head", "%", "^"}, {0, BITS_64, 0}, 3, HEAD_OF_DESK},
    {{"node", "%", "%", "^", "%"}, {0, BITS_64, BYTE, 0, WORD}, 5, NODE},
    {{"%", "enqueue", "%"}, {BYTE, 0, WORD}, 3, BEGIN_ENQUEUE},
    {{"%", "dequeue"}, {BYTE}, 2, BEGIN_DEQUEUE},
    {{"%", "step"}, {BYTE}, 2, STEP},
    {{"%", "step", "%"}, {BYTE, 0, BITS_64}, 3, STEP},
    {{"write-back", "%"}, {0, BYTE}, 2, WRITE_BACK},
    {{"crash"}, {0}, 1, CRASH},
    {{"event", "%", "%", "%"}, {0, BYTE, BYTE, WORD}, 4, ANY_KIND},
};

static int is_place(const char *word)
{
    return word[0] == '%' || word[0] == '^';
}

/* "H and INDEX are held against the form that was said, and against version 1 where none was." */
static u64 most_at(const Pattern *p, u32 i)
{
    return p->words[i][0] == '^' ? largest_index(telling.form) : p->most[i];
}

/* Whether all words of the pattern that are no numbers stand there; then its numbers, and the worst that is wrong with one. */
static int fits_pattern(const Pattern *p, const Cut_line *line, u64 *numbers, u32 *fault)
{
    if (line->count != p->count)
        return 0;
    for (u32 i = 0; i < p->count; i++)
        if (!is_place(p->words[i]) && !is_name(line->words[i], p->words[i]))
            return 0;
    u32 taken = 0;
    *fault = GOOD;
    for (u32 i = 0; i < p->count; i++) {
        if (!is_place(p->words[i]))
            continue;
        u32 f = take_number(line->words[i], most_at(p, i), &numbers[taken++]);
        if (f == NOT_UNDERSTOOD || *fault == GOOD)
            *fault = f == GOOD ? *fault : f;
    }
    return 1;
}

/* ---- reading */

static u32 say_events(u32 kind, u64 number, u64 item, u64 times)
{
    if (times > MOST_EVENTS || telling.event_count + times > MOST_EVENTS)
        return EVENTS_TOO_MANY;
    Event e = {kind, (u32)number, (u32)item};
    for (; times > 0; times--)
        telling.events[telling.event_count++] = e;
    return GOOD;
}

static u32 say_nodes(u64 n)
{
    if (telling.named)
        return NOT_UNDERSTOOD;
    if (n > MOST_NODES)
        return NUMBER_TOO_BIG;
    telling.named = 1;
    telling.n = (u32)n;
    return GOOD;
}

/* `version` or `desks`: "one of the two, only once, and in front of every `head` and `node`" */
static u32 say_form(u32 form)
{
    if (telling.versioned || telling.indexed)
        return NOT_UNDERSTOOD;
    telling.versioned = 1;
    telling.form = form;
    return GOOD;
}

static u32 say_version(u64 version)
{
    return version == NARROW || version == WIDE ? say_form((u32)version) : NOT_UNDERSTOOD;
}

static u32 say_desks(u64 t)
{
    if (say_form(DESKS) != GOOD)
        return NOT_UNDERSTOOD;
    telling.t = (u32)t;
    return GOOD;
}

/* "not behind `desks`" */
static u32 say_threads(u64 t)
{
    if (telling.form == DESKS)
        return NOT_UNDERSTOOD;
    telling.t = (u32)t;
    return GOOD;
}

static u32 say_head(u64 index)
{
    if (telling.form == DESKS)
        return NOT_UNDERSTOOD;
    telling.indexed = 1;
    telling.heads[0] = index;
    return GOOD;
}

/* "behind `desks` alone": K is below T */
static u32 say_head_of_desk(u64 desk, u64 index)
{
    if (telling.form != DESKS)
        return NOT_UNDERSTOOD;
    if (desk >= telling.t)
        return NUMBER_TOO_BIG;
    telling.indexed = 1;
    telling.heads[desk] = index;
    return GOOD;
}

static u32 say_node(const u64 *numbers)
{
    if (numbers[0] >= telling.n)
        return NUMBER_TOO_BIG;
    Content c = {(u32)numbers[1], numbers[2], (u32)numbers[3], 0};
    telling.indexed = 1;
    telling.nodes[numbers[0]] = c;
    return GOOD;
}

static u32 say(const Pattern *p, const u64 *numbers)
{
    if (p->what == NODES)
        return say_nodes(numbers[0]);
    if (!telling.named)
        return NOT_UNDERSTOOD;
    switch (p->what) {
    case THREADS: return say_threads(numbers[0]);
    case DESKS_LINE: return say_desks(numbers[0]);
    case VERSION: return say_version(numbers[0]);
    case HEAD: return say_head(numbers[0]);
    case HEAD_OF_DESK: return say_head_of_desk(numbers[0], numbers[1]);
    case NODE: return say_node(numbers);
    case BEGIN_ENQUEUE: return say_events(BEGIN_ENQUEUE, numbers[0], numbers[1], 1);
    case STEP: return say_events(STEP, numbers[0], 0, p->count == 3 ? numbers[1] : 1);
    case CRASH: return say_events(CRASH, 0, 0, 1);
    case ANY_KIND: return say_events((u32)numbers[0], numbers[1], numbers[2], 1);
    }
    return say_events(p->what, numbers[0], 0, 1);
}

static u32 say_line(const Cut_line *line)
{
    u64 numbers[MOST_WORDS];
    u32 fault;
    if (line->count == 0)
        return GOOD;
    for (u32 i = 0; i < sizeof patterns / sizeof patterns[0]; i++)
        if (fits_pattern(&patterns[i], line, numbers, &fault))
            return fault != GOOD ? fault : say(&patterns[i], numbers);
    return NOT_UNDERSTOOD;
}

/* What is wrong, with the line from 0; all lines are gone through up to the first at fault. */
static u32 listen(const u8 *text, u64 length, u64 *at_line)
{
    const u8 *end = text + length;
    Content blank = {0, 0, 0, 0};
    telling.named = telling.versioned = telling.indexed = 0;
    telling.t = 1;
    telling.form = NARROW;
    telling.n = telling.event_count = 0;
    for (u32 i = 0; i < MOST_DESKS; i++)
        telling.heads[i] = 0;
    for (u32 i = 0; i < MOST_NODES; i++)
        telling.nodes[i] = blank;
    for (*at_line = 0;; ++*at_line) {
        const u8 *stop_at = text;
        while (stop_at < end && *stop_at != '\n')
            stop_at++;
        Cut_line line = cut_line(text, stop_at);
        u32 fault = say_line(&line);
        if (fault != GOOD)
            return fault;
        if (stop_at == end)
            return telling.named ? GOOD : NOT_UNDERSTOOD;
        text = stop_at + 1;
    }
}

static void put_mark(u8 *to, u8 letter, u32 version)
{
    to[0] = 'U';
    to[1] = 'Q';
    to[2] = letter;
    put2(to + 3, version);
}

/* The bytes of what was said. */
static u64 told_bytes(u8 *to)
{
    u8 *at = to;
    u32 form = telling.form;
    put_mark(at, 'S', 1);
    at[5] = (u8)telling.t;
    put2(at + 6, telling.event_count);
    at += SCHEDULE_HEAD;
    put_mark(at, form == DESKS ? 'P' : 'I', form == DESKS ? 1 : form);
    at[5] = (u8)telling.n;
    at += 6;
    if (form == DESKS)
        *at++ = (u8)telling.t;
    for (u32 i = 0; i < head_lines(form, telling.t); i++, at += index_bytes(form))
        put_index(form, at, telling.heads[i]);
    for (u32 i = 0; i < telling.n; i++, at += image_node(form)) {
        at[0] = (u8)telling.nodes[i].linked;
        put_index(form, at + 1, telling.nodes[i].index);
        put4(at + 1 + index_bytes(form), telling.nodes[i].item);
    }
    for (u32 i = 0; i < telling.event_count; i++, at += EVENT_BYTES)
        event_to_bytes(&telling.events[i], at);
    return (u64)(at - to);
}

/* 396,547 bytes: the image of version 2 is the longest. */
static u8 made[SCHEDULE_HEAD + 14 + 13 * MOST_NODES + EVENT_BYTES * MOST_EVENTS];

/* A line: what is wrong, its line, and the bytes in hex. */
static void print_unwords(const u8 *bytes, u64 length)
{
    u64 at_line;
    u32 fault = listen(bytes, length, &at_line);
    u64 made_length = fault == GOOD ? told_bytes(made) : 0;
    put_number(fault);
    put_text(" ");
    put_number(fault == GOOD ? 0 : at_line);
    put_text(" ");
    put_hex(made, made_length);
    put_text("\n");
}

/* ---- writing */

static void put_blank_number(const char *before, u64 number)
{
    put_text(before);
    put_number(number);
}

static int is_step(Event e)
{
    return e.kind == STEP && e.item == 0;
}

static void put_event_line(const Schedule *s, u32 i, u32 times)
{
    Event e = event_at(s, i);
    int plain = e.kind < BEGIN_ENQUEUE || e.kind > CRASH || (e.kind != BEGIN_ENQUEUE && e.item != 0) || (e.kind == CRASH && e.number != 0);
    if (plain) {
        put_blank_number("event ", e.kind);
        put_blank_number(" ", e.number);
        put_blank_number(" ", e.item);
    } else if (e.kind == CRASH) {
        put_text("crash");
    } else if (e.kind == WRITE_BACK) {
        put_blank_number("write-back ", e.number);
    } else {
        put_number(e.number);
        put_text(e.kind == BEGIN_ENQUEUE ? " enqueue" : e.kind == BEGIN_DEQUEUE ? " dequeue" : " step");
        if (e.kind == BEGIN_ENQUEUE)
            put_blank_number(" ", e.item);
        if (e.kind == STEP)
            put_blank_number(" ", times);
    }
    put_text("\n");
}

static u32 lines_of(const Schedule *s)
{
    return head_lines(s->image.form, s->t);
}

/* "of "UQI" one, with the version's before it where it has one; of "UQP" one for each desk" */
static void put_head_entry(const Schedule *s, u32 k)
{
    if (s->image.form == DESKS) {
        put_blank_number("head ", k);
        put_blank_number(" ", s->image.desks[k]);
    } else {
        if (s->image.form != NARROW) {
            put_blank_number("version ", s->image.form);
            put_text("\n");
        }
        put_blank_number("head ", s->image.head_index);
    }
    put_text("\n");
}

static void put_node_entry(const Schedule *s, u32 i)
{
    Content c = s->image.nodes[i];
    if (c.linked == 0 && c.index == 0 && c.item == 0)
        return;
    put_blank_number("node ", i);
    put_blank_number(" ", c.linked);
    put_blank_number(" ", c.index);
    put_blank_number(" ", c.item);
    put_text("\n");
}

static void put_event_entry(const Schedule *s, u32 i)
{
    u32 times = 1;
    Event e = event_at(s, i);
    if (is_step(e)) {
        if (i > 0 && is_step(event_at(s, i - 1)) && event_at(s, i - 1).number == e.number)
            return;
        while (i + times < s->event_count && is_step(event_at(s, i + times)) && event_at(s, i + times).number == e.number)
            times++;
    }
    put_event_line(s, i, times);
}

/* Entry k: N, T, a head line, a node, or an event. */
static void put_entry(const Schedule *s, u32 k)
{
    u32 heads = 2 + lines_of(s), nodes = heads + s->image.n;
    if (k < 2) {
        put_blank_number(k == 0 ? "nodes " : s->image.form == DESKS ? "desks " : "threads ", k == 0 ? s->image.n : s->t);
        put_text("\n");
    } else if (k < heads) {
        put_head_entry(s, k - 2);
    } else if (k < nodes) {
        put_node_entry(s, k - heads);
    } else {
        put_event_entry(s, k - nodes);
    }
}

static u32 entry_count(const Schedule *s)
{
    return 2 + lines_of(s) + s->image.n + s->event_count;
}

/* The form that request 113 brings has no words yet: it is a wrong one here, also where it is on. */
static Verdict read_spoken(const u8 *bytes, u64 length, Schedule *s)
{
    int queues = on(QUEUES_TOO);
    set(QUEUES_TOO, 0);
    Verdict v = read_schedule(bytes, length, s);
    set(QUEUES_TOO, (u32)queues);
    return v;
}

static void print_words(const u8 *bytes, u64 length)
{
    Schedule s;
    Verdict v = read_spoken(bytes, length, &s);
    if (v.number != TAKEN) {
        print_refusal(v);
        return;
    }
    for (u32 k = 0; k < entry_count(&s); k++)
        put_entry(&s, k);
}

/* As many entries from k on as the room takes; an item is k and the room (2 bytes each), then a schedule. */
static Verdict fill(const Schedule *s, u32 k, u64 room, u8 *buffer, u32 *entries, u64 *used)
{
    u8 one[128];
    *entries = 0;
    *used = 0;
    if (k >= entry_count(s))
        return verdict(NO_SUCH_ENDING, 0);
    for (; k < entry_count(s); k++, ++*entries) {
        capture_output(one, sizeof one);
        put_entry(s, k);
        u64 length = end_capture();
        if (length > room - *used)
            break;
        for (u64 i = 0; i < length; i++)
            buffer[(*used)++] = one[i];
    }
    return verdict(*entries == 0 ? BUFFER_TOO_SHORT : TAKEN, 0);
}

static void print_piece(const u8 *item, u64 length)
{
    static u8 buffer[65536];
    Schedule s;
    u32 entries = 0;
    u64 used = 0, room;
    if (length < 4)
        stop("an item has an entry's number and a room");
    room = get2(item + 2);
    for (u64 i = 0; i < room; i++)
        buffer[i] = 0xaa;
    Verdict v = read_spoken(item + 4, length - 4, &s);
    if (v.number == TAKEN)
        v = fill(&s, get2(item), room, buffer, &entries, &used);
    put_number(v.number);
    put_blank_number(" ", v.place);
    put_blank_number(" ", entries);
    put_blank_number(" ", used);
    put_text(" ");
    put_hex(buffer, room);
    put_text("\n");
}

/* ---- modes */

int mode_words(int count, char **words)
{
    (void)count, (void)words;
    print_words(input, read_all());
    return 0;
}

/* The bytes, or a line that says what is wrong, with status 1. */
int mode_unwords(int count, char **words)
{
    static const char *const wrong[] = {"", "not understood", "a number too large for its field", "more than 65,535 events"};
    u64 at_line, length = read_all();
    (void)count, (void)words;
    u32 fault = listen(input, length, &at_line);
    if (fault == GOOD) {
        put_bytes(made, told_bytes(made));
        return 0;
    }
    put_blank_number("line ", at_line + 1);
    put_text(": ");
    put_text(wrong[fault]);
    put_text("\n");
    return 1;
}

static int each(void (*print)(const u8 *bytes, u64 length))
{
    u64 length;
    while (read_next(&length))
        print(input, length);
    return 0;
}

int mode_words_many(int count, char **words)
{
    (void)count, (void)words;
    return each(print_words);
}

int mode_unwords_many(int count, char **words)
{
    (void)count, (void)words;
    return each(print_unwords);
}

int mode_pieces_many(int count, char **words)
{
    (void)count, (void)words;
    return each(print_piece);
}

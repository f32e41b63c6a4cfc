/* How much stack each call touches: the call runs on a thread whose stack is an area filled with one byte value, and what differs
   from it afterwards was used; with another value once more, so that no byte hides. The ending of the thread itself touches what
   stands at "(no call)". Standard input is a schedule. */
#include "../include/uq.h"

int printf(const char *format, ...);
long read(int file, void *bytes, size_t length);
int pthread_attr_init(void *attributes);
int pthread_attr_setstack(void *attributes, void *area, size_t length);
int pthread_create(uint64_t *thread, const void *attributes, void *(*body)(void *), void *argument);
int pthread_join(uint64_t thread, void **result);

enum { AREA = 8 * 1024 * 1024 };

static uint8_t area[AREA] __attribute__((aligned(4096)));
static uint8_t schedule[UQ_MAX_SCHEDULE + 1], record[UQ_RECORD], begun[UQ_RECORD], buffer[UQ_RECORD], text[65536];
static size_t length;
static uint64_t result, count;

static void nothing(void) {}

static void check_image(void) {
    result = uq_check_image(schedule + 8, 10 + 9 * (size_t)schedule[13]);
}

static void widen(void) {
    result = uq_widen(schedule + 8, 10 + 9 * (size_t)schedule[13], text, sizeof text);
}

/* What was widened, back. */
static void narrow(void) {
    result = uq_narrow(text, 14 + 13 * (size_t)schedule[13], buffer, sizeof buffer);
}

static void export_desks(void) {
    result = uq_export(schedule + 8, 10 + 9 * (size_t)schedule[13], 8, text, sizeof text);
}

/* What was written out, read in. */
static void import_desks(void) {
    result = uq_import(text, 7 + 4 * 8 + 9 * (size_t)schedule[13], buffer, sizeof buffer);
}

static void check_schedule(void) {
    result = uq_check_schedule(schedule, length);
}

static void count_endings(void) {
    result = uq_count_endings(schedule, length);
    count = uq_value(result);
}

/* The last one. */
static void ending(void) {
    result = uq_ending(schedule, length, count - 1, buffer, sizeof buffer);
}

/* The last line. */
static void line(void) {
    result = uq_line(schedule, length, schedule[13], buffer, sizeof buffer);
}

/* The first line and as many of the endings' as the buffer takes. */
static void page_lines(void) {
    result = uq_page_lines(schedule, length, 0, text, sizeof text);
}

static void refusal_line(void) {
    result = uq_refusal_line(18, 4294967295u, text, sizeof text);
}

static void start(void) {
    result = uq_start(schedule + 8, 10 + 9 * (size_t)schedule[13], schedule[5], begun, sizeof begun);
}

static void again(void) {
    for (int i = 0; i < UQ_RECORD; i++) record[i] = begun[i];
    result = 0;
}

/* An event, where none was refused before it. */
static void event(uint8_t kind, uint8_t number, uint32_t item) {
    if (uq_number(result) == 0) result = uq_event(record, sizeof record, kind, number, item);
}

/* Every event of the schedule. */
static void events(void) {
    const uint8_t *at = schedule + 18 + 9 * (size_t)schedule[13];
    again();
    for (; at + 6 <= schedule + length; at += 6) {
        event(at[0], at[1], at[2] + ((uint32_t)at[3] << 8) + ((uint32_t)at[4] << 16) + ((uint32_t)at[5] << 24));
    }
}

/* Three dequeues of each thread, one after the other: they give items, and retire nodes. */
static void dequeues(void) {
    again();
    for (int i = 0; i < 3 * schedule[5]; i++) {
        event(UQ_DEQUEUE, (uint8_t)(i % schedule[5]), 0);
        do event(UQ_STEP, (uint8_t)(i % schedule[5]), 0);
        while (uq_number(result) == 0 && uq_reply(result) == UQ_NO_REPLY);
    }
}

/* Of two changed lines, since one of a clean line is refused: Head's, which a dequeue has moved, and that of the first of four free nodes, which an enqueue has stored to. */
static void write_backs(void) {
    again();
    event(UQ_DEQUEUE, 0, 0);
    for (int i = 0; i < 3; i++) event(UQ_STEP, 0, 0);
    event(UQ_WRITE_BACK, 0, 0);
    event(UQ_ENQUEUE, 1, 1);
    for (int i = 0; i < 2; i++) event(UQ_STEP, 1, 0);
    event(UQ_WRITE_BACK, (uint8_t)(schedule[13] - 3), 0);
}

static void crash(void) {
    again();
    event(UQ_CRASH, 0, 0);
}

static void save(void) {
    result = uq_save(record, sizeof record, buffer, sizeof buffer);
}

static void places(void) {
    result = uq_places(record, sizeof record, buffer, sizeof buffer);
}

/* Sixteen enqueues without an answer, and a queue that no order of them leaves: as deep as a search goes. */
static void judge(void) {
    static uint8_t history[UQ_MAX_HISTORY], order[UQ_MAX_ORDER];
    history[0] = UQ_MAX_ORDER;
    history[2] = 1;
    history[3] = 200;
    for (int i = 0; i < UQ_MAX_ORDER; i++) history[7 + 22 * i] = UQ_ENQUEUE;
    result = uq_judge(history, 7 + 22 * UQ_MAX_ORDER, order, sizeof order);
}

/* The schedule's image. */
static void mend(void) {
    static uint8_t mended[UQ_MAX_IMAGE], list[UQ_MAX_LIST];
    result = uq_mend(schedule + 8, schedule[11] == 2 ? 14 + 13 * (size_t)schedule[13] : 10 + 9 * (size_t)schedule[13], mended, sizeof mended, list, sizeof list);
}

/* The schedule as a probe file in which nothing was answered: the replay runs up to the first answer. */
static void replay(void) {
    static uint8_t file[UQ_MAX_PROBE];
    size_t events = 18 + 9 * (size_t)schedule[13], to = 0;
    for (size_t i = 0; i < length && to < sizeof file; i++) {
        file[to++] = i == 2 ? 'R' : schedule[i];
        if (i >= events && (i - events) % 6 == 5) to += 6;
    }
    result = uq_replay(file, to, buffer, sizeof buffer);
}

static void despatch(void) {
    static uint8_t list[UQ_MAX_ENTRIES];
    result = uq_despatch(schedule, length, 0, list, sizeof list);
}

/* A schedule that is small enough for the plain way: two nodes, one thread, an enqueue begun and two steps of it. */
static void plain_page(void) {
    static uint8_t images[UQ_MAX_PLAIN];
    static const uint8_t small[8 + 28 + 18] = {'U', 'Q', 'S', 1, 0, 1, 3, 0, 'U', 'Q', 'I', 1, 0, 2, [36] = 1, 0, 7, [42] = 3, [48] = 3};
    result = uq_plain_page(small, sizeof small, images, sizeof images);
}

static void (*call)(void);
static uint8_t *entry;

static void *body(void *unused) {
    entry = __builtin_frame_address(0);
    call();
    return unused;
}

/* How far below its own frame a thread that makes this call has changed the area. */
static long touched_over(uint8_t fill) {
    static uint64_t attributes[32];
    uint64_t thread;
    long low = 0;
    for (long i = 0; i < AREA; i++) area[i] = fill;
    if (pthread_attr_init(attributes) || pthread_attr_setstack(attributes, area, AREA)) return -1;
    if (pthread_create(&thread, attributes, body, 0) || pthread_join(thread, 0)) return -1;
    while (low < AREA && area[low] == fill) low++;
    return entry - (area + low);
}

static long touched(void (*made)(void)) {
    call = made;
    long a = touched_over(165), b = touched_over(90);
    return a < 0 || b < 0 ? -1 : a < b ? b : a;
}

static int bad;

static void measure(const char *name, void (*made)(void)) {
    long used = touched(made);
    printf("%-22s %7ld bytes\n", name, used);
    if (used < 0 || used > AREA / 2 || uq_number(result) != 0) {
        printf("%s: not measured, or refused %u at %lu\n", name, uq_number(result), uq_value(result));
        bad = 1;
    }
}

int main(void) {
    long got;
    while (length < sizeof schedule && (got = read(0, schedule + length, sizeof schedule - length)) > 0) length += (size_t)got;
    measure("(no call)", nothing);
    measure("uq_check_image", check_image);
    measure("uq_widen", widen);
    measure("uq_narrow", narrow);
    measure("uq_export", export_desks);
    measure("uq_import", import_desks);
    measure("uq_check_schedule", check_schedule);
    measure("uq_count_endings", count_endings);
    printf("(%lu endings)\n", count);
    measure("uq_ending", ending);
    measure("uq_line", line);
    measure("uq_page_lines", page_lines);
    measure("uq_refusal_line", refusal_line);
    measure("uq_start", start);
    measure("uq_event, the schedule", events);
    measure("uq_event, dequeues", dequeues);
    measure("uq_event, write-backs", write_backs);
    measure("uq_event, a crash", crash);
    measure("uq_save", save);
    measure("uq_places", places);
    measure("uq_judge", judge);
    measure("uq_mend", mend);
    measure("uq_replay", replay);
    measure("uq_despatch", despatch);
    measure("uq_plain_page", plain_page);
    return bad;
}

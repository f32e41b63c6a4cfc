/* A C host of the library: P1 of document 01 as a schedule's bytes and event by event on a record, some refusals, and the answers
   of operations. Every result is compared with what document 01 says; the exit status is 0 only where all agree. */
#include "../include/uq.h"

int printf(const char *format, ...);

enum { NODES = 2, IMAGE = 10 + 9 * NODES, P1_EVENTS = 10, P1_BYTES = 8 + IMAGE + 6 * P1_EVENTS };

static int passed, failed;

static void expect(const char *what, uint64_t got, uint64_t wanted) {
    if (got == wanted) {
        passed++;
        return;
    }
    failed++;
    printf("%s: %lu, and not %lu\n", what, got, wanted);
}

static uint64_t refusal(uint64_t number, uint64_t place) { return number + 256 * place; }

static void put_word(uint8_t *at, uint32_t x) {
    for (int i = 0; i < 4; i++) at[i] = (uint8_t)(x >> (8 * i));
}

/* An image of two nodes, the second of them with a content of its own. */
static void put_image(uint8_t *at, uint32_t head, uint8_t linked, uint32_t index, uint32_t item) {
    static const uint8_t mark[6] = {'U', 'Q', 'I', 1, 0, NODES};
    for (int i = 0; i < IMAGE; i++) at[i] = 0;
    for (int i = 0; i < 6; i++) at[i] = mark[i];
    put_word(at + 6, head);
    at[19] = linked;
    put_word(at + 20, index);
    put_word(at + 24, item);
}

static void put_event(uint8_t *at, uint8_t kind, uint8_t number, uint32_t item) {
    at[0] = kind;
    at[1] = number;
    put_word(at + 2, item);
}

/* P1: N = 2, T = 1, all-zero image, one begin of an enqueue of 7, nine steps. */
static void put_p1(uint8_t *at) {
    static const uint8_t mark[8] = {'U', 'Q', 'S', 1, 0, 1, P1_EVENTS, 0};
    for (int i = 0; i < 8; i++) at[i] = mark[i];
    put_image(at + 8, 0, 0, 0, 0);
    put_event(at + 8 + IMAGE, UQ_ENQUEUE, 0, 7);
    for (int i = 1; i < P1_EVENTS; i++) put_event(at + 8 + IMAGE + 6 * i, UQ_STEP, 0, 0);
}

static int same(const uint8_t *a, const uint8_t *b, int n) {
    for (int i = 0; i < n; i++) {
        if (a[i] != b[i]) return 0;
    }
    return 1;
}

static void show(uint64_t k, const uint8_t *bytes, int n) {
    printf("%lu ", k);
    for (int i = 0; i < n; i++) printf("%02x", bytes[i]);
    printf("\n");
}

/* The four endings of P1: they differ in the new node's line alone. */
static void endings(void) {
    static const uint8_t linked[4] = {0, 0, 0, 1};
    static const uint32_t index[4] = {0, 0, 1, 1};
    static const uint32_t item[4] = {0, 7, 7, 7};
    uint8_t schedule[P1_BYTES], wanted[IMAGE], buffer[IMAGE + 1];
    put_p1(schedule);
    expect("P1 is a schedule", uq_check_schedule(schedule, P1_BYTES), UQ_TAKEN);
    uint64_t count = uq_count_endings(schedule, P1_BYTES);
    expect("count of P1", count, 256 * 4);
    printf("P1: %lu endings\n", uq_value(count));
    for (uint64_t k = 0; k < uq_value(count) && k < 4; k++) {
        buffer[IMAGE] = 99;
        expect("ending", uq_ending(schedule, P1_BYTES, k, buffer, sizeof buffer), UQ_TAKEN);
        show(k, buffer, IMAGE);
        put_image(wanted, 0, linked[k], index[k], item[k]);
        expect("bytes of an ending", same(buffer, wanted, IMAGE), 1);
        expect("the byte behind it", buffer[IMAGE], 99);
        expect("an ending is an image", uq_check_image(buffer, IMAGE), UQ_TAKEN);
    }
}

/* The same four by the plain way, one after the other. */
static void plainly(void) {
    uint8_t schedule[P1_BYTES], wanted[IMAGE], buffer[4 * IMAGE + 1];
    put_p1(schedule);
    buffer[4 * IMAGE] = 99;
    expect("the plain way", uq_plain_page(schedule, P1_BYTES, buffer, sizeof buffer), 256 * 4);
    for (uint64_t k = 0; k < 4; k++) {
        expect("ending", uq_ending(schedule, P1_BYTES, k, wanted, sizeof wanted), UQ_TAKEN);
        expect("the plain way's image", same(buffer + k * IMAGE, wanted, IMAGE), 1);
    }
    expect("the byte behind them", buffer[4 * IMAGE], 99);
    expect("no room for four", uq_plain_page(schedule, P1_BYTES, buffer, 4 * IMAGE - 1), refusal(UQ_ROOM, 0));
}

/* The contents of P1's lines, the oldest first: of Head one index, of node 1's line four contents of thirteen bytes. */
static void contents(void) {
    static const uint8_t wanted[4 * 13] = {
        0, 0, 0, 0, 0, 0, 0, 0, 0, 0, 0, 0, 0, /* linked, index, item */
        0, 0, 0, 0, 0, 0, 0, 0, 0, 7, 0, 0, 0,
        0, 1, 0, 0, 0, 0, 0, 0, 0, 7, 0, 0, 0,
        1, 1, 0, 0, 0, 0, 0, 0, 0, 7, 0, 0, 0,
    };
    uint8_t schedule[P1_BYTES], buffer[UQ_MAX_CONTENTS] = {99, 99, 99, 99, 99, 99, 99, 99, 99};
    put_p1(schedule);
    expect("contents of Head", uq_line(schedule, P1_BYTES, 0, buffer, 8), 256 * 1);
    expect("its index", same(buffer, wanted, 8), 1);
    expect("the byte behind it", buffer[8], 99);
    uint64_t line = uq_line(schedule, P1_BYTES, 2, buffer, sizeof buffer);
    printf("line 2 of P1: %lu contents\n", uq_value(line));
    expect("contents of node 1", line, 256 * 4);
    expect("their bytes", same(buffer, wanted, 4 * 13), 1);
    expect("no line 3", uq_line(schedule, P1_BYTES, 3, buffer, sizeof buffer), refusal(UQ_NUMBER, 0));
    expect("no room for four", uq_line(schedule, P1_BYTES, 2, buffer, 4 * 13 - 1), refusal(UQ_ROOM, 0));
}

/* The despatch desk's list of P1: in ending 3 its enqueue is still queued, in the others it was never in. */
static void despatch(void) {
    uint8_t schedule[P1_BYTES], buffer[UQ_ENTRY + 1];
    put_p1(schedule);
    for (uint64_t k = 0; k < 4; k++) {
        uint8_t wanted[UQ_ENTRY] = {0, 0, 0, k == 3 ? UQ_STILL_QUEUED : UQ_NEVER_IN, 7, 0, 0, 0};
        buffer[UQ_ENTRY] = 99;
        expect("entries of P1's list", uq_despatch(schedule, P1_BYTES, k, buffer, sizeof buffer), 256 * 1);
        expect("its entry", same(buffer, wanted, UQ_ENTRY), 1);
        expect("the byte behind it", buffer[UQ_ENTRY], 99);
    }
    expect("no list of ending 4", uq_despatch(schedule, P1_BYTES, 4, buffer, 0), refusal(UQ_NO_ENDING, 0));
    expect("no room for an entry", uq_despatch(schedule, P1_BYTES, 0, buffer, UQ_ENTRY - 1), refusal(UQ_ROOM, 0));
}

/* P1's page, whole and piece by piece, and the line of a refusal. */
static void text(void) {
    static const uint8_t page[] = "UQS 1 threads 1 nodes 2 events 10 endings 4\n0 0 -\n1 0 -\n2 0 -\n3 0 7\n";
    enum { PAGE = sizeof page - 1, FIRST = PAGE - 4 * 6 };
    uint8_t schedule[P1_BYTES], buffer[PAGE + 1] = {0};
    put_p1(schedule);
    uint64_t all = uq_page_lines(schedule, P1_BYTES, 0, buffer, sizeof buffer);
    printf("%.*s", (int)uq_bytes(all), (const char *)buffer);
    expect("number of a page", uq_number(all), UQ_TAKEN);
    expect("lines of a page", uq_lines(all), 5);
    expect("bytes of a page", uq_bytes(all), PAGE);
    expect("the page", same(buffer, page, PAGE), 1);
    expect("the byte behind it", buffer[PAGE], 0);
    uint64_t some = uq_page_lines(schedule, P1_BYTES, 2, buffer, 13);
    expect("lines in 13 bytes", uq_lines(some), 2);
    expect("their bytes", uq_bytes(some), 12);
    expect("lines 2 and 3", same(buffer, page + FIRST + 6, 12), 1);
    expect("no room for line 0", uq_page_lines(schedule, P1_BYTES, 0, buffer, FIRST - 1), refusal(UQ_ROOM, 0));
    expect("no line 5", uq_page_lines(schedule, P1_BYTES, 5, buffer, PAGE), refusal(UQ_NO_ENDING, 0));
    uint64_t line = uq_refusal_line(9, 3, buffer, PAGE);
    expect("bytes of a refusal", uq_bytes(line), 15);
    expect("the line of a refusal", same(buffer, (const uint8_t *)"refused 9 at 3\n", 15), 1);
    expect("no room for it", uq_refusal_line(9, 3, buffer, 14), refusal(UQ_ROOM, 0));
}

/* Each names its number and place, and writes nothing. */
static void refusals(void) {
    uint8_t schedule[P1_BYTES], buffer[IMAGE] = {0};
    put_p1(schedule);
    uint64_t none = uq_ending(schedule, P1_BYTES, 4, buffer, IMAGE);
    printf("ending 4 of P1: refused %u at %lu\n", uq_number(none), uq_value(none));
    expect("ending 4", none, refusal(UQ_NO_ENDING, 0));
    expect("a short buffer", uq_ending(schedule, P1_BYTES, 1, buffer, IMAGE - 1), refusal(UQ_ROOM, 0));
    for (int i = 0; i < IMAGE; i++) expect("a byte after a refusal", buffer[i], 0);
    expect("no bytes", uq_count_endings(schedule, 0), refusal(UQ_LENGTH, 0));
    expect("a byte too few", uq_count_endings(schedule, P1_BYTES - 1), refusal(UQ_LENGTH, 0));
    schedule[8 + IMAGE + 6 * 3] = 6;
    expect("an unknown kind", uq_count_endings(schedule, P1_BYTES), refusal(UQ_KIND, 3));
    expect("events are not looked at", uq_check_schedule(schedule, P1_BYTES), UQ_TAKEN);
    schedule[8 + 19] = 2;
    expect("a linked byte of 2", uq_check_schedule(schedule, P1_BYTES), refusal(UQ_LINKED, 1));
    expect("the same in an image", uq_check_image(schedule + 8, IMAGE), refusal(UQ_LINKED, 1));
    schedule[5] = 9;
    expect("nine threads", uq_check_schedule(schedule, P1_BYTES), refusal(UQ_THREADS, 0));
}

/* Two recovered nodes with one index, in an image of two: the second is cleared, for 7. Mended, it is accepted; mended again it stays. */
static void mending(void) {
    uint8_t image[IMAGE], mended[IMAGE + 1], list[3] = {9, 9, 9}, wanted[IMAGE];
    put_image(image, 0, 1, 4, 7);
    image[10] = 1;
    put_word(image + 11, 4);
    for (int i = 0; i < IMAGE; i++) wanted[i] = image[i];
    wanted[19] = 0;
    mended[IMAGE] = 9;
    expect("twins", uq_check_image(image, IMAGE), refusal(UQ_TWIN, 1));
    expect("no room for the image", uq_mend(image, IMAGE, mended, IMAGE - 1, list, 2), refusal(UQ_ROOM, 0));
    expect("no room for the list", uq_mend(image, IMAGE, mended, IMAGE, list, 1), refusal(UQ_ROOM, 0));
    expect("one node changed", uq_value(uq_mend(image, IMAGE, mended, IMAGE, list, 2)), 1);
    expect("node 1", list[0], 1);
    expect("for 7", list[1], UQ_TWIN);
    expect("the bytes behind stay", list[2] == 9 && mended[IMAGE] == 9, 1);
    expect("nothing else", same(mended, wanted, IMAGE), 1);
    expect("mended", uq_check_image(mended, IMAGE), UQ_TAKEN);
    expect("mended again", uq_mend(mended, IMAGE, image, IMAGE, list, 0), UQ_TAKEN);
    expect("the same", same(image, mended, IMAGE), 1);
}

/* The machine of an image of two nodes whose head index is `head`. */
static void start(uint8_t *record, uint32_t head) {
    uint8_t image[IMAGE];
    put_image(image, head, 0, 0, 0);
    expect("start", uq_start(image, IMAGE, 1, record, UQ_RECORD), UQ_TAKEN);
}

static uint64_t event(uint8_t *record, uint8_t kind, uint32_t item) { return uq_event(record, UQ_RECORD, kind, 0, item); }

/* Steps of thread 0 that answer nothing yet, then one that answers. */
static uint64_t steps(uint8_t *record, int silent) {
    for (int i = 0; i < silent; i++) expect("a step", event(record, UQ_STEP, 0), UQ_TAKEN);
    return event(record, UQ_STEP, 0);
}

static void places(const uint8_t *record, const char *what, const uint8_t *wanted) {
    uint8_t got[UQ_PLACES];
    expect(what, uq_places(record, UQ_RECORD, got, UQ_PLACES), UQ_TAKEN);
    expect(what, same(got, wanted, UQ_PLACES), 1);
}

static void saved(const uint8_t *record, const char *what, uint32_t head, uint8_t linked, uint32_t index, uint32_t item) {
    uint8_t got[IMAGE], wanted[IMAGE];
    put_image(wanted, head, linked, index, item);
    expect(what, uq_save(record, UQ_RECORD, got, IMAGE), UQ_TAKEN);
    expect(what, same(got, wanted, IMAGE), 1);
}

/* P1 to P5 on a record: the places are queue, free, waiting, held, owned by an enqueue, owned by a dequeue. */
static void run(void) {
    static const uint8_t fresh[6] = {1, 1, 0, 0, 0, 0}, owned[6] = {1, 0, 0, 0, 1, 0}, queued[6] = {2, 0, 0, 0, 0, 0};
    static const uint8_t taken[6] = {1, 0, 0, 0, 0, 1}, held[6] = {1, 0, 0, 1, 0, 0};
    uint8_t record[UQ_RECORD];
    start(record, 0);
    places(record, "places at the start", fresh);
    expect("begin of an enqueue", event(record, UQ_ENQUEUE, 7), UQ_TAKEN);
    expect("A1 to A7", steps(record, 6), UQ_TAKEN);
    places(record, "places before A8", owned);
    expect("A8, A9", steps(record, 1), UQ_TAKEN);
    places(record, "places after P1", queued);
    saved(record, "P1 persisted", 0, 0, 0, 0);
    expect("A10, the flush", event(record, UQ_STEP, 0), UQ_TAKEN);
    saved(record, "persisted at the flush", 0, 0, 0, 0);
    expect("its fence", event(record, UQ_STEP, 0), UQ_TAKEN);
    saved(record, "P2 persisted", 0, 1, 1, 7);
    uint64_t done = event(record, UQ_STEP, 0);
    printf("A11 of P1's enqueue: reply %u\n", uq_reply(done));
    expect("A11 answers Done", uq_reply(done), UQ_DONE);
    expect("begin of a dequeue", event(record, UQ_DEQUEUE, 0), UQ_TAKEN);
    expect("D1, D2, D4", steps(record, 2), UQ_TAKEN);
    places(record, "places after P3", taken);
    expect("D5, D6, the flush", steps(record, 1), UQ_TAKEN);
    saved(record, "persisted at D6", 0, 1, 1, 7);
    places(record, "places at the fence", taken);
    expect("its fence", event(record, UQ_STEP, 0), UQ_TAKEN);
    saved(record, "P4 persisted", 1, 1, 1, 7);
    uint64_t item = event(record, UQ_STEP, 0);
    printf("D7 of the dequeue: reply %u, item %u\n", uq_reply(item), uq_item(item));
    expect("D7 answers an item", uq_reply(item), UQ_ITEM);
    expect("the item", uq_item(item), 7);
    places(record, "places after the dequeue", held);
    expect("begin of P5", event(record, UQ_ENQUEUE, 8), UQ_TAKEN);
    expect("P5 answers Full", uq_reply(event(record, UQ_STEP, 0)), UQ_FULL);
    expect("crash", event(record, UQ_CRASH, 0), UQ_TAKEN);
    places(record, "places after a crash", fresh);
    expect("begin after a crash", event(record, UQ_DEQUEUE, 0), UQ_TAKEN);
    expect("an empty queue", uq_reply(steps(record, 3)), UQ_EMPTY);
}

/* P10. */
static void worn_out(void) {
    uint8_t record[UQ_RECORD];
    start(record, 4294967295u);
    expect("begin of P10", event(record, UQ_ENQUEUE, 3), UQ_TAKEN);
    expect("P10 answers Worn out", uq_reply(steps(record, 6)), UQ_WORN_OUT);
}

/* What is refused of an event changes nothing. */
static void event_refusals(void) {
    uint8_t record[UQ_RECORD], before[UQ_RECORD];
    start(record, 0);
    expect("a step of an idle thread", event(record, UQ_STEP, 0), refusal(UQ_IDLE, 0));
    expect("begin", event(record, UQ_ENQUEUE, 3), UQ_TAKEN);
    for (int i = 0; i < UQ_RECORD; i++) before[i] = record[i];
    expect("a second begin", event(record, UQ_ENQUEUE, 3), refusal(UQ_BUSY, 0));
    expect("thread 1 of one", uq_event(record, UQ_RECORD, UQ_STEP, 1, 0), refusal(UQ_NUMBER, 0));
    expect("a step with an item", event(record, UQ_STEP, 1), refusal(UQ_NOT_ZERO, 0));
    expect("kind 6", event(record, 6, 0), refusal(UQ_KIND, 0));
    expect("a write-back of Head's line, which is clean", event(record, UQ_WRITE_BACK, 0), refusal(UQ_CLEAN, 0));
    expect("a record too short", uq_event(record, UQ_RECORD - 1, UQ_STEP, 0, 0), refusal(UQ_LENGTH, 0));
    expect("the record stays", same(record, before, UQ_RECORD), 1);
    record[6] = 65;
    expect("65 nodes", event(record, UQ_CRASH, 0), refusal(UQ_RANGE, 0));
}

/* The other calls on records: T before the image, a record out of range before a short buffer. */
static void record_refusals(void) {
    uint8_t image[IMAGE], record[UQ_RECORD], buffer[IMAGE] = {0};
    put_image(image, 0, 2, 0, 0);
    expect("no threads", uq_start(image, IMAGE, 0, record, UQ_RECORD), refusal(UQ_THREADS, 0));
    expect("a linked byte of 2", uq_start(image, IMAGE, 1, record, 0), refusal(UQ_LINKED, 1));
    put_image(image, 0, 0, 0, 0);
    expect("no room for a record", uq_start(image, IMAGE, 1, record, UQ_RECORD - 1), refusal(UQ_ROOM, 0));
    start(record, 0);
    expect("no room for an image", uq_save(record, UQ_RECORD, buffer, IMAGE - 1), refusal(UQ_ROOM, 0));
    expect("no room for six", uq_places(record, UQ_RECORD, buffer, UQ_PLACES - 1), refusal(UQ_ROOM, 0));
    expect("no record to save", uq_save(record, 0, buffer, IMAGE), refusal(UQ_LENGTH, 0));
    record[7] = 0;
    expect("a record of no threads", uq_save(record, UQ_RECORD, buffer, 0), refusal(UQ_RANGE, 0));
    expect("its places", uq_places(record, UQ_RECORD, buffer, 0), refusal(UQ_RANGE, 0));
    for (int i = 0; i < IMAGE; i++) expect("a byte after a refusal", buffer[i], 0);
}

/* An operation of a history: 22 bytes. */
static uint8_t *put_operation(uint8_t *at, uint8_t kind, uint8_t begun, uint8_t answered, uint8_t answer, uint32_t item) {
    for (int i = 0; i < 22; i++) at[i] = 0;
    at[0] = kind;
    at[1] = begun;
    at[9] = answered;
    at[17] = answer;
    put_word(at + 18, item);
    return at + 22;
}

/* From queue 7 to queue 9: a dequeue that took 7 and an enqueue of 9 were answered, one enqueue was answered Full, one dequeue not at all. */
static void history(void) {
    uint8_t bytes[UQ_MAX_HISTORY] = {4, 1, 1}, order[UQ_MAX_ORDER];
    uint8_t *at = bytes + 11;
    put_word(bytes + 3, 7);
    put_word(bytes + 7, 9);
    at = put_operation(at, UQ_DEQUEUE, 6, 0, UQ_NO_REPLY, 0);
    at = put_operation(at, UQ_ENQUEUE, 1, 5, UQ_DONE, 9);
    at = put_operation(at, UQ_DEQUEUE, 2, 4, UQ_ITEM, 7);
    at = put_operation(at, UQ_ENQUEUE, 3, 4, UQ_FULL, 8);
    size_t length = (size_t)(at - bytes);
    for (int i = 0; i < UQ_MAX_ORDER; i++) order[i] = 99;
    uint64_t r = uq_judge(bytes, length, order, sizeof order);
    expect("a history's number", uq_number(r), UQ_TAKEN);
    expect("its verdict", uq_verdict(r), UQ_LAWFUL);
    expect("its tries", uq_tries(r), 3);
    expect("its order's length", uq_order(r), 3);
    expect("the order", order[0] * 10000u + order[1] * 100u + order[2], 10203);
    expect("the byte behind it", order[3], 99);
    expect("no room for it", uq_judge(bytes, length, order, 3), refusal(UQ_ROOM, 0));
    expect("a history cut short", uq_judge(bytes, length - 1, order, sizeof order), refusal(UQ_LENGTH, 0));
    put_word(bytes + 7, 10);
    r = uq_judge(bytes, length, order, sizeof order);
    expect("the verdict on another recovered item", uq_verdict(r), UQ_UNLAWFUL);
    expect("its order's length", uq_order(r), 0);
    bytes[11 + 22 * 2 + 17] = UQ_FULL;
    expect("a dequeue answered Full", uq_judge(bytes, length, order, sizeof order), refusal(UQ_KIND, 2));
    bytes[11 + 22 * 2 + 17] = UQ_EMPTY;
    bytes[11 + 22 * 1 + 9] = 0;
    expect("answered before it began", uq_judge(bytes, length, order, sizeof order), refusal(UQ_NOT_ZERO, 1));
}

/* An image there and back (request 107); an index and a head of 33 bits, which have no place in version 1. */
static void conversions(void) {
    enum { WIDE = 14 + 13 * NODES };
    uint8_t image[IMAGE], wide[UQ_MAX_IMAGE], back[IMAGE];
    put_image(image, 5, 1, 4294967295u, 7);
    for (int i = 0; i < UQ_MAX_IMAGE; i++) wide[i] = 99;
    expect("nine bytes to be widened", uq_widen(image, 9, wide, sizeof wide), refusal(UQ_LENGTH, 0));
    expect("widened, no room", uq_widen(image, IMAGE, wide, WIDE - 1), refusal(UQ_ROOM, 0));
    expect("a byte after a refusal", wide[0], 99);
    expect("widened", uq_widen(image, IMAGE, wide, sizeof wide), UQ_TAKEN);
    expect("its version", wide[3], 2);
    expect("the byte behind it", wide[WIDE], 99);
    expect("version 2 is an image", uq_check_image(wide, WIDE), UQ_TAKEN);
    expect("the other version", uq_narrow(image, IMAGE, back, IMAGE), refusal(UQ_MARK, 0));
    expect("narrowed again", uq_narrow(wide, WIDE, back, IMAGE), UQ_TAKEN);
    expect("there and back", same(back, image, IMAGE), 1);
    wide[14 + 13 + 5] = 1;
    expect("node 1's index of 33 bits", uq_narrow(wide, WIDE, back, IMAGE), refusal(UQ_NARROW, 1));
    wide[10] = 1;
    expect("a head of 33 bits, tested first", uq_narrow(wide, WIDE, back, 0), refusal(UQ_NARROW, NODES));
    expect("bytes after a refusal", same(back, image, IMAGE), 1);
}

/* An image written out for three desks and read in again (request 101); the largest of the three indices is the head. */
static void desks(void) {
    enum { DESKS = 7 + 4 * 3 + 9 * NODES };
    uint8_t image[IMAGE], three[UQ_MAX_IMAGE], back[IMAGE];
    put_image(image, 5, 1, 6, 7);
    for (int i = 0; i < UQ_MAX_IMAGE; i++) three[i] = 99;
    expect("nine bytes written out", uq_export(image, 9, 3, three, sizeof three), refusal(UQ_LENGTH, 0));
    expect("no desk", uq_export(image, IMAGE, 0, three, sizeof three), refusal(UQ_THREADS, 0));
    expect("nine desks, 4 before 17", uq_export(image, IMAGE, 9, three, 0), refusal(UQ_THREADS, 0));
    expect("written out, no room", uq_export(image, IMAGE, 3, three, DESKS - 1), refusal(UQ_ROOM, 0));
    expect("a byte after a refusal", three[0], 99);
    expect("written out", uq_export(image, IMAGE, 3, three, sizeof three), UQ_TAKEN);
    expect("its mark", three[2], 'P');
    expect("its T", three[6], 3);
    expect("the byte behind it", three[DESKS], 99);
    expect("it is an image", uq_check_image(three, DESKS), UQ_TAKEN);
    expect("six bytes read in", uq_import(three, 6, back, IMAGE), refusal(UQ_LENGTH, 0));
    expect("the other mark", uq_import(image, IMAGE, back, IMAGE), refusal(UQ_MARK, 0));
    expect("read in, no room", uq_import(three, DESKS, back, IMAGE - 1), refusal(UQ_ROOM, 0));
    expect("read in", uq_import(three, DESKS, back, IMAGE), UQ_TAKEN);
    expect("out and in", same(back, image, IMAGE), 1);
    three[7 + 4] = 9;
    expect("the second desk's index the largest", uq_import(three, DESKS, back, IMAGE), UQ_TAKEN);
    expect("is the head", back[6], 9);
}

int main(void) {
    conversions();
    desks();
    history();
    endings();
    plainly();
    contents();
    despatch();
    text();
    refusals();
    mending();
    run();
    worn_out();
    event_refusals();
    record_refusals();
    printf("%d passed, %d failed\n", passed, failed);
    return failed != 0;
}

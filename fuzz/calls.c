/* The library's calls beside the second program's functions. */
#include "fuzz.h"

u64 numbers_seen[NUMBERS], history_numbers_seen[NUMBERS], verdicts_seen[VERDICTS];

enum { ROOM = MOST_RECORD }; /* more than any record has */

static int differ(const char *call, u64 ours, u64 theirs)
{
    put_text("differs: ");
    put_text(call);
    put_text(": the library ");
    put_number(ours);
    put_text(", the second program ");
    put_number(theirs);
    put_text("\n");
    return 0;
}

/* number + 256 * place, or 256 * value where it is taken */
static u64 packed(Verdict v, u64 value)
{
    numbers_seen[v.number]++;
    return v.number == TAKEN ? 256 * value : v.number + 256 * (u64)v.place;
}

static int same_number(const char *call, u64 ours, u64 theirs)
{
    return ours == theirs ? 1 : differ(call, ours, theirs);
}

static int same_bytes(const char *call, const u8 *ours, const u8 *theirs, u64 length)
{
    for (u64 i = 0; i < length; i++)
        if (ours[i] != theirs[i])
            return differ(call, ours[i], theirs[i]);
    return 1;
}

/* Two buffers with the same bytes in them, so that those that stay can be told. */
static void fill_both(u8 *a, u8 *b, u64 length)
{
    for (u64 i = 0; i < length; i++)
        a[i] = b[i] = (u8)random_bits();
}

/* How long the image in a schedule's bytes says it is; where there are too few bytes for it to say so, more than there are. */
static u64 image_in(const u8 *bytes, u64 length)
{
    const u8 *image = bytes + SCHEDULE_HEAD;
    return length < SCHEDULE_HEAD + IMAGE_LEAST ? length + 1 : length_in(image);
}

int agree_on_bytes(const u8 *bytes, u64 length)
{
    Schedule schedule;
    Image image;
    u64 count = 0;
    u64 skip = length < SCHEDULE_HEAD ? length : SCHEDULE_HEAD;
    u64 image_bytes = length - skip;
    if (chance(80) && image_in(bytes, length) < image_bytes)
        image_bytes = image_in(bytes, length); /* without the events */
    return same_number("uq_check_image", uq_check_image(bytes + skip, image_bytes), packed(read_image(bytes + skip, image_bytes, &image), 0))
        && same_number("uq_check_schedule", uq_check_schedule(bytes, length), packed(read_schedule(bytes, length, &schedule), 0))
        && same_number("uq_count_endings", uq_count_endings(bytes, length), packed(endings_of(bytes, length, &schedule, &the_bench, &count), count));
}

int agree_on_ending(const u8 *bytes, u64 length)
{
    static u8 ours[ROOM], theirs[ROOM];
    Schedule schedule;
    u64 count = 0;
    u32 taken = endings_of(bytes, length, &schedule, &the_bench, &count).number == TAKEN;
    u64 whole = taken ? length_of(&schedule.image) : below(600);
    u64 k = chance(70) && count > 0 ? below((u32)count) : chance(50) ? count : chance(50) ? count + below(3) : random_bits();
    u64 room = chance(60) ? whole + below(40) : chance(50) ? whole : chance(50) ? whole - 1 : below(1000);
    fill_both(ours, theirs, ROOM);
    return same_number("uq_ending", uq_ending(bytes, length, k, ours, room), packed(write_ending(bytes, length, k, theirs, room), 0))
        && same_bytes("uq_ending, the buffer", ours, theirs, ROOM);
}

/* A line's contents: of a head line the index, of a node linked, index, item; indices of 8 bytes. */
static u64 put_contents(int head, const History *history, u8 *bytes)
{
    u64 at = 0;
    for (u32 i = 0; i < history->count; i++) {
        const Content *c = &history->list[i];
        if (!head)
            bytes[at++] = (u8)c->linked;
        put4(bytes + at, (u32)c->index);
        put4(bytes + at + 4, (u32)(c->index >> 32));
        at += 8;
        if (!head) {
            put4(bytes + at, c->item);
            at += 4;
        }
    }
    return at;
}

/* One line's contents beside the list that the second program's run keeps of it. */
int agree_on_line(const u8 *bytes, u64 length)
{
    static u8 ours[ROOM], theirs[ROOM], whole[ROOM];
    Schedule schedule;
    u64 count = 0, size = 0, value = 0;
    Verdict v = endings_of(bytes, length, &schedule, &the_bench, &count);
    u32 lines = v.number == TAKEN ? line_count(&the_bench.machine) : MAX_LINES;
    u32 line = chance(85) ? below(lines) : chance(50) ? lines + below(3) : (u32)random_bits();
    if (v.number == TAKEN && line >= lines)
        v = verdict(NUMBER_TOO_LARGE, 0);
    if (v.number == TAKEN) {
        value = the_bench.lines[line].count;
        size = put_contents(line < head_lines(schedule.image.form, schedule.t), &the_bench.lines[line], whole);
    }
    u64 room = chance(60) ? size + below(40) : chance(50) || size == 0 ? size : below((u32)size);
    if (v.number == TAKEN && room < size)
        v = verdict(BUFFER_TOO_SHORT, 0);
    fill_both(ours, theirs, ROOM);
    for (u64 i = 0; v.number == TAKEN && i < size; i++)
        theirs[i] = whole[i];
    return same_number("uq_line", uq_line(bytes, length, line, ours, room), packed(v, value))
        && same_bytes("uq_line, the buffer", ours, theirs, ROOM);
}

/* The plain way beside the second program's endings in their order, where it makes few runs. */
int agree_on_plain(const u8 *bytes, u64 length)
{
    enum { PLAIN = 65536, FEW = 3000 };
    static u8 ours[PLAIN], theirs[PLAIN];
    Schedule schedule;
    Image image;
    u64 count = 0, size = 0, value = 0, runs = 1;
    Verdict v = endings_of(bytes, length, &schedule, &the_bench, &count);
    u32 lines = v.number == TAKEN ? head_lines(schedule.image.form, schedule.t) + schedule.image.n : 0;
    if (v.number == TAKEN && (schedule.event_count > 12 || schedule.image.n > 4 || lines > 6))
        v = verdict(TOO_MANY_ENDINGS, 0);
    for (u32 i = 0; i < lines && runs <= FEW; i++)
        runs *= schedule.event_count + 2;
    if (v.number == TAKEN && runs > FEW)
        return 1;
    if (v.number == TAKEN) {
        value = count;
        size = count * length_of(&schedule.image);
    }
    u64 room = chance(70) ? size + below(40) : chance(50) || size == 0 ? size : below((u32)size);
    if (v.number == TAKEN && room < size)
        v = verdict(BUFFER_TOO_SHORT, 0);
    fill_both(ours, theirs, PLAIN);
    for (u64 k = 0; v.number == TAKEN && k < count; k++) {
        ending_image(&the_bench, k, &image);
        image_to_bytes(&image, theirs + k * length_of(&schedule.image));
    }
    return same_number("uq_plain_page", uq_plain_page(bytes, length, ours, room), packed(v, value))
        && same_bytes("uq_plain_page, the buffer", ours, theirs, PLAIN);
}

/* The second program's page, cut into lines here: as many as fit from line `first` on. */
int agree_on_lines(const u8 *bytes, u64 length)
{
    enum { PAGE = 1 << 16 };
    static u8 page[PAGE], ours[ROOM], theirs[ROOM];
    capture_output(page, PAGE);
    u32 number = print_page(bytes, length);
    u64 size = end_capture();
    u64 count = 0;
    fill_both(ours, theirs, ROOM);
    if (number != TAKEN) {
        u64 result = uq_page_lines(bytes, length, below(3), ours, ROOM), room = chance(70) ? size + below(5) : below((u32)size);
        if (uq_number(result) != number || !same_bytes("uq_page_lines, a refusal", ours, theirs, ROOM))
            return differ("uq_page_lines", uq_number(result), number);
        for (u64 i = 0; i < size && size <= room; i++)
            theirs[i] = page[i];
        u64 expected = size <= room ? 4294967296u * size + 256 : BUFFER_TOO_SHORT;
        return same_number("uq_refusal_line", uq_refusal_line(number, (uint32_t)uq_value(result), ours, room), expected)
            && same_bytes("uq_refusal_line, the buffer", ours, theirs, ROOM);
    }
    if (size == PAGE)
        return 1; /* too long to be looked at here */
    for (u64 i = 0; i < size; i++)
        count += page[i] == '\n';
    u64 first = chance(80) ? below((u32)count) : count + below(2), room = below(chance(50) ? 60 : ROOM);
    u64 from = 0, line = 0, taken = 0, used = 0;
    for (; line < first && from < size; from++)
        line += page[from] == '\n';
    for (u64 end = from; end < size; end++)
        if (page[end] == '\n') {
            if (end + 1 - from > room)
                break;
            used = end + 1 - from;
            taken++;
        }
    for (u64 i = 0; i < used; i++)
        theirs[i] = page[from + i];
    u64 expected = first >= count ? NO_SUCH_ENDING : taken == 0 ? BUFFER_TOO_SHORT : 4294967296u * used + 256 * taken;
    return same_number("uq_page_lines", uq_page_lines(bytes, length, first, ours, room), expected)
        && same_bytes("uq_page_lines, the buffer", ours, theirs, ROOM);
}

/* Both conversions of one image: of the schedule's, or of one made for converting, spoilt now and then. */
int agree_on_conversions(const u8 *bytes, u64 length, u64 number)
{
    static u8 ours[ROOM], theirs[ROOM], image[LONGEST + 16];
    u64 skip = length < SCHEDULE_HEAD ? length : SCHEDULE_HEAD, rest = length - skip;
    if (image_in(bytes, length) < rest)
        rest = image_in(bytes, length);
    for (u64 i = 0; i < rest; i++)
        image[i] = bytes[skip + i];
    if (chance(60)) {
        rest = generate_conversion(number, 0, image);
        if (chance(20))
            spoil(image, &rest, LONGEST);
    }
    u64 room = chance(70) ? MAX_IMAGE + below(9) : below(MAX_IMAGE);
    fill_both(ours, theirs, ROOM);
    return same_number("uq_widen", uq_widen(image, rest, ours, room), packed(widen(image, rest, theirs, room), 0))
        && same_bytes("uq_widen, the buffer", ours, theirs, ROOM)
        && same_number("uq_narrow", uq_narrow(image, rest, ours, room), packed(narrow(image, rest, theirs, room), 0))
        && same_bytes("uq_narrow, the buffer", ours, theirs, ROOM);
}

/* An image with one head index per desk read in, and an image written out for some number of desks (request 101): made for it, spoilt now and then, or the
   schedule's own. */
int agree_on_desks(const u8 *bytes, u64 length, u64 number)
{
    static u8 ours[ROOM], theirs[ROOM], image[LONGEST + 16];
    u64 skip = length < SCHEDULE_HEAD ? length : SCHEDULE_HEAD, rest = length - skip, room;
    u32 threads = below(chance(80) ? 9 : 256);
    if (image_in(bytes, length) < rest)
        rest = image_in(bytes, length);
    for (u64 i = 0; i < rest; i++)
        image[i] = bytes[skip + i];
    if (chance(60)) {
        rest = chance(50) ? generate_import(number, image) - 2 : generate_export(number, image) - 3; /* without what is behind the image */
        if (chance(20))
            spoil(image, &rest, LONGEST);
    }
    room = chance(70) ? MAX_IMAGE + below(9) : below(MAX_IMAGE);
    fill_both(ours, theirs, ROOM);
    return same_number("uq_import", uq_import(image, rest, ours, room), packed(import(image, rest, theirs, room), 0))
        && same_bytes("uq_import, the buffer", ours, theirs, ROOM)
        && same_number("uq_export", uq_export(image, rest, (uint8_t)threads, ours, room), packed(export(image, rest, threads, theirs, room), 0))
        && same_bytes("uq_export, the buffer", ours, theirs, ROOM);
}

/* An image for so many threads: "UQP" holds its own T, which has to be the same. */
static Verdict read_image_for(u32 threads, const u8 *bytes, u64 length, Image *image)
{
    Verdict v = read_image_head(bytes, length, image);
    if (v.number == TAKEN && image->form == DESKS && image->t != threads)
        v = verdict(WRONG_T, 0);
    return v.number == TAKEN ? read_image(bytes, length, image) : v;
}

int agree_on_start(const u8 *bytes, u64 length)
{
    static u8 ours[ROOM], theirs[ROOM];
    Image image;
    Machine machine;
    u64 skip = length < SCHEDULE_HEAD ? length : SCHEDULE_HEAD;
    u64 rest = length - skip, room = chance(90) ? record_bytes() + below(9) : below((u32)record_bytes());
    u32 threads = below(chance(80) ? 9 : 256);
    if (image_in(bytes, length) < rest)
        rest = image_in(bytes, length);
    Verdict v = threads < 1 || threads > MAX_THREADS ? verdict(WRONG_T, 0) : read_image_for(threads, bytes + skip, rest, &image);
    if (v.number == TAKEN && room < record_bytes())
        v = verdict(BUFFER_TOO_SHORT, 0);
    fill_both(ours, theirs, ROOM);
    if (v.number == TAKEN) {
        start(&machine, threads, &image);
        record_to_bytes(&machine, theirs);
    }
    return same_number("uq_start", uq_start(bytes + skip, rest, (uint8_t)threads, ours, room), packed(v, 0))
        && same_bytes("uq_start, the record", ours, theirs, ROOM);
}

static int agree_on_places(const u8 *record, const Machine *m, Verdict read)
{
    u8 ours[9], theirs[9];
    u32 counts[PLACES] = {0}, room = below(9);
    Verdict v = read.number != TAKEN ? read : verdict(room < PLACES ? BUFFER_TOO_SHORT : TAKEN, 0);
    fill_both(ours, theirs, 9);
    if (v.number == TAKEN) {
        count_places(m, counts);
        for (u32 i = 0; i < PLACES; i++)
            theirs[i] = (u8)counts[i];
    }
    return same_number("uq_places", uq_places(record, record_bytes(), ours, room), packed(v, 0))
        && same_bytes("uq_places, the buffer", ours, theirs, 9);
}

static int agree_on_save(const u8 *record, const Machine *m, Verdict read)
{
    static u8 ours[ROOM], theirs[ROOM];
    Image image;
    u64 room = below(1000);
    Verdict v = read;
    fill_both(ours, theirs, ROOM);
    if (v.number == TAKEN) {
        persisted_image(m, &image);
        v = write_image(&image, theirs, room);
    }
    return same_number("uq_save", uq_save(record, record_bytes(), ours, room), packed(v, 0))
        && same_bytes("uq_save, the buffer", ours, theirs, ROOM);
}

/* One event on a record, most of which no run leads to; a record of another length is refused by 1. */
int agree_on_record(u64 seed, u64 number)
{
    u8 item[MOST_RECORD + EVENT_BYTES + 8], theirs[MOST_RECORD];
    u64 whole = record_bytes();
    Machine machine;
    Reply reply;
    generate_record_item(seed, number, item);
    if (chance(20)) {
        u64 length = whole;
        spoil(item, &length, whole);
    }
    Event event = {item[whole], item[whole + 1], get4(item + whole + 2)};
    Verdict read = record_from_bytes(item, whole, &machine);
    if (!agree_on_places(item, &machine, read) || !agree_on_save(item, &machine, read))
        return 0;
    for (u32 i = 0; i < whole; i++)
        theirs[i] = item[i];
    u64 length = chance(95) ? whole : below((u32)whole);
    Verdict v = length != whole ? verdict(WRONG_LENGTH, 0) : read;
    if (v.number == TAKEN)
        v = perform(&machine, &event, &reply);
    if (v.number == TAKEN)
        record_to_bytes(&machine, theirs);
    u64 value = v.number == TAKEN ? reply.value + 4294967296u * (u64)reply.number : 0;
    return same_number("uq_event", uq_event(item, length, (uint8_t)event.kind, (uint8_t)event.number, event.item), packed(v, value))
        && same_bytes("uq_event, the record", item, theirs, whole);
}

/* The verdict on a history, with a buffer about as long as the order may be. */
int agree_on_history(u64 seed, u64 number)
{
    static u8 bytes[LONGEST + 16];
    u8 ours[40], theirs[40];
    u64 length = some_history(seed, number, bytes), value;
    u64 room = chance(80) || length == 0 ? 16 + below(25) : chance(50) ? bytes[0] % 32 : below(17);
    fill_both(ours, theirs, 40);
    Verdict v = judge_into(bytes, length, theirs, room, &value);
    history_numbers_seen[v.number]++;
    if (v.number == TAKEN)
        verdicts_seen[value >> 24 & 255]++;
    return same_number("uq_judge", uq_judge(bytes, length, ours, room), packed(v, value))
        && same_bytes("uq_judge, the order", ours, theirs, 40);
}

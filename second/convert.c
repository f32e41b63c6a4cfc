/* From version 1 to version 2 and back, and what has to be the same afterwards. */
#include "second.h"

/* The first node whose index is above the form's largest, or N. */
static u32 first_too_wide(const Image *image)
{
    u32 i = 0;
    while (i < image->n && image->nodes[i].index <= largest_index(image->form))
        i++;
    return i;
}

/* 20: "first node that does not fit, or N for the head, the head tested first". Every node counts, recovered or not. */
Verdict test_fits(const Image *image)
{
    u32 node = first_too_wide(image);
    int head_fits = image->head_index <= largest_index(image->form);
    if (wrong_machine == NODES_FIRST && node < image->n)
        return verdict(DOES_NOT_FIT, node);
    if (!head_fits)
        return verdict(DOES_NOT_FIT, image->n);
    return node < image->n ? verdict(DOES_NOT_FIT, node) : verdict(TAKEN, 0);
}

/* An image of one version alone: the other version is a wrong version, so 2, and 2 comes before 3. */
static Verdict read_image_of(u32 form, const u8 *bytes, u64 length, Image *image)
{
    if (length >= IMAGE_LEAST && get2(bytes + 3) != form)
        return verdict(WRONG_MARK, 0);
    return read_uqi(bytes, length, image);
}

static u64 twice(u64 index)
{
    return index | index << 32;
}

/* 1, 2, 3, 1, 6, 7, 8, then 20 (which only version 1 knows), then 17. */
static Verdict convert(u32 from, u32 to, const u8 *bytes, u64 length, u8 *buffer, u64 room)
{
    Image image;
    Verdict v = read_image_of(from, bytes, length, &image);
    if (v.number != TAKEN)
        return v;
    image.form = to;
    if (wrong_machine == LOW_HALF_TWICE && to == WIDE) {
        image.head_index = twice(image.head_index);
        for (u32 i = 0; i < image.n; i++)
            image.nodes[i].index = twice(image.nodes[i].index);
    }
    v = test_fits(&image);
    if (v.number != TAKEN)
        return v;
    if (room < image_length(to, image.n))
        return verdict(BUFFER_TOO_SHORT, 0);
    image_to_bytes(&image, buffer);
    return verdict(TAKEN, 0);
}

Verdict widen(const u8 *bytes, u64 length, u8 *buffer, u64 room)
{
    return convert(NARROW, WIDE, bytes, length, buffer, room);
}

Verdict narrow(const u8 *bytes, u64 length, u8 *buffer, u64 room)
{
    return convert(WIDE, NARROW, bytes, length, buffer, room);
}

typedef Verdict Conversion(const u8 *bytes, u64 length, u8 *buffer, u64 room);

/* NUMBER PLACE and the whole lent buffer, which was filled with `aa`. The room is the argument, or else the last two bytes of each input. */
static int print_converted(Conversion *conversion, int count, char **words)
{
    static u8 buffer[MOST_ROOM + 1];
    u64 length, room = count == 1 ? number_from(words[0]) : 0;
    if (count > 1 || room > sizeof buffer)
        stop("use: widened [ROOM], narrowed [ROOM], ROOM at most 65536");
    while (read_next(&length)) {
        if (count == 0) {
            if (length < 2 || length > INPUT_KEPT)
                stop("an image with its room has at least 2 bytes");
            length -= 2;
            room = get2(input + length);
        }
        for (u64 i = 0; i < room; i++)
            buffer[i] = 0xaa; /* so that the bytes that stay can be seen */
        Verdict v = conversion(input, length, buffer, room);
        print_verdict(v);
        put_hex(buffer, room);
        put_text("\n");
    }
    return 0;
}

int mode_widened(int count, char **words)
{
    return print_converted(widen, count, words);
}

int mode_narrowed(int count, char **words)
{
    return print_converted(narrow, count, words);
}

static Finding finding(u32 result, u64 ending, const char *why)
{
    Finding f = {result, ending, why, 1};
    return f;
}

static int same_bytes(const u8 *a, const u8 *b, u64 length)
{
    for (u64 i = 0; i < length; i++)
        if (a[i] != b[i])
            return 0;
    return 1;
}

static int zeros(const u8 *bytes, u32 count)
{
    for (u32 i = 0; i < count; i++)
        if (bytes[i] != 0)
            return 0;
    return 1;
}

/* What narrow has to give, from the bytes alone: an index fits when its upper four bytes are zero. */
static Verdict fits_by_bytes(const u8 *bytes)
{
    u32 n = bytes[5];
    if (!zeros(bytes + 10, 4))
        return verdict(DOES_NOT_FIT, n);
    for (u32 i = 0; i < n; i++)
        if (!zeros(bytes + 14 + 13 * i + 5, 4))
            return verdict(DOES_NOT_FIT, i);
    return verdict(TAKEN, 0);
}

static int same_verdict(Verdict a, Verdict b)
{
    return a.number == b.number && a.place == b.place;
}

/* Any image: one that is taken is converted there and back, and comes back the same byte for byte, with 17 below the length. The conversion
   for the other version gives 2. What a reader refuses is refused in the same way. */
Finding there_and_back(const u8 *bytes, u64 length)
{
    static u8 there[MAX_IMAGE], back[MAX_IMAGE];
    Image image;
    u32 form = length < IMAGE_LEAST || get2(bytes + 3) != 2 ? NARROW : WIDE, other = form == WIDE ? NARROW : WIDE;
    Conversion *forth = form == WIDE ? narrow : widen, *again = form == WIDE ? widen : narrow;
    Verdict v = read_uqi(bytes, length, &image), given = forth(bytes, length, there, 0);
    if (!same_verdict(again(bytes, length, there, 0), length < IMAGE_LEAST ? verdict(WRONG_LENGTH, 0) : verdict(WRONG_MARK, 0)))
        return finding(CONTRADICTS, 0, "the other version was not refused by 2");
    if (is_version_3(bytes, length))
        v = verdict(WRONG_MARK, 0); /* which the reader takes */
    if (v.number != TAKEN)
        return finding(same_verdict(given, v) ? AGREES : CONTRADICTS, v.number, "refused otherwise than the reader refuses it");
    Verdict fits = form == WIDE ? fits_by_bytes(bytes) : verdict(TAKEN, 0);
    if (fits.number != TAKEN)
        return finding(same_verdict(given, fits) ? AGREES : CONTRADICTS, fits.place, "not refused by 20 at that place");
    u64 whole = image_length(other, image.n);
    if (given.number != BUFFER_TOO_SHORT || forth(bytes, length, there, whole - 1).number != BUFFER_TOO_SHORT)
        return finding(CONTRADICTS, 0, "not refused by 17");
    if (forth(bytes, length, there, whole).number != TAKEN || again(there, whole, back, length).number != TAKEN)
        return finding(CONTRADICTS, 0, "not converted");
    if (plant_now)
        back[length - 1] ^= 1;
    return finding(same_bytes(bytes, back, length) ? AGREES : CONTRADICTS, 0, "other bytes came back");
}

static int ever_worn(const Schedule *s)
{
    bench_start(&the_bench, s);
    for (u32 i = 0; i < s->event_count; i++) {
        Reply reply;
        Event e = event_at(s, i);
        if (bench_event(&the_bench, &e, i, &reply).number == TAKEN && reply.number == WORN_OUT)
            return 1;
    }
    return 0;
}

/* The schedule with its image converted to version 2; gives its length. */
static u64 widen_schedule(const Schedule *s, const u8 *bytes, u8 *to)
{
    u64 wide = image_length(WIDE, s->image.n), at = image_length(NARROW, s->image.n);
    for (u32 i = 0; i < SCHEDULE_HEAD; i++)
        to[i] = bytes[i];
    if (widen(bytes + SCHEDULE_HEAD, at, to + SCHEDULE_HEAD, wide).number != TAKEN)
        stop("an image of a schedule that was taken was not widened");
    for (u64 i = 0; i < (u64)EVENT_BYTES * s->event_count; i++)
        to[SCHEDULE_HEAD + wide + i] = bytes[SCHEDULE_HEAD + at + i];
    return SCHEDULE_HEAD + wide + (u64)EVENT_BYTES * s->event_count;
}

/* The endings of the version 1 schedule, each widened, must be those of the schedule with its image widened. */
static int endings_are_widened(const u8 *bytes, u64 length, const u8 *wide, u64 wide_length, u64 count)
{
    for (u64 k = 0; k < count && k < 40; k++) {
        u8 ending[MAX_IMAGE], widened[MAX_IMAGE], other[MAX_IMAGE];
        if (write_ending(bytes, length, k, ending, sizeof ending).number != TAKEN || write_ending(wide, wide_length, k, other, sizeof other).number != TAKEN)
            return 0;
        u64 whole = image_length(WIDE, ending[5]);
        if (widen(ending, image_length(NARROW, ending[5]), widened, whole).number != TAKEN || !same_bytes(widened, other, whole))
            return 0;
    }
    return 1;
}

/* Adds to the head index and to every index of a version 2 image. */
static void move_up(u8 *image, u64 by)
{
    put8(image + 6, get8(image + 6) + by);
    for (u32 i = 0; i < image[5]; i++)
        put8(image + 14 + 13 * i + 1, get8(image + 14 + 13 * i + 1) + by);
}

/* With all indices of the start moved up alike, the endings are the same ones moved up: only the order of indices counts. */
static int endings_are_moved_up(u8 *wide, u64 length, u64 count)
{
    static u8 higher[2 * MAX_SCHEDULE];
    u64 by = chance(50) ? (u64)1 << 32 : chance(50) ? LARGEST : random_bits() >> 1; /* the indices are of 32 bits, so there is room */
    for (u64 i = 0; i < length; i++)
        higher[i] = wide[i];
    move_up(higher + SCHEDULE_HEAD, by);
    for (u64 k = 0; k <= count && k < 40; k++) {
        u8 ending[MAX_IMAGE], other[MAX_IMAGE];
        Verdict v = write_ending(wide, length, k, ending, sizeof ending), w = write_ending(higher, length, k, other, sizeof other);
        if (!same_verdict(v, w))
            return 0;
        if (v.number != TAKEN)
            break;
        move_up(ending, by);
        if (!same_bytes(ending, other, image_length(WIDE, ending[5])))
            return 0;
    }
    return 1;
}

/* A schedule of version 1 in which nothing wears out has the same page with its image widened, refusals included. */
Finding same_when_wide(const u8 *bytes, u64 length)
{
    enum { PAGE = 1 << 18 };
    static u8 wide[2 * MAX_SCHEDULE], page[PAGE], wide_page[PAGE];
    Schedule s;
    u64 count;
    if (read_schedule(bytes, length, &s).number != TAKEN || s.image.form != NARROW || ever_worn(&s))
        return finding(TOO_LARGE, 0, "not of version 1, or worn out");
    u64 wide_length = widen_schedule(&s, bytes, wide);
    capture_output(page, PAGE);
    u32 number = print_page(bytes, length);
    u64 size = end_capture();
    capture_output(wide_page, PAGE);
    print_page(wide, wide_length);
    if (end_capture() != size || !same_bytes(page, wide_page, size))
        return finding(CONTRADICTS, 0, "another page with the image widened");
    if (number == TAKEN && count_endings(&the_bench, &count).number == TAKEN && !endings_are_widened(bytes, length, wide, wide_length, count))
        return finding(CONTRADICTS, 0, "other endings with the image widened");
    if (number == TAKEN && !endings_are_moved_up(wide, wide_length, count))
        return finding(CONTRADICTS, 0, "other endings with all indices moved up");
    return finding(AGREES, 0, "");
}

/* Request 101: the way to and from an image with one head index per desk. */
#include "second.h"

/* "import in the order 1 (fewer than 7 bytes), 2, 3, 4, 1, 6, 7, 8, 17"; "Import sets the head to the largest". */
Verdict import(const u8 *bytes, u64 length, u8 *buffer, u64 room)
{
    Image image;
    only_form = DESKS;
    Verdict v = read_image_beginning(bytes, length, 7, &image);
    only_form = 0;
    if (v.number == TAKEN && length != length_of(&image))
        v = verdict(WRONG_LENGTH, 0);
    if (v.number == TAKEN)
        v = read_image_nodes(bytes, &image);
    if (v.number != TAKEN)
        return v;
    image.form = NARROW;
    if (room < length_of(&image))
        return verdict(BUFFER_TOO_SHORT, 0);
    image_to_bytes(&image, buffer);
    return verdict(TAKEN, 0);
}

/* "export in 01's order for an image, then 4, then 17"; "export writes the head T times". Version 2 has no such image, so it is 2. */
Verdict export(const u8 *bytes, u64 length, u32 t, u8 *buffer, u64 room)
{
    Image image;
    only_form = NARROW;
    Verdict v = read_image(bytes, length, &image);
    only_form = 0;
    if (v.number == TAKEN && (t < 1 || t > MAX_THREADS))
        v = verdict(WRONG_T, 0);
    if (v.number != TAKEN)
        return v;
    image.form = DESKS;
    image.t = t;
    for (u32 k = 0; k < t; k++)
        image.desks[k] = image.head_index;
    if (room < length_of(&image))
        return verdict(BUFFER_TOO_SHORT, 0);
    image_to_bytes(&image, buffer);
    return verdict(TAKEN, 0);
}

static u8 *lent(u64 room)
{
    static u8 buffer[MOST_ROOM + 1];
    for (u64 i = 0; i < room; i++)
        buffer[i] = 0xaa; /* so that the bytes that stay can be seen */
    return buffer;
}

static void print_lent(Verdict v, const u8 *buffer, u64 room)
{
    print_verdict(v);
    put_hex(buffer, room);
    put_text("\n");
}

/* An image with the room of the lent buffer (2) behind it. */
int mode_imported(int count, char **words)
{
    u64 length;
    (void)count, (void)words;
    while (read_next(&length)) {
        if (length < 2 || length > INPUT_KEPT)
            stop("an image with its room has at least 2 bytes");
        u64 room = get2(input + length - 2);
        u8 *buffer = lent(room);
        print_lent(import(input, length - 2, buffer, room), buffer, room);
    }
    return 0;
}

/* An image with T (1) and the room of the lent buffer (2) behind it. */
int mode_exported(int count, char **words)
{
    u64 length;
    (void)count, (void)words;
    while (read_next(&length)) {
        if (length < 3 || length > INPUT_KEPT)
            stop("an image with T and its room has at least 3 bytes");
        u64 room = get2(input + length - 2);
        u8 *buffer = lent(room);
        print_lent(export(input, length - 3, input[length - 3], buffer, room), buffer, room);
    }
    return 0;
}

static Finding finding(u32 result, u64 ending, const char *why)
{
    Finding f = {result, ending, why, 1};
    return f;
}

static int same_verdict(Verdict a, Verdict b)
{
    return a.number == b.number && a.place == b.place;
}

/* The head of the "UQI" image must be one of the desks' indices, with none above it; all nodes are byte for byte the same. */
static int imported_rightly(const u8 *desks, const u8 *image)
{
    u32 t = desks[6], found = 0, n = desks[5];
    for (u32 k = 0; k < t; k++) {
        if (get4(desks + 7 + 4 * k) > get4(image + 6))
            return 0;
        found += get4(desks + 7 + 4 * k) == get4(image + 6);
    }
    for (u32 i = 0; i < 9 * n; i++)
        if (desks[7 + 4 * t + i] != image[10 + i])
            return 0;
    return found > 0 && image[5] == n;
}

/* Any image: one of version 1 is written out for every T and comes in again the same, with 17 below the length; a "UQP" one comes in with the largest head.
   What is refused is refused as a reader refuses it. */
Finding out_and_in(const u8 *bytes, u64 length)
{
    static u8 there[MAX_IMAGE], back[MAX_IMAGE];
    Image image;
    int desks = length > 2 && bytes[2] == 'P', wide = length >= IMAGE_LEAST && !desks && (get2(bytes + 3) == 2 || is_version_3(bytes, length));
    Verdict v = read_image(bytes, length, &image), in = import(bytes, length, back, sizeof back), out = export(bytes, length, 1, there, sizeof there);
    if (desks) {
        int refused = out.number == (length < IMAGE_LEAST ? WRONG_LENGTH : WRONG_MARK), right = in.number != TAKEN || imported_rightly(bytes, back);
        return finding(refused && right ? AGREES : CONTRADICTS, 0, "not imported rightly");
    }
    if (in.number != (length < 7 ? WRONG_LENGTH : WRONG_MARK))
        return finding(CONTRADICTS, 0, "imported, and is no such image");
    if (wide || v.number != TAKEN)
        return finding(same_verdict(out, wide ? verdict(WRONG_MARK, 0) : v) ? AGREES : CONTRADICTS, 0, "not refused as the reader refuses it");
    for (u32 t = 0; t <= 9; t++) {
        u64 whole = 7 + 4 * (u64)t + 9 * (u64)image.n;
        if (export(bytes, length, t, there, whole - 1).number != (t < 1 || t > 8 ? WRONG_T : BUFFER_TOO_SHORT))
            return finding(CONTRADICTS, t, "not refused by 4 or 17");
        if (t < 1 || t > 8)
            continue;
        if (export(bytes, length, t, there, whole).number != TAKEN || import(there, whole, back, length - 1).number != BUFFER_TOO_SHORT ||
            import(there, whole, back, length).number != TAKEN)
            return finding(CONTRADICTS, t, "not written out and read in");
        for (u64 i = 0; i < length; i++)
            if (back[i] != bytes[i] || (plant_now && i == 9))
                return finding(CONTRADICTS, t, "other bytes came back");
    }
    return finding(AGREES, 0, "");
}

static u32 about(u64 whole)
{
    u32 which = below(4);
    return which == 0 ? (u32)whole - 1 : which == 1 ? (u32)whole + below(40) : which == 2 ? below(1000) : (u32)whole;
}

/* An image, mostly "UQP", damaged or not, and a room. */
u64 generate_import(u64 number, u8 *bytes)
{
    wanted_form = chance(92) ? DESKS : 0;
    u64 length = generate_image(number, bytes);
    wanted_form = 0;
    if (chance(3))
        length = below(12);
    put2(bytes + length, about(10 + 9 * (u64)bytes[5]));
    return length + 2;
}

/* An image, mostly of version 1, damaged or not, with T and a room. */
u64 generate_export(u64 number, u8 *bytes)
{
    wanted_form = chance(85) ? NARROW : 0;
    u64 length = generate_image(number, bytes);
    wanted_form = 0;
    u32 t = chance(85) ? 1 + below(8) : chance(50) ? 0 : 9 + below(247);
    u32 n = bytes[5];
    bytes[length] = (u8)t;
    put2(bytes + length + 1, about(7 + 4 * (u64)t + 9 * (u64)n) % 4000);
    return length + 3;
}

/* Request 105: mending a damaged image, from the request's words; and the same by the reader's refusals alone. */
#include "second.h"

/* For each node the number for which its linked flag was cleared, or 0. */
typedef struct Mending {
    u32 reasons[MAX_NODES];
} Mending;

static void clear(Image *image, Mending *mending, u32 node, u32 reason)
{
    image->nodes[node].linked = 0;
    mending->reasons[node] = reason;
}

/* "First, linked bytes above 1 become 0." */
static void mend_linked(Image *image, Mending *mending)
{
    for (u32 i = 0; i < image->n; i++)
        if (image->nodes[i].linked > 1)
            clear(image, mending, i, WRONG_LINKED);
}

static int twins(const Image *image, u32 a, u32 b)
{
    return a != b && is_recovered(image, a) && is_recovered(image, b) && image->nodes[a].index == image->nodes[b].index;
}

/* "Then among recovered nodes with one index all but the lowest-numbered have linked cleared." */
static void mend_twins(Image *image, Mending *mending)
{
    Image before = *image;
    for (u32 i = 0; i < image->n; i++)
        for (u32 j = 0; j < image->n; j++) {
            int other_stays = wrong_machine == LOWEST_CLEARED ? j > i : j < i;
            if (other_stays && twins(&before, i, j))
                clear(image, mending, i, TWINS);
        }
}

/* "Then, if every node is recovered, the one with the largest index has too." */
static void mend_no_dummy(Image *image, Mending *mending)
{
    u32 largest = 0;
    for (u32 i = 0; i < image->n; i++) {
        if (!is_recovered(image, i))
            return;
        if (image->nodes[i].index > image->nodes[largest].index)
            largest = i;
    }
    clear(image, mending, largest, NO_DUMMY);
}

/* "every image that passes 1 to 3": 1, 2, 3, 1. What read_image_nodes says (6, 7, 8) is what is to be mended. */
static Verdict read_damaged(const u8 *bytes, u64 length, Image *image)
{
    if (is_version_3(bytes, length))
        return verdict(WRONG_MARK, 0); /* "Version 3 has no conversions and no mender." */
    Verdict v = read_uqi_head(bytes, length, image);
    if (v.number != TAKEN)
        return v;
    if (length != image_length(image->form, image->n))
        return verdict(WRONG_LENGTH, 0);
    read_image_nodes(bytes, image);
    return verdict(TAKEN, 0);
}

/* "1, 2, 3, 1, then 17, nothing written" */
static Verdict mend(const u8 *bytes, u64 length, u8 *buffer, u64 room, Mending *mending)
{
    static const Mending none;
    Image image;
    *mending = none;
    Verdict v = read_damaged(bytes, length, &image);
    if (v.number != TAKEN)
        return v;
    if (room < length)
        return verdict(BUFFER_TOO_SHORT, 0);
    mend_linked(&image, mending);
    mend_twins(&image, mending);
    mend_no_dummy(&image, mending);
    image_to_bytes(&image, buffer);
    return verdict(TAKEN, 0);
}

/* The changed nodes in order, each with its reason, or `-`. */
static void print_mending(const Mending *mending)
{
    int changed = 0;
    for (u32 i = 0; i < MAX_NODES; i++)
        if (mending->reasons[i] != 0) {
            put_text(" ");
            put_number(i);
            put_text(":");
            put_number(mending->reasons[i]);
            changed = 1;
        }
    put_text(changed ? "\n" : " -\n");
}

/* A line an image: NUMBER PLACE BUFFER and the list. The room stands in two bytes behind the image. */
int mode_mended(int count, char **words)
{
    static u8 buffer[MOST_ROOM + 1];
    u64 length;
    Mending mending;
    (void)count, (void)words;
    while (read_next(&length)) {
        if (length < 2 || length > INPUT_KEPT)
            stop("an image with its room has at least 2 bytes");
        u64 room = get2(input + length - 2);
        for (u64 i = 0; i < room; i++)
            buffer[i] = 0xaa; /* so that the bytes that stay can be seen */
        print_verdict(mend(input, length - 2, buffer, room, &mending));
        put_hex(buffer, room);
        print_mending(&mending);
    }
    return 0;
}

static u32 node_of_largest_index(const Image *image)
{
    u32 largest = 0;
    for (u32 i = 1; i < image->n; i++)
        if (image->nodes[i].index > image->nodes[largest].index)
            largest = i;
    return largest;
}

/* The other way: as long as the reader refuses the image by 6 or 7, clear the node that it names, and by 8 the one with the largest index. */
static u32 mend_by_refusals(u8 *bytes, u64 length, Mending *mending)
{
    static const Mending none;
    *mending = none;
    for (u32 changes = 0;; changes++) {
        Image image;
        Verdict v = read_uqi(bytes, length, &image);
        if (v.number == TAKEN)
            return changes;
        u32 node = v.number == NO_DUMMY ? node_of_largest_index(&image) : v.place;
        bytes[image_head(image.form) + image_node(image.form) * node] = 0;
        mending->reasons[node] = v.number;
    }
}

static int same_mending(const Mending *a, const Mending *b)
{
    for (u32 i = 0; i < MAX_NODES; i++)
        if (a->reasons[i] != b->reasons[i])
            return 0;
    return 1;
}

/* Any image: both ways change the same nodes for the same reasons and leave the same bytes; the mended image is accepted and comes back the
   same with an empty list; an accepted one does so at once; 17 below its length; what 1 to 3 refuse is refused in the same way. */
Finding mend_two_ways(const u8 *bytes, u64 length)
{
    static u8 mended[MAX_IMAGE], other[MAX_IMAGE], again[MAX_IMAGE];
    Finding agrees = {AGREES, 0, "", 1}, contradicts = {CONTRADICTS, 0, "", 1};
    Mending ours, theirs, none;
    Image image;
    Verdict v = read_uqi(bytes, length, &image), given = mend(bytes, length, mended, sizeof mended, &ours);
    if (is_version_3(bytes, length))
        v = verdict(WRONG_MARK, 0); /* which the reader takes */
    if (v.number == WRONG_LENGTH || v.number == WRONG_MARK || v.number == WRONG_N) {
        contradicts.why = "not refused as the reader refuses it";
        return given.number == v.number && given.place == v.place ? agrees : contradicts;
    }
    for (u64 i = 0; i < length; i++)
        other[i] = bytes[i];
    u32 changes = mend_by_refusals(other, length, &theirs);
    if (plant_now)
        other[length - 1] ^= 1;
    agrees.work += changes;
    contradicts.why = "the reader's refusals mend it otherwise";
    if (given.number != TAKEN || !same_mending(&ours, &theirs) || (changes == 0) != (v.number == TAKEN))
        return contradicts;
    Verdict once_more = mend(mended, length, again, length, &none);
    for (u64 i = 0; i < length; i++)
        if (mended[i] != other[i] || once_more.number != TAKEN || again[i] != mended[i])
            return contradicts;
    contradicts.why = "not refused by 17, or a list where nothing was changed";
    for (u32 i = 0; i < MAX_NODES; i++)
        if (none.reasons[i] != 0)
            return contradicts;
    return mend(bytes, length, again, length - 1, &none).number == BUFFER_TOO_SHORT ? agrees : contradicts;
}

/* ---- images to be mended */

/* Nodes of one index in one to three groups, which may run into each other. */
static void some_twins(Image *image)
{
    for (u32 groups = 1 + below(3); groups > 0; groups--) {
        u64 index = image->nodes[below(image->n)].index;
        for (u32 times = 1 + below(4); times > 0; times--) {
            Content *node = &image->nodes[below(image->n)];
            node->linked = 1;
            node->index = index;
        }
    }
}

/* Every node recovered, by rising, falling or mixed indices; the head index makes room for them. */
static void all_recovered(Image *image)
{
    u32 order = below(3);
    u64 largest = largest_index(image->form), above = largest - image->head_index;
    if (above < MAX_NODES)
        image->head_index = largest - MAX_NODES;
    for (u32 i = 0; i < image->n; i++) {
        u32 rank = order == 0 ? i : order == 1 ? image->n - 1 - i : (i * 5 + 3) % image->n;
        image->nodes[i].linked = 1;
        image->nodes[i].index = image->head_index + 1 + rank;
    }
}

static void some_linked_bytes(Image *image)
{
    for (u32 times = 1 + below(4); times > 0; times--)
        image->nodes[below(image->n)].linked = chance(50) ? 2 : 2 + below(254);
}

/* An image, damaged in none to three ways at once, or one that 1 to 3 refuse; its room in two bytes behind it where that is wanted. */
u64 generate_mendable(u64 number, int with_room, u8 *bytes)
{
    Image image;
    u64 length;
    if (chance(10)) {
        length = generate_image(number, bytes);
    } else {
        image.n = chance(70) ? 2 + below(5) : 2 + below(63);
        image.t = 1;
        some_image(&image);
        if (chance(35))
            all_recovered(&image);
        if (chance(45))
            some_twins(&image);
        if (chance(40))
            some_linked_bytes(&image);
        image_to_bytes(&image, bytes);
        length = length_of(&image);
    }
    if (!with_room)
        return length;
    u32 which = below(4);
    put2(bytes + length, (u32)(which == 0 && length > 0 ? length - 1 : which == 1 ? length + below(40) : which == 2 ? below(1000) : length));
    return length + 2;
}

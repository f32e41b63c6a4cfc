/* The mender's call on damaged images of either version: what request 105 says of every mended image, asked byte by byte. Whether an image is accepted
   is asked of uq_check_image, which calls.c compares with the second program. */
#include "fuzz.h"

enum { AROUND = 64 };

static int wrong(const char *what)
{
    put_text("differs: uq_mend: ");
    put_text(what);
    put_text("\n");
    return 0;
}

static u64 size_of(const u8 *image)
{
    return image[3] == 2 ? 14 + 13 * (u64)image[5] : 10 + 9 * (u64)image[5];
}

static u64 linked_at(const u8 *image, u64 node)
{
    return image[3] == 2 ? 14 + 13 * node : 10 + 9 * node;
}

/* An image whose indices and linked bytes are small, so that twins, unclear flags and images without a dummy are frequent. */
static u64 damaged(u8 *image)
{
    static const u8 mark[5] = {'U', 'Q', 'I', 1, 0};
    for (u32 i = 0; i < 5; i++)
        image[i] = mark[i];
    image[3] = (u8)(1 + below(2));
    image[5] = (u8)(2 + below(chance(80) ? 4 : 63));
    u64 length = size_of(image), wide = image[3] == 2 ? 8 : 4;
    for (u64 i = 6; i < length; i++)
        image[i] = 0;
    image[6] = (u8)below(3);
    for (u64 node = 0; node < image[5]; node++) {
        u8 *line = image + linked_at(image, node);
        line[0] = (u8)(chance(15) ? below(256) : (u32)chance(80));
        line[1] = (u8)(1 + below(image[5] + 3u));
        line[wide] = (u8)(chance(5) ? below(256) : 0); /* the index's highest byte */
        line[1 + wide] = (u8)random_bits();
    }
    return length;
}

/* Every byte is the same, or is the linked byte of a listed node and now 0; the list is in node order, and names what its reasons say. */
static int as_listed(const u8 *image, const u8 *mended, u64 length, const u8 *list, u64 count)
{
    u64 next = 0;
    for (u64 i = 0; i < length; i++) {
        int here = next < count && i == linked_at(image, list[2 * next]);
        if (here && (image[i] == 0 || mended[i] != 0))
            return wrong("a listed node's linked byte");
        if (!here && image[i] != mended[i])
            return wrong("a byte of no listed node");
        if (here && (list[2 * next + 1] == UQ_LINKED) != (image[i] > 1))
            return wrong("the reason 6");
        if (here && (list[2 * next + 1] < UQ_LINKED || list[2 * next + 1] > UQ_NO_DUMMY))
            return wrong("a reason that is none");
        if (here && list[2 * next + 1] == UQ_NO_DUMMY && count != 1)
            return wrong("an 8 beside another entry");
        next += (u64)here;
    }
    return next == count ? 1 : wrong("an entry out of order");
}

/* What is mended is accepted, mended again it stays; what is accepted was not changed. */
static int as_asked(const u8 *image, const u8 *mended, u64 length, u64 count)
{
    static u8 again[UQ_MAX_IMAGE];
    u8 list[UQ_MAX_LIST];
    if (uq_check_image(mended, length) != UQ_TAKEN)
        return wrong("the mended image is refused");
    if ((uq_check_image(image, length) == UQ_TAKEN) != (count == 0))
        return wrong("an accepted image with a list, or a refused one without");
    if (uq_mend(mended, length, again, UQ_MAX_IMAGE, list, UQ_MAX_LIST) != UQ_TAKEN)
        return wrong("mended twice, a list");
    for (u64 i = 0; i < length; i++)
        if (again[i] != mended[i])
            return wrong("mended twice, another byte");
    return 1;
}

/* With less room: 17 and nothing written, or the same as with enough, and the bytes behind stay. */
static int in_room(const u8 *image, u64 length, const u8 *mended, const u8 *whole, u64 count)
{
    static u8 buffer[UQ_MAX_IMAGE + AROUND], before[UQ_MAX_IMAGE + AROUND];
    u8 list[UQ_MAX_LIST + AROUND], listed[UQ_MAX_LIST + AROUND];
    u64 room = chance(60) ? length + below(AROUND) : chance(50) ? length - 1 : below((u32)length);
    u64 entries = chance(60) ? 2 * count + below(AROUND) : below((u32)(2 * count + 1));
    u64 expected = room < length || entries < 2 * count ? UQ_ROOM : 256 * count;
    for (u64 i = 0; i < sizeof buffer; i++)
        buffer[i] = before[i] = (u8)random_bits();
    for (u64 i = 0; i < sizeof list; i++)
        list[i] = listed[i] = (u8)random_bits();
    if (uq_mend(image, length, buffer, room, list, entries) != expected)
        return wrong("the number in a room");
    for (u64 i = 0; i < sizeof buffer; i++)
        if (buffer[i] != (expected != UQ_ROOM && i < length ? mended[i] : before[i]))
            return wrong("a byte of the buffer");
    for (u64 i = 0; i < sizeof list; i++)
        if (list[i] != (expected != UQ_ROOM && i < 2 * count ? whole[i] : listed[i]))
            return wrong("a byte of the list");
    return 1;
}

int agree_on_mended(void)
{
    static u8 image[UQ_MAX_IMAGE + AROUND], mended[UQ_MAX_IMAGE];
    u8 list[UQ_MAX_LIST];
    u64 length = damaged(image);
    if (chance(10))
        spoil(image, &length, sizeof image);
    u64 checked = uq_check_image(image, length), number = checked % 256;
    u64 result = uq_mend(image, length, mended, UQ_MAX_IMAGE, list, UQ_MAX_LIST), count = result / 256;
    if (number >= UQ_LENGTH && number <= UQ_NODES)
        return result == checked ? 1 : wrong("a refusal by 1 to 3");
    if (result % 256 != UQ_TAKEN)
        return wrong("an image that passes 1 to 3 is refused");
    return as_listed(image, mended, length, list, count) && as_asked(image, mended, length, count) && in_room(image, length, mended, list, count);
}

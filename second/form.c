/* The forms of an image: "UQI" version 1 with indices of 32 bits, version 2 with indices of 64, and "UQP" with one head index per desk. */
#include "second.h"

u64 largest_index(u32 form)
{
    return form == WIDE || form == TWO ? ~(u64)0 : LARGEST;
}

u32 index_bytes(u32 form)
{
    return form == WIDE || form == TWO ? 8 : 4;
}

u32 queue_count(u32 form)
{
    return form == TWO ? 2 : 1;
}

/* mark (3), version (2), N (1), head index: "header 14 bytes" in version 2, 10 in version 1; two head indices in version 3, so 22 */
u32 image_head(u32 form)
{
    return 6 + index_bytes(form) * queue_count(form);
}

/* linked (1), in version 3 queue (1), index, item (4): "nodes 13" in version 2, 9 in version 1, 14 in version 3 */
u32 image_node(u32 form)
{
    return 5 + index_bytes(form) + (form == TWO);
}

u64 image_length(u32 form, u32 n)
{
    return image_head(form) + (u64)image_node(form) * n;
}

u64 get_index(u32 form, const u8 *from)
{
    return index_bytes(form) == 8 ? get8(from) : get4(from);
}

void put_index(u32 form, u8 *to, u64 value)
{
    if (index_bytes(form) == 8)
        put8(to, value);
    else
        put4(to, (u32)value);
}

/* The lines in front of the nodes' lines. */
u32 head_lines(u32 form, u32 t)
{
    return form == DESKS ? t : queue_count(form);
}

/* The form by which an image's bytes are laid out; anything but version 2 is laid out as version 1 (and refused unless it is 1). */
u32 form_of(const u8 *image)
{
    if (on(DESKS_TOO) && image[2] == 'P')
        return DESKS;
    if (on(QUEUES_TOO) && get2(image + 3) == 3)
        return TWO;
    return get2(image + 3) == 2 ? WIDE : NARROW;
}

/* Where the nodes begin in an image's bytes: behind N and the head index, or behind N, T and T indices of 4 bytes. */
u64 nodes_in(const u8 *image)
{
    return form_of(image) == DESKS ? 7 + 4 * (u64)image[6] : image_head(form_of(image));
}

/* The length that an image's bytes ask for. */
u64 length_in(const u8 *image)
{
    return nodes_in(image) + (u64)image_node(form_of(image)) * image[5];
}

u64 length_of(const Image *image)
{
    u64 nodes = image->form == DESKS ? 7 + 4 * (u64)image->t : image_head(image->form);
    return nodes + (u64)image_node(image->form) * image->n;
}

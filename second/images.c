/* Images at random: forms, indices near the ends of their width, queues with gaps. */
#include "second.h"

u32 wanted_form;

u32 some_form(void)
{
    if (wanted_form != 0)
        return wanted_form;
    if (on(DESKS_TOO) && chance(on(QUEUES_TOO) ? 30 : 50))
        return DESKS;
    if (on(QUEUES_TOO) && chance(50))
        return TWO;
    return chance(50) ? NARROW : WIDE;
}

/* Of "UQP" at least one desk has the index; the others have it too, or a lower one. */
void set_head_index(Image *image, u64 index)
{
    image->head_index = index;
    if (image->form == TWO)
        image->head_index_1 = index;
    for (u32 k = 0; image->form == DESKS && k < image->t; k++)
        image->desks[k] = chance(40) ? index : index - (u64)below(index < 9 ? (u32)index + 1 : 9);
    if (image->form == DESKS)
        image->desks[below(image->t)] = index;
}

/* Any index of the form; in version 2 some have one half zero or all ones. */
static u64 any_index(u32 form)
{
    u64 bits = random_bits();
    if (index_bytes(form) == 4)
        return (u32)bits;
    switch (below(4)) {
    case 0: return (u32)bits;
    case 1: return bits << 32;
    case 2: return bits | LARGEST;
    default: return bits;
    }
}

/* How far below the head index a passed index lies; in version 2 sometimes so far that its low half is above the head's. */
static u64 passed_by(u32 form, u64 head_index)
{
    if (index_bytes(form) == 8 && head_index > LARGEST && chance(30))
        return (u64)LARGEST - below(1000);
    return below(head_index < 1000 ? (u32)head_index + 1 : 1000);
}

/* A node that recovery leaves aside: blank, unlinked with any index, or linked with a passed one. */
static Content left_aside(u32 form, u64 head_index)
{
    Content blank = {0, 0, 0, 0};
    u64 room_above = largest_index(form) - head_index;
    Content unlinked = {0, chance(50) ? any_index(form) : head_index + below(room_above < 3 ? (u32)room_above + 1 : 3), below(9), 0};
    Content passed = {1, head_index - (chance(50) ? 0 : passed_by(form, head_index)), below(9), 0};
    u32 which = below(3);
    return which == 0 ? blank : which == 1 ? unlinked : passed;
}

/* Near zero, near the top of the form, anywhere; in version 2 also just below, at and above 2^32. */
u64 some_head_index(u32 form)
{
    switch (below(index_bytes(form) == 8 ? 8 : 5)) {
    case 0: return 0;
    case 1: return below(10);
    case 2: return largest_index(form) - below(6);
    case 3: return largest_index(form) - below(100);
    case 4: return any_index(form);
    case 5: return LARGEST - below(3);
    case 6: return (u64)LARGEST + below(3);
    default: return random_bits();
    }
}

/* The distance to the next index in the queue; in version 2 now and then a whole turn of the low half, or nearly one. */
static u64 some_gap(u32 form)
{
    if (index_bytes(form) == 8 && chance(15))
        return (u64)LARGEST + below(3);
    return chance(60) ? 1 : 1 + below(4);
}

/* Recovered nodes at random places, their indices rising with gaps as long as there is room above. */
static void queued_image(Image *image, u32 wanted)
{
    u64 indices[QUEUES] = {image->head_index, image->head_index_1};
    u32 put = 0;
    for (u32 i = 0; i < image->n; i++) {
        u32 queue = image->form == TWO ? below(2) : 0;
        image->nodes[i] = left_aside(image->form, head_of(image, queue));
        image->nodes[i].queue = queue;
    }
    while (put < wanted) {
        u64 gap = some_gap(image->form);
        u32 queue = image->form == TWO ? below(2) : 0;
        if (indices[queue] > largest_index(image->form) - gap)
            break;
        u64 index = indices[queue] += gap;
        u32 node = below(image->n);
        while (is_recovered(image, node))
            node = (node + 1) % image->n;
        image->nodes[node].linked = 1;
        image->nodes[node].queue = queue;
        image->nodes[node].index = index;
        image->nodes[node].item = chance(20) ? 0 : chance(20) ? LARGEST : below(100);
        put++;
    }
}

/* N is set before. */
void some_image(Image *image)
{
    Content blank = {0, 0, 0, 0};
    image->form = some_form();
    if (image->form == TWO && image->n < 3)
        image->form = WIDE;
    set_head_index(image, 0);
    for (u32 i = 0; i < image->n; i++)
        image->nodes[i] = blank;
    u32 kind = below(10);
    if (kind < 4)
        return;
    set_head_index(image, some_head_index(image->form));
    if (kind == 4)
        return;
    if (image->form == TWO && chance(60))
        image->head_index_1 = some_head_index(TWO);
    u32 most = image->n - queue_count(image->form);
    queued_image(image, kind == 5 ? most : below(most + 1));
}

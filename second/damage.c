/* Damaged inputs: each refusal aimed at, every length, every byte changed, and inputs longer than any schedule. */
#include "second.h"

static u32 nodes_of(const u8 *bytes)
{
    return bytes[SCHEDULE_HEAD + 5];
}

static u32 form_in(const u8 *bytes)
{
    return form_of(bytes + SCHEDULE_HEAD);
}

static u8 *node_of(u8 *bytes, u32 node)
{
    return bytes + SCHEDULE_HEAD + nodes_in(bytes + SCHEDULE_HEAD) + image_node(form_in(bytes)) * node;
}

static void put_head_index(u8 *bytes, u64 index)
{
    if (form_in(bytes) != DESKS)
        put_index(form_in(bytes), bytes + SCHEDULE_HEAD + 6, index);
    if (form_in(bytes) == TWO)
        put8(bytes + SCHEDULE_HEAD + 14, index);
    for (u32 k = 0; form_in(bytes) == DESKS && k < bytes[SCHEDULE_HEAD + 6] && k < MAX_THREADS; k++)
        put4(bytes + SCHEDULE_HEAD + 7 + 4 * k, (u32)index);
}

static void put_node_index(u8 *bytes, u32 node, u64 index)
{
    put_index(form_in(bytes), node_of(bytes, node) + 1 + (form_in(bytes) == TWO), index);
}

static u8 *event_of(u8 *bytes, u32 number)
{
    return node_of(bytes, nodes_of(bytes)) + EVENT_BYTES * number;
}

static u64 append_event(u8 *bytes, u64 length, u32 kind, u32 number, u32 item)
{
    Event e = {kind, number, item};
    event_to_bytes(&e, bytes + length);
    put2(bytes + 6, get2(bytes + 6) + 1);
    return length + EVENT_BYTES;
}

static u64 change_length(u8 *bytes, u64 length)
{
    if (chance(50))
        return below((u32)length);
    for (u32 i = 0; i < 700; i++)
        bytes[length + i] = (u8)random_bits();
    return length + 1 + below(700);
}

/* Any byte of the two marks and versions; or the image's other version, which most often shows in the length. */
static void change_mark(u8 *bytes)
{
    u32 at = below(10);
    if (chance(15)) {
        put2(bytes + SCHEDULE_HEAD + 3, form_in(bytes) == WIDE ? 1 : 2);
        return;
    }
    bytes[at < 5 ? at : SCHEDULE_HEAD + at - 5] ^= (u8)(1 + below(255));
}

/* 6: linked bytes above 1, at one or two nodes */
static void spoil_linked(u8 *bytes)
{
    for (u32 times = 1 + below(2); times > 0; times--)
        node_of(bytes, below(nodes_of(bytes)))[form_in(bytes) == TWO && chance(50)] = (u8)(2 + below(254));
}

/* What is added to the indices below: in version 2 sometimes so much that they lie across 2^32 or above it. */
static u64 some_base(const u8 *bytes)
{
    return index_bytes(form_in(bytes)) == 8 && chance(50) ? (u64)LARGEST - 2 + below(5) : 0;
}

/* 7: two or three recovered nodes of one index; in version 2 sometimes of one low half alone, which is no twin */
static void make_twins(u8 *bytes)
{
    u32 n = nodes_of(bytes);
    u64 base = some_base(bytes), index = base + 1 + below(3);
    int apart = index_bytes(form_in(bytes)) == 8 && chance(20);
    put_head_index(bytes, base);
    for (u32 times = 2 + below(2); times > 0; times--) {
        u32 node = times == 1 ? below(n) : (n - times + 1) % n;
        node_of(bytes, node)[0] = 1;
        if (form_in(bytes) == TWO) /* mostly in one queue; in two they are none */
            node_of(bytes, node)[1] = (u8)chance(20);
        put_node_index(bytes, node, apart ? index + ((u64)times << 32) : index);
    }
}

/* 8: every node recovered */
static void fill_image(u8 *bytes)
{
    u32 n = nodes_of(bytes);
    u64 base = some_base(bytes) + 5;
    put_head_index(bytes, base);
    for (u32 i = 0; i < n; i++) {
        node_of(bytes, i)[0] = 1;
        put_node_index(bytes, i, base + 1 + (chance(90) ? i : i / 2));
    }
}

static u64 spoil_event(u32 number, u8 *bytes, u64 length)
{
    u32 t = bytes[5], lines = nodes_of(bytes) + head_lines(form_in(bytes), bytes[5]);
    u32 field = 1 + below(1000);
    switch (number) {
    case UNKNOWN_KIND:
        return append_event(bytes, length, chance(40) ? 0 : form_in(bytes) != TWO && chance(40) ? 6 + below(2) : 8 + below(248), below(256), below(2));
    case NUMBER_TOO_LARGE:
        if (chance(50))
            return append_event(bytes, length, WRITE_BACK, lines + below(256 - lines), below(2));
        return append_event(bytes, length, 1 + below(3), t + below(255 - t), below(2));
    case BEGIN_ON_BUSY:
        length = append_event(bytes, length, CRASH, 0, 0);
        length = append_event(bytes, length, BEGIN_DEQUEUE, t - 1, 0);
        return append_event(bytes, length, 1 + below(2), t - 1, 0);
    case STEP_ON_IDLE:
        length = append_event(bytes, length, CRASH, 0, 0);
        return append_event(bytes, length, STEP, below(t), 0);
    case CLEAN_LINE: /* behind a crash Head's line is clean */
        length = append_event(bytes, length, CRASH, 0, 0);
        return append_event(bytes, length, WRITE_BACK, 0, chance(20) ? 1 : 0);
    default: /* 13 */
        if (chance(30))
            return append_event(bytes, length, CRASH, 1 + below(255), chance(50) ? 0 : field);
        return append_event(bytes, length, 2 + below(4), 0, field);
    }
}

/* 4: no T, too large a T, or (of "UQP") two that differ */
static void change_threads(u8 *bytes)
{
    if (form_in(bytes) == DESKS && chance(70))
        bytes[chance(50) ? 5 : SCHEDULE_HEAD + 6] = (u8)(chance(50) ? 1 + below(8) : chance(50) ? 0 : 9 + below(247));
    else
        bytes[5] = (u8)(chance(50) ? 0 : 9 + below(247));
}

/* Aims at refusal 1 to 13 in turn. */
u64 generate_refused(u64 number, u8 *bytes)
{
    u64 length = generate_valid(bytes, 1);
    u32 aim = 1 + (u32)(number % (on(CLEAN) ? 14 : 13));
    if (aim == 14)
        aim = CLEAN_LINE;
    switch (aim) {
    case WRONG_LENGTH: return change_length(bytes, length);
    case WRONG_MARK: change_mark(bytes); return length;
    case WRONG_N: bytes[SCHEDULE_HEAD + 5] = (u8)(chance(50) ? below(form_in(bytes) == TWO ? 3 : 2) : 65 + below(191)); return length;
    case WRONG_T: change_threads(bytes); return length;
    case TOO_MANY_EVENTS: put2(bytes + 6, 4097 + below(61439)); return length;
    case WRONG_LINKED: spoil_linked(bytes); return length;
    case TWINS: make_twins(bytes); return length;
    case NO_DUMMY: fill_image(bytes); return length;
    default: length = spoil_event(aim, bytes, length); break;
    }
    if (chance(30))
        length = spoil_event(9 + below(5), bytes, length); /* what follows the first refused event is not looked at */
    return length;
}

/* One to three random changes, so that several refusals stand in one input and their order shows. */
u64 generate_damaged(u64 number, u8 *bytes)
{
    u64 length = number % 3 ? generate_valid(bytes, 1) : generate_valid(bytes, 0);
    for (u32 times = 1 + below(3); times > 0; times--) {
        switch (below(9)) {
        case 0: change_mark(bytes); break;
        case 1: bytes[5] = (u8)below(12); break;
        case 2: put2(bytes + 6, get2(bytes + 6) + 1 - 2 * below(2)); break;
        case 3: spoil_linked(bytes); return length;
        case 4: make_twins(bytes); return length;
        case 5: fill_image(bytes); return length;
        case 6: return change_length(bytes, length);
        case 7:
            if (get2(bytes + 6) > 0 && get2(bytes + 6) <= MAX_EVENTS)
                event_of(bytes, below(get2(bytes + 6)))[below(6)] = (u8)below(9);
            break;
        default: bytes[below((u32)length)] = (u8)random_bits(); return length;
        }
    }
    return length;
}

/* Length `number` of one schedule followed by other bytes. */
u64 generate_length(u64 seed, u64 number, u8 *bytes)
{
    seed_random(seed, 0);
    u64 length = generate_valid(bytes, 1);
    if (number >= 2 * MAX_SCHEDULE)
        number = number % (2 * MAX_SCHEDULE);
    for (u64 i = length; i < number; i++)
        bytes[i] = (u8)random_bits();
    return number;
}

/* One small schedule with byte `number` changed; each round through the schedule changes it another way. */
u64 generate_changed_byte(u64 seed, u64 number, u8 *bytes)
{
    seed_random(seed, 0);
    u64 length = generate_valid(bytes, 1);
    while (length < 60)
        length = append_event(bytes, length, WRITE_BACK, below(3), 0);
    u8 *at = &bytes[number % length];
    switch (number / length % 6) {
    case 0: *at ^= 1; break;
    case 1: *at ^= 128; break;
    case 2: *at = (u8)(*at + 1); break;
    case 3: *at = *at == 255 ? 0 : 255; break;
    case 4: *at ^= 2; break;
    default: *at = (u8)(*at - 1); break;
    }
    return length;
}

/* Longer than any schedule, with a head that is right or nearly right. */
u64 generate_longer(u8 *bytes)
{
    u64 length = generate_valid(bytes, 1);
    u64 whole = MAX_SCHEDULE + 1 + below(chance(50) ? 3 : 200000);
    for (u64 i = length; i < whole; i++)
        bytes[i] = (u8)random_bits();
    if (chance(50)) {
        bytes[SCHEDULE_HEAD + 5] = 64;
        put2(bytes + 6, MAX_EVENTS + below(2));
    }
    return whole;
}

/* An image alone: the one of a schedule, whole, cut, or with bytes behind. */
u64 generate_image(u64 number, u8 *bytes)
{
    u64 length = number % 3 == 0 ? generate_valid(bytes, 0) : number % 3 == 1 ? generate_refused(random_bits() % 13, bytes)
                                                                             : generate_damaged(number, bytes);
    u64 left = length > SCHEDULE_HEAD ? length - SCHEDULE_HEAD : 0;
    u64 whole = length_in(bytes + SCHEDULE_HEAD);
    for (u64 i = 0; i < left; i++)
        bytes[i] = bytes[SCHEDULE_HEAD + i];
    if (left > whole && !chance(5))
        left = whole;
    return left;
}

/* About the length of an image of this form; four choices. */
static u32 some_room(u32 form, u32 n)
{
    u32 whole = (u32)image_length(form, n);
    u32 which = below(4);
    return which == 0 ? whole - 1 : which == 1 ? whole + below(40) : which == 2 ? below(form == WIDE ? 1000 : 700) : whole;
}

/* The fields of some image, damaged or not, laid out by `layout`: N, head index, 64 nodes. */
static void some_contents(u64 number, u32 layout, u8 *item)
{
    static u8 bytes[INPUT_KEPT];
    for (u32 i = 0; i < MAX_SCHEDULE; i++)
        bytes[i] = 0; /* nothing of the item before */
    generate_image(number, bytes);
    u32 form = form_of(bytes);
    item[0] = bytes[5];
    put_index(layout, item + 1, get_index(form, bytes + (form == DESKS ? 7 : 6)));
    for (u32 i = 0; i < MAX_NODES; i++) {
        const u8 *from = bytes + nodes_in(bytes) + image_node(form) * i;
        u8 *to = item + 1 + index_bytes(layout) + image_node(layout) * i;
        to[0] = from[0];
        from += form == TWO;
        put_index(layout, to + 1, get_index(form, from + 1));
        put4(to + 1 + index_bytes(layout), get4(from + 1 + index_bytes(form)));
    }
}

/* Contents to be written as an image of version 1: n, head index, 64 nodes of 9 bytes, then the room of the lent buffer. */
void generate_contents_item(u64 seed, u64 number, u8 *item)
{
    seed_random(seed, number);
    some_contents(number, NARROW, item);
    put2(item + CONTENTS_BYTES - 2, some_room(NARROW, item[0]));
}

/* The same with 64 bits for an index and, in front, the version of "UQI" that is to be written; for version 1 they do not always fit. There is no T here,
   so no "UQP". */
void generate_wide_contents_item(u64 seed, u64 number, u8 *item)
{
    seed_random(seed, number);
    u32 form = chance(50) ? NARROW : WIDE;
    item[0] = (u8)form;
    some_contents(number, WIDE, item + 1);
    put2(item + WIDE_CONTENTS_BYTES - 2, some_room(form, item[1]));
}

/* Some index that version 1 does not have: just above, a whole turn of the low half, anything. */
static u64 too_wide(void)
{
    switch (below(4)) {
    case 0: return (u64)LARGEST + 1;
    case 1: return (u64)(1 + below(3)) << 32;
    case 2: return ~(u64)0 - below(3);
    default: return random_bits() | (u64)1 << (32 + below(32));
    }
}

/* Some indices just below 2^32 and at its last value, where there was none above: what still fits. */
static void make_fit(Image *image)
{
    for (u32 i = 0; i < image->n; i++)
        image->nodes[i].index = image->nodes[i].index > LARGEST ? (chance(50) ? LARGEST : below(9)) : image->nodes[i].index;
    image->head_index = image->head_index > LARGEST ? LARGEST - below(3) : image->head_index;
    if (image->form == NARROW || test_recovered(image).number != TAKEN)
        return;
    for (u32 i = 0; i < image->n; i++)
        if (image->nodes[i].linked == 0 && chance(10))
            image->nodes[i].index = LARGEST;
}

/* One to three indices that are too wide: the head's, that of a node that is recovered or not. */
static void make_too_wide(Image *image)
{
    for (u32 times = 1 + below(3); times > 0; times--) {
        u32 node = below(image->n);
        if (chance(25))
            image->head_index = too_wide();
        else
            image->nodes[node].index = too_wide();
        if (chance(50))
            image->nodes[node].linked = 0;
    }
}

/* An image to be converted: as it comes, made to fit, made not to fit, damaged. The room stands in two bytes behind it where it is wanted. */
u64 generate_conversion(u64 number, int with_room, u8 *bytes)
{
    Image image;
    u64 length;
    u32 kind = below(8);
    if (kind < 2) {
        length = generate_image(number, bytes);
    } else {
        image.n = chance(50) ? 2 + below(5) : 2 + below(63);
        image.t = 1;
        some_image(&image);
        if (kind < 5)
            make_fit(&image);
        else if (kind < 7 && image.form == WIDE)
            make_too_wide(&image);
        image_to_bytes(&image, bytes);
        length = length_of(&image);
    }
    if (with_room) {
        u32 other = form_of(bytes) == WIDE ? NARROW : WIDE;
        put2(bytes + length, some_room(chance(90) ? other : 3 - other, bytes[5]));
        length += 2;
    }
    return length;
}

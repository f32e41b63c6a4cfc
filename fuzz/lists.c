/* The despatch desk's list: refused as the ending is, nothing written then; else 8 bytes an entry in begin order, and the bytes behind them stay. */
#include "fuzz.h"

u64 list_numbers_seen[NUMBERS], groups_seen[6];

static int said(const char *what)
{
    put_text("differs: uq_despatch, ");
    put_text(what);
    put_text("\n");
    return 0;
}

/* An enqueue's begin in the schedule, behind the entry before it. */
static int is_begin(const u8 *events, u32 count, const u8 *entry, long last)
{
    u32 event = entry[0] | entry[1] << 8;
    if (event >= count || (long)event <= last)
        return 0;
    const u8 *own = events + 6 * (u64)event;
    for (u32 i = 0; i < 4; i++)
        if (own[2 + i] != entry[4 + i])
            return 0;
    return own[0] == UQ_ENQUEUE && own[1] == entry[2];
}

/* No crash behind the first entry's begin, and an entry for each enqueue behind the last crash. */
static u32 begins_since(const u8 *events, u32 count)
{
    u32 begins = 0;
    for (u32 i = 0; i < count; i++) {
        if (events[6 * (u64)i] == UQ_CRASH)
            begins = 0;
        begins += events[6 * (u64)i] == UQ_ENQUEUE;
    }
    return begins;
}

int agree_on_list(const u8 *bytes, u64 length)
{
    static u8 list[UQ_MAX_ENTRIES], before[UQ_MAX_ENTRIES], image[UQ_MAX_IMAGE];
    u64 k = below(chance(80) ? 4 : 70000), room = chance(80) ? sizeof list : below(64);
    for (u32 i = 0; i < sizeof list; i++)
        list[i] = before[i] = (u8)(i * 7 + 3);
    u64 result = uq_despatch(bytes, length, k, list, room), ending = uq_ending(bytes, length, k, image, sizeof image);
    u32 number = uq_number(result);
    list_numbers_seen[number < NUMBERS ? number : 0]++;
    if (uq_number(ending) != UQ_TAKEN && result != ending)
        return said("the refusal");
    u32 count = number == UQ_TAKEN ? (u32)uq_value(result) : 0;
    u64 written = UQ_ENTRY * (u64)count;
    for (u64 i = written; i < sizeof list; i++)
        if (list[i] != before[i])
            return said("the bytes behind");
    if (uq_number(ending) != UQ_TAKEN)
        return 1;
    u32 events = bytes[6] | bytes[7] << 8, begins = begins_since(bytes + length - 6 * (u64)events, events);
    if (number != (room < UQ_ENTRY * (u64)begins ? UQ_ROOM : UQ_TAKEN) || (number == UQ_TAKEN && count != begins))
        return said("the number of entries");
    long last = -1;
    for (u32 i = 0; i < count; i++) {
        const u8 *entry = list + UQ_ENTRY * (u64)i;
        if (!is_begin(bytes + length - 6 * (u64)events, events, entry, last) || entry[3] < UQ_HANDED_OUT || entry[3] > UQ_NEVER_IN)
            return said("an entry");
        groups_seen[entry[3]]++;
        last = entry[0] | entry[1] << 8;
    }
    return 1;
}

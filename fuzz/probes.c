/* Probe files: made from a schedule by the library's own calls on one event, some answers changed, and replayed. What the replay has to give is put
   together here, event by event; the second program's replay is held against the proved one by tools/compare. */
#include "fuzz.h"

u64 probe_numbers_seen[NUMBERS], probes_differing;

enum { PROBE_HEAD = 8, EVENTS_MOST = 400, PROBE_EVENT = 12, OWN_EVENT = 6, RECORD = UQ_RECORD };

static u8 file[PROBE_HEAD + 1000 + PROBE_EVENT * EVENTS_MOST];

/* What the replay has to give: a refusal's number and place, or the first difference with both answers. */
typedef struct {
    u32 number, place, differs, event;
    u8 both[10];
} Expected;

static void put4_at(u8 *b, u32 x)
{
    for (u32 i = 0; i < 4; i++)
        b[i] = (u8)(x >> 8 * i);
}

static void note_answers(Expected *e, u32 event, const u8 *observed, u64 result)
{
    u8 true_item[4];
    u32 same = observed[0] == uq_reply(result);
    put4_at(true_item, uq_item(result));
    for (u32 i = 0; i < 4; i++)
        same &= observed[1 + i] == true_item[i];
    if (same || e->differs)
        return;
    e->differs = 1;
    e->event = event;
    for (u32 i = 0; i < 5; i++)
        e->both[i] = observed[i];
    e->both[5] = (u8)uq_reply(result);
    for (u32 i = 0; i < 4; i++)
        e->both[6 + i] = true_item[i];
}

/* The observation of one event: most are the machine's own, a few are changed. */
static void observe(u8 *observed, u64 result)
{
    for (u32 i = 0; i < 6; i++)
        observed[i] = 0;
    if (uq_number(result) == UQ_TAKEN) {
        observed[0] = (u8)uq_reply(result);
        put4_at(observed + 1, uq_item(result));
    }
    if (chance(97))
        return;
    if (chance(60))
        observed[0] = (u8)below(chance(90) ? 6 : 256);
    if (chance(30))
        observed[1 + below(4)] = (u8)below(3);
    if (chance(10))
        observed[5] = (u8)below(3);
}

/* 9, 10, 13, then the event's own */
static u32 refusal(const u8 *observed, u64 result)
{
    u32 own = uq_number(result), item = observed[1] | observed[2] | observed[3] | observed[4];
    if (observed[0] > 5)
        return UQ_KIND;
    if (own == UQ_KIND || own == UQ_NUMBER)
        return own;
    return observed[5] != 0 || (observed[0] != 4 && item != 0) ? UQ_NOT_ZERO : own;
}

static void play(const u8 *events, u32 count, u8 *record, u8 *out, Expected *e)
{
    for (u32 i = 0; i < count; i++) {
        const u8 *event = events + OWN_EVENT * i;
        u8 *probed = out + PROBE_EVENT * i;
        u64 result = 0;
        for (u32 j = 0; j < OWN_EVENT; j++)
            probed[j] = event[j];
        if (e->number == UQ_TAKEN)
            result = uq_event(record, RECORD, event[0], event[1], event[2] | event[3] << 8 | event[4] << 16 | (u32)event[5] << 24);
        observe(probed + OWN_EVENT, result);
        if (e->number != UQ_TAKEN)
            continue;
        e->number = refusal(probed + OWN_EVENT, result);
        if (e->number != UQ_TAKEN)
            e->place = i;
        else
            note_answers(e, i, probed + OWN_EVENT, result);
    }
}

static int said(const char *what)
{
    put_text("differs: uq_replay, ");
    put_text(what);
    put_text("\n");
    return 0;
}

static int replays_as(const Expected *e, u64 length)
{
    u8 buffer[12], before[12];
    u64 room = chance(90) ? 10 + below(3) : below(10);
    for (u32 i = 0; i < 12; i++)
        buffer[i] = before[i] = (u8)random_bits();
    u64 result = uq_replay(file, length, buffer, room);
    u32 number = e->number != UQ_TAKEN ? e->number : room < 10 ? UQ_ROOM : UQ_TAKEN;
    u64 value = e->number != UQ_TAKEN ? e->place : number == UQ_TAKEN && e->differs ? e->event + 1u : 0;
    probe_numbers_seen[number]++;
    probes_differing += number == UQ_TAKEN && e->differs;
    if (uq_number(result) != number || uq_value(result) != value)
        return said("the number returned");
    for (u32 i = 0; i < 12; i++)
        if (buffer[i] != (number == UQ_TAKEN && e->differs && i < 10 ? e->both[i] : before[i]))
            return said("the buffer");
    return 1;
}

int agree_on_probe(const u8 *bytes, u64 length)
{
    static u8 record[RECORD];
    Expected expected = {0};
    if (uq_number(uq_check_schedule(bytes, length)) != UQ_TAKEN)
        return 1;
    u32 count = bytes[6] | bytes[7] << 8;
    u64 image = length - PROBE_HEAD - OWN_EVENT * (u64)count;
    if (count > EVENTS_MOST)
        return 1;
    if (uq_number(uq_start(bytes + PROBE_HEAD, image, bytes[5], record, RECORD)) != UQ_TAKEN)
        return said("its start");
    for (u64 i = 0; i < PROBE_HEAD + image; i++)
        file[i] = bytes[i];
    file[2] = 'R';
    play(bytes + PROBE_HEAD + image, count, record, file + PROBE_HEAD + image, &expected);
    return replays_as(&expected, PROBE_HEAD + image + PROBE_EVENT * (u64)count);
}

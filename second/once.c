/* How many persisting steps an operation has performed when it answers: one with Done, Empty or an item, none with Full or Worn out. */
#include "second.h"

static Machine machine;

static const u32 DUE[REPLIES] = {0, 1, 0, 0, 1, 1};
static const char *const NAMES[REPLIES] = {"", "Done", "Full", "Worn out", "an item", "Empty"};

static u64 schedules, refused, contradictions;
static u64 answers[REPLIES], before_crash;

/* One schedule, up to its end or its first refused event. */
void count_once(const u8 *bytes, u64 length)
{
    Schedule schedule;
    u32 performed[MAX_THREADS] = {0};
    u64 since_start = 0;
    schedules++;
    if (read_schedule(bytes, length, &schedule).number != TAKEN) {
        refused++;
        return;
    }
    start(&machine, schedule.t, &schedule.image);
    for (u32 i = 0; i < schedule.event_count; i++) {
        Reply reply;
        Event event = event_at(&schedule, i);
        if (perform(&machine, &event, &reply).number != TAKEN) {
            refused++;
            return;
        }
        if (event.kind == CRASH) {
            before_crash += since_start;
            since_start = 0;
        }
        if (begins(event.kind))
            performed[event.number] = 0;
        if (event.kind == STEP && reply.written != NO_LINE)
            performed[event.number]++;
        if (reply.number == NOTHING)
            continue;
        answers[reply.number]++;
        since_start++;
        if (performed[event.number] != DUE[reply.number])
            contradictions++;
    }
}

int print_once(void)
{
    put_number(schedules);
    put_text(" schedules, ");
    put_number(refused);
    put_text(" refused");
    for (u32 r = 1; r < REPLIES; r++) {
        put_text(", ");
        put_number(answers[r]);
        put_text(" ");
        put_text(NAMES[r]);
        put_text(" with ");
        put_number(DUE[r]);
    }
    put_text(", ");
    put_number(before_crash);
    put_text(" of them before a crash, ");
    put_number(contradictions);
    put_text(" contradict\n");
    return contradictions != 0;
}

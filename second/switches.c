/* The requests that are on, and their names. */
#include "second.h"
#include "switches.h"

static u32 turned[SWITCHES] = {ROTATION_LANDED, DESKS_LANDED, CLEAN_LANDED, FENCES_LANDED, QUEUES_LANDED};
static const char *const names[SWITCHES] = {"rotation", "desks", "clean", "fences", "queues"};

int on(u32 which)
{
    return turned[which] != 0;
}

void turn(const char *name, u32 to)
{
    for (u32 i = 0; i < SWITCHES; i++)
        if (same_text(name, names[i])) {
            turned[i] = to;
            return;
        }
    stop("no such request to turn on or off");
}

void set(u32 which, u32 to)
{
    turned[which] = to;
}

u32 record_head_lines(void)
{
    return on(DESKS_TOO) || on(QUEUES_TOO) ? RECORD_HEAD_LINES_WITH_DESKS : RECORD_HEAD_LINES;
}

/* The next version where the record has flushes behind all else. */
u32 record_version(void)
{
    return on(FENCES) ? RECORD_VERSION_WITH_FENCES : RECORD_VERSION;
}

/* A line a request: its name, and whether it has landed (or was turned on). */
int mode_switches(int count, char **words)
{
    (void)count, (void)words;
    for (u32 i = 0; i < SWITCHES; i++) {
        put_text(names[i]);
        put_text(turned[i] ? " on\n" : " off\n");
    }
    return 0;
}

/* The modes that hold every input of a stream against another way to its result. */
#include "second.h"

/* Holds every input of a stream against a judge; a contradiction is printed with the input's number. */
static int hold_stream(Finding (*against)(const u8 *, u64))
{
    u64 length, inputs = 0, agreed = 0, contradicted = 0, skipped = 0, by_lines = 0, work = 0;
    while (read_next(&length)) {
        plant_now = planted == inputs + 1;
        Finding f = against(input, length);
        work += f.work;
        agreed += f.result == AGREES;
        skipped += f.result == TOO_LARGE;
        by_lines += f.result == AGREES && same_text(f.why, "by lines");
        contradicted += f.result == CONTRADICTS;
        if (f.result == CONTRADICTS) {
            put_text("input ");
            put_number(inputs);
            put_text(" ending ");
            put_number(f.ending);
            put_text(" ");
            put_text(f.why);
            put_text("\n");
        }
        inputs++;
    }
    put_number(inputs);
    put_text(" inputs, ");
    put_number(agreed);
    put_text(" agree, ");
    put_number(contradicted);
    put_text(" contradict, ");
    put_number(skipped);
    put_text(" left out, ");
    put_number(by_lines);
    put_text(" by lines, work ");
    put_number(work);
    put_text("\n");
    return contradicted > 0 || agreed + contradicted == 0;
}

static int mode_hold(int count, char **words, Finding (*against)(const u8 *, u64))
{
    if (count == 2 && same_text(words[0], "plant"))
        planted = number_from(words[1]);
    seed_random(1, 1);
    return hold_stream(against);
}

int mode_plain(int count, char **words)
{
    return mode_hold(count, words, plain_way);
}

int mode_judge(int count, char **words)
{
    return mode_hold(count, words, judge);
}

int mode_places(int count, char **words)
{
    return mode_hold(count, words, places);
}

int mode_there_and_back(int count, char **words)
{
    return mode_hold(count, words, there_and_back);
}

int mode_out_and_in(int count, char **words)
{
    return mode_hold(count, words, out_and_in);
}

int mode_clean_or_same(int count, char **words)
{
    return mode_hold(count, words, clean_or_same);
}

int mode_same_when_fenced(int count, char **words)
{
    return mode_hold(count, words, same_when_fenced);
}

int mode_by_times_and_sets(int count, char **words)
{
    return mode_hold(count, words, by_times_and_sets);
}

int mode_plainly_same(int count, char **words)
{
    return mode_hold(count, words, plainly_same);
}

int mode_lists_hold(int count, char **words)
{
    return mode_hold(count, words, lists_hold);
}

int mode_mend_two_ways(int count, char **words)
{
    return mode_hold(count, words, mend_two_ways);
}

int mode_replay_by_parts(int count, char **words)
{
    return mode_hold(count, words, replay_by_parts);
}

int mode_same_when_wide(int count, char **words)
{
    return mode_hold(count, words, same_when_wide);
}

int mode_histories(int count, char **words)
{
    return mode_hold(count, words, hold_history);
}

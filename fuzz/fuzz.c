/* fuzz SEED COUNT: COUNT inputs; stops at the first on which the library and the second program differ. */
#include "fuzz.h"

static u8 bytes[LONGEST + 16];

/* one input in HISTORY_EVERY is judged as a history too: the longest searches take a million tries */
enum { HISTORY_EVERY = 8 };

static int agree(u64 seed, u64 number)
{
    u64 length = some_input(seed, number, bytes);
    return agree_on_bytes(bytes, length) && agree_on_ending(bytes, length) && agree_on_line(bytes, length)
        && agree_on_lines(bytes, length) && agree_on_start(bytes, length) && agree_on_conversions(bytes, length, number)
        && agree_on_desks(bytes, length, number) && agree_on_record(seed, number) && agree_on_mended() && agree_on_probe(bytes, length)
        && agree_on_list(bytes, length)
        && agree_on_plain(bytes, length)
        && (number % HISTORY_EVERY != 0 || agree_on_history(seed, number));
}

static void put_counts(const u64 *seen, u32 count)
{
    for (u32 i = 0; i < count; i++) {
        put_text(" ");
        put_number(i);
        put_text(":");
        put_number(seen[i]);
    }
}

static void put_probes(void)
{
    put_text("; of probe files:");
    put_counts(probe_numbers_seen, NUMBERS);
    put_text(", differing ");
    put_number(probes_differing);
}

static void put_lists(void)
{
    put_text("; of lists:");
    put_counts(list_numbers_seen, NUMBERS);
    put_text(", groups");
    put_counts(groups_seen, 6);
}

static void put_histories(void)
{
    static const u32 numbers[5] = {TAKEN, WRONG_LENGTH, UNKNOWN_KIND, FIELD_NOT_ZERO, BUFFER_TOO_SHORT};
    put_text("; of histories:");
    for (u32 i = 0; i < 5; i++) {
        put_text(" ");
        put_number(numbers[i]);
        put_text(":");
        put_number(history_numbers_seen[numbers[i]]);
    }
    put_text(", unlawful ");
    put_number(verdicts_seen[0]);
    put_text(", lawful ");
    put_number(verdicts_seen[1]);
    put_text(", undecided ");
    put_number(verdicts_seen[2]);
}

int main(int count, char **words)
{
    if (count != 3)
        stop("use: fuzz SEED COUNT");
    u64 seed = number_from(words[1]), inputs = number_from(words[2]);
    for (u64 number = 1; number <= inputs; number++)
        if (!agree(seed, number)) {
            put_text("at input ");
            put_number(number);
            put_text("\n");
            flush_output();
            return 1;
        }
    put_number(inputs);
    put_text(" inputs, all calls agree; how often each number was given back:");
    put_counts(numbers_seen, NUMBERS);
    put_histories();
    put_probes();
    put_lists();
    put_text("\n");
    flush_output();
    return 0;
}

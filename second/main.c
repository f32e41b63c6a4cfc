/* The modes of the program, by the first argument. Every mode reads standard input. */
#include "second.h"

u64 number_from(const char *text)
{
    u64 number = 0;
    if (!*text)
        stop("a number is expected");
    for (; *text; text++) {
        if (*text < '0' || *text > '9')
            stop("a number is expected");
        number = number * 10 + (u64)(*text - '0');
    }
    return number;
}

static int mode_page(int count, char **words)
{
    (void)count, (void)words;
    print_page(input, read_all());
    return 0;
}

static int mode_many(int count, char **words)
{
    u64 length;
    if (count == 2 && same_text(words[0], "plant"))
        planted = number_from(words[1]);
    for (u64 number = 1; read_next(&length); number++) {
        plant_now = planted == number;
        print_page(input, length);
    }
    return 0;
}

static int mode_ending(int count, char **words)
{
    static u8 buffer[65536];
    if (count != 2 || number_from(words[1]) > sizeof buffer)
        stop("use: ending K ROOM, ROOM at most 65536");
    u64 k = number_from(words[0]), room = number_from(words[1]);
    for (u64 i = 0; i < room; i++)
        buffer[i] = 0xaa; /* so that the bytes that stay can be seen */
    Verdict v = write_ending(input, read_all(), k, buffer, room);
    put_number(v.number);
    put_text(" ");
    put_number(v.place);
    put_text("\n");
    put_hex(buffer, room);
    put_text("\n");
    return 0;
}

/* Prints what there is to print of every input of a stream. */
static int each_input(void (*print)(const u8 *bytes, u64 length))
{
    u64 length;
    while (read_next(&length))
        print(input, length);
    return 0;
}

static int mode_endings_many(int count, char **words)
{
    (void)count, (void)words;
    return each_input(print_endings);
}

static int mode_traces(int count, char **words)
{
    (void)count, (void)words;
    return each_input(print_trace);
}

static int mode_sums(int count, char **words)
{
    (void)count, (void)words;
    return each_input(print_trace_sums);
}

static int mode_soak(int count, char **words)
{
    (void)count, (void)words;
    return each_input(print_soak);
}

static int mode_once(int count, char **words)
{
    (void)count, (void)words;
    each_input(count_once);
    return print_once();
}

static int mode_place_counts(int count, char **words)
{
    (void)count, (void)words;
    return each_input(print_place_counts);
}

static int mode_saved(int count, char **words)
{
    (void)count, (void)words;
    return each_input(print_saved);
}

static int mode_starts(int count, char **words)
{
    (void)count, (void)words;
    return each_input(print_start);
}

static int mode_fresh(int count, char **words)
{
    (void)count, (void)words;
    return each_input(print_fresh);
}

static int mode_images(int count, char **words)
{
    (void)count, (void)words;
    return each_input(print_image);
}

static int mode_images_again(int count, char **words)
{
    (void)count, (void)words;
    return each_input(print_image_again);
}

static int mode_schedules(int count, char **words)
{
    (void)count, (void)words;
    return each_input(print_schedule);
}

static int mode_record(int count, char **words)
{
    (void)count, (void)words;
    u8 item[MOST_RECORD + EVENT_BYTES];
    while (read_exactly(item, record_bytes() + EVENT_BYTES))
        print_record_item(item, record_bytes() + EVENT_BYTES);
    return 0;
}

static int mode_records(int count, char **words)
{
    (void)count, (void)words;
    return each_input(print_record_item);
}

/* How many bytes a record has with an event behind it: what `frames` is to be told for them. */
static int mode_record_bytes(int count, char **words)
{
    (void)count, (void)words;
    put_number(record_bytes() + EVENT_BYTES);
    put_text("\n");
    return 0;
}

static int mode_generate(int count, char **words)
{
    if (count != 3)
        stop("use: generate SEED COUNT SHAPE");
    u64 seed = number_from(words[0]), wanted = number_from(words[1]);
    for (u64 i = 0; i < wanted; i++) {
        u8 head[4], item[MOST_RECORD + EVENT_BYTES];
        if (same_text(words[2], "contents")) {
            generate_contents_item(seed, i, item);
            put_bytes(item, CONTENTS_BYTES);
            continue;
        }
        if (same_text(words[2], "wide-contents")) {
            generate_wide_contents_item(seed, i, item);
            put_bytes(item, WIDE_CONTENTS_BYTES);
            continue;
        }
        if (same_text(words[2], "records")) {
            generate_record_item(seed, i, item);
            put_bytes(item, record_bytes() + EVENT_BYTES);
            continue;
        }
        u64 length = same_text(words[2], "histories") ? generate_history(seed, i, input)
            : same_text(words[2], "searches") ? generate_search(seed, i, input)
            : same_text(words[2], "texts") ? generate_text(seed, i, input)
            : same_text(words[2], "pieces") ? generate_piece(seed, i, input) : generate_input(seed, i, words[2], input);
        put4(head, (u32)length);
        put_bytes(head, 4);
        put_bytes(input, length);
    }
    return 0;
}

/* Pages and endings of a stream, unprinted: only what they reached is printed. */
static int mode_counts(int count, char **words)
{
    (void)count, (void)words;
    static u8 nowhere[16];
    u64 length, inputs = 0;
    while (read_next(&length)) {
        Schedule s;
        capture_output(nowhere, sizeof nowhere);
        if (print_page(input, length) == TAKEN)
            print_endings(input, length);
        if (end_capture() == 0)
            stop("an output was empty");
        if (read_schedule(input, length, &s).number == TAKEN)
            count_schedule(&s);
        inputs++;
    }
    int missing = print_counts();
    put_number(inputs);
    put_text(" inputs, ");
    put_number((u64)missing);
    put_text(" points never reached\n");
    return missing > 0 || inputs == 0;
}

static int mode_listed(int count, char **words)
{
    (void)count, (void)words;
    return each_input(print_listed);
}

static int mode_plain_pages(int count, char **words)
{
    (void)count, (void)words;
    return each_input(print_plainly);
}

static int mode_trace(int count, char **words)
{
    (void)count, (void)words;
    print_trace(input, read_all());
    return 0;
}

static int mode_contents(int count, char **words)
{
    u8 item[CONTENTS_BYTES];
    (void)count, (void)words;
    while (read_exactly(item, sizeof item))
        print_contents_item(item, sizeof item);
    return 0;
}

static int mode_contents_many(int count, char **words)
{
    (void)count, (void)words;
    return each_input(print_contents_item);
}

static int mode_search(int count, char **words)
{
    if (count != 3)
        stop("use: search NAME SEED TRIES");
    return search(machine_of_name(words[0]), number_from(words[1]), number_from(words[2]));
}

static int mode_sequences(int count, char **words)
{
    (void)count, (void)words;
    return check_sequences() > 0;
}

static int mode_sequence(int count, char **words)
{
    return count == 1 ? print_sequence(words[0]) : 2;
}

static int mode_sequence_names(int count, char **words)
{
    (void)count, (void)words;
    return print_sequence_names();
}

static int mode_wrong(int count, char **words);
static int mode_with(int count, char **words);
static int mode_without(int count, char **words);

static const struct {
    const char *name;
    int (*run)(int count, char **words);
} modes[] = {
    {"page", mode_page}, {"many", mode_many}, {"ending", mode_ending}, {"endings-many", mode_endings_many},
    {"trace", mode_trace}, {"traces", mode_traces}, {"sums", mode_sums}, {"soak", mode_soak}, {"once", mode_once},
    {"record", mode_record}, {"records", mode_records}, {"recorded", mode_recorded},
    {"place-counts", mode_place_counts}, {"saved", mode_saved}, {"starts", mode_starts}, {"fresh", mode_fresh},
    {"images", mode_images}, {"images-again", mode_images_again}, {"schedules", mode_schedules},
    {"contents", mode_contents}, {"contents-many", mode_contents_many}, {"generate", mode_generate},
    {"counts", mode_counts}, {"plain", mode_plain}, {"judge", mode_judge}, {"places", mode_places},
    {"widened", mode_widened}, {"narrowed", mode_narrowed}, {"there-and-back", mode_there_and_back}, {"same-when-wide", mode_same_when_wide},
    {"imported", mode_imported}, {"exported", mode_exported}, {"out-and-in", mode_out_and_in},
    {"clean-or-same", mode_clean_or_same},
    {"fenced", mode_fenced}, {"same-when-fenced", mode_same_when_fenced}, {"by-times-and-sets", mode_by_times_and_sets},
    {"plain-pages", mode_plain_pages}, {"plainly-same", mode_plainly_same}, {"listed", mode_listed}, {"lists-hold", mode_lists_hold},
    {"mended", mode_mended}, {"mend-two-ways", mode_mend_two_ways},
    {"replayed", mode_replayed}, {"probed", mode_probed}, {"replay-by-parts", mode_replay_by_parts},
    {"judged", mode_judged}, {"drawn", mode_drawn}, {"histories", mode_histories},
    {"with", mode_with}, {"without", mode_without}, {"switches", mode_switches}, {"record-bytes", mode_record_bytes},
    {"wrong", mode_wrong}, {"search", mode_search}, {"frame", mode_frame}, {"frames", mode_frames},
    {"cuts", mode_cuts}, {"values", mode_values}, {"sequence", mode_sequence}, {"sequence-names", mode_sequence_names}, {"sequences", mode_sequences},
    {"words", mode_words}, {"unwords", mode_unwords}, {"words-many", mode_words_many}, {"unwords-many", mode_unwords_many}, {"pieces-many", mode_pieces_many},
};

static int run_mode(int count, char **words)
{
    for (u32 i = 0; count > 0 && i < sizeof modes / sizeof modes[0]; i++)
        if (same_text(words[0], modes[i].name))
            return modes[i].run(count - 1, words + 1);
    stop("the modes are listed in second/README.md");
    return 2;
}

static int mode_wrong(int count, char **words)
{
    if (count < 2)
        stop("use: wrong NAME MODE ...");
    wrong_machine = machine_of_name(words[0]);
    return run_mode(count - 1, words + 1);
}

static int turned(int count, char **words, u32 to)
{
    if (count < 2)
        stop("use: with NAME MODE ..., without NAME MODE ...");
    turn(words[0], to);
    return run_mode(count - 1, words + 1);
}

static int mode_with(int count, char **words)
{
    return turned(count, words, 1);
}

static int mode_without(int count, char **words)
{
    return turned(count, words, 0);
}

int main(int count, char **words)
{
    int status = run_mode(count - 1, words + 1);
    flush_output();
    return status;
}

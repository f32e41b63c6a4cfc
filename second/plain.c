/* The plain way: write-backs are really put into the schedule, the run is really made, and the images left are compared
   with the page. It knows nothing of contents and histories; it uses the machine by its events alone. */
#include "second.h"

enum { MOST_RUNS = 40000, SAMPLES = 150 };

static Machine at_last_start;
static u32 first_event;  /* the event after the last start */
static u32 moment_count; /* none, just after the last start, and after each later event */
static Image left[MAX_ENDINGS];

static int run_events(Machine *m, const Schedule *s, u32 from, u32 to)
{
    for (u32 i = from; i < to; i++) {
        Reply reply;
        Event e = event_at(s, i);
        if (perform(m, &e, &reply).number != TAKEN)
            return 0;
    }
    return 1;
}

static void find_last_start(const Schedule *s)
{
    first_event = 0;
    for (u32 i = 0; i < s->event_count; i++)
        if (event_at(s, i).kind == CRASH)
            first_event = i + 1;
    moment_count = 2 + s->event_count - first_event;
    start(&at_last_start, s->t, &s->image);
    run_events(&at_last_start, s, 0, first_event);
}

static void write_back_due(Machine *m, const u32 *moments, u32 moment)
{
    for (u32 line = 0; line < line_count(m); line++) {
        Reply reply;
        Event e = {WRITE_BACK, line, 0};
        if (moments[line] == moment)
            perform(m, &e, &reply);
    }
}

/* In these runs 19 is not given: neither for an added write-back, nor for a recorded one that an added one made needless.
   The image left when line l is written back at moments[l]: 0 never, 1 just after the last start, 2 + i after its event i. */
static void run_with(const Schedule *s, const u32 *moments, Image *image)
{
    Machine m = at_last_start;
    write_back_due(&m, moments, 1);
    for (u32 i = first_event; i < s->event_count; i++) {
        run_events(&m, s, i, i + 1);
        write_back_due(&m, moments, 2 + i - first_event);
    }
    persisted_image(&m, image);
}

static int same_image(const Image *a, const Image *b)
{
    if (a->form != b->form || a->n != b->n || a->head_index != b->head_index || (a->form == TWO && a->head_index_1 != b->head_index_1))
        return 0;
    for (u32 k = 0; a->form == DESKS && k < a->t; k++)
        if (a->desks[k] != b->desks[k])
            return 0;
    for (u32 i = 0; i < a->n; i++)
        if (!same_content(a->nodes[i], b->nodes[i]))
            return 0;
    return 1;
}

static u32 lines_of(const Schedule *s)
{
    return head_lines(s->image.form, s->t) + s->image.n;
}

static u64 combinations(u32 lines)
{
    u64 runs = 1;
    for (u32 line = 0; line < lines && runs <= MOST_RUNS; line++)
        runs *= moment_count;
    return runs;
}

/* The last line fastest, line 0 slowest; gives 0 after the last combination. */
static int next_combination(u32 *moments, u32 lines)
{
    for (u32 turned = lines; turned-- > 0;) {
        u32 line = wrong_machine == LINE_0_FASTEST ? lines - 1 - turned : turned;
        if (++moments[line] < moment_count)
            return 1;
        moments[line] = 0;
    }
    return 0;
}

static Finding finding(u32 result, u64 ending, const char *why, u64 work)
{
    Finding f = {result, ending, why, work};
    return f;
}

/* The images left, each once, in the order in which they first turn up; gives their number. */
static u64 leave_images(const Schedule *s, u64 *runs)
{
    u32 moments[MAX_LINES] = {0};
    u64 found = 0, known;
    Image image;
    do {
        run_with(s, moments, &image);
        ++*runs;
        for (known = wrong_machine == REPEATS_KEPT && found > 0 ? found - 1 : 0; known < found && !same_image(&left[known], &image);)
            known++;
        if (known == found && found < MAX_ENDINGS)
            left[found++] = image;
    } while (next_combination(moments, lines_of(s)));
    return found;
}

/* Held against the page's endings in order. */
static Finding every_combination(const Schedule *s, u64 count)
{
    Image image;
    u64 runs = 0, found = leave_images(s, &runs);
    if (found != count)
        return finding(CONTRADICTS, found, "the plain way leaves another number of images", runs);
    for (u64 k = 0; k < count; k++) {
        ending_image(&the_bench, k, &image);
        if (!same_image(&image, &left[k]))
            return finding(CONTRADICTS, k, "the plain way leaves another image", runs);
    }
    return finding(AGREES, 0, "", runs);
}

/* The images left when this line alone is written back, at every moment, each once, in the order they first turn up. */
static u64 images_of_line(const Schedule *s, u32 line)
{
    u32 moments[MAX_LINES] = {0};
    u64 found = 0, known;
    for (; moments[line] < moment_count; moments[line]++) {
        Image image;
        run_with(s, moments, &image);
        for (known = wrong_machine == REPEATS_KEPT && found > 0 ? found - 1 : 0; known < found && !same_image(&left[known], &image);)
            known++;
        if (known == found)
            left[found++] = image;
    }
    return found;
}

/* Too many combinations: one line at a time, from the fastest to the slowest. While the other lines keep their oldest
   content, this line's contents stand on the page at equal distances, and the number of endings is the product... */
static Finding line_by_line(const Schedule *s, u64 count)
{
    u64 distance = 1, runs = 0;
    for (u32 line = lines_of(s); line-- > 0;) {
        u64 found = images_of_line(s, line);
        runs += moment_count;
        if (found * distance > count)
            return finding(CONTRADICTS, found, "the plain way leaves another number of images", runs);
        for (u64 j = 0; j < found; j++) {
            Image ending;
            ending_image(&the_bench, j * distance, &ending);
            if (!same_image(&ending, &left[j]))
                return finding(CONTRADICTS, j * distance, "the plain way leaves another image", runs);
        }
        distance *= found;
    }
    return finding(distance == count ? AGREES : CONTRADICTS, distance, "the plain way leaves another number of images", runs);
}

static int on_the_page(const Image *image, u64 count)
{
    Image ending;
    for (u64 k = 0; k < count; k++) {
        ending_image(&the_bench, k, &ending);
        if (same_image(&ending, image))
            return 1;
    }
    return 0;
}

/* ... and random combinations, whose images must stand on the page. */
static Finding sampled(const Schedule *s, u64 count, Finding f)
{
    for (u32 i = 0; i < SAMPLES; i++) {
        u32 moments[MAX_LINES];
        Image image;
        for (u32 line = 0; line < lines_of(s); line++)
            moments[line] = below(moment_count);
        run_with(s, moments, &image);
        f.work++;
        if (!on_the_page(&image, count))
            return finding(CONTRADICTS, 0, "the plain way leaves an image that is not on the page", f.work);
    }
    f.why = "by lines"; /* told apart from every combination in the report */
    return f;
}

static Finding by_runs(const Schedule *s, u64 count)
{
    find_last_start(s);
    if (combinations(lines_of(s)) <= MOST_RUNS)
        return every_combination(s, count);
    if (count > 2000)
        return finding(TOO_LARGE, 0, "too many endings", 0);
    Finding f = line_by_line(s, count);
    return f.result == AGREES ? sampled(s, count, f) : f;
}

Finding plain_way(const u8 *bytes, u64 length)
{
    Schedule s;
    u64 count;
    Verdict v = endings_of(bytes, length, &s, &the_bench, &count);
    if (v.number != TAKEN)
        return finding(TOO_LARGE, 0, "no page", 0);
    if (plant_now)
        the_bench.lines[lines_of(&s) - 1].list[0].item ^= 1;
    clean_waived = 1;
    Finding f = by_runs(&s, count);
    clean_waived = 0;
    return f;
}

/* ---- request 108: the call */

/* "for every schedule of at most 12 events, 4 nodes and 6 lines ... larger ones get 15, place 0, after all others but 16 and 17" */
static int larger(const Schedule *s)
{
    return s->event_count > 12 || s->image.n > 4 || lines_of(s) > 6;
}

/* The page's images by the plain way, as `endings-many` prints them. */
void print_plainly(const u8 *bytes, u64 length)
{
    Schedule s;
    u64 count, runs = 0, sum = NO_SUM;
    u8 buffer[MAX_IMAGE];
    Verdict v = endings_of(bytes, length, &s, &the_bench, &count);
    if (v.number == TAKEN && larger(&s))
        v = verdict(TOO_MANY_ENDINGS, 0);
    if (v.number != TAKEN) {
        print_refusal(v);
        return;
    }
    find_last_start(&s);
    clean_waived = 1;
    count = leave_images(&s, &runs);
    clean_waived = 0;
    put_text("endings ");
    put_number(count);
    put_text("\n");
    for (u64 k = 0; k < count; k++) {
        image_to_bytes(&left[k], buffer);
        if (count <= 32) {
            put_hex(buffer, length_of(&left[k]));
            put_text("\n");
        }
        sum = add_to_sum(sum, buffer, length_of(&left[k]));
    }
    put_text("sum ");
    put_sum(sum);
    put_text("\n");
    print_refusal(verdict(NO_SUCH_ENDING, 0));
    print_refusal(verdict(BUFFER_TOO_SHORT, 0));
}

/* What the call prints is what the page's endings are, or a refusal by 15 where the schedule is larger. */
Finding plainly_same(const u8 *bytes, u64 length)
{
    enum { PRINTED = 1 << 16 };
    static u8 plainly[PRINTED], endings[PRINTED];
    Schedule s;
    capture_output(endings, PRINTED);
    print_endings(bytes, length);
    u64 size = end_capture(), count;
    if (endings_of(bytes, length, &s, &the_bench, &count).number == TAKEN && larger(&s)) {
        capture_output(endings, PRINTED);
        print_refusal(verdict(TOO_MANY_ENDINGS, 0));
        size = end_capture();
    }
    capture_output(plainly, PRINTED);
    print_plainly(bytes, length);
    if (end_capture() != size + (u64)plant_now)
        return finding(CONTRADICTS, 0, "the plain way's images are others", 1);
    for (u64 i = 0; i < size; i++)
        if (plainly[i] != endings[i])
            return finding(CONTRADICTS, 0, "the plain way's images are others", 1);
    return finding(AGREES, 0, "", 1);
}

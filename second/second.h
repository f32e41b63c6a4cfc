/* The second program: UnlinkedQ's crash bench once more, written from the scope paper and source document 001 alone.
   No header of the system is included; the few C functions used are declared where they are used. */
#ifndef SECOND_H
#define SECOND_H

typedef unsigned char u8;
typedef unsigned int u32;
typedef unsigned long long u64;

enum {
    MIN_NODES = 2,
    MAX_NODES = 64,
    MAX_THREADS = 8,
    MAX_LINES = MAX_NODES + MAX_THREADS,
    MAX_EVENTS = 4096,
    MAX_CONTENTS = 16,
    MAX_ENDINGS = 65536,
    SCHEDULE_HEAD = 8,
    IMAGE_LEAST = 10, /* "fewer than 10 bytes left", in every version */
    EVENT_BYTES = 6,
    MAX_IMAGE = 918, /* 22 + 14 * 64, of version 3 */
    MAX_SCHEDULE = SCHEDULE_HEAD + MAX_IMAGE + EVENT_BYTES * MAX_EVENTS,
    RECORD_MARK = 5,        /* "UQM" and the version */
    RECORD_VERSION = 3,     /* 2 before request 101 */
    RECORD_VERSION_WITH_FENCES = 4,
    MOST_RECORD = 4096,     /* more than any record has */
    CONTENTS_BYTES = 5 + 9 * MAX_NODES + 2,
    WIDE_CONTENTS_BYTES = 10 + 13 * MAX_NODES + 2,
    MOST_ROOM = 65535,
    NONE = 255,    /* no node */
    NO_LINE = 255, /* no line */
    NEVER = 0x7fffffff
};
static const u32 LARGEST = 4294967295u; /* of 32 bits: an item, and an index of version 1 */

/* An image's form: "UQI" version 1 with indices of 32 bits, version 2 with 64; "UQP" version 1 with one head index per desk (request 101);
   "UQI" version 3 with two queues (request 113). */
enum { NARROW = 1, WIDE = 2, TWO = 3, DESKS = 4 };

/* Numbers given back, as the paper numbers them. */
enum {
    TAKEN = 0,
    WRONG_LENGTH = 1,
    WRONG_MARK = 2,
    WRONG_N = 3,
    WRONG_T = 4,
    TOO_MANY_EVENTS = 5,
    WRONG_LINKED = 6,
    TWINS = 7,
    NO_DUMMY = 8,
    UNKNOWN_KIND = 9,
    NUMBER_TOO_LARGE = 10,
    BEGIN_ON_BUSY = 11,
    STEP_ON_IDLE = 12,
    FIELD_NOT_ZERO = 13,
    TOO_MANY_CONTENTS = 14,
    TOO_MANY_ENDINGS = 15,
    NO_SUCH_ENDING = 16,
    BUFFER_TOO_SHORT = 17,
    OUT_OF_RANGE = 18,
    CLEAN_LINE = 19,
    DOES_NOT_FIT = 20,
    NUMBERS = 21
};

typedef struct Verdict {
    u32 number;
    u32 place;
} Verdict;

/* What a line holds. Line 0 uses the index alone; the other two fields stay 0 there. */
typedef struct Content {
    u32 linked;
    u64 index;
    u32 item;
    u32 queue; /* of version 3 alone */
} Content;

typedef struct Image {
    u32 form;
    u32 n;
    u32 t;          /* of "UQP" alone */
    u64 head_index; /* of "UQP" the largest of the desks' */
    u64 head_index_1; /* of queue 1, in version 3 */
    u64 desks[MAX_THREADS];
    Content nodes[MAX_NODES];
} Image;

/* Kinds of an event. */
enum { BEGIN_ENQUEUE = 1, BEGIN_DEQUEUE = 2, STEP = 3, WRITE_BACK = 4, CRASH = 5, BEGIN_ENQUEUE_1 = 6, BEGIN_DEQUEUE_1 = 7 };

typedef struct Event {
    u32 kind;
    u32 number;
    u32 item;
} Event;

typedef struct Schedule {
    u32 t;
    u32 event_count;
    Image image;
    const u8 *events;
} Schedule;

/* The step a thread is about to perform. */
enum {
    IDLE = 0,
    A1 = 1, A2, A3, A4, A5, A6, A7, A8, A9, A10, A11, A12,
    D1 = 13, D2, D3, D4, D5, D6, D7,
    STEPS = 20, /* of "UQI" */
    S3 = 20, S6, /* "UQP": the stores before D3's and D6's persist */
    A10_FENCE = 22, D3_FENCE, D6_FENCE, /* request 104: A10, D3 and D6 are then the flushes */
    AQ = 25, /* version 3: the store of the queue byte, between A4 and A5 */
    LAST_STEP = AQ
};

enum { QUEUES = 2 };

typedef struct Node {
    Content cached;
    u32 next;
    u32 waits; /* bit k: waits for thread k */
    Content persisted;
} Node;

typedef struct Thread {
    u32 step;
    u32 own;             /* node of this enqueue */
    u32 t;               /* Tail as read at A5 */
    u32 head_read;       /* Head's node as read at D1 */
    u64 head_read_index; /* Head's index as read at D1 */
    u32 next_read;       /* next as read at D2 */
    u32 item;            /* to be enqueued, or read at D5 */
    u32 held[QUEUES];    /* old dummy of the previous successful dequeue, of each queue */
    u32 queue;           /* the queue of the operation */
    Content flushed;     /* request 104: what its last flush since the start found, and when that was */
    u64 flush_time;
} Thread;

typedef struct Machine {
    u32 form; /* that of the start's image: it decides when an index is worn out */
    u32 n;
    u32 t;
    u32 head[QUEUES];
    u64 lines[MAX_THREADS]; /* the head lines' indices: line 0 is Head's */
    u32 tail[QUEUES];
    u64 free; /* bit i: node i is free */
    u32 last; /* request 106: the node last handed out */
    u64 persisted_lines[MAX_THREADS];
    u64 clock;               /* moments so far */
    u64 since[MAX_LINES];    /* the moment of each line's persisted content */
    /* Request 104. A record's bytes have no times but these sets of threads, by bits. */
    u32 late[MAX_THREADS];       /* of thread k: those that flushed after k's last flush */
    u32 over_heads[MAX_THREADS]; /* of a line: those whose flush is no later than the line's persisted content */
    u32 over_nodes[MAX_NODES];
    u32 by_sets; /* 1 where times are not known, or not asked: the sets decide at a fence */
    Node nodes[MAX_NODES];
    Thread threads[MAX_THREADS];
} Machine;

enum { NOTHING = 0, DONE = 1, FULL = 2, WORN_OUT = 3, AN_ITEM = 4, EMPTY = 5, REPLIES = 6 };

typedef struct Reply {
    u32 number;
    u32 value;
    u32 written; /* the line whose persisted copy this event wrote, or NO_LINE */
    u32 started; /* 1 when the event was a crash, so a new start */
} Reply;

/* What a line's content was, and from which moment on; and its contents from the persisted one on, oldest first, each once. */
typedef struct History {
    u32 noted;
    Content contents[MAX_EVENTS + 2];
    u64 moments[MAX_EVENTS + 2];
    u64 since;
    u32 count;
    Content list[MAX_EVENTS + 2];
} History;

typedef struct Bench {
    Machine machine;
    History lines[MAX_LINES];
} Bench;

/* What holding an input against another way of getting its result has found. */
enum { AGREES = 0, CONTRADICTS = 1, TOO_LARGE = 2 };
typedef struct Finding {
    u32 result;
    u64 ending;
    const char *why;
    u64 work;
} Finding;

/* The wrong machines; each is one `if` at one place of the sources. */
enum {
    RIGHT = 0,
    INDEX_FIRST,
    RETIRE_SAME_DEQUEUE,
    EMPTY_NO_PERSIST,
    CONSECUTIVE,
    EQUAL_TWICE,
    WAITS_FOR_NOBODY,
    A10_NO_PERSIST,
    D6_NO_PERSIST,
    A4_LEFT_OUT,
    WORN_BY_32,
    NODES_FIRST,
    LOW_HALF_TWICE,
    LOWEST_CLEARED,
    STOPS_AT_FIRST,
    FROM_LAST,
    TAIL_LAST,
    LAST_FORGOTTEN,
    S6_OLD_DUMMY,
    S3_LINE_0,
    PERSIST_LINE_0,
    FIRST_DESK,
    LAST_DESK,
    CLEAN_WITHOUT_ITEM,
    CLEAN_BEFORE_ZEROS,
    CLEAN_ITSELF,
    HEADS_NEVER_CLEAN,
    FENCE_PRESENT,
    FENCE_BACKWARDS,
    EMPTY_AT_FLUSH,
    WRITE_BACK_FORGOTTEN,
    OVER_ALL,
    LATE_LEFT,
    OVER_LEFT,
    ONE_HELD,
    QUEUE_BEFORE_LINKED,
    DUMMIES_LINKED,
    BY_ITEM,
    UNANSWERED_NEVER_IN,
    LINE_0_FASTEST,
    REPEATS_KEPT,
    MACHINES
};
extern u32 wrong_machine;

/* switches.c: the requests that may be on or off */
enum { ROTATION, DESKS_TOO, CLEAN, FENCES, QUEUES_TOO, SWITCHES };
int on(u32 which);
void turn(const char *name, u32 to);
void set(u32 which, u32 to);
u32 record_head_lines(void);
u32 record_version(void);
int mode_switches(int count, char **words);

/* io.c */
extern u8 input[];
enum { INPUT_KEPT = 1 << 20 };
u64 read_all(void);
int read_next(u64 *length);
int read_exactly(u8 *to, u64 length);
void put_bytes(const u8 *bytes, u64 length);
void put_text(const char *text);
void put_number(u64 number);
void put_hex(const u8 *bytes, u64 length);
void flush_output(void);
void capture_output(u8 *to, u64 room);
u64 end_capture(void);
void stop(const char *why);
u32 get2(const u8 *from);
u32 get4(const u8 *from);
void put2(u8 *to, u32 value);
void put4(u8 *to, u32 value);
u64 get8(const u8 *from);
void put8(u8 *to, u64 value);
int same_text(const char *a, const char *b);

/* form.c */
u64 largest_index(u32 form);
u32 index_bytes(u32 form);
u32 image_head(u32 form);
u64 nodes_in(const u8 *image);
u64 length_in(const u8 *image);
u64 length_of(const Image *image);
u32 image_node(u32 form);
u64 image_length(u32 form, u32 n);
u64 get_index(u32 form, const u8 *from);
void put_index(u32 form, u8 *to, u64 value);
u32 form_of(const u8 *image);
u32 head_lines(u32 form, u32 t);

/* image.c */
extern u32 only_form; /* 0, or the one form that is taken for the time being */
Verdict read_image_beginning(const u8 *bytes, u64 length, u64 least, Image *image);
Verdict read_uqi_head(const u8 *bytes, u64 length, Image *image);
void take_largest(Image *image);
int is_version_3(const u8 *bytes, u64 length);
Verdict verdict(u32 number, u32 place);
Verdict read_image_head(const u8 *bytes, u64 length, Image *image);
Verdict read_image_nodes(const u8 *bytes, Image *image);
Verdict read_image(const u8 *bytes, u64 length, Image *image);
Verdict read_uqi(const u8 *bytes, u64 length, Image *image);
Verdict test_recovered(const Image *image);
Verdict test_contents(const Image *image);
Verdict write_image(const Image *image, u8 *buffer, u64 room);
int is_recovered(const Image *image, u32 node);
u32 recovered_in_order(const Image *image, u32 queue, u32 *order);
u64 head_of(const Image *image, u32 queue);
u32 queue_count(u32 form);
void image_to_bytes(const Image *image, u8 *bytes);

/* convert.c */
Verdict test_fits(const Image *image);
Verdict widen(const u8 *bytes, u64 length, u8 *buffer, u64 room);
Verdict narrow(const u8 *bytes, u64 length, u8 *buffer, u64 room);
int mode_widened(int count, char **words);
int mode_narrowed(int count, char **words);
Finding there_and_back(const u8 *bytes, u64 length);
Finding same_when_wide(const u8 *bytes, u64 length);

/* desks.c */
int mode_imported(int count, char **words);
int mode_exported(int count, char **words);
Finding out_and_in(const u8 *bytes, u64 length);
Verdict import(const u8 *bytes, u64 length, u8 *buffer, u64 room);
Verdict export(const u8 *bytes, u64 length, u32 t, u8 *buffer, u64 room);
u64 generate_import(u64 number, u8 *bytes);
u64 generate_export(u64 number, u8 *bytes);

/* clean.c */
Finding clean_or_same(const u8 *bytes, u64 length);

/* fences.c */
int mode_fenced(int count, char **words);
Finding same_when_fenced(const u8 *bytes, u64 length);

/* flushes.c */
void flush(Machine *m, u32 k, u32 line);
void fence(Machine *m, u32 k, u32 line, Reply *reply);
u32 *over_line(Machine *m, u32 line);
u64 all_threads(const Machine *m);
int is_fence(u32 step);
u32 line_of_fence(const Machine *m, u32 k);
void forget_flushes(Machine *m);
int decides_by_sets(void);
Finding by_times_and_sets(const u8 *bytes, u64 length);

/* list.c */
void print_listed(const u8 *bytes, u64 length);
Finding lists_hold(const u8 *bytes, u64 length);
u64 generate_listed(u64 number, u8 *bytes);

/* mend.c */
int mode_mended(int count, char **words);
Finding mend_two_ways(const u8 *bytes, u64 length);
u64 generate_mendable(u64 number, int with_room, u8 *bytes);

/* replay.c */
int mode_replayed(int count, char **words);
int mode_probed(int count, char **words);
Finding replay_by_parts(const u8 *bytes, u64 length);
u64 generate_probe(u64 number, u8 *bytes);

/* recovery.c */
void start(Machine *m, u32 t, const Image *image);
void persisted_image(const Machine *m, Image *image);
void crash(Machine *m);
void blank_registers(Thread *thread);

/* enqueue.c, dequeue.c */
void step_of_enqueue(Machine *m, u32 k, Reply *reply);
void step_of_dequeue(Machine *m, u32 k, Reply *reply);

/* machine.c */
u64 bit(u32 i);
void persist(Machine *m, u32 line, Reply *reply);
void put_persisted(Machine *m, u32 line, Content content, u64 moment);
u32 own_line(const Machine *m, u32 k);
void answer(Machine *m, u32 k, u32 number, u32 value, Reply *reply);
void retire(Machine *m, u32 k, u32 node);
u32 following(u32 step);
Verdict test_event(const Machine *m, const Event *event);
int is_clean(const Machine *m, u32 line);
extern int clean_waived; /* 1 while 19 is not given, in the runs of the plain way */
Verdict perform(Machine *m, const Event *event, Reply *reply);
u32 line_count(const Machine *m);
int begins(u32 kind);
int enqueues(u32 kind);
u32 queue_of_kind(u32 kind);
Content cached_content(const Machine *m, u32 line);
Content persisted_content(const Machine *m, u32 line);

/* record.c */
int in_range(const Machine *m);
int is_step_of(const Machine *m, u32 step);
u64 record_bytes(void);
void record_to_bytes(const Machine *m, u8 *bytes);
Verdict record_from_bytes(const u8 *bytes, u64 length, Machine *m);

/* schedule.c */
Verdict read_schedule(const u8 *bytes, u64 length, Schedule *schedule);
Event event_at(const Schedule *schedule, u32 number);
void event_to_bytes(const Event *event, u8 *bytes);
u64 schedule_to_bytes(const Schedule *schedule, u8 *bytes);

/* endings.c */
int same_content(Content a, Content b);
void bench_start(Bench *bench, const Schedule *schedule);
Verdict bench_event(Bench *bench, const Event *event, u32 number, Reply *reply);
Verdict run_schedule(Bench *bench, const Schedule *schedule);
Content content_at(const History *line, u64 moment);
Verdict count_endings(const Bench *bench, u64 *count);
Verdict endings_of(const u8 *bytes, u64 length, Schedule *schedule, Bench *bench, u64 *count);
void ending_image(const Bench *bench, u64 k, Image *image);
Verdict write_ending(const u8 *bytes, u64 length, u64 k, u8 *buffer, u64 room);
extern Bench the_bench;

/* page.c, moments.c */
extern u64 planted;   /* 0, or the number of the input (from 1) whose result is to be falsified */
extern int plant_now; /* the input at hand is that one */
void print_refusal(Verdict v);
u32 print_page(const u8 *bytes, u64 length);
void print_endings(const u8 *bytes, u64 length);
static const u64 NO_SUM = 14695981039346656037u; /* FNV-1a, 64 bits, of no bytes */
u64 add_to_sum(u64 sum, const u8 *bytes, u64 length);
void put_sum(u64 sum);
void contents_from_bytes(const u8 *bytes, u64 length, Image *image);
void print_trace(const u8 *bytes, u64 length);
void print_trace_sums(const u8 *bytes, u64 length);
void print_soak(const u8 *bytes, u64 length);
void count_once(const u8 *bytes, u64 length);
int print_once(void);
void print_record_item(const u8 *bytes, u64 length);
int mode_recorded(int count, char **words);
void print_place_counts(const u8 *bytes, u64 length);
void print_saved(const u8 *bytes, u64 length);
void print_start(const u8 *bytes, u64 length);
void print_fresh(const u8 *bytes, u64 length);
void print_image(const u8 *bytes, u64 length);
void print_image_again(const u8 *bytes, u64 length);
void print_schedule(const u8 *bytes, u64 length);
void print_contents_item(const u8 *item, u64 length);
void print_verdict(Verdict v);

/* counts.c: how often each step, branch, answer and refusal was reached */
enum {
    AT_STEP = 0, /* + step number 1..25 */
    AT_REPLY = 32, /* + reply number 0..5 */
    AT_NUMBER = 38, /* + number given back 0..20 */
    AT_A6_NONE = AT_NUMBER + NUMBERS, AT_A6_SOME, AT_A8_LINKS, AT_A8_FAILS, AT_A11_MOVES, AT_A11_LEAVES, AT_A12_MOVES, AT_A12_LEAVES,
    AT_D2_NONE, AT_D2_SOME, AT_D4_MOVES, AT_D4_FAILS, AT_D7_HELD_ONE, AT_D7_HELD_NONE,
    AT_RETIRED_FREE, AT_RETIRED_WAITS, AT_ANSWER_FREES, AT_ANSWER_KEEPS_WAITING, AT_A1_REUSED,
    AT_A7_INDEX_TO_LARGEST, AT_WRITE_BACK_HEAD, AT_WRITE_BACK_NODE, AT_BEGIN_ENQUEUE, AT_BEGIN_DEQUEUE, AT_CRASH,
    AT_DUMMY_INDEX_CHANGES, AT_GAP, AT_STALE_LINKED, AT_EQUAL_CONTENT, AT_SIXTEEN, AT_MANY_CRASHES, AT_LONGEST,
    AT_NODES_2, AT_NODES_64, AT_THREADS_1, AT_THREADS_8, AT_ITEM_0, AT_ITEM_LARGEST, AT_EQUAL_IN_FLIGHT,
    AT_NARROW, AT_WIDE, AT_A7_PASSES_32, AT_A7_WIDE_TO_LARGEST, AT_WORN_NARROW, AT_WORN_WIDE, AT_HIGH_HALF_DECIDES, AT_LOW_HALVES_EQUAL,
    AT_DESKS, AT_LARGEST_NOT_FIRST,
    AT_TWO, AT_BOTH_QUEUES,
    AT_FENCE_MOVES, AT_FENCE_STAYS, AT_FENCE_BEHIND_FENCE, AT_FENCE_NOT_PRESENT,
    AT_A1_ROUND, AT_A1_LAST_AGAIN, AT_A1_NOT_LOWEST,
    POINTS
};
extern u64 reached[];
void reach(u32 point);
int print_counts(void);
void count_schedule(const Schedule *schedule);

/* plain.c, judge.c, places.c */
Finding plain_way(const u8 *bytes, u64 length);
void print_plainly(const u8 *bytes, u64 length);
Finding plainly_same(const u8 *bytes, u64 length);
Finding judge(const u8 *bytes, u64 length);
enum { IN_QUEUE, IS_FREE, IS_WAITING, IS_HELD, ENQUEUE_OWNS, DEQUEUE_OWNS, PLACES };
void count_places(const Machine *m, u32 *counts);
const char *misplaced(const Machine *m);
Finding places(const u8 *bytes, u64 length);

/* random.c, generate.c, damage.c, search.c, sequences.c */
void seed_random(u64 seed, u64 number);
u64 random_bits(void);
u32 below(u32 limit);
int chance(u32 percent);
u64 generate_valid(u8 *bytes, int small);
u64 generate_flushed(u8 *bytes);
u64 generate_input(u64 seed, u64 number, const char *shape, u8 *bytes);
u64 generate_damaged(u64 number, u8 *bytes);
u64 generate_refused(u64 number, u8 *bytes);
u64 generate_length(u64 seed, u64 number, u8 *bytes);
u64 generate_changed_byte(u64 seed, u64 number, u8 *bytes);
u64 generate_longer(u8 *bytes);
void generate_record_item(u64 seed, u64 number, u8 *item);
void generate_contents_item(u64 seed, u64 number, u8 *item);
void generate_wide_contents_item(u64 seed, u64 number, u8 *item);
u64 generate_image(u64 number, u8 *bytes);
u64 generate_conversion(u64 number, int with_room, u8 *bytes);
u32 some_form(void);
extern u32 wanted_form; /* 0, or the form that some_form gives */
void set_head_index(Image *image, u64 index);
u64 some_head_index(u32 form);
void some_image(Image *image);
u32 machine_of_name(const char *name);
int search(u32 machine, u64 seed, u64 tries);
int check_sequences(void);
int print_sequence(const char *name);
int print_sequence_names(void);

/* holds.c */
int mode_plain(int count, char **words);
int mode_judge(int count, char **words);
int mode_places(int count, char **words);
int mode_there_and_back(int count, char **words);
int mode_out_and_in(int count, char **words);
int mode_clean_or_same(int count, char **words);
int mode_same_when_fenced(int count, char **words);
int mode_by_times_and_sets(int count, char **words);
int mode_plainly_same(int count, char **words);
int mode_lists_hold(int count, char **words);
int mode_mend_two_ways(int count, char **words);
int mode_replay_by_parts(int count, char **words);
int mode_same_when_wide(int count, char **words);
int mode_histories(int count, char **words);

/* main.c, streams.c */
u64 number_from(const char *text);
int mode_frame(int count, char **words);
int mode_frames(int count, char **words);
int mode_cuts(int count, char **words);
int mode_values(int count, char **words);

/* judge.c: the histories that a run's endings are */
int run_for_histories(const u8 *bytes, u64 length, u64 *endings);
u64 history_of_ending(u64 k, u8 *to);

/* histories.c, drawn.c */
int mode_drawn(int count, char **words);
int mode_judged(int count, char **words);
Verdict judge_into(const u8 *bytes, u64 length, u8 *to, u64 room, u64 *value);
Finding hold_history(const u8 *bytes, u64 length);
u64 generate_search(u64 seed, u64 number, u8 *to);
u64 generate_history(u64 seed, u64 number, u8 *to);

/* words.c, texts.c */
int mode_words(int count, char **words);
int mode_unwords(int count, char **words);
int mode_words_many(int count, char **words);
int mode_unwords_many(int count, char **words);
int mode_pieces_many(int count, char **words);
u64 generate_text(u64 seed, u64 number, u8 *to);
u64 generate_piece(u64 seed, u64 number, u8 *to);

#endif

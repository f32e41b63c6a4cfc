/* The crash bench for UnlinkedQ, as a static library: link target/staticlib/liblibrary.a (`tools/build library`), an x86-64 archive.

   Images, schedules and machine records are bytes, as document 01 and docs/DECISIONS.md lay them out. Every call is a function of
   the bytes it is handed and nothing else: it keeps no state, calls nothing but memcpy and memset, always returns, and is proved to give what
   its definition in crates/calls/specs says, for every input. Calls may run on several threads at once.

   What a caller owes, since nothing here can test it: each pointer is not null (not even with a length of 0) and has that many
   bytes behind it, bytes that a call writes do not overlap those it reads, and no length is above 2^63 - 1. uq_count_endings,
   uq_ending, uq_line and uq_plain_page touch up to 251 KB of stack, uq_page_lines up to 299 KB, uq_despatch up to 433 KB, uq_judge up to 51 KB, the others up to 39 KB (measured by bench/stack, docs/TRUST.md).

   Every call returns number + 256 * value. Number 0: taken. Others: refused, as document 01's table and the requests after it have it, and then the value is the
   place and no lent byte is changed. uq_number, uq_value, uq_lines, uq_bytes, uq_reply, uq_item, uq_verdict, uq_tries
   and uq_order take a result apart. */
#ifndef UQ_H
#define UQ_H

/* A build without any system header, as with -nostdinc, has the four types from here. clang sees that by itself; for another
   compiler define UQ_OWN_TYPES. */
#if defined(__clang__) && !defined(UQ_OWN_TYPES)
#if !__has_include(<stdint.h>)
#define UQ_OWN_TYPES
#endif
#endif
#ifdef UQ_OWN_TYPES
typedef unsigned char uint8_t;
typedef unsigned int uint32_t;
typedef unsigned long uint64_t;
typedef unsigned long size_t;
#else
#include <stddef.h>
#include <stdint.h>
#endif

#ifdef __cplusplus
extern "C" {
#endif

/* Limits, and the lengths that follow from them. */
enum {
    UQ_MIN_NODES = 2,
    UQ_MAX_NODES = 64,
    UQ_MAX_THREADS = 8,
    UQ_MAX_EVENTS = 4096,
    UQ_MAX_ENDINGS = 65536,
    UQ_MAX_IMAGE = 846,      /* 14 + 13N; in version 1 10 + 9N, at most 586; of "UQP" 7 + 4T + 9N, at most 615 */
    UQ_MAX_SCHEDULE = 25430, /* 8, the image, and 6 for each event */
    UQ_MAX_LIST = 128,       /* of uq_mend: 2 for each node */
    UQ_MAX_CONTENTS = 208,   /* 16 contents of 13 */
    UQ_MAX_PLAIN = 65536,    /* of uq_plain_page: 972 images of 51 bytes, or 576 of 66, at most */
    UQ_RECORD = 2267,
    UQ_PLACES = 6,
    UQ_MAX_HISTORY = 859, /* 3 + 4 for each item, and 22 for each operation */
    UQ_MAX_ORDER = 16,
    UQ_MAX_PROBE = 50006, /* 8 + 14 + 13N, and 12 for each event */
    UQ_BOTH = 10,
    UQ_ENTRY = 8,          /* of uq_despatch */
    UQ_MAX_ENTRIES = 32768 /* 8 for each event */
};

/* In which group an entry of uq_despatch stands. */
enum { UQ_HANDED_OUT = 1, UQ_STILL_QUEUED = 2, UQ_TURNED_AWAY = 3, UQ_TAKEN_ALONE = 4, UQ_NEVER_IN = 5 };

/* What uq_judge says of a history. */
enum { UQ_UNLAWFUL = 0, UQ_LAWFUL = 1, UQ_UNDECIDED = 2 };

/* Numbers given back, as document 01's table has them. */
enum {
    UQ_TAKEN = 0,
    UQ_LENGTH = 1,     /* length wrong */
    UQ_MARK = 2,       /* mark or version wrong */
    UQ_NODES = 3,      /* N not 2 to 64 */
    UQ_THREADS = 4,    /* T not 1 to 8 */
    UQ_EVENTS = 5,     /* more than 4,096 events */
    UQ_LINKED = 6,     /* linked byte above 1 */
    UQ_TWIN = 7,       /* two recovered nodes with one index */
    UQ_NO_DUMMY = 8,   /* every node is recovered */
    UQ_KIND = 9,       /* unknown kind */
    UQ_NUMBER = 10,    /* thread or line number too large */
    UQ_BUSY = 11,      /* begin on a thread that has an operation */
    UQ_IDLE = 12,      /* step on a thread that has none */
    UQ_NOT_ZERO = 13,  /* a field that should be zero is not */
    UQ_CONTENTS = 14,  /* a line has more than 16 contents */
    UQ_ENDINGS = 15,   /* more than 65,536 endings */
    UQ_NO_ENDING = 16, /* no ending of that number */
    UQ_ROOM = 17,      /* lent buffer too short */
    UQ_RANGE = 18,     /* a machine record is outside its ranges */
    UQ_CLEAN = 19,     /* write-back of a line whose cached and persisted contents are equal */
    UQ_NARROW = 20     /* an index does not fit the image's version */
};

/* Kinds of events. */
enum { UQ_ENQUEUE = 1, UQ_DEQUEUE = 2, UQ_STEP = 3, UQ_WRITE_BACK = 4, UQ_CRASH = 5 };

/* What an operation answered with an event that was taken. */
enum { UQ_NO_REPLY = 0, UQ_DONE = 1, UQ_FULL = 2, UQ_WORN_OUT = 3, UQ_ITEM = 4, UQ_EMPTY = 5 };

/* Whether `image` is an image. Value 0 where it is taken.
   Nothing is written.
   A refusal has number 1, 2, 3, 4 (the T of "UQP"), 6, 7 or 8 and its place. */
uint64_t uq_check_image(const uint8_t *image, size_t length);

/* An image of version 1 as one of version 2, whose indices have 64 bits: the same contents. Value 0 where it is taken.
   It is written into the first 14 + 13N bytes of `buffer`; the bytes after them stay.
   A refusal has number 1, 2 (of version 2 too), 3, 6, 7, 8 or 17 and its place, and writes nothing. */
uint64_t uq_widen(const uint8_t *image, size_t length, uint8_t *buffer, size_t room);

/* An image of version 2 as one of version 1. Value 0 where it is taken. There and back, either way, gives the same bytes.
   It is written into the first 10 + 9N bytes of `buffer`; the bytes after them stay.
   A refusal has number 1, 2 (of version 1 too), 3, 6, 7, 8, 20 where an index is above 4,294,967,295, or 17, and its place: of 20 the first such node,
   recovered or not, and N for the head, which is tested first. It writes nothing. */
uint64_t uq_narrow(const uint8_t *image, size_t length, uint8_t *buffer, size_t room);

/* An image of mark "UQP", one head index per desk, as one of version 1, its head the largest of them. Value 0 where it is taken.
   It is written into the first 10 + 9N bytes of `buffer`; the bytes after them stay.
   A refusal has number 1 (fewer than 7 bytes), 2 (of another mark or version), 3, 4 for its T, 1, 6, 7, 8 or 17, in this order, and its place, and writes
   nothing. */
uint64_t uq_import(const uint8_t *image, size_t length, uint8_t *buffer, size_t room);

/* An image of version 1 as one of mark "UQP" for `threads` desks, its head written for each. Value 0 where it is taken. Exported and then imported it is the
   same bytes again.
   It is written into the first 7 + 4 * threads + 9N bytes of `buffer`; the bytes after them stay.
   A refusal has number 1, 2 (of version 2 and of "UQP" too), 3, 6, 7, 8, then 4 where `threads` is not 1 to 8, then 17, and its place, and writes nothing. */
uint64_t uq_export(const uint8_t *image, size_t length, uint8_t threads, uint8_t *buffer, size_t room);

/* The image, mended: linked bytes above 1 become 0; then of recovered nodes with one index all but the lowest-numbered have linked cleared; then, if every
   node is recovered, the one with the largest index has. Where it is taken the value is how many nodes were changed, at most N.
   The mended image, as long as `image`, is written into the front of `buffer`; into the front of `list` two bytes for each changed node, in node order: its
   number and the reason, UQ_LINKED, UQ_TWIN or UQ_NO_DUMMY. The bytes after them stay. The mended image is accepted; of an accepted one the value is 0.
   A refusal has number 1, 2 or 3, or 17 where either buffer is too short, with place 0, and writes nothing. UQ_MAX_LIST bytes are always enough for the list. */
uint64_t uq_mend(const uint8_t *image, size_t length, uint8_t *buffer, size_t room, uint8_t *list, size_t list_room);

/* Whether `schedule` is a schedule, looked at up to its events: those are tested by a run. Value 0 where it is taken.
   Nothing is written.
   A refusal has number 1 to 8 and its place. */
uint64_t uq_check_schedule(const uint8_t *schedule, size_t length);

/* How many endings the schedule has: the value, 1 to 65,536.
   Nothing is written.
   A refusal has number 1 to 15 or 19 and its place. */
uint64_t uq_count_endings(const uint8_t *schedule, size_t length);

/* Ending k of the schedule. Value 0 where it is taken.
   Its image, in the form of the schedule's and as long, is written into the front of `buffer`; the bytes after it stay.
   A refusal has number 1 to 17 or 19 and its place, and writes nothing. */
uint64_t uq_ending(const uint8_t *schedule, size_t length, uint64_t k, uint8_t *buffer, size_t room);

/* The same endings the plain way: for each line nothing or one write-back moment since the last start is picked, the schedule run with just those added, every pick
   in turn, and the image left noted, repeats after the first dropped. The value is how many images there are: as many as uq_count_endings gives.
   They are written one after the other, as uq_ending writes them and in its order, into the front of `buffer`; the bytes after them stay. UQ_MAX_PLAIN bytes are
   always enough. With 12 events and 6 lines there are 14^6 runs, which take a minute.
   A refusal has number 1 to 15 or 19 and its place, 15 with place 0 also for more than 12 events, 4 nodes or 6 lines, 17 where the images do not all fit, and writes nothing. */
uint64_t uq_plain_page(const uint8_t *schedule, size_t length, uint8_t *buffer, size_t room);

/* What a crash may leave in one line: line 0 is Head's, line i + 1 that of node i; of "UQP" line k is desk k's, line T + i that of node i. The value is how
   many contents it has, 1 to 16.
   They are written one after the other, the oldest first, into the front of `buffer`, with indices of 64 bits in every form: of Head's or a desk's
   line the index (8 bytes), of a node's line linked (1), index (8), item (4); the bytes after them stay. UQ_MAX_CONTENTS bytes are room for every line.
   A refusal has number 1 to 15 or 19 and its place, 10 with place 0 where there is no such line, 17 where they do not all fit, and writes nothing. */
uint64_t uq_line(const uint8_t *schedule, size_t length, uint32_t line, uint8_t *buffer, size_t room);

/* Lines of the schedule's printed page: line 0 is its first line, line k + 1 that of ending k, each with its line end.
   As many whole lines as fit, from line k on, are written into the front of `buffer`, uq_lines of them, uq_bytes in all; the rest stays.
   A refusal has number 1 to 15 or 19 and its place, 16 where there is no line k, 17 where line k alone does not fit, and writes nothing. */
uint64_t uq_page_lines(const uint8_t *schedule, size_t length, uint64_t k, uint8_t *buffer, size_t room);

/* The line that the program prints for a refusal, `refused NUMBER at PLACE` with its line end; it has at most 33 bytes.
   It is written into the front of `buffer`, uq_bytes of it; the bytes after them stay.
   A refusal has number 17 and writes nothing. */
uint64_t uq_refusal_line(uint32_t number, uint32_t place, uint8_t *buffer, size_t room);

/* The machine at the start of an image with `threads` threads. Value 0 where it is taken.
   The record is written into the first 2,267 bytes of `record`; the bytes after them stay.
   A refusal has number 4, then those of the image, then 17, and writes nothing. */
uint64_t uq_start(const uint8_t *image, size_t length, uint8_t threads, uint8_t *record, size_t room);

/* One event on a record of exactly 2,267 bytes. The value where it is taken: uq_reply says what an operation answered, uq_item which item.
   The record is changed in place: this is the call for a rig that keeps its own record, one event at a time, and it needs no other memory.
   A refusal has number 1, 18, 9, 10, 13, 11, 12, 19, and of a crash 7 or 8, with place 0 (of 7: the node); the record stays. */
uint64_t uq_event(uint8_t *record, size_t length, uint8_t kind, uint8_t number, uint32_t item);

/* What a crash would leave of a record: its persisted copies. Value 0 where it is taken.
   They are written as an image, in the form of the image that the record started from and as long, into the front of `buffer`; the bytes after them
   stay.
   A refusal has number 1, 18, 7, 8 or 17 and its place, and writes nothing. */
uint64_t uq_save(const uint8_t *record, size_t length, uint8_t *buffer, size_t room);

/* How many of a record's nodes are in each place. Value 0 where it is taken.
   The first 6 bytes of `buffer` get: queue with its dummy, free, waiting, held, owned by an enqueue, owned by a dequeue; the rest stays.
   A refusal has number 1, 18 or 17 and place 0, and writes nothing. */
uint64_t uq_places(const uint8_t *record, size_t length, uint8_t *buffer, size_t room);

/* The verdict on a history: how many operations n (at most 16), items at the start and recovered items (at most 63 each) there are, a byte each; the
   items, 4 bytes each; then 22 bytes an operation: kind (UQ_ENQUEUE, UQ_DEQUEUE), begin time (8), answer time (8), answer (UQ_NO_REPLY to UQ_EMPTY), item (4).
   The value where it is taken: uq_verdict, uq_tries, and uq_order, which is how many numbers the order has that shows it lawful.
   They are written into the first uq_order bytes of `order`; the bytes after them stay.
   A refusal has number 1 with place 0, 9 or 13 with the operation's number, or 17 where `room` is below n, and writes nothing. */
uint64_t uq_judge(const uint8_t *history, size_t length, uint8_t *order, size_t room);

/* A probe file replayed: as a schedule with mark "UQR" and 12 bytes an event, which are its 6, the observed answer (UQ_NO_REPLY to UQ_EMPTY), the item
   (4, zero unless the answer is UQ_ITEM) and a zero byte. The value where it is taken: 0 where all agree, else one more than the number of the first
   event whose observed answer differs from the machine's.
   Then the first 10 bytes of `buffer` get: observed answer, its item (4), the machine's answer, its item (4); the bytes after them stay. Nothing is written where all agree.
   A refusal has number 1 to 13 or 19 and its place, or 17 where `room` is below 10, and writes nothing. */
uint64_t uq_replay(const uint8_t *file, size_t length, uint8_t *buffer, size_t room);

/* The despatch desk's list (request 114): what became of each enqueue begun since the schedule's last start, at ending k, into the buffer's first bytes;
   the bytes after them stay. UQ_ENTRY bytes an entry, in begin order: the number of the begin event (2, little-endian), the thread, the group
   (UQ_HANDED_OUT to UQ_NEVER_IN), the item (4). The value is the number of entries. Refused as the page is, then 16, then 17. */
uint64_t uq_despatch(const uint8_t *schedule, size_t length, uint64_t k, uint8_t *buffer, size_t room);

/* The number: 0 where the call was taken. */
static inline uint32_t uq_number(uint64_t result) { return (uint32_t)(result % 256); }

/* The place of a refusal, or the count that uq_count_endings, uq_plain_page, uq_line or uq_mend gives. */
static inline uint64_t uq_value(uint64_t result) { return result / 256; }

/* Of an event that was taken: what an operation answered, UQ_NO_REPLY where none did. */
static inline uint32_t uq_reply(uint64_t result) { return (uint32_t)(result / 256 / 4294967296u); }

/* Of a call that writes text: how many lines, and how many bytes they have. */
static inline uint32_t uq_lines(uint64_t result) { return (uint32_t)(result / 256 % 16777216); }
static inline uint64_t uq_bytes(uint64_t result) { return result / 4294967296u; }

/* Of uq_judge: the verdict, how many operations were tried, and how many numbers the order has. */
static inline uint32_t uq_verdict(uint64_t result) { return (uint32_t)(result / 256 / 16777216 % 256); }
static inline uint32_t uq_tries(uint64_t result) { return (uint32_t)(result / 256 % 16777216); }
static inline uint32_t uq_order(uint64_t result) { return (uint32_t)(result / 256 / 4294967296u); }

/* Of an event whose reply is UQ_ITEM: the item. */
static inline uint32_t uq_item(uint64_t result) { return (uint32_t)(result / 256 % 4294967296u); }

#ifdef __cplusplus
}
#endif

#endif

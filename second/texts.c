/* Texts to be read as schedules in words: well-formed ones with odd spacing and remarks, numbers at every limit, and damaged ones. */
#include "second.h"

static u8 *out_at;
static u32 version_said; /* by the text at hand, so that its indices can be as large as they may be; DESKS where it said `desks` */

static void add_byte(u32 byte)
{
    *out_at++ = (u8)byte;
}

static void add_word(const char *word)
{
    while (*word)
        add_byte((u8)*word++);
}

static void add_blanks(void)
{
    static const u8 blanks[] = {' ', ' ', ' ', ' ', '\t', '\r'};
    do
        add_byte(chance(80) ? ' ' : blanks[below(sizeof blanks)]);
    while (chance(15));
}

static void add_digits(u64 number)
{
    u8 digits[20];
    u32 i = 20;
    if (chance(4))
        add_word(chance(50) ? "0" : "000000000000000000000000");
    do
        digits[--i] = (u8)('0' + number % 10);
    while ((number /= 10) > 0);
    while (i < 20)
        add_byte(digits[i++]);
}

/* A number of more than 64 bits. */
static void add_long_number(void)
{
    static const char *const long_ones[] = {"18446744073709551616", "18446744073709551620", "184467440737095516150", "99999999999999999999999999"};
    add_word(long_ones[below(4)]);
}

/* Mostly a number below the limit; sometimes one at the edge of a field, or beyond all of them. */
static void add_some_number(u32 limit, u32 strange)
{
    static const u64 edges[] = {0, 254, 255, 256, 65535, 65536, 4294967294u, 4294967295u, 4294967296u, 18446744073709551614u, 18446744073709551615u};
    if (!chance(strange))
        add_digits(below(limit));
    else if (chance(90))
        add_digits(edges[below(sizeof edges / sizeof edges[0])]);
    else
        add_long_number();
}

/* An index: near the largest of the version that was said, on either side of 32 bits in version 2, or anywhere below; else as any number. Now and then one
   that is just too large for the version. */
static void add_index(u32 limit, u32 strange)
{
    u64 largest = largest_index(version_said);
    if (chance(1 + strange / 4) && version_said == WIDE)
        add_long_number();
    else if (chance(1 + strange / 4))
        add_digits(chance(70) ? 4294967296u : random_bits());
    else if (chance(strange) || chance(40))
        add_some_number(limit, strange);
    else if (chance(40))
        add_digits(largest - below(4));
    else if (version_said == WIDE && chance(40))
        add_digits(4294967296u - 3 + below(6));
    else
        add_digits(largest >> below(version_said == WIDE ? 64 : 32));
}

static void add_pattern(const char *pattern, u32 limit, u32 strange)
{
    for (; *pattern; pattern++) {
        if (*pattern == ' ')
            add_blanks();
        else if (*pattern == '%')
            add_some_number(limit, strange);
        else if (*pattern == '^')
            add_index(limit, strange);
        else
            add_byte((u8)*pattern);
    }
}

static void add_damage(void)
{
    static const char *const wrong[] = {
        "nodes", "nodes 2", "node 0 1 2", "Crash", "crash 1", "0 steps", "0 enqueue", "0 dequeue 1", "write back 1", "write-back", "-1 step",
        "0 step -1", "event 1 2", "event 1 2 3 4", "0x1 step", "step 0", "1 2 3 4 5 6", "a b c d e f g", "write-backs 1", "0", "~", "0 step9",
        "abcdefghijk", "threads", "head a", "enqueue 0 1", "version", "version 1 2", "version two", "version -1", "versions 2", "Version 2", "2 version", "version2",
        "desks", "desks 1 2", "desk 2", "2 desks", "head 0 1 2", "head 0 a", "head a 0", "heads 0 1",
    };
    if (chance(80))
        add_word(wrong[below(sizeof wrong / sizeof wrong[0])]);
    else
        for (u32 n = 1 + below(6); n > 0; n--) {
            u32 byte = below(256);
            add_byte(byte == '\n' ? '.' : byte);
        }
}

static void end_line(void)
{
    if (chance(10))
        add_blanks();
    if (chance(8))
        add_word(chance(50) ? "# nodes 9" : "#\xc3\xa9#");
    add_byte('\n');
}

enum { INDICES = 2 }; /* the first lines of the list are those with an index */

static void add_line(u32 nodes, u32 strange, u32 from)
{
    /* A text that said `desks` names the desk of a head index; seldom the other way round. */
    const char *head = (version_said == DESKS) != chance(2) ? "head % ^" : "head ^", *threads = version_said == DESKS && !chance(3) ? "% step" : "threads %";
    const char *const lines[] = {
        head, "node % % ^ %", threads, "% enqueue %", "% dequeue", "% step", "% step %", "% step %", "write-back %", "crash", "event % % %",
    };
    if (chance(8))
        add_blanks();
    if (chance(90))
        add_pattern(lines[from + below(sizeof lines / sizeof lines[0] - from)], nodes ? nodes : 1, strange);
    end_line();
}

/* T at once with the form. */
static void add_desks(u32 strange)
{
    version_said = DESKS;
    add_pattern("desks %", 9, strange);
    end_line();
}

/* Mostly 2 or 1; else a version that there is not, or a number of more than 64 bits. */
static void add_version(u32 strange)
{
    u32 version = chance(70) ? WIDE : NARROW;
    add_word("version");
    add_blanks();
    if (!chance(strange)) {
        version_said = version;
        add_digits(version);
    } else if (chance(40)) {
        add_digits(chance(50) ? 3 : 0);
    } else if (chance(50)) {
        add_some_number(5, 70);
    } else {
        add_long_number();
    }
    end_line();
}

/* Lines in front of `nodes`, where none may stand. */
static void add_too_early(void)
{
    if (chance(40)) {
        add_version(40);
    } else if (chance(15)) {
        add_desks(20);
    } else if (chance(50)) {
        add_pattern(chance(40) ? "head ^" : chance(40) ? "head % ^" : "node % % ^ %", 3, 60);
        end_line();
    } else {
        add_line(3, 40, 0);
    }
    version_said = NARROW;
}

/* The line of the version or of the desks, at once or behind lines without an index. */
static void add_version_in_time(u32 nodes, u32 strange)
{
    for (u32 n = chance(60) ? 0 : below(6); n > 0; n--)
        add_line(nodes, strange, INDICES);
    if (chance(40))
        add_desks(6);
    else
        add_version(6);
}

u64 generate_text(u64 seed, u64 number, u8 *to)
{
    seed_random(seed, number);
    out_at = to;
    version_said = NARROW;
    u32 nodes = chance(90) ? 2 + below(6) : below(256), strange = chance(50) ? 0 : chance(80) ? 1 : 8, damaged = chance(75) ? 0 : 4;
    u32 again = chance(85) ? 0 : 10; /* for `version` or `desks` a second time, or behind an index */
    while (chance(15))
        end_line();
    if (chance(4))
        add_too_early();
    if (!chance(2)) {
        add_word("nodes");
        add_blanks();
        if (chance(95))
            add_digits(nodes);
        else
            add_some_number(300, 50);
        end_line();
    }
    if (chance(60))
        add_version_in_time(nodes, strange);
    for (u32 n = chance(95) ? below(30) : below(400); n > 0; n--) {
        if (chance(damaged)) {
            add_damage();
            end_line();
        } else if (chance(again)) {
            if (chance(30))
                add_desks(20);
            else
                add_version(30);
        } else {
            add_line(nodes, strange, 0);
        }
    }
    if (chance(20) && out_at > to)
        out_at--;
    if (chance(3))
        out_at = to + below((u32)(out_at - to) + 1);
    return (u64)(out_at - to);
}

/* An entry's number and a room (2 bytes each), then a schedule. */
u64 generate_piece(u64 seed, u64 number, u8 *to)
{
    static const char *const shapes[] = {"tiny", "small", "deep", "valid", "mixed", "damaged"};
    u64 length = generate_input(seed, number, shapes[number % 6], to + 4);
    u32 k = chance(30) ? 0 : chance(80) ? below(40) : below(5000), room = chance(50) ? below(64) : chance(80) ? below(600) : below(9000);
    put2(to, k);
    put2(to + 2, room);
    return length + 4;
}

/* Raw bytes through the static library, beside the second program's functions, in one process. */
#ifndef FUZZ_H
#define FUZZ_H
#include "../include/uq.h"
#include "../second/second.h"

enum { LONGEST = 70000 };

/* inputs.c: input `number` of a run; gives its length, at most LONGEST. The random numbers go on from there. */
u64 some_input(u64 seed, u64 number, u8 *bytes);
u64 some_history(u64 seed, u64 number, u8 *bytes);
void spoil(u8 *bytes, u64 *length, u64 room);

/* calls.c: each answers 1 where the library and the second program agree, and 0 and says what differs where they do not. */
int agree_on_bytes(const u8 *bytes, u64 length);
int agree_on_ending(const u8 *bytes, u64 length);
int agree_on_line(const u8 *bytes, u64 length);
int agree_on_lines(const u8 *bytes, u64 length);
int agree_on_plain(const u8 *bytes, u64 length);
int agree_on_record(u64 seed, u64 number);
int agree_on_start(const u8 *bytes, u64 length);
int agree_on_history(u64 seed, u64 number);
int agree_on_conversions(const u8 *bytes, u64 length, u64 number);
int agree_on_desks(const u8 *bytes, u64 length, u64 number);

/* mended.c: 1 where the mender did on some damaged image what request 105 says, and 0 and says what is wrong where it did not. */
int agree_on_mended(void);
extern u64 numbers_seen[NUMBERS];

/* probes.c: the probe file of a schedule that is taken, some of its answers changed */
int agree_on_probe(const u8 *bytes, u64 length);
extern u64 probe_numbers_seen[NUMBERS], probes_differing;

/* lists.c: the despatch desk's list of a schedule at some ending */
int agree_on_list(const u8 *bytes, u64 length);
extern u64 list_numbers_seen[NUMBERS], groups_seen[6];

/* of the histories alone: how often each number was given back, and each verdict (0 unlawful, 1 lawful, 2 undecided) */
enum { VERDICTS = 3 };
extern u64 history_numbers_seen[NUMBERS], verdicts_seen[VERDICTS];

#endif

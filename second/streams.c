/* Streams made of one input or of bare items. */
#include "second.h"

static void put_framed(const u8 *bytes, u64 length)
{
    u8 head[4];
    put4(head, (u32)length);
    put_bytes(head, 4);
    put_bytes(bytes, length);
}

static u64 one_input(void)
{
    u64 length = read_all();
    if (length > INPUT_KEPT)
        stop("too long");
    return length;
}

/* One input behind its length: a stream of one. */
int mode_frame(int count, char **words)
{
    (void)count, (void)words;
    put_framed(input, one_input());
    return 0;
}

/* Bare items of one length, each behind its length. */
int mode_frames(int count, char **words)
{
    u64 length = count == 1 ? number_from(words[0]) : 0;
    if (length < 1 || length > INPUT_KEPT)
        stop("use: frames LENGTH");
    while (read_exactly(input, length))
        put_framed(input, length);
    return 0;
}

/* The input's first FROM to TO bytes, each length once; zeros behind where it is shorter. */
int mode_cuts(int count, char **words)
{
    if (count != 2 || number_from(words[1]) > INPUT_KEPT)
        stop("use: cuts FROM TO");
    u64 to = number_from(words[1]);
    for (u64 i = one_input(); i < to; i++)
        input[i] = 0;
    for (u64 length = number_from(words[0]); length <= to; length++)
        put_framed(input, length);
    return 0;
}

/* The input with its byte AT given each of the 256 values. */
int mode_values(int count, char **words)
{
    u64 at = count == 1 ? number_from(words[0]) : INPUT_KEPT;
    u64 length = one_input();
    if (at >= length)
        stop("use: values AT, AT below the input's length");
    for (u32 value = 0; value < 256; value++) {
        input[at] = (u8)value;
        put_framed(input, length);
    }
    return 0;
}

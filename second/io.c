/* Input, output and little-endian numbers. */
#include "second.h"

long read(int file, void *to, unsigned long length);
long write(int file, const void *from, unsigned long length);
void exit(int status) __attribute__((noreturn));

/* Only the first INPUT_KEPT bytes of an input are kept; its length counts every byte.
   No schedule is that long, so the bytes beyond can only matter through the length. */
u8 input[INPUT_KEPT];

static u8 in_buffer[65536];
static u64 in_used, in_full;
static u8 out_buffer[65536];
static u64 out_full;

/* While a capture is on, output goes there and not to standard output. */
static u8 *capture;
static u64 capture_room, capture_full;

static int next_byte(u8 *byte)
{
    if (in_used == in_full) {
        long got = read(0, in_buffer, sizeof in_buffer);
        if (got <= 0)
            return 0;
        in_used = 0;
        in_full = (u64)got;
    }
    *byte = in_buffer[in_used++];
    return 1;
}

u64 read_all(void)
{
    u64 length = 0;
    u8 byte;
    while (next_byte(&byte)) {
        if (length < INPUT_KEPT)
            input[length] = byte;
        length++;
    }
    return length;
}

int read_exactly(u8 *to, u64 length)
{
    for (u64 i = 0; i < length; i++)
        if (!next_byte(&to[i])) {
            if (i > 0)
                stop("the stream ends within an item");
            return 0;
        }
    return 1;
}

/* The next input of a stream: its length in 4 bytes, then its bytes. Gives 0 at the end of the stream. */
int read_next(u64 *length)
{
    u8 head[4], byte;
    if (!read_exactly(head, 4))
        return 0;
    *length = get4(head);
    for (u64 i = 0; i < *length; i++) {
        if (!next_byte(&byte))
            stop("the stream ends within an input");
        if (i < INPUT_KEPT)
            input[i] = byte;
    }
    return 1;
}

void flush_output(void)
{
    u64 done = 0;
    while (done < out_full) {
        long put = write(1, out_buffer + done, out_full - done);
        if (put <= 0)
            exit(2);
        done += (u64)put;
    }
    out_full = 0;
}

void put_bytes(const u8 *bytes, u64 length)
{
    if (capture) {
        for (u64 i = 0; i < length && capture_full < capture_room; i++)
            capture[capture_full++] = bytes[i];
        return;
    }
    for (u64 i = 0; i < length; i++) {
        if (out_full == sizeof out_buffer)
            flush_output();
        out_buffer[out_full++] = bytes[i];
    }
}

void put_text(const char *text)
{
    u64 length = 0;
    while (text[length])
        length++;
    put_bytes((const u8 *)text, length);
}

void put_number(u64 number)
{
    u8 digits[20];
    u32 at = 20;
    do {
        digits[--at] = (u8)('0' + number % 10);
        number /= 10;
    } while (number > 0);
    put_bytes(digits + at, 20 - at);
}

void put_hex(const u8 *bytes, u64 length)
{
    static const char digits[] = "0123456789abcdef";
    for (u64 i = 0; i < length; i++) {
        u8 pair[2] = {(u8)digits[bytes[i] >> 4], (u8)digits[bytes[i] & 15]};
        put_bytes(pair, 2);
    }
}

void stop(const char *why)
{
    put_text("stopped: ");
    put_text(why);
    put_text("\n");
    flush_output();
    exit(2);
}

u32 get2(const u8 *from)
{
    return (u32)from[0] | (u32)from[1] << 8;
}

u32 get4(const u8 *from)
{
    return get2(from) | get2(from + 2) << 16;
}

void put2(u8 *to, u32 value)
{
    to[0] = (u8)value;
    to[1] = (u8)(value >> 8);
}

void put4(u8 *to, u32 value)
{
    put2(to, value);
    put2(to + 2, value >> 16);
}

u64 get8(const u8 *from)
{
    return (u64)get4(from) | (u64)get4(from + 4) << 32;
}

void put8(u8 *to, u64 value)
{
    put4(to, (u32)value);
    put4(to + 4, (u32)(value >> 32));
}

int same_text(const char *a, const char *b)
{
    while (*a && *a == *b) {
        a++;
        b++;
    }
    return *a == *b;
}

void capture_output(u8 *to, u64 room)
{
    capture = to;
    capture_room = room;
    capture_full = 0;
}

u64 end_capture(void)
{
    capture = 0;
    return capture_full;
}

/* Makes the library's calls for the second program (tests/second), which speaks to it through a pipe:
 * the archive holds x86-64 code and may have to run under an emulator, while the second program is
 * plain and slow and should not. The form of requests and answers stands in tests/second/driver.rs.
 *
 * With -DFAULTS it spoils answers, for tests/faults. */

#include "../include/cornetariel.h"

#include <stdlib.h>
#include <string.h>
#include <unistd.h>

enum { END_OF_BATCH, ORIENT, FIRST, NEXT, DRAW, READ, WRITE, CALLS };

/* The bytes that one number of each lent buffer takes. */
static const int widths[CALLS][6] = {
    [ORIENT] = {2, 1, 2}, [FIRST] = {2, 1, 2, 1}, [NEXT] = {2, 1}, [DRAW] = {2, 1, 2, 2, 2}, [READ] = {1, 2}, [WRITE] = {2, 1},
};

/* Exit statuses, for a reader of the log: the pipe broke, or the asker wants what this driver hasn't. */
enum { BROKEN_PIPE = 3, NO_SUCH_CALL = 4, NO_ROOM = 5 };

/* A batch that takes longer than this many seconds ends the driver; the asker then finds the call. */
#define PATIENCE 300

/* The lent buffers stand here with a fence before and after each. A write past either end of a buffer
 * falls on a fence and is seen. */
#define FENCE 64
#define FENCE_BYTE 0xa5
static unsigned char room[1 << 22];

static unsigned char input[1 << 20], output[1 << 20];
static size_t input_at, input_end, output_end;

static void flush(void) {
    size_t done = 0;
    while (done < output_end) {
        ssize_t wrote = write(1, output + done, output_end - done);
        if (wrote <= 0)
            _exit(BROKEN_PIPE);
        done += (size_t)wrote;
    }
    output_end = 0;
}

static void put(const void *bytes, size_t count) {
    const unsigned char *from = bytes;
    while (count > 0) {
        size_t part = sizeof output - output_end;
        if (part > count)
            part = count;
        memcpy(output + output_end, from, part);
        output_end += part;
        from += part;
        count -= part;
        if (output_end == sizeof output)
            flush();
    }
}

/* Ends the program where the asker has closed the pipe: between two requests that is how a run ends. */
static void take(void *bytes, size_t count, int between_requests) {
    unsigned char *to = bytes;
    while (count > 0) {
        if (input_at == input_end) {
            ssize_t had = read(0, input, sizeof input);
            if (had <= 0)
                _exit(between_requests ? 0 : BROKEN_PIPE);
            input_at = 0;
            input_end = (size_t)had;
        }
        size_t part = input_end - input_at;
        if (part > count)
            part = count;
        memcpy(to, input + input_at, part);
        input_at += part;
        to += part;
        count -= part;
    }
}

struct buffer {
    unsigned char *start;
    size_t length, bytes;
};

static uint64_t make(int call, uint64_t vertices, const struct buffer *lent) {
#define NARROW(n) (uint8_t *)lent[n].start, lent[n].length
#define WIDE(n) (uint16_t *)(void *)lent[n].start, lent[n].length
    switch (call) {
    case ORIENT: return cornetariel_orient(vertices, WIDE(0), NARROW(1), WIDE(2));
    case FIRST: return cornetariel_first(vertices, WIDE(0), NARROW(1), WIDE(2), NARROW(3));
    case NEXT: return cornetariel_next(vertices, WIDE(0), NARROW(1));
    case DRAW: return cornetariel_draw(vertices, WIDE(0), NARROW(1), WIDE(2), WIDE(3), WIDE(4));
    case READ: return cornetariel_read(NARROW(0), WIDE(1));
    case WRITE: return cornetariel_write(vertices, WIDE(0), NARROW(1));
    }
    _exit(NO_SUCH_CALL);
}

#ifdef FAULTS
#include "faults.h"
#else
#define make_or_spoil make
#endif

static void fence(unsigned char *at) { memset(at, FENCE_BYTE, FENCE); }

static int stands(const unsigned char *at) {
    for (int place = 0; place < FENCE; place++)
        if (at[place] != FENCE_BYTE)
            return 0;
    return 1;
}

static void answer(int call) {
    struct buffer lent[6];
    uint64_t vertices;
    size_t at = 0;
    int buffers = 0;
    take(&vertices, 8, 0);
    for (; buffers < 6 && widths[call][buffers]; buffers++) {
        uint32_t length;
        take(&length, 4, 0);
        struct buffer *own = &lent[buffers];
        own->length = length;
        own->bytes = (size_t)length * (size_t)widths[call][buffers];
        if (own->bytes + at + 4 * FENCE > sizeof room)
            _exit(NO_ROOM);
        fence(room + at);
        own->start = room + at + FENCE;
        take(own->start, own->bytes, 0);
        fence(own->start + own->bytes);
        /* every buffer starts at a multiple of the fence, so wide numbers lie where they may */
        at += (own->bytes / FENCE + 3) * FENCE;
    }
    uint64_t returned = make_or_spoil(call, vertices, lent);
    /* taken apart as any caller would, so that the header's own words are tried too */
    uint32_t parts[3] = {cornetariel_number(returned), (uint32_t)cornetariel_count(returned),
                         (uint32_t)cornetariel_second(returned)};
    unsigned char kept = 1;
    for (int n = 0; n < buffers; n++)
        if (!stands(lent[n].start - FENCE) || !stands(lent[n].start + lent[n].bytes))
            kept = 0;
    put(parts, sizeof parts);
    put(&kept, 1);
    for (int n = 0; n < buffers; n++)
        put(lent[n].start, lent[n].bytes);
}

int main(int words, char **word) {
    int in_batch = 0;
#ifdef FAULTS
    choose_fault(words, word);
#else
    (void)words, (void)word;
#endif
    for (;;) {
        unsigned char call;
        take(&call, 1, 1);
        if (call >= CALLS)
            _exit(NO_SUCH_CALL);
        if (call == END_OF_BATCH) {
            flush();
            alarm(0);
            in_batch = 0;
            continue;
        }
        if (!in_batch)
            alarm(PATIENCE);
        in_batch = 1;
        answer(call);
    }
}

/*
 * The far end of the pipe: has the static library in it and answers calls that come on standard
 * input, so that a test program of another processor can call it. Words on the pipe are 32 bits,
 * little-endian, as x86-64 has them.
 *
 * A call comes as a head of HEAD words and then the bytes of each lent room. Its answer goes as
 * HEAD words and then the bytes of each room as the call left them. A room stands between guard
 * bytes; where the head asks for an end, the room touches a page there that nobody may read, and
 * a room lent for reading only cannot be written.
 */
#include <signal.h>
#include <stddef.h>
#include <stdint.h>
#include <stdio.h>
#include <stdlib.h>
#include <string.h>
#include <sys/mman.h>
#include <unistd.h>

#include "filterbox.h"

/* The calls' numbers; tests/src/pipe.rs has the same. The last two are no calls of the library.
   NOTHING is classifying that answers at once: what a call takes beside the library. OVERRUN writes
   beside its room, or reads there, to see that this is found. */
enum {
    SCRATCH_WORDS = 1,
    BUILD = 2,
    CLASSIFY = 3,
    SCAN = 4,
    LAMP = 5,
    JUDGE = 6,
    CLEAR = 7,
    FIELD = 8,
    NOTHING = 254,
    OVERRUN = 255
};

/* Where the rooms of a call lie. */
enum { MIDDLE = 0, FRONT = 1, BACK = 2 };

enum { NUMBERS = 5, ROOMS = 6, HEAD = 16, GUARD = 64 };

/* Pages are at most 64 KiB on any processor that emulates this one. */
#define PAGE ((size_t)65536)
/* The largest room that a call can be lent, in address space alone. */
#define MOST ((size_t)64 << 20)

typedef struct Head {
    uint32_t call;
    uint32_t place;
    uint32_t shown; /* bit i: room i is lent for reading only */
    uint32_t rooms;
    uint32_t numbers[NUMBERS];
    uint32_t bytes[ROOMS];
    uint32_t unused;
} Head;

typedef struct Reply {
    uint32_t touched; /* the number of a room whose guard bytes changed, counted from 1; else 0 */
    uint32_t words[HEAD - 1];
} Reply;

typedef char head_is_sixteen_words[sizeof(Head) == HEAD * 4 ? 1 : -1];
typedef char reply_is_sixteen_words[sizeof(Reply) == HEAD * 4 ? 1 : -1];

static Head head;
static Reply reply;
static unsigned char *pages[ROOMS]; /* MOST bytes each, a forbidden page before and behind */
static unsigned char *room[ROOMS];

static void stop(const char *why) {
    fprintf(stderr, "the far end of the pipe: %s\n", why);
    exit(2);
}

/* A call left its room: this ends at once, without a dump, in the same way under every emulator. */
static void left_its_room(int signal) {
    (void)signal;
    _exit(3);
}

/* Reads exactly so many bytes; false where the input ends before the first. */
static int get(void *to, size_t bytes) {
    for (size_t done = 0; done < bytes;) {
        long some = read(0, (char *)to + done, bytes - done);
        if (some == 0 && done == 0)
            return 0;
        if (some <= 0)
            stop("the input ends inside a call");
        done += (size_t)some;
    }
    return 1;
}

static void put(const void *from, size_t bytes) {
    for (size_t done = 0; done < bytes;) {
        long some = write(1, (const char *)from + done, bytes - done);
        if (some <= 0)
            stop("nobody takes the answer");
        done += (size_t)some;
    }
}

static void prepare(void) {
    for (int i = 0; i < ROOMS; i++) {
        unsigned char *all = mmap(NULL, MOST + 2 * PAGE, PROT_NONE,
                                  MAP_PRIVATE | MAP_ANONYMOUS | MAP_NORESERVE, -1, 0);
        if (all == MAP_FAILED)
            stop("no memory");
        /* Rounded up to a page of any size. */
        pages[i] = all + (PAGE - ((size_t)all & (PAGE - 1)));
        if (mprotect(pages[i], MOST, PROT_READ | PROT_WRITE) != 0)
            stop("no protection");
    }
}

/* Room i's pages, as far as it covers them: all that it needs, and the guard bytes beside it. */
static void protect(uint32_t i, int kind) {
    size_t covered = (head.bytes[i] / PAGE + 1) * PAGE;
    if (head.place != MIDDLE && (head.shown >> i & 1) &&
        mprotect(head.place == FRONT ? pages[i] : pages[i] + MOST - covered, covered, kind) != 0)
        stop("no protection");
}

static unsigned char guard(uint32_t i, int at) { return (unsigned char)(0xA5 + 7 * at + 31 * i); }

/* The guard bytes on one side of a room: written, or looked at. True while they are as written. */
static int guards(uint32_t i, unsigned char *side, int write) {
    int same = 1;
    for (int at = 0; at < GUARD; at++) {
        if (write)
            side[at] = guard(i, at);
        same &= side[at] == guard(i, at);
    }
    return same;
}

/* Both sides, but for the side where a forbidden page stands guard. */
static int both_guards(uint32_t i, int write) {
    int same = 1;
    if (head.place != FRONT)
        same &= guards(i, room[i] - GUARD, write);
    if (head.place != BACK)
        same &= guards(i, room[i] + head.bytes[i], write);
    return same;
}

static void lend(uint32_t i) {
    size_t bytes = head.bytes[i];
    if (bytes > MOST - 2 * PAGE)
        stop("a room is too large");
    room[i] = head.place == FRONT  ? pages[i]
              : head.place == BACK ? pages[i] + MOST - bytes
                                   : pages[i] + GUARD;
    both_guards(i, 1);
    if (bytes > 0 && !get(room[i], bytes))
        stop("the input ends inside a call");
    protect(i, PROT_READ);
}

static uint32_t *words(uint32_t i) { return (uint32_t *)(void *)room[i]; }
static size_t length(uint32_t i) { return head.bytes[i] / 4; }

/* Two instructions: the answer's address, and back. */
static __attribute__((noinline)) FilterboxAnswer nothing(const uint8_t *frame, size_t frame_len,
                                                         uint8_t port, const uint32_t *table,
                                                         size_t table_len, uint32_t states,
                                                         uint32_t allowance) {
    FilterboxAnswer answer;
    (void)frame, (void)frame_len, (void)port, (void)table, (void)table_len;
    (void)states, (void)allowance;
    __asm__("" : "=m"(answer));
    return answer;
}

/* One call; its answer word by word, by the names of the header. */
static void call(void) {
    const uint32_t *n = head.numbers;
    uint32_t *answer = reply.words;
    switch (head.call) {
    case SCRATCH_WORDS:
        answer[0] = filterbox_scratch_words();
        break;
    case BUILD: {
        FilterboxBuilt built = filterbox_build(words(0), length(0), words(1), length(1), words(2),
                                               length(2));
        answer[0] = built.refusal;
        answer[1] = built.number;
        break;
    }
    case NOTHING:
    case CLASSIFY: {
        FilterboxAnswer found =
            (head.call == CLASSIFY ? filterbox_classify : nothing)(
                room[0], head.bytes[0], (uint8_t)n[0], words(1), length(1), n[1], n[2]);
        answer[0] = found.ended;
        answer[1] = found.refusal;
        answer[2] = found.sure_low;
        answer[3] = found.sure_high;
        answer[4] = found.out_low;
        answer[5] = found.out_high;
        answer[6] = found.asked;
        answer[7] = found.cut;
        break;
    }
    case SCAN: {
        FilterboxScanned scanned =
            filterbox_scan(words(0), length(0), room[1], head.bytes[1], (uint8_t)n[0]);
        answer[0] = scanned.refusal;
        answer[1] = scanned.filter;
        answer[2] = scanned.set_low;
        answer[3] = scanned.set_high;
        break;
    }
    case FIELD: {
        FilterboxField field = filterbox_field(room[0], head.bytes[0], (uint8_t)n[0], n[1]);
        answer[0] = field.kind;
        answer[1] = field.value;
        break;
    }
    case LAMP: {
        FilterboxLamp lamp = filterbox_lamp(words(0), length(0), room[1], head.bytes[1],
                                            (uint8_t)n[0], words(2), length(2), n[1]);
        answer[0] = lamp.refusal;
        answer[1] = lamp.filter;
        answer[2] = lamp.lit;
        answer[3] = lamp.asked;
        break;
    }
    case JUDGE: {
        FilterboxJudged judged =
            filterbox_judge(room[0], head.bytes[0], (uint8_t)n[0], words(1), length(1), n[1],
                            words(2), length(2), n[2], words(3), length(3));
        answer[0] = judged.refusal;
        answer[1] = judged.verdict;
        break;
    }
    case CLEAR:
        filterbox_clear(words(0), length(0));
        break;
    case OVERRUN: {
        /* n[0] bytes behind the room's first byte, by wrapping also before it. */
        volatile unsigned char *at = room[0] + (int)n[0];
        if (n[1])
            *at = (unsigned char)(*at + 1);
        else
            answer[0] = *at;
        break;
    }
    default:
        stop("no such call");
    }
}

int main(void) {
    prepare();
    signal(SIGSEGV, left_its_room);
    signal(SIGBUS, left_its_room);
    while (get(&head, sizeof head)) {
        if (head.rooms > ROOMS || head.place > BACK)
            stop("no such head");
        for (uint32_t i = 0; i < head.rooms; i++)
            lend(i);
        memset(&reply, 0, sizeof reply);
        call();
        for (uint32_t i = 0; i < head.rooms; i++) {
            protect(i, PROT_READ | PROT_WRITE);
            if (!both_guards(i, 0))
                reply.touched = i + 1;
        }
        put(&reply, sizeof reply);
        for (uint32_t i = 0; i < head.rooms; i++)
            put(room[i], head.bytes[i]);
    }
    return 0;
}

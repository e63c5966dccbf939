// Stack that filterbox_build takes at the deepest list, and filterbox_lamp over its table: one thread on painted memory, lists whose holds ways are 1 to 512 questions long.
#include <pthread.h>
#include <stdint.h>
#include <stdio.h>
#include <stdlib.h>
#include <string.h>
#include "filterbox.h"

enum { SLOTS = FILTERBOX_MOST_SLOTS, TABLE = FILTERBOX_RECORD_WORDS * SLOTS, STACK = 1 << 20 };
/* The most scratch words that a slot may take. */
enum { MOST_SCRATCH_WORDS = 2048 };
/* The questions of the longest path, and how many lists lie between 8 of them and that. */
enum { MOST_QUESTIONS = FILTERBOX_MOST_FILTERS * FILTERBOX_MOST_TESTS, STEPS = 8 };
static _Alignas(65536) unsigned char stack[STACK];
static uint32_t list[FILTERBOX_MOST_FILTERS * (3 + 4 * FILTERBOX_MOST_TESTS)], table[TABLE], scratch[MOST_SCRATCH_WORDS * SLOTS];
static size_t words, scratch_words;
static FilterboxBuilt out;
static FilterboxLamp lamp;
static unsigned char *entry;

// k tests, 8 a filter: each "source address differs from i", each filter in its own group.
static void make(unsigned k) {
    words = 0;
    for (unsigned i = 0; i < k; i += 8) {
        unsigned m = k - i < 8 ? k - i : 8;
        list[words++] = i / 8;
        list[words++] = 0;
        list[words++] = m;
        for (unsigned j = 0; j < m; j++) {
            list[words++] = 2;
            list[words++] = 6;
            list[words++] = 0xffffffff;
            list[words++] = 1000 + i + j;
        }
    }
}

static void *run(void *x) {
    unsigned char here;
    entry = &here;
    out = filterbox_build(list, words, table, TABLE, scratch, scratch_words);
    return x;
}

// A TCP packet from no address of the lists, so that every test holds.
static const uint8_t frame[54] = {[12] = 8, [14] = 0x45, [17] = 40, [22] = 64, [23] = 6, [26] = 10};

static void *ask(void *x) {
    unsigned char here;
    entry = &here;
    lamp = filterbox_lamp(list, words, frame, sizeof frame, 0, table, TABLE, out.number);
    return x;
}

static size_t measure(void *(*call)(void *)) {
    pthread_t t;
    pthread_attr_t a;
    memset(stack, 0xa5, STACK);
    pthread_attr_init(&a);
    if (pthread_attr_setstack(&a, stack, STACK) || pthread_create(&t, &a, call, 0)) exit(1);
    pthread_join(t, 0);
    size_t i = 0;
    while (stack[i] == 0xa5) i++;
    return (size_t)(entry - (stack + i));
}

int main(void) {
    scratch_words = (size_t)SLOTS * filterbox_scratch_words();
    make(1);
    measure(run);
    size_t first = 0, last = 0;
    for (unsigned k = 0; k <= MOST_QUESTIONS; k += k < 8 ? 1 : (MOST_QUESTIONS - 8) / STEPS) {
        make(k);
        size_t s = measure(run), l = measure(ask);
        printf("questions %3u: %6zu bytes, refusal %u, number %u; lamp: %zu bytes, refusal %u, lit %u, asked %u\n", k, s, out.refusal,
               out.number, l, lamp.refusal, lamp.lit, lamp.asked);
        if (k == 8) first = s;
        last = s;
    }
    printf("bytes a level: %.1f\n", (double)(last - first) / (MOST_QUESTIONS - 8));
    return 0;
}

/*
 * Compiles three filters, classifies one frame with them, scans it by the list alone, asks whether any
 * filter matches it, judges it, and looks at what is left where only its beginning arrives. From the
 * repository root, once scripts/make-library has built the library:
 *
 *   gcc -Wall -Iinclude examples/box.c target/staticlib/libfilterbox.a -o box && ./box
 *
 * or on any processor, with the toolchain alone:
 *
 *   tests/pipe/compile examples/box.c box && scripts/run-program ./box
 */
#include <inttypes.h>
#include <stdio.h>
#include <stdlib.h>

#include "filterbox.h"

enum { SLOTS = 16, TABLE_WORDS = SLOTS * FILTERBOX_RECORD_WORDS };

/* Filter 0: an echo request. Filter 1: an echo reply with time to live 1. Filter 2: time to live 1.
   Each is in a group of its own, so that all that hold are in the match set. */
static const uint32_t list[] = {
    1, 0, 1,  1, 11, 255, 8,
    2, 0, 2,  1, 11, 255, 0,  1, 4, 255, 1,
    3, 0, 1,  1, 4, 255, 1,
};

/* An echo request with time to live 1, as it came from the wire. */
static const uint8_t frame[] = {
    /* Ethernet: to, from, EtherType */
    0x02, 0, 0, 0, 0, 2,  0x02, 0, 0, 0, 0, 1,  0x08, 0x00,
    /* IP: 28 bytes in all, time to live 1, protocol 1, from 10.0.0.1 to 10.0.0.2 */
    0x45, 0, 0, 28,  0, 1, 0x40, 0,  1, 1, 0, 0,  10, 0, 0, 1,  10, 0, 0, 2,
    /* ICMP: type 8, code 0 */
    8, 0, 0xf7, 0xfe, 0, 0, 0, 1,
};

/* Echo requests are diverted, what filters 1 and 2 match is dropped, all else passes. The other
   filters, which the list lacks, need a verdict too: it is pass. */
static const uint32_t verdicts[FILTERBOX_MOST_FILTERS] = {
    FILTERBOX_DIVERT, FILTERBOX_DROP, FILTERBOX_DROP,
};

static uint32_t table[TABLE_WORDS];
static uint32_t tallies[FILTERBOX_TALLIES];

static const char *const ended[] = {"refused", "done", "stopped"};
static const char *const kind[] = {"none", "value", "cut"};

/* A set is two words in an answer, and one number once they are put together. */
static void show(FilterboxAnswer answer) {
    printf("%s, sure %" PRIu64 ", out %" PRIu64 ", asked %" PRIu32 ", cut %" PRIu32 "\n",
           ended[answer.ended], FILTERBOX_SET(answer.sure_low, answer.sure_high),
           FILTERBOX_SET(answer.out_low, answer.out_high), answer.asked, answer.cut);
}

int main(void) {
    size_t scratch_words = (size_t)SLOTS * filterbox_scratch_words();
    uint32_t *scratch = calloc(scratch_words, sizeof *scratch);
    if (scratch == NULL)
        return 1;
    FilterboxBuilt built = filterbox_build(list, sizeof list / sizeof *list, table, TABLE_WORDS,
                                           scratch, scratch_words);
    free(scratch);
    if (built.refusal != 0) {
        printf("refused %" PRIu32 " %" PRIu32 "\n", built.refusal, built.number);
        return 1;
    }
    printf("states %" PRIu32 "\n", built.number);
    for (uint32_t allowance = 0; allowance <= 2; allowance++) {
        printf("allowance %" PRIu32 ": ", allowance);
        show(filterbox_classify(frame, sizeof frame, 0, table, TABLE_WORDS, built.number,
                                allowance));
    }
    FilterboxScanned scanned =
        filterbox_scan(list, sizeof list / sizeof *list, frame, sizeof frame, 0);
    printf("scanned: refusal %" PRIu32 ", set %" PRIu64 "\n", scanned.refusal,
           FILTERBOX_SET(scanned.set_low, scanned.set_high));
    FilterboxLamp lamp = filterbox_lamp(list, sizeof list / sizeof *list, frame, sizeof frame, 0,
                                        table, TABLE_WORDS, built.number);
    printf("lamp: refusal %" PRIu32 ", lit %" PRIu32 ", asked %" PRIu32 "\n", lamp.refusal, lamp.lit,
           lamp.asked);
    filterbox_clear(tallies, FILTERBOX_TALLIES);
    FilterboxJudged judged =
        filterbox_judge(frame, sizeof frame, 0, table, TABLE_WORDS, built.number, verdicts,
                        FILTERBOX_MOST_FILTERS, FILTERBOX_PASS, tallies, FILTERBOX_TALLIES);
    printf("judged: refusal %" PRIu32 ", verdict %" PRIu32 ", tallies %" PRIu32 " %" PRIu32
           " %" PRIu32 ", unmatched %" PRIu32 "\n",
           judged.refusal, judged.verdict, tallies[0], tallies[1], tallies[2],
           tallies[FILTERBOX_TALLIES - 1]);
    /* Only its first 24 bytes arrive, up to the protocol. The mark says that a question met a field
       that was cut off: the ICMP type, which the whole frame has. Ports it has none either way. */
    printf("24 bytes: ");
    show(filterbox_classify(frame, 24, 0, table, TABLE_WORDS, built.number, 2));
    for (uint32_t number = 8; number <= 11; number += 3) {
        FilterboxField field = filterbox_field(frame, 24, 0, number);
        printf("field %" PRIu32 " of 24 bytes: %s\n", number, kind[field.kind]);
    }
    return 0;
}

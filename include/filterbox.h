/*
 * filterbox: compiles a list of packet filters into a table, and walks frames through the table; or
 * scans a frame by the list alone; or says whether any filter matches at all; or judges frames by the
 * table and tallies what gave the verdicts.
 *
 * The library keeps nothing between calls and allocates nothing: all memory is lent by the caller,
 * who may call it from any thread. It never fails in any other way than by the refusal numbers
 * below. The caller sees to the memory that a call is lent: pieces must not overlap, a length must
 * not pass what stands behind its pointer, pointers are aligned as their types are, and no other
 * thread writes a piece, or reads one that the call writes, until the call returns. A length of 0
 * still wants a pointer that is not NULL.
 */
#ifndef FILTERBOX_H
#define FILTERBOX_H

#include <stddef.h>
#include <stdint.h>

#ifdef __cplusplus
extern "C" {
#endif

/* The words of a record, one for each state: kind, field, mask, value, next state if the test holds,
   if it fails, if the field is absent, then the sure set and the out set, two words each. */
#define FILTERBOX_RECORD_WORDS 11

/* The most slots that a table has; words behind them are not used. */
#define FILTERBOX_MOST_SLOTS 4096

/* The most filters of a list, and the most tests of a filter. */
#define FILTERBOX_MOST_FILTERS 64
#define FILTERBOX_MOST_TESTS 8

/* The stack in bytes that building takes at the most: the deepest list has a path of
   FILTERBOX_MOST_FILTERS * FILTERBOX_MOST_TESTS questions. */
#define FILTERBOX_BUILD_STACK 400000

/* The header fields, numbered from 0. */
#define FILTERBOX_FIELDS 14

/* The longest frame in bytes that is not refused. */
#define FILTERBOX_MOST_FRAME 1522

/* A set of filters: filter i is bit i. In a record and in an answer it is two words, the low half
   first: filters 0 to 31 are the bits of the first, 32 to 63 those of the second. */
typedef uint64_t FilterboxSet;

/* The set that two words say. */
#define FILTERBOX_SET(low, high) ((FilterboxSet)(high) << 32 | (FilterboxSet)(low))

/* The words of a tally room: one for each filter, and the last for frames that match none. */
#define FILTERBOX_TALLIES (FILTERBOX_MOST_FILTERS + 1)

/* The questions that judging may ask: the most tests that a list can have. */
#define FILTERBOX_JUDGE_ALLOWANCE (FILTERBOX_MOST_FILTERS * FILTERBOX_MOST_TESTS)

/* What building answers. */
typedef struct FilterboxBuilt {
    uint32_t refusal; /* 0 where the table was built, else 1 to 11 */
    uint32_t number;  /* the number of states; the filter's number for refusals 1 to 9
                         (FILTERBOX_MOST_FILTERS for 1); 0 for 10 and 11 */
} FilterboxBuilt;

/* How classifying ended. */
enum {
    FILTERBOX_REFUSED = 0, /* see the refusal; all other numbers are 0 */
    FILTERBOX_DONE = 1,    /* no question is open: the sure set is the match set */
    FILTERBOX_STOPPED = 2  /* the allowance is used; filters in neither set are open */
};

/* What classifying answers. */
typedef struct FilterboxAnswer {
    uint32_t ended;     /* FILTERBOX_REFUSED, FILTERBOX_DONE or FILTERBOX_STOPPED */
    uint32_t refusal;   /* 0, or 12 or 13 where refused */
    uint32_t sure_low;  /* filters that are certainly in the match set: 0 to 31 */
    uint32_t sure_high; /* and 32 to 63 */
    uint32_t out_low;   /* filters that are certainly not in it: 0 to 31 */
    uint32_t out_high;  /* and 32 to 63 */
    uint32_t asked;     /* the number of questions asked */
    uint32_t cut;       /* 1 where some question met a field that was cut off, else 0 */
} FilterboxAnswer;

/* Whether a field is there. */
enum {
    FILTERBOX_NONE = 0,  /* the frame has none, and would have none if it went on */
    FILTERBOX_VALUE = 1, /* it has this value */
    FILTERBOX_CUT = 2    /* the frame has none, but ends before it is known, or its total length is too small */
};

/* What reading a field answers. */
typedef struct FilterboxField {
    uint32_t kind;  /* FILTERBOX_NONE, FILTERBOX_VALUE or FILTERBOX_CUT */
    uint32_t value; /* 0 unless FILTERBOX_VALUE */
} FilterboxField;

/*
 * Compiles a list into a table.
 *
 * list: for each filter three words (group, level, number of tests), then for each test four words
 * (kind, field, mask, value). At most FILTERBOX_MOST_FILTERS filters with at most
 * FILTERBOX_MOST_TESTS tests each.
 * table: its words divided by FILTERBOX_RECORD_WORDS are the slots, at most FILTERBOX_MOST_SLOTS.
 * Each state takes one slot.
 * scratch: at least filterbox_scratch_words() words for each slot of the table, whether or not the
 * list needs the slot.
 * All lengths are in words.
 * The calling thread needs FILTERBOX_BUILD_STACK bytes of stack for the deepest list; no other call
 * needs more than a twentieth of that.
 *
 * Answers refusal 0 and the number of states, which filterbox_classify wants to know. Then the
 * records of the states stand at the beginning of the table, and the table words behind them are as
 * before. Or it answers one of these refusals, the first that fits as the list is read:
 *
 *    1  words follow the last of the most filters
 *    2  the list ends inside a filter          3  group or level above 255
 *    4  more tests in a filter than the most   5  kind not 1 to 4
 *    6  no such field: FILTERBOX_FIELDS or above
 *    7  mask 0 with kind 1 or 2, or a mask that is not 0 with kind 3 or 4
 *    8  mask or value above the field's greatest number
 *    9  value with bits outside the mask       10  scratch shorter than the slots need
 *   11  more states than slots
 *
 * Refusals 1 to 10 change no word. Refusal 11 leaves zeros in all slots of the table and the words
 * behind the slots as before. After success and after refusal 11 the slots' part of the scratch is
 * zero and the rest of the scratch is as before.
 */
FilterboxBuilt filterbox_build(const uint32_t *list, size_t list_len, uint32_t *table,
                               size_t table_len, uint32_t *scratch, size_t scratch_len);

/*
 * Walks a frame through a table.
 *
 * frame: the bytes from the destination address of the Ethernet header on; its length is in bytes.
 * port: the box port at which the frame came in.
 * table, states: a table and the number of states that building it answered; the table's length is
 * in words.
 * allowance: the most questions that may be asked, any number.
 *
 * Answers done or stopped with the two sets, the number of questions asked and the mark of cut
 * fields, or one of these refusals with zeros there:
 *
 *   12  the frame is longer than FILTERBOX_MOST_FRAME bytes
 *   13  the table is damaged: the number of states is 0 or above the slots, or a record on the way
 *       has a kind above 4, or no such field with a kind that is not 0, or the next state is not
 *       below the number of states
 *
 * A short or odd frame is no refusal; fields that it lacks are absent, and no test on an absent
 * field holds. Nothing lent is written.
 */
FilterboxAnswer filterbox_classify(const uint8_t *frame, size_t frame_len, uint8_t port,
                                   const uint32_t *table, size_t table_len, uint32_t states,
                                   uint32_t allowance);

/* What scanning answers. */
typedef struct FilterboxScanned {
    uint32_t refusal;  /* 0, or 1 to 9 or 12 where refused */
    uint32_t filter;   /* the filter's number for refusals 1 to 9 (FILTERBOX_MOST_FILTERS for 1),
                          else 0 */
    uint32_t set_low;  /* the match set, filters 0 to 31; empty where refused */
    uint32_t set_high; /* and 32 to 63 */
} FilterboxScanned;

/*
 * Names the match set of a frame by asking each filter of a list in turn. No table is needed.
 *
 * list: as for filterbox_build; frame and port: as for filterbox_classify.
 *
 * The whole list is read first, so refusals 1 to 9 come before 12. Nothing lent is written.
 */
FilterboxScanned filterbox_scan(const uint32_t *list, size_t list_len, const uint8_t *frame,
                                size_t frame_len, uint8_t port);

/* What the lamp answers. */
typedef struct FilterboxLamp {
    uint32_t refusal; /* 0, or 1 to 9, 12 or 13 where refused */
    uint32_t filter;  /* the filter's number for refusals 1 to 9 (FILTERBOX_MOST_FILTERS for 1),
                         else 0 */
    uint32_t lit;     /* 1 where some filter matches, 0 where none does or where refused */
    uint32_t asked;   /* the number of questions asked; 0 where refused */
} FilterboxLamp;

/*
 * Says whether any filter of a list matches a frame, for an activity lamp. It works out from the
 * list what each answer leaves of it as it walks the table, and ends as soon as all tests of some
 * filter are known to hold, or nothing is left to ask.
 *
 * list: the list that the table was built from; frame, port, table and states: as for
 * filterbox_classify.
 *
 * Refusals 1 to 9 come before 12, and 12 before 13. Here 13 is also given for a record on the way
 * that asks another question than the list asks there, or is final where the list is not, or the
 * other way round; so a table of another list is refused where it differs. Of a final record only
 * the kind is looked at, and the sets of no record. Nothing lent is written.
 */
FilterboxLamp filterbox_lamp(const uint32_t *list, size_t list_len, const uint8_t *frame,
                             size_t frame_len, uint8_t port, const uint32_t *table,
                             size_t table_len, uint32_t states);

/* The verdicts. */
enum { FILTERBOX_PASS = 0, FILTERBOX_DROP = 1, FILTERBOX_DIVERT = 2 };

/* What judging answers. */
typedef struct FilterboxJudged {
    uint32_t refusal; /* 0 where the frame was judged, else 12, 13, 15, 16 or 24 */
    uint32_t verdict; /* FILTERBOX_PASS, FILTERBOX_DROP or FILTERBOX_DIVERT; 0 where refused */
} FilterboxJudged;

/*
 * Judges a frame and counts it.
 *
 * frame, port, table, states: as for filterbox_classify; FILTERBOX_JUDGE_ALLOWANCE questions are
 * allowed, so a table that was built never stops a walk.
 * verdicts: the verdict of each filter, by its number; FILTERBOX_MOST_FILTERS words, also where the
 * list has fewer.
 * standing: the verdict of a frame that matches no filter.
 * tallies: FILTERBOX_TALLIES words. Word i counts the frames to which filter i gave the verdict, the
 * last word those that matched no filter. Clear them before the first frame.
 *
 * The verdict is that of the lowest-numbered filter in the frame's match set, or the standing one
 * where the set is empty; the tally of the filter that gave it is one greater, and no other word
 * changes. So the tallies add up to the number of frames judged since the last clearing. Or it
 * answers the first of these refusals that fits, in this order; then no word changes:
 *
 *   24  tallies has not FILTERBOX_TALLIES words
 *   16  verdicts has not FILTERBOX_MOST_FILTERS words, or one of them or standing is not 0, 1 or 2
 *   12  the frame is longer than FILTERBOX_MOST_FRAME bytes
 *   13  the table is damaged, as for filterbox_classify, or the walk is not done after the questions
 *       that are allowed
 *   15  the tally to be counted up is full: it is 4,294,967,295
 */
FilterboxJudged filterbox_judge(const uint8_t *frame, size_t frame_len, uint8_t port,
                                const uint32_t *table, size_t table_len, uint32_t states,
                                const uint32_t *verdicts, size_t verdicts_len, uint32_t standing,
                                uint32_t *tallies, size_t tallies_len);

/* Makes every word of tallies 0, whatever its length. */
void filterbox_clear(uint32_t *tallies, size_t tallies_len);

/*
 * Reads one field of a frame, for support: its value, none, or cut. Cut says that the frame lacks
 * the field, but that some longer frame which begins with the same bytes has it, the two bytes of
 * the IP total length alone being free to change.
 *
 * frame and port: as for filterbox_classify, but a frame of any length is read; number: a field, 0
 * to 13; above them there is none. Nothing lent is written.
 */
FilterboxField filterbox_field(const uint8_t *frame, size_t frame_len, uint8_t port,
                               uint32_t number);

/* Answers the number of scratch words that building takes for each slot of the table. */
uint32_t filterbox_scratch_words(void);

#ifdef __cplusplus
}
#endif

#endif

/* rows: asks the library for each row of the table (docs/PROTOCOL.md), and for words in both layouts, and compares what it answers with
 * what stands here, worked out by hand. Node 1 of four acts. It says which answer is another, and how many were asked for. */
#include <stddef.h>
#include <stdio.h>
#include <string.h>

#include "sci.h"

#define IS_AT(type, member, place) _Static_assert(offsetof(type, member) == place, #type "." #member)
IS_AT(sci_tag, kind, 0); IS_AT(sci_tag, held, 1); IS_AT(sci_tag, forw, 2); IS_AT(sci_tag, back, 4);
IS_AT(sci_mem, state, 0); IS_AT(sci_mem, lent, 1); IS_AT(sci_mem, forw, 2);
IS_AT(sci_line, words, 0); IS_AT(sci_line, stamp, 64);
IS_AT(sci_step, step, 0); IS_AT(sci_step, flag, 1); IS_AT(sci_step, has, 2); IS_AT(sci_step, kept, 4);
IS_AT(sci_step, forw, 6); IS_AT(sci_step, back, 8); IS_AT(sci_step, word, 16);
IS_AT(sci_event, event, 0); IS_AT(sci_event, has, 1); IS_AT(sci_event, link, 2); IS_AT(sci_event, found, 8); IS_AT(sci_event, words, 16);
IS_AT(sci_row, word, 0); IS_AT(sci_row, carry, 2); IS_AT(sci_row, answers, 3); IS_AT(sci_row, slot, 4);
IS_AT(sci_row, before, 8); IS_AT(sci_row, after, 16); IS_AT(sci_row, step, 24);

#define NO SCI_NONE
#define MEM SCI_MEMORY
#define WORD(kind, held, forw, back) ((uint64_t)(kind) | (uint64_t)(held) << 4 | (uint64_t)(forw) << 16 | (uint64_t)(back) << 32)
#define TAG(kind, forw, back) WORD(SCI_##kind, 0, forw, back)
#define HELD(kind, forw, back) WORD(SCI_##kind, 1, forw, back)
#define MEMORY(state, forw) WORD(SCI_MEM_##state, 0, forw, 0)
#define LENT(state, forw) WORD(SCI_MEM_##state, 1, forw, 0)

#define IN(which, ...) {.step = SCI_##which, __VA_ARGS__}
#define IDLE {0}
#define ON(which, tag) {.event = SCI_##which, .found = tag}
#define EVENT(which) {.event = SCI_##which}

enum { ME = 1, NODES = 4 };
enum { OWN, SLOT, WRITTEN, ZEROS }; /* the line after: the own one, the slot's, the words written with the next stamp, or zeros */

static const struct {
    int number;
    sci_step step;
    sci_event event;
    sci_row row;
    int line;
} rows[] = {
    {1, IDLE, {.event = SCI_QUEUE, .link = 2},
     {1, SCI_TAKES, 0, 1, TAG(INVALID, NO, NO), TAG(QUEUED, 2, NO), IN(QUEUEING, .kept = 2)}, SLOT},
    {2, IN(QUEUEING, .kept = 2), {.event = SCI_REQUEUE, .link = NO},
     {1, SCI_STAYS, 0, 0, TAG(QUEUED, 2, NO), TAG(QUEUED, NO, NO), IN(QUEUEING, .kept = NO)}, OWN},
    {3, IN(QUEUEING, .kept = NO), EVENT(PREPEND_VALID),
     {MEM, SCI_TAKES, 0, MEM, MEMORY(HOME, NO), LENT(FRESH, 1), IN(FETCHING, .kept = NO)}, SLOT},
    {4, IN(QUEUEING, .kept = 2), EVENT(PREPEND_VALID),
     {MEM, SCI_TAKES, 0, MEM, MEMORY(FRESH, 2), LENT(FRESH, 1), IN(FETCHING, .kept = 2)}, SLOT},
    {5, IN(FETCHING, .flag = 1, .kept = NO), EVENT(RETURN_MEMORY),
     {MEM, SCI_GIVES, 0, MEM, LENT(GONE, 1), MEMORY(GONE, 1), IN(IN_QUEUE, .flag = 1, .has = 1, .kept = NO)}, OWN},
    {5, IN(FETCHING, .kept = 2), EVENT(RETURN_MEMORY),
     {MEM, SCI_GIVES, 0, MEM, LENT(FRESH, 1), MEMORY(FRESH, 1), IN(IN_QUEUE, .has = 1, .kept = 2)}, OWN},
    {6, IN(WRITING_BACK, .kept = 0), EVENT(RETURN_MEMORY),
     {MEM, SCI_GIVES, 0, MEM, LENT(HOME, NO), MEMORY(HOME, NO), IN(PARTED, .kept = NO)}, OWN},
    {7, IN(IN_QUEUE, .has = 1, .kept = 2), ON(ATTACH_FRESH, TAG(FRESH, 3, NO)),
     {2, SCI_STAYS, 0, 0, TAG(FRESH, 3, NO), TAG(VALID, 3, 1), IN(READY, .kept = 2)}, OWN},
    {8, IN(READY, .kept = 2), EVENT(SETTLE),
     {1, SCI_GIVES, 1, 1, TAG(QUEUED, 2, NO), TAG(FRESH, 2, NO), IDLE}, OWN},
    {9, IN(IN_QUEUE, .flag = 1, .has = 1, .kept = NO), EVENT(SETTLE),
     {1, SCI_GIVES, 1, 1, TAG(QUEUED, NO, NO), TAG(DIRTY, NO, NO), IDLE}, OWN},
    {10, IDLE, ON(HOLD, TAG(VALID, 2, 3)),
     {1, SCI_TAKES, 0, 1, TAG(VALID, 2, 3), HELD(VALID, 2, 3), IN(HOLDING, .word = TAG(VALID, 2, 3))}, SLOT},
    {11, IN(HOLDING, .word = TAG(VALID, 2, 3)), EVENT(UNHOLD),
     {1, SCI_GIVES, 1, 1, HELD(VALID, 2, 3), TAG(VALID, 2, 3), IDLE}, OWN},
    {12, IDLE, ON(EVENT_CONVERT, TAG(FRESH, 2, NO)),
     {1, SCI_STAYS, 0, 0, TAG(FRESH, 2, NO), TAG(CONVERT, 2, NO), IN(CONVERTING, .kept = 2)}, OWN},
    {13, IN(CONVERTING, .kept = 2), EVENT(FRESH_TO_GONE),
     {MEM, SCI_STAYS, 0, 0, MEMORY(FRESH, 1), MEMORY(GONE, 1), IN(CONVERTING, .flag = 1, .kept = 2)}, OWN},
    {14, IN(CONVERTING, .flag = 1, .kept = 2), EVENT(CONVERTED),
     {1, SCI_TAKES, 1, 1, TAG(CONVERT, 2, NO), TAG(PURGING, 2, NO), IN(STEP_PURGING, .has = 0)}, SLOT},
    {15, IN(CONVERTING, .kept = 2), EVENT(UNCONVERTED),
     {1, SCI_STAYS, 0, 0, TAG(CONVERT, 2, NO), TAG(FRESH, 2, NO), IDLE}, OWN},
    {16, IDLE, ON(BEGIN_PURGE, TAG(DIRTY, 2, NO)),
     {1, SCI_TAKES, 1, 1, TAG(DIRTY, 2, NO), TAG(PURGING, 2, NO), IN(STEP_PURGING, .has = 0)}, SLOT},
    {17, IN(STEP_PURGING, .has = 1, .forw = NO), {.event = SCI_WRITTEN, .has = 1, .words = {8, 7, 6, 5, 4, 3, 2, UINT64_MAX}},
     {1, SCI_GIVES, 0, 1, TAG(PURGING, NO, NO), TAG(DIRTY, NO, NO), IDLE}, WRITTEN},
    {18, IN(STEP_PURGING, .has = 1, .forw = NO), EVENT(WRITTEN),
     {1, SCI_GIVES, 0, 1, TAG(PURGING, NO, NO), TAG(DIRTY, NO, NO), IDLE}, OWN},
    {19, IN(QUEUEING, .kept = 2), EVENT(PREPEND_GONE),
     {MEM, SCI_STAYS, 0, 0, MEMORY(GONE, 2), MEMORY(GONE, 1), IN(IN_QUEUE, .flag = 1, .kept = 2)}, OWN},
    {20, IN(IN_QUEUE, .flag = 1, .kept = 2), ON(ATTACH_DIRTY, TAG(DIRTY, 3, NO)),
     {2, SCI_TAKES, 0, 2, TAG(DIRTY, 3, NO), HELD(VALID, 3, 1), IN(COPYING, .kept = 2, .word = HELD(VALID, 3, 1))}, SLOT},
    {21, IN(COPYING, .kept = 2, .word = HELD(VALID, 3, 1)), EVENT(RETURN_COPY),
     {2, SCI_GIVES, 0, 2, HELD(VALID, 3, 1), TAG(VALID, 3, 1), IN(READY, .flag = 1, .kept = 2)}, OWN},
    {22, IN(STEP_PURGING, .has = 1, .forw = 2), ON(PURGE_ONE, TAG(VALID, 3, 1)),
     {2, SCI_STAYS, 0, 0, TAG(VALID, 3, 1), TAG(PURGED, 3, 1), IN(ADVANCING, .kept = 2, .word = TAG(PURGED, 3, 1))}, OWN},
    {23, IN(ADVANCING, .kept = 2, .word = TAG(PURGED, 3, 1)), EVENT(ADVANCE),
     {1, SCI_STAYS, 0, 0, TAG(PURGING, 2, NO), TAG(PURGING, 3, NO), IN(CLEARING, .kept = 2, .word = TAG(PURGED, 3, 1))}, OWN},
    {24, IN(CLEARING, .kept = 2, .word = TAG(PURGED, 3, 1)), EVENT(CLEAR),
     {2, SCI_STAYS, 0, 0, TAG(PURGED, 3, 1), TAG(INVALID, NO, NO), IN(STEP_PURGING, .has = 0)}, OWN},
    {25, IDLE, ON(EVENT_ROLL, TAG(VALID, 2, 3)),
     {1, SCI_STAYS, 0, 0, TAG(VALID, 2, 3), TAG(ROLL, 2, 3), IN(ROLLING, .has = 0)}, OWN},
    {26, IN(ROLLING, .has = 1, .forw = 2, .back = 3), ON(TELL_SUCCESSOR, TAG(VALID, 0, 1)),
     {2, SCI_STAYS, 0, 0, TAG(VALID, 0, 1), TAG(VALID, 0, 3), IN(ROLLING, .flag = 1, .has = 1, .forw = 2, .back = 3)}, OWN},
    {27, IN(ROLLING, .flag = 1, .has = 1, .forw = 2, .back = 3), ON(TELL_PREDECESSOR, TAG(VALID, 1, 0)),
     {3, SCI_STAYS, 0, 0, TAG(VALID, 1, 0), TAG(VALID, 2, 0), IN(UNLINKED, .kept = 2, .back = 3)}, OWN},
    {28, IN(STEP_PURGING, .has = 1, .forw = 2), ON(ADOPT, TAG(ROLL, 3, 0)),
     {2, SCI_STAYS, 0, 0, TAG(ROLL, 3, 0), TAG(ROLL, 3, 1), IN(STEP_PURGING, .has = 1, .forw = 2)}, OWN},
    {29, IN(UNLINKED, .kept = 2, .back = 3), EVENT(ROLLED),
     {1, SCI_STAYS, 0, 0, TAG(ROLL, 2, 3), TAG(INVALID, NO, NO), IDLE}, OWN},
    {30, IDLE, ON(LEAVE, TAG(DIRTY, 2, NO)),
     {1, SCI_TAKES, 0, 1, TAG(DIRTY, 2, NO), TAG(LEAVING, 2, NO), IN(STEP_LEAVING, .flag = 1)}, SLOT},
    {31, IN(STEP_LEAVING, .flag = 1, .has = 1, .forw = 2), ON(PROMOTE, TAG(VALID, 3, 1)),
     {2, SCI_STAYS, 0, 0, TAG(VALID, 3, 1), TAG(DIRTY, 3, NO), IN(PROMOTED, .flag = 1, .kept = 2)}, OWN},
    {32, IN(PROMOTED, .kept = 2), EVENT(PASS_ON),
     {MEM, SCI_STAYS, 0, 0, MEMORY(FRESH, 1), MEMORY(FRESH, 2), IN(PARTED, .kept = 2)}, OWN},
    {33, IN(STEP_LEAVING, .has = 1, .forw = 2), EVENT(STAY),
     {1, SCI_GIVES, 0, 1, TAG(LEAVING, 2, NO), TAG(FRESH, 2, NO), IDLE}, OWN},
    {34, IN(PROMOTED, .kept = 2), EVENT(RE_ENTER),
     {1, SCI_STAYS, 0, 0, TAG(LEAVING, 2, NO), TAG(QUEUED, 2, NO), IN(IN_QUEUE, .has = 1, .kept = 2)}, OWN},
    {35, IN(PROMOTED, .flag = 1, .kept = 2), EVENT(RE_ENTER),
     {1, SCI_STAYS, 0, 0, TAG(LEAVING, 2, NO), TAG(QUEUED, 2, NO), IN(IN_QUEUE, .flag = 1, .kept = 2)}, OWN},
    {36, IN(STEP_LEAVING, .has = 1, .forw = NO), EVENT(RETURN_HOME_FRESH),
     {MEM, SCI_STAYS, 0, 0, MEMORY(FRESH, 1), MEMORY(HOME, NO), IN(PARTED, .kept = NO)}, OWN},
    {37, IN(STEP_LEAVING, .flag = 1, .has = 1, .forw = NO), EVENT(RETURN_HOME_DIRTY),
     {MEM, SCI_TAKES, 0, MEM, MEMORY(GONE, 1), LENT(HOME, NO), IN(WRITING_BACK, .kept = 0)}, OWN},
    {38, IN(PARTED, .kept = 2), EVENT(LEFT),
     {1, SCI_GIVES, 0, 1, TAG(LEAVING, 2, NO), TAG(INVALID, NO, NO), IDLE}, ZEROS},
    {39, IN(QUEUEING, .kept = NO), EVENT(HOME_WRITE),
     {MEM, SCI_TAKES, 0, MEM, MEMORY(HOME, NO), LENT(GONE, 1), IN(FETCHING, .flag = 1, .kept = NO)}, SLOT},
};

static const struct {
    int number;
    uint64_t own;
    sci_step before, after;
} looks[] = {
    {40, TAG(PURGING, 2, NO), IN(STEP_PURGING, .has = 0), IN(STEP_PURGING, .has = 1, .forw = 2)},
    {41, TAG(LEAVING, NO, NO), IN(STEP_LEAVING, .flag = 1), IN(STEP_LEAVING, .flag = 1, .has = 1, .forw = NO)},
    {42, TAG(ROLL, 2, 3), IN(ROLLING, .flag = 1, .has = 1, .forw = 0, .back = 3), IN(ROLLING, .flag = 1, .has = 1, .forw = 2, .back = 3)},
    {0, TAG(QUEUED, 2, NO), IN(QUEUEING, .kept = 2), IN(QUEUEING, .kept = 2)},
};

/* Words by their codes: in layout 2, in layout 1 (or 0, where a link is too great for it), and their parts. */
static const struct { uint64_t code, code1; sci_tag tag; } tags[] = {
    {0xffffffff0000, 0xffff00, {SCI_INVALID, 0, NO, NO}},
    {0xffff00010002, 0xff0102, {SCI_FRESH, 0, 1, NO}},
    {0x200000007, 0x20007, {SCI_VALID, 0, 0, 2}},
    {0x200000017, 0x20017, {SCI_VALID, 1, 0, 2}},
    {0x300fe0008, 0x3fe08, {SCI_ROLL, 0, 254, 3}},
    {0xffff00ff0003, 0, {SCI_DIRTY, 0, 255, NO}},
};
static const struct { uint64_t code, code1; sci_mem mem; } mems[] = {
    {0xffff0000, 0xff00, {SCI_MEM_HOME, 0, NO}},
    {0x20001, 0x201, {SCI_MEM_FRESH, 0, 2}},
    {0x20011, 0x211, {SCI_MEM_FRESH, 1, 2}},
    {0x10002, 0x102, {SCI_MEM_GONE, 0, 1}},
    {0x3ff0002, 0, {SCI_MEM_GONE, 0, 1023}},
};

#define COUNT(table) (int)(sizeof table / sizeof *table)
enum { ROWS = COUNT(rows), LOOKS = COUNT(looks), TAGS = COUNT(tags), MEMS = COUNT(mems) };

static int wrong;

static void is(int holds, const char *what, int number) {
    if (holds) return;
    printf("%s %d is another\n", what, number);
    wrong++;
}

static int same_step(const sci_step *a, const sci_step *b) {
    return a->step == b->step && a->flag == b->flag && a->has == b->has && a->kept == b->kept && a->forw == b->forw &&
           a->back == b->back && a->word == b->word;
}

static int same_row(const sci_row *a, const sci_row *b) {
    return a->word == b->word && a->carry == b->carry && a->answers == b->answers && a->slot == b->slot && a->before == b->before &&
           a->after == b->after && same_step(&a->step, &b->step);
}

static int same_tag(const sci_tag *a, const sci_tag *b) {
    return a->kind == b->kind && a->held == b->held && a->forw == b->forw && a->back == b->back;
}

static int same_mem(const sci_mem *a, const sci_mem *b) {
    return a->state == b->state && a->lent == b->lent && a->forw == b->forw;
}

/* A row, its line after, and that a step of another kind doesn't allow the event. */
static void ask(int at) {
    static const sci_line own = {{1, 2, 3, 4, 5, 6, 7, 8}, 7}, slot = {{9, 9, 9, 9, 9, 9, 9, 9}, 9};
    static const sci_step ready = IN(READY, .kept = 2), holding = IN(HOLDING, .word = TAG(VALID, 2, 3));
    const sci_step *step = &rows[at].step;
    const sci_event *event = &rows[at].event;
    const sci_step *other = event->event == SCI_SETTLE ? &holding : &ready;
    const int number = rows[at].number;
    sci_line expected = rows[at].line == ZEROS ? (sci_line){0} : rows[at].line == SLOT ? slot : own, after;
    sci_row row;
    if (rows[at].line == WRITTEN) {
        memcpy(expected.words, event->words, sizeof expected.words);
        expected.stamp = own.stamp + 1;
    }
    is(sci_check_step(step) == SCI_OK && sci_check_event(event) == SCI_OK, "a step or event of row", number);
    is(sci_allows(ME, NODES, step, &own, event) == SCI_OK, "what allows row", number);
    is(sci_exchange(ME, NODES, step, &own, event, &row) == SCI_OK && same_row(&row, &rows[at].row), "row", number);
    is(sci_line_after(ME, NODES, step, &own, event, &slot, &after) == SCI_OK && !memcmp(&after, &expected, sizeof after),
       "the line after row", number);
    is(sci_allows(ME, NODES, other, &own, event) == SCI_NOT_IN_TURN, "what forbids row", number);
    is(sci_exchange(ME, NODES, other, &own, event, &row) == SCI_NOT_IN_TURN && same_row(&row, &rows[at].row),
       "what is left of row", number);
}

static void look(int at) {
    static const sci_event event = EVENT(LOOK);
    static const sci_line own;
    sci_step step = looks[at].before;
    sci_row row;
    is(sci_allows(ME, NODES, &step, &own, &event) == SCI_OK, "what allows look", looks[at].number);
    is(sci_exchange(ME, NODES, &step, &own, &event, &row) == SCI_NOT_IN_TURN, "the exchange of look", looks[at].number);
    is(sci_look(&step, looks[at].own) == SCI_OK && same_step(&step, &looks[at].after), "look", looks[at].number);
}

static void word_of_tag(int at) {
    sci_tag tag;
    uint64_t code;
    is(sci_read_tag(tags[at].code, &tag) == SCI_OK && same_tag(&tag, &tags[at].tag), "tag", at);
    is(sci_write_tag(&tags[at].tag, &code) == SCI_OK && code == tags[at].code, "the code of tag", at);
    if (tags[at].code1 == 0) {
        is(sci_write_tag_layout1(&tags[at].tag, &code) == SCI_SPARE_BITS, "no code in layout 1 of tag", at);
        return;
    }
    is(sci_read_tag_layout1(tags[at].code1, &tag) == SCI_OK && same_tag(&tag, &tags[at].tag), "in layout 1 tag", at);
    is(sci_write_tag_layout1(&tags[at].tag, &code) == SCI_OK && code == tags[at].code1, "the code in layout 1 of tag", at);
}

static void word_of_memory(int at) {
    sci_mem mem;
    uint64_t code;
    is(sci_read_mem(mems[at].code, &mem) == SCI_OK && same_mem(&mem, &mems[at].mem), "memory word", at);
    is(sci_write_mem(&mems[at].mem, &code) == SCI_OK && code == mems[at].code, "the code of memory word", at);
    if (mems[at].code1 == 0) {
        is(sci_write_mem_layout1(&mems[at].mem, &code) == SCI_SPARE_BITS, "no code in layout 1 of memory word", at);
        return;
    }
    is(sci_read_mem_layout1(mems[at].code1, &mem) == SCI_OK && same_mem(&mem, &mems[at].mem), "in layout 1 memory word", at);
    is(sci_write_mem_layout1(&mems[at].mem, &code) == SCI_OK && code == mems[at].code1, "the code in layout 1 of memory word", at);
}

int main(void) {
    for (int at = 0; at < ROWS; at++) ask(at);
    for (int at = 0; at < LOOKS; at++) look(at);
    for (int at = 0; at < TAGS; at++) word_of_tag(at);
    for (int at = 0; at < MEMS; at++) word_of_memory(at);
    printf("%d rows, %d looks, %d words: %d wrong\n", ROWS, LOOKS, TAGS + MEMS, wrong);
    return wrong != 0;
}

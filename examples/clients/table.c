/* table: a simulator of one line of three nodes over its own arrays, which takes each row of the table from the library.
 *
 *     table three_sharers|purge_by_steps|rollout_before_write [log]
 *
 * It prints what that script of examples/ prints; with `log` instead its events, one a line. */
#include <stdio.h>
#include <stdlib.h>
#include <string.h>

#include "sci.h"

/* The library and this compiler lay structs out alike. */
_Static_assert(sizeof(sci_tag) == 6 && sizeof(sci_mem) == 4 && sizeof(sci_line) == 72 && sizeof(sci_step) == 24 && sizeof(sci_event) == 80 && sizeof(sci_row) == 48, "layout");

enum { NODES = 3, MOST_TURNS = 100000 };
typedef enum { WAITS, MOVED, ENDED } turned;

static uint64_t memory, tags[NODES];
static sci_step steps[NODES];
static sci_line memory_line, lines[NODES];
static int is_log;

static void must(uint8_t answer, const char *call) {
    if (answer == SCI_OK) return;
    fprintf(stderr, "table: %s answers %d\n", call, answer);
    exit(1);
}

static sci_tag tag_of(uint16_t node) {
    sci_tag tag;
    must(sci_read_tag(tags[node], &tag), "sci_read_tag");
    return tag;
}

static sci_mem mem(void) {
    sci_mem found;
    must(sci_read_mem(memory, &found), "sci_read_mem");
    return found;
}

static void open_line(void) {
    const sci_mem home = {SCI_MEM_HOME, 0, SCI_NONE};
    const sci_tag invalid = {SCI_INVALID, 0, SCI_NONE, SCI_NONE};
    must(sci_write_mem(&home, &memory), "sci_write_mem");
    for (int node = 0; node < NODES; node++) must(sci_write_tag(&invalid, &tags[node]), "sci_write_tag");
    if (is_log) printf("memory %d 1\n", NODES);
}

/* One event in the words of a trace, in front of its outcome. `whose` is the node whose tag was found. */
static void log_event(uint16_t me, const sci_event *event, uint16_t whose, int is_missed) {
    sci_tag found;
    if (!is_log) return;
    printf("node %d line 0 %s", me, sci_event_name(event->event));
    if (event->event == SCI_QUEUE || event->event == SCI_REQUEUE) {
        if (event->link == SCI_NONE) printf("(none)");
        else printf("(%d)", event->link);
    } else if (event->event == SCI_WRITTEN) {
        printf(event->has ? "(words" : "(none");
        for (int i = 0; event->has && i < 8; i++) printf(" %llu", (unsigned long long)event->words[i]);
        printf(")");
    } else if (event->found && sci_read_tag(event->found, &found) == SCI_OK) {
        printf("(");
        if (whose != me) printf("%d ", whose);
        if (is_missed) printf("%016llx)", (unsigned long long)event->found);
        else printf("%s)", sci_tag_name(&found));
    }
}

/* Makes an exchange: one compare-exchange on one word, and then the bytes. */
static turned make(uint16_t me, sci_event event, uint16_t whose) {
    sci_row row;
    must(sci_exchange(me, NODES, &steps[me], &lines[me], &event, &row), "sci_exchange");
    uint64_t *word = row.word == SCI_MEMORY ? &memory : &tags[row.word];
    const int is_missed = *word != row.before;
    log_event(me, &event, whose, is_missed);
    if (is_missed) {
        if (is_log) printf(" Missed %016llx\n", (unsigned long long)*word);
        return MOVED;
    }
    *word = row.after;
    sci_line *slot = row.slot == SCI_MEMORY ? &memory_line : &lines[row.slot], after;
    must(sci_line_after(me, NODES, &steps[me], &lines[me], &event, slot, &after), "sci_line_after");
    lines[me] = after;
    if (row.carry == SCI_GIVES) *slot = after;
    steps[me] = row.step;
    if (is_log) printf(" Done\n");
    return MOVED;
}

static turned bare(uint16_t me, uint8_t which) { return make(me, (sci_event){.event = which}, me); }

static turned linked(uint16_t me, uint8_t which, uint16_t link) { return make(me, (sci_event){.event = which, .link = link}, me); }

static turned on_tag(uint16_t me, uint8_t which, uint16_t whose) {
    const sci_event event = {.event = which, .found = tags[whose]};
    const uint8_t answer = sci_allows(me, NODES, &steps[me], &lines[me], &event);
    if (answer == SCI_NOT_IN_TURN) return WAITS;
    must(answer, "sci_allows");
    return make(me, event, whose);
}

static void look(uint16_t me) {
    const sci_event event = {.event = SCI_LOOK};
    log_event(me, &event, me, 0);
    must(sci_look(&steps[me], tags[me]), "sci_look");
    if (is_log) printf(" Done\n");
}

static turned from_idle(uint16_t me, int stores) {
    const sci_tag own = tag_of(me);
    if (own.held || own.kind == SCI_PURGED) return WAITS;
    if (own.kind == SCI_INVALID) return linked(me, SCI_QUEUE, mem().forw);
    if (!stores) return on_tag(me, SCI_HOLD, me);
    if (own.kind == SCI_DIRTY) return on_tag(me, SCI_BEGIN_PURGE, me);
    if (own.kind == SCI_VALID) return on_tag(me, SCI_EVENT_ROLL, me);
    return mem().forw == me ? on_tag(me, SCI_EVENT_CONVERT, me) : WAITS;
}

static turned from_queueing(uint16_t me, int stores) {
    const sci_mem found = mem();
    if (found.lent) return WAITS;
    if (found.forw != steps[me].kept) return linked(me, SCI_REQUEUE, found.forw);
    if (found.state == SCI_MEM_GONE) return bare(me, SCI_PREPEND_GONE);
    return bare(me, stores && found.state == SCI_MEM_HOME ? SCI_HOME_WRITE : SCI_PREPEND_VALID);
}

static turned from_purging(uint16_t me, uint64_t value) {
    look(me);
    const uint16_t next = steps[me].forw;
    if (next != SCI_NONE) return tag_of(next).kind == SCI_ROLL ? on_tag(me, SCI_ADOPT, next) : on_tag(me, SCI_PURGE_ONE, next);
    sci_event event = {.event = SCI_WRITTEN, .has = lines[me].stamp != UINT64_MAX};
    if (event.has) {
        memcpy(event.words, lines[me].words, sizeof event.words);
        event.words[0] = value;
    }
    make(me, event, me);
    return ENDED;
}

static turned from_rolling(uint16_t me) {
    look(me);
    if (!steps[me].flag && steps[me].forw != SCI_NONE) return on_tag(me, SCI_TELL_SUCCESSOR, steps[me].forw);
    return on_tag(me, SCI_TELL_PREDECESSOR, steps[me].back);
}

static turned settle(uint16_t me, int stores) {
    bare(me, SCI_SETTLE);
    return stores ? MOVED : ENDED;
}

/* One turn of a call that loads word 0, or stores a value there. */
static turned turn(uint16_t me, int stores, uint64_t value) {
    const sci_step step = steps[me];
    switch (step.step) {
    case SCI_IDLE: return from_idle(me, stores);
    case SCI_HOLDING: bare(me, SCI_UNHOLD); return ENDED;
    case SCI_QUEUEING: return from_queueing(me, stores);
    case SCI_FETCHING: return bare(me, SCI_RETURN_MEMORY);
    case SCI_IN_QUEUE:
        return step.kept == SCI_NONE ? settle(me, stores) : on_tag(me, step.flag ? SCI_ATTACH_DIRTY : SCI_ATTACH_FRESH, step.kept);
    case SCI_READY: return settle(me, stores);
    case SCI_COPYING: return bare(me, SCI_RETURN_COPY);
    case SCI_CONVERTING:
        return bare(me, step.flag ? SCI_CONVERTED : mem().forw == me ? SCI_FRESH_TO_GONE : SCI_UNCONVERTED);
    case SCI_STEP_PURGING: return from_purging(me, value);
    case SCI_ADVANCING: return bare(me, SCI_ADVANCE);
    case SCI_CLEARING: return bare(me, SCI_CLEAR);
    case SCI_ROLLING: return from_rolling(me);
    case SCI_UNLINKED: return bare(me, SCI_ROLLED);
    default: return WAITS; /* the steps of a head that leaves */
    }
}

/* Takes turns to the call's end, at most so many, and prints its answer. Returns how many it took. */
static int turns(uint16_t me, int stores, uint64_t value, int most) {
    for (int count = 1; count <= most; count++) {
        if (turn(me, stores, value) != ENDED) continue;
        if (is_log) return count;
        if (stores) printf("node %d wrote stamp %llu\n", me, (unsigned long long)lines[me].stamp);
        else printf("node %d read %llu stamp %llu\n", me, (unsigned long long)lines[me].words[0], (unsigned long long)lines[me].stamp);
        return count;
    }
    return most;
}

static void list(void) {
    const sci_mem found = mem();
    if (is_log) return;
    printf("line 0 %s", sci_mem_name(&found));
    if (found.forw != SCI_NONE) printf(" %d:", found.forw);
    for (uint16_t node = found.forw; node != SCI_NONE;) {
        const sci_tag tag = tag_of(node);
        printf("%s %d %s", node == found.forw ? "" : ",", node, sci_tag_name(&tag));
        node = tag.forw;
    }
    puts("");
}

int main(int count, char **words) {
    if (count < 2 || count > 3 || (count == 3 && strcmp(words[2], "log"))) return 2;
    is_log = count == 3;
    open_line();
    for (uint16_t node = 0; node < NODES; node++) turns(node, 0, 0, MOST_TURNS);
    if (!strcmp(words[1], "three_sharers")) {
        list();
    } else if (!strcmp(words[1], "purge_by_steps")) {
        for (int at = 0; at < 10; at++) {
            turns(2, 1, 5, 1);
            list();
        }
    } else if (!strcmp(words[1], "rollout_before_write")) {
        const int taken = turns(0, 1, 5, MOST_TURNS);
        list();
        turns(1, 0, 0, MOST_TURNS);
        if (taken != 18) return 1;
    } else {
        return 2;
    }
    return 0;
}

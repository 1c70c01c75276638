/* sci.h: the table of exchanges of a cache line's sharing list, for simulators in C. docs/C.md says what each call means.
 *
 * The simulator keeps the line's words, steps and bytes. No call allocates or keeps anything, and none changes what it points to
 * where it answers another number than 0. What is written to may not be what another argument points to. */
#ifndef SCI_H
#define SCI_H

#include <stdint.h>

#define SCI_NONE 65535   /* no link */
#define SCI_MEMORY 65535 /* in a row: memory's word, memory's slot */

enum { /* the answers of calls */
    SCI_OK = 0,
    SCI_UNKNOWN_KIND = 1,   /* no kind or state has this number */
    SCI_SPARE_BITS = 2,     /* a bit is set that the layout fixes as 0; of parts, one is too great for its field */
    SCI_LINK_MISSING = 3,   /* the kind or state needs a link */
    SCI_LINK_UNWANTED = 4,  /* the kind or state has no such link */
    SCI_HELD_NOT_VALID = 5, /* held, at a kind other than Fresh, Dirty and Valid */
    SCI_BAD_NODES = 6,      /* a line has 1 to 1,024 nodes */
    SCI_NOT_IN_TURN = 8,    /* the step doesn't allow the event */
    SCI_NO_NODE = 27,       /* the acting node isn't below the number of nodes */
    SCI_NO_STEP = 28,       /* these are the numbers of no step */
    SCI_NO_EVENT = 29,      /* these are the numbers of no event */
    SCI_NO_ROW = 30         /* the row would have a word that is none, or the word or slot of a node that isn't of the line */
};

enum { /* kinds of tags */
    SCI_INVALID, SCI_QUEUED, SCI_FRESH, SCI_DIRTY, SCI_CONVERT, SCI_PURGING, SCI_LEAVING, SCI_VALID, SCI_ROLL, SCI_PURGED
};

enum { SCI_MEM_HOME, SCI_MEM_FRESH, SCI_MEM_GONE }; /* states of memory */

enum { /* pending steps */
    SCI_IDLE, SCI_HOLDING, SCI_QUEUEING, SCI_FETCHING, SCI_IN_QUEUE, SCI_COPYING, SCI_READY, SCI_CONVERTING, SCI_STEP_PURGING,
    SCI_ADVANCING, SCI_CLEARING, SCI_STEP_LEAVING, SCI_PROMOTED, SCI_WRITING_BACK, SCI_PARTED, SCI_ROLLING, SCI_UNLINKED
};

enum { /* events */
    SCI_LOOK, SCI_QUEUE, SCI_REQUEUE, SCI_PREPEND_VALID, SCI_RETURN_MEMORY, SCI_ATTACH_FRESH, SCI_SETTLE, SCI_HOLD, SCI_UNHOLD,
    SCI_EVENT_CONVERT, SCI_FRESH_TO_GONE, SCI_CONVERTED, SCI_UNCONVERTED, SCI_BEGIN_PURGE, SCI_WRITTEN, SCI_PREPEND_GONE,
    SCI_ATTACH_DIRTY, SCI_RETURN_COPY, SCI_PURGE_ONE, SCI_ADVANCE, SCI_CLEAR, SCI_EVENT_ROLL, SCI_TELL_SUCCESSOR,
    SCI_TELL_PREDECESSOR, SCI_ADOPT, SCI_ROLLED, SCI_LEAVE, SCI_PROMOTE, SCI_PASS_ON, SCI_STAY, SCI_RE_ENTER,
    SCI_RETURN_HOME_FRESH, SCI_RETURN_HOME_DIRTY, SCI_LEFT, SCI_HOME_WRITE
};

enum { SCI_STAYS, SCI_TAKES, SCI_GIVES }; /* what a row does with a slot */

typedef struct { uint8_t kind, held; uint16_t forw, back; } sci_tag;
typedef struct { uint8_t state, lent; uint16_t forw; } sci_mem;
typedef struct { uint64_t words[8], stamp; } sci_line;

typedef struct {         /* a pending step, but for its line. What a step doesn't have is 0, so {0} is Idle */
    uint8_t step, flag;  /* which; 1: dirty, turned or told */
    uint8_t has;         /* 1: has a copy (InQueue); has seen its own links (Purging, Leaving, Rolling) */
    uint16_t kept;       /* the forward link, victim or successor that it keeps */
    uint16_t forw, back; /* the links that it has seen; back also of Unlinked */
    uint64_t word;       /* the code of the tag that it keeps */
} sci_step;

typedef struct {       /* an event. What an event doesn't have is 0 */
    uint8_t event;     /* which */
    uint8_t has;       /* Written: 1 with words, 0 where the stamp is spent */
    uint16_t link;     /* Queue, Requeue: the head that was found, or SCI_NONE */
    uint64_t found;    /* the code of the tag that was found, of the events that carry one */
    uint64_t words[8]; /* Written: the words */
} sci_event;

typedef struct {            /* a row of the table, but for lines */
    uint16_t word;          /* whose tag is changed, or SCI_MEMORY: memory's word */
    uint8_t carry, answers; /* SCI_STAYS, SCI_TAKES, SCI_GIVES; 1: the line taken or given is answered */
    uint16_t slot;          /* whose slot moves, or SCI_MEMORY; 0 where none moves */
    uint64_t before, after; /* the code to be found, and the one put in its place */
    sci_step step;          /* the actor's step after */
} sci_row;

#ifdef __cplusplus
extern "C" {
#endif

uint8_t sci_read_tag(uint64_t word, sci_tag *tag);
uint8_t sci_write_tag(const sci_tag *tag, uint64_t *word);
uint8_t sci_read_mem(uint64_t word, sci_mem *mem);
uint8_t sci_write_mem(const sci_mem *mem, uint64_t *word);
uint8_t sci_read_tag_layout1(uint64_t word, sci_tag *tag);
uint8_t sci_write_tag_layout1(const sci_tag *tag, uint64_t *word);
uint8_t sci_read_mem_layout1(uint64_t word, sci_mem *mem);
uint8_t sci_write_mem_layout1(const sci_mem *mem, uint64_t *word);
uint8_t sci_check_step(const sci_step *step);
uint8_t sci_check_event(const sci_event *event);
uint8_t sci_allows(uint16_t me, uint16_t nodes, const sci_step *step, const sci_line *own, const sci_event *event);
uint8_t sci_exchange(uint16_t me, uint16_t nodes, const sci_step *step, const sci_line *own, const sci_event *event, sci_row *row);
uint8_t sci_line_after(uint16_t me, uint16_t nodes, const sci_step *step, const sci_line *own, const sci_event *event,
                       const sci_line *slot, sci_line *after);
uint8_t sci_look(sci_step *step, uint64_t own);

#ifdef __cplusplus
}
#endif

/* The names that listings show. */
static inline const char *sci_tag_name(const sci_tag *tag) {
    static const char *const names[] = {"INVALID", "QUEUED", "ONLY_FRESH", "ONLY_DIRTY", "CONVERT", "PURGING", "LEAVING", "TAIL_VALID", "ROLL", "PURGED"};
    if (tag->forw != SCI_NONE) {
        if (tag->kind == SCI_FRESH) return "HEAD_FRESH";
        if (tag->kind == SCI_DIRTY) return "HEAD_DIRTY";
        if (tag->kind == SCI_VALID) return "MID_VALID";
    }
    return tag->kind < 10 ? names[tag->kind] : "";
}

static inline const char *sci_mem_name(const sci_mem *mem) {
    static const char *const names[] = {"HOME", "FRESH", "GONE"};
    return mem->state < 3 ? names[mem->state] : "";
}

static inline const char *sci_step_name(uint8_t step) {
    static const char *const names[] = {
        "Idle", "Holding", "Queueing", "Fetching", "InQueue", "Copying", "Ready", "Converting", "Purging", "Advancing", "Clearing",
        "Leaving", "Promoted", "WritingBack", "Parted", "Rolling", "Unlinked"};
    return step < 17 ? names[step] : "";
}

static inline const char *sci_event_name(uint8_t event) {
    static const char *const names[] = {
        "Look", "Queue", "Requeue", "PrependValid", "ReturnMemory", "AttachFresh", "Settle", "Hold", "Unhold", "Convert",
        "FreshToGone", "Converted", "Unconverted", "BeginPurge", "Written", "PrependGone", "AttachDirty", "ReturnCopy", "PurgeOne",
        "Advance", "Clear", "Roll", "TellSuccessor", "TellPredecessor", "Adopt", "Rolled", "Leave", "Promote", "PassOn", "Stay",
        "ReEnter", "ReturnHomeFresh", "ReturnHomeDirty", "Left", "HomeWrite"};
    return event < 35 ? names[event] : "";
}

#endif

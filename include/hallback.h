/* Recovery of a recorded parallel run: reading, writing back, restart line, messages, replay. Link
   target/staticlib/libcapi.a (tools/build capi). For C99 or later, and C++.

   Every function may be called with any numbers and any slices. It returns the number of the refusal, or 0 if the call
   was accepted (README.md has a table of the numbers), and writes the rest of its answer as numbers into `answer`, one
   after another from its first place on: as many as `answer_len` has room for; numbers past them stay. In a refused
   answer every other number is 0.

   A table area holds a trace that was read, a run area what a call leaves of a replay or a list; both have at least
   16,384 words (HALLBACK_WORDS). Words past 16,384 are never touched. A slice is passed as its pointer and its length;
   a pointer must not be null, not even where the length is 0. No two slices of a call may overlap, except two that are
   only read.

   What areas and answers hold can be read by name, without counting words: a table area by hallback_event, a list of
   messages by hallback_row, a delivery record by hallback_next_delivery, the answer of hallback_restart by
   hallback_restart_process and hallback_restart_line, and every answer by the positions of its numbers
   (HALLBACK_FAILURE_STEP and so on). docs/LAYOUT.md has every word. examples/again.c is a whole program.

   A line is given by its numbers, one for each process: an epoch that is finished at the cut, the moment of the
   failure, or 32 (HALLBACK_STAYS) for a process that stays as it was at the cut, which a failed one may not. A save
   (`ev=save`) begins an epoch; both are unfinished, the save still being written, until a done (`ev=done`) of that
   process. Each done finishes the oldest unfinished save, so that the finished epochs are those from 1 to the latest
   finished one. Epoch 1, the start, is always finished. A line with any other number, that of an unfinished epoch too,
   is refused with 10. A trace from before there were dones still reads, but no save in it is finished: each process
   that goes back goes back to its start. A program from before that takes every kind of event but HALLBACK_SEND and
   HALLBACK_RECV for a save takes a done for one too, and nothing refuses it: ask for HALLBACK_SAVE.

   Values, the `val` of a send, have 64 bits, and an area has each as two words, its low and its high half:
   hallback_value, hallback_set_value and hallback_taken_value take and give them whole. A program from before that
   looks at the low word alone has the value modulo 2^32, and nothing refuses it; one that sets the low word alone
   leaves the high half that was there.

   Threads: the library keeps nothing from one call to the next and has no memory of its own. Calls may run at the same
   time in any number of threads, as long as no slice that one of them writes is a slice of another; several may read
   one table area.

   Stack: a call keeps its tables on the stack, no more for a large trace than for a small one. With the thread stacks
   named below (HALLBACK_STACK_READ and so on, bytes, for pthread_attr_setstacksize) each call comes through; the gate
   runs them so (tools/c/stack.c). They are at least 8 KB more than the least that was measured; 256 KB are enough for
   all, and the program hallback takes at most some 480 KB beside its environment. Without enough stack the system ends
   the program by a signal at the guard page, before anything else is written. */
#ifndef HALLBACK_H
#define HALLBACK_H

#include <stddef.h>
#include <stdint.h>

#ifdef __cplusplus
extern "C" {
#endif

enum {
    HALLBACK_WORDS = 16384,         /* of a table area, of a run area */
    HALLBACK_MAX_PROCS = 64,        /* the most processes of a trace: a line has no more numbers */
    HALLBACK_MAX_EVENTS = 2048,     /* the most events of a trace */
    HALLBACK_PROCS_WORD = 0,        /* word 0 of a table area is how many processes there are, ... */
    HALLBACK_EVENTS_WORD = 1,       /* ... word 1 how many events, ... */
    HALLBACK_EVENT_BASE = 16,       /* word 16 + e of a table area is event e, from 1, ... */
    HALLBACK_VALUE_BASE = 2065,     /* ... word 2065 + e the low half of its value, ... */
    HALLBACK_HIGH_BASE = 4114,      /* ... and word 4114 + e the high half (docs/LAYOUT.md) */
    HALLBACK_TAKEN_BASE = 2049,     /* word e of a delivery record is the number of the message that event e received,
                                       0 for none, word 2049 + e the low half of its value, ... */
    HALLBACK_TAKEN_HIGH_BASE = 4098, /* ... and word 4098 + e the high half */
    HALLBACK_ORPHANS_WORD = 0,      /* word 0 of a list of messages is how many orphans there are, ... */
    HALLBACK_KEPT_WORD = 1,         /* ... word 1 how many kept, ... */
    HALLBACK_LOST_WORD = 2,         /* ... word 2 how many lost messages, ... */
    HALLBACK_ROW_BASE = 16,         /* ... word 16 + i the sender, receiver and class of row i, from 1, ... */
    HALLBACK_ROW_NUMBER_BASE = 2065, /* ... word 2065 + i its number, ... */
    HALLBACK_ROW_PHASE_BASE = 4114, /* ... and word 4114 + i its phase */
    HALLBACK_SEND = 1,              /* the kind of an event, bits 12 and 13 of its word: a send, ... */
    HALLBACK_RECV = 2,              /* ... a receive, ... */
    HALLBACK_SAVE = 3,              /* ... a save, ... */
    HALLBACK_DONE = 0,              /* ... a done (a word past the last event is 0 too: word 1 counts the events) */
    HALLBACK_ORPHAN = 1,            /* the class of a message, bits 12 and 13 of its row's word: an orphan, ... */
    HALLBACK_KEPT = 2,              /* ... kept, ... */
    HALLBACK_LOST = 3,              /* ... or lost */
    HALLBACK_STAYS = 32,            /* in a line: the process stays */
    HALLBACK_RESTART_NUMBERS = 196, /* of the answer of hallback_restart */
    HALLBACK_REPORT_BYTES = 262144, /* a buffer of so many bytes holds every report */
    HALLBACK_TEXT_BYTES = 131072,   /* a buffer of so many bytes holds every text that hallback_write writes */
    HALLBACK_STACK_READ = 24576,    /* a thread's stack for hallback_read and hallback_read_failure, ... */
    HALLBACK_STACK_WRITE = 155648,  /* ... for hallback_write, ... */
    HALLBACK_STACK_RESTART = 102400, /* ... hallback_restart, ... */
    HALLBACK_STACK_MESSAGES = 106496,
    HALLBACK_STACK_REPLAY = 122880, /* ... hallback_replay and hallback_lowest, ... */
    HALLBACK_STACK_REPORT = 172032  /* ... and hallback_report */
};

/* Where the numbers of an answer stand in it, and how many an answer has. */
enum {
    HALLBACK_PLACE = 0,             /* of every answer: the place of a refusal (README.md), 0 where there is none */
    HALLBACK_READ_NUMBERS = 1,      /* of hallback_read: the place alone */
    HALLBACK_FAILURE_STEP = 1,      /* of hallback_read_failure: K of the failure line, ... */
    HALLBACK_FAILURE_SET = 2,       /* ... and M */
    HALLBACK_FAILURE_NUMBERS = 3,
    HALLBACK_WRITE_LENGTH = 1,      /* of hallback_write: the length of the text in bytes */
    HALLBACK_WRITE_NUMBERS = 2,
    HALLBACK_RESTART_PROCS = 1,     /* of hallback_restart: how many processes there are, ... */
    HALLBACK_RESTART_BACK = 2,      /* ... how many of them go back, ... */
    HALLBACK_RESTART_GOING = 3,     /* ... the set of those, ... */
    HALLBACK_RESTART_LINE = 4,      /* ... 4 + z: process z in the line, ... */
    HALLBACK_RESTART_EPOCHS = 68,   /* ... 68 + z: its epoch at the cut, ... */
    HALLBACK_RESTART_PHASES = 132,  /* ... and 132 + z: its phase */
    HALLBACK_MESSAGES_ORPHANS = 1,  /* of hallback_messages: how many orphans, ... */
    HALLBACK_MESSAGES_KEPT = 2,     /* ... kept, ... */
    HALLBACK_MESSAGES_LOST = 3,     /* ... and lost messages */
    HALLBACK_MESSAGES_NUMBERS = 4,
    HALLBACK_REPLAY_STEPS = 1,      /* of hallback_replay and hallback_lowest: how many steps, ... */
    HALLBACK_REPLAY_COMPLETE = 2,   /* ... and 1 if the order is complete, else 0 */
    HALLBACK_REPLAY_NUMBERS = 3
};

/* What a call returns. README.md says what to do about each. */
enum {
    HALLBACK_ACCEPTED = 0,
    HALLBACK_REFUSED_FORM = 1,
    HALLBACK_REFUSED_PROCS = 2,
    HALLBACK_REFUSED_PROCESS = 3,
    HALLBACK_REFUSED_ITSELF = 4,
    HALLBACK_REFUSED_RECV = 5,
    HALLBACK_REFUSED_SAVE = 6,
    HALLBACK_REFUSED_EVENTS = 7,
    HALLBACK_REFUSED_STEP = 8,
    HALLBACK_REFUSED_SET = 9,
    HALLBACK_REFUSED_LINE = 10,
    HALLBACK_REFUSED_CHOICE = 11,
    HALLBACK_REFUSED_AREA = 12,
    HALLBACK_REFUSED_TABLE = 13,
    HALLBACK_REFUSED_BUFFER = 14,
    HALLBACK_REFUSED_DONE = 15
};

/* What a number that a call returned says, as words to print. */
static inline const char *hallback_refusal(uint32_t number) {
    switch (number) {
    case HALLBACK_ACCEPTED: return "accepted";
    case HALLBACK_REFUSED_FORM: return "the line is not one due there, lacks its LF or is missing, or a number is too "
                                       "large for its key";
    case HALLBACK_REFUSED_PROCS: return "the count of processes is not 2 to 64";
    case HALLBACK_REFUSED_PROCESS: return "a process is not below the count of processes";
    case HALLBACK_REFUSED_ITSELF: return "a process sends to itself or receives from itself";
    case HALLBACK_REFUSED_RECV: return "a receive with nothing in transit on its channel";
    case HALLBACK_REFUSED_SAVE: return "a 31st save of a process";
    case HALLBACK_REFUSED_EVENTS: return "a 2,049th event";
    case HALLBACK_REFUSED_STEP: return "the step of the failure is beyond the last event";
    case HALLBACK_REFUSED_SET: return "the set of failed processes is empty or names one that there is not";
    case HALLBACK_REFUSED_LINE: return "the recovery line does not have one number for each process, or has one that "
                                       "is not permitted";
    case HALLBACK_REFUSED_CHOICE: return "a choice is not allowed where it comes in the order";
    case HALLBACK_REFUSED_AREA: return "a table area or a run area has fewer than 16,384 words";
    case HALLBACK_REFUSED_TABLE: return "the table area is not what reading some trace leaves";
    case HALLBACK_REFUSED_BUFFER: return "the byte buffer is shorter than the text";
    case HALLBACK_REFUSED_DONE: return "a done of a process that has no unfinished save";
    default: return "no number of a refusal";
    }
}

/* The number whose low and high half these are. */
static inline uint64_t hallback_from_halves(uint32_t low, uint32_t high) {
    return (uint64_t)high << 32 | low;
}

/* The value of an event of a table area: what a send sends, 0 for a receive, a save, a done, or past the last event.
   Here and below `event` is 1 to 2,048, a `row` too, and a `process` below 64, and nothing is checked: another one
   stands for other words of the area, or for words past it. */
static inline uint64_t hallback_value(const uint32_t *table, size_t event) {
    return hallback_from_halves(table[HALLBACK_VALUE_BASE + event], table[HALLBACK_HIGH_BASE + event]);
}

/* Gives an event of a table area another value. Only a send has one: with anything but 0 at another event, or past the
   last, every call that takes the area refuses it with 13. */
static inline void hallback_set_value(uint32_t *table, size_t event, uint64_t value) {
    table[HALLBACK_VALUE_BASE + event] = (uint32_t)value;
    table[HALLBACK_HIGH_BASE + event] = (uint32_t)(value >> 32);
}

/* The value of the message that an event received, in the delivery record that hallback_replay or hallback_lowest left
   in a run area; 0 where it received none. A value may be 0 too: whether there was a message, its number run[event]
   says, which is 0 only for none. */
static inline uint64_t hallback_taken_value(const uint32_t *run, size_t event) {
    return hallback_from_halves(run[HALLBACK_TAKEN_BASE + event], run[HALLBACK_TAKEN_HIGH_BASE + event]);
}

/* ---- A trace, from a table area that a call accepted ---- */

/* How many processes there are: they are 0 to one less. Never more than 64, whatever the area holds. */
static inline size_t hallback_procs(const uint32_t *table) {
    uint32_t procs = table[HALLBACK_PROCS_WORD];
    return procs < HALLBACK_MAX_PROCS ? procs : (uint32_t)HALLBACK_MAX_PROCS;
}

/* How many events there are: they are 1 to this number. Never more than 2,048, whatever the area holds, so that a walk
   over them stays in it. */
static inline size_t hallback_events(const uint32_t *table) {
    uint32_t events = table[HALLBACK_EVENTS_WORD];
    return events < HALLBACK_MAX_EVENTS ? events : (uint32_t)HALLBACK_MAX_EVENTS;
}

/* An event of a trace. */
typedef struct {
    uint32_t kind;    /* HALLBACK_SEND, HALLBACK_RECV, HALLBACK_SAVE or HALLBACK_DONE */
    uint32_t process; /* where it happens (`at`) */
    uint32_t peer;    /* `to` of a send, `from` of a receive, 0 for a save or a done */
    uint64_t value;   /* `val` of a send, 0 for any other */
} hallback_event_t;

/* Event `event` of a table area. One past the last reads as a done of process 0: hallback_events says which is the
   last. */
static inline hallback_event_t hallback_event(const uint32_t *table, size_t event) {
    uint32_t word = table[HALLBACK_EVENT_BASE + event];
    hallback_event_t found;
    found.kind = (word >> 12) & 3;
    found.process = word & 63;
    found.peer = (word >> 6) & 63;
    found.value = hallback_value(table, event);
    return found;
}

/* The event that sent a message, which is named by its channel and its number there; 0 if none did. With it a kept
   message of a list has its value: hallback_value(table, hallback_sent(table, sender, receiver, number)). */
static inline size_t hallback_sent(const uint32_t *table, uint32_t sender, uint32_t receiver, uint32_t number) {
    uint32_t sends = 0;
    for (size_t e = 1; e <= hallback_events(table); e++) {
        hallback_event_t event = hallback_event(table, e);
        if (event.kind == HALLBACK_SEND && event.process == sender && event.peer == receiver && ++sends == number)
            return e;
    }
    return 0;
}

/* ---- The answer of hallback_restart, of HALLBACK_RESTART_NUMBERS numbers ---- */

/* What becomes of a process. */
typedef struct {
    uint32_t restart; /* the epoch that it goes back to, or HALLBACK_STAYS: its number in the line */
    uint32_t epoch;   /* its epoch at the cut, finished or not */
    uint32_t phase;   /* its phase at its restart, or at the cut if it stays */
} hallback_process_t;

/* What becomes of process `process`, which is 0 to restart[HALLBACK_RESTART_PROCS] - 1; all 0 for another below 64. */
static inline hallback_process_t hallback_restart_process(const uint64_t *restart, size_t process) {
    hallback_process_t found;
    found.restart = (uint32_t)restart[HALLBACK_RESTART_LINE + process];
    found.epoch = (uint32_t)restart[HALLBACK_RESTART_EPOCHS + process];
    found.phase = (uint32_t)restart[HALLBACK_RESTART_PHASES + process];
    return found;
}

/* Puts the line of the answer into `line`, as the calls below take it, and returns its length, the `line_len` of these
   calls. `line` has room for HALLBACK_MAX_PROCS words, or for as many as there are processes. */
static inline size_t hallback_restart_line(const uint64_t *restart, uint32_t *line) {
    size_t procs = 0;
    while (procs < restart[HALLBACK_RESTART_PROCS] && procs < HALLBACK_MAX_PROCS) {
        line[procs] = (uint32_t)restart[HALLBACK_RESTART_LINE + procs];
        procs++;
    }
    return procs;
}

/* ---- The list that hallback_messages left in a run area ---- */

/* How many rows the list has: they are 1 to this number. Never more than 2,048, whatever the area holds. */
static inline size_t hallback_rows(const uint32_t *run) {
    uint64_t rows = (uint64_t)run[HALLBACK_ORPHANS_WORD] + run[HALLBACK_KEPT_WORD] + run[HALLBACK_LOST_WORD];
    return rows < HALLBACK_MAX_EVENTS ? (size_t)rows : (size_t)HALLBACK_MAX_EVENTS;
}

/* A row: a message, and what becomes of it. */
typedef struct {
    uint32_t sender;
    uint32_t receiver;
    uint32_t message_class; /* HALLBACK_ORPHAN, HALLBACK_KEPT or HALLBACK_LOST (`class` is no name in C++) */
    uint32_t number;        /* on the channel from its sender to its receiver, from 1 */
    uint32_t phase;         /* that of its sender at the send */
} hallback_row_t;

/* Row `row` of the list, which is 1 to hallback_rows; all 0 for a later one up to 2,048. Orphans come first, then kept
   messages, then lost ones, each by sender, receiver and number. */
static inline hallback_row_t hallback_row(const uint32_t *run, size_t row) {
    uint32_t word = run[HALLBACK_ROW_BASE + row];
    hallback_row_t found;
    found.sender = word & 63;
    found.receiver = (word >> 6) & 63;
    found.message_class = (word >> 12) & 3;
    found.number = run[HALLBACK_ROW_NUMBER_BASE + row];
    found.phase = run[HALLBACK_ROW_PHASE_BASE + row];
    return found;
}

/* ---- The delivery record that hallback_replay or hallback_lowest left in a run area ---- */

/* A message that was received. */
typedef struct {
    size_t event;    /* the receive that took it; 0: there is none, and number and value are 0 too */
    uint32_t number; /* of the message on its channel, from 1 */
    uint64_t value;
} hallback_delivery_t;

/* The next message that `receiver` received from `sender`, by a receive after event `after` (0: the first of all). The
   table area is the one that was replayed; of a record it says which receives are whose:

       for (hallback_delivery_t d = hallback_next_delivery(table, run, 0, 1, 0); d.event != 0;
            d = hallback_next_delivery(table, run, 0, 1, d.event))
           printf("message %u: %llu\n", (unsigned)d.number, (unsigned long long)d.value);

   Receives that took nothing, since the order ended before them or their message was lost, are left out. */
static inline hallback_delivery_t hallback_next_delivery(const uint32_t *table, const uint32_t *run, uint32_t sender,
                                                         uint32_t receiver, size_t after) {
    hallback_delivery_t found = {0, 0, 0};
    for (size_t e = after + 1; e <= hallback_events(table); e++) {
        hallback_event_t event = hallback_event(table, e);
        if (event.kind == HALLBACK_RECV && event.process == receiver && event.peer == sender && run[e] != 0) {
            found.event = e;
            found.number = run[e];
            found.value = hallback_taken_value(run, e);
            return found;
        }
    }
    return found;
}

/* ---- The order that hallback_replay takes ---- */

/* The choice that hands over the oldest kept message from `sender` to `receiver`, both below 64. (The choice that is
   the next event of a process is the number of that process.) */
static inline uint16_t hallback_hand_over(uint32_t sender, uint32_t receiver) {
    return (uint16_t)(64 + 64 * (sender & 63) + (receiver & 63));
}

/* ---- The calls ---- */

/* Reads a trace text without a failure line into the table area. Answer: place. Refusals: first 12, which has place 0
   and changes nothing; then 1 to 7 and 15 (a done of a process that has no unfinished save), which have the line of the
   text as their place, and after which the first 16,384 words of the table area are zero. */
uint32_t hallback_read(const uint8_t *text, size_t text_len, uint32_t *table, size_t table_len, uint64_t *answer,
                       size_t answer_len);

/* Reads a trace text whose last line is a failure line `fail=K set=M`. Answer: place, K, M. Refusals as above; whether
   the failure fits the trace (8, 9) is for the calls below to say. */
uint32_t hallback_read_failure(const uint8_t *text, size_t text_len, uint32_t *table, size_t table_len,
                               uint64_t *answer, size_t answer_len);

/* Writes the text of the trace that a table area holds into `out`, without a failure line. Answer: place, length in
   bytes. Bytes of `out` past the text stay. Refusals: 12, 13, and 14 if `out` is shorter than the text; none changes
   `out`, and place and length are 0 then. A buffer of exactly the text's length is enough; there is no asking for the
   length, but HALLBACK_TEXT_BYTES are always enough. Reading the text restores the area's 16,384 words, and of an area
   that hallback_read or hallback_read_failure left, what comes is what was read, byte for byte, up to its failure line.
   An area may be edited in between (docs/LAYOUT.md), here the value of event 1 if it is a send:

       static uint32_t table[HALLBACK_WORDS];
       static uint8_t out[HALLBACK_TEXT_BYTES];
       uint64_t answer[HALLBACK_WRITE_NUMBERS];
       if (hallback_read(text, text_len, table, HALLBACK_WORDS, answer, HALLBACK_READ_NUMBERS) != 0) return 1;
       if (hallback_events(table) >= 1 && hallback_event(table, 1).kind == HALLBACK_SEND)
           hallback_set_value(table, 1, 18446744073709551615u);
       if (hallback_write(table, HALLBACK_WORDS, out, sizeof out, answer, HALLBACK_WRITE_NUMBERS) != 0) return 1;
       fwrite(out, 1, answer[HALLBACK_WRITE_LENGTH], stdout);
*/
uint32_t hallback_write(const uint32_t *table, size_t table_len, uint8_t *out, size_t out_len, uint64_t *answer,
                        size_t answer_len);

/* The greatest restart line that loses no message: of all lines that may be given, in no other such one does any
   process keep more of its work. For a failure right after event `step` (the cut) of the processes in `set` (bit z is
   process z). Answer: place, count of processes, how many go back, the set of those; then 64 numbers each: the line,
   the epochs at the cut, finished or not, the phases at the restart or, for a process that stays, at the cut; 0 past
   the last process (hallback_restart_process and hallback_restart_line read it). Refusals: 12, 13, 8, 9. Changes only
   `answer`. */
uint32_t hallback_restart(const uint32_t *table, size_t table_len, uint64_t step, uint64_t set, uint64_t *answer,
                          size_t answer_len);

/* The messages of a line, listed in the run area (hallback_row reads the list): orphans (received before their
   receiver's restart, sent after their sender's), kept (sent before their sender's restart, and handed over in a
   replay), lost (sent before it too and to be received again, but not logged). A received message is logged if its
   sender's epoch at the send is less than its receiver's at the receipt. For a process that stays, the cut takes the
   place of its restart; only events up to the cut count. No message is counted as lost exactly if the line loses none.
   Answer: place, how many of each. Refusals: 12, 13, 8, 9, 10; none changes the run area. */
uint32_t hallback_messages(const uint32_t *table, size_t table_len, uint64_t step, uint64_t set, const uint32_t *line,
                           size_t line_len, uint32_t *run, size_t run_len, uint64_t *answer, size_t answer_len);

/* Carries out an order of choices from a line: 0 to 63 is the next event of that process, 64 + 64 P + Q
   (hallback_hand_over) hands over the oldest kept message from P to Q. Leaves the delivery record in the run area
   (hallback_next_delivery reads it). Answer: place, steps, 1 if the order is complete (no choice is left). The record
   after a complete order is that of the run without failure exactly if the line loses no message; that record is what
   hallback_lowest leaves from the line of ones. Refusals: 12, 13, 8, 9, 10, and 11 with the place of the choice in the
   order, from 1; after 11 the first 16,384 words of the run area are zero, the others change nothing.

   A choice is allowed when it need not wait. A process waits until every orphan of phase r or less has been sent again,
   r being its phase at the cut if it stays, else its phase at the restart less 1; its send also until all kept messages
   of that channel are handed over, its receive until a message is in the channel, of which it takes the oldest. A kept
   message waits until every orphan of its own phase or less has been sent again. A message that its receiver had before
   its restart is dropped when it is sent again.

   Steps are the choices carried out. From a line that loses no message (that of hallback_restart, or any of which
   hallback_messages counts none lost) every complete order has exactly the same number: one for each event (send,
   receive, save or done) of each process after its restart, that is after the save that began its epoch (not after its
   done, which is one of these events), or from its start for epoch 1, or after the cut if it stays, to the end of the
   trace; and one for each kept message, as many as hallback_messages counts, also those that nobody receives. From a
   line that loses a message an order has at most that number, and at most twice as many steps as the trace has events.
   That a complete order has that number does not show that its line loses nothing. */
uint32_t hallback_replay(const uint32_t *table, size_t table_len, uint64_t step, uint64_t set, const uint32_t *line,
                         size_t line_len, const uint16_t *order, size_t order_len, uint32_t *run, size_t run_len,
                         uint64_t *answer, size_t answer_len);

/* The same for the order that always takes the lowest allowed choice. It is never refused with 11 and always complete,
   so that its steps are those of every complete order, if the line loses no message. */
uint32_t hallback_lowest(const uint32_t *table, size_t table_len, uint64_t step, uint64_t set, const uint32_t *line,
                         size_t line_len, uint32_t *run, size_t run_len, uint64_t *answer, size_t answer_len);

/* The report on a text with its failure line, a refusal too: what the program hallback prints for it. A text may have
   any length here; that the program takes at most 65,536 bytes is its own limit. Returns how many bytes were written:
   all of the report, or as many as there is room for. Bytes past them stay. Its `steps=` are those of every complete
   order from the line that it prints, which loses no message. */
size_t hallback_report(const uint8_t *text, size_t text_len, uint8_t *out, size_t out_len);

#ifdef __cplusplus
}
#endif

#endif

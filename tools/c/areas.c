/* The accessors of the header, on a run whose results are known: H (MANUAL 10.1) with more messages, so that there are
   orphans, kept and lost ones, several messages on a channel and values of more than 32 bits; and on a short one of 64
   processes. C99, and C++ as well: tools/outside compiles it as both. Prints each check that failed, and ends with 1
   then. */
#include <stdio.h>
#include <string.h>

#include "hallback.h"

static const char text[] =
    "procs=3\n"
    "ev=send at=0 to=1 val=5\n"
    "ev=recv at=1 from=0\n"
    "ev=save at=1\n"
    "ev=done at=1\n"
    "ev=send at=1 to=2 val=7\n"
    "ev=recv at=2 from=1\n"
    "ev=send at=2 to=1 val=8\n"
    "ev=recv at=1 from=2\n"
    "ev=save at=0\n"
    "ev=done at=0\n"
    "ev=send at=0 to=1 val=18446744073709551615\n"
    "ev=recv at=1 from=0\n"
    "ev=send at=1 to=2 val=0\n"
    "ev=recv at=2 from=1\n"
    "ev=send at=2 to=0 val=4294967296\n"
    "fail=15 set=2\n";

/* What the text says of its events: kind, process, peer, value. */
static const hallback_event_t events[] = {
    {HALLBACK_SEND, 0, 1, 5},          {HALLBACK_RECV, 1, 0, 0}, {HALLBACK_SAVE, 1, 0, 0}, {HALLBACK_DONE, 1, 0, 0},
    {HALLBACK_SEND, 1, 2, 7},          {HALLBACK_RECV, 2, 1, 0}, {HALLBACK_SEND, 2, 1, 8}, {HALLBACK_RECV, 1, 2, 0},
    {HALLBACK_SAVE, 0, 0, 0},          {HALLBACK_DONE, 0, 0, 0}, {HALLBACK_SEND, 0, 1, 18446744073709551615u},
    {HALLBACK_RECV, 1, 0, 0},          {HALLBACK_SEND, 1, 2, 0}, {HALLBACK_RECV, 2, 1, 0},
    {HALLBACK_SEND, 2, 0, 4294967296u},
};

enum { EVENTS = sizeof events / sizeof events[0], PROCS = 3 };

static uint32_t table[HALLBACK_WORDS], run[HALLBACK_WORDS], line[HALLBACK_MAX_PROCS];
static uint64_t failure[HALLBACK_FAILURE_NUMBERS], restart[HALLBACK_RESTART_NUMBERS];
static uint64_t counts[HALLBACK_MESSAGES_NUMBERS], replayed[HALLBACK_REPLAY_NUMBERS];
static int failed = 0;

#define CHECK(what) check((what), #what, __LINE__)

static void check(int holds, const char *what, int where) {
    if (holds) return;
    printf("tools/c/areas.c:%d: %s\n", where, what);
    failed = 1;
}

static int same_row(hallback_row_t a, hallback_row_t b) {
    return a.sender == b.sender && a.receiver == b.receiver && a.message_class == b.message_class &&
           a.number == b.number && a.phase == b.phase;
}

static int becomes(size_t process, uint32_t to, uint32_t epoch, uint32_t phase) {
    hallback_process_t found = hallback_restart_process(restart, process);
    return found.restart == to && found.epoch == epoch && found.phase == phase;
}

static void check_events(void) {
    CHECK(hallback_procs(table) == PROCS);
    CHECK(hallback_events(table) == EVENTS);
    for (size_t e = 1; e <= EVENTS; e++) {
        hallback_event_t event = hallback_event(table, e), said = events[e - 1];
        CHECK(event.kind == said.kind && event.process == said.process && event.peer == said.peer);
        CHECK(event.value == said.value && event.value == hallback_value(table, e));
    }
    CHECK(hallback_sent(table, 0, 1, 1) == 1 && hallback_sent(table, 0, 1, 2) == 11);
    CHECK(hallback_sent(table, 1, 2, 2) == 13 && hallback_sent(table, 2, 0, 1) == 15);
    CHECK(hallback_sent(table, 0, 1, 3) == 0 && hallback_sent(table, 0, 1, 0) == 0);
    CHECK(hallback_sent(table, 0, 2, 1) == 0);
    /* An area that holds no trace has no more processes than a line has numbers, and no more events than words. */
    uint32_t procs = table[HALLBACK_PROCS_WORD], count = table[HALLBACK_EVENTS_WORD];
    table[HALLBACK_PROCS_WORD] = table[HALLBACK_EVENTS_WORD] = 4294967295u;
    CHECK(hallback_procs(table) == HALLBACK_MAX_PROCS);
    CHECK(hallback_events(table) == HALLBACK_MAX_EVENTS);
    CHECK(HALLBACK_EVENT_BASE + HALLBACK_MAX_EVENTS + 1 == HALLBACK_VALUE_BASE);
    CHECK(hallback_sent(table, 0, 1, 3) == 0);
    table[HALLBACK_PROCS_WORD] = procs;
    table[HALLBACK_EVENTS_WORD] = count;
}

/* The rows that a line has: these, with their classes counted, and after them none. */
static void check_rows(const hallback_row_t *said, size_t rows) {
    uint64_t of_class[4] = {0, 0, 0, 0};
    for (size_t i = 0; i < rows; i++) of_class[said[i].message_class]++;
    CHECK(hallback_rows(run) == rows);
    CHECK(counts[HALLBACK_MESSAGES_ORPHANS] == of_class[HALLBACK_ORPHAN]);
    CHECK(counts[HALLBACK_MESSAGES_KEPT] == of_class[HALLBACK_KEPT]);
    CHECK(counts[HALLBACK_MESSAGES_LOST] == of_class[HALLBACK_LOST]);
    CHECK(run[HALLBACK_ORPHANS_WORD] == of_class[HALLBACK_ORPHAN]);
    CHECK(run[HALLBACK_KEPT_WORD] == of_class[HALLBACK_KEPT]);
    CHECK(run[HALLBACK_LOST_WORD] == of_class[HALLBACK_LOST]);
    for (size_t i = 1; i <= rows; i++) CHECK(same_row(hallback_row(run, i), said[i - 1]));
    const hallback_row_t none = {0, 0, 0, 0, 0};
    CHECK(same_row(hallback_row(run, rows + 1), none) && same_row(hallback_row(run, HALLBACK_MAX_EVENTS), none));
}

static uint32_t list_messages(size_t procs) {
    return hallback_messages(table, HALLBACK_WORDS, failure[HALLBACK_FAILURE_STEP], failure[HALLBACK_FAILURE_SET],
                             line, procs, run, HALLBACK_WORDS, counts, HALLBACK_MESSAGES_NUMBERS);
}

/* Whether a channel has these numbers and values, and no others, in the delivery record. */
static int delivered(uint32_t sender, uint32_t receiver, size_t length, const hallback_delivery_t *said) {
    size_t i = 0;
    for (hallback_delivery_t d = hallback_next_delivery(table, run, sender, receiver, 0); d.event != 0;
         d = hallback_next_delivery(table, run, sender, receiver, d.event)) {
        if (i == length || d.event != said[i].event || d.number != said[i].number || d.value != said[i].value) return 0;
        i++;
    }
    return i == length;
}

static void check_record(void) {
    const hallback_delivery_t first[] = {{2, 1, 5}, {12, 2, 18446744073709551615u}};
    const hallback_delivery_t second[] = {{6, 1, 7}, {14, 2, 0}};
    const hallback_delivery_t third[] = {{8, 1, 8}};
    CHECK(delivered(0, 1, 2, first) && delivered(1, 2, 2, second) && delivered(2, 1, 1, third));
    CHECK(delivered(2, 0, 0, first) && delivered(1, 0, 0, first) && delivered(0, 2, 0, first));
}

/* How many numbers a call writes into an answer that has room for more. */
enum { ROOM = 300 };
static uint64_t wide[ROOM];

static uint64_t *unwritten(void) {
    for (size_t i = 0; i < ROOM; i++) wide[i] = 18446744073709551615u;
    return wide;
}

static size_t written(void) {
    size_t numbers = ROOM;
    while (numbers > 0 && wide[numbers - 1] == 18446744073709551615u) numbers--;
    return numbers;
}

static void check_lengths(uint64_t step, uint64_t set, const uint32_t *start) {
    static uint8_t out[HALLBACK_TEXT_BYTES];
    CHECK(hallback_write(table, HALLBACK_WORDS, out, sizeof out, unwritten(), ROOM) == HALLBACK_ACCEPTED);
    CHECK(written() == HALLBACK_WRITE_NUMBERS);
    CHECK(wide[HALLBACK_WRITE_LENGTH] == (size_t)(strstr(text, "fail=") - text));
    hallback_restart(table, HALLBACK_WORDS, step, set, unwritten(), ROOM);
    CHECK(written() == HALLBACK_RESTART_NUMBERS);
    hallback_messages(table, HALLBACK_WORDS, step, set, start, PROCS, run, HALLBACK_WORDS, unwritten(), ROOM);
    CHECK(written() == HALLBACK_MESSAGES_NUMBERS);
    hallback_lowest(table, HALLBACK_WORDS, step, set, start, PROCS, run, HALLBACK_WORDS, unwritten(), ROOM);
    CHECK(written() == HALLBACK_REPLAY_NUMBERS);
    hallback_read_failure((const uint8_t *)text, strlen(text), run, HALLBACK_WORDS, unwritten(), ROOM);
    CHECK(written() == HALLBACK_FAILURE_NUMBERS);
    hallback_read((const uint8_t *)text, strlen(text), run, HALLBACK_WORDS, unwritten(), ROOM);
    CHECK(written() == HALLBACK_READ_NUMBERS);
    CHECK(hallback_read((const uint8_t *)text, 0, run, HALLBACK_WORDS - 1, wide, ROOM) == HALLBACK_REFUSED_AREA);
}

/* The highest processes, and receives that stand side by side, the last at the end of the trace. */
static void check_many(void) {
    static const char many[] =
        "procs=64\n"
        "ev=send at=63 to=62 val=1\n"
        "ev=send at=63 to=62 val=2\n"
        "ev=recv at=62 from=63\n"
        "ev=recv at=62 from=63\n"
        "fail=2 set=4611686018427387904\n";
    CHECK(hallback_read_failure((const uint8_t *)many, strlen(many), table, HALLBACK_WORDS, failure,
                                HALLBACK_FAILURE_NUMBERS) == HALLBACK_ACCEPTED);
    const uint64_t step = failure[HALLBACK_FAILURE_STEP], set = failure[HALLBACK_FAILURE_SET];
    hallback_event_t event = hallback_event(table, 3);
    CHECK(event.process == 62 && event.peer == 63);
    CHECK(hallback_restart(table, HALLBACK_WORDS, step, set, restart, HALLBACK_RESTART_NUMBERS) == HALLBACK_ACCEPTED);
    CHECK(hallback_restart_line(restart, line) == HALLBACK_MAX_PROCS);
    CHECK(becomes(62, 1, 1, 1) && becomes(63, HALLBACK_STAYS, 1, 1) && line[62] == 1 && line[63] == HALLBACK_STAYS);
    const hallback_row_t kept[] = {{63, 62, HALLBACK_KEPT, 1, 1}, {63, 62, HALLBACK_KEPT, 2, 1}};
    CHECK(list_messages(HALLBACK_MAX_PROCS) == HALLBACK_ACCEPTED);
    check_rows(kept, 2);
    const uint16_t order[] = {hallback_hand_over(63, 62), hallback_hand_over(63, 62), 62, 62};
    CHECK(hallback_replay(table, HALLBACK_WORDS, step, set, line, HALLBACK_MAX_PROCS, order, 4, run, HALLBACK_WORDS,
                          replayed, HALLBACK_REPLAY_NUMBERS) == HALLBACK_ACCEPTED);
    CHECK(replayed[HALLBACK_REPLAY_COMPLETE] == 1);
    const hallback_delivery_t both[] = {{3, 1, 1}, {4, 2, 2}};
    CHECK(delivered(63, 62, 2, both));
    /* An answer that is none has no more processes than a line has numbers. */
    restart[HALLBACK_RESTART_PROCS] = 65;
    CHECK(hallback_restart_line(restart, line) == HALLBACK_MAX_PROCS);
}

int main(void) {
    const uint8_t *bytes = (const uint8_t *)text;
    CHECK(hallback_read_failure(bytes, strlen(text), table, HALLBACK_WORDS, failure, HALLBACK_FAILURE_NUMBERS) ==
          HALLBACK_ACCEPTED);
    CHECK(failure[HALLBACK_FAILURE_STEP] == 15 && failure[HALLBACK_FAILURE_SET] == 2);
    const uint64_t step = failure[HALLBACK_FAILURE_STEP], set = failure[HALLBACK_FAILURE_SET];
    check_events();
    const uint32_t start[PROCS] = {1, 1, 1};
    check_lengths(step, set, start);

    /* The engine's line: process 1 goes back to epoch 2, and 0 too, whose second message would be lost. The message of
       process 2 to 1 was sent in epoch 1 and received in epoch 2: it is logged, and process 2 stays. */
    CHECK(hallback_restart(table, HALLBACK_WORDS, step, set, restart, HALLBACK_RESTART_NUMBERS) == HALLBACK_ACCEPTED);
    CHECK(restart[HALLBACK_RESTART_PROCS] == PROCS && restart[HALLBACK_RESTART_BACK] == 2);
    CHECK(restart[HALLBACK_RESTART_GOING] == 3);
    CHECK(becomes(0, 2, 2, 2) && becomes(1, 2, 2, 2) && becomes(2, HALLBACK_STAYS, 1, 3) && becomes(3, 0, 0, 0));
    size_t procs = hallback_restart_line(restart, line);
    CHECK(procs == PROCS && line[0] == 2 && line[1] == 2 && line[2] == HALLBACK_STAYS && line[3] == 0);

    const hallback_row_t best[] = {
        {1, 2, HALLBACK_ORPHAN, 1, 2},
        {1, 2, HALLBACK_ORPHAN, 2, 3},
        {2, 0, HALLBACK_KEPT, 1, 3},
        {2, 1, HALLBACK_KEPT, 1, 2},
    };
    CHECK(list_messages(procs) == HALLBACK_ACCEPTED);
    check_rows(best, 4);

    /* A replay, of 7 events and the two kept messages: whole, and by an order that ends before event 12, a receive. */
    CHECK(hallback_lowest(table, HALLBACK_WORDS, step, set, line, procs, run, HALLBACK_WORDS, replayed,
                          HALLBACK_REPLAY_NUMBERS) == HALLBACK_ACCEPTED);
    CHECK(replayed[HALLBACK_REPLAY_STEPS] == 9 && replayed[HALLBACK_REPLAY_COMPLETE] == 1);
    check_record();
    const uint16_t order[] = {1, 1, hallback_hand_over(2, 1), 1};
    CHECK(hallback_hand_over(2, 1) == 193);
    CHECK(hallback_replay(table, HALLBACK_WORDS, step, set, line, procs, order, 4, run, HALLBACK_WORDS, replayed,
                          HALLBACK_REPLAY_NUMBERS) == HALLBACK_ACCEPTED);
    CHECK(replayed[HALLBACK_REPLAY_STEPS] == 4 && replayed[HALLBACK_REPLAY_COMPLETE] == 0);
    const hallback_delivery_t before[] = {{2, 1, 5}};
    CHECK(delivered(0, 1, 1, before));

    /* With process 0 staying, its second message is lost. */
    line[0] = HALLBACK_STAYS;
    const hallback_row_t worse[] = {
        {1, 2, HALLBACK_ORPHAN, 1, 2},
        {1, 2, HALLBACK_ORPHAN, 2, 3},
        {2, 0, HALLBACK_KEPT, 1, 3},
        {2, 1, HALLBACK_KEPT, 1, 2},
        {0, 1, HALLBACK_LOST, 2, 2},
    };
    CHECK(list_messages(procs) == HALLBACK_ACCEPTED);
    check_rows(worse, 5);
    run[HALLBACK_LOST_WORD] = 4294967295u;
    CHECK(hallback_rows(run) == HALLBACK_MAX_EVENTS);

    /* Refusals by name: a failed process may not stay. */
    line[1] = HALLBACK_STAYS;
    CHECK(list_messages(procs) == HALLBACK_REFUSED_LINE);
    CHECK(hallback_read(bytes, strlen(text), table, HALLBACK_WORDS, counts, HALLBACK_READ_NUMBERS) ==
          HALLBACK_REFUSED_FORM);
    CHECK(counts[HALLBACK_PLACE] == EVENTS + 2);
    CHECK(hallback_read(bytes, 0, table, 0, counts, HALLBACK_READ_NUMBERS) == HALLBACK_REFUSED_AREA);
    CHECK(counts[HALLBACK_PLACE] == 0);
    for (uint32_t a = 0; a <= 16; a++)
        for (uint32_t b = 0; b < a; b++) CHECK(strcmp(hallback_refusal(a), hallback_refusal(b)) != 0);
    CHECK(strcmp(hallback_refusal(16), hallback_refusal(4294967295u)) == 0);
    check_many();
    return failed;
}

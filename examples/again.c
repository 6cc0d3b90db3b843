/* The messages to send again after a failure: reads a trace with its failure line from standard input. A kept message
   is to be sent again from what its sender saved; an orphan its sender sends again by itself, and it is to be dropped.
   cc -Iinclude examples/again.c target/staticlib/libcapi.a -o again; ./again < examples/crossing.trace */
#include <stdio.h>

#include "hallback.h"

static uint8_t text[HALLBACK_TEXT_BYTES]; /* holds all that is ever accepted: what is longer is refused, cut off too */
static uint32_t table[HALLBACK_WORDS], run[HALLBACK_WORDS], line[HALLBACK_MAX_PROCS];
static uint64_t failure[HALLBACK_FAILURE_NUMBERS], restart[HALLBACK_RESTART_NUMBERS], counts[HALLBACK_MESSAGES_NUMBERS];

static int refused(uint32_t number, const uint64_t *answer) {
    fprintf(stderr, "again: at place %u: %s\n", (unsigned)answer[HALLBACK_PLACE], hallback_refusal(number));
    return 1;
}

int main(void) {
    size_t length = fread(text, 1, sizeof text, stdin);
    if (ferror(stdin)) return 2; /* not taken for a shorter input */
    uint32_t number = hallback_read_failure(text, length, table, HALLBACK_WORDS, failure, HALLBACK_FAILURE_NUMBERS);
    if (number != HALLBACK_ACCEPTED) return refused(number, failure);
    uint64_t step = failure[HALLBACK_FAILURE_STEP], set = failure[HALLBACK_FAILURE_SET];
    number = hallback_restart(table, HALLBACK_WORDS, step, set, restart, HALLBACK_RESTART_NUMBERS);
    if (number != HALLBACK_ACCEPTED) return refused(number, restart);
    size_t procs = hallback_restart_line(restart, line);
    number = hallback_messages(table, HALLBACK_WORDS, step, set, line, procs, run, HALLBACK_WORDS, counts,
                               HALLBACK_MESSAGES_NUMBERS);
    if (number != HALLBACK_ACCEPTED) return refused(number, counts);
    for (size_t i = 1; i <= hallback_rows(run); i++) {
        hallback_row_t row = hallback_row(run, i);
        size_t sent = hallback_sent(table, row.sender, row.receiver, row.number);
        printf("%s message %u from %u to %u, value %llu\n", row.message_class == HALLBACK_KEPT ? "send again" : "drop",
               (unsigned)row.number, (unsigned)row.sender, (unsigned)row.receiver,
               (unsigned long long)hallback_value(table, sent));
    }
    return 0;
}

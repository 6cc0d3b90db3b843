/* The library from C: reads the trace H (MANUAL 10.1), finds the restart line after its failure, carries out the
   lowest order from it, and compares the record with that of the line on which every process goes back to its start.
   It finds the line of a failure while a save is being written, too, and has one that names this save refused. Then it
   changes the value of the first send and writes the trace back, and finds that value in the record of another replay;
   and it writes back and reports the longest text that there is. Prints what it finds; 1 if that is not as expected. */
#include <stdio.h>
#include <string.h>

#include "hallback.h"

static const char text[] =
    "procs=3\n"
    "ev=send at=0 to=1 val=5\n"
    "ev=recv at=1 from=0\n"
    "ev=save at=1\n"
    "ev=done at=1\n"
    "ev=send at=1 to=2 val=7\n"
    "ev=recv at=2 from=1\n"
    "ev=save at=0\n"
    "ev=done at=0\n"
    "ev=send at=0 to=1 val=9\n"
    "ev=recv at=1 from=0\n"
    "ev=send at=1 to=2 val=4\n"
    "fail=11 set=2\n";

static uint32_t table[HALLBACK_WORDS], run[HALLBACK_WORDS], whole[HALLBACK_WORDS];
static uint32_t line[HALLBACK_MAX_PROCS];
static uint64_t failure[3], restart[HALLBACK_RESTART_NUMBERS], answer[3];
static uint8_t out[HALLBACK_TEXT_BYTES];

/* A number where 0 was expected. */
static int refused(const char *call, uint32_t number, uint64_t place) {
    printf("%s: refused with %u at %llu\n", call, (unsigned)number, (unsigned long long)place);
    return 1;
}

/* The kind of an event of the table. */
static uint32_t kind(size_t e) {
    return hallback_event(table, e).kind;
}

/* The line for a failure, left in `line` and printed; gives how many processes there are, 0 if it is refused. */
static size_t find_line(uint64_t step, uint64_t set) {
    uint32_t number = hallback_restart(table, HALLBACK_WORDS, step, set, restart, HALLBACK_RESTART_NUMBERS);
    if (number != 0) {
        refused("restart", number, restart[HALLBACK_PLACE]);
        return 0;
    }
    printf("after event %llu: line", (unsigned long long)step);
    size_t count = hallback_restart_line(restart, line);
    for (size_t z = 0; z < count; z++) printf(" %u", (unsigned)line[z]);
    printf(", %llu go back\n", (unsigned long long)restart[HALLBACK_RESTART_BACK]);
    return count;
}

/* The sum of the values that were received, by the words of a delivery record. */
static uint64_t sum_received(const uint32_t *record, size_t events) {
    uint64_t sum = 0;
    for (size_t e = 1; e <= events; e++)
        if (record[e] != 0) sum += hallback_taken_value(record, e);
    return sum;
}

/* The longest text that there is: 64 processes, and 2,048 sends with values of twenty digits. It is longer than what
   the program hallback takes, but not too long to be reported. */
static int longest_fits(void) {
    enum { LONGEST = 92169 };
    static char longest[LONGEST + 100];
    int n = sprintf(longest, "procs=64\n");
    for (int e = 0; e < 2048; e++) n += sprintf(longest + n, "ev=send at=63 to=62 val=18446744073709551615\n");
    if (n != LONGEST) return 0;
    if (hallback_read((const uint8_t *)longest, n, table, HALLBACK_WORDS, answer, 1) != 0 ||
        hallback_write(table, HALLBACK_WORDS, out, sizeof out, answer, 2) != 0 || answer[1] != (uint64_t)n)
        return 0;
    n += sprintf(longest + n, "fail=2048 set=1\n");
    static const char last[] = "out=total back=1 orphans=0 kept=2048 steps=2048\n";
    size_t length = hallback_report((const uint8_t *)longest, n, out, sizeof out);
    return length >= strlen(last) && memcmp(out + length - strlen(last), last, strlen(last)) == 0;
}

int main(void) {
    uint32_t number = hallback_read_failure((const uint8_t *)text, strlen(text), table, HALLBACK_WORDS, failure, 3);
    if (number != 0) return refused("read", number, failure[0]);
    uint64_t step = failure[HALLBACK_FAILURE_STEP], set = failure[HALLBACK_FAILURE_SET];

    /* Event 3 is a save of process 1, event 4 its done. In between a line may not name its epoch, 2. */
    size_t count = find_line(3, set);
    if (count != 3 || line[1] != 1) return 1;
    line[1] = 2;
    if (hallback_messages(table, HALLBACK_WORDS, 3, set, line, count, run, HALLBACK_WORDS, answer, 3) != 10) return 1;
    count = find_line(4, set);
    if (count != 3 || line[1] != 2) return 1;

    count = find_line(step, set);
    if (count != 3) return 1;
    number = hallback_lowest(table, HALLBACK_WORDS, step, set, line, count, run, HALLBACK_WORDS, answer, 3);
    if (number != 0) return refused("lowest", number, answer[0]);
    printf("%llu steps, %s\n", (unsigned long long)answer[HALLBACK_REPLAY_STEPS],
           answer[HALLBACK_REPLAY_COMPLETE] ? "complete" : "not complete");

    /* From the start of all processes nothing is lost, so that its record is that of the run without failure. */
    uint32_t start[3] = {1, 1, 1};
    number = hallback_lowest(table, HALLBACK_WORDS, step, 7, start, 3, whole, HALLBACK_WORDS, answer, 3);
    if (number != 0) return refused("lowest", number, answer[0]);
    int same = memcmp(run, whole, sizeof run) == 0;
    printf("the record %s that of the run without failure\n", same ? "equals" : "differs from");
    if (!same) return 1;

    /* Event 1 is a send; it gets another value. All else comes back as it was read. */
    if (kind(1) != HALLBACK_SEND || kind(2) != HALLBACK_RECV || kind(3) != HALLBACK_SAVE || kind(4) != HALLBACK_DONE)
        return 1;
    const uint64_t edited_value = 12345678901234567890u;
    if (hallback_value(table, 1) != 5) return 1;
    hallback_set_value(table, 1, edited_value);
    number = hallback_write(table, HALLBACK_WORDS, out, sizeof out, answer, 2);
    if (number != 0) return refused("write", number, answer[0]);
    static const char before[] = "val=5", after[] = "val=12345678901234567890";
    size_t head = strstr(text, before) - text, tail = head + strlen(before), traced = strstr(text, "fail=") - text;
    int back = answer[1] == traced + strlen(after) - strlen(before) && memcmp(out, text, head) == 0 &&
               memcmp(out + head, after, strlen(after)) == 0 &&
               memcmp(out + head + strlen(after), text + tail, traced - tail) == 0;
    printf("the text %s back, edited: %llu bytes\n", back ? "comes" : "does not come", (unsigned long long)answer[1]);
    if (!back) return 1;

    /* The record has all that was received: by events 2, 6 and 10, and not the last message, which nobody receives. */
    number = hallback_lowest(table, HALLBACK_WORDS, step, set, line, count, run, HALLBACK_WORDS, answer, 3);
    if (number != 0) return refused("lowest", number, answer[0]);
    uint64_t sum = sum_received(run, hallback_events(table));
    printf("the values received are %llu together\n", (unsigned long long)sum);
    return !(hallback_taken_value(run, 2) == edited_value && sum == edited_value + 7 + 9 && longest_fits());
}

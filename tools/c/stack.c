/* The stack that calls take: runs each function in a thread with the stack that the header names for it, on a trace
   that takes every way through it; none may be refused. A thread that runs out of stack ends the program by a signal.
   `stack least` prints, for each, the least number of KB (by steps of 4) with which it comes through. */
#include <limits.h>
#include <pthread.h>
#include <stdio.h>
#include <string.h>
#include <sys/wait.h>
#include <unistd.h>

#include "hallback.h"

static const char text[] =
    "procs=3\n"
    "ev=send at=0 to=1 val=5\n"
    "ev=recv at=1 from=0\n"
    "ev=save at=1\n"
    "ev=done at=1\n"
    "ev=send at=1 to=2 val=7\n"
    "ev=recv at=2 from=1\n"
    "ev=save at=0\n"
    "ev=send at=0 to=1 val=18446744073709551615\n"
    "ev=send at=0 to=2 val=9\n"
    "ev=recv at=1 from=0\n"
    "ev=send at=1 to=2 val=4\n"
    "fail=11 set=2\n";

static const uint8_t *const bytes = (const uint8_t *)text;
static const size_t length = sizeof text - 1;
static uint32_t table[HALLBACK_WORDS], scratch[HALLBACK_WORDS], run[HALLBACK_WORDS];
static const uint32_t line[3] = {1, 1, 1};
static const uint16_t order[2] = {0, 1};
static uint64_t answer[HALLBACK_RESTART_NUMBERS];
static uint8_t out[HALLBACK_REPORT_BYTES];

/* How many calls were refused. */
static uint32_t refused;

enum { STEP = 11, SET = 2, NUMBERS = HALLBACK_RESTART_NUMBERS };

static void *read_text(void *unused) {
    static const char last[] = "fail=";
    refused += hallback_read(bytes, (size_t)(strstr(text, last) - text), scratch, HALLBACK_WORDS, answer, NUMBERS) != 0;
    return unused;
}

static void *read_failure(void *unused) {
    refused += hallback_read_failure(bytes, length, scratch, HALLBACK_WORDS, answer, NUMBERS) != 0;
    return unused;
}

/* Into a buffer of just the text's length, which takes a buffer of the engine's own. */
static void *write_back(void *unused) {
    refused += hallback_write(table, HALLBACK_WORDS, out, sizeof out, answer, NUMBERS) != 0;
    refused += hallback_write(table, HALLBACK_WORDS, out, answer[1], answer, NUMBERS) != 0;
    return unused;
}

static void *restart(void *unused) {
    refused += hallback_restart(table, HALLBACK_WORDS, STEP, SET, answer, NUMBERS) != 0;
    return unused;
}

static void *messages(void *unused) {
    refused += hallback_messages(table, HALLBACK_WORDS, STEP, SET, line, 3, run, HALLBACK_WORDS, answer, NUMBERS) != 0;
    return unused;
}

static void *replay(void *unused) {
    refused +=
        hallback_replay(table, HALLBACK_WORDS, STEP, SET, line, 3, order, 2, run, HALLBACK_WORDS, answer, NUMBERS) != 0;
    return unused;
}

static void *lowest(void *unused) {
    refused += hallback_lowest(table, HALLBACK_WORDS, STEP, SET, line, 3, run, HALLBACK_WORDS, answer, NUMBERS) != 0;
    return unused;
}

static void *report(void *unused) {
    size_t written = hallback_report(bytes, length, out, sizeof out);
    refused += written < 4 || memcmp(out, "out=", 4) != 0;
    return unused;
}

static const struct {
    const char *name;
    void *(*call)(void *);
    size_t stack;
} calls[] = {
    {"read", read_text, HALLBACK_STACK_READ},        {"read_failure", read_failure, HALLBACK_STACK_READ},
    {"write", write_back, HALLBACK_STACK_WRITE},     {"restart", restart, HALLBACK_STACK_RESTART},
    {"messages", messages, HALLBACK_STACK_MESSAGES}, {"replay", replay, HALLBACK_STACK_REPLAY},
    {"lowest", lowest, HALLBACK_STACK_REPLAY},       {"report", report, HALLBACK_STACK_REPORT},
};

enum { CALLS = sizeof calls / sizeof calls[0] };

/* In a process of its own, since the signal ends it: whether a call comes through with so much stack. */
static int comes_through(int k, size_t stack) {
    pid_t child = fork();
    if (child == 0) {
        pthread_attr_t attr;
        pthread_t thread;
        pthread_attr_init(&attr);
        if (pthread_attr_setstacksize(&attr, stack) != 0) _exit(2);
        if (pthread_create(&thread, &attr, calls[k].call, NULL) != 0) _exit(2);
        pthread_join(thread, NULL);
        _exit(refused != 0);
    }
    int status = 0;
    waitpid(child, &status, 0);
    return WIFEXITED(status) && WEXITSTATUS(status) == 0;
}

static void print_least(int k) {
    size_t stack = PTHREAD_STACK_MIN;
    while (!comes_through(k, stack)) stack += 4096;
    printf("%s %zu KB\n", calls[k].name, stack / 1024);
}

int main(int argc, char **argv) {
    int failed = 0;
    refused += hallback_read_failure(bytes, length, table, HALLBACK_WORDS, answer, NUMBERS) != 0;
    for (int k = 0; k < CALLS; k++) {
        if (argc > 1 && strcmp(argv[1], "least") == 0) {
            print_least(k);
        } else if (!comes_through(k, calls[k].stack)) {
            printf("%s: out of stack with %zu KB, or refused\n", calls[k].name, calls[k].stack / 1024);
            failed = 1;
        }
    }
    return failed;
}

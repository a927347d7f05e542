/*
 * stack: how much stack the library takes, for docs/BUFFERS.md. Each call runs in a thread on a stack that was painted before; what
 * lies between the thread's own frame and the lowest byte that lost its paint was the call's. The deepest lawful table is a chain of
 * pointers, each to the next; then the smallest thread stack on which that chain is still accepted is looked for.
 */
#define _GNU_SOURCE
#include <pthread.h>
#include <stdio.h>
#include <string.h>
#include <sys/mman.h>
#include <sys/wait.h>
#include <unistd.h>

#include "reckonferry.h"

enum { ENTRIES = RECKONFERRY_MAX_ENTRIES, PAINT = 0xa5 };

static uint64_t words[3 + ENTRIES * 4];
static uint64_t rows[ENTRIES * RECKONFERRY_ROW_WORDS];
static uint64_t refs[ENTRIES];
static uint8_t names[1];
static uint64_t witness[ENTRIES];
static uint64_t layout[RECKONFERRY_LAYOUT_WORDS];
static uint64_t answer[RECKONFERRY_ANSWER_WORDS];
static size_t entries, len;

#define LEN(buffer) (sizeof(buffer) / sizeof((buffer)[0]))

/* Entry 0 points at entry 1, and so on; the last is an integer of 8 bits. */
static void chain(size_t n) {
    entries = n;
    len = 0;
    words[len++] = 1, words[len++] = 1, words[len++] = n;
    for (size_t i = 0; i + 1 < n; i++) words[len++] = 8, words[len++] = 2, words[len++] = i + 1, words[len++] = 0;
    words[len++] = 7, words[len++] = 1, words[len++] = 8;
}

static void read_table(void) {
    reckonferry_read_table(words, len, rows, LEN(rows), refs, LEN(refs), names, LEN(names), witness, LEN(witness), answer, LEN(answer));
}

static bool passed;

static void check_table(void) {
    passed = reckonferry_check_table(rows, LEN(rows), refs, LEN(refs), names, LEN(names), witness, LEN(witness), entries);
}

static void read_layout(void) {
    /* A spec of each letter. */
    static const uint8_t value[] = "E-e-S128-P1-G1-A1-p1:64:64:64:64-i64:64:64-v64:64:64-f64:64:64-a:8:64-Fi8-m:e-n8:16:32-ni:1:2";
    passed = reckonferry_read_layout(value, sizeof value - 1, answer, LEN(answer), layout, LEN(layout)) != 0;
}

static void (*call)(void);
static char *frame;

static void *start(void *none) {
    char here;
    frame = &here;
    call();
    return none;
}

static void run(void (*function)(void), void *stack, size_t bytes) {
    pthread_attr_t attr;
    pthread_t thread;
    call = function;
    pthread_attr_init(&attr);
    if (stack) pthread_attr_setstack(&attr, stack, bytes);
    else pthread_attr_setstacksize(&attr, bytes);
    if (pthread_create(&thread, &attr, start, NULL) != 0) _exit(2);
    pthread_join(thread, NULL);
}

static size_t used(void (*function)(void)) {
    size_t bytes = 8 << 20, free_bytes = 0;
    char *stack = mmap(NULL, bytes, PROT_READ | PROT_WRITE, MAP_PRIVATE | MAP_ANONYMOUS, -1, 0);
    memset(stack, PAINT, bytes);
    run(function, stack, bytes);
    while ((uint8_t)stack[free_bytes] == PAINT) free_bytes++;
    size_t taken = (size_t)(frame - (stack + free_bytes));
    munmap(stack, bytes);
    return taken;
}

/* Whether the chain is accepted on a thread stack of so many KiB: a child that runs out of stack dies of it. */
static bool enough(size_t kib) {
    pid_t child = fork();
    if (child == 0) {
        run(read_table, NULL, kib << 10);
        _exit(answer[0] == 0 && answer[1] == entries ? 0 : 1);
    }
    int status;
    return waitpid(child, &status, 0) == child && WIFEXITED(status) && WEXITSTATUS(status) == 0;
}

int main(void) {
    static const size_t sizes[] = {1, 2, 256, 1024, ENTRIES};
    for (size_t i = 0; i < LEN(sizes); i++) {
        chain(sizes[i]);
        size_t bytes = used(read_table);
        printf("reckonferry_read_table, a chain of %zu: %zu bytes of stack, %s\n", sizes[i], bytes, answer[0] == 0 ? "accepted" : "refused");
    }
    size_t bytes = used(check_table);
    printf("reckonferry_check_table, a chain of %zu: %zu bytes of stack, %s\n", entries, bytes, passed ? "yes" : "no");
    bytes = used(read_layout);
    printf("reckonferry_read_layout: %zu bytes of stack, %s\n", bytes, answer[0] == 0 ? "taken" : "refused");

    size_t low = 16, high = 8192;
    while (high - low > 1) {
        size_t middle = low + (high - low) / 2;
        if (enough(middle)) high = middle;
        else low = middle;
    }
    printf("smallest thread stack for a chain of %zu: %zu KiB\n", entries, high);
    return 0;
}

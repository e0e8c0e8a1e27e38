/*
 * Tries what include/dembyhai.h says beyond the numbers: the stack that a call
 * needs, NULL for a slice of length 0, bytes beyond the rows, and calls from
 * several threads at once.
 */
#define _DEFAULT_SOURCE
#include "dembyhai.h"

#include <pthread.h>
#include <stdio.h>
#include <string.h>
#include <sys/mman.h>

enum { THREADS = 4, ROUNDS = 2000, ITEMS = 64, GROUPS = 8, PAINT = 0xa5 };

struct call {
    uint8_t file[DEMBYHAI_MAX_FILE_BYTES];
    size_t length;
    uint32_t ice;
    uint8_t pressures[DEMBYHAI_MAX_SECTIONS * DEMBYHAI_PRESSURE_BYTES];
    uint8_t rows[DEMBYHAI_MAX_ROWS_BYTES];
    uint32_t answer;
    const uint8_t *from; /* where the stack stood before the call */
};

static int faults;

static void expect(int holds, const char *what)
{
    if (!holds) {
        fprintf(stderr, "limits: wrong: %s\n", what);
        faults++;
    }
}

/* Adds a field, high byte first. */
static void put(struct call *call, int bytes, uint32_t number)
{
    while (bytes-- > 0)
        call->file[call->length++] = (uint8_t)(number >> 8 * bytes);
}

static void put_section(struct call *call)
{
    put(call, 2, 15000);
    put(call, 2, 10000);
    put(call, 4, 0);
    put(call, 1, GROUPS);
    for (uint32_t group = 0; group < GROUPS; group++) {
        put(call, 1, group % 2);
        put(call, 2, 100 + 30 * group);
        put(call, 4, 20000);
    }
}

/* The largest file: 32 sections of 8 groups, 64 items. */
static void largest(struct call *call, uint32_t ice)
{
    memset(call, 0, sizeof *call);
    call->ice = ice;
    put(call, 1, 3);
    put(call, 1, DEMBYHAI_MAX_SECTIONS);
    for (int section = 0; section < DEMBYHAI_MAX_SECTIONS; section++)
        put_section(call);
    put(call, 1, ITEMS);
    for (uint32_t item = 0; item < ITEMS; item++) {
        put(call, 2, item);
        put(call, 1, item % DEMBYHAI_MAX_SECTIONS);
        put(call, 2, 3000);
        put(call, 2, 10000);
        for (int number = 0; number < 3; number++)
            put(call, 2, 1000);
    }
    for (int section = 0; section < DEMBYHAI_MAX_SECTIONS; section++) {
        call->pressures[2 * section] = (uint8_t)((1000 - 10 * section) >> 8);
        call->pressures[2 * section + 1] = (uint8_t)(1000 - 10 * section);
    }
    expect(call->length == DEMBYHAI_MAX_FILE_BYTES, "the largest file has the length that the header says");
}

static void *make(void *argument)
{
    struct call *call = argument;
    uint8_t here = 0;
    call->from = &here;
    call->answer = dembyhai_report(call->file, call->length, 0, call->ice, 1000,
                                   call->pressures, sizeof call->pressures, call->rows, sizeof call->rows);
    return NULL;
}

/* Makes the call in a thread with its own painted stack; the bytes that it used. */
static size_t stack_of(struct call *call)
{
    enum { STACK = 1 << 20 };
    uint8_t *stack = mmap(NULL, STACK, PROT_READ | PROT_WRITE, MAP_PRIVATE | MAP_ANONYMOUS, -1, 0);
    pthread_attr_t attributes;
    pthread_t thread;
    size_t unused = 0, used = 0;
    if (stack == MAP_FAILED)
        return SIZE_MAX;
    memset(stack, PAINT, STACK);
    pthread_attr_init(&attributes);
    if (pthread_attr_setstack(&attributes, stack, STACK) == 0 &&
        pthread_create(&thread, &attributes, make, call) == 0) {
        pthread_join(thread, NULL);
        while (stack[unused] == PAINT)
            unused++;
        used = (size_t)(call->from - &stack[unused]);
    }
    pthread_attr_destroy(&attributes);
    munmap(stack, STACK);
    return used;
}

static void try_stack(void)
{
    struct call call;
    size_t most = 0;
    for (uint32_t ice = 0; ice <= 5; ice++) {
        largest(&call, ice);
        size_t used = stack_of(&call);
        expect(call.answer == DEMBYHAI_ACCEPTED, "the largest tower is accepted");
        expect(used > 0 && used <= DEMBYHAI_STACK_BYTES, "the stack is as the header says");
        if (used > most)
            most = used;
    }
    printf("limits: stack of a call on the largest tower: %zu bytes of %d\n", most, DEMBYHAI_STACK_BYTES);
}

/* NULL with length 0 in the place of each slice. */
static void try_null(void)
{
    struct call call;
    uint8_t before[DEMBYHAI_MAX_ROWS_BYTES];
    largest(&call, 0);
    memset(call.rows, PAINT, sizeof call.rows);
    memcpy(before, call.rows, sizeof before);
    expect(dembyhai_report(NULL, 0, 0, 0, 1000, call.pressures, sizeof call.pressures, call.rows, sizeof call.rows) ==
               DEMBYHAI_FILE_ENDS, "no file is 2");
    expect(dembyhai_report(call.file, call.length, 0, 0, 1000, NULL, 0, call.rows, sizeof call.rows) ==
               DEMBYHAI_PRESSURE_COUNT, "no pressures are 18");
    expect(dembyhai_report(call.file, call.length, 0, 0, 1000, call.pressures, sizeof call.pressures, NULL, 0) ==
               DEMBYHAI_ROWS_SHORT, "no rows are 22");
    expect(memcmp(call.rows, before, sizeof before) == 0, "a refused call changes no byte of rows");
}

/* A tower of one section leaves the rows of the others. */
static void try_beyond(void)
{
    struct call call;
    int same = 1;
    memset(&call, 0, sizeof call);
    put(&call, 1, 4);
    put(&call, 1, 1);
    put_section(&call);
    put(&call, 1, 0);
    memset(call.rows, PAINT, sizeof call.rows);
    uint32_t answer = dembyhai_report(call.file, call.length, 1, 0, 1000,
                                      call.pressures, DEMBYHAI_PRESSURE_BYTES, call.rows, sizeof call.rows);
    expect(answer == DEMBYHAI_ACCEPTED, "one section is accepted");
    expect(call.rows[0] == 0, "the first row is filled");
    for (size_t byte = DEMBYHAI_ROW_BYTES; byte < sizeof call.rows; byte++)
        same = same && call.rows[byte] == PAINT;
    expect(same, "bytes beyond the rows stay");
}

/* Calls with the ice class of the thread, all with the same rows. */
static void *repeat(void *argument)
{
    struct call *call = argument, again = *call;
    make(call);
    for (int round = 0; round < ROUNDS && call->answer == DEMBYHAI_ACCEPTED; round++) {
        memset(again.rows, PAINT, sizeof again.rows);
        make(&again);
        if (again.answer != DEMBYHAI_ACCEPTED || memcmp(again.rows, call->rows, sizeof call->rows) != 0)
            call->answer = UINT32_MAX;
    }
    return NULL;
}

static void try_threads(void)
{
    static struct call calls[THREADS], alone;
    pthread_t threads[THREADS];
    int started = 0;
    for (; started < THREADS; started++) {
        largest(&calls[started], (uint32_t)started);
        if (pthread_create(&threads[started], NULL, repeat, &calls[started]) != 0)
            break;
    }
    expect(started == THREADS, "the threads start");
    for (int thread = 0; thread < started; thread++) {
        const struct call *call = &calls[thread];
        pthread_join(threads[thread], NULL);
        largest(&alone, (uint32_t)thread);
        make(&alone);
        expect(call->answer == DEMBYHAI_ACCEPTED && memcmp(call->rows, alone.rows, sizeof alone.rows) == 0,
               "a thread beside others gets the same rows as alone");
    }
}

int main(void)
{
    try_stack();
    try_null();
    try_beyond();
    try_threads();
    printf("limits: %s\n", faults == 0 ? "all hold" : "some do not hold");
    return faults != 0;
}
